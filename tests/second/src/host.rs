//! "The host": its record, its table and its step, rows N1 and H1-H4.

use crate::bundle::{check, Bundle, Fault};
use crate::packets::*;
use crate::refusal::Refusal;

/// The ends.
#[derive(Clone, Copy, Debug, PartialEq, Eq)]
pub enum End {
    Done,
    /// Content status not 0, with the status.
    H1(u8),
    /// Reply not 16 bytes, or token or sequence not ours.
    H2,
    /// A cell of the table that is no step.
    H3,
    /// A ninth BUSY for one offer in one pass.
    H4,
}

/// The stage: what the last packet sent was. Entries count from 0 here.
#[derive(Clone, Copy, Debug, PartialEq, Eq)]
pub enum Stage {
    Fresh,
    Opening,
    Listing,
    Offering { entry: u8, busy: u8 },
    Waiting { entry: u8, busy: u8 },
    /// A4: `passed` says that since this record went out a second reply to
    /// the one before it came and was passed over.
    Sending { entry: u8, record: u32, passed: bool },
    Closing,
    Ended(End),
}

/// The host's record.
#[derive(Clone, Copy, Debug, PartialEq, Eq)]
pub struct Host {
    pub token: u8,
    pub stage: Stage,
    /// Bit of each offer whose last content was answered with 0.
    pub mask: u32,
    pub packets: u32,
    pub passes: u32,
    /// This pass had a SKIP.
    pub skipped: bool,
    /// This pass had a completed image.
    pub landed: bool,
}

/// The report.
#[derive(Clone, Copy, Debug, PartialEq, Eq)]
pub struct Report {
    pub completed: u32,
    pub packets: u32,
    pub passes: u32,
    pub end: Option<End>,
}

/// A packet for one of the device's two entries.
#[derive(Clone, Copy, Debug, PartialEq, Eq)]
pub enum Packet {
    ForOffer([u8; SHORT]),
    ForContent([u8; LONG]),
}

/// What a step answers.
#[derive(Clone, Copy, Debug, PartialEq, Eq)]
pub struct Stepped {
    pub host: Host,
    /// A row of the bundle's check, or N1 with entry 0.
    pub refused: Option<Fault>,
    pub packet: Option<Packet>,
}

/// N1: most BUSY that a record may count.
const MOST_BUSY: u8 = 8;
/// N1: a record's packets stay below this.
const PACKETS_BORDER: u32 = 1 << 31;

// ---------------------------------------------------------------- table

/// The step codes of the table.
#[derive(Clone, Copy, Debug, PartialEq, Eq)]
enum Move {
    List,
    Offer,
    Send,
    NextAfterSkip,
    Next,
    Wait,
    Same,
    Decide,
    Wrong,
}

/// By stage (opening, listing, offering, waiting, closing) and reply class
/// (SKIP, ACCEPT, REJECT, BUSY, READY, other). Every other cell is H3.
const TABLE: [[Move; 6]; 5] = {
    use Move::*;
    [
        [Wrong, List, Wrong, Wrong, Wrong, Wrong],
        [Wrong, Offer, Wrong, Wrong, Wrong, Wrong],
        [NextAfterSkip, Send, Next, Wait, Wrong, Wrong],
        [Wrong, Wrong, Wrong, Wrong, Same, Wrong],
        [Wrong, Decide, Wrong, Wrong, Wrong, Wrong],
    ]
};

/// Reply class, in range for every status byte.
fn class(status: u8) -> usize {
    (status as usize).min(5)
}

/// The table's row, for the stages that have one.
fn row(stage: Stage) -> Option<usize> {
    match stage {
        Stage::Opening => Some(0),
        Stage::Listing => Some(1),
        Stage::Offering { .. } => Some(2),
        Stage::Waiting { .. } => Some(3),
        Stage::Closing => Some(4),
        Stage::Fresh | Stage::Sending { .. } | Stage::Ended(_) => None,
    }
}

// ----------------------------------------------------------------- step

impl Host {
    /// A fresh host.
    pub fn fresh(token: u8) -> Host {
        Host {
            token,
            stage: Stage::Fresh,
            mask: 0,
            packets: 0,
            passes: 0,
            skipped: false,
            landed: false,
        }
    }

    /// The report.
    pub fn report(&self) -> Report {
        Report {
            completed: self.mask.count_ones(),
            packets: self.packets,
            passes: self.passes,
            end: match self.stage {
                Stage::Ended(end) => Some(end),
                _ => None,
            },
        }
    }

    /// One step. It judges: bundle rows, N1, ended, fresh, H2 by length, A4's
    /// second reply, H2 by token or sequence, then H1 or the table.
    pub fn step(self, bundle: &[u8], reply: &[u8]) -> Stepped {
        match check(bundle) {
            Err(fault) => self.refuse(fault),
            Ok(read) => self.step_over(&read, reply),
        }
    }

    /// The step over a bundle that passed the check: N1 and what follows.
    pub fn step_over(self, bundle: &Bundle, reply: &[u8]) -> Stepped {
        if self.breaks_n1(bundle) {
            return self.refuse(Fault { row: Refusal::N1, entry: 0 });
        }
        match self.stage {
            // After an end, a further step sends nothing and keeps the end.
            Stage::Ended(_) => Stepped { host: self, refused: None, packet: None },
            // The first step awaits no reply: code 0.
            Stage::Fresh => self.send_information(START_TRANSACTION, Stage::Opening),
            _ if reply.len() != SHORT => self.ending(End::H2),
            Stage::Sending { entry, record, passed: false } if repeats(record, reply) => {
                self.pass_over(entry, record)
            }
            _ if self.not_ours(reply) => self.ending(End::H2),
            Stage::Sending { entry, record, .. } => {
                self.after_content(bundle, entry, record, reply)
            }
            _ => self.after_offer(bundle, reply),
        }
    }

    /// Number, no packet, record unchanged.
    fn refuse(self, fault: Fault) -> Stepped {
        Stepped { host: self, refused: Some(fault), packet: None }
    }

    /// N1, clause by clause.
    fn breaks_n1(&self, bundle: &Bundle) -> bool {
        let offers = bundle.entries.len();
        self.points_past(bundle)
            || self.counts_busy() > MOST_BUSY
            || self.passes as usize > offers
            || self.packets >= PACKETS_BORDER
            || self.mask >= 1 << offers
    }

    /// N1: points at an entry or body record that the bundle lacks.
    fn points_past(&self, bundle: &Bundle) -> bool {
        match self.stage {
            Stage::Offering { entry, .. } | Stage::Waiting { entry, .. } => {
                entry as usize >= bundle.entries.len()
            }
            Stage::Sending { entry, record, .. } => match bundle.entries.get(entry as usize) {
                None => true,
                Some(found) => record as usize >= found.records.len(),
            },
            _ => false,
        }
    }

    /// N1: the BUSY that the record counts.
    fn counts_busy(&self) -> u8 {
        match self.stage {
            Stage::Offering { busy, .. } | Stage::Waiting { busy, .. } => busy,
            _ => 0,
        }
    }

    /// H2, of a reply of 16 bytes: token or sequence not ours.
    fn not_ours(&self, reply: &[u8]) -> bool {
        match self.stage {
            Stage::Sending { record, .. } => {
                read_content_reply(reply).value.sequence != sequence_of(record)
            }
            _ => read_offer_reply(reply).value.token != self.token,
        }
    }

    /// A4: nothing is sent or counted, and the same reply is still awaited.
    fn pass_over(self, entry: u8, record: u32) -> Stepped {
        let stage = Stage::Sending { entry, record, passed: true };
        Stepped { host: Host { stage, ..self }, refused: None, packet: None }
    }

    /// A reply to content: H1, the next record, or the offer is completed.
    fn after_content(self, bundle: &Bundle, entry: u8, record: u32, reply: &[u8]) -> Stepped {
        let status = read_content_reply(reply).value.status;
        if status != 0 {
            return self.ending(End::H1(status));
        }
        let records = bundle.entries[entry as usize].records.len();
        if (record as usize) + 1 < records {
            return self.send_record(bundle, entry, record + 1);
        }
        // Status 0 to that offer's last content sets its bit.
        let mut host = self;
        host.mask |= 1 << entry;
        host.landed = true;
        host.send_next(bundle, entry)
    }

    /// A reply to an offer packet: by the table.
    fn after_offer(self, bundle: &Bundle, reply: &[u8]) -> Stepped {
        let status = read_offer_reply(reply).value.status;
        let step = match row(self.stage) {
            Some(row) => TABLE[row][class(status)],
            None => Move::Wrong, // kept out by the caller
        };
        let (entry, busy) = match self.stage {
            Stage::Offering { entry, busy } | Stage::Waiting { entry, busy } => (entry, busy),
            _ => (0, 0),
        };
        match step {
            Move::List => self.send_list(),
            Move::Offer => self.send_offer(bundle, 0, 0),
            Move::Send => self.send_record(bundle, entry, 0),
            Move::NextAfterSkip => Host { skipped: true, ..self }.send_next(bundle, entry),
            Move::Next => self.send_next(bundle, entry),
            Move::Wait => self.send_notify(entry, busy),
            Move::Same => self.send_offer(bundle, entry, busy),
            Move::Decide => self.decide(bundle),
            Move::Wrong => self.ending(End::H3),
        }
    }

    /// Another pass exactly when that pass had a SKIP and a completed image
    /// and fewer passes than offers have run; otherwise it is done.
    fn decide(self, bundle: &Bundle) -> Stepped {
        if self.skipped && self.landed && (self.passes as usize) < bundle.entries.len() {
            self.send_list()
        } else {
            self.ending(End::Done)
        }
    }

    // ------------------------------------------------------------- sending

    /// An end; nothing is sent.
    fn ending(self, end: End) -> Stepped {
        Stepped { host: Host { stage: Stage::Ended(end), ..self }, refused: None, packet: None }
    }

    /// A packet goes out and is counted.
    fn sending(self, packet: Packet, stage: Stage) -> Stepped {
        Stepped {
            host: Host { stage, packets: self.packets + 1, ..self },
            refused: None,
            packet: Some(packet),
        }
    }

    fn send_information(self, code: u8, stage: Stage) -> Stepped {
        let packet = build_information(&Code { code, token: self.token }).value;
        self.sending(Packet::ForOffer(packet), stage)
    }

    /// Code 1 begins a pass.
    fn send_list(self) -> Stepped {
        let host = Host { passes: self.passes + 1, skipped: false, landed: false, ..self };
        host.send_information(START_LIST, Stage::Listing)
    }

    /// The table's 16 bytes with our token in byte 3.
    fn send_offer(self, bundle: &Bundle, entry: u8, busy: u8) -> Stepped {
        let mut packet = bundle.entries[entry as usize].packet;
        packet[3] = self.token;
        self.sending(Packet::ForOffer(packet), Stage::Offering { entry, busy })
    }

    /// The next offer in table order, or code 2.
    fn send_next(self, bundle: &Bundle, entry: u8) -> Stepped {
        if (entry as usize) + 1 < bundle.entries.len() {
            self.send_offer(bundle, entry + 1, 0)
        } else {
            self.send_information(END_LIST, Stage::Closing)
        }
    }

    /// After BUSY: notify on ready; H4 at the ninth.
    fn send_notify(self, entry: u8, busy: u8) -> Stepped {
        if busy >= MOST_BUSY {
            return self.ending(End::H4);
        }
        let packet = build_extended(&Code { code: NOTIFY_ON_READY, token: self.token }).value;
        self.sending(Packet::ForOffer(packet), Stage::Waiting { entry, busy: busy + 1 })
    }

    /// A record as content, first and last flags as fit.
    fn send_record(self, bundle: &Bundle, entry: u8, record: u32) -> Stepped {
        let records = &bundle.entries[entry as usize].records;
        let found = records[record as usize];
        let first = if record == 0 { FIRST } else { 0 };
        let last = if record as usize + 1 == records.len() { LAST } else { 0 };
        let mut data = [0u8; DATA];
        data[..found.data.len()].copy_from_slice(found.data);
        let packet = build_content(&Content {
            flags: first | last,
            length: found.data.len() as u8,
            sequence: sequence_of(record),
            address: found.address,
            data,
        })
        .value;
        let stage = Stage::Sending { entry, record, passed: false };
        self.sending(Packet::ForContent(packet), stage)
    }
}

/// A4: the reply that let this record follow the one before it, as far as a
/// reply is read: that record's sequence, and status 0. The first record of a
/// body followed none.
fn repeats(record: u32, reply: &[u8]) -> bool {
    let read = read_content_reply(reply).value;
    record > 0 && read.sequence == sequence_of(record - 1) && read.status == 0
}

/// Sequence from 0: the record's number modulo 65,536.
fn sequence_of(record: u32) -> u16 {
    (record % 65_536) as u16
}
