//! A session of `cfu update`: the host's steps, the bus, and what is printed on the way.
use cfu_updater::c_host::{cfu_host_fresh, cfu_host_report};
use cfu_updater::c_host_step::cfu_host_step_checked;
use cfu_updater::c_read::{cfu_read_content, cfu_read_content_reply, cfu_read_offer, cfu_read_offer_reply};
use cfu_updater::c_types::numbers::{KIND_INFORMATION, KIND_OFFER, RUNNING, SERVED};
use cfu_updater::c_types::types::CReport;
use cfu_updater::host_bytes::{contents_bytes, HOST_SIZE};
use cfu_updater::wire::codes::{DATA_SIZE, FLAG_LAST_BLOCK, INFO_START_OFFER_LIST, LONG_SIZE, OFFER_REJECT, OFFER_SKIP, SHORT_SIZE, SUCCESS};
use cfu_updater::words::{name, sentence, Kind};

use crate::bundle::Bundle;
use crate::bus::Bus;
use crate::device::Refused;
use crate::output::Output;

/// What is printed in place of a reply that did not come.
const NO_REPLY: &str = "no reply";

/// What prints the lines of a session.
struct Teller<'a> {
    out: &'a mut Output,
    bundle: &'a Bundle,
    /// Each packet is printed.
    packets: bool,
    /// The place of the offer in hand, from 0.
    place: usize,
    /// The line that is written over is not ended yet.
    open: bool,
}

/// Updates the device behind a bus from a bundle, and gives the host's report.
pub fn update(bus: &mut Bus, bundle: &Bundle, token: u8, packets: bool, out: &mut Output) -> Result<CReport, Refused> {
    let mut teller = Teller { out, bundle, packets, place: 0, open: false };
    let done = steps(bus, bundle, token, &mut teller);
    teller.end_line();
    done
}

/// A step, the packet to the device, and the next reply to the next step, until the host has ended. A step that sends nothing while the host runs has passed
/// over the reply, one of two to a block that the bus delivered twice, and awaits the next.
fn steps(bus: &mut Bus, bundle: &Bundle, token: u8, teller: &mut Teller) -> Result<CReport, Refused> {
    let (mut host, mut packet, mut sent, mut reply) = ([0; HOST_SIZE], [0; LONG_SIZE], Vec::new(), Vec::new());
    let mut contents = contents_bytes(bundle.checked);
    let fresh = cfu_host_fresh(&mut host, token);
    if fresh != SERVED {
        return Err(fresh);
    }
    loop {
        let step = cfu_host_step_checked(&mut host, &mut contents, &bundle.bytes, &reply, &mut packet);
        if step.number != SERVED {
            return Err(step.number);
        }
        let report = cfu_host_report(&host);
        let next = &packet[..step.length as usize];
        teller.reply(&sent, &reply, next.is_empty() && report.ending == RUNNING);
        if report.ending != RUNNING {
            return Ok(report);
        }
        if !next.is_empty() {
            teller.packet(next, report.passes, bus.doubles(next));
            bus.deliver(next)?;
            sent = next.to_vec();
        }
        reply = bus.bring();
    }
}

/// A packet or a reply in bytes, and what it is.
fn packet_line(mark: &str, bytes: &[u8], words: &str) -> String {
    let bytes: String = bytes.iter().map(|byte| format!(" {byte:02X}")).collect();
    format!("{mark}{bytes}  {words}")
}

impl Teller<'_> {
    /// Ends the line that is written over, so that another can follow.
    fn end_line(&mut self) {
        if self.open {
            self.out.put("\n");
        }
        self.open = false;
    }

    /// A line of its own.
    fn line(&mut self, words: String) {
        self.end_line();
        self.out.line(words);
    }

    /// Prints a packet or a reply, where that is asked for.
    fn shown(&mut self, mark: &str, bytes: &[u8], words: &str) {
        if self.packets {
            self.line(packet_line(mark, bytes, words));
        }
    }

    /// A packet on its way to the device, in this pass; a copy of it follows where the bus delivers it twice.
    fn packet(&mut self, packet: &[u8], pass: u32, doubled: bool) {
        if packet.len() == SHORT_SIZE {
            self.offer_packet(packet, pass);
        } else {
            self.content_packet(packet, doubled);
        }
    }

    /// A reply that the host got after it sent a packet; before the first packet there is none.
    fn reply(&mut self, sent: &[u8], reply: &[u8], passed_over: bool) {
        match sent.len() {
            0 => {}
            SHORT_SIZE => self.offer_reply(sent, reply),
            _ => self.content_reply(sent, reply, passed_over),
        }
    }

    /// A packet of the offer channel: an offer, an information or an extended packet.
    fn offer_packet(&mut self, packet: &[u8], pass: u32) {
        let sent = cfu_read_offer(packet);
        if sent.kind == KIND_INFORMATION && sent.signal.code == INFO_START_OFFER_LIST {
            self.line(format!("pass {pass}"));
        }
        let what = match sent.kind {
            KIND_OFFER => format!("offer for component {}", sent.offer.id),
            KIND_INFORMATION => format!("information: {}", sentence(Kind::Information, sent.signal.code.into())),
            _ => format!("extended: {}", sentence(Kind::Extended, sent.signal.code.into())),
        };
        self.shown("->", packet, &what);
    }

    /// The reply to a packet of the offer channel.
    fn offer_reply(&mut self, packet: &[u8], reply: &[u8]) {
        let (sent, got) = (cfu_read_offer(packet), cfu_read_offer_reply(reply));
        let came = got.number == SERVED;
        let answer = if came { name(Kind::OfferStatus, got.status.into()) } else { NO_REPLY };
        self.shown("<-", reply, answer);
        if sent.kind != KIND_OFFER {
            return;
        }
        self.place = self.bundle.entries().iter().position(|entry| entry.offer.id == sent.offer.id).unwrap_or(0);
        let why = match got.status {
            OFFER_SKIP if came => format!(": {}", sentence(Kind::OfferStatus, got.status.into())),
            OFFER_REJECT if came => format!(": {}", sentence(Kind::Reason, got.reason.into())),
            _ => String::new(),
        };
        self.line(format!("  offer {}: {answer}{why}", self.place + 1));
    }

    /// How many blocks the offer in hand has.
    fn blocks(&self) -> u32 {
        self.bundle.entries().get(self.place).map_or(1, |entry| entry.records)
    }

    /// A packet of the content channel: a block of the offer in hand, and its copy where it is delivered twice.
    fn content_packet(&mut self, packet: &[u8], doubled: bool) {
        let sent = cfu_read_content(packet, &mut [0; DATA_SIZE]);
        let (offer, block, blocks) = (self.place + 1, u32::from(sent.sequence) + 1, self.blocks());
        for again in ["", " again"].iter().take(if doubled { 2 } else { 1 }) {
            self.shown("->", packet, &format!("content: block {block}{again}, bytes {} at address {}", sent.length, sent.address));
        }
        if !self.packets && !self.out.is_plain() {
            self.out.put(format!("\r  offer {offer}: block {block} of {blocks}, {} %", 100 * block / blocks));
            self.out.flush();
            self.open = true;
        }
    }

    /// A reply that came after a packet of the content channel: the reply to it, or one that the host passed over.
    fn content_reply(&mut self, packet: &[u8], reply: &[u8], passed_over: bool) {
        let sent = cfu_read_content(packet, &mut [0; DATA_SIZE]);
        let got = cfu_read_content_reply(reply);
        let came = got.number == SERVED;
        let answer = if came { sentence(Kind::ContentStatus, got.status.into()) } else { NO_REPLY };
        let why = if passed_over { format!(": block {} again, passed over", u32::from(got.sequence) + 1) } else { String::new() };
        self.shown("<-", reply, &format!("{answer}{why}"));
        if sent.flags & FLAG_LAST_BLOCK != 0 && !passed_over && came && got.status == SUCCESS {
            let completed = self.out.green("completed");
            let (offer, blocks) = (self.place + 1, self.blocks());
            self.line(format!("  offer {offer}: {completed}, blocks {blocks}"));
        }
    }
}
