//! The second implementation (tests/second). Rows C1 to C4 and bytes that are no record are judged here, as include/cfu.h says.
//!
//! It has no step over contents: that call is answered by its step over the bundle, with the place after the record in hand as the cursor. So it says
//! nothing about contents that no check of this bundle left.
//!
//! The papers have no call for one part of lent bytes: those are answered here, by the layouts of layout.rs, and row D1 by its version reply.

use second::bundle::{check, Bundle, Fault};
use second::device::{
    set_up, Answer, Component as SecondComponent, Device, Listed as SecondListed, Offered, Receiving, Region, Stage as DeviceStage, StagingOffset,
};
use second::host::{End, Host, Packet, Stage as HostStage, Stepped};
use second::maker;
use second::packets;
use second::refusal::Refusal;
use second::version::Version as SecondVersion;

use crate::calls::Calls;
use crate::header::*;
use crate::layout::*;

pub struct Other;

fn region(base: u32, length: u32) -> Region {
    Region { base: StagingOffset(base), length }
}

/// The second implementation's device of a record.
pub fn device_of(record: &DeviceRecord) -> Device {
    let component = |component: &Component| SecondComponent {
        id: component.id,
        running: SecondVersion(component.running),
        region: region(component.base, component.length),
        floor: SecondVersion(component.floor),
        staged: component.staged.map(SecondVersion),
    };
    Device {
        platform: record.platform,
        staging: record.staging,
        count: record.count,
        components: record.components.each_ref().map(component),
        stage: match record.session {
            Session::Idle => DeviceStage::Idle,
            Session::Offered { slot, token } => DeviceStage::Offered(Offered { slot, token }),
            Session::Receiving { slot, token, next } => DeviceStage::Receiving(Receiving { slot, token, next }),
        },
        owed: record.owed,
        previous: record.previous,
    }
}

/// The record of the second implementation's device.
pub fn record_of(device: &Device) -> DeviceRecord {
    let component = |component: &SecondComponent| Component {
        id: component.id,
        running: component.running.0,
        base: component.region.base.0,
        length: component.region.length,
        floor: component.floor.0,
        staged: component.staged.map(|version| version.0),
    };
    DeviceRecord {
        platform: device.platform,
        staging: device.staging,
        count: device.count,
        session: match device.stage {
            DeviceStage::Idle => Session::Idle,
            DeviceStage::Offered(Offered { slot, token }) => Session::Offered { slot, token },
            DeviceStage::Receiving(Receiving { slot, token, next }) => Session::Receiving { slot, token, next },
        },
        owed: device.owed,
        previous: device.previous,
        components: device.components.each_ref().map(component),
    }
}

fn read_device(bytes: &[u8]) -> Device {
    device_of(&DeviceRecord::read(bytes).unwrap_or_default())
}

pub fn row_number(row: Refusal) -> u32 {
    match row {
        Refusal::S1 => S1,
        Refusal::S2 => S2,
        Refusal::S3 => S3,
        Refusal::S4 => S4,
        Refusal::S5 => S5,
        Refusal::D1 => D1,
        Refusal::D2 => D2,
        Refusal::D3 => D3,
        Refusal::P1 => P1,
        Refusal::P2 => P2,
        Refusal::N1 => N1,
        Refusal::B1 => B1,
        Refusal::B2 => B2,
        Refusal::B3 => B3,
        Refusal::B4 => B4,
        Refusal::B5 => B5,
        Refusal::B6 => B6,
        Refusal::B7 => B7,
        Refusal::B8 => B8,
        Refusal::W1 => W1,
        Refusal::W2 => W2,
        Refusal::W3 => W3,
        Refusal::W4 => W4,
        Refusal::W5 => W5,
        Refusal::W6 => W6,
        Refusal::W7 => W7,
        Refusal::W8 => W8,
    }
}

fn number_of(refused: Option<Refusal>) -> u32 {
    refused.map_or(SERVED, row_number)
}

/// What an answer leaves; `leave` says what of the record a served call writes.
fn replied((next, answer): (Device, Answer), device: &mut [u8], replies: &mut [u8], leave: fn(&DeviceRecord, &mut [u8])) -> Replies {
    replies.fill(0);
    let (number, count) = match answer {
        Answer::Refused(row, reply) => {
            put(replies, 0, &reply);
            (row_number(row), 0)
        }
        Answer::NoReply => (SERVED, 0),
        Answer::Reply(reply) => {
            put(replies, 0, &reply);
            (SERVED, 1)
        }
        Answer::ReplyThenReady(reply, ready) => {
            put(replies, 0, &reply);
            put(replies, SHORT_SIZE, &ready);
            (SERVED, 2)
        }
    };
    if number == SERVED {
        leave(&record_of(&next), device);
    }
    Replies { number, count }
}

/// The second implementation's host of a record. A number that its fields do not hold becomes their largest, which N1 refuses as well.
pub fn host_of(record: &HostRecord) -> Host {
    let byte = |number: u32| number.min(255) as u8;
    Host {
        token: record.token,
        stage: match record.stage {
            Stage::Fresh => HostStage::Fresh,
            Stage::Opening => HostStage::Opening,
            Stage::Listing => HostStage::Listing,
            Stage::Offering { entry, busy } => HostStage::Offering { entry: byte(entry), busy: byte(busy) },
            Stage::Waiting { entry, busy } => HostStage::Waiting { entry: byte(entry), busy: byte(busy) },
            Stage::Sending { entry, block, passed } => HostStage::Sending { entry: byte(entry), record: block, passed },
            Stage::Closing => HostStage::Closing,
            Stage::Ended { end: 0, .. } => HostStage::Ended(End::Done),
            Stage::Ended { end: 1, status } => HostStage::Ended(End::H1(status)),
            Stage::Ended { end: 2, .. } => HostStage::Ended(End::H2),
            Stage::Ended { end: 3, .. } => HostStage::Ended(End::H3),
            Stage::Ended { .. } => HostStage::Ended(End::H4),
        },
        mask: record.mask,
        packets: record.packets,
        passes: record.passes,
        skipped: record.skipped,
        landed: record.landed,
    }
}

/// The record of the second implementation's host.
pub fn host_record(host: &Host) -> HostRecord {
    HostRecord {
        token: host.token,
        stage: match host.stage {
            HostStage::Fresh => Stage::Fresh,
            HostStage::Opening => Stage::Opening,
            HostStage::Listing => Stage::Listing,
            HostStage::Offering { entry, busy } => Stage::Offering { entry: entry as u32, busy: busy as u32 },
            HostStage::Waiting { entry, busy } => Stage::Waiting { entry: entry as u32, busy: busy as u32 },
            HostStage::Sending { entry, record, passed } => Stage::Sending { entry: entry as u32, block: record, passed },
            HostStage::Closing => Stage::Closing,
            HostStage::Ended(End::Done) => Stage::Ended { end: 0, status: 0 },
            HostStage::Ended(End::H1(status)) => Stage::Ended { end: 1, status },
            HostStage::Ended(End::H2) => Stage::Ended { end: 2, status: 0 },
            HostStage::Ended(End::H3) => Stage::Ended { end: 3, status: 0 },
            HostStage::Ended(End::H4) => Stage::Ended { end: 4, status: 0 },
        },
        mask: host.mask,
        packets: host.packets,
        passes: host.passes,
        skipped: host.skipped,
        landed: host.landed,
    }
}

fn read_host(bytes: &[u8]) -> Host {
    host_of(&HostRecord::read(bytes).unwrap_or(HostRecord::lost()))
}

fn stepped(answer: Stepped, host: &mut [u8], packet: &mut [u8]) -> Step {
    packet.fill(0);
    let length = match answer.packet {
        None => 0,
        Some(Packet::ForOffer(bytes)) => {
            put(packet, 0, &bytes);
            bytes.len()
        }
        Some(Packet::ForContent(bytes)) => {
            put(packet, 0, &bytes);
            bytes.len()
        }
    } as u32;
    match answer.refused {
        Some(Fault { row, entry }) => Step { number: row_number(row), entry: entry as u32, length },
        None => {
            host.copy_from_slice(&host_record(&answer.host).bytes());
            Step { number: SERVED, entry: 0, length }
        }
    }
}

/// The place after a record of a body.
fn place_after(bundle: &Bundle, entry: usize, record: usize) -> u64 {
    let entry = &bundle.entries[entry];
    let passed: usize = entry.records[..=record].iter().map(|record| record_at::DATA + record.data.len()).sum();
    entry.offset as u64 + passed as u64
}

fn parts(version: SecondVersion) -> Version {
    Version { major: version.major(), minor: version.minor(), variant: version.variant() }
}

impl Calls for Other {
    fn name(&self) -> &'static str {
        "second"
    }

    fn list_put(&self, list: &mut [u8], place: u32, component: Listed) -> u32 {
        if list.len() != LIST_SIZE {
            return C2;
        }
        let mut listed = read_list(list);
        let Some(own) = listed.get_mut(place as usize) else { return C4 };
        let number = |version: Version| SecondVersion::from_parts(version.major, version.minor, version.variant).0;
        let Listed { id, running, base, length, floor } = component;
        *own = ListedComponent { id, running: number(running), base, length, floor: number(floor) };
        list.copy_from_slice(&list_bytes(&listed));
        SERVED
    }

    fn set_up(&self, device: &mut [u8], platform: u16, list: &[u8], count: u8, staging: &[u8]) -> u32 {
        if device.len() != DEVICE_SIZE {
            return C1;
        }
        if list.len() != LIST_SIZE {
            return C2;
        }
        let list = read_list(list);
        let listed = list.map(|l| SecondListed {
            id: l.id,
            running: SecondVersion(l.running),
            region: region(l.base, l.length),
            floor: SecondVersion(l.floor),
        });
        let answer = set_up(platform, &listed, count, staging);
        if answer.refused.is_none() {
            let mut record = record_of(&answer.value);
            // Document 01 leaves the slots past the count free; the library fills them from the list.
            for slot in count as usize..COMPONENT_LIMIT {
                record.components[slot] = list[slot].component();
            }
            device.copy_from_slice(&record.bytes());
        }
        number_of(answer.refused)
    }

    fn device_component(&self, device: &[u8], place: u32) -> ToldComponent {
        let refused = |number: u32| ToldComponent { number, ..Default::default() };
        if device.len() != DEVICE_SIZE {
            return refused(C1);
        }
        let device = read_device(device);
        if let Some(row) = device.version_reply().refused {
            return refused(row_number(row));
        }
        let Some(own) = device.listed().get(place as usize) else { return refused(C4) };
        ToldComponent {
            number: SERVED,
            id: own.id,
            running: parts(own.running),
            base: own.region.base.0,
            length: own.region.length,
            floor: parts(own.floor),
            pending: own.pending() as u8,
            staged: own.staged.map_or(Version::default(), parts),
        }
    }

    fn version_reply(&self, device: &[u8], packet: &mut [u8]) -> u32 {
        if device.len() != DEVICE_SIZE {
            return C1;
        }
        if packet.len() != LONG_SIZE {
            return C3;
        }
        let answer = read_device(device).version_reply();
        packet.copy_from_slice(&answer.value);
        number_of(answer.refused)
    }

    fn offer(&self, device: &mut [u8], staging: &[u8], report: &[u8], replies: &mut [u8]) -> Replies {
        if device.len() != DEVICE_SIZE {
            return Replies { number: C1, count: 0 };
        }
        if replies.len() != REPLIES_SIZE {
            return Replies { number: C3, count: 0 };
        }
        let answer = read_device(device).offer(staging, report);
        replied(answer, device, replies, DeviceRecord::leave_offered)
    }

    fn content(&self, device: &mut [u8], staging: &mut [u8], report: &[u8], replies: &mut [u8]) -> Replies {
        if device.len() != DEVICE_SIZE {
            return Replies { number: C1, count: 0 };
        }
        if replies.len() != REPLIES_SIZE {
            return Replies { number: C3, count: 0 };
        }
        let answer = read_device(device).content(staging, report);
        replied(answer, device, replies, DeviceRecord::leave_received)
    }

    fn reset(&self, device: &mut [u8]) -> u32 {
        if device.len() != DEVICE_SIZE {
            return C1;
        }
        let answer = read_device(device).reset();
        if answer.refused.is_none() {
            device.copy_from_slice(&record_of(&answer.value).bytes());
        }
        number_of(answer.refused)
    }

    fn check(&self, bundle: &[u8], contents: &mut [u8]) -> Check {
        if contents.len() != CONTENTS_SIZE {
            return Check { number: C3, entry: 0, count: 0 };
        }
        let mut left = Contents::default();
        let answer = match check(bundle) {
            Err(Fault { row, entry }) => {
                let number = row_number(row);
                (left.row, left.place) = ((number % 256) as u8, entry as u8);
                Check { number, entry: entry as u32, count: 0 }
            }
            Ok(read) => {
                left.count = read.entries.len() as u8;
                for (body, entry) in left.bodies.iter_mut().zip(&read.entries) {
                    *body = Body { offset: entry.offset, length: entry.length, records: entry.records.len() as u32 };
                }
                Check { number: SERVED, entry: 0, count: left.count as u32 }
            }
        };
        contents.copy_from_slice(&left.bytes());
        answer
    }

    fn contents_entry(&self, contents: &[u8], place: u32) -> ToldEntry {
        let refused = |number: u32, entry: u32| ToldEntry { number, entry, ..Default::default() };
        let Some(kept) = Contents::read(contents) else { return refused(C1, 0) };
        let rows = [B1, B2, B3, B4, B5, B6, B7, B8];
        if kept.row != 0 {
            return refused(rows[kept.row as usize - 1], kept.place as u32);
        }
        let Some(own) = kept.bodies[..kept.count as usize].get(place as usize) else { return refused(C4, 0) };
        ToldEntry { number: SERVED, entry: 0, offset: own.offset, length: own.length, records: own.records }
    }

    fn write(&self, list: &[u8], images: &[u8], out: &mut [u8]) -> Written {
        match maker::write(list, images, out) {
            Ok(length) => Written { number: SERVED, entry: 0, length: length as u32 },
            Err(Fault { row, entry }) => Written { number: row_number(row), entry: entry as u32, length: 0 },
        }
    }

    fn fresh(&self, host: &mut [u8], token: u8) -> u32 {
        if host.len() != HOST_SIZE {
            return C1;
        }
        host.copy_from_slice(&host_record(&Host::fresh(token)).bytes());
        SERVED
    }

    fn step(&self, host: &mut [u8], bundle: &[u8], reply: &[u8], packet: &mut [u8]) -> Step {
        if host.len() != HOST_SIZE {
            return Step { number: C1, entry: 0, length: 0 };
        }
        if packet.len() != LONG_SIZE {
            return Step { number: C3, entry: 0, length: 0 };
        }
        stepped(read_host(host).step(bundle, reply), host, packet)
    }

    fn step_checked(&self, host: &mut [u8], contents: &mut [u8], bundle: &[u8], reply: &[u8], packet: &mut [u8]) -> Step {
        let kept = Contents::read(contents);
        if host.len() != HOST_SIZE || kept.is_none() {
            return Step { number: C1, entry: 0, length: 0 };
        }
        if packet.len() != LONG_SIZE {
            return Step { number: C3, entry: 0, length: 0 };
        }
        let answer = read_host(host).step(bundle, reply);
        if let (None, HostStage::Sending { entry, record, .. }, Ok(read)) = (&answer.refused, answer.host.stage, check(bundle)) {
            let cursor = place_after(&read, entry as usize, record as usize);
            contents.copy_from_slice(&Contents { entry: entry as u32, block: record as u32, cursor, ..kept.unwrap() }.bytes());
        }
        stepped(answer, host, packet)
    }

    fn report(&self, host: &[u8]) -> Report {
        if host.len() != HOST_SIZE {
            return Report { number: C1, ..Default::default() };
        }
        let host = read_host(host);
        let told = host.report();
        let (ending, status) = match told.end {
            None => (RUNNING, 0),
            Some(End::Done) => (DONE, 0),
            Some(End::H1(status)) => (H1, status as u32),
            Some(End::H2) => (H2, 0),
            Some(End::H3) => (H3, 0),
            Some(End::H4) => (H4, 0),
        };
        Report {
            number: report_number(told.packets),
            completed: told.completed,
            mask: host.mask,
            packets: told.packets,
            passes: told.passes,
            ending,
            status,
        }
    }

    fn build_version_reply(&self, count: u8, protocol: u8, components: &[u8], packet: &mut [u8]) -> u32 {
        if components.len() != COMPONENTS_SIZE {
            return C2;
        }
        if packet.len() != LONG_SIZE {
            return C3;
        }
        let entries =
            read_components(components).map(|(number, id, platform)| packets::VersionEntry { version: SecondVersion(number), id, platform });
        let built = packets::build_version_reply(&packets::VersionReply { count, protocol, entries });
        packet.copy_from_slice(&built.value);
        number_of(built.refused)
    }

    fn build_offer(&self, offer: Offer, packet: &mut [u8]) -> u32 {
        if packet.len() != SHORT_SIZE {
            return C3;
        }
        // A flag is one bit.
        if offer.force_immediate_reset > 1 || offer.force_ignore_version > 1 {
            packet.fill(0);
            return P2;
        }
        let built = packets::build_offer(&packets::Offer {
            segment: offer.segment,
            immediate_reset: offer.force_immediate_reset == 1,
            ignore_version: offer.force_ignore_version == 1,
            id: offer.id,
            token: offer.token,
            version: SecondVersion::from_parts(offer.version.major, offer.version.minor, offer.version.variant),
            need_id: offer.need,
            need_least: offer.least,
            protocol: offer.protocol,
            platform: offer.platform,
        });
        packet.copy_from_slice(&built.value);
        number_of(built.refused)
    }

    fn build_information(&self, code: u8, token: u8, packet: &mut [u8]) -> u32 {
        if packet.len() != SHORT_SIZE {
            return C3;
        }
        packet.copy_from_slice(&packets::build_information(&packets::Code { code, token }).value);
        SERVED
    }

    fn build_extended(&self, code: u8, token: u8, packet: &mut [u8]) -> u32 {
        if packet.len() != SHORT_SIZE {
            return C3;
        }
        packet.copy_from_slice(&packets::build_extended(&packets::Code { code, token }).value);
        SERVED
    }

    fn build_offer_reply(&self, token: u8, reason: u8, status: u8, packet: &mut [u8]) -> u32 {
        if packet.len() != SHORT_SIZE {
            return C3;
        }
        packet.copy_from_slice(&packets::build_offer_reply(&packets::OfferReply { token, reason, status }).value);
        SERVED
    }

    fn build_content(&self, flags: u8, length: u8, sequence: u16, address: u32, bytes: &[u8], packet: &mut [u8]) -> u32 {
        if bytes.len() != DATA_SIZE {
            return C2;
        }
        if packet.len() != LONG_SIZE {
            return C3;
        }
        let mut data = [0; DATA_SIZE];
        data.copy_from_slice(bytes);
        let built = packets::build_content(&packets::Content { flags, length, sequence, address, data });
        packet.copy_from_slice(&built.value);
        number_of(built.refused)
    }

    fn build_content_reply(&self, sequence: u16, status: u8, packet: &mut [u8]) -> u32 {
        if packet.len() != SHORT_SIZE {
            return C3;
        }
        packet.copy_from_slice(&packets::build_content_reply(&packets::ContentReply { sequence, status }).value);
        SERVED
    }

    fn read_version_reply(&self, packet: &[u8], components: &mut [u8]) -> VersionReply {
        if components.len() != COMPONENTS_SIZE {
            return VersionReply { number: C3, count: 0, protocol: 0 };
        }
        let read = packets::read_version_reply(packet);
        let listed = read.value.entries.map(|entry| (entry.version.0, entry.id, entry.platform));
        components.copy_from_slice(&components_bytes(&listed));
        VersionReply { number: number_of(read.refused), count: read.value.count, protocol: read.value.protocol }
    }

    fn read_offer(&self, packet: &[u8]) -> OfferPacket {
        let none = OfferPacket::default();
        // A packet of another length has no byte that decides its kind: every reader answers P1.
        let byte_2 = if packet.len() == SHORT_SIZE { packet[signal_at::KIND] } else { 0 };
        match packets::kind_of(byte_2) {
            packets::OfferKind::Offer => {
                let read = packets::read_offer(packet);
                let o = read.value;
                OfferPacket {
                    number: number_of(read.refused),
                    kind: if read.refused.is_none() { KIND_OFFER } else { KIND_NONE },
                    offer: Offer {
                        segment: o.segment,
                        force_immediate_reset: o.immediate_reset as u8,
                        force_ignore_version: o.ignore_version as u8,
                        id: o.id,
                        token: o.token,
                        version: parts(o.version),
                        need: o.need_id,
                        least: o.need_least,
                        protocol: o.protocol,
                        platform: o.platform,
                    },
                    ..none
                }
            }
            packets::OfferKind::Information => {
                let read = packets::read_information(packet).value;
                OfferPacket { kind: KIND_INFORMATION, signal: Signal { code: read.code, token: read.token }, ..none }
            }
            packets::OfferKind::Extended => {
                let read = packets::read_extended(packet).value;
                OfferPacket { kind: KIND_EXTENDED, signal: Signal { code: read.code, token: read.token }, ..none }
            }
        }
    }

    fn read_offer_reply(&self, packet: &[u8]) -> OfferReply {
        let read = packets::read_offer_reply(packet);
        OfferReply { number: number_of(read.refused), token: read.value.token, reason: read.value.reason, status: read.value.status }
    }

    fn read_content(&self, packet: &[u8], bytes: &mut [u8]) -> Content {
        if bytes.len() != DATA_SIZE {
            return Content { number: C3, ..Default::default() };
        }
        let read = packets::read_content(packet);
        bytes.copy_from_slice(&read.value.data);
        Content {
            number: number_of(read.refused),
            flags: read.value.flags,
            length: read.value.length,
            sequence: read.value.sequence,
            address: read.value.address,
        }
    }

    fn read_content_reply(&self, packet: &[u8]) -> ContentReply {
        let read = packets::read_content_reply(packet);
        ContentReply { number: number_of(read.refused), sequence: read.value.sequence, status: read.value.status }
    }
}
