//! The crate that tools/rust_crate makes from the proved source. Rows C1 to C3 and bytes that are no record are judged here, as include/cfu.h says; the
//! writer and the calls for one part of lent bytes are the crate's own calls.

use cfu_updater::bundle;
use cfu_updater::bundle_layout::{self, verdict_of, BundleRefusal, BundleRow, Checked};
use cfu_updater::c_access::{cfu_contents_entry, cfu_device_component, cfu_list_put};
use cfu_updater::c_types::types::{CListed, CVersion};
use cfu_updater::c_writer::cfu_bundle_write;
use cfu_updater::device::answer::{Answer, Refusal};
use cfu_updater::device::record::Device;
use cfu_updater::device::setup::set_up;
use cfu_updater::device_component::record::{Component as MadeComponent, Fixed, Listed as MadeListed};
use cfu_updater::device_component::setup::SetupRow;
use cfu_updater::device_session::effect::Session as DeviceSession;
use cfu_updater::device_session::stage::{Offered, Receiving, Stage as DeviceStage};
use cfu_updater::host::inner::inner_step;
use cfu_updater::host::step::{cursor_for, step};
use cfu_updater::host_packet::answer::{Sent, StepRefusal};
use cfu_updater::host_record::fits::{in_hand, Body as HandBody};
use cfu_updater::host_record::record::{Awaited, End, Host, HostStage, Place, Turn};
use cfu_updater::image::region::{Region, StagingOffset};
use cfu_updater::wire::address::RegionAddress;
use cfu_updater::wire::codes;
use cfu_updater::wire::verdict::PacketRefusal;
use cfu_updater::wire::version::Version as MadeVersion;
use cfu_updater::wire_content::content::{build_content, read_content, ContentFields};
use cfu_updater::wire_content::reply::{build_content_reply, read_content_reply, ContentReply as MadeContentReply};
use cfu_updater::wire_offer::kind::{read_offer_packet, OfferPacket as MadeOfferPacket};
use cfu_updater::wire_offer::offer::{build_offer, OfferFields};
use cfu_updater::wire_offer::reply::{build_offer_reply, read_offer_reply, OfferReply as MadeOfferReply};
use cfu_updater::wire_offer::signal::{build_extended, build_information, Signal as MadeSignal};
use cfu_updater::wire_version::{build_version_reply, read_version_reply, Running, VersionReply as MadeVersionReply};

use crate::calls::Calls;
use crate::header::*;
use crate::layout::*;

pub struct Made;

fn version(number: u32) -> MadeVersion {
    let bytes = number.to_le_bytes();
    MadeVersion::read(bytes[0], bytes[1], bytes[2], bytes[3])
}

fn fixed(id: u8, base: u32, length: u32, floor: u32) -> Fixed {
    Fixed { id, region: Region { base: StagingOffset::new(base), len: length }, floor: version(floor) }
}

/// The crate's device of a record.
pub fn device_of(record: &DeviceRecord) -> Device {
    let component = |component: &Component| MadeComponent {
        fixed: fixed(component.id, component.base, component.length, component.floor),
        running: version(component.running),
        staged: component.staged.map(version),
    };
    Device {
        platform: record.platform,
        staging_len: record.staging,
        count: record.count,
        components: record.components.each_ref().map(component),
        session: DeviceSession {
            stage: match record.session {
                Session::Idle => DeviceStage::Idle,
                Session::Offered { slot, token } => DeviceStage::Offered(Offered { slot, token }),
                Session::Receiving { slot, token, next } => DeviceStage::Receiving(Receiving { slot, token, next }),
            },
            owed: record.owed,
            previous: record.previous,
        },
    }
}

/// The record of the crate's device.
pub fn record_of(device: &Device) -> DeviceRecord {
    let component = |component: &MadeComponent| Component {
        id: component.fixed.id,
        running: component.running.number(),
        base: component.fixed.region.base.number(),
        length: component.fixed.region.len,
        floor: component.fixed.floor.number(),
        staged: component.staged.map(|staged| staged.number()),
    };
    DeviceRecord {
        platform: device.platform,
        staging: device.staging_len,
        count: device.count,
        session: match device.session.stage {
            DeviceStage::Idle => Session::Idle,
            DeviceStage::Offered(Offered { slot, token }) => Session::Offered { slot, token },
            DeviceStage::Receiving(Receiving { slot, token, next }) => Session::Receiving { slot, token, next },
        },
        owed: device.session.owed,
        previous: device.session.previous,
        components: device.components.each_ref().map(component),
    }
}

/// A component as it is given to the crate's set-up.
fn listed_of(component: &ListedComponent) -> MadeListed {
    MadeListed { fixed: fixed(component.id, component.base, component.length, component.floor), running: version(component.running) }
}

/// The device in these bytes; bytes that are no record stand for the blank one, which every entry refuses.
fn read_device(bytes: &[u8]) -> Device {
    device_of(&DeviceRecord::read(bytes).unwrap_or_default())
}

fn device_number(refusal: Refusal) -> u32 {
    match refusal {
        Refusal::D1 => D1,
        Refusal::D2 => D2,
        Refusal::D3 => D3,
    }
}

/// How many replies of an answer of the crate are due, and their bytes.
pub fn told(answer: &Answer) -> (u32, [u8; REPLIES_SIZE]) {
    let mut replies = [0; REPLIES_SIZE];
    let mut count = 0;
    if answer.replies.due {
        put(&mut replies, 0, &answer.replies.reply);
        count = 1;
    }
    if let Some(token) = answer.replies.ready {
        let ready = build_offer_reply(MadeOfferReply { token, reason: 0, status: codes::OFFER_READY });
        put(&mut replies, SHORT_SIZE * count as usize, &ready);
        count += 1;
    }
    (count, replies)
}

/// What an answer leaves; `leave` says what of the record a served call writes.
fn replied(answer: Result<Answer, Refusal>, device: &mut [u8], replies: &mut [u8], leave: fn(&DeviceRecord, &mut [u8])) -> Replies {
    match answer {
        Ok(answer) => {
            let (count, packets) = told(&answer);
            replies.copy_from_slice(&packets);
            leave(&record_of(&answer.device), device);
            Replies { number: SERVED, count }
        }
        Err(refusal) => {
            replies.fill(0);
            Replies { number: device_number(refusal), count: 0 }
        }
    }
}

pub fn bundle_number(row: BundleRow) -> u32 {
    match row {
        BundleRow::B1 => B1,
        BundleRow::B2 => B2,
        BundleRow::B3 => B3,
        BundleRow::B4 => B4,
        BundleRow::B5 => B5,
        BundleRow::B6 => B6,
        BundleRow::B7 => B7,
        BundleRow::B8 => B8,
    }
}

/// The crate's host of a record.
pub fn host_of(record: &HostRecord) -> Host {
    Host {
        token: record.token,
        stage: match record.stage {
            Stage::Fresh => HostStage::Fresh,
            Stage::Opening => HostStage::Opening,
            Stage::Listing => HostStage::Listing,
            Stage::Offering { entry, busy } => HostStage::Offering(Turn { entry, busy }),
            Stage::Waiting { entry, busy } => HostStage::Waiting(Turn { entry, busy }),
            Stage::Sending { entry, block, passed } => HostStage::Sending(Awaited { place: Place { entry, block }, passed }),
            Stage::Closing => HostStage::Closing,
            Stage::Ended { end: 0, .. } => HostStage::Ended(End::Done),
            Stage::Ended { end: 1, status } => HostStage::Ended(End::Status(status)),
            Stage::Ended { end: 2, .. } => HostStage::Ended(End::Foreign),
            Stage::Ended { end: 3, .. } => HostStage::Ended(End::Unexpected),
            Stage::Ended { .. } => HostStage::Ended(End::Busy),
        },
        mask: record.mask,
        packets: record.packets,
        passes: record.passes,
        skipped: record.skipped,
        landed: record.landed,
    }
}

/// The record of the crate's host.
pub fn host_record(host: &Host) -> HostRecord {
    HostRecord {
        token: host.token,
        stage: match host.stage {
            HostStage::Fresh => Stage::Fresh,
            HostStage::Opening => Stage::Opening,
            HostStage::Listing => Stage::Listing,
            HostStage::Offering(Turn { entry, busy }) => Stage::Offering { entry, busy },
            HostStage::Waiting(Turn { entry, busy }) => Stage::Waiting { entry, busy },
            HostStage::Sending(Awaited { place: Place { entry, block }, passed }) => Stage::Sending { entry, block, passed },
            HostStage::Closing => Stage::Closing,
            HostStage::Ended(End::Done) => Stage::Ended { end: 0, status: 0 },
            HostStage::Ended(End::Status(status)) => Stage::Ended { end: 1, status },
            HostStage::Ended(End::Foreign) => Stage::Ended { end: 2, status: 0 },
            HostStage::Ended(End::Unexpected) => Stage::Ended { end: 3, status: 0 },
            HostStage::Ended(End::Busy) => Stage::Ended { end: 4, status: 0 },
        },
        mask: host.mask,
        packets: host.packets,
        passes: host.passes,
        skipped: host.skipped,
        landed: host.landed,
    }
}

fn read_host(bytes: &[u8]) -> Host {
    host_of(&HostRecord::read(bytes).unwrap_or(HostRecord::lost()))
}

/// The contents of the crate's answer to a check.
fn contents_of(told: &Result<Checked, BundleRefusal>) -> Contents {
    let body = |entry: &bundle_layout::Entry| Body { offset: entry.offset, length: entry.length, records: entry.records };
    match told {
        Ok(checked) => Contents { count: checked.count, bodies: checked.table.each_ref().map(body), ..Contents::default() },
        Err(refusal) => Contents { row: refusal.row.number(), place: refusal.place, ..Contents::default() },
    }
}

/// The body of an entry of the contents, as the inner step takes it; past the table it is empty.
fn body_in(contents: &Contents, entry: u32) -> HandBody {
    let body = contents.bodies.get(entry as usize).copied().unwrap_or_default();
    HandBody { start: body.offset as usize, end: body.offset as u64 + body.length as u64, records: body.records }
}

/// What a served step answers; the next record is left.
fn stepped(sent: Sent, next: &Host, host: &mut [u8]) -> Step {
    host.copy_from_slice(&host_record(next).bytes());
    let length = match sent {
        Sent::Nothing => 0,
        Sent::Offer => SHORT_SIZE,
        Sent::Content => LONG_SIZE,
    } as u32;
    Step { number: SERVED, entry: 0, length }
}

/// What a refused step answers.
fn step_refused(refusal: StepRefusal) -> Step {
    let (number, entry) = match refusal {
        StepRefusal::Bundle(BundleRefusal { row, place }) => (bundle_number(row), place as u32),
        StepRefusal::N1 => (N1, 0),
    };
    Step { number, entry, length: 0 }
}

fn packet_number<T>(answer: &Result<T, PacketRefusal>) -> u32 {
    match answer {
        Ok(_) => SERVED,
        Err(PacketRefusal::P1) => P1,
        Err(PacketRefusal::P2) => P2,
    }
}

fn parts(version: MadeVersion) -> Version {
    Version { major: version.major(), minor: version.minor(), variant: version.variant() }
}

fn given_version(version: Version) -> CVersion {
    CVersion { major: version.major, minor: version.minor, variant: version.variant }
}

fn told_version(version: CVersion) -> Version {
    Version { major: version.major, minor: version.minor, variant: version.variant }
}

impl Calls for Made {
    fn name(&self) -> &'static str {
        "made crate"
    }

    fn list_put(&self, list: &mut [u8], place: u32, component: Listed) -> u32 {
        let Listed { id, running, base, length, floor } = component;
        cfu_list_put(list, place, CListed { id, running: given_version(running), base, length, floor: given_version(floor) })
    }

    fn set_up(&self, device: &mut [u8], platform: u16, list: &[u8], count: u8, staging: &[u8]) -> u32 {
        if device.len() != DEVICE_SIZE {
            return C1;
        }
        if list.len() != LIST_SIZE {
            return C2;
        }
        let listed = read_list(list).each_ref().map(listed_of);
        match set_up(platform, listed, count, staging) {
            Ok(made) => {
                device.copy_from_slice(&record_of(&made).bytes());
                SERVED
            }
            Err(SetupRow::S1) => S1,
            Err(SetupRow::S2) => S2,
            Err(SetupRow::S3) => S3,
            Err(SetupRow::S4) => S4,
            Err(SetupRow::S5) => S5,
        }
    }

    fn device_component(&self, device: &[u8], place: u32) -> ToldComponent {
        let told = cfu_device_component(device, place);
        ToldComponent {
            number: told.number,
            id: told.id,
            running: told_version(told.running),
            base: told.base,
            length: told.length,
            floor: told_version(told.floor),
            pending: told.pending,
            staged: told_version(told.staged),
        }
    }

    fn version_reply(&self, device: &[u8], packet: &mut [u8]) -> u32 {
        if device.len() != DEVICE_SIZE {
            return C1;
        }
        if packet.len() != LONG_SIZE {
            return C3;
        }
        let answer = read_device(device).version_reply();
        packet.copy_from_slice(&answer.unwrap_or([0; LONG_SIZE]));
        answer.map_or_else(device_number, |_| SERVED)
    }

    fn offer(&self, device: &mut [u8], staging: &[u8], report: &[u8], replies: &mut [u8]) -> Replies {
        if device.len() != DEVICE_SIZE {
            return Replies { number: C1, count: 0 };
        }
        if replies.len() != REPLIES_SIZE {
            return Replies { number: C3, count: 0 };
        }
        let answer = read_device(device).offer(staging, report);
        replied(answer, device, replies, DeviceRecord::leave_offered)
    }

    fn content(&self, device: &mut [u8], staging: &mut [u8], report: &[u8], replies: &mut [u8]) -> Replies {
        if device.len() != DEVICE_SIZE {
            return Replies { number: C1, count: 0 };
        }
        if replies.len() != REPLIES_SIZE {
            return Replies { number: C3, count: 0 };
        }
        let answer = read_device(device).content(staging, report);
        replied(answer, device, replies, DeviceRecord::leave_received)
    }

    fn reset(&self, device: &mut [u8]) -> u32 {
        if device.len() != DEVICE_SIZE {
            return C1;
        }
        match read_device(device).reset() {
            Ok(next) => {
                device.copy_from_slice(&record_of(&next).bytes());
                SERVED
            }
            Err(refusal) => device_number(refusal),
        }
    }

    fn check(&self, bytes: &[u8], contents: &mut [u8]) -> Check {
        if contents.len() != CONTENTS_SIZE {
            return Check { number: C3, entry: 0, count: 0 };
        }
        let checked = bundle::check(bytes);
        contents.copy_from_slice(&contents_of(&checked).bytes());
        match checked {
            Ok(checked) => Check { number: SERVED, entry: 0, count: checked.count as u32 },
            Err(refusal) => Check { number: bundle_number(refusal.row), entry: refusal.place as u32, count: 0 },
        }
    }

    fn contents_entry(&self, contents: &[u8], place: u32) -> ToldEntry {
        let told = cfu_contents_entry(contents, place);
        ToldEntry { number: told.number, entry: told.entry, offset: told.offset, length: told.length, records: told.records }
    }

    fn write(&self, list: &[u8], images: &[u8], out: &mut [u8]) -> Written {
        let told = cfu_bundle_write(list, images, out);
        Written { number: told.number, entry: told.entry, length: told.length }
    }

    fn fresh(&self, host: &mut [u8], token: u8) -> u32 {
        if host.len() != HOST_SIZE {
            return C1;
        }
        host.copy_from_slice(&host_record(&Host::fresh(token)).bytes());
        SERVED
    }

    fn step(&self, host: &mut [u8], bundle: &[u8], reply: &[u8], packet: &mut [u8]) -> Step {
        if host.len() != HOST_SIZE {
            return Step { number: C1, entry: 0, length: 0 };
        }
        if packet.len() != LONG_SIZE {
            return Step { number: C3, entry: 0, length: 0 };
        }
        match step(read_host(host), bundle, reply) {
            Ok(answer) => {
                packet.copy_from_slice(&answer.packet);
                stepped(answer.sent, &answer.host, host)
            }
            Err(refusal) => {
                packet.fill(0);
                step_refused(refusal)
            }
        }
    }

    fn step_checked(&self, host: &mut [u8], contents: &mut [u8], bundle: &[u8], reply: &[u8], packet: &mut [u8]) -> Step {
        let kept = match Contents::read(contents) {
            Some(kept) if host.len() == HOST_SIZE => kept,
            _ => return Step { number: C1, entry: 0, length: 0 },
        };
        if packet.len() != LONG_SIZE {
            return Step { number: C3, entry: 0, length: 0 };
        }
        let known = read_host(host);
        let hand = body_in(&kept, in_hand(known.stage));
        // The kept cursor is the record's own, or it is found by a walk over the body in hand.
        let cursor = match known.stage {
            HostStage::Sending(Awaited { place: p, .. }) if (p.entry, p.block) == (kept.entry, kept.block) => kept.cursor as usize,
            stage => cursor_for(bundle, hand, stage),
        };
        let checked = match verdict_of(kept.row) {
            Some(row) => Err(BundleRefusal { row, place: kept.place }),
            None => Ok(kept.count),
        };
        let answer = match inner_step(packet, checked, hand, cursor, known, bundle, reply) {
            Ok(answer) => answer,
            Err(refusal) => return step_refused(refusal),
        };
        if let HostStage::Sending(Awaited { place: p, .. }) = answer.host.stage {
            contents.copy_from_slice(&Contents { entry: p.entry, block: p.block, cursor: answer.cursor as u64, ..kept }.bytes());
        }
        stepped(answer.sent, &answer.host, host)
    }

    fn report(&self, host: &[u8]) -> Report {
        if host.len() != HOST_SIZE {
            return Report { number: C1, ..Default::default() };
        }
        let told = read_host(host).report();
        let (ending, status) = match told.progress {
            None => (RUNNING, 0),
            Some(End::Done) => (DONE, 0),
            Some(End::Status(status)) => (H1, status as u32),
            Some(End::Foreign) => (H2, 0),
            Some(End::Unexpected) => (H3, 0),
            Some(End::Busy) => (H4, 0),
        };
        Report {
            number: report_number(told.packets),
            completed: told.completed,
            mask: told.mask,
            packets: told.packets,
            passes: told.passes,
            ending,
            status,
        }
    }

    fn build_version_reply(&self, count: u8, protocol: u8, components: &[u8], packet: &mut [u8]) -> u32 {
        if components.len() != COMPONENTS_SIZE {
            return C2;
        }
        if packet.len() != LONG_SIZE {
            return C3;
        }
        let components = read_components(components).map(|(number, id, platform)| Running { version: version(number), id, platform });
        let built = build_version_reply(MadeVersionReply { count, protocol, components });
        packet.copy_from_slice(&built.unwrap_or([0; LONG_SIZE]));
        packet_number(&built)
    }

    fn build_offer(&self, offer: Offer, packet: &mut [u8]) -> u32 {
        if packet.len() != SHORT_SIZE {
            return C3;
        }
        // A flag is one bit.
        if offer.force_immediate_reset > 1 || offer.force_ignore_version > 1 {
            packet.fill(0);
            return P2;
        }
        let built = build_offer(OfferFields {
            segment: offer.segment,
            force_immediate_reset: offer.force_immediate_reset == 1,
            force_ignore_version: offer.force_ignore_version == 1,
            id: offer.id,
            token: offer.token,
            version: MadeVersion::new(offer.version.major, offer.version.minor, offer.version.variant),
            need: offer.need,
            least: offer.least,
            protocol: offer.protocol,
            platform: offer.platform,
        });
        packet.copy_from_slice(&built.unwrap_or([0; SHORT_SIZE]));
        packet_number(&built)
    }

    fn build_information(&self, code: u8, token: u8, packet: &mut [u8]) -> u32 {
        if packet.len() != SHORT_SIZE {
            return C3;
        }
        packet.copy_from_slice(&build_information(MadeSignal { code, token }));
        SERVED
    }

    fn build_extended(&self, code: u8, token: u8, packet: &mut [u8]) -> u32 {
        if packet.len() != SHORT_SIZE {
            return C3;
        }
        packet.copy_from_slice(&build_extended(MadeSignal { code, token }));
        SERVED
    }

    fn build_offer_reply(&self, token: u8, reason: u8, status: u8, packet: &mut [u8]) -> u32 {
        if packet.len() != SHORT_SIZE {
            return C3;
        }
        packet.copy_from_slice(&build_offer_reply(MadeOfferReply { token, reason, status }));
        SERVED
    }

    fn build_content(&self, flags: u8, length: u8, sequence: u16, address: u32, bytes: &[u8], packet: &mut [u8]) -> u32 {
        if bytes.len() != DATA_SIZE {
            return C2;
        }
        if packet.len() != LONG_SIZE {
            return C3;
        }
        let mut data = [0; DATA_SIZE];
        data.copy_from_slice(bytes);
        let built = build_content(ContentFields { flags, length, sequence, address: RegionAddress::new(address), data });
        packet.copy_from_slice(&built.unwrap_or([0; LONG_SIZE]));
        packet_number(&built)
    }

    fn build_content_reply(&self, sequence: u16, status: u8, packet: &mut [u8]) -> u32 {
        if packet.len() != SHORT_SIZE {
            return C3;
        }
        packet.copy_from_slice(&build_content_reply(MadeContentReply { sequence, status }));
        SERVED
    }

    fn read_version_reply(&self, packet: &[u8], components: &mut [u8]) -> VersionReply {
        if components.len() != COMPONENTS_SIZE {
            return VersionReply { number: C3, count: 0, protocol: 0 };
        }
        let read = read_version_reply(packet);
        let reply = read.unwrap_or_default();
        let listed = reply.components.each_ref().map(|running| (running.version.number(), running.id, running.platform));
        components.copy_from_slice(&components_bytes(&listed));
        VersionReply { number: packet_number(&read), count: reply.count, protocol: reply.protocol }
    }

    fn read_offer(&self, packet: &[u8]) -> OfferPacket {
        let none = OfferPacket::default();
        match read_offer_packet(packet) {
            Err(_) => OfferPacket { number: P1, ..none },
            Ok(MadeOfferPacket::Offer(o)) => OfferPacket {
                kind: KIND_OFFER,
                offer: Offer {
                    segment: o.segment,
                    force_immediate_reset: o.force_immediate_reset as u8,
                    force_ignore_version: o.force_ignore_version as u8,
                    id: o.id,
                    token: o.token,
                    version: parts(o.version),
                    need: o.need,
                    least: o.least,
                    protocol: o.protocol,
                    platform: o.platform,
                },
                ..none
            },
            Ok(MadeOfferPacket::Information(s)) => OfferPacket { kind: KIND_INFORMATION, signal: Signal { code: s.code, token: s.token }, ..none },
            Ok(MadeOfferPacket::Extended(s)) => OfferPacket { kind: KIND_EXTENDED, signal: Signal { code: s.code, token: s.token }, ..none },
        }
    }

    fn read_offer_reply(&self, packet: &[u8]) -> OfferReply {
        let read = read_offer_reply(packet);
        let reply = read.unwrap_or_default();
        OfferReply { number: packet_number(&read), token: reply.token, reason: reply.reason, status: reply.status }
    }

    fn read_content(&self, packet: &[u8], bytes: &mut [u8]) -> Content {
        if bytes.len() != DATA_SIZE {
            return Content { number: C3, ..Default::default() };
        }
        let read = read_content(packet);
        let content = read.unwrap_or_default();
        bytes.copy_from_slice(&content.data);
        Content {
            number: packet_number(&read),
            flags: content.flags,
            length: content.length,
            sequence: content.sequence,
            address: content.address.number(),
        }
    }

    fn read_content_reply(&self, packet: &[u8]) -> ContentReply {
        let read = read_content_reply(packet);
        let reply = read.unwrap_or_default();
        ContentReply { number: packet_number(&read), sequence: reply.sequence, status: reply.status }
    }
}
