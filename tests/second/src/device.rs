//! "The device": set-up, the offer entry, the content entry, the version
//! reply and the reset, with rows S1-S5 and D1-D3.

use crate::crc::crc;
use crate::packets::*;
use crate::refusal::{Judged, Refusal};
use crate::version::Version;

/// S1: most bytes of staging.
pub const MOST_STAGING: u64 = 65_536;
/// S4: least bytes of a region.
pub const LEAST_REGION: u32 = 8;

/// An address inside a region.
#[derive(Clone, Copy, Debug, Default, PartialEq, Eq)]
pub struct RegionAddress(pub u32);

/// An offset into the staging buffer.
#[derive(Clone, Copy, Debug, Default, PartialEq, Eq)]
pub struct StagingOffset(pub u32);

/// A component's region in the staging buffer.
#[derive(Clone, Copy, Debug, Default, PartialEq, Eq)]
pub struct Region {
    pub base: StagingOffset,
    pub length: u32,
}

impl Region {
    /// The one place where an address becomes an offset.
    fn offset(self, address: RegionAddress) -> usize {
        self.base.0 as usize + address.0 as usize
    }

    /// The first offset past the region, in a width that holds every sum.
    fn end(self) -> u64 {
        self.base.0 as u64 + self.length as u64
    }

    fn overlaps(self, other: Region) -> bool {
        (self.base.0 as u64) < other.end() && (other.base.0 as u64) < self.end()
    }

    /// Content check 5: address + length over the region's length.
    fn lacks(self, address: RegionAddress, length: u8) -> bool {
        address.0 as u64 + length as u64 > self.length as u64
    }

    /// The region's bytes in the staging buffer.
    fn bytes(self, staging: &[u8]) -> &[u8] {
        let start = self.offset(RegionAddress(0));
        &staging[start..start + self.length as usize]
    }
}

/// A component: id, running version, region, floor (A5), and perhaps a staged
/// version.
#[derive(Clone, Copy, Debug, Default, PartialEq, Eq)]
pub struct Component {
    pub id: u8,
    pub running: Version,
    pub region: Region,
    /// A5: the lowest allowed version, by major-minor; its variant is 0. It
    /// may stand above the running version. Only set-up gives it.
    pub floor: Version,
    pub staged: Option<Version>,
}

impl Component {
    pub fn pending(&self) -> bool {
        self.staged.is_some()
    }

    /// Effective version = staged if pending, else running.
    pub fn effective(&self) -> Version {
        self.staged.unwrap_or(self.running)
    }

    /// Of an image and of a staged version. A1: the variant matches the
    /// running one's and major-minor is not lower. A5: nor below the floor.
    fn may_stage(&self, version: Version) -> bool {
        version.variant() == self.running.variant()
            && version.major_minor() >= self.running.major_minor()
            && !self.below_floor(version)
    }

    /// A5: the floor counts by major-minor; variants are not looked at.
    fn below_floor(&self, version: Version) -> bool {
        version.major_minor() < self.floor.major_minor()
    }
}

/// What an offered session carries.
#[derive(Clone, Copy, Debug, PartialEq, Eq)]
pub struct Offered {
    pub slot: u8,
    pub token: u8,
}

/// What a receiving session carries.
#[derive(Clone, Copy, Debug, PartialEq, Eq)]
pub struct Receiving {
    pub slot: u8,
    pub token: u8,
    pub next: u16,
}

/// A session: idle, offered or receiving.
#[derive(Clone, Copy, Debug, Default, PartialEq, Eq)]
pub enum Stage {
    #[default]
    Idle,
    Offered(Offered),
    Receiving(Receiving),
}

impl Stage {
    /// The slot the session is open on.
    fn slot(self) -> Option<u8> {
        match self {
            Stage::Idle => None,
            Stage::Offered(open) => Some(open.slot),
            Stage::Receiving(open) => Some(open.slot),
        }
    }
}

/// The device's state. The default one is the blank record.
#[derive(Clone, Copy, Debug, PartialEq, Eq)]
pub struct Device {
    pub platform: u16,
    /// Length of the staging buffer at set-up.
    pub staging: u32,
    pub count: u8,
    /// Slots at or past the count are never looked at.
    pub components: [Component; MOST],
    pub stage: Stage,
    /// Token of the owed ready-reply.
    pub owed: Option<u8>,
    /// A4: while receiving, the 60 bytes of the block taken last. Blank from
    /// set-up, an ACCEPT, code 0, a reset and the end of a session on; only a
    /// receiving session looks at it.
    pub previous: [u8; LONG],
}

/// No packet.
const BLANK: [u8; LONG] = [0; LONG];

impl Default for Device {
    fn default() -> Device {
        Device {
            platform: 0,
            staging: 0,
            count: 0,
            components: [Component::default(); MOST],
            stage: Stage::Idle,
            owed: None,
            previous: BLANK,
        }
    }
}

/// A4: what a block is to a receiving session, by check 4.
#[derive(Clone, Copy, Debug, PartialEq, Eq)]
enum Sequence {
    /// The one that is expected.
    Next,
    /// A copy of the block just taken, which was neither first nor last.
    Again,
    /// Anything else.
    Wrong,
}

/// What the content checks make of a block.
#[derive(Clone, Copy, Debug, PartialEq, Eq)]
enum Checked {
    /// Checks 1 to 5: this status, and nothing changes.
    Refused(u8),
    /// Check 4: status 0, and nothing changes.
    Again,
    /// Check 6.
    Taken,
}

/// One component as it is given to set-up.
#[derive(Clone, Copy, Debug, Default, PartialEq, Eq)]
pub struct Listed {
    pub id: u8,
    pub running: Version,
    pub region: Region,
    pub floor: Version,
}

/// What an entry sends.
#[derive(Clone, Copy, Debug, PartialEq, Eq)]
pub enum Answer {
    /// Nothing is sent; the reply value is zeroed.
    Refused(Refusal, [u8; SHORT]),
    NoReply,
    Reply([u8; SHORT]),
    /// The reply, and the owed READY after it.
    ReplyThenReady([u8; SHORT], [u8; SHORT]),
}

fn refused(row: Refusal) -> Answer {
    Answer::Refused(row, [0; SHORT])
}

// --------------------------------------------------------------- set-up

/// Set-up: idle, nothing staged; the staging buffer is only measured.
pub fn set_up(platform: u16, list: &[Listed; MOST], count: u8, staging: &[u8]) -> Judged<Device> {
    let mut components = [Component::default(); MOST];
    for (slot, listed) in list.iter().enumerate().take(count as usize) {
        components[slot] = Component {
            id: listed.id,
            running: listed.running,
            region: listed.region,
            floor: listed.floor,
            staged: None,
        };
    }
    match setup_refusal(staging.len() as u64, count, &components) {
        Some(row) => Judged::refused(row, Device::default()),
        None => Judged::served(Device {
            platform,
            staging: staging.len() as u32,
            count,
            components,
            stage: Stage::Idle,
            owed: None,
            previous: BLANK,
        }),
    }
}

/// Rows S1-S5, one after another over the whole list.
fn setup_refusal(staging: u64, count: u8, components: &[Component; MOST]) -> Option<Refusal> {
    // S1: staging over 65,536 bytes.
    if staging > MOST_STAGING {
        return Some(Refusal::S1);
    }
    // S2: count not 1-7.
    if count < 1 || count as usize > MOST {
        return Some(Refusal::S2);
    }
    let list = &components[..count as usize];
    // S3: id outside 1-0xDF, or repeated.
    if (0..list.len()).any(|slot| id_faulty(list, slot)) {
        return Some(Refusal::S3);
    }
    // S4: region under 8 bytes, past the buffer, or overlapping another.
    if (0..list.len()).any(|slot| region_faulty(staging, list, slot)) {
        return Some(Refusal::S4);
    }
    // S5 (A5): floor with a variant other than 0.
    if list.iter().any(|component| component.floor.variant() != 0) {
        return Some(Refusal::S5);
    }
    None
}

/// S3 for one slot.
fn id_faulty(list: &[Component], slot: usize) -> bool {
    let id = list[slot].id;
    let outside = !(1..=0xDF).contains(&id);
    let repeated = list[..slot].iter().any(|earlier| earlier.id == id);
    outside || repeated
}

/// S4 for one slot.
fn region_faulty(staging: u64, list: &[Component], slot: usize) -> bool {
    let region = list[slot].region;
    let small = region.length < LEAST_REGION;
    let past = region.end() > staging;
    let overlapping = list[..slot].iter().any(|earlier| earlier.region.overlaps(region));
    small || past || overlapping
}

// ----------------------------------------------------------- rows D1-D3

impl Device {
    /// The listed components.
    pub fn listed(&self) -> &[Component] {
        &self.components[..(self.count as usize).min(MOST)]
    }

    /// D1: state breaks S1-S5, opens on an unlisted or pending component,
    /// owes while idle, has a staged version below running by major-minor, of
    /// another variant (A1) or below the floor (A5), or receives after a
    /// packet whose sequence is not just before the next (A4).
    fn breaks_d1(&self) -> bool {
        setup_refusal(self.staging as u64, self.count, &self.components).is_some()
            || self.opens_wrongly()
            || (self.stage == Stage::Idle && self.owed.is_some())
            || self.listed().iter().any(|c| c.staged.is_some_and(|staged| !c.may_stage(staged)))
            || self.follows_wrongly()
    }

    /// D1: opens on an unlisted or pending component.
    fn opens_wrongly(&self) -> bool {
        match self.stage.slot() {
            None => false,
            Some(slot) => match self.listed().get(slot as usize) {
                None => true,
                Some(component) => component.pending(),
            },
        }
    }

    /// D1, A4's clause: receiving, and one more than the previous packet's
    /// sequence, modulo 65,536, is not the next.
    fn follows_wrongly(&self) -> bool {
        match self.stage {
            Stage::Idle | Stage::Offered(_) => false,
            Stage::Receiving(open) => {
                after(read_content(&self.previous).value.sequence) != open.next
            }
        }
    }

    /// D1, D2, D3 in this order.
    fn refusal(&self, staging: &[u8], report: &[u8], length: usize) -> Option<Refusal> {
        if self.breaks_d1() {
            return Some(Refusal::D1);
        }
        if staging.len() as u64 != self.staging as u64 {
            return Some(Refusal::D2);
        }
        if report.len() != length {
            return Some(Refusal::D3);
        }
        None
    }

    // ------------------------------------------------ version reply, reset

    /// Version reply; D1 only.
    pub fn version_reply(&self) -> Judged<[u8; LONG]> {
        if self.breaks_d1() {
            return Judged::refused(Refusal::D1, [0; LONG]);
        }
        let mut fields = VersionReply { count: self.count, protocol: PROTOCOL, ..Default::default() };
        for (slot, component) in self.listed().iter().enumerate() {
            fields.entries[slot] = VersionEntry {
                version: component.running,
                id: component.id,
                platform: self.platform,
            };
        }
        build_version_reply(&fields)
    }

    /// "A reset makes staged versions running, clears pending and the owed
    /// reply, and idles." The floor stays. D1 only.
    pub fn reset(self) -> Judged<Device> {
        if self.breaks_d1() {
            return Judged::refused(Refusal::D1, self);
        }
        let mut next = self;
        for component in next.components.iter_mut().take(self.count as usize) {
            component.running = component.effective();
            component.staged = None;
        }
        next.stage = Stage::Idle;
        next.owed = None;
        next.previous = BLANK;
        Judged::served(next)
    }

    // ---------------------------------------------------------- offer entry

    /// The offer entry: offers, information and extended. It is lent the
    /// staging buffer for its length alone.
    pub fn offer(self, staging: &[u8], report: &[u8]) -> (Device, Answer) {
        if let Some(row) = self.refusal(staging, report, SHORT) {
            return (self, refused(row));
        }
        match kind_of(report[2]) {
            OfferKind::Information => self.information(read_information(report).value),
            OfferKind::Extended => self.extended(read_extended(report).value),
            OfferKind::Offer => self.judge_offer(&read_offer(report).value),
        }
    }

    /// Information: codes 0-2 always get ACCEPT, others 0xFF.
    fn information(self, asked: Code) -> (Device, Answer) {
        let mut next = self;
        let status = match asked.code {
            START_TRANSACTION => {
                // Code 0 makes the session idle and drops an owed reply.
                next.stage = Stage::Idle;
                next.owed = None;
                next.previous = BLANK;
                ACCEPT
            }
            START_LIST | END_LIST => ACCEPT,
            _ => UNSUPPORTED,
        };
        (next, reply_to_offer(asked.token, status, 0))
    }

    /// Extended: notify on ready; other codes 0xFF.
    fn extended(self, asked: Code) -> (Device, Answer) {
        if asked.code != NOTIFY_ON_READY {
            return (self, reply_to_offer(asked.token, UNSUPPORTED, 0));
        }
        // READY when idle.
        if self.stage == Stage::Idle {
            return (self, reply_to_offer(asked.token, READY, 0));
        }
        // BUSY if one is owed already.
        if self.owed.is_some() {
            return (self, reply_to_offer(asked.token, BUSY, 0));
        }
        // Otherwise no reply now, and it is owed.
        let mut next = self;
        next.owed = Some(asked.token);
        (next, Answer::NoReply)
    }

    /// Offers, first check that applies.
    fn judge_offer(self, offer: &Offer) -> (Device, Answer) {
        let (status, reason, slot) = self.offer_status(offer);
        let mut next = self;
        if let Some(slot) = slot {
            next.stage = Stage::Offered(Offered { slot, token: offer.token });
            next.previous = BLANK;
        }
        (next, reply_to_offer(offer.token, status, reason))
    }

    /// Checks 1 to 9, with A1's between 6 and 7: status, reason, and the
    /// slot where it is accepted.
    fn offer_status(&self, offer: &Offer) -> (u8, u8, Option<u8>) {
        // 1. session not idle: BUSY.
        if self.stage != Stage::Idle {
            return (BUSY, 0, None);
        }
        // 2. protocol not 2: REJECT 0xE0.
        if offer.protocol != PROTOCOL {
            return (REJECT, REASON_PROTOCOL, None);
        }
        // 3. id not on the device: REJECT 1.
        let slot = match self.slot_of(offer.id) {
            None => return (REJECT, REASON_COMPONENT, None),
            Some(slot) => slot,
        };
        let component = self.components[slot];
        // 4. platform differs: REJECT 1.
        if offer.platform != self.platform {
            return (REJECT, REASON_COMPONENT, None);
        }
        // 5. segment not 0: REJECT 0xE1.
        if offer.segment != 0 {
            return (REJECT, REASON_SEGMENT, None);
        }
        // 6. component pending: REJECT 2.
        if component.pending() {
            return (REJECT, REASON_PENDING, None);
        }
        // A1. variant differs from the running one: REJECT 0xE2.
        if offer.version.variant() != component.running.variant() {
            return (REJECT, REASON_VARIANT, None);
        }
        // 7. version divided by 256 (A1) not greater than running, or below
        // the floor (A5): REJECT 0.
        if offer.version.major_minor() <= component.running.major_minor()
            || component.below_floor(offer.version)
        {
            return (REJECT, REASON_OLD, None);
        }
        // 8. need not met: SKIP.
        if !self.meets(offer.need_id, offer.need_least) {
            return (SKIP, 0, None);
        }
        // 9. ACCEPT; the session becomes offered.
        (ACCEPT, 0, Some(slot as u8))
    }

    /// The slot of a listed id (0 and 0xE0-0xFD never are, by S3).
    fn slot_of(&self, id: u8) -> Option<usize> {
        self.listed().iter().position(|c| c.id == id)
    }

    /// Check 8: byte 8 is 0, or that component's effective version divided
    /// by 256 is not below the 24-bit number.
    fn meets(&self, need_id: u8, need_least: u32) -> bool {
        if need_id == 0 {
            return true;
        }
        match self.slot_of(need_id) {
            None => false,
            Some(slot) => self.components[slot].effective().major_minor() >= need_least,
        }
    }

    // -------------------------------------------------------- content entry

    /// The content entry.
    pub fn content(self, staging: &mut [u8], report: &[u8]) -> (Device, Answer) {
        if let Some(row) = self.refusal(staging, report, LONG) {
            return (self, refused(row));
        }
        let block = read_content(report).value;
        match self.check_content(&block, report) {
            Checked::Refused(status) => {
                (self, Answer::Reply(content_reply(block.sequence, status)))
            }
            Checked::Again => (self, Answer::Reply(content_reply(block.sequence, 0))),
            Checked::Taken => self.take(staging, &block, report),
        }
    }

    /// Content checks 1 to 5, the fourth with A4's three results; `report`
    /// is the block as it came.
    fn check_content(&self, block: &Content, report: &[u8]) -> Checked {
        // 1. idle: 0x0A.
        let slot = match self.stage.slot() {
            None => return Checked::Refused(0x0A),
            Some(slot) => slot as usize,
        };
        // 2. length 0 or over 52, or a flag bit other than the two: 0x0B.
        if !length_fits(block.length) || other_flags(block.flags) {
            return Checked::Refused(0x0B);
        }
        let first = block.flags & FIRST != 0;
        match self.stage {
            // 3. offered without first: 0x0B.
            Stage::Offered(_) if !first => return Checked::Refused(0x0B),
            // 3. receiving with first: 0x0B.
            Stage::Receiving(_) if first => return Checked::Refused(0x0B),
            // 4. receiving: the next one goes on, the last one's copy is
            // answered with 0, any other is 0x0B.
            Stage::Receiving(open) => match self.sequence(open, block, report) {
                Sequence::Next => {}
                Sequence::Again => return Checked::Again,
                Sequence::Wrong => return Checked::Refused(0x0B),
            },
            _ => {}
        }
        // 5. address + length over the region's length: 0x09.
        let region = self.components[slot].region;
        if region.lacks(RegionAddress(block.address), block.length) {
            return Checked::Refused(0x09);
        }
        Checked::Taken
    }

    /// Check 4. By D1 the previous packet's sequence is not the next one, so
    /// that no block is both.
    fn sequence(&self, open: Receiving, block: &Content, report: &[u8]) -> Sequence {
        if block.sequence == open.next {
            return Sequence::Next;
        }
        let middle = read_content(&self.previous).value.flags & (FIRST | LAST) == 0;
        if middle && report == self.previous {
            Sequence::Again
        } else {
            Sequence::Wrong
        }
    }

    /// Check 6: erase on first, write, judge on last.
    fn take(self, staging: &mut [u8], block: &Content, report: &[u8]) -> (Device, Answer) {
        let (slot, token) = match self.stage {
            Stage::Idle => return (self, Answer::NoReply), // kept out by check 1
            Stage::Offered(open) => (open.slot, open.token),
            Stage::Receiving(open) => (open.slot, open.token),
        };
        let component = self.components[slot as usize];
        if block.flags & FIRST != 0 {
            erase(staging, component.region);
        }
        write(staging, component.region, block);
        if block.flags & LAST != 0 {
            return self.finish(staging, slot as usize, block.sequence);
        }
        // Not last: status 0, receiving, and its 60 bytes are held.
        let mut next = self;
        next.stage = Stage::Receiving(Receiving { slot, token, next: after(block.sequence) });
        next.previous.copy_from_slice(report);
        (next, Answer::Reply(content_reply(block.sequence, 0)))
    }

    /// Last block: image judgement, idle, and the owed READY.
    fn finish(self, staging: &[u8], slot: usize, sequence: u16) -> (Device, Answer) {
        let component = self.components[slot];
        let image = component.region.bytes(staging);
        let status = judge_image(&component, image);
        let mut next = self;
        next.stage = Stage::Idle;
        next.owed = None;
        next.previous = BLANK;
        if status == 0 {
            // Success: pending with the image's version.
            next.components[slot].staged = Some(image_version(image));
        }
        let reply = content_reply(sequence, status);
        let answer = match self.owed {
            None => Answer::Reply(reply),
            // The owed READY, with its own token, follows the reply.
            Some(token) => Answer::ReplyThenReady(reply, offer_reply(token, READY, 0)),
        };
        (next, answer)
    }
}

/// One more, with 65,535 followed by 0.
fn after(sequence: u16) -> u16 {
    sequence.wrapping_add(1)
}

/// On first, fill the region with 0xFF.
fn erase(staging: &mut [u8], region: Region) {
    let start = region.offset(RegionAddress(0));
    staging[start..start + region.length as usize].fill(0xFF);
}

/// Write the data at its address in the region.
fn write(staging: &mut [u8], region: Region, block: &Content) {
    let start = region.offset(RegionAddress(block.address));
    let length = block.length as usize;
    staging[start..start + length].copy_from_slice(&block.data[..length]);
}

// ------------------------------------------------------ image judgement

/// Bytes 0-3.
pub fn image_version(image: &[u8]) -> Version {
    Version::from_bytes(&image[0..4])
}

/// Wrong CRC 0x05; wrong id 0x04; another variant, a lower major-minor (A1)
/// or one below the floor (A5) 0x07; else 0.
fn judge_image(component: &Component, image: &[u8]) -> u8 {
    if !crc_right(image) {
        return 0x05;
    }
    if image[4] != component.id {
        return 0x04;
    }
    if !component.may_stage(image_version(image)) {
        return 0x07;
    }
    0
}

/// The last two bytes are the CRC, high byte first, of all before them.
pub fn crc_right(image: &[u8]) -> bool {
    let body = image.len() - 2;
    crc(&image[..body]).to_be_bytes() == image[body..]
}

// -------------------------------------------------------------- replies

/// "The device sends reason zero unless REJECT."
fn offer_reply(token: u8, status: u8, reason: u8) -> [u8; SHORT] {
    build_offer_reply(&OfferReply { token, reason, status }).value
}

fn reply_to_offer(token: u8, status: u8, reason: u8) -> Answer {
    Answer::Reply(offer_reply(token, status, reason))
}

fn content_reply(sequence: u16, status: u8) -> [u8; SHORT] {
    build_content_reply(&ContentReply { sequence, status }).value
}
