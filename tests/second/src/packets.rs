//! "Packets": the seven packets, built and read, with rows P1 and P2.

use crate::refusal::{Judged, Refusal};
use crate::version::Version;

/// Length of an offer packet and of every reply but the version reply.
pub const SHORT: usize = 16;
/// Length of a content packet and of the version reply.
pub const LONG: usize = 60;
/// Most components on a device.
pub const MOST: usize = 7;
/// Most data bytes in one content packet.
pub const DATA: usize = 52;

pub const PROTOCOL: u8 = 2;

pub const ID_INFORMATION: u8 = 0xFF;
pub const ID_EXTENDED: u8 = 0xFE;

pub const START_TRANSACTION: u8 = 0;
pub const START_LIST: u8 = 1;
pub const END_LIST: u8 = 2;
pub const NOTIFY_ON_READY: u8 = 1;

pub const SKIP: u8 = 0;
pub const ACCEPT: u8 = 1;
pub const REJECT: u8 = 2;
pub const BUSY: u8 = 3;
pub const READY: u8 = 4;
pub const UNSUPPORTED: u8 = 0xFF;

pub const REASON_OLD: u8 = 0;
pub const REASON_COMPONENT: u8 = 1;
pub const REASON_PENDING: u8 = 2;
pub const REASON_PROTOCOL: u8 = 0xE0;
pub const REASON_SEGMENT: u8 = 0xE1;
pub const REASON_VARIANT: u8 = 0xE2;

pub const FIRST: u8 = 0x80;
pub const LAST: u8 = 0x40;

/// Byte 1 of an offer.
const FLAG_I: u8 = 0x40;
const FLAG_V: u8 = 0x80;

// ---------------------------------------------------------------- kinds

/// "Byte 2 of an offer packet decides its kind."
#[derive(Clone, Copy, Debug, PartialEq, Eq)]
pub enum OfferKind {
    Offer,
    Information,
    Extended,
}

/// The kind that byte 2 decides.
pub fn kind_of(byte_2: u8) -> OfferKind {
    match byte_2 {
        ID_INFORMATION => OfferKind::Information,
        ID_EXTENDED => OfferKind::Extended,
        _ => OfferKind::Offer,
    }
}

// -------------------------------------------------------- version reply

/// One component's eight bytes.
#[derive(Clone, Copy, Debug, Default, PartialEq, Eq)]
pub struct VersionEntry {
    pub version: Version,
    pub id: u8,
    pub platform: u16,
}

/// Version reply (CFU 5.1). Entries at or past the count are unused.
#[derive(Clone, Copy, Debug, Default, PartialEq, Eq)]
pub struct VersionReply {
    pub count: u8,
    pub protocol: u8,
    pub entries: [VersionEntry; MOST],
}

/// P2, version reply, either way: count over 7 or protocol not 2.
fn version_reply_refused(count: u8, protocol: u8) -> bool {
    count as usize > MOST || protocol != PROTOCOL
}

pub fn build_version_reply(fields: &VersionReply) -> Judged<[u8; LONG]> {
    let mut packet = [0u8; LONG];
    if version_reply_refused(fields.count, fields.protocol) {
        return Judged::refused(Refusal::P2, packet);
    }
    packet[0] = fields.count;
    packet[3] = fields.protocol;
    for (slot, entry) in fields.entries.iter().take(fields.count as usize).enumerate() {
        let at = 4 + 8 * slot;
        packet[at..at + 4].copy_from_slice(&entry.version.to_bytes());
        packet[at + 5] = entry.id;
        packet[at + 6..at + 8].copy_from_slice(&entry.platform.to_le_bytes());
    }
    Judged::served(packet)
}

pub fn read_version_reply(packet: &[u8]) -> Judged<VersionReply> {
    let mut fields = VersionReply::default();
    if packet.len() != LONG {
        return Judged::refused(Refusal::P1, fields);
    }
    let count = packet[0];
    let protocol = packet[3] & 0x0F;
    if version_reply_refused(count, protocol) {
        return Judged::refused(Refusal::P2, fields);
    }
    fields.count = count;
    fields.protocol = protocol;
    for slot in 0..count as usize {
        let at = 4 + 8 * slot;
        fields.entries[slot] = VersionEntry {
            version: Version::from_bytes(&packet[at..at + 4]),
            id: packet[at + 5],
            platform: u16::from_le_bytes([packet[at + 6], packet[at + 7]]),
        };
    }
    Judged::served(fields)
}

// ---------------------------------------------------------------- offer

/// Offer (CFU 5.2).
#[derive(Clone, Copy, Debug, Default, PartialEq, Eq)]
pub struct Offer {
    pub segment: u8,
    pub immediate_reset: bool,
    pub ignore_version: bool,
    pub id: u8,
    pub token: u8,
    pub version: Version,
    /// Byte 8: needed component, 0 for none.
    pub need_id: u8,
    /// Bytes 9-11: least version, a 24-bit number.
    pub need_least: u32,
    /// Low four bits of byte 12.
    pub protocol: u8,
    pub platform: u16,
}

/// P2, offer: a value too large for its field, or an id over 0xFD.
fn offer_refused(fields: &Offer) -> bool {
    fields.need_least > 0x00FF_FFFF || fields.protocol > 0x0F || fields.id > 0xFD
}

pub fn build_offer(fields: &Offer) -> Judged<[u8; SHORT]> {
    let mut packet = [0u8; SHORT];
    if offer_refused(fields) {
        return Judged::refused(Refusal::P2, packet);
    }
    packet[0] = fields.segment;
    packet[1] = offer_flags(fields);
    packet[2] = fields.id;
    packet[3] = fields.token;
    packet[4..8].copy_from_slice(&fields.version.to_bytes());
    packet[8] = fields.need_id;
    packet[9..12].copy_from_slice(&fields.need_least.to_le_bytes()[0..3]);
    packet[12] = fields.protocol;
    packet[14..16].copy_from_slice(&fields.platform.to_le_bytes());
    Judged::served(packet)
}

/// Byte 1: bit 6 = I, bit 7 = V.
fn offer_flags(fields: &Offer) -> u8 {
    let i = if fields.immediate_reset { FLAG_I } else { 0 };
    let v = if fields.ignore_version { FLAG_V } else { 0 };
    i | v
}

pub fn read_offer(packet: &[u8]) -> Judged<Offer> {
    if packet.len() != SHORT {
        return Judged::refused(Refusal::P1, Offer::default());
    }
    Judged::served(Offer {
        segment: packet[0],
        immediate_reset: packet[1] & FLAG_I != 0,
        ignore_version: packet[1] & FLAG_V != 0,
        id: packet[2],
        token: packet[3],
        version: Version::from_bytes(&packet[4..8]),
        need_id: packet[8],
        need_least: u32::from_le_bytes([packet[9], packet[10], packet[11], 0]),
        protocol: packet[12] & 0x0F,
        platform: u16::from_le_bytes([packet[14], packet[15]]),
    })
}

// --------------------------------------------- information and extended

/// Information (byte 2 = 0xFF) or Extended (byte 2 = 0xFE).
#[derive(Clone, Copy, Debug, Default, PartialEq, Eq)]
pub struct Code {
    pub code: u8,
    pub token: u8,
}

pub fn build_information(fields: &Code) -> Judged<[u8; SHORT]> {
    Judged::served(code_packet(fields, ID_INFORMATION))
}

pub fn build_extended(fields: &Code) -> Judged<[u8; SHORT]> {
    Judged::served(code_packet(fields, ID_EXTENDED))
}

fn code_packet(fields: &Code, id: u8) -> [u8; SHORT] {
    let mut packet = [0u8; SHORT];
    packet[0] = fields.code;
    packet[2] = id;
    packet[3] = fields.token;
    packet
}

pub fn read_information(packet: &[u8]) -> Judged<Code> {
    read_code(packet)
}

pub fn read_extended(packet: &[u8]) -> Judged<Code> {
    read_code(packet)
}

fn read_code(packet: &[u8]) -> Judged<Code> {
    if packet.len() != SHORT {
        return Judged::refused(Refusal::P1, Code::default());
    }
    Judged::served(Code { code: packet[0], token: packet[3] })
}

// ---------------------------------------------------------- offer reply

/// Offer reply, of all three kinds.
#[derive(Clone, Copy, Debug, Default, PartialEq, Eq)]
pub struct OfferReply {
    pub token: u8,
    pub reason: u8,
    pub status: u8,
}

pub fn build_offer_reply(fields: &OfferReply) -> Judged<[u8; SHORT]> {
    let mut packet = [0u8; SHORT];
    packet[3] = fields.token;
    packet[8] = fields.reason;
    packet[12] = fields.status;
    Judged::served(packet)
}

pub fn read_offer_reply(packet: &[u8]) -> Judged<OfferReply> {
    if packet.len() != SHORT {
        return Judged::refused(Refusal::P1, OfferReply::default());
    }
    Judged::served(OfferReply {
        token: packet[3],
        reason: packet[8],
        status: packet[12],
    })
}

// -------------------------------------------------------------- content

/// Content (CFU 5.5).
#[derive(Clone, Copy, Debug, PartialEq, Eq)]
pub struct Content {
    pub flags: u8,
    pub length: u8,
    pub sequence: u16,
    pub address: u32,
    pub data: [u8; DATA],
}

impl Content {
    /// "all fields zero".
    pub const ZERO: Content =
        Content { flags: 0, length: 0, sequence: 0, address: 0, data: [0; DATA] };
}

/// A flag bit other than the two.
pub fn other_flags(flags: u8) -> bool {
    flags & !(FIRST | LAST) != 0
}

/// Length 1-52.
pub fn length_fits(length: u8) -> bool {
    (1..=DATA).contains(&(length as usize))
}

/// Data with the unused bytes zeroed.
fn used_data(data: &[u8], length: u8) -> [u8; DATA] {
    let used = (length as usize).min(DATA);
    let mut out = [0u8; DATA];
    out[..used].copy_from_slice(&data[..used]);
    out
}

pub fn build_content(fields: &Content) -> Judged<[u8; LONG]> {
    let mut packet = [0u8; LONG];
    // P2: other content flags, content length not 1-52.
    if other_flags(fields.flags) || !length_fits(fields.length) {
        return Judged::refused(Refusal::P2, packet);
    }
    packet[0] = fields.flags;
    packet[1] = fields.length;
    packet[2..4].copy_from_slice(&fields.sequence.to_le_bytes());
    packet[4..8].copy_from_slice(&fields.address.to_le_bytes());
    packet[8..60].copy_from_slice(&used_data(&fields.data, fields.length));
    Judged::served(packet)
}

pub fn read_content(packet: &[u8]) -> Judged<Content> {
    if packet.len() != LONG {
        return Judged::refused(Refusal::P1, Content::ZERO);
    }
    Judged::served(Content {
        flags: packet[0],
        length: packet[1],
        sequence: u16::from_le_bytes([packet[2], packet[3]]),
        address: u32::from_le_bytes([packet[4], packet[5], packet[6], packet[7]]),
        data: used_data(&packet[8..60], packet[1]),
    })
}

// -------------------------------------------------------- content reply

/// Content reply.
#[derive(Clone, Copy, Debug, Default, PartialEq, Eq)]
pub struct ContentReply {
    pub sequence: u16,
    pub status: u8,
}

pub fn build_content_reply(fields: &ContentReply) -> Judged<[u8; SHORT]> {
    let mut packet = [0u8; SHORT];
    packet[0..2].copy_from_slice(&fields.sequence.to_le_bytes());
    packet[4] = fields.status;
    Judged::served(packet)
}

pub fn read_content_reply(packet: &[u8]) -> Judged<ContentReply> {
    if packet.len() != SHORT {
        return Judged::refused(Refusal::P1, ContentReply::default());
    }
    Judged::served(ContentReply {
        sequence: u16::from_le_bytes([packet[0], packet[1]]),
        status: packet[4],
    })
}
