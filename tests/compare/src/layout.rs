//! The formats for the tests in Rust, each stated once: the numbers of include/cfu.h, the places of the fields in packets, image, bundle and records, and the
//! records as fields.
//!
//! build.rs checks the numbers against the header. The file needs no other: tools/rust_crate copies it into the crate that it makes, for the tests there.

use std::ops::Range;

// ---------------------------------------------------------------- the header's numbers

pub const INTERFACE_MAJOR: u32 = 3;
pub const INTERFACE_MINOR: u32 = 0;

pub const DEVICE_SIZE: usize = 228;
pub const LIST_SIZE: usize = 119;
pub const HOST_SIZE: usize = 25;
pub const CONTENTS_SIZE: usize = 103;
pub const REPLIES_SIZE: usize = 32;
pub const SHORT_SIZE: usize = 16;
pub const LONG_SIZE: usize = 60;
pub const DATA_AT: usize = 8;
pub const DATA_SIZE: usize = 52;
pub const COMPONENTS_SIZE: usize = 49;

pub const DEVICE_SESSION_AT: usize = 7;
pub const DEVICE_OWED_AT: usize = 12;
pub const DEVICE_PREVIOUS_AT: usize = 14;
pub const DEVICE_COMPONENTS_AT: usize = 74;
pub const COMPONENT_SIZE: usize = 22;
pub const COMPONENT_RUNNING_AT: usize = 1;
pub const COMPONENT_REGION_AT: usize = 5;
pub const COMPONENT_FLOOR_AT: usize = 13;
pub const COMPONENT_STAGED_AT: usize = 17;
pub const LISTED_SIZE: usize = 17;
pub const RUNNING_SIZE: usize = 7;
pub const RUNNING_ID_AT: usize = 4;
pub const BUNDLE_HEAD_SIZE: usize = 8;
pub const BUNDLE_ENTRY_SIZE: usize = 24;
pub const CONTENTS_BODIES_AT: usize = 3;
pub const BODY_SIZE: usize = 12;
pub const BODY_RECORDS_AT: usize = 8;
pub const CONTENTS_HAND_AT: usize = 87;
pub const CONTENTS_CURSOR_AT: usize = 95;
pub const HOST_STAGE_AT: usize = 1;
pub const HOST_FIRST_AT: usize = 2;
pub const HOST_SECOND_AT: usize = 6;
pub const HOST_MASK_AT: usize = 10;
pub const HOST_SKIPPED_AT: usize = 22;
pub const HOST_LANDED_AT: usize = 23;
pub const HOST_PASSED_AT: usize = 24;

pub const STAGING_LIMIT: usize = 65536;
pub const BUNDLE_LIMIT: usize = 65536;
pub const COMPONENT_LIMIT: usize = 7;
pub const OFFER_LIMIT: usize = 7;
pub const REGION_LEAST: usize = 8;
pub const ID_LIMIT: u8 = 0xDF;

pub const SERVED: u32 = 0;
pub const C1: u32 = 0x4301;
pub const C2: u32 = 0x4302;
pub const C3: u32 = 0x4303;
pub const C4: u32 = 0x4304;
pub const S1: u32 = 0x5301;
pub const S2: u32 = 0x5302;
pub const S3: u32 = 0x5303;
pub const S4: u32 = 0x5304;
pub const S5: u32 = 0x5305;
pub const D1: u32 = 0x4401;
pub const D2: u32 = 0x4402;
pub const D3: u32 = 0x4403;
pub const P1: u32 = 0x5001;
pub const P2: u32 = 0x5002;
pub const N1: u32 = 0x4E01;
pub const B1: u32 = 0x4201;
pub const B2: u32 = 0x4202;
pub const B3: u32 = 0x4203;
pub const B4: u32 = 0x4204;
pub const B5: u32 = 0x4205;
pub const B6: u32 = 0x4206;
pub const B7: u32 = 0x4207;
pub const B8: u32 = 0x4208;
pub const W1: u32 = 0x5701;
pub const W2: u32 = 0x5702;
pub const W3: u32 = 0x5703;
pub const W4: u32 = 0x5704;
pub const W5: u32 = 0x5705;
pub const W6: u32 = 0x5706;
pub const W7: u32 = 0x5707;
pub const W8: u32 = 0x5708;

pub const RUNNING: u32 = 0;
pub const DONE: u32 = 1;
pub const H1: u32 = 0x4801;
pub const H2: u32 = 0x4802;
pub const H3: u32 = 0x4803;
pub const H4: u32 = 0x4804;

pub const PROTOCOL: u8 = 2;
pub const KIND_NONE: u32 = 0;
pub const KIND_OFFER: u32 = 1;
pub const KIND_INFORMATION: u32 = 2;
pub const KIND_EXTENDED: u32 = 3;
pub const INFO_START_ENTIRE_TRANSACTION: u8 = 0;
pub const INFO_START_OFFER_LIST: u8 = 1;
pub const INFO_END_OFFER_LIST: u8 = 2;
pub const NOTIFY_ON_READY: u8 = 1;
pub const OFFER_SKIP: u8 = 0;
pub const OFFER_ACCEPT: u8 = 1;
pub const OFFER_REJECT: u8 = 2;
pub const OFFER_BUSY: u8 = 3;
pub const OFFER_READY: u8 = 4;
pub const OFFER_UNSUPPORTED: u8 = 0xFF;
pub const REJECT_OLD_FW: u8 = 0;
pub const REJECT_INV_COMPONENT: u8 = 1;
pub const REJECT_SWAP_PENDING: u8 = 2;
pub const REJECT_WRONG_PROTOCOL: u8 = 0xE0;
pub const REJECT_WRONG_SEGMENT: u8 = 0xE1;
pub const REJECT_WRONG_VARIANT: u8 = 0xE2;
pub const FLAG_FIRST_BLOCK: u8 = 0x80;
pub const FLAG_LAST_BLOCK: u8 = 0x40;
pub const SUCCESS: u8 = 0;
pub const ERROR_VERIFY: u8 = 0x04;
pub const ERROR_CRC: u8 = 0x05;
pub const ERROR_VERSION: u8 = 0x07;
pub const ERROR_INVALID_ADDR: u8 = 0x09;
pub const ERROR_NO_OFFER: u8 = 0x0A;
pub const ERROR_INVALID: u8 = 0x0B;

// ---------------------------------------------------------------- numbers in bytes

/// A little-endian number of up to eight bytes.
pub fn number(bytes: &[u8]) -> u64 {
    bytes.iter().rev().fold(0, |value, byte| value * 256 + *byte as u64)
}

#[inline]
pub fn four(bytes: &[u8]) -> u32 {
    u32::from_le_bytes([bytes[0], bytes[1], bytes[2], bytes[3]])
}

#[inline]
pub fn two(bytes: &[u8]) -> u16 {
    u16::from_le_bytes([bytes[0], bytes[1]])
}

/// Writes bytes at a place.
pub fn put(out: &mut [u8], at: usize, bytes: &[u8]) {
    out[at..at + bytes.len()].copy_from_slice(bytes);
}

// ---------------------------------------------------------------- packets

pub mod offer_at {
    pub const SEGMENT: usize = 0;
    /// CFU's I is bit 6, V is bit 7.
    pub const FLAGS: usize = 1;
    pub const ID: usize = 2;
    pub const TOKEN: usize = 3;
    pub const VERSION: usize = 4;
    pub const NEED: usize = 8;
    pub const LEAST: usize = 9;
    pub const PROTOCOL: usize = 12;
    pub const RESERVED: usize = 13;
    pub const PLATFORM: usize = 14;
}

/// Information and extended. Byte 2 decides the kind of every packet of the offer channel.
pub mod signal_at {
    pub const CODE: usize = 0;
    pub const KIND: usize = 2;
    pub const TOKEN: usize = 3;
}

pub const INFORMATION: u8 = 0xFF;
pub const EXTENDED: u8 = 0xFE;

pub mod offer_reply_at {
    pub const TOKEN: usize = 3;
    pub const REASON: usize = 8;
    pub const STATUS: usize = 12;
}

pub mod content_at {
    pub const FLAGS: usize = 0;
    pub const LENGTH: usize = 1;
    pub const SEQUENCE: usize = 2;
    pub const ADDRESS: usize = 4;
    pub const DATA: usize = super::DATA_AT;
}

pub mod content_reply_at {
    pub const SEQUENCE: usize = 0;
    pub const STATUS: usize = 4;
}

pub mod version_reply_at {
    pub const COUNT: usize = 0;
    pub const PROTOCOL: usize = 3;
    /// For each component its running version (4), a zero, its id, the platform (2).
    pub const COMPONENTS: usize = 4;
    pub const COMPONENT_SIZE: usize = 8;
}

const _: () = assert!(content_at::DATA + DATA_SIZE == LONG_SIZE);
const _: () = assert!(version_reply_at::COMPONENTS + COMPONENT_LIMIT * version_reply_at::COMPONENT_SIZE == LONG_SIZE);

/// An offer that row B5 allows, without a token.
pub fn offer_packet(id: u8, version: u32, need: [u8; 4], platform: u16) -> [u8; SHORT_SIZE] {
    let mut out = [0; SHORT_SIZE];
    out[offer_at::ID] = id;
    put(&mut out, offer_at::VERSION, &version.to_le_bytes());
    put(&mut out, offer_at::NEED, &need);
    out[offer_at::PROTOCOL] = PROTOCOL;
    put(&mut out, offer_at::PLATFORM, &platform.to_le_bytes());
    out
}

/// A needed component and its least version, a version's number without its variant: 24 bits.
pub fn need_bytes(id: u8, least: u32) -> [u8; 4] {
    let bytes = least.to_le_bytes();
    [id, bytes[0], bytes[1], bytes[2]]
}

/// Information or extended.
pub fn signal_packet(kind: u8, code: u8, token: u8) -> [u8; SHORT_SIZE] {
    let mut out = [0; SHORT_SIZE];
    out[signal_at::CODE] = code;
    out[signal_at::KIND] = kind;
    out[signal_at::TOKEN] = token;
    out
}

pub fn content_packet(flags: u8, sequence: u16, address: u32, data: &[u8]) -> [u8; LONG_SIZE] {
    let mut out = [0; LONG_SIZE];
    out[content_at::FLAGS] = flags;
    out[content_at::LENGTH] = data.len() as u8;
    put(&mut out, content_at::SEQUENCE, &sequence.to_le_bytes());
    put(&mut out, content_at::ADDRESS, &address.to_le_bytes());
    put(&mut out, content_at::DATA, data);
    out
}

// ---------------------------------------------------------------- image

pub mod image_at {
    pub const VERSION: usize = 0;
    pub const ID: usize = 4;
}

/// The CRC ends the image.
pub const CRC_SIZE: usize = 2;

/// CRC-16/XMODEM by polynomial division, bit after bit.
pub fn crc(bytes: &[u8]) -> u16 {
    let mut rest: u32 = 0;
    for bit in bytes.iter().flat_map(|byte| (0..8).rev().map(move |place| byte >> place & 1)) {
        let out = (rest >> 15 & 1) ^ bit as u32;
        rest = (rest << 1 & 0xFFFF) ^ (out * 0x1021);
    }
    rest as u16
}

/// Makes bytes an image: its version, its component and its CRC, high byte first, are written over them.
pub fn make_image(bytes: &mut [u8], version: u32, id: u8) {
    put(bytes, image_at::VERSION, &version.to_le_bytes());
    bytes[image_at::ID] = id;
    let end = bytes.len() - CRC_SIZE;
    let check = crc(&bytes[..end]);
    put(bytes, end, &check.to_be_bytes());
}

// ---------------------------------------------------------------- bundle

// Of a bundle's head byte 0 is the count of offers, byte 1 is 1, the others are zero.

/// An entry of the table: the offer, then its body's place and length.
pub mod entry_at {
    pub const OFFSET: usize = 16;
    pub const LENGTH: usize = 20;
}

/// A record of a body.
pub mod record_at {
    pub const ADDRESS: usize = 0;
    pub const LENGTH: usize = 4;
    pub const DATA: usize = 5;
}

const _: () = assert!(entry_at::OFFSET == SHORT_SIZE && entry_at::LENGTH + 4 == BUNDLE_ENTRY_SIZE);

/// Where an entry stands, counted from 0; the bodies follow the last.
pub fn entry_start(place: usize) -> usize {
    BUNDLE_HEAD_SIZE + BUNDLE_ENTRY_SIZE * place
}

pub fn record_bytes(address: u32, data: &[u8]) -> Vec<u8> {
    [&address.to_le_bytes()[..], &[data.len() as u8], data].concat()
}

pub fn body_bytes(records: &[(u32, Vec<u8>)]) -> Vec<u8> {
    records.iter().flat_map(|(address, data)| record_bytes(*address, data)).collect()
}

/// The bundle of these offers and bodies.
pub fn bundle_of(entries: &[([u8; SHORT_SIZE], Vec<u8>)]) -> Vec<u8> {
    let mut out = vec![entries.len() as u8, 1, 0, 0, 0, 0, 0, 0];
    let mut at = entry_start(entries.len());
    for (offer, body) in entries {
        out.extend(offer);
        out.extend((at as u32).to_le_bytes());
        out.extend((body.len() as u32).to_le_bytes());
        at += body.len();
    }
    for (_, body) in entries {
        out.extend(body);
    }
    out
}

// ---------------------------------------------------------------- the device's record

pub mod device_at {
    pub const PLATFORM: usize = 0;
    pub const STAGING: usize = 2;
    pub const COUNT: usize = 6;
    pub const STAGE: usize = super::DEVICE_SESSION_AT;
    pub const SLOT: usize = STAGE + 1;
    pub const TOKEN: usize = STAGE + 2;
    pub const NEXT: usize = STAGE + 3;
    pub const OWED: usize = super::DEVICE_OWED_AT;
    pub const OWED_TOKEN: usize = OWED + 1;
    /// While receiving, the packet of the block that was taken last.
    pub const PREVIOUS: usize = super::DEVICE_PREVIOUS_AT;
    pub const COMPONENTS: usize = super::DEVICE_COMPONENTS_AT;
}

/// A component in the record; one in set-up's list is its first LISTED_SIZE bytes.
pub mod component_at {
    pub const ID: usize = 0;
    pub const RUNNING: usize = super::COMPONENT_RUNNING_AT;
    pub const BASE: usize = super::COMPONENT_REGION_AT;
    pub const LENGTH: usize = BASE + 4;
    /// The lowest version that the component takes.
    pub const FLOOR: usize = super::COMPONENT_FLOOR_AT;
    pub const STAGED: usize = super::COMPONENT_STAGED_AT;
    pub const STAGED_VERSION: usize = STAGED + 1;
}

/// The stage with what it has, what is owed, and the previous packet.
pub const SESSION_SIZE: usize = device_at::COMPONENTS - device_at::STAGE;

const _: () = assert!(COMPONENT_LIMIT * LISTED_SIZE == LIST_SIZE);
const _: () = assert!(component_start(COMPONENT_LIMIT) == DEVICE_SIZE);
const _: () = assert!(component_at::LENGTH + 4 == component_at::FLOOR && component_at::FLOOR + 4 == component_at::STAGED);
const _: () = assert!(component_at::STAGED == LISTED_SIZE);
const _: () = assert!(device_at::OWED_TOKEN + 1 == device_at::PREVIOUS && device_at::PREVIOUS + LONG_SIZE == device_at::COMPONENTS);

/// The previous packet outside of receiving.
pub const BLANK: [u8; LONG_SIZE] = [0; LONG_SIZE];

/// Where a component stands in the record, counted from 0.
pub const fn component_start(slot: usize) -> usize {
    device_at::COMPONENTS + COMPONENT_SIZE * slot
}

/// A component in a device's record.
#[derive(Clone, Copy, Debug, Default, PartialEq, Eq)]
pub struct Component {
    pub id: u8,
    pub running: u32,
    pub base: u32,
    pub length: u32,
    pub floor: u32,
    pub staged: Option<u32>,
}

/// The stage of a device's session.
#[derive(Clone, Copy, Debug, Default, PartialEq, Eq)]
pub enum Session {
    #[default]
    Idle,
    Offered {
        slot: u8,
        token: u8,
    },
    Receiving {
        slot: u8,
        token: u8,
        next: u16,
    },
}

impl Session {
    /// The slot that the session is open on.
    pub fn slot(self) -> Option<u8> {
        match self {
            Session::Idle => None,
            Session::Offered { slot, .. } | Session::Receiving { slot, .. } => Some(slot),
        }
    }
}

/// A device's record.
#[derive(Clone, Copy, Debug, PartialEq, Eq)]
pub struct DeviceRecord {
    pub platform: u16,
    pub staging: u32,
    pub count: u8,
    pub session: Session,
    pub owed: Option<u8>,
    pub previous: [u8; LONG_SIZE],
    pub components: [Component; COMPONENT_LIMIT],
}

impl Default for DeviceRecord {
    fn default() -> DeviceRecord {
        DeviceRecord { platform: 0, staging: 0, count: 0, session: Session::Idle, owed: None, previous: BLANK, components: Default::default() }
    }
}

impl DeviceRecord {
    /// The whole record, zero where its stage, owed or staged has nothing: what set-up and reset leave.
    pub fn bytes(&self) -> [u8; DEVICE_SIZE] {
        let mut out = [0; DEVICE_SIZE];
        put(&mut out, device_at::PLATFORM, &self.platform.to_le_bytes());
        put(&mut out, device_at::STAGING, &self.staging.to_le_bytes());
        out[device_at::COUNT] = self.count;
        put(&mut out, device_at::STAGE, &self.session_bytes());
        for (slot, component) in self.components.iter().enumerate() {
            put(&mut out, component_start(slot), &component.bytes());
        }
        out
    }

    fn session_bytes(&self) -> [u8; SESSION_SIZE] {
        let (stage, slot, token, next) = match self.session {
            Session::Idle => (0, 0, 0, 0),
            Session::Offered { slot, token } => (1, slot, token, 0),
            Session::Receiving { slot, token, next } => (2, slot, token, next),
        };
        let [low, high] = u16::to_le_bytes(next);
        let mut out = [0; SESSION_SIZE];
        put(&mut out, 0, &[stage, slot, token, low, high, self.owed.is_some() as u8, self.owed.unwrap_or(0)]);
        put(&mut out, device_at::PREVIOUS - device_at::STAGE, &self.previous);
        out
    }

    /// What a served packet of the offer channel leaves of the bytes before, where this is the record that it leads to: its session is written anew.
    pub fn leave_offered(&self, bytes: &mut [u8]) {
        put(bytes, device_at::STAGE, &self.session_bytes());
    }

    /// What a served content packet leaves: its session, and the component in the slot of the session before, which is 0 where that was idle.
    pub fn leave_received(&self, bytes: &mut [u8]) {
        let slot = if bytes[device_at::STAGE] == 0 { 0 } else { bytes[device_at::SLOT] as usize };
        put(bytes, device_at::STAGE, &self.session_bytes());
        put(bytes, component_start(slot), &self.components[slot].bytes());
    }

    /// The record in these bytes: none in bytes of another length, or with a stage, owed or staged that no record has. What these rule out is passed over,
    /// but for the previous packet, which is kept in whatever stage.
    pub fn read(bytes: &[u8]) -> Option<DeviceRecord> {
        if bytes.len() != DEVICE_SIZE {
            return None;
        }
        let (slot, token) = (bytes[device_at::SLOT], bytes[device_at::TOKEN]);
        let session = match bytes[device_at::STAGE] {
            0 => Session::Idle,
            1 => Session::Offered { slot, token },
            2 => Session::Receiving { slot, token, next: two(&bytes[device_at::NEXT..]) },
            _ => return None,
        };
        let owed = match bytes[device_at::OWED] {
            0 => None,
            1 => Some(bytes[device_at::OWED_TOKEN]),
            _ => return None,
        };
        let mut previous = BLANK;
        previous.copy_from_slice(&bytes[device_at::PREVIOUS..device_at::COMPONENTS]);
        let mut components = [Component::default(); COMPONENT_LIMIT];
        for (slot, component) in components.iter_mut().enumerate() {
            *component = Component::read(&bytes[component_start(slot)..])?;
        }
        Some(DeviceRecord {
            platform: two(&bytes[device_at::PLATFORM..]),
            staging: four(&bytes[device_at::STAGING..]),
            count: bytes[device_at::COUNT],
            session,
            owed,
            previous,
            components,
        })
    }

    /// The bytes that are passed over in this record.
    pub fn passed_over(&self) -> Vec<Passed> {
        let mut out = Vec::new();
        match self.session {
            Session::Idle => out.push((PASSED_IDLE, device_at::SLOT..device_at::OWED)),
            Session::Offered { .. } => out.push((PASSED_OFFERED, device_at::NEXT..device_at::OWED)),
            Session::Receiving { .. } => {}
        }
        match self.session {
            Session::Idle => out.push((PASSED_PREVIOUS_IDLE, device_at::PREVIOUS..device_at::COMPONENTS)),
            Session::Offered { .. } => out.push((PASSED_PREVIOUS_OFFERED, device_at::PREVIOUS..device_at::COMPONENTS)),
            Session::Receiving { .. } => {}
        }
        if self.owed.is_none() {
            out.push((PASSED_OWED, device_at::OWED_TOKEN..device_at::PREVIOUS));
        }
        for (slot, component) in self.components.iter().enumerate() {
            if component.staged.is_none() {
                let end = component_start(slot + 1);
                out.push((PASSED_STAGED, component_start(slot) + component_at::STAGED_VERSION..end));
            }
        }
        out
    }

    /// The listed components.
    pub fn listed(&self) -> &[Component] {
        &self.components[..(self.count as usize).min(COMPONENT_LIMIT)]
    }

    /// The list that set-up makes its components from.
    pub fn list(&self) -> [ListedComponent; COMPONENT_LIMIT] {
        self.components.each_ref().map(Component::listed)
    }
}

/// Bytes that are passed over in a record, and what they are.
pub type Passed = (&'static str, Range<usize>);

/// What is passed over in a device's record.
pub const PASSED_IDLE: &str = "passed over: slot, token and sequence while idle";
pub const PASSED_OFFERED: &str = "passed over: the sequence while offered";
pub const PASSED_PREVIOUS_IDLE: &str = "passed over: the previous packet while idle";
pub const PASSED_PREVIOUS_OFFERED: &str = "passed over: the previous packet while offered";
pub const PASSED_OWED: &str = "passed over: a token where nothing is owed";
pub const PASSED_STAGED: &str = "passed over: a staged version where nothing is staged";

/// A component in the list that set-up takes.
#[derive(Clone, Copy, Debug, Default, PartialEq, Eq)]
pub struct ListedComponent {
    pub id: u8,
    pub running: u32,
    pub base: u32,
    pub length: u32,
    pub floor: u32,
}

impl Component {
    /// As it is given to set-up.
    pub fn listed(&self) -> ListedComponent {
        ListedComponent { id: self.id, running: self.running, base: self.base, length: self.length, floor: self.floor }
    }

    fn bytes(&self) -> [u8; COMPONENT_SIZE] {
        let mut out = [0; COMPONENT_SIZE];
        put(&mut out, 0, &self.listed().bytes());
        if let Some(version) = self.staged {
            out[component_at::STAGED] = 1;
            put(&mut out, component_at::STAGED_VERSION, &version.to_le_bytes());
        }
        out
    }

    fn read(bytes: &[u8]) -> Option<Component> {
        let staged = match bytes[component_at::STAGED] {
            0 => None,
            1 => Some(four(&bytes[component_at::STAGED_VERSION..])),
            _ => return None,
        };
        Some(Component { staged, ..ListedComponent::read(bytes).component() })
    }
}

impl ListedComponent {
    /// As set-up makes it: nothing is staged.
    pub fn component(&self) -> Component {
        Component { id: self.id, running: self.running, base: self.base, length: self.length, floor: self.floor, staged: None }
    }

    fn bytes(&self) -> [u8; LISTED_SIZE] {
        let mut out = [0; LISTED_SIZE];
        out[component_at::ID] = self.id;
        put(&mut out, component_at::RUNNING, &self.running.to_le_bytes());
        put(&mut out, component_at::BASE, &self.base.to_le_bytes());
        put(&mut out, component_at::LENGTH, &self.length.to_le_bytes());
        put(&mut out, component_at::FLOOR, &self.floor.to_le_bytes());
        out
    }

    fn read(bytes: &[u8]) -> ListedComponent {
        ListedComponent {
            id: bytes[component_at::ID],
            running: four(&bytes[component_at::RUNNING..]),
            base: four(&bytes[component_at::BASE..]),
            length: four(&bytes[component_at::LENGTH..]),
            floor: four(&bytes[component_at::FLOOR..]),
        }
    }
}

pub fn read_list(bytes: &[u8]) -> [ListedComponent; COMPONENT_LIMIT] {
    std::array::from_fn(|slot| ListedComponent::read(&bytes[LISTED_SIZE * slot..]))
}

pub fn list_bytes(list: &[ListedComponent; COMPONENT_LIMIT]) -> [u8; LIST_SIZE] {
    let mut out = [0; LIST_SIZE];
    for (slot, listed) in list.iter().enumerate() {
        put(&mut out, LISTED_SIZE * slot, &listed.bytes());
    }
    out
}

// ---------------------------------------------------------------- the host's record

pub mod host_at {
    pub const TOKEN: usize = 0;
    pub const STAGE: usize = super::HOST_STAGE_AT;
    /// Two numbers (4 each) that the stage has.
    pub const FIRST: usize = super::HOST_FIRST_AT;
    pub const SECOND: usize = super::HOST_SECOND_AT;
    pub const MASK: usize = super::HOST_MASK_AT;
    pub const PACKETS: usize = MASK + 4;
    pub const PASSES: usize = PACKETS + 4;
    pub const SKIPPED: usize = super::HOST_SKIPPED_AT;
    pub const LANDED: usize = super::HOST_LANDED_AT;
    /// A reply was passed over since the block in hand was sent.
    pub const PASSED: usize = super::HOST_PASSED_AT;
}

const _: () = assert!(host_at::PASSES + 4 == host_at::SKIPPED && host_at::LANDED + 1 == host_at::PASSED && host_at::PASSED + 1 == HOST_SIZE);

/// What a host awaits, or how it ended: 0 done, 1 to 4 for H1 to H4.
#[derive(Clone, Copy, Debug, Default, PartialEq, Eq)]
pub enum Stage {
    #[default]
    Fresh,
    Opening,
    Listing,
    Offering {
        entry: u32,
        busy: u32,
    },
    Waiting {
        entry: u32,
        busy: u32,
    },
    /// `passed`: a second reply to the block before was passed over.
    Sending {
        entry: u32,
        block: u32,
        passed: bool,
    },
    Closing,
    Ended {
        end: u32,
        status: u8,
    },
}

/// A host's record.
#[derive(Clone, Copy, Debug, Default, PartialEq, Eq)]
pub struct HostRecord {
    pub token: u8,
    pub stage: Stage,
    pub mask: u32,
    pub packets: u32,
    pub passes: u32,
    pub skipped: bool,
    pub landed: bool,
}

impl HostRecord {
    pub fn fresh(token: u8) -> HostRecord {
        HostRecord { token, ..Default::default() }
    }

    /// What bytes that are no record stand for: N1 refuses it over every bundle.
    pub fn lost() -> HostRecord {
        HostRecord { packets: u32::MAX, ..Default::default() }
    }

    /// The whole record, zero where its stage has nothing: what every served call leaves.
    pub fn bytes(&self) -> [u8; HOST_SIZE] {
        let (code, first, second) = match self.stage {
            Stage::Fresh => (0, 0, 0),
            Stage::Opening => (1, 0, 0),
            Stage::Listing => (2, 0, 0),
            Stage::Offering { entry, busy } => (3, entry, busy),
            Stage::Waiting { entry, busy } => (4, entry, busy),
            Stage::Sending { entry, block, .. } => (5, entry, block),
            Stage::Closing => (6, 0, 0),
            Stage::Ended { end, status } => (7, end, status as u32),
        };
        let mut out = [0; HOST_SIZE];
        out[host_at::TOKEN] = self.token;
        out[host_at::STAGE] = code;
        put(&mut out, host_at::FIRST, &u32::to_le_bytes(first));
        put(&mut out, host_at::SECOND, &u32::to_le_bytes(second));
        put(&mut out, host_at::MASK, &self.mask.to_le_bytes());
        put(&mut out, host_at::PACKETS, &self.packets.to_le_bytes());
        put(&mut out, host_at::PASSES, &self.passes.to_le_bytes());
        out[host_at::SKIPPED] = self.skipped as u8;
        out[host_at::LANDED] = self.landed as u8;
        out[host_at::PASSED] = matches!(self.stage, Stage::Sending { passed: true, .. }) as u8;
        out
    }

    /// The record in these bytes: none in bytes of another length, or with a stage, an end or one of the three flags that no record has. What the stage has
    /// nothing for is passed over.
    pub fn read(bytes: &[u8]) -> Option<HostRecord> {
        if bytes.len() != HOST_SIZE || [host_at::SKIPPED, host_at::LANDED, host_at::PASSED].iter().any(|place| bytes[*place] > 1) {
            return None;
        }
        let (first, second) = (four(&bytes[host_at::FIRST..]), four(&bytes[host_at::SECOND..]));
        let stage = match bytes[host_at::STAGE] {
            0 => Stage::Fresh,
            1 => Stage::Opening,
            2 => Stage::Listing,
            3 => Stage::Offering { entry: first, busy: second },
            4 => Stage::Waiting { entry: first, busy: second },
            5 => Stage::Sending { entry: first, block: second, passed: bytes[host_at::PASSED] == 1 },
            6 => Stage::Closing,
            // Only H1 has a status, of one byte, and there are ends 0 to 4.
            7 if first == 1 => Stage::Ended { end: 1, status: second as u8 },
            7 if first <= 4 => Stage::Ended { end: first, status: 0 },
            _ => return None,
        };
        Some(HostRecord {
            token: bytes[host_at::TOKEN],
            stage,
            mask: four(&bytes[host_at::MASK..]),
            packets: four(&bytes[host_at::PACKETS..]),
            passes: four(&bytes[host_at::PASSES..]),
            skipped: bytes[host_at::SKIPPED] == 1,
            landed: bytes[host_at::LANDED] == 1,
        })
    }

    /// The bytes that are passed over in this record. The flag of a reply that was passed over is among them where the host does not send: it is 0 or 1.
    pub fn passed_over(&self) -> Vec<Passed> {
        let mut out = match self.stage {
            Stage::Offering { .. } | Stage::Waiting { .. } | Stage::Sending { .. } => Vec::new(),
            Stage::Ended { end: 1, .. } => vec![(PASSED_STATUS, host_at::SECOND + 1..host_at::MASK)],
            Stage::Ended { .. } => vec![(PASSED_END, host_at::SECOND..host_at::MASK)],
            Stage::Fresh | Stage::Opening | Stage::Listing | Stage::Closing => vec![(PASSED_STAGE, host_at::FIRST..host_at::MASK)],
        };
        if !matches!(self.stage, Stage::Sending { .. }) {
            out.push((PASSED_FLAG, host_at::PASSED..HOST_SIZE));
        }
        out
    }

    /// How far it is, as cfu_report.ending and cfu_report.status give it.
    pub fn ending(&self) -> (u32, u32) {
        match self.stage {
            Stage::Ended { end: 0, .. } => (DONE, 0),
            Stage::Ended { end, status } => (0x4800 + end, status as u32),
            _ => (RUNNING, 0),
        }
    }
}

/// What is passed over in a host's record.
pub const PASSED_STAGE: &str = "passed over: the numbers of a stage that has none";
pub const PASSED_END: &str = "passed over: a status where the end has none";
pub const PASSED_FLAG: &str = "passed over: the flag of a reply passed over where the host does not send";
pub const PASSED_STATUS: &str = "passed over: all but the low byte of a status";

/// A report's number: a record that counts 2^31 packets or more is N1 over every bundle, and its fields are reported all the same.
pub fn report_number(packets: u32) -> u32 {
    if packets < 1 << 31 {
        SERVED
    } else {
        N1
    }
}

// ---------------------------------------------------------------- the contents of a checked bundle

pub mod contents_at {
    pub const ROW: usize = 0;
    pub const PLACE: usize = 1;
    pub const COUNT: usize = 2;
    pub const BODIES: usize = super::CONTENTS_BODIES_AT;
    /// The block that the cursor is kept for.
    pub const ENTRY: usize = super::CONTENTS_HAND_AT;
    pub const BLOCK: usize = ENTRY + 4;
    pub const CURSOR: usize = super::CONTENTS_CURSOR_AT;
}

/// A body: its offset, its length and how many records it has (4 each).
pub mod body_at {
    pub const OFFSET: usize = 0;
    pub const LENGTH: usize = 4;
    pub const RECORDS: usize = super::BODY_RECORDS_AT;
}

/// The last row that refuses a bundle.
pub const BUNDLE_ROWS: u8 = (B8 - B1) as u8 + 1;

const _: () = assert!(contents_at::BODIES + OFFER_LIMIT * BODY_SIZE == contents_at::ENTRY && contents_at::BLOCK + 4 == contents_at::CURSOR);
const _: () = assert!(contents_at::CURSOR + 8 == CONTENTS_SIZE && body_at::RECORDS + 4 == BODY_SIZE);

/// A body in the contents.
#[derive(Clone, Copy, Debug, Default, PartialEq, Eq)]
pub struct Body {
    pub offset: u32,
    pub length: u32,
    pub records: u32,
}

/// The contents of a checked bundle: the row that refuses it and its entry, the count, the bodies, and the block in hand with the cursor after it.
#[derive(Clone, Copy, Debug, PartialEq, Eq)]
pub struct Contents {
    pub row: u8,
    pub place: u8,
    pub count: u8,
    pub bodies: [Body; OFFER_LIMIT],
    pub entry: u32,
    pub block: u32,
    pub cursor: u64,
}

impl Default for Contents {
    /// No bundle, and no block in hand.
    fn default() -> Contents {
        Contents { row: 0, place: 0, count: 0, bodies: [Body::default(); OFFER_LIMIT], entry: u32::MAX, block: u32::MAX, cursor: 0 }
    }
}

impl Contents {
    pub fn bytes(&self) -> [u8; CONTENTS_SIZE] {
        let mut out = [0; CONTENTS_SIZE];
        out[contents_at::ROW] = self.row;
        out[contents_at::PLACE] = self.place;
        out[contents_at::COUNT] = self.count;
        for (entry, body) in self.bodies.iter().enumerate() {
            let own = &mut out[contents_at::BODIES + BODY_SIZE * entry..][..BODY_SIZE];
            put(own, body_at::OFFSET, &body.offset.to_le_bytes());
            put(own, body_at::LENGTH, &body.length.to_le_bytes());
            put(own, body_at::RECORDS, &body.records.to_le_bytes());
        }
        put(&mut out, contents_at::ENTRY, &self.entry.to_le_bytes());
        put(&mut out, contents_at::BLOCK, &self.block.to_le_bytes());
        put(&mut out, contents_at::CURSOR, &self.cursor.to_le_bytes());
        out
    }

    /// The contents in these bytes; none in bytes that no check leaves.
    pub fn read(bytes: &[u8]) -> Option<Contents> {
        if bytes.len() != CONTENTS_SIZE {
            return None;
        }
        let (row, count) = (bytes[contents_at::ROW], bytes[contents_at::COUNT]);
        if row > BUNDLE_ROWS || (row == 0 && !(1..=OFFER_LIMIT as u8).contains(&count)) {
            return None;
        }
        let bodies = std::array::from_fn(|entry| {
            let own = &bytes[contents_at::BODIES + BODY_SIZE * entry..][..BODY_SIZE];
            Body { offset: four(&own[body_at::OFFSET..]), length: four(&own[body_at::LENGTH..]), records: four(&own[body_at::RECORDS..]) }
        });
        let (entry, block) = (four(&bytes[contents_at::ENTRY..]), four(&bytes[contents_at::BLOCK..]));
        Some(Contents { row, place: bytes[contents_at::PLACE], count, bodies, entry, block, cursor: number(&bytes[contents_at::CURSOR..]) })
    }
}

// ---------------------------------------------------------------- the components of a version reply

/// A component as it is lent: running version (4), id (1), platform (2).
pub mod running_at {
    pub const VERSION: usize = 0;
    pub const ID: usize = super::RUNNING_ID_AT;
    pub const PLATFORM: usize = ID + 1;
}

const _: () = assert!(running_at::PLATFORM + 2 == RUNNING_SIZE && COMPONENT_LIMIT * RUNNING_SIZE == COMPONENTS_SIZE);

/// Running version, id, platform of each.
pub fn read_components(bytes: &[u8]) -> [(u32, u8, u16); COMPONENT_LIMIT] {
    std::array::from_fn(|slot| {
        let own = &bytes[RUNNING_SIZE * slot..][..RUNNING_SIZE];
        (four(&own[running_at::VERSION..]), own[running_at::ID], two(&own[running_at::PLATFORM..]))
    })
}

pub fn components_bytes(components: &[(u32, u8, u16); COMPONENT_LIMIT]) -> [u8; COMPONENTS_SIZE] {
    let mut out = [0; COMPONENTS_SIZE];
    for (slot, (version, id, platform)) in components.iter().enumerate() {
        let own = &mut out[RUNNING_SIZE * slot..][..RUNNING_SIZE];
        put(own, running_at::VERSION, &version.to_le_bytes());
        own[running_at::ID] = *id;
        put(own, running_at::PLATFORM, &platform.to_le_bytes());
    }
    out
}
