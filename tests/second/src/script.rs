//! The frames of a script, numbers and records in the payload of a frame, and
//! what is printed of a record (tests/device/README.md).

use crate::device::{
    Component, Device, Listed, Offered, Receiving, Region, Stage, StagingOffset,
};
use crate::packets::{LONG, MOST};
use crate::version::Version;

/// Kind, payload and the rest; nothing at the end or at a cut frame.
pub fn next_frame(rest: &[u8]) -> Option<(u8, &[u8], &[u8])> {
    let length = *rest.get(1)? as usize + 256 * *rest.get(2)? as usize;
    let end = 3 + length;
    Some((rest[0], rest.get(3..end)?, &rest[end..]))
}

/// A reader of little-endian numbers.
pub struct Numbers<'a> {
    pub rest: &'a [u8],
}

impl Numbers<'_> {
    pub fn one(&mut self) -> u8 {
        self.number(1) as u8
    }
    pub fn two(&mut self) -> u16 {
        self.number(2) as u16
    }
    pub fn four(&mut self) -> u32 {
        self.number(4) as u32
    }
    pub fn eight(&mut self) -> u64 {
        self.number(8)
    }
    fn number(&mut self, bytes: usize) -> u64 {
        let mut value = 0u64;
        for at in (0..bytes).rev() {
            value = value * 256 + self.rest[at] as u64;
        }
        self.rest = &self.rest[bytes..];
        value
    }
    /// A content packet's bytes as they stand.
    fn packet(&mut self) -> [u8; LONG] {
        let mut packet = [0; LONG];
        packet.copy_from_slice(&self.rest[..LONG]);
        self.rest = &self.rest[LONG..];
        packet
    }
}

pub fn read_listed(numbers: &mut Numbers) -> Listed {
    Listed {
        id: numbers.one(),
        running: Version(numbers.four()),
        region: Region { base: StagingOffset(numbers.four()), length: numbers.four() },
        floor: Version(numbers.four()),
    }
}

/// A record, as it stands; what follows it is the rest.
pub fn read_record(numbers: &mut Numbers) -> Device {
    let platform = numbers.two();
    let staging = numbers.four();
    let count = numbers.one();
    let kind = numbers.one();
    let (slot, token, next) = (numbers.one(), numbers.one(), numbers.two());
    let stage = match kind {
        1 => Stage::Offered(Offered { slot, token }),
        2 => Stage::Receiving(Receiving { slot, token, next }),
        _ => Stage::Idle,
    };
    let (owes, owed_token) = (numbers.one(), numbers.one());
    let owed = if owes == 1 { Some(owed_token) } else { None };
    let previous = numbers.packet();
    let mut components = [Component::default(); MOST];
    for component in components.iter_mut() {
        let listed = read_listed(numbers);
        let (pending, version) = (numbers.one(), Version(numbers.four()));
        *component = Component {
            id: listed.id,
            running: listed.running,
            region: listed.region,
            floor: listed.floor,
            staged: if pending == 1 { Some(version) } else { None },
        };
    }
    Device { platform, staging, count, components, stage, owed, previous }
}

pub fn hex(bytes: &[u8]) -> String {
    let digits: Vec<String> = bytes.iter().map(|byte| format!("{byte:02x}")).collect();
    digits.join(" ")
}

pub fn record_line(device: &Device) -> String {
    let mut line = format!(
        "record: platform {:04x}, staging {}, {}, {}",
        device.platform,
        device.staging,
        stage_text(device.stage),
        owed_text(device.owed)
    );
    if device.previous != [0; LONG] {
        line += &format!(", previous {}", hex(&device.previous));
    }
    for component in device.listed() {
        line += &format!("; {}", component_text(component));
    }
    line
}

pub fn stage_text(stage: Stage) -> String {
    match stage {
        Stage::Idle => "idle".to_string(),
        Stage::Offered(open) => format!("offered slot {} token {:02x}", open.slot, open.token),
        Stage::Receiving(open) => format!(
            "receiving slot {} token {:02x} next {}",
            open.slot, open.token, open.next
        ),
    }
}

pub fn owed_text(owed: Option<u8>) -> String {
    match owed {
        None => "owes nothing".to_string(),
        Some(token) => format!("owes token {token:02x}"),
    }
}

pub fn component_text(component: &Component) -> String {
    let mut text = format!(
        "{} at {} in {}+{}",
        component.id, component.running, component.region.base.0, component.region.length
    );
    if component.floor != Version(0) {
        text += &format!(", floor {}", component.floor);
    }
    if let Some(staged) = component.staged {
        text += &format!(", pending {staged}");
    }
    text
}
