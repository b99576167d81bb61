//! Set-up, and packets to a device: states from set-up and states that are written by the record's layout, each clause of row D1 among them.

use crate::calls::Calls;
use crate::case::{difference, hex, Case, Outcome};
use crate::demand;
use crate::floors;
use crate::layout::*;
use crate::lent::Lent;
use crate::other;
use crate::parts;
use crate::random::Random;
use crate::tally::{self, Tally};
use crate::ALL;

// ---------------------------------------------------------------- states

/// A version: mostly one of few near each other, sometimes one at the border.
pub fn version(r: &mut Random) -> u32 {
    match r.below(20) {
        0 => 0,
        1 => u32::MAX,
        2 => r.next() as u32,
        _ => 0x0100_0000 + 256 * r.below(4) as u32 + r.below(3) as u32,
    }
}

/// A version of the same variant, so many releases later; the latest where there are not so many.
fn later(version: u32, releases: u32) -> u32 {
    (version / 256 + releases).min(0xFF_FFFF) * 256 + version % 256
}

/// A version of another variant, of the release before, the same or a later one.
pub fn other_variant(r: &mut Random, version: u32) -> u32 {
    let near = r.pick(&[version, version, version.wrapping_sub(256), version.wrapping_add(256)]);
    near ^ r.pick(&[1u32, 2, 0x80, 0xFF])
}

/// A record that row D1 does not refuse.
pub fn valid_device(r: &mut Random) -> DeviceRecord {
    let count = r.between(1, COMPONENT_LIMIT);
    let mut record = DeviceRecord { platform: 0x0042, count: count as u8, ..Default::default() };
    if r.percent(10) {
        record.platform = r.next() as u16;
    }
    place_regions(r, &mut record);
    // Ids near each other, so that offers meet them; sometimes those at the border.
    let mut ids: Vec<u8> = (1..=9).collect();
    if r.percent(20) {
        ids.extend([ID_LIMIT, ID_LIMIT - 1, 0x80]);
    }
    r.shuffle(&mut ids);
    for (slot, id) in ids.iter().enumerate().take(count) {
        let running = version(r);
        let component = &mut record.components[slot];
        component.id = *id;
        component.running = running;
        component.floor = floors::floor(r, running);
        if r.percent(20) {
            // Not below the floor.
            let first = (component.floor / 256).saturating_sub(running / 256);
            component.staged = Some(later(running, first + r.pick(&[0, 1, 2, 256, 0x1_0000])));
        }
    }
    // Slots past the count are never looked at.
    if r.percent(30) {
        for component in record.components.iter_mut().skip(count) {
            *component = Component {
                id: r.byte(),
                running: r.next() as u32,
                base: r.next() as u32,
                length: r.next() as u32,
                floor: r.next() as u32,
                staged: r.percent(50).then_some(7),
            };
        }
    }
    open_session(r, &mut record);
    record
}

/// Regions in any order, with and without gaps; a few are long.
fn place_regions(r: &mut Random, record: &mut DeviceRecord) {
    let count = record.count as usize;
    let mut order: Vec<usize> = (0..count).collect();
    r.shuffle(&mut order);
    let long = r.percent(1);
    let mut at = gap(r);
    for (place, slot) in order.into_iter().enumerate() {
        let length = match r.below(10) {
            _ if long && place == 0 => r.between(1000, 60_000),
            0 | 1 => REGION_LEAST,
            2..=6 => r.between(REGION_LEAST, DATA_SIZE),
            _ => r.between(REGION_LEAST, 140),
        } as u32;
        record.components[slot].base = at;
        record.components[slot].length = length;
        at += length + gap(r);
    }
    record.staging = if long && r.percent(50) { (STAGING_LIMIT as u32).max(at) } else { at };
}

fn gap(r: &mut Random) -> u32 {
    if r.percent(50) {
        0
    } else {
        r.between(1, 9) as u32
    }
}

/// Idle, offered or receiving, with and without an owed reply.
fn open_session(r: &mut Random, record: &mut DeviceRecord) {
    let free: Vec<usize> = (0..record.count as usize).filter(|slot| record.components[*slot].staged.is_none()).collect();
    if free.is_empty() || r.percent(40) {
        return;
    }
    let (slot, token) = (r.pick(&free) as u8, r.byte());
    record.session = if r.percent(50) {
        Session::Offered { slot, token }
    } else {
        let next = r.pick(&[0, 1, 2, 0xFFFE, 0xFFFF, r.clone().next() as u16]);
        record.previous = taken_before(r, &record.components[slot as usize], next);
        Session::Receiving { slot, token, next }
    };
    if r.percent(50) {
        record.owed = Some(r.byte());
    }
}

/// A previous packet: its sequence is just before the next one, as row D1 wants it. Mostly it is one that a session takes; all else in it may be anything.
fn taken_before(r: &mut Random, component: &Component, next: u16) -> [u8; LONG_SIZE] {
    let length = r.between(1, DATA_SIZE).min(component.length as usize);
    let address = r.below(component.length as usize - length + 1) as u32;
    let flags = r.pick(&[0, 0, 0, 0, 0, FLAG_FIRST_BLOCK, FLAG_FIRST_BLOCK, FLAG_LAST_BLOCK]);
    let mut packet = content_packet(flags, next.wrapping_sub(1), address, &r.bytes(length));
    if r.percent(40) {
        let unused = r.bytes(DATA_SIZE - length);
        put(&mut packet, content_at::DATA + length, &unused);
    }
    match r.below(12) {
        0 => put(&mut packet, content_at::ADDRESS, &r.pick(&[component.length, u32::MAX]).to_le_bytes()),
        1 => packet[content_at::LENGTH] = r.pick(&[0, DATA_SIZE as u8 + 1, 255]),
        2 => packet[content_at::FLAGS] = r.byte(),
        3 => {
            packet.copy_from_slice(&r.bytes(LONG_SIZE));
            put(&mut packet, content_at::SEQUENCE, &next.wrapping_sub(1).to_le_bytes());
        }
        _ => {}
    }
    packet
}

/// What is passed over in the records that packets meet.
pub const PASSED: [&str; 6] = [PASSED_IDLE, PASSED_OFFERED, PASSED_PREVIOUS_IDLE, PASSED_PREVIOUS_OFFERED, PASSED_OWED, PASSED_STAGED];

/// Bytes of a record, sometimes with any values where they are passed over.
pub fn any_record(r: &mut Random, bytes: &[u8], passed: Vec<Passed>) -> Vec<u8> {
    let mut out = bytes.to_vec();
    if r.percent(40) {
        for (_, place) in passed {
            if r.percent(80) {
                let values = r.bytes(place.len());
                put(&mut out, place.start, &values);
            }
        }
    }
    out
}

/// Counts what a served call passed over that is not zero.
pub fn count_passed(tally: &mut Tally, given: &[u8], passed: &[Passed]) {
    for (name, place) in passed {
        if given[place.clone()].iter().any(|byte| *byte != 0) {
            tally.one(name);
        }
    }
}

/// What a record is made to break: the clauses of row D1, and the forms of bytes that are no record.
pub const BROKEN: [&str; 23] = [
    "D1: staging over the limit",
    "D1: count 0",
    "D1: count over the limit",
    "D1: id 0",
    "D1: id over the limit",
    "D1: id repeated",
    "D1: region under the least",
    "D1: region past the buffer",
    "D1: region whose end wraps",
    "D1: regions overlap",
    "D1: floor with a variant",
    "D1: opens on an unlisted component",
    "D1: opens on a pending component",
    "D1: the previous packet is not just before the next",
    "D1: owes while idle",
    "D1: staged of a lower release",
    "D1: staged of another variant",
    "D1: staged below the floor",
    "D1: no stage",
    "D1: owed neither 0 nor 1",
    "D1: staged neither 0 nor 1",
    "D1: random bytes",
    "D1: all zeros",
];

/// The bytes of a record that breaks this clause.
pub fn broken_device(r: &mut Random, aim: &'static str) -> Vec<u8> {
    let mut record = valid_device(r);
    // Two components at least, for the clauses about two of them.
    while record.count < 2 {
        record = valid_device(r);
    }
    let count = record.count as usize;
    let slot = r.below(count);
    let next_slot = (slot + 1) % count;
    let any = r.below(COMPONENT_LIMIT);
    let session = Session::Offered { slot: slot as u8, token: 3 };
    match aim {
        "D1: staging over the limit" => record.staging = r.pick(&[STAGING_LIMIT as u32 + 1, STAGING_LIMIT as u32 + 2, 1 << 24, u32::MAX]),
        "D1: count 0" => record.count = 0,
        "D1: count over the limit" => record.count = r.pick(&[COMPONENT_LIMIT as u8 + 1, COMPONENT_LIMIT as u8 + 2, 128, 255]),
        "D1: id 0" => record.components[slot].id = 0,
        "D1: id over the limit" => record.components[slot].id = r.pick(&[ID_LIMIT + 1, 0xFD, 0xFE, 0xFF]),
        "D1: id repeated" => record.components[slot].id = record.components[next_slot].id,
        "D1: region under the least" => record.components[slot].length = r.below(REGION_LEAST) as u32,
        "D1: region past the buffer" => {
            let component = &mut record.components[slot];
            component.length = record.staging - component.base + r.pick(&[1, 2, 1000]);
        }
        "D1: region whose end wraps" => {
            record.components[slot].base = u32::MAX - 3;
            record.components[slot].length = 12;
        }
        "D1: regions overlap" => {
            let other = record.components[next_slot];
            record.components[slot].base = other.base + other.length - 1;
            record.components[slot].length = REGION_LEAST as u32;
            record.staging = record.staging.max(other.base + other.length + REGION_LEAST as u32);
        }
        "D1: floor with a variant" => record.components[slot].floor = floors::with_variant(r, record.components[slot].floor),
        "D1: opens on an unlisted component" => {
            record.session = Session::Offered { slot: r.pick(&[count as u8, COMPONENT_LIMIT as u8, COMPONENT_LIMIT as u8 + 1, 255]), token: 1 }
        }
        "D1: opens on a pending component" => {
            record.components[slot].floor = 0;
            record.components[slot].staged = Some(record.components[slot].running);
            record.session = session;
        }
        "D1: the previous packet is not just before the next" => {
            record.components[slot].staged = None;
            let next = r.pick(&[0, 1, 0xFFFF, r.clone().next() as u16]);
            record.session = Session::Receiving { slot: slot as u8, token: 3, next };
            let other = next.wrapping_add(r.pick(&[1, 2, 256, 0x8000, 0xFF00, 0xFFFF]));
            record.previous = taken_before(r, &record.components[slot], other);
            // No packet at all is before sequence 1 alone.
            if next != 1 && r.percent(20) {
                record.previous = BLANK;
            }
        }
        "D1: owes while idle" => {
            record.session = Session::Idle;
            record.owed = Some(r.byte());
        }
        "D1: staged of a lower release" => {
            record.session = Session::Idle;
            record.owed = None;
            record.components[slot].floor = 0;
            record.components[slot].running = r.pick(&[0x0100, 0x0100_0001, u32::MAX]);
            record.components[slot].staged = Some(record.components[slot].running - 256);
        }
        "D1: staged of another variant" => {
            record.session = Session::Idle;
            record.owed = None;
            record.components[slot].floor = 0;
            record.components[slot].staged = Some(other_variant(r, record.components[slot].running));
        }
        "D1: staged below the floor" => {
            record.session = Session::Idle;
            record.owed = None;
            let component = &mut record.components[slot];
            component.running = r.pick(&[0, 0x0100_0007, 0x00FF_FF03, 0xFEFF_FFFF]);
            let staged = later(component.running, r.pick(&[0, 1, 2]));
            component.staged = Some(staged);
            component.floor = later(staged, r.pick(&[1, 1, 2, 256, 0xFFFF])) / 256 * 256;
        }
        _ => {}
    }
    let mut bytes = any_record(r, &record.bytes(), record.passed_over());
    let own = component_start(any);
    match aim {
        "D1: no stage" => bytes[device_at::STAGE] = r.pick(&[3, 4, 255]),
        "D1: owed neither 0 nor 1" => bytes[device_at::OWED] = r.pick(&[2, 3, 255]),
        "D1: staged neither 0 nor 1" => bytes[own + component_at::STAGED] = r.pick(&[2, 3, 255]),
        "D1: random bytes" => bytes = r.bytes(DEVICE_SIZE),
        "D1: all zeros" => bytes.fill(0),
        _ => {}
    }
    bytes
}

// ---------------------------------------------------------------- set-up

/// What set-up is made to meet.
pub const SETUP: [&str; 12] = [
    "S1: staging over the limit",
    "S2: count 0",
    "S2: count over the limit",
    "S3: id outside",
    "S3: id repeated",
    "S4: region under the least",
    "S4: region past the buffer",
    "S4: region whose end wraps",
    "S4: regions overlap",
    "S5: floor with a variant",
    "S4: region under the least, and a floor with a variant",
    "S3: id outside, and a floor with a variant",
];

pub fn make_setup(r: &mut Random) -> Case {
    let mut record = valid_device(r);
    let mut staging = record.staging as usize;
    let aim = if r.percent(60) { r.pick(&SETUP) } else { "" };
    while record.count < 2 && !aim.is_empty() {
        record = valid_device(r);
        staging = record.staging as usize;
    }
    let count = record.count as usize;
    let slot = r.below(count);
    let next_slot = (slot + 1) % count.max(1);
    match aim {
        "S1: staging over the limit" => staging = r.pick(&[STAGING_LIMIT + 1, STAGING_LIMIT + 64]),
        "S2: count 0" => record.count = 0,
        "S2: count over the limit" => record.count = r.pick(&[COMPONENT_LIMIT as u8 + 1, COMPONENT_LIMIT as u8 + 2, 255]),
        "S3: id outside" | "S3: id outside, and a floor with a variant" => record.components[slot].id = r.pick(&[0, ID_LIMIT + 1, 0xFF]),
        "S3: id repeated" => record.components[slot].id = record.components[next_slot].id,
        "S4: region under the least" | "S4: region under the least, and a floor with a variant" => {
            record.components[slot].length = r.below(REGION_LEAST) as u32
        }
        "S4: region past the buffer" => staging = staging.saturating_sub(r.between(10, 60)),
        "S4: region whose end wraps" => {
            record.components[slot].base = u32::MAX - 3;
            record.components[slot].length = 12;
        }
        "S4: regions overlap" => {
            let other = record.components[next_slot];
            record.components[slot].base = other.base + other.length - 1;
            record.components[slot].length = REGION_LEAST as u32;
            staging = staging.max((other.base + other.length) as usize + REGION_LEAST);
        }
        _ => {}
    }
    if aim.ends_with("floor with a variant") {
        // One, or several.
        let one = r.below(count);
        for component in record.components.iter_mut().take(count).skip(one).take(r.pick(&[1, 1, 2, COMPONENT_LIMIT])) {
            component.floor = floors::with_variant(r, component.floor);
        }
    }
    let mut list = list_bytes(&record.list()).to_vec();
    let mut device = r.bytes(DEVICE_SIZE);
    if aim.is_empty() {
        match r.below(20) {
            0 => list = r.bytes(LIST_SIZE),
            1 => list = r.bytes(r.clone().pick(&[0, LISTED_SIZE, LIST_SIZE - 1, LIST_SIZE + 1, LIST_SIZE + LISTED_SIZE])),
            2 => device = r.bytes(r.clone().pick(&[0, 1, DEVICE_SIZE - 1, DEVICE_SIZE + 1, 2 * DEVICE_SIZE])),
            _ => {}
        }
    }
    Case::aimed(aim)
        .number("platform", record.platform as u64)
        .number("count", record.count as u64)
        .number("staging length", staging as u64)
        .bytes("device", device)
        .bytes("list", list)
}

pub fn run_setup(case: &Case, tally: &mut Tally) -> Outcome {
    let platform = case.number_at("platform") as u16;
    let count = case.number_at("count") as u8;
    let staging = Lent::new(&vec![0x11; case.number_at("staging length") as usize]);
    let list = Lent::new(case.bytes_at("list"));
    let mut answers = Vec::new();
    for calls in ALL {
        let mut device = Lent::new(case.bytes_at("device"));
        let number = calls.set_up(device.lend(), platform, list.bytes(), count, staging.bytes());
        guarded(calls, &[&device, &list, &staging])?;
        // What was made, or left, answers the version request.
        let mut packet = Lent::new(&[0x5A; LONG_SIZE]);
        let versions = calls.version_reply(device.bytes(), packet.lend());
        guarded(calls, &[&device, &packet])?;
        answers.push((number, versions, device.bytes().to_vec(), packet.bytes().to_vec()));
    }
    let text = |answer: &(u32, u32, Vec<u8>, Vec<u8>)| {
        format!("number {:X}, version reply {:X}, device {}, packet {}", answer.0, answer.1, hex(&answer.2), hex(&answer.3))
    };
    same("set-up", &answers, text)?;
    tally.one("calls: set-up");
    tally.one(tally::row(answers[0].0));
    if case.aim.starts_with(&tally::row(answers[0].0)[5..]) {
        tally.one(case.aim);
    }
    floors::set_up(tally, answers[0].0, case.bytes_at("list"), count)
}

/// Every guard byte stands.
pub fn guarded(calls: &dyn Calls, buffers: &[&Lent]) -> Outcome {
    if buffers.iter().all(|buffer| buffer.is_whole()) {
        Ok(())
    } else {
        Err(format!("{} wrote outside of a lent buffer", calls.name()))
    }
}

/// All three answered the same.
pub fn same<T: PartialEq>(what: &str, answers: &[T], text: impl Fn(&T) -> String) -> Outcome {
    if answers.windows(2).all(|two| two[0] == two[1]) {
        return Ok(());
    }
    let told: Vec<(&str, String)> = ALL.iter().zip(answers).map(|(calls, answer)| (calls.name(), text(answer))).collect();
    Err(difference(what, &told))
}

// ---------------------------------------------------------------- script

/// What an item of a script does, by its first byte; what follows is the packet.
const OFFER: u8 = b'O';
const CONTENT: u8 = b'C';
const VERSIONS: u8 = b'V';
const RESET: u8 = b'R';
/// The same with a buffer for what comes out that is one byte short.
const OFFER_SHORT: u8 = b'o';
const CONTENT_SHORT: u8 = b'c';
const VERSIONS_SHORT: u8 = b'v';

pub fn make_script(r: &mut Random) -> Case {
    let mut aim = "";
    let record = valid_device(r);
    let mut device = any_record(r, &record.bytes(), record.passed_over());
    let mut staging = r.bytes(record.staging as usize);
    match r.below(20) {
        0..=2 => {
            aim = r.pick(&BROKEN);
            device = broken_device(r, aim);
            let length = DeviceRecord::read(&device).map_or(64, |record| record.staging.min(STAGING_LIMIT as u32 + 1));
            staging = r.bytes(length as usize);
        }
        3 => {
            aim = "D2: another staging length";
            let length = r.pick(&[0, 1, staging.len() - 1, staging.len() + 1]);
            staging = r.bytes(length);
        }
        4 if r.percent(30) => {
            aim = "C1: another record length";
            device = r.bytes(r.clone().pick(&[0, 1, DEVICE_SIZE - 1, DEVICE_SIZE + 1]));
        }
        _ => {}
    }
    let items = script(r, &record, &staging, aim);
    Case::aimed(aim).bytes("device", device).bytes("staging", staging).list("packets", items)
}

/// Items for a device in this state. The second implementation follows along, so that the items fit the state that they meet.
fn script(r: &mut Random, record: &DeviceRecord, staging: &[u8], aim: &str) -> Vec<Vec<u8>> {
    let mut items = Vec::new();
    let mut device = other::device_of(record);
    let mut staging = staging.to_vec();
    let wanted = if aim.is_empty() { r.between(10, 40) } else { r.between(4, 12) };
    while items.len() < wanted {
        let now = other::record_of(&device);
        let mut fresh = match r.below(100) {
            0 => vec![vec![RESET]],
            1 | 2 => vec![vec![VERSIONS]],
            3 => vec![vec![r.pick(&[OFFER_SHORT, CONTENT_SHORT, VERSIONS_SHORT])]],
            4..=9 => session(r, &now),
            12..=21 => again(r, &now),
            10 | 11 => {
                let length = r.pick(&[0, 1, 8, SHORT_SIZE - 1, SHORT_SIZE, SHORT_SIZE + 1, LONG_SIZE - 1, LONG_SIZE, LONG_SIZE + 1, 120]);
                let channel = r.pick(&[OFFER, CONTENT]);
                vec![[vec![channel], r.bytes(length)].concat()]
            }
            _ => vec![packet(r, &now)],
        };
        for item in &mut fresh {
            match item[0] {
                OFFER => device = device.offer(&staging, &item[1..]).0,
                CONTENT => device = device.content(&mut staging, &item[1..]).0,
                RESET => device = device.reset().value,
                OFFER_SHORT | CONTENT_SHORT => {
                    let own = packet(r, &now);
                    item.extend(&own[1..]);
                }
                _ => {}
            }
        }
        items.extend(fresh);
    }
    items
}

/// One packet that mostly fits the state.
fn packet(r: &mut Random, record: &DeviceRecord) -> Vec<u8> {
    let idle = record.session == Session::Idle;
    if r.percent(if idle { 25 } else { 80 }) {
        [vec![CONTENT], content(r, record)].concat()
    } else {
        [vec![OFFER], offer_channel(r, record)].concat()
    }
}

/// A packet of the offer channel.
pub fn offer_channel(r: &mut Random, record: &DeviceRecord) -> Vec<u8> {
    match r.below(20) {
        0..=2 => signal(r, INFORMATION, &[0, 1, 2, 3, 255]),
        3..=5 => signal(r, EXTENDED, &[1, 1, 1, 0, 2, 255]),
        6 => r.bytes(SHORT_SIZE),
        _ => offer(r, record),
    }
}

/// Information or extended.
fn signal(r: &mut Random, kind: u8, codes: &[u8]) -> Vec<u8> {
    let mut packet = if r.percent(20) { r.bytes(SHORT_SIZE) } else { vec![0; SHORT_SIZE] };
    packet[signal_at::CODE] = r.pick(codes);
    packet[signal_at::KIND] = kind;
    packet[signal_at::TOKEN] = r.byte();
    packet
}

/// An offer that mostly gets past the earlier checks.
fn offer(r: &mut Random, record: &DeviceRecord) -> Vec<u8> {
    let listed = record.listed();
    let chosen = if listed.is_empty() { Component::default() } else { r.pick(listed) };
    let id = if r.percent(92) { chosen.id } else { r.pick(&[0, 10, ID_LIMIT, ID_LIMIT + 1, 0xFD, r.clone().byte()]) };
    let version = match r.below(20) {
        0 => chosen.running,
        1 => chosen.running.wrapping_sub(256),
        2 => version(r),
        3 => chosen.running.wrapping_add(0x0100_0000),
        4 => chosen.running.wrapping_add(1),
        5 | 6 => other_variant(r, chosen.running),
        7..=11 if chosen.floor > 0 => floors::near(r, &chosen),
        12 if chosen.floor > 0 => other_variant(r, floors::just_below(&chosen)),
        13..=15 => floors::least(&chosen),
        _ => chosen.running.wrapping_add(256),
    };
    let token = r.byte();
    let mut packet = offer_packet(id, version, need(r, listed), record.platform);
    packet[offer_at::TOKEN] = token;
    // One field at its border, sometimes.
    match r.below(30) {
        0 => packet[offer_at::SEGMENT] = r.pick(&[1, 255]),
        1 => packet[offer_at::FLAGS] = r.byte(),
        2 => packet[offer_at::PROTOCOL] = r.pick(&[0, 1, 3, 15, 0x10, 0x21, 0xF2]),
        3 => packet[offer_at::RESERVED] = r.byte(),
        4 => packet[offer_at::PLATFORM] ^= 1,
        5 => packet[offer_at::PLATFORM + 1] ^= 0x80,
        6 => packet[offer_at::PROTOCOL] = 0x12,
        _ => {}
    }
    packet.to_vec()
}

/// The need of an offer: none, met, unmet by one, absent.
fn need(r: &mut Random, listed: &[Component]) -> [u8; 4] {
    if listed.is_empty() || r.percent(55) {
        return if r.percent(80) { [0; 4] } else { [0, r.byte(), r.byte(), r.byte()] };
    }
    let needed = r.pick(listed);
    let release = needed.staged.unwrap_or(needed.running) / 256;
    let least = match r.below(6) {
        0 => release + 1,
        1 => release.saturating_sub(1),
        2 => needed.running / 256,
        3 => 0,
        _ => release,
    } & 0x00FF_FFFF;
    let id = if r.percent(92) { needed.id } else { r.pick(&[0xFE, 0xFF, 0xE0, 11]) };
    need_bytes(id, least)
}

/// A content packet that mostly fits the session.
fn content(r: &mut Random, record: &DeviceRecord) -> Vec<u8> {
    let slot = record.session.slot().unwrap_or(0) as usize;
    let component = record.components[slot.min(COMPONENT_LIMIT - 1)];
    let (mut flags, mut sequence) = match record.session {
        Session::Receiving { next, .. } => (0, next),
        _ => (FLAG_FIRST_BLOCK, r.pick(&[0, 1, 0xFFFF, 0x1234])),
    };
    if r.percent(15) {
        flags |= FLAG_LAST_BLOCK;
    }
    let length = r.between(1, DATA_SIZE).min(component.length.max(1) as usize) as u32;
    let mut length = length as u8;
    let room = component.length.saturating_sub(length as u32);
    let mut address = if r.percent(30) { room } else { r.below(room as usize + 1) as u32 };
    match r.below(25) {
        0 => length = r.pick(&[0, DATA_SIZE as u8 + 1, 255]),
        1 => flags ^= FLAG_FIRST_BLOCK,
        2 => flags |= r.pick(&[1, 2, 0x20, 0x3F]),
        3 => sequence = sequence.wrapping_add(r.pick(&[1, 0xFFFF, 256])),
        4 => address = room + 1,
        5 => address = r.pick(&[u32::MAX, u32::MAX - 51, 0x8000_0000, component.length]),
        6 => return r.bytes(LONG_SIZE),
        _ => {}
    }
    let mut packet = r.bytes(LONG_SIZE);
    packet[content_at::FLAGS] = flags;
    packet[content_at::LENGTH] = length;
    put(&mut packet, content_at::SEQUENCE, &sequence.to_le_bytes());
    put(&mut packet, content_at::ADDRESS, &address.to_le_bytes());
    packet
}

/// The packet that is held: whole, some times in a row, or with one thing changed.
fn again(r: &mut Random, record: &DeviceRecord) -> Vec<Vec<u8>> {
    let mut packet = record.previous.to_vec();
    let length = (packet[content_at::LENGTH] as usize).min(DATA_SIZE);
    let bit = 1 << r.below(8);
    match r.below(16) {
        0..=5 => return vec![[vec![CONTENT], packet].concat(); r.pick(&[1, 1, 2, 3])],
        6 | 7 if length > 0 => packet[content_at::DATA + r.below(length)] ^= bit,
        8 | 9 if length < DATA_SIZE => packet[content_at::DATA + r.between(length, DATA_SIZE - 1)] ^= bit,
        10 | 11 => packet[content_at::FLAGS] ^= r.pick(&[FLAG_FIRST_BLOCK, FLAG_LAST_BLOCK, FLAG_FIRST_BLOCK | FLAG_LAST_BLOCK, 1, 0x20]),
        12 => packet[content_at::LENGTH] = r.pick(&[0, packet[content_at::LENGTH].wrapping_add(1), packet[content_at::LENGTH].wrapping_sub(1), 53]),
        13 => packet[content_at::ADDRESS + r.below(4)] ^= bit,
        14 => match record.session {
            Session::Receiving { next, .. } if r.percent(50) => put(&mut packet, content_at::SEQUENCE, &next.to_le_bytes()),
            _ => packet[content_at::SEQUENCE + r.below(2)] ^= bit,
        },
        _ => packet.resize(r.pick(&[LONG_SIZE - 1, LONG_SIZE + 1]), 0),
    }
    vec![[vec![CONTENT], packet].concat()]
}

/// The packets of a whole image for a component that is not pending, good or with one fault. Some of its blocks come several times.
fn session(r: &mut Random, record: &DeviceRecord) -> Vec<Vec<u8>> {
    let free: Vec<Component> = record.listed().iter().filter(|component| component.staged.is_none()).copied().collect();
    if free.is_empty() {
        return Vec::new();
    }
    let component = r.pick(&free);
    if component.length > 2000 || component.running > 0xFFFF_FE00 {
        return Vec::new();
    }
    // The least that may be offered; or one near the floor, which may be below it.
    let version = if r.percent(90) { floors::least(&component) } else { floors::near(r, &component) };
    let mut image = demand::image(r, component.length as usize, version, component.id);
    let below = floors::just_below(&component);
    match r.below(15) {
        0 => {
            let place = r.below(image.len());
            image[place] ^= 1 << r.below(8);
        }
        1 => image = demand::image(r, component.length as usize, version, component.id ^ 1),
        2 => image = demand::image(r, component.length as usize, component.running.wrapping_sub(256), component.id),
        3 => image = demand::image(r, component.length as usize, component.running, component.id),
        4 => {
            let other = other_variant(r, component.running);
            image = demand::image(r, component.length as usize, other, component.id);
        }
        5 | 6 => image = demand::image(r, component.length as usize, below, component.id),
        7 => image = demand::image(r, component.length as usize, below, component.id ^ 1),
        8 => {
            let other = floors::near(r, &component);
            image = demand::image(r, component.length as usize, other, component.id);
        }
        _ => {}
    }
    let token = r.byte();
    let item = |channel: u8, packet: &[u8]| [&[channel], packet].concat();
    let mut items = Vec::new();
    if record.session != Session::Idle {
        items.push(item(OFFER, &signal_packet(INFORMATION, INFO_START_ENTIRE_TRANSACTION, token)));
    }
    let mut offer = offer_packet(component.id, version, [0; 4], record.platform);
    offer[offer_at::TOKEN] = token;
    items.push(item(OFFER, &offer));
    if r.percent(40) {
        items.push(item(OFFER, &signal_packet(EXTENDED, NOTIFY_ON_READY, r.byte())));
    }
    let mut sequence = r.pick(&[0u16, 0xFFFF, 0xFFFE, 7]);
    let mut at = 0;
    while at < image.len() {
        let length = r.between(1, DATA_SIZE).max(image.len() / 30).min(DATA_SIZE).min(image.len() - at);
        let first = if at == 0 { FLAG_FIRST_BLOCK } else { 0 };
        let last = if at + length == image.len() { FLAG_LAST_BLOCK } else { 0 };
        let block = item(CONTENT, &content_packet(first | last, sequence, at as u32, &image[at..at + length]));
        let copies = if r.percent(15) { r.pick(&[1, 1, 2, 3]) } else { 0 };
        items.extend(vec![block; 1 + copies]);
        sequence = sequence.wrapping_add(1);
        at += length;
    }
    items
}

/// An implementation with the buffers that it is lent.
struct Side {
    calls: &'static dyn Calls,
    device: Lent,
    staging: Lent,
    out: Lent,
}

pub fn run_script(case: &Case, tally: &mut Tally) -> Outcome {
    let mut sides: Vec<Side> = ALL
        .iter()
        .map(|calls| Side {
            calls: *calls,
            device: Lent::new(case.bytes_at("device")),
            staging: Lent::new(case.bytes_at("staging")),
            out: Lent::new(&[0; LONG_SIZE]),
        })
        .collect();
    // How many copies of the packet that is held came in a row; and the content packet that ended a session just before.
    let mut copies = 0;
    let mut ended: &[u8] = &[];
    for (place, item) in case.list_at("packets").iter().enumerate() {
        let Some((what, packet)) = item.split_first() else { continue };
        let report = Lent::new(packet);
        let before = DeviceRecord::read(sides[0].device.bytes());
        let repeat = before.filter(|_| *what == CONTENT).and_then(|before| repeat_of(&before, packet));
        let staging_before = repeat.map(|_| sides[0].staging.bytes().to_vec());
        let size = match *what {
            OFFER | CONTENT => REPLIES_SIZE,
            OFFER_SHORT | CONTENT_SHORT => REPLIES_SIZE - 1,
            VERSIONS_SHORT => LONG_SIZE - 1,
            _ => LONG_SIZE,
        };
        let mut answers = [(0, 0); 3];
        for (answer, side) in answers.iter_mut().zip(&mut sides) {
            if side.out.bytes().len() != size {
                side.out = Lent::new(&vec![0x5A; size]);
            }
            side.out.lend().fill(0x5A);
            *answer = one_call(side, *what, report.bytes());
            guarded(side.calls, &[&side.device, &side.staging, &side.out, &report])?;
        }
        let (first, rest) = sides.split_first().unwrap();
        let equal = rest.iter().zip(&answers[1..]).all(|(side, answer)| {
            *answer == answers[0]
                && side.device.bytes() == first.device.bytes()
                && side.out.bytes() == first.out.bytes()
                && side.staging.bytes() == first.staging.bytes()
        });
        if !equal {
            let told: Vec<(&str, String)> = sides.iter().zip(&answers).map(|(side, answer)| (side.calls.name(), side_text(side, *answer))).collect();
            return Err(difference(&format!("packet {place}"), &told));
        }
        if report.bytes() != packet {
            return Err(format!("packet {place}: the report was written to"));
        }
        count_call(tally, *what, answers[0], first.out.bytes());
        let after = DeviceRecord::read(first.device.bytes());
        if let (Some(before), Some(after), SERVED) = (before, after, answers[0].0) {
            floors_kept(tally, *what, packet, &before, &after, first).map_err(|what| format!("packet {place}: {what}"))?;
            count_previous(tally, *what, packet, &before, &after);
            let reply = &first.out.bytes()[..SHORT_SIZE];
            if let (Some((_, status)), Some(staging_before)) = (repeat, staging_before) {
                // A4: its own sequence and this status, and nothing changes.
                let said = reply[..2] == packet[content_at::SEQUENCE..][..2] && reply[content_reply_at::STATUS] == status;
                if !said || answers[0].1 != 1 || before != after || staging_before != first.staging.bytes() {
                    return Err(format!("packet {place}: a block that comes again is not answered with {status:X} alone: {}", side_text(first, answers[0])));
                }
            }
            copies = count_repeat(tally, *what, &before, &after, repeat, copies);
            if *what == CONTENT && packet == ended {
                tally.one(AGAIN_LAST);
                if reply[content_reply_at::STATUS] != ERROR_NO_OFFER || before != after {
                    return Err(format!("packet {place}: the last block comes again and is not answered with 0x0A alone"));
                }
            }
            let ends = *what == CONTENT && before.session != Session::Idle && after.session == Session::Idle;
            ended = if ends { packet } else { &[] };
        }
        if let (Some(before), D3, CONTENT) = (before, answers[0].0, *what) {
            let most = packet.len().min(LONG_SIZE);
            if matches!(before.session, Session::Receiving { .. }) && most + 1 >= LONG_SIZE && packet[..most] == before.previous[..most] {
                tally.one(AGAIN_LENGTH);
            }
        }
        if place == 0 && case.aim.starts_with(&tally::row(answers[0].0)[5..]) {
            tally.one(case.aim);
        }
        if let (0, D1, Some(before)) = (place, answers[0].0, before) {
            floors::refused(tally, &before);
        }
        let given = case.bytes_at("device");
        if let (0, SERVED, Some(record)) = (place, answers[0].0, DeviceRecord::read(given)) {
            let passed = record.passed_over();
            count_passed(tally, given, &passed);
            count_left(tally, *what, given, first.device.bytes(), &passed);
        }
    }
    parts::components_left(&sides.iter().map(|side| &side.device).collect::<Vec<_>>(), tally)
}

/// What a served call keeps of the floors (document 02, A5).
fn floors_kept(tally: &mut Tally, what: u8, packet: &[u8], before: &DeviceRecord, after: &DeviceRecord, left: &Side) -> Outcome {
    floors::served(tally, before, after)?;
    match what {
        OFFER => floors::offered(tally, before, packet, left.out.bytes())?,
        CONTENT if before.session != Session::Idle && after.session == Session::Idle => {
            floors::judged(tally, before, left.staging.bytes(), left.out.bytes())?
        }
        RESET => floors::reset(tally, before, after),
        _ => {}
    }
    Ok(())
}

const AGAIN: &str = "block again: all 60 bytes the same";
const AGAIN_THIRD: &str = "block again: the same for the third time and more";
const AGAIN_OWED: &str = "block again: the same, while a ready-reply is owed";
const AGAIN_PAST: &str = "block again: the same, whose address is past the region";
const AGAIN_NEXT: &str = "block again: the next one is taken after it";
const AGAIN_FIRST: &str = "block again: the first";
const AGAIN_LAST: &str = "block again: the last, when its session is over";
const AGAIN_HELD_LAST: &str = "block again: one with the last flag, while receiving";
const AGAIN_CHECK_2: &str = "block again: one that check 2 refuses";
const AGAIN_LENGTH: &str = "block again: in a report of another length";
const AGAIN_DATA: &str = "block again: with another byte of its data";
const AGAIN_UNUSED: &str = "block again: with another byte behind its data";
const AGAIN_FLAGS: &str = "block again: with other flags";
const AGAIN_LESS: &str = "block again: with another length of its data";
const AGAIN_ADDRESS: &str = "block again: with another address";
const AGAIN_MORE: &str = "block again: with several other bytes";
const AGAIN_RENUMBERED: &str = "block again: with the next sequence";

/// What a block that comes again has to have met, and what becomes of the previous packet.
pub const REPEATS: [&str; 22] = [
    AGAIN,
    AGAIN_THIRD,
    AGAIN_OWED,
    AGAIN_PAST,
    AGAIN_NEXT,
    AGAIN_FIRST,
    AGAIN_LAST,
    AGAIN_HELD_LAST,
    AGAIN_CHECK_2,
    AGAIN_LENGTH,
    AGAIN_DATA,
    AGAIN_UNUSED,
    AGAIN_FLAGS,
    AGAIN_LESS,
    AGAIN_ADDRESS,
    AGAIN_MORE,
    AGAIN_RENUMBERED,
    BLANKED_CODE_0,
    BLANKED_ACCEPT,
    BLANKED_RESET,
    BLANKED_END,
    PREVIOUS_STAYS,
];

const BLANKED_CODE_0: &str = "previous packet: blanked by code 0";
const BLANKED_ACCEPT: &str = "previous packet: blanked by an ACCEPT";
const BLANKED_RESET: &str = "previous packet: blanked by a reset";
const BLANKED_END: &str = "previous packet: blanked by a last block";
const PREVIOUS_STAYS: &str = "previous packet: left by another packet";

/// A content packet, while receiving, with the sequence of the packet that is held: what it is, and the status that it gets (document 02, A4). Nothing changes.
fn repeat_of(record: &DeviceRecord, packet: &[u8]) -> Option<(&'static str, u8)> {
    let Session::Receiving { next, .. } = record.session else { return None };
    let held = &record.previous;
    if packet.len() != LONG_SIZE || next != two(&held[content_at::SEQUENCE..]).wrapping_add(1) {
        return None;
    }
    let differing: Vec<usize> = (0..LONG_SIZE).filter(|place| packet[*place] != held[*place]).collect();
    if packet[content_at::SEQUENCE..content_at::ADDRESS] != held[content_at::SEQUENCE..content_at::ADDRESS] {
        return None;
    }
    let (flags, length) = (held[content_at::FLAGS], held[content_at::LENGTH] as usize);
    let name = match differing[..] {
        [] if !(1..=DATA_SIZE).contains(&length) || flags & !(FLAG_FIRST_BLOCK | FLAG_LAST_BLOCK) != 0 => AGAIN_CHECK_2,
        [] if flags & FLAG_FIRST_BLOCK != 0 => AGAIN_FIRST,
        [] if flags & FLAG_LAST_BLOCK != 0 => AGAIN_HELD_LAST,
        [] => return Some((AGAIN, SUCCESS)),
        [content_at::FLAGS] => AGAIN_FLAGS,
        [content_at::LENGTH] => AGAIN_LESS,
        [place] if place < content_at::DATA => AGAIN_ADDRESS,
        [place] if place < content_at::DATA + length => AGAIN_DATA,
        [_] => AGAIN_UNUSED,
        _ => AGAIN_MORE,
    };
    Some((name, ERROR_INVALID))
}

/// Counts a repeat; how many copies came in a row with it.
fn count_repeat(
    tally: &mut Tally,
    what: u8,
    before: &DeviceRecord,
    after: &DeviceRecord,
    repeat: Option<(&'static str, u8)>,
    copies: usize,
) -> usize {
    let next_of = |record: &DeviceRecord| match record.session {
        Session::Receiving { next, .. } => Some(next),
        _ => None,
    };
    match repeat {
        Some((name, status)) => {
            tally.one(name);
            if status != SUCCESS {
                return copies;
            }
            if copies >= 2 {
                tally.one(AGAIN_THIRD);
            }
            if before.owed.is_some() {
                tally.one(AGAIN_OWED);
            }
            let slot = before.session.slot().unwrap_or(0) as usize;
            let (address, length) = (four(&before.previous[content_at::ADDRESS..]), before.previous[content_at::LENGTH]);
            if address as u64 + length as u64 > before.components[slot].length as u64 {
                tally.one(AGAIN_PAST);
            }
            copies + 1
        }
        None => {
            let is_taken = what == CONTENT && next_of(before).is_some() && next_of(after) != next_of(before);
            if is_taken && copies > 0 {
                tally.one(AGAIN_NEXT);
            }
            let apart = |place: &usize| after.previous[*place] != before.previous[*place];
            if is_taken && after.previous != BLANK && (0..LONG_SIZE).filter(apart).all(|place| (content_at::SEQUENCE..content_at::ADDRESS).contains(&place)) {
                tally.one(AGAIN_RENUMBERED);
            }
            0
        }
    }
}

/// Counts what becomes of a previous packet that is not blank.
fn count_previous(tally: &mut Tally, what: u8, packet: &[u8], before: &DeviceRecord, after: &DeviceRecord) {
    if before.previous == BLANK {
        return;
    }
    match (what, after.previous == BLANK) {
        (OFFER, true) if packet[signal_at::KIND] == INFORMATION => tally.one(BLANKED_CODE_0),
        (OFFER, true) => tally.one(BLANKED_ACCEPT),
        (RESET, true) => tally.one(BLANKED_RESET),
        (CONTENT, true) => tally.one(BLANKED_END),
        (OFFER, false) => tally.one(PREVIOUS_STAYS),
        _ => {}
    }
}

/// What the first call of a script does with bytes that are passed over and are not zero. The previous packet is counted apart.
pub const LEFT: [&str; 5] = [
    "passed over and left by an offer",
    "passed over and written by an offer",
    "passed over and left by content",
    "passed over and written by content",
    "passed over and written by a reset",
];

fn count_left(tally: &mut Tally, what: u8, given: &[u8], left: &[u8], passed: &[Passed]) {
    for (_, place) in passed.iter().filter(|(_, place)| place.start != device_at::PREVIOUS) {
        let (before, after) = (&given[place.clone()], &left[place.clone()]);
        if before.iter().all(|byte| *byte == 0) {
            continue;
        }
        match (what, before == after) {
            (OFFER, true) => tally.one(LEFT[0]),
            (OFFER, false) => tally.one(LEFT[1]),
            (CONTENT, true) => tally.one(LEFT[2]),
            (CONTENT, false) => tally.one(LEFT[3]),
            (RESET, false) => tally.one(LEFT[4]),
            _ => {}
        }
    }
}

fn one_call(side: &mut Side, what: u8, report: &[u8]) -> (u32, u32) {
    match what {
        CONTENT | CONTENT_SHORT => {
            let told = side.calls.content(side.device.lend(), side.staging.lend(), report, side.out.lend());
            (told.number, told.count)
        }
        VERSIONS | VERSIONS_SHORT => (side.calls.version_reply(side.device.bytes(), side.out.lend()), 0),
        RESET => (side.calls.reset(side.device.lend()), 0),
        _ => {
            let told = side.calls.offer(side.device.lend(), side.staging.bytes(), report, side.out.lend());
            (told.number, told.count)
        }
    }
}

fn side_text(side: &Side, (number, count): (u32, u32)) -> String {
    format!(
        "number {number:X}, count {count}, out {}, device {}, staging {}",
        hex(side.out.bytes()),
        hex(side.device.bytes()),
        hex(side.staging.bytes())
    )
}

fn count_call(tally: &mut Tally, what: u8, (number, count): (u32, u32), out: &[u8]) {
    tally.one(tally::row(number));
    match what {
        OFFER | OFFER_SHORT | CONTENT | CONTENT_SHORT => tally.one("packets to the device"),
        RESET => tally.one("calls: reset"),
        _ => tally.one("calls: version reply"),
    }
    if number != SERVED {
        return;
    }
    match (what, count) {
        (OFFER, 0) => tally.one("replies: none due"),
        (OFFER, _) => tally.one(tally::offer_status(out)),
        (CONTENT, n) => {
            tally.one(tally::content_status(out));
            if n == 2 {
                tally.one("replies: READY follows");
            }
        }
        _ => {}
    }
}

/// Two more that a script is made to meet.
pub const LENGTHS: [&str; 2] = ["D2: another staging length", "C1: another record length"];
