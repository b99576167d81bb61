//! The calls for one part of lent bytes (include/cfu.h): a component goes into the list that set-up takes, a component of a device, an entry of a checked
//! bundle. Beside the comparison: what was put is what a device tells after set-up, a component is what the version reply has and what a reset leads on from,
//! and an entry of the contents that a check left is the body as the second implementation parses it.

use crate::bundles::any_bundle;
use crate::case::{hex, Case, Outcome};
use crate::devices::{any_record, broken_device, guarded, same, valid_device, BROKEN};
use crate::floors;
use crate::header::*;
use crate::hosts::{make_contents, make_host};
use crate::layout::*;
use crate::lent::Lent;
use crate::other::row_number;
use crate::random::Random;
use crate::tally::{self, Tally};
use crate::ALL;

/// What each call answers. That it is served is in tally::REQUIRED.
const LIST_PUT: [&str; 3] = ["list_put: served", "list_put: C2", "list_put: C4"];
const DEVICE_COMPONENT: [&str; 4] = ["device_component: served", "device_component: C1", "device_component: D1", "device_component: C4"];
const CONTENTS_ENTRY: [&str; 11] = [
    "contents_entry: served",
    "contents_entry: C1",
    "contents_entry: B1",
    "contents_entry: B2",
    "contents_entry: B3",
    "contents_entry: B4",
    "contents_entry: B5",
    "contents_entry: B6",
    "contents_entry: B7",
    "contents_entry: B8",
    "contents_entry: C4",
];

/// Of what a part was told.
const TOLD: [&str; 7] = [
    "list_put: told after set-up",
    "device_component: refused set-up",
    "device_component: after a reset",
    "device_component: after packets",
    "contents_entry: as parsed",
    "contents_entry: after steps",
    "contents_entry: any contents",
];

/// What has to be met: each row of each call, and all of what is told.
pub fn required() -> impl Iterator<Item = &'static str> {
    [&LIST_PUT[1..], &DEVICE_COMPONENT[1..], &CONTENTS_ENTRY[1..], &TOLD].into_iter().flatten().copied()
}

/// Counts a call by its number.
fn count(tally: &mut Tally, unit: &'static str, names: &[&'static str], number: u32) {
    tally.one(unit);
    let row = tally::row(number);
    tally.one(row);
    if let Some(name) = names.iter().find(|name| name.ends_with(&row[4..])) {
        tally.one(name);
    }
}

// ---------------------------------------------------------------- places

/// A place: mostly one of so many, or one near the last, sometimes a far one, which may have a low byte that is a place.
fn place(r: &mut Random, count: usize) -> u32 {
    let own = r.below(count.max(1)) as u32;
    match r.below(10) {
        0..=4 => own,
        5 | 6 => (count + r.below(3)).saturating_sub(1) as u32,
        7 => r.below(10) as u32,
        8 => r.pick(&[255, 256, 256 + own, 0x1_0000 + own]),
        _ => r.pick(&[1 << 31, (1 << 31) + own, u32::MAX]),
    }
}

/// Places as a field of a case, four bytes each.
fn places(r: &mut Random, count: usize) -> Vec<u8> {
    (0..r.between(3, 8)).flat_map(|_| place(r, count).to_le_bytes()).collect()
}

fn places_in(case: &Case) -> Vec<u32> {
    case.bytes_at("places").chunks_exact(4).map(four).collect()
}

// ---------------------------------------------------------------- list_put

/// A put as an item of a case: the place (4), then the component's bytes as the list has them.
fn item(place: u32, component: &[u8]) -> Vec<u8> {
    [&place.to_le_bytes()[..], component].concat()
}

/// The component in the bytes of a list.
fn listed_in(bytes: &[u8]) -> Listed {
    Listed {
        id: bytes[component_at::ID],
        running: Version::of(four(&bytes[component_at::RUNNING..])),
        base: four(&bytes[component_at::BASE..]),
        length: four(&bytes[component_at::LENGTH..]),
        floor: Version::of(four(&bytes[component_at::FLOOR..])),
    }
}

pub fn make_list(r: &mut Random) -> Case {
    let record = valid_device(r);
    let own = list_bytes(&record.list());
    let mut list = match r.below(4) {
        0 => r.bytes(LIST_SIZE),
        1 => list_bytes(&valid_device(r).list()).to_vec(),
        _ => vec![0; LIST_SIZE],
    };
    if r.percent(10) {
        list = r.bytes(r.clone().pick(&[0, 1, LISTED_SIZE, LIST_SIZE - 1, LIST_SIZE + 1, LIST_SIZE + LISTED_SIZE, 2 * LIST_SIZE]));
    }
    // Any components first; over them those of a device, in any order; between them some at places that the list does not have.
    let mut puts: Vec<Vec<u8>> = (0..r.below(5)).map(|_| item(place(r, COMPONENT_LIMIT), &r.bytes(LISTED_SIZE))).collect();
    let mut order: Vec<usize> = (0..record.count as usize).collect();
    r.shuffle(&mut order);
    for slot in order {
        if r.percent(97) {
            puts.push(item(slot as u32, &own[LISTED_SIZE * slot..][..LISTED_SIZE]));
        }
        if r.percent(20) {
            let far = r.pick(&[COMPONENT_LIMIT as u32, 8, 9, 256, 256 + slot as u32, 1 << 31, u32::MAX]);
            puts.push(item(far, &r.bytes(LISTED_SIZE)));
        }
    }
    Case::aimed("")
        .number("platform", record.platform as u64)
        .number("count", record.count as u64)
        .number("staging length", record.staging as u64)
        .bytes("list", list)
        .bytes("places", places(r, record.count as usize))
        .list("puts", puts)
}

pub fn run_list(case: &Case, tally: &mut Tally) -> Outcome {
    let mut lists = ALL.map(|_| Lent::new(case.bytes_at("list")));
    let mut awaited = case.bytes_at("list").to_vec();
    for (turn, put_item) in case.list_at("puts").iter().enumerate() {
        // A smaller case may have cut it.
        if put_item.len() != 4 + LISTED_SIZE {
            continue;
        }
        let (place, own) = (four(put_item), &put_item[4..]);
        let mut answers = Vec::new();
        for (calls, list) in ALL.into_iter().zip(&mut lists) {
            let number = calls.list_put(list.lend(), place, listed_in(own));
            guarded(calls, &[list])?;
            answers.push((number, list.bytes().to_vec()));
        }
        let text = |(number, list): &(u32, Vec<u8>)| format!("number {number:X}, list {}", hex(list));
        same(&format!("list_put {turn}"), &answers, text)?;
        // The component stands at its place, and every other byte is as it was; after a refusal every byte is.
        let number = if awaited.len() != LIST_SIZE {
            C2
        } else if place as usize >= COMPONENT_LIMIT {
            C4
        } else {
            put(&mut awaited, LISTED_SIZE * place as usize, own);
            SERVED
        };
        if answers[0] != (number, awaited.clone()) {
            return Err(format!("list_put {turn}: {}, and not {}", text(&answers[0]), text(&(number, awaited))));
        }
        count(tally, "calls: list_put", &LIST_PUT, number);
    }
    told_after_setup(case, &lists, tally)
}

/// Set-up takes the lists, and the device tells what was put; where set-up refuses them, no component is told of the zeroed record.
fn told_after_setup(case: &Case, lists: &[Lent], tally: &mut Tally) -> Outcome {
    let count = case.number_at("count") as u8;
    let staging = vec![0x11; case.number_at("staging length") as usize];
    let (mut numbers, mut devices) = (Vec::new(), Vec::new());
    for (calls, list) in ALL.into_iter().zip(lists) {
        let mut device = Lent::new(&[0; DEVICE_SIZE]);
        numbers.push(calls.set_up(device.lend(), case.number_at("platform") as u16, list.bytes(), count, &staging));
        guarded(calls, &[&device, list])?;
        devices.push(device);
    }
    same("set-up", &numbers, |number| format!("number {number:X}"))?;
    let mut asked = places_in(case);
    asked.extend(0..=count as u32);
    let told = components("after set-up", &devices.iter().collect::<Vec<_>>(), &asked, tally)?;
    for (place, told) in asked.into_iter().zip(told) {
        let awaited = if numbers[0] != SERVED {
            tally.one("device_component: refused set-up");
            ToldComponent { number: D1, ..Default::default() }
        } else if place < count as u32 {
            tally.one("list_put: told after set-up");
            let Listed { id, running, base, length, floor } = listed_in(&lists[0].bytes()[LISTED_SIZE * place as usize..]);
            ToldComponent { id, running, base, length, floor, ..Default::default() }
        } else {
            ToldComponent { number: C4, ..Default::default() }
        };
        if told != awaited {
            return Err(format!("device_component {place} after set-up: {told:X?}, and not {awaited:X?}"));
        }
    }
    Ok(())
}

// ---------------------------------------------------------------- device_component

/// All three tell the same of the components at these places, and leave the records as they were.
pub fn components(what: &str, devices: &[&Lent], places: &[u32], tally: &mut Tally) -> Result<Vec<ToldComponent>, String> {
    let before: Vec<Vec<u8>> = devices.iter().map(|device| device.bytes().to_vec()).collect();
    let mut out = Vec::new();
    for place in places {
        let mut answers = [ToldComponent::default(); 3];
        for (side, calls) in ALL.into_iter().enumerate() {
            answers[side] = calls.device_component(devices[side].bytes(), *place);
            guarded(calls, &[devices[side]])?;
            if devices[side].bytes() != before[side] {
                return Err(format!("device_component {place} {what}, {}: the record was written to", calls.name()));
            }
        }
        same(&format!("device_component {place} {what}"), &answers, |told| format!("{told:X?}"))?;
        count(tally, "calls: device_component", &DEVICE_COMPONENT, answers[0].number);
        if answers[0].pending == 1 {
            tally.one("device_component: pending told");
        }
        floors::told(tally, answers[0].floor);
        out.push(answers[0]);
    }
    Ok(out)
}

/// Each place of the record and one past the last: what packets left there.
pub fn components_left(devices: &[&Lent], tally: &mut Tally) -> Outcome {
    let count = devices[0].bytes().get(device_at::COUNT).map_or(0, |count| (*count as u32).min(COMPONENT_LIMIT as u32));
    let told = components("after the packets", devices, &(0..=count).collect::<Vec<_>>(), tally)?;
    tally.add("device_component: after packets", told.iter().filter(|told| told.number == SERVED).count() as u64);
    Ok(())
}

pub fn make_component(r: &mut Random) -> Case {
    let record = valid_device(r);
    let mut device = any_record(r, &record.bytes(), record.passed_over());
    let mut aim = "";
    match r.below(20) {
        0..=6 => {
            aim = r.pick(&BROKEN);
            device = broken_device(r, aim);
        }
        7 => {
            let length = r.pick(&[0, 1, component_start(1), DEVICE_SIZE - 1, DEVICE_SIZE + 1, 2 * DEVICE_SIZE]);
            device.resize(length, 0);
        }
        _ => {}
    }
    Case::aimed(aim).bytes("device", device).bytes("places", places(r, record.count as usize))
}

pub fn run_component(case: &Case, tally: &mut Tally) -> Outcome {
    let mut devices = ALL.map(|_| Lent::new(case.bytes_at("device")));
    let places = places_in(case);
    let told = components("of a record", &devices.each_ref(), &places, tally)?;
    for (side, calls) in ALL.into_iter().enumerate() {
        let name = calls.name();
        // The version reply refuses the same records, and has the same ids and versions.
        let (mut packet, mut running) = ([0; LONG_SIZE], [0; COMPONENTS_SIZE]);
        let number = calls.version_reply(devices[side].bytes(), &mut packet);
        let count = calls.read_version_reply(&packet, &mut running).count as u32;
        let listed = read_components(&running);
        for (place, told) in places.iter().zip(&told) {
            let awaited = match number {
                SERVED if *place < count => (SERVED, listed[*place as usize].1, Version::of(listed[*place as usize].0)),
                SERVED => (C4, 0, Version::default()),
                _ => (number, 0, Version::default()),
            };
            if (told.number, told.id, told.running) != awaited {
                return Err(format!("device_component {place}, {name}: {told:X?}, and its version reply has {awaited:X?}"));
            }
        }
        calls.reset(devices[side].lend());
    }
    // After a reset what was staged runs, nothing is staged, and all else, the floor too, is as it was.
    let after = components("after a reset", &devices.each_ref(), &places, tally)?;
    for ((place, before), after) in places.iter().zip(&told).zip(&after) {
        let running = if before.pending == 1 { before.staged } else { before.running };
        let awaited = ToldComponent { running, pending: 0, staged: Version::default(), ..*before };
        if *after != awaited {
            return Err(format!("device_component {place} after a reset: {after:X?}, and not {awaited:X?}"));
        }
        if before.pending == 1 {
            tally.one("device_component: after a reset");
        }
    }
    Ok(())
}

// ---------------------------------------------------------------- contents_entry

/// All three tell the same of the entries at these places, and leave the contents as they were.
fn entries(what: &str, contents: &[Lent], places: &[u32], tally: &mut Tally) -> Result<Vec<ToldEntry>, String> {
    let before: Vec<Vec<u8>> = contents.iter().map(|contents| contents.bytes().to_vec()).collect();
    let mut out = Vec::new();
    for place in places {
        let mut answers = [ToldEntry::default(); 3];
        for (side, calls) in ALL.into_iter().enumerate() {
            answers[side] = calls.contents_entry(contents[side].bytes(), *place);
            guarded(calls, &[&contents[side]])?;
            if contents[side].bytes() != before[side] {
                return Err(format!("contents_entry {place} {what}, {}: the contents were written to", calls.name()));
            }
        }
        same(&format!("contents_entry {place} {what}"), &answers, |told| format!("{told:X?}"))?;
        count(tally, "calls: contents_entry", &CONTENTS_ENTRY, answers[0].number);
        out.push(answers[0]);
    }
    Ok(out)
}

/// Contents that a check leaves, with steps of a host over them; or, where `contents` has some, those alone.
pub fn make_entry(r: &mut Random) -> Case {
    let (mut host, mut bundle, mut replies, mut contents) = (HostRecord::default().bytes().to_vec(), Vec::new(), Vec::new(), Vec::new());
    match r.below(10) {
        0..=3 => {
            let case = make_host(r);
            (host, bundle, replies) = (case.bytes_at("host").to_vec(), case.bytes_at("bundle").to_vec(), case.list_at("replies").to_vec());
            replies.truncate(8);
        }
        4 | 5 => bundle = any_bundle(r),
        6 | 7 => contents.push(make_contents(r).bytes_at("contents").to_vec()),
        8 => {
            // Any bodies, under a head that mostly stands in contents.
            let mut any = r.bytes(CONTENTS_SIZE);
            any[contents_at::ROW] = r.pick(&[0, 0, 0, 1, BUNDLE_ROWS, BUNDLE_ROWS + 1, 255]);
            any[contents_at::COUNT] = r.pick(&[0, 1, 3, OFFER_LIMIT as u8, OFFER_LIMIT as u8 + 1, r.clone().byte()]);
            contents.push(any);
        }
        _ => {
            let mut any = vec![0; r.pick(&[0, 1, contents_at::BODIES, CONTENTS_SIZE - 1, CONTENTS_SIZE, CONTENTS_SIZE + 1, 2 * CONTENTS_SIZE])];
            if let Some(count) = any.get_mut(contents_at::COUNT) {
                *count = r.below(3) as u8;
            }
            contents.push(any);
        }
    }
    let count = match contents.first() {
        Some(given) => given.get(contents_at::COUNT).copied(),
        None => bundle.first().copied(),
    };
    let asked = places(r, count.unwrap_or(0) as usize % (OFFER_LIMIT + 2));
    Case::aimed("").bytes("host", host).bytes("bundle", bundle).bytes("places", asked).list("replies", replies).list("contents", contents)
}

pub fn run_entry(case: &Case, tally: &mut Tally) -> Outcome {
    let places = places_in(case);
    if let Some(given) = case.list_at("contents").first() {
        let told = entries("of any contents", &ALL.map(|_| Lent::new(given)), &places, tally)?;
        tally.add("contents_entry: any contents", told.iter().filter(|told| told.number == SERVED).count() as u64);
        return Ok(());
    }
    let bundle = case.bytes_at("bundle");
    // The row that refuses the bundle, or the body as it is parsed.
    let parsed = second::bundle::check(bundle);
    let awaited: Vec<ToldEntry> = places
        .iter()
        .map(|place| match &parsed {
            Err(fault) => ToldEntry { number: row_number(fault.row), entry: fault.entry as u32, ..Default::default() },
            Ok(read) => read.entries.get(*place as usize).map_or(ToldEntry { number: C4, ..Default::default() }, |own| ToldEntry {
                offset: own.offset,
                length: own.length,
                records: own.records.len() as u32,
                ..Default::default()
            }),
        })
        .collect();
    let mut contents = ALL.map(|_| Lent::new(&[0x5A; CONTENTS_SIZE]));
    let mut hosts = ALL.map(|_| Lent::new(case.bytes_at("host")));
    for (calls, contents) in ALL.into_iter().zip(&mut contents) {
        calls.check(bundle, contents.lend());
    }
    let (mut when, mut met) = ("after the check", "contents_entry: as parsed");
    let mut replies = case.list_at("replies").iter();
    loop {
        let told = entries(when, &contents, &places, tally)?;
        if told != awaited {
            return Err(format!("contents_entry {when}, at {places:?}: {told:X?}, and not {awaited:X?}"));
        }
        tally.add(met, told.iter().filter(|told| told.number == SERVED).count() as u64);
        let Some(reply) = replies.next() else { return Ok(()) };
        for ((calls, host), contents) in ALL.into_iter().zip(&mut hosts).zip(&mut contents) {
            calls.step_checked(host.lend(), contents.lend(), bundle, reply, &mut [0; LONG_SIZE]);
        }
        (when, met) = ("after steps", "contents_entry: after steps");
    }
}
