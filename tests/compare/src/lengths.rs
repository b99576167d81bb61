//! Rows C1 to C3 (include/cfu.h): every call with lent buffers of right and of wrong lengths.

use crate::bundles::{any_entries, bundle};
use crate::calls::Calls;
use crate::case::{hex, Case, Outcome};
use crate::devices::{guarded, offer_channel, same, valid_device};
use crate::header::*;
use crate::layout::*;
use crate::lent::Lent;
use crate::made::Made;
use crate::random::Random;
use crate::tally::{self, Tally};
use crate::ALL;

/// The calls that judge a length, each with the rows that it can answer.
const CALLS: [(&str, &[&str]); 22] = [
    ("set-up", &["set-up: C1", "set-up: C2"]),
    ("version reply", &["version reply: C1", "version reply: C3"]),
    ("offer", &["offer: C1", "offer: C3"]),
    ("content", &["content: C1", "content: C3"]),
    ("reset", &["reset: C1"]),
    ("check", &["check: C3"]),
    ("fresh", &["fresh: C1"]),
    ("step", &["step: C1", "step: C3"]),
    ("step over contents", &["step over contents: C1", "step over contents: C3"]),
    ("report", &["report: C1"]),
    ("build version reply", &["build version reply: C2", "build version reply: C3"]),
    ("build offer", &["build offer: C3"]),
    ("build information", &["build information: C3"]),
    ("build extended", &["build extended: C3"]),
    ("build offer reply", &["build offer reply: C3"]),
    ("build content", &["build content: C2", "build content: C3"]),
    ("build content reply", &["build content reply: C3"]),
    ("read version reply", &["read version reply: C3"]),
    ("read content", &["read content: C3"]),
    ("list_put", &["list_put: C2"]),
    ("device_component", &["device_component: C1"]),
    ("contents_entry", &["contents_entry: C1"]),
];

/// What has to be met: each row of each call.
pub fn required() -> impl Iterator<Item = &'static str> {
    CALLS.iter().flat_map(|(_, rows)| rows.iter().copied())
}

/// Bytes of a right length, or sometimes of another.
fn perhaps(r: &mut Random, bytes: &[u8]) -> Vec<u8> {
    let mut out = bytes.to_vec();
    if r.percent(30) {
        let size = bytes.len();
        let length = r.pick(&[0, 1, size.saturating_sub(1), size + 1, 2 * size, r.clone().below(200)]);
        out.resize(length, 0xC3);
    }
    out
}

pub fn make(r: &mut Random) -> Case {
    let function = r.below(CALLS.len());
    let record = valid_device(r);
    let device = record.bytes();
    let staging = vec![0x11; record.staging as usize];
    let list = list_bytes(&record.list());
    let laid = bundle(&any_entries(r, 2));
    let mut contents = [0; CONTENTS_SIZE];
    Made.check(&laid, &mut contents);
    let host = HostRecord::fresh(r.byte()).bytes();
    let (short, long, replies) = ([0x5A; SHORT_SIZE], [0x5A; LONG_SIZE], [0x5A; REPLIES_SIZE]);
    // The buffers whose lengths are judged, in the order of the header; those that may have any length as they are.
    let report = offer_channel(r, &record);
    let mut buffers: Vec<Vec<u8>> = match function {
        0 => vec![perhaps(r, &device), perhaps(r, &list), staging],
        1 => vec![perhaps(r, &device), perhaps(r, &long)],
        2 => vec![perhaps(r, &device), staging, report, perhaps(r, &replies)],
        3 => vec![perhaps(r, &device), staging, r.bytes(LONG_SIZE), perhaps(r, &replies)],
        4 => vec![perhaps(r, &device)],
        5 => vec![laid, perhaps(r, &contents)],
        6 => vec![perhaps(r, &host)],
        7 => vec![perhaps(r, &host), laid, r.bytes(SHORT_SIZE), perhaps(r, &long)],
        8 => vec![perhaps(r, &host), perhaps(r, &contents), laid, r.bytes(SHORT_SIZE), perhaps(r, &long)],
        9 => vec![perhaps(r, &host)],
        10 => vec![perhaps(r, &[7; COMPONENTS_SIZE]), perhaps(r, &long)],
        11..=14 | 16 => vec![perhaps(r, &short)],
        15 => vec![perhaps(r, &[7; DATA_SIZE]), perhaps(r, &long)],
        17 => vec![r.bytes(LONG_SIZE), perhaps(r, &[0x5A; COMPONENTS_SIZE])],
        18 => vec![r.bytes(LONG_SIZE), perhaps(r, &[0x5A; DATA_SIZE])],
        19 => vec![perhaps(r, &list)],
        20 => vec![perhaps(r, &device)],
        _ => vec![perhaps(r, &contents)],
    };
    if function == 17 {
        put(&mut buffers[0], version_reply_at::COUNT, &[3, 0, 0, PROTOCOL]);
    }
    Case::aimed("").number("call", function as u64).number("count", record.count as u64).list("buffers", buffers)
}

pub fn run(case: &Case, tally: &mut Tally) -> Outcome {
    let (name, rows) = CALLS[case.number_at("call") as usize % CALLS.len()];
    let mut given = case.list_at("buffers").to_vec();
    // A smaller case may have lost some.
    given.resize(5, Vec::new());
    let mut answers = Vec::new();
    for calls in ALL {
        let mut lent: Vec<Lent> = given.iter().map(|bytes| Lent::new(bytes)).collect();
        let (number, told) = call(calls, name, case.number_at("count") as u8, &mut lent);
        guarded(calls, &lent.iter().collect::<Vec<_>>())?;
        let left: Vec<Vec<u8>> = lent.iter().map(|buffer| buffer.bytes().to_vec()).collect();
        // With a row of this interface nothing at all is changed.
        if number >> 8 == 0x43 && left != given {
            return Err(format!("{name}, {}: {number:X} and yet a buffer was changed", calls.name()));
        }
        answers.push((number, told, left));
    }
    same(name, &answers, |(number, told, left)| {
        format!("number {number:X}, {told}, left {}", left.iter().map(|bytes| hex(bytes)).collect::<Vec<_>>().join(" "))
    })?;
    tally.one("calls with buffers of any length");
    tally.one(tally::row(answers[0].0));
    let row = &tally::row(answers[0].0)[5..];
    if let Some(met) = rows.iter().find(|met| met.ends_with(row)) {
        tally.one(met);
    }
    Ok(())
}

/// The number that a call answers, and its other fields in words.
fn call(calls: &dyn Calls, name: &str, count: u8, lent: &mut [Lent]) -> (u32, String) {
    let [a, b, c, d, e] = lent else { return (0, String::new()) };
    let plain = |number: u32| (number, String::new());
    match name {
        "set-up" => plain(calls.set_up(a.lend(), 0x42, b.bytes(), count, c.bytes())),
        "version reply" => plain(calls.version_reply(a.bytes(), b.lend())),
        "offer" => {
            let told = calls.offer(a.lend(), b.bytes(), c.bytes(), d.lend());
            (told.number, format!("{told:?}"))
        }
        "content" => {
            let told = calls.content(a.lend(), b.lend(), c.bytes(), d.lend());
            (told.number, format!("{told:?}"))
        }
        "reset" => plain(calls.reset(a.lend())),
        "check" => {
            let told = calls.check(a.bytes(), b.lend());
            (told.number, format!("{told:?}"))
        }
        "fresh" => plain(calls.fresh(a.lend(), 9)),
        "step" => {
            let told = calls.step(a.lend(), b.bytes(), c.bytes(), d.lend());
            (told.number, format!("{told:?}"))
        }
        "step over contents" => {
            let told = calls.step_checked(a.lend(), b.lend(), c.bytes(), d.bytes(), e.lend());
            (told.number, format!("{told:?}"))
        }
        "report" => {
            let told = calls.report(a.bytes());
            (told.number, format!("{told:?}"))
        }
        "build version reply" => plain(calls.build_version_reply(3, 2, a.bytes(), b.lend())),
        "build offer" => plain(calls.build_offer(Offer { id: 3, protocol: 2, ..Default::default() }, a.lend())),
        "build information" => plain(calls.build_information(1, 2, a.lend())),
        "build extended" => plain(calls.build_extended(1, 2, a.lend())),
        "build offer reply" => plain(calls.build_offer_reply(1, 2, 3, a.lend())),
        "build content" => plain(calls.build_content(0x80, 9, 1, 2, a.bytes(), b.lend())),
        "build content reply" => plain(calls.build_content_reply(1, 2, a.lend())),
        "read version reply" => {
            let told = calls.read_version_reply(a.bytes(), b.lend());
            (told.number, format!("{told:?}"))
        }
        "read content" => {
            let told = calls.read_content(a.bytes(), b.lend());
            (told.number, format!("{told:?}"))
        }
        "list_put" => plain(calls.list_put(a.lend(), 3, Listed { id: 5, base: 6, length: 7, ..Default::default() })),
        "device_component" => {
            let told = calls.device_component(a.bytes(), 0);
            (told.number, format!("{told:?}"))
        }
        _ => {
            let told = calls.contents_entry(a.bytes(), 0);
            (told.number, format!("{told:?}"))
        }
    }
}
