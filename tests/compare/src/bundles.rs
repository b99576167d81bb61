//! Bundles (document 01, "The bundle"): valid ones, and every damage that a row of the check names.

use crate::case::{hex, Case, Outcome};
use crate::devices::{guarded, same, version};
use crate::layout::*;
use crate::lent::Lent;
use crate::random::Random;
use crate::tally::{self, Tally};
use crate::ALL;

/// An offer with the records of its body.
#[derive(Clone, Debug, PartialEq, Eq)]
pub struct Entry {
    pub offer: [u8; SHORT_SIZE],
    pub records: Vec<(u32, Vec<u8>)>,
}

pub fn bundle(entries: &[Entry]) -> Vec<u8> {
    let laid: Vec<_> = entries.iter().map(|entry| (entry.offer, body_bytes(&entry.records))).collect();
    bundle_of(&laid)
}

/// The offers and records of a bundle that the check accepts.
pub fn entries_in(bundle: &[u8]) -> Vec<Entry> {
    let mut out = Vec::new();
    for place in 0..bundle[0] as usize {
        let own = &bundle[entry_start(place)..][..BUNDLE_ENTRY_SIZE];
        let (offset, length) = (four(&own[entry_at::OFFSET..]) as usize, four(&own[entry_at::LENGTH..]) as usize);
        let mut rest = &bundle[offset..offset + length];
        let mut records = Vec::new();
        while !rest.is_empty() {
            let (record, after) = rest.split_at(record_at::DATA + rest[record_at::LENGTH] as usize);
            records.push((four(record), record[record_at::DATA..].to_vec()));
            rest = after;
        }
        let mut offer = [0; SHORT_SIZE];
        offer.copy_from_slice(&own[..SHORT_SIZE]);
        out.push(Entry { offer, records });
    }
    out
}

/// Any offers and any records, of a bundle that the check accepts.
pub fn any_entries(r: &mut Random, most_records: usize) -> Vec<Entry> {
    let mut ids: Vec<u8> = (1..=9).chain([ID_LIMIT]).collect();
    r.shuffle(&mut ids);
    let count = r.between(1, OFFER_LIMIT);
    ids.iter()
        .take(count)
        .map(|id| {
            let need = if r.percent(60) { [0; 4] } else { [r.byte(), r.byte(), r.byte(), r.byte()] };
            let records = (0..r.between(1, most_records))
                .map(|_| {
                    let length = r.pick(&[1, 2, 8, DATA_SIZE - 1, DATA_SIZE]);
                    (r.pick(&[0, 1, 52, u32::MAX]), r.bytes(length))
                })
                .collect();
            Entry { offer: offer_packet(*id, version(r), need, 0x0042), records }
        })
        .collect()
}

/// A bundle of so many bytes, with records of one size in one body.
fn long_bundle(r: &mut Random, length: usize) -> Vec<u8> {
    let mut records = Vec::new();
    let mut left = length - entry_start(1);
    while left > 0 {
        // The last two share what is left, so that none is too short.
        let size = if left > 120 {
            DATA_SIZE
        } else if left > record_at::DATA + DATA_SIZE {
            left / 2 - record_at::DATA
        } else {
            left - record_at::DATA
        };
        records.push((0, r.bytes(size)));
        left -= record_at::DATA + size;
    }
    bundle(&[Entry { offer: offer_packet(1, 1, [0; 4], 0x42), records }])
}

/// One damage; several may follow one another.
fn damage(r: &mut Random, bytes: &mut Vec<u8>) {
    let most = OFFER_LIMIT as u8;
    let count = (bytes.first().copied().unwrap_or(0) as usize).min(OFFER_LIMIT);
    let entry = r.below(count.max(1));
    let own = entry_start(entry);
    let (offset, length) = (own + entry_at::OFFSET, own + entry_at::LENGTH);
    let has_table = bytes.len() >= entry_start(count) && count > 0;
    match r.below(17) {
        0 => {
            if !bytes.is_empty() {
                let place = r.below(bytes.len());
                bytes[place] ^= 1 << r.below(8);
            }
        }
        1 => {
            let keep = r.below(bytes.len() + 1);
            bytes.truncate(keep);
        }
        2 => bytes.truncate(r.below(BUNDLE_HEAD_SIZE + 1)),
        3 => {
            let more = r.pick(&[1, 2, 5, 6, 57, 58]);
            bytes.extend(r.bytes(more));
        }
        4 if bytes.len() >= BUNDLE_HEAD_SIZE => bytes[r.between(1, BUNDLE_HEAD_SIZE - 1)] = r.pick(&[0, 1, 2, 255]),
        5 if bytes.len() >= BUNDLE_HEAD_SIZE => bytes[0] = r.pick(&[0, 1, 2, most - 1, most, most + 1, 255]),
        6 if has_table => {
            bytes[own + r.pick(&[offer_at::SEGMENT, offer_at::FLAGS, offer_at::TOKEN, offer_at::PROTOCOL, offer_at::RESERVED])] =
                r.pick(&[0, 1, 2, 3, 0x12, 255])
        }
        7 if has_table => bytes[own + offer_at::ID] = r.pick(&[0, 1, ID_LIMIT, ID_LIMIT + 1, 0xFE, 0xFF]),
        8 if has_table => bytes[own + offer_at::ID] = bytes[entry_start(r.below(count)) + offer_at::ID],
        9 if has_table => add(bytes, offset, r.pick(&[1, -1, 24, -24, i32::MIN])),
        10 if has_table => add(bytes, length, r.pick(&[1, -1, 5, -5, i32::MIN])),
        11 if has_table => {
            // Two bodies share another border.
            let next = entry_start((entry + 1) % count);
            let by = r.pick(&[1, -1, 5, 57]);
            add(bytes, length, by);
            if next > own {
                add(bytes, next + entry_at::OFFSET, by);
                add(bytes, next + entry_at::LENGTH, -by);
            }
        }
        12..=14 if has_table => {
            // A record's length, found by a walk over the body.
            let (start, size) = (four(&bytes[offset..]) as usize, four(&bytes[length..]) as usize);
            let mut at = start;
            for _ in 0..r.below(3) {
                if at + record_at::DATA < bytes.len() {
                    let next = at + record_at::DATA + bytes[at + record_at::LENGTH] as usize;
                    if next + record_at::DATA <= start.saturating_add(size) {
                        at = next;
                    }
                }
            }
            let place = at + record_at::LENGTH;
            if place < bytes.len() {
                let was = bytes[place];
                bytes[place] = r.pick(&[0, DATA_SIZE as u8 + 1, 255, was.wrapping_add(1), was.wrapping_sub(1), DATA_SIZE as u8]);
            }
        }
        15 if has_table => {
            // An empty body, with the others where they belong.
            let size = four(&bytes[length..]);
            let (start, end) = (four(&bytes[offset..]) as usize, four(&bytes[offset..]).wrapping_add(size) as usize);
            if entry_start(count) <= start && start <= end && end <= bytes.len() {
                bytes.drain(start..end);
                add(bytes, length, -(size as i32));
                for later in entry + 1..count {
                    add(bytes, entry_start(later) + entry_at::OFFSET, -(size as i32));
                }
            }
        }
        _ => {
            let size = r.below(200);
            *bytes = r.bytes(size);
            if size >= BUNDLE_HEAD_SIZE && r.percent(80) {
                bytes[..BUNDLE_HEAD_SIZE].copy_from_slice(&[r.between(1, OFFER_LIMIT) as u8, 1, 0, 0, 0, 0, 0, 0]);
            }
        }
    }
}

fn add(bytes: &mut [u8], at: usize, by: i32) {
    let next = four(&bytes[at..]).wrapping_add(by as u32);
    bytes[at..at + 4].copy_from_slice(&next.to_le_bytes());
}

/// A bundle, damaged in many cases.
pub fn any_bundle(r: &mut Random) -> Vec<u8> {
    let mut bytes = bundle(&any_entries(r, 6));
    if r.percent(80) {
        for _ in 0..r.pick(&[1, 1, 1, 2, 3]) {
            damage(r, &mut bytes);
        }
    }
    bytes
}

pub fn make_check(r: &mut Random) -> Case {
    let bytes = match r.below(1000) {
        0..=2 => {
            let length = r.pick(&[BUNDLE_LIMIT - 1, BUNDLE_LIMIT, BUNDLE_LIMIT, BUNDLE_LIMIT + 1]);
            long_bundle(r, length)
        }
        _ => any_bundle(r),
    };
    let size = if r.percent(1) { r.pick(&[0, CONTENTS_SIZE - 1, CONTENTS_SIZE + 1]) } else { CONTENTS_SIZE };
    Case::aimed("").number("contents size", size as u64).bytes("bundle", bytes)
}

pub fn run_check(case: &Case, tally: &mut Tally) -> Outcome {
    let bundle = Lent::new(case.bytes_at("bundle"));
    let mut answers = Vec::new();
    for calls in ALL {
        let mut contents = Lent::new(&vec![0x5A; case.number_at("contents size") as usize]);
        let told = calls.check(bundle.bytes(), contents.lend());
        guarded(calls, &[&bundle, &contents])?;
        answers.push((told, contents.bytes().to_vec()));
    }
    same("check", &answers, |(told, contents)| format!("{told:X?}, contents {}", hex(contents)))?;
    if bundle.bytes() != case.bytes_at("bundle") {
        return Err("the bundle was written to".to_string());
    }
    tally.one("bundles checked");
    tally.one(tally::row(answers[0].0.number));
    Ok(())
}
