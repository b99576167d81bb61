//! The bundle: document 01, "The bundle", rows B1 to B8, and examples E12 and E14; and a walk over a body's records. Written from that document.
use cfu_updater::bundle::{check, contents_told};
use cfu_updater::bundle_layout::{BundleRefusal, BundleRow, Checked};
use cfu_updater::bundle_records::walk::{next_record, tally};
use cfu_updater::bundle_records::Next;
use cfu_updater::wire::address::RegionAddress;
use cfu_updater::wire::version::Version;

#[allow(dead_code)] // each test uses some of it
mod layout;
use layout::*;

/// E12's body: records of 52 and 12 bytes, for a region of 64.
fn body(filling: u8) -> Vec<u8> {
    [record_bytes(0, &[filling; 52]), record_bytes(52, &[filling; 12])].concat()
}

/// Component 1 at 1.3.0, which needs component 2 at 1.2; component 2 at 1.2.0: E13's first order.
const ONE: [u8; SHORT_SIZE] = [0, 0, 1, 0, 0, 3, 0, 1, 2, 2, 0, 1, 2, 0, 0x42, 0];
const TWO: [u8; SHORT_SIZE] = [0, 0, 2, 0, 0, 2, 0, 1, 0, 0, 0, 0, 2, 0, 0x42, 0];

fn e12() -> Vec<u8> {
    bundle_of(&[(ONE, body(0xAA)), (TWO, body(0xBB))])
}

/// E12 with these bytes put at a place.
fn with(at: usize, bytes: &[u8]) -> Vec<u8> {
    let mut b = e12();
    put(&mut b, at, bytes);
    b
}

/// The places in E12 of the offsets and lengths of its bodies.
fn offset_of(entry: usize) -> usize {
    entry_start(entry - 1) + entry_at::OFFSET
}

fn length_of(entry: usize) -> usize {
    entry_start(entry - 1) + entry_at::LENGTH
}

/// The check answers this row and entry, and no contents.
#[track_caller]
fn refused(b: &[u8], row: BundleRow, place: u8) {
    let answer = check(b);
    assert_eq!(answer, Err(BundleRefusal { row, place }));
    let c = contents_told(answer);
    assert_eq!(c.count, 0);
    for e in c.table {
        assert_eq!((e.offset, e.length, e.records), (0, 0, 0));
        assert_eq!((e.offer.id, e.offer.version.number(), e.offer.protocol), (0, 0, 0));
    }
}

#[track_caller]
fn accepted(b: &[u8]) -> Checked {
    check(b).unwrap()
}

#[test]
fn e12_is_accepted_with_its_contents() {
    let b = e12();
    assert_eq!(b.len(), 204);
    let c = accepted(&b);
    assert_eq!(c.count, 2);
    let [one, two, rest @ ..] = c.table;
    assert_eq!((one.offset, one.length, one.records), (56, 74, 2));
    assert_eq!((two.offset, two.length, two.records), (130, 74, 2));
    // E14: id and major.minor.variant.
    assert_eq!((one.offer.id, one.offer.version), (1, Version::new(1, 3, 0)));
    assert_eq!((two.offer.id, two.offer.version), (2, Version::new(1, 2, 0)));
    assert_eq!((one.offer.need, one.offer.least), (2, 0x010002));
    assert_eq!((two.offer.need, two.offer.least), (0, 0));
    assert_eq!((one.offer.platform, one.offer.protocol, one.offer.token), (0x42, 2, 0));
    assert!(rest.iter().all(|e| (e.offer.id, e.offset, e.length, e.records) == (0, 0, 0, 0)));
}

#[test]
fn one_offer_and_the_most() {
    assert_eq!(accepted(&bundle_of(&[(ONE, record_bytes(0, &[1]))])).count, 1);
    // Ids from 1 on, and the last one is the highest.
    let last = OFFER_LIMIT - 1;
    let ids: [u8; OFFER_LIMIT] = std::array::from_fn(|entry| if entry == last { ID_LIMIT } else { entry as u8 + 1 });
    let mut most = vec![];
    for id in ids {
        let mut offer = TWO;
        offer[offer_at::ID] = id;
        most.push((offer, record_bytes(0, &[id])));
    }
    let c = accepted(&bundle_of(&most));
    assert_eq!(c.count as usize, OFFER_LIMIT);
    assert_eq!(c.table.map(|e| e.offer.id), ids);
    assert_eq!(c.table[last].offset as usize, entry_start(OFFER_LIMIT) + last * (record_at::DATA + 1));
}

#[test]
fn b1_too_short_or_too_long() {
    for n in 0..BUNDLE_HEAD_SIZE {
        refused(&e12()[..n], BundleRow::B1, 0);
    }
    // 65,536 bytes are allowed: 1,149 records of 52 and one of 6 after a table of one.
    let mut long: Vec<u8> = (0..1149).flat_map(|_| record_bytes(0, &[7; DATA_SIZE])).collect();
    long.extend(record_bytes(0, &[7; 6]));
    let b = bundle_of(&[(ONE, long.clone())]);
    assert_eq!(b.len(), BUNDLE_LIMIT);
    assert_eq!(accepted(&b).table[0].records, 1150);
    long.push(0);
    refused(&bundle_of(&[(ONE, long)]), BundleRow::B1, 0);
}

#[test]
fn b2_head() {
    refused(&with(1, &[0]), BundleRow::B2, 0);
    refused(&with(1, &[2]), BundleRow::B2, 0);
    for at in 2..BUNDLE_HEAD_SIZE {
        refused(&with(at, &[1]), BundleRow::B2, 0);
    }
    // Before B3.
    refused(&with(0, &[0, 0]), BundleRow::B2, 0);
}

#[test]
fn b3_count_and_b4_table() {
    for count in [0, OFFER_LIMIT as u8 + 1, 255] {
        refused(&with(0, &[count]), BundleRow::B3, 0);
    }
    for n in BUNDLE_HEAD_SIZE..entry_start(2) {
        refused(&e12()[..n], BundleRow::B4, 0);
    }
    // A table that just fits is read: the third entry is a body's bytes, and no offer.
    refused(&with(0, &[3]), BundleRow::B5, 3);
}

#[test]
fn b5_offers() {
    let ids = [0, 0xE0, 0xFD, 0xFF].map(|id| (offer_at::ID, id));
    let others = [
        (offer_at::SEGMENT, 1),
        (offer_at::FLAGS, 0x40),
        (offer_at::FLAGS, 1),
        (offer_at::TOKEN, 0xA5),
        (offer_at::RESERVED, 1),
        (offer_at::PROTOCOL, 1),
        (offer_at::PROTOCOL, 0x12),
    ];
    for (entry, start) in [(1, entry_start(0)), (2, entry_start(1))] {
        for (byte, value) in others.into_iter().chain(ids) {
            refused(&with(start + byte, &[value]), BundleRow::B5, entry);
        }
    }
    // The first such entry, and before B7 of an earlier one.
    let mut b = with(entry_start(0), &[1]);
    b[entry_start(1)] = 1;
    refused(&b, BundleRow::B5, 1);
    let mut b = with(offset_of(1), &[57]);
    b[entry_start(1)] = 1;
    refused(&b, BundleRow::B5, 2);
}

#[test]
fn b6_repeated_id() {
    refused(&bundle_of(&[(ONE, body(1)), (ONE, body(2))]), BundleRow::B6, 2);
    refused(&bundle_of(&[(ONE, body(1)), (TWO, body(2)), (ONE, body(3))]), BundleRow::B6, 3);
    // Before B7.
    refused(&bundle_of(&[(ONE, body(1)), (ONE, body(2))])[..203], BundleRow::B6, 2);
}

#[test]
fn b7_offsets_and_the_end() {
    refused(&with(offset_of(1), &[55]), BundleRow::B7, 1);
    refused(&with(offset_of(1), &[57]), BundleRow::B7, 1);
    refused(&with(offset_of(2), &[129]), BundleRow::B7, 2);
    // A first body that is longer than it is: the second does not start where it ends.
    refused(&with(length_of(1), &[75]), BundleRow::B7, 2);
    refused(&with(length_of(1), &u32::MAX.to_le_bytes()), BundleRow::B7, 2);
    // The last end is not the file's.
    refused(&e12()[..203], BundleRow::B7, 2);
    refused(&[e12(), vec![0]].concat(), BundleRow::B7, 2);
    refused(&with(length_of(2), &u32::MAX.to_le_bytes()), BundleRow::B7, 2);
    // Before B8.
    refused(&bundle_of(&[(ONE, vec![]), (TWO, body(2))])[..129], BundleRow::B7, 2);
}

#[test]
fn b8_bodies() {
    let broken = [
        vec![],
        vec![0; 4],
        [0, 0, 0, 0, 0].to_vec(),
        [0, 0, 0, 0, 2, 7].to_vec(),
        record_bytes(0, &[7; DATA_SIZE + 1]),
        [body(7), vec![0]].concat(),
        [body(7), vec![0, 0, 0, 0, 0]].concat(),
    ];
    for body_1 in &broken {
        refused(&bundle_of(&[(ONE, body_1.clone())]), BundleRow::B8, 1);
        refused(&bundle_of(&[(ONE, body_1.clone()), (TWO, body(2))]), BundleRow::B8, 1);
        refused(&bundle_of(&[(TWO, body(2)), (ONE, body_1.clone())]), BundleRow::B8, 2);
    }
}

#[test]
fn a_body_is_walked_record_by_record() {
    // The second body of E12, inside the file.
    let b = e12();
    let first = Next::Record {
        address: RegionAddress::new(0),
        start: 135,
        size: 52,
        next: 187,
    };
    let second = Next::Record {
        address: RegionAddress::new(52),
        start: 192,
        size: 12,
        next: 204,
    };
    assert_eq!(next_record(&b, 130, 204), first);
    assert_eq!(next_record(&b, 187, 204), second);
    assert_eq!(next_record(&b, 204, 204), Next::End);
    assert_eq!(tally(&b, 130, 204), Some(2));
    let far = record_bytes(0xFFFFFFFF, &[1, 2, 3]);
    let whole = Next::Record {
        address: RegionAddress::new(0xFFFFFFFF),
        start: 5,
        size: 3,
        next: 8,
    };
    assert_eq!(next_record(&far, 0, 8), whole);
}

#[test]
fn a_body_that_ends_inside_a_record_is_broken() {
    let b = body(7);
    for end in 0..=b.len() {
        let expected = match end {
            0 => Some(0),
            57 => Some(1),
            74 => Some(2),
            _ => None,
        };
        assert_eq!(tally(&b, 0, end), expected, "{end} bytes");
    }
    for size in [0, DATA_SIZE as u8 + 1, 255] {
        let mut b = [7; 300];
        b[record_at::LENGTH] = size;
        assert_eq!(next_record(&b, 0, record_at::DATA as u64 + size as u64), Next::Bad, "length {size}");
    }
}
