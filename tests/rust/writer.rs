//! The bundle's writer: document 02, A3, rows W1 to W8, over document 01's bundle, image and rows B1, B5 and S1. Written from these documents.
use cfu_updater::bundle::check;
use cfu_updater::bundle_cut::{next_piece, Piece};
use cfu_updater::bundle_writer::rows::WriteRow;
use cfu_updater::bundle_writer::{write, WriteRefusal};
use cfu_updater::crc16::crc16;

#[allow(dead_code)] // each test uses some of it
mod layout;
use layout::*;

type Offer = [u8; SHORT_SIZE];

/// 1.3.0, as a version's number.
const NEW: u32 = 0x0100_0300;
const ERASED: u8 = 0xFF;
/// What the output holds before the call.
const BEFORE: u8 = 0xA7;
/// A filling byte that is not 0xFF, and the first place of an image that is free for it: after the version and the id.
const PLAIN: u8 = 0x5A;
const FREE: usize = 5;

// ---------------------------------------------------------------- what the writer is given

fn offer(id: u8) -> Offer {
    offer_packet(id, NEW, [0; 4], 0x0042)
}

/// An image of component 1 with bytes 0xFF at these places.
fn image(size: usize, runs: &[(usize, usize)]) -> Vec<u8> {
    image_of(1, size, runs)
}

fn image_of(id: u8, size: usize, runs: &[(usize, usize)]) -> Vec<u8> {
    let mut m = vec![PLAIN; size];
    for (at, n) in runs {
        m[*at..at + n].fill(ERASED);
    }
    make_image(&mut m, NEW, id);
    m
}

/// The same with two filling bytes chosen so that its CRC is this one. The CRC with both is the sum, bit by bit, of those with the one, with the other and with
/// none.
fn image_with_crc(size: usize, runs: &[(usize, usize)], wanted: u16) -> Vec<u8> {
    let made = |filling: [u8; 2]| {
        let mut m = image(size, runs);
        put(&mut m, FREE, &filling);
        make_image(&mut m, NEW, 1);
        m
    };
    let crc = |filling| crc16(&made(filling)[..size - CRC_SIZE]);
    let firsts: Vec<u16> = (0..=255).map(|first| crc([first, 0]) ^ crc([0, 0])).collect();
    for second in 0..=255 {
        let rest = wanted ^ crc([0, second]);
        if let Some(first) = firsts.iter().position(|crc| *crc == rest) {
            return made([first as u8, second]);
        }
    }
    panic!("two bytes give every CRC");
}

/// An entry of the list: the offer, and where its image stands.
fn entry(offer: &Offer, offset: usize, length: usize) -> Vec<u8> {
    [&offer[..], &(offset as u32).to_le_bytes(), &(length as u32).to_le_bytes()].concat()
}

/// The list and the images, one behind the other.
fn given(parts: &[(Offer, Vec<u8>)]) -> (Vec<u8>, Vec<u8>) {
    let (mut list, mut images) = (vec![], vec![]);
    for (offer, m) in parts {
        list.extend(entry(offer, images.len(), m.len()));
        images.extend(m);
    }
    (list, images)
}

/// Components 1 to n, each with an image of 64 bytes.
fn several(n: usize) -> Vec<(Offer, Vec<u8>)> {
    (1..=n as u8).map(|id| (offer(id), image_of(id, 64, &[]))).collect()
}

// ---------------------------------------------------------------- what is expected of it

/// A body of these records of an image: (address, length).
fn body(m: &[u8], records: &[(usize, usize)]) -> Vec<u8> {
    records.iter().flat_map(|(at, n)| record_bytes(*at as u32, &m[*at..at + n])).collect()
}

/// Offers with images of 64 bytes, as `several` gives them, with their bodies.
fn with_bodies(parts: &[(Offer, Vec<u8>)]) -> Vec<(Offer, Vec<u8>)> {
    parts.iter().map(|(offer, m)| (*offer, body(m, &[(0, 52), (52, 10), (62, 2)]))).collect()
}

/// A3's rule in its own words: of the bytes before the CRC each longest run of 52 or more bytes 0xFF is left out, what is left is cut at 52 bytes, and the CRC
/// is the last record.
fn by_the_rule(m: &[u8]) -> Vec<(usize, usize)> {
    let before = &m[..m.len() - CRC_SIZE];
    let mut kept = vec![];
    for run in before.chunk_by(|a, b| (*a == ERASED) == (*b == ERASED)) {
        kept.extend(vec![run[0] != ERASED || run.len() < 52; run.len()]);
    }
    let (mut records, mut at) = (vec![], 0);
    for stretch in kept.chunk_by(|a, b| a == b) {
        if stretch[0] {
            records.extend(stretch.chunks(52).enumerate().map(|(i, part)| (at + 52 * i, part.len())));
        }
        at += stretch.len();
    }
    records.push((before.len(), CRC_SIZE));
    records
}

/// The offer, and the records, of an entry of a bundle.
fn read_entry(b: &[u8], place: usize) -> (&[u8], Vec<(usize, &[u8])>) {
    let e = &b[entry_start(place)..entry_start(place + 1)];
    let start = four(&e[entry_at::OFFSET..]) as usize;
    let mut rest = &b[start..start + four(&e[entry_at::LENGTH..]) as usize];
    let mut records = vec![];
    while !rest.is_empty() {
        let end = record_at::DATA + rest[record_at::LENGTH] as usize;
        records.push((four(rest) as usize, &rest[record_at::DATA..end]));
        rest = &rest[end..];
    }
    (&e[..SHORT_SIZE], records)
}

/// The list is served: what is written passes the check, has the offers that were given and the images of the list, and not a byte behind it is touched.
#[track_caller]
fn served(list: &[u8], images: &[u8]) -> Vec<u8> {
    let mut out = vec![BEFORE; BUNDLE_LIMIT + 9];
    let length = write(&mut out, list, images).unwrap();
    let rest = out.split_off(length as usize);
    assert!(rest == vec![BEFORE; rest.len()], "bytes behind the bundle");
    assert_eq!(check(&out).unwrap().count as usize, list.len() / BUNDLE_ENTRY_SIZE);
    for (place, e) in list.chunks(BUNDLE_ENTRY_SIZE).enumerate() {
        let (offer, records) = read_entry(&out, place);
        assert_eq!(offer, &e[..SHORT_SIZE]);
        let start = four(&e[entry_at::OFFSET..]) as usize;
        let m = &images[start..start + four(&e[entry_at::LENGTH..]) as usize];
        let mut region = vec![ERASED; m.len()];
        for (address, data) in records {
            put(&mut region, address, data);
        }
        assert!(region == m, "the image of entry {}", place + 1);
    }
    out
}

/// A row refuses the list and names this entry, and the whole output is as it was.
#[track_caller]
fn refused_in(room: usize, list: &[u8], images: &[u8], row: WriteRow, place: u8) {
    let mut out = vec![BEFORE; room];
    assert_eq!(write(&mut out, list, images), Err(WriteRefusal { row, place }));
    assert!(out == vec![BEFORE; room], "the output is touched");
}

#[track_caller]
fn refused(list: &[u8], images: &[u8], row: WriteRow, place: u8) {
    refused_in(BUNDLE_LIMIT, list, images, row, place);
}

/// These offers with their images, one behind the other, are refused.
#[track_caller]
fn refused_parts(parts: &[(Offer, Vec<u8>)], row: WriteRow, place: u8) {
    let (list, images) = given(parts);
    refused(&list, &images, row, place);
}

/// An image, alone in a bundle, is cut into these records: (address, length).
#[track_caller]
fn cut_into(m: &[u8], records: &[(usize, usize)]) {
    let mut offer = offer(m[image_at::ID]);
    put(&mut offer, offer_at::VERSION, &m[..4]);
    let b = served(&entry(&offer, 0, m.len()), m);
    let got: Vec<_> = read_entry(&b, 0).1.iter().map(|(address, data)| (*address, data.len())).collect();
    assert_eq!(got, records);
    assert_eq!(b, bundle_of(&[(offer, body(m, records))]));
}

/// An image of component 1, alone, gives a bundle of so many bytes.
#[track_caller]
fn alone(m: &[u8], length: usize) {
    assert_eq!(served(&entry(&offer(1), 0, m.len()), m).len(), length);
}

#[track_caller]
fn too_large(m: &[u8]) {
    refused(&entry(&offer(1), 0, m.len()), m, WriteRow::W7, 0);
}

// ---------------------------------------------------------------- how an image is cut

#[test]
fn pieces_of_a_run_at_place_0() {
    let data = |n| [vec![ERASED; n], vec![PLAIN; 10]].concat();
    // 51 are a record's bytes, which is cut at 52.
    assert_eq!(next_piece(&data(51), 0), Piece::Data { to: 52 });
    assert_eq!(next_piece(&data(51), 52), Piece::Data { to: 61 });
    for n in [52, 53, 104, 1000] {
        assert_eq!(next_piece(&data(n), 0), Piece::Gap { to: n }, "{n} bytes");
        assert_eq!(next_piece(&data(n), n), Piece::Data { to: n + 10 }, "{n} bytes");
    }
    // Nothing but the run.
    assert_eq!(next_piece(&[ERASED; 51], 0), Piece::Data { to: 51 });
    assert_eq!(next_piece(&[ERASED; 52], 0), Piece::Gap { to: 52 });
    assert_eq!(next_piece(&[ERASED; 53], 0), Piece::Gap { to: 53 });
}

#[test]
fn pieces_at_the_end_and_past_it() {
    for d in [vec![], vec![PLAIN; 7], vec![ERASED; 60]] {
        for at in [d.len(), d.len() + 1, d.len() + 52, u32::MAX as usize, usize::MAX] {
            assert_eq!(next_piece(&d, at), Piece::End, "{} bytes, at {at}", d.len());
        }
    }
    // The last byte is a record of its own, 0xFF too.
    assert_eq!(next_piece(&[PLAIN; 53], 52), Piece::Data { to: 53 });
    assert_eq!(next_piece(&[PLAIN, ERASED], 1), Piece::Data { to: 2 });
}

#[test]
fn a_run_at_the_start() {
    // Directly after the id, which is never 0xFF. Of 128 bytes 126 stand before the CRC.
    cut_into(&image(128, &[(FREE, 51)]), &[(0, 52), (52, 52), (104, 22), (126, 2)]);
    cut_into(&image(128, &[(FREE, 52)]), &[(0, 5), (57, 52), (109, 17), (126, 2)]);
    cut_into(&image(128, &[(FREE, 53)]), &[(0, 5), (58, 52), (110, 16), (126, 2)]);
    // A version of 0xFF alone is a run of 4 before the id.
    let mut m = image(128, &[(FREE, 52)]);
    make_image(&mut m, u32::MAX, 1);
    cut_into(&m, &[(0, 5), (57, 52), (109, 17), (126, 2)]);
}

#[test]
fn a_run_in_the_middle() {
    cut_into(&image(256, &[(100, 51)]), &[(0, 52), (52, 52), (104, 52), (156, 52), (208, 46), (254, 2)]);
    cut_into(&image(256, &[(100, 52)]), &[(0, 52), (52, 48), (152, 52), (204, 50), (254, 2)]);
    cut_into(&image(256, &[(100, 53)]), &[(0, 52), (52, 48), (153, 52), (205, 49), (254, 2)]);
    // Where a record ends anyway, and a byte earlier and later.
    cut_into(&image(256, &[(104, 52)]), &[(0, 52), (52, 52), (156, 52), (208, 46), (254, 2)]);
    cut_into(&image(256, &[(103, 52)]), &[(0, 52), (52, 51), (155, 52), (207, 47), (254, 2)]);
    cut_into(&image(256, &[(105, 52)]), &[(0, 52), (52, 52), (104, 1), (157, 52), (209, 45), (254, 2)]);
    // A longest run is left out whole, however long.
    cut_into(&image(256, &[(100, 120)]), &[(0, 52), (52, 48), (220, 34), (254, 2)]);
}

#[test]
fn a_run_right_before_the_crc() {
    // No byte of the CRC is 0xFF: the next test has those.
    let run = |n| image_with_crc(128, &[(126 - n, n)], 0x1234);
    cut_into(&run(51), &[(0, 52), (52, 52), (104, 22), (126, 2)]);
    cut_into(&run(52), &[(0, 52), (52, 22), (126, 2)]);
    cut_into(&run(53), &[(0, 52), (52, 21), (126, 2)]);
    // Nothing but the version and the id is left.
    cut_into(&image(64, &[(FREE, 57)]), &[(0, 5), (62, 2)]);
}

#[test]
fn a_run_that_the_crc_continues() {
    // Only the bytes before the CRC count: 50 and 51 bytes stay, whatever the CRC adds to them.
    for crc in [0xFFFF, 0xFF12, 0x12FF] {
        let run = |n| image_with_crc(64, &[(62 - n, n)], crc);
        assert_eq!(run(51)[62..], u16::to_be_bytes(crc));
        cut_into(&run(50), &[(0, 52), (52, 10), (62, 2)]);
        cut_into(&run(51), &[(0, 52), (52, 10), (62, 2)]);
        cut_into(&run(52), &[(0, 10), (62, 2)]);
        cut_into(&run(53), &[(0, 9), (62, 2)]);
    }
}

#[test]
fn a_shorter_run_is_cut_like_other_bytes() {
    // The first record ends inside the run.
    for at in [FREE, 20, 51] {
        let m = image(256, &[(at, 51)]);
        cut_into(&m, &[(0, 52), (52, 52), (104, 52), (156, 52), (208, 46), (254, 2)]);
    }
    // So does the one after a run that is left out.
    cut_into(&image(256, &[(10, 52), (100, 51)]), &[(0, 10), (62, 52), (114, 52), (166, 52), (218, 36), (254, 2)]);
}

#[test]
fn two_runs_with_few_bytes_between() {
    // From place 62 on, after a run of 52, so many bytes stay.
    let two = |between: usize| image(256, &[(10, 52), (62 + between, 52)]);
    cut_into(&two(1), &[(0, 10), (62, 1), (115, 52), (167, 52), (219, 35), (254, 2)]);
    cut_into(&two(51), &[(0, 10), (62, 51), (165, 52), (217, 37), (254, 2)]);
    cut_into(&two(52), &[(0, 10), (62, 52), (166, 52), (218, 36), (254, 2)]);
    cut_into(&two(53), &[(0, 10), (62, 52), (114, 1), (167, 52), (219, 35), (254, 2)]);
    // Two that are too short stay, though together they are long enough; a long one beside a short one goes alone.
    cut_into(&image(128, &[(10, 51), (62, 51)]), &[(0, 52), (52, 52), (104, 22), (126, 2)]);
    cut_into(&image(128, &[(10, 51), (62, 52)]), &[(0, 52), (52, 10), (114, 12), (126, 2)]);
    cut_into(&image(128, &[(10, 52), (63, 51)]), &[(0, 10), (62, 52), (114, 12), (126, 2)]);
}

#[test]
fn the_crc_is_a_record_of_its_own() {
    // Though two bytes more would fit into the record before, up to the 50th.
    cut_into(&image(8, &[]), &[(0, 6), (6, 2)]);
    cut_into(&image(52, &[]), &[(0, 50), (50, 2)]);
    cut_into(&image(53, &[]), &[(0, 51), (51, 2)]);
    cut_into(&image(54, &[]), &[(0, 52), (52, 2)]);
    cut_into(&image(55, &[]), &[(0, 52), (52, 1), (53, 2)]);
    cut_into(&image(64, &[]), &[(0, 52), (52, 10), (62, 2)]);
    cut_into(&image(106, &[]), &[(0, 52), (52, 52), (104, 2)]);
}

#[test]
fn a_run_at_every_place() {
    for n in [1, 50, 51, 52, 53, 110] {
        for at in FREE..=198 - n {
            let m = image(200, &[(at, n)]);
            cut_into(&m, &by_the_rule(&m));
            // And a byte in it that is another.
            let mut m = image(200, &[(at, n)]);
            m[at + n / 2] = PLAIN;
            make_image(&mut m, NEW, 1);
            cut_into(&m, &by_the_rule(&m));
        }
    }
}

// ---------------------------------------------------------------- lengths

#[test]
fn the_smallest_image() {
    // Head 8, entry 24, records of 5 + 6 and 5 + 2.
    alone(&image(REGION_LEAST, &[]), 50);
    // Its free byte may be 0xFF.
    cut_into(&image(REGION_LEAST, &[(FREE, 1)]), &[(0, 6), (6, 2)]);
}

#[test]
fn the_largest_images() {
    // 59,748 bytes before the CRC are 1,149 records of 52: 32 + 1,149 times 57 + 7. One byte more is a record more, 65,538 bytes.
    alone(&image(59_750, &[]), 65_532);
    too_large(&image(59_751, &[]));
    too_large(&image(STAGING_LIMIT, &[]));
    // 1,000 and 4,534 bytes are left, in 20 and 88 records.
    alone(&image(STAGING_LIMIT, &[(1000, 60_000)]), 32 + 5534 + 5 * 108 + 7);
    // The shortest run before the CRC that lets the largest image in, which leaves 59,748 bytes again.
    alone(&image(STAGING_LIMIT, &[(59_748, 5786)]), 65_532);
    too_large(&image(STAGING_LIMIT, &[(59_749, 5785)]));
    // Nothing but a run: the version, the id and the CRC are left.
    alone(&image(STAGING_LIMIT, &[(FREE, 65_529)]), 32 + 10 + 7);
}

#[test]
fn w7_a_bundle_of_65536_bytes_and_of_one_more() {
    // Head and two entries are 56 bytes, an image of 8 bytes is 18. Of 59,712 bytes 59,710 are 1,148 records of 52 and one of 14: 1,148 times 57 + 19 + 7.
    let two = |size| given(&[(offer(2), image_of(2, 8, &[])), (offer(1), image(size, &[]))]);
    let (list, images) = two(59_712);
    assert_eq!(served(&list, &images).len(), BUNDLE_LIMIT);
    let (list, images) = two(59_713);
    refused(&list, &images, WriteRow::W7, 0);
    refused_in(BUNDLE_LIMIT + 1, &list, &images, WriteRow::W7, 0);
    // Seven images that fit alone.
    let most: Vec<_> = (1..=7).map(|id| (offer(id), image_of(id, 9000, &[]))).collect();
    refused_parts(&most, WriteRow::W7, 0);
}

#[test]
fn w8_an_output_that_is_just_long_enough_too_short_and_longer() {
    let (list, images) = given(&several(2));
    // 56 bytes and two bodies of 57, 15 and 7.
    let expected = bundle_of(&with_bodies(&several(2)));
    assert_eq!(expected.len(), 214);
    for room in [214, 215, 300] {
        let mut out = vec![BEFORE; room];
        assert_eq!(write(&mut out, &list, &images), Ok(214));
        assert_eq!(out[..214], expected);
        assert!(out[214..].iter().all(|byte| *byte == BEFORE), "room of {room}");
    }
    for room in [0, 1, 8, 56, 213] {
        refused_in(room, &list, &images, WriteRow::W8, 0);
    }
    // What stood in the output does not matter.
    let mut out = vec![ERASED; 214];
    assert_eq!(write(&mut out, &list, &images), Ok(214));
    assert_eq!(out, expected);
}

// ---------------------------------------------------------------- offers and images

#[test]
fn offers_keep_their_order_and_images_stand_anywhere() {
    // Offers 3, 1, 2 over the images 1, 2, 3, with bytes before, between and after that are nobody's.
    let [one, two, three] = [(1, 64, 0), (2, 300, 60), (3, 8, 0)].map(|(id, size, run)| image_of(id, size, &[(FREE, run)]));
    let nobody = [BEFORE; 3];
    let images = [&nobody[..], &one, &nobody, &two, &nobody, &three, &nobody].concat();
    let places = [(3, 3 + 64 + 3 + 300 + 3, 8), (1, 3, 64), (2, 3 + 64 + 3, 300)];
    let list: Vec<u8> = places.iter().flat_map(|(id, at, n)| entry(&offer(*id), *at, *n)).collect();
    let b = served(&list, &images);
    let bodies = [
        body(&three, &[(0, 6), (6, 2)]),
        body(&one, &[(0, 52), (52, 10), (62, 2)]),
        body(&two, &[(0, 5), (65, 52), (117, 52), (169, 52), (221, 52), (273, 25), (298, 2)]),
    ];
    let [first, second, third] = bodies;
    assert_eq!(b, bundle_of(&[(offer(3), first), (offer(1), second), (offer(2), third)]));
}

#[test]
fn images_may_share_bytes() {
    // Component 2's image stands inside component 1's.
    let inner = image_of(2, 40, &[]);
    let mut outer = image(128, &[]);
    put(&mut outer, 70, &inner);
    make_image(&mut outer, NEW, 1);
    let list = [entry(&offer(1), 0, 128), entry(&offer(2), 70, 40)].concat();
    let b = served(&list, &outer);
    let outer_body = body(&outer, &[(0, 52), (52, 52), (104, 22), (126, 2)]);
    assert_eq!(b, bundle_of(&[(offer(1), outer_body), (offer(2), body(&inner, &[(0, 38), (38, 2)]))]));
    // One image cannot be two components'.
    let list = [entry(&offer(1), 0, 128), entry(&offer(2), 0, 128)].concat();
    refused(&list, &outer, WriteRow::W6, 2);
}

#[test]
fn seven_offers() {
    let parts = several(OFFER_LIMIT);
    let (list, images) = given(&parts);
    let b = served(&list, &images);
    assert_eq!(b.len(), 8 + 7 * (24 + 57 + 15 + 7));
    assert_eq!(b, bundle_of(&with_bodies(&parts)));
}

#[test]
fn every_free_byte_of_an_offer_is_kept() {
    // Need and platform are the caller's, and W6 asks for the version alone.
    let m = image(64, &[]);
    let given = offer_packet(1, NEW, [0xFE, 0xFF, 0xFF, 0xFF], 0xFFFF);
    let b = served(&entry(&given, 0, 64), &m);
    assert_eq!(b[8..24], given);
}

// ---------------------------------------------------------------- rows W1 to W6

#[test]
fn rows_have_their_numbers() {
    use WriteRow::*;
    for (at, row) in [W1, W2, W3, W4, W5, W6, W7, W8].into_iter().enumerate() {
        assert_eq!(row.number() as usize, at + 1);
    }
}

#[test]
fn w1_count() {
    let (list, images) = given(&several(OFFER_LIMIT + 1));
    refused(&[], &images, WriteRow::W1, 0);
    refused(&list, &images, WriteRow::W1, 0);
    for n in 1..=OFFER_LIMIT {
        let end = BUNDLE_ENTRY_SIZE * n;
        served(&list[..end], &images);
        // Bytes that are no whole entry.
        refused(&list[..end - 1], &images, WriteRow::W1, 0);
        refused(&list[..end + 1], &images, WriteRow::W1, 0);
    }
    // A count that is 1 again in one byte.
    refused(&list[..BUNDLE_ENTRY_SIZE].repeat(257), &images, WriteRow::W1, 0);
}

#[test]
fn w2_offers_that_b5_refuses() {
    let ids = [0, ID_LIMIT + 1, 0xFD, 0xFF].map(|id| (offer_at::ID, id));
    let others = [
        (offer_at::SEGMENT, 1),
        (offer_at::FLAGS, 1),
        (offer_at::FLAGS, 0x40),
        (offer_at::FLAGS, 0x80),
        (offer_at::TOKEN, 0xA5),
        (offer_at::RESERVED, 1),
        (offer_at::PROTOCOL, 1),
        (offer_at::PROTOCOL, 3),
        (offer_at::PROTOCOL, 0x12),
    ];
    for (byte, value) in others.into_iter().chain(ids) {
        for place in 1..=3 {
            let mut parts = several(3);
            parts[place - 1].0[byte] = value;
            refused_parts(&parts, WriteRow::W2, place as u8);
        }
    }
    // The first such entry.
    let mut parts = several(3);
    parts[1].0[offer_at::TOKEN] = 1;
    parts[2].0[offer_at::SEGMENT] = 1;
    refused_parts(&parts, WriteRow::W2, 2);
    // The lowest and the highest id.
    for id in [1, ID_LIMIT] {
        served(&entry(&offer(id), 0, 64), &image_of(id, 64, &[]));
    }
}

#[test]
fn w3_repeated_id() {
    let with_ids = |ids: &[u8]| ids.iter().map(|id| (offer(*id), image_of(*id, 64, &[]))).collect::<Vec<_>>();
    for (ids, place) in [(&[1, 1][..], 2), (&[1, 2, 1], 3), (&[1, 2, 2, 1], 3), (&[1, 2, 3, 4, 5, 6, 1], 7), (&[9, 9, 9], 2)] {
        refused_parts(&with_ids(ids), WriteRow::W3, place);
    }
    let (list, images) = given(&with_ids(&[7, 6, 5, 4, 3, 2, 1]));
    served(&list, &images);
}

#[test]
fn w4_length_of_an_image() {
    let m = image(REGION_LEAST, &[]);
    served(&entry(&offer(1), 0, 8), &m);
    for n in [0, 1, 7] {
        refused(&entry(&offer(1), 0, n), &m, WriteRow::W4, 1);
    }
    // One byte over S1's limit, lent and with a right CRC; with one byte less it is served.
    let over = image(STAGING_LIMIT + 1, &[(1000, 60_000)]);
    refused(&entry(&offer(1), 0, STAGING_LIMIT + 1), &over, WriteRow::W4, 1);
    served(&entry(&offer(1), 0, STAGING_LIMIT), &image(STAGING_LIMIT, &[(1000, 60_000)]));
    refused(&entry(&offer(1), 0, u32::MAX as usize), &over, WriteRow::W4, 1);
}

#[test]
fn w4_an_image_that_is_not_wholly_lent() {
    let m = image(64, &[]);
    let images = [&[BEFORE; 10][..], &m].concat();
    let list = entry(&offer(1), 10, 64);
    served(&list, &images);
    for n in [0, 10, 73] {
        refused(&list, &images[..n], WriteRow::W4, 1);
    }
    // Sums that do not wrap in 32 bits.
    for offset in [11, 73, 74, 75, u32::MAX as usize - 64, u32::MAX as usize - 63, u32::MAX as usize] {
        refused(&entry(&offer(1), offset, 64), &images, WriteRow::W4, 1);
    }
    // The entry is named.
    let mut parts = several(3);
    let (mut list, images) = given(&parts);
    refused(&list, &images[..191], WriteRow::W4, 3);
    put(&mut list, BUNDLE_ENTRY_SIZE + entry_at::LENGTH, &[7]);
    refused(&list, &images[..191], WriteRow::W4, 2);
    parts[1].1.truncate(7);
    refused_parts(&parts, WriteRow::W4, 2);
}

#[test]
fn w5_crc() {
    for at in 0..64 {
        let mut parts = several(3);
        parts[1].1[at] ^= 0x10;
        refused_parts(&parts, WriteRow::W5, 2);
    }
    // High byte first.
    let mut parts = several(3);
    assert_ne!(parts[2].1[62], parts[2].1[63]);
    parts[2].1.swap(62, 63);
    refused_parts(&parts, WriteRow::W5, 3);
    // Bytes of the image, and not those of another length.
    let m = image(64, &[]);
    refused(&entry(&offer(1), 0, 63), &m, WriteRow::W5, 1);
    refused(&entry(&offer(1), 2, 62), &m, WriteRow::W5, 1);
    // Without the variant, a zero, the CRC from 0 is still right, and the version is another.
    refused(&entry(&offer(1), 1, 63), &m, WriteRow::W6, 1);
}

#[test]
fn w6_version_and_id() {
    // Each byte of the version, the variant too, and the id; in the offer and in the image.
    for at in 0..4 {
        for more in [1, 0x80] {
            let mut parts = several(3);
            parts[1].0[offer_at::VERSION + at] ^= more;
            refused_parts(&parts, WriteRow::W6, 2);
            let mut parts = several(3);
            make_image(&mut parts[2].1, NEW ^ (more as u32) << (8 * at), 3);
            refused_parts(&parts, WriteRow::W6, 3);
        }
    }
    let mut parts = several(3);
    make_image(&mut parts[0].1, NEW, 2);
    refused_parts(&parts, WriteRow::W6, 1);
    let mut parts = several(3);
    parts[2].0[offer_at::ID] = 4;
    refused_parts(&parts, WriteRow::W6, 3);
    // Older and newer alike are another version; two images that are exchanged are named at the first.
    for version in [NEW - 1, NEW + 1] {
        let mut m = image(64, &[]);
        make_image(&mut m, version, 1);
        refused(&entry(&offer(1), 0, 64), &m, WriteRow::W6, 1);
    }
    let [(first, one), (second, two)] = several(2).try_into().unwrap();
    refused_parts(&[(first, two), (second, one)], WriteRow::W6, 1);
}

#[test]
fn the_earlier_row_wins_over_the_whole_list() {
    // In each pair the later row would refuse an earlier entry.
    let mut parts = several(8);
    parts[0].0[offer_at::SEGMENT] = 1;
    refused_parts(&parts, WriteRow::W1, 0);

    let mut parts = several(3);
    parts[1] = parts[0].clone();
    parts[2].0[offer_at::TOKEN] = 1;
    refused_parts(&parts, WriteRow::W2, 3);

    let mut parts = several(3);
    parts[0].1.truncate(7);
    parts[2].0 = offer(2);
    refused_parts(&parts, WriteRow::W3, 3);

    let mut parts = several(3);
    parts[0].1[63] ^= 1;
    parts[2].1.truncate(7);
    refused_parts(&parts, WriteRow::W4, 3);

    let mut parts = several(3);
    make_image(&mut parts[0].1, NEW, 9);
    parts[2].1[63] ^= 1;
    refused_parts(&parts, WriteRow::W5, 3);

    let parts = [(offer(1), image(STAGING_LIMIT, &[])), (offer(2), image_of(3, 64, &[]))];
    refused_parts(&parts, WriteRow::W6, 2);

    let m = image(STAGING_LIMIT, &[]);
    refused_in(0, &entry(&offer(1), 0, m.len()), &m, WriteRow::W7, 0);
}

#[test]
fn every_row_comes_before_all_later_ones() {
    // A list that every row from W2 on refuses is mended row after row.
    let mut parts = several(3);
    parts[0].1 = image(STAGING_LIMIT, &[]);
    parts[1].1 = image_of(1, 64, &[]); // W6: component 1's
    parts[1].1[63] ^= 1; // W5
    parts[2] = (offer(1), vec![PLAIN; 7]); // W3 and W4
    parts[2].0[offer_at::RESERVED] = 1; // W2
    let refused = |parts: &[_], row, place| {
        let (list, images) = given(parts);
        refused_in(8, &list, &images, row, place);
    };
    refused(&[&parts[..], &parts, &parts].concat(), WriteRow::W1, 0);
    refused(&parts, WriteRow::W2, 3);
    parts[2].0 = offer(1);
    refused(&parts, WriteRow::W3, 3);
    parts[2].0 = offer(3);
    refused(&parts, WriteRow::W4, 3);
    parts[2].1 = image_of(3, 64, &[]);
    refused(&parts, WriteRow::W5, 2);
    parts[1].1[63] ^= 1;
    refused(&parts, WriteRow::W6, 2);
    parts[1].1 = image_of(2, 64, &[]);
    refused(&parts, WriteRow::W7, 0);
    parts[0].1 = image(64, &[]);
    refused(&parts, WriteRow::W8, 0);
    let (list, images) = given(&parts);
    served(&list, &images);
}
