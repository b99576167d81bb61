//! "A bundle maker" (A3): from up to seven offers and full region images it
//! writes a bundle that the check accepts, or refuses by rows W1-W8.

use std::ops::Range;

use crate::bundle::{fault, four, offer_faulty, Fault, ENTRY, HEAD, MOST_BYTES};
use crate::device::{crc_right, image_version, LEAST_REGION, MOST_STAGING};
use crate::packets::{DATA, MOST, SHORT};
use crate::refusal::Refusal;
use crate::version::Version;

/// Bytes of one entry of the list: the offer, then the offset of its image
/// among the images (4) and the image's length (4).
pub const LISTED: usize = SHORT + 4 + 4;
/// "each longest run of 52 or more bytes 0xFF is left out".
const LEAST_RUN: usize = 52;
/// The byte of these runs, which an erase leaves.
const ERASED: u8 = 0xFF;
/// "The two CRC bytes" at the end of an image.
const CRC_BYTES: usize = 2;

/// One entry of the list.
struct Item<'a> {
    /// The offer's 16 bytes.
    offer: &'a [u8],
    offset: u32,
    length: u32,
}

impl Item<'_> {
    /// The first offset past the image, in a width that holds every sum.
    fn end(&self) -> u64 {
        self.offset as u64 + self.length as u64
    }

    /// The image, after W4.
    fn image<'i>(&self, images: &'i [u8]) -> &'i [u8] {
        &images[self.offset as usize..self.end() as usize]
    }
}

/// The bundle maker: W1-W8, one after another over the whole list. The bundle
/// stands at the start of `out` and its length is answered; a refusal leaves
/// `out` untouched.
pub fn write(list: &[u8], images: &[u8], out: &mut [u8]) -> Result<usize, Fault> {
    // W1: count not 1-7.
    if count_faulty(list) {
        return fault(Refusal::W1, 0);
    }
    let items: Vec<Item> = list.chunks(LISTED).map(item_of).collect();
    // W2: an offer that B5 refuses.
    if let Some(index) = items.iter().position(|item| offer_faulty(item.offer)) {
        return fault(Refusal::W2, index + 1);
    }
    // W3: repeated id.
    if let Some(index) = (0..items.len()).find(|index| id_repeated(&items, *index)) {
        return fault(Refusal::W3, index + 1);
    }
    // W4: image under 8 bytes, over S1's limit or not wholly lent.
    if let Some(index) = items.iter().position(|item| image_faulty(item, images)) {
        return fault(Refusal::W4, index + 1);
    }
    // W5: CRC wrong.
    if let Some(index) = items.iter().position(|item| !crc_right(item.image(images))) {
        return fault(Refusal::W5, index + 1);
    }
    // W6: image version or id not its offer's.
    if let Some(index) = items.iter().position(|item| !named_by(item.offer, item.image(images))) {
        return fault(Refusal::W6, index + 1);
    }
    let bundle = bundle_of(&items, images);
    // W7: bundle over B1's limit.
    if bundle.len() > MOST_BYTES {
        return fault(Refusal::W7, 0);
    }
    // W8: output too short.
    if bundle.len() > out.len() {
        return fault(Refusal::W8, 0);
    }
    out[..bundle.len()].copy_from_slice(&bundle);
    Ok(bundle.len())
}

// ----------------------------------------------------------- rows W1-W6

/// W1: count not 1-7. A list that is not a whole number of entries has none.
fn count_faulty(list: &[u8]) -> bool {
    list.len() % LISTED != 0 || !(1..=MOST).contains(&(list.len() / LISTED))
}

/// One entry of the list, after W1.
fn item_of(listed: &[u8]) -> Item<'_> {
    Item {
        offer: &listed[..SHORT],
        offset: four(&listed[SHORT..SHORT + 4]),
        length: four(&listed[SHORT + 4..LISTED]),
    }
}

/// W3: id already used earlier.
fn id_repeated(items: &[Item], index: usize) -> bool {
    let id = items[index].offer[2];
    items[..index].iter().any(|earlier| earlier.offer[2] == id)
}

/// W4: image under 8 bytes, over S1's limit or not wholly lent.
fn image_faulty(item: &Item, images: &[u8]) -> bool {
    let small = item.length < LEAST_REGION;
    let large = item.length as u64 > MOST_STAGING;
    let past = item.end() > images.len() as u64;
    small || large || past
}

/// Not W6: the image has its offer's version and id.
fn named_by(offer: &[u8], image: &[u8]) -> bool {
    image_version(image) == Version::from_bytes(&offer[4..8]) && image[4] == offer[2]
}

// ----------------------------------------------------------- the bundle

/// "The bundle" of document 01: head, table, and bodies in order without gaps.
fn bundle_of(items: &[Item], images: &[u8]) -> Vec<u8> {
    let bodies: Vec<Vec<u8>> = items.iter().map(|item| body_of(item.image(images))).collect();
    let mut bundle = vec![items.len() as u8, 1, 0, 0, 0, 0, 0, 0];
    let mut offset = HEAD + ENTRY * items.len();
    for (item, body) in items.iter().zip(&bodies) {
        bundle.extend(item.offer);
        bundle.extend((offset as u32).to_le_bytes());
        bundle.extend((body.len() as u32).to_le_bytes());
        offset += body.len();
    }
    for body in &bodies {
        bundle.extend(body);
    }
    bundle
}

/// A body: what is left of the bytes before the two CRC bytes, and these two,
/// always the last record.
fn body_of(image: &[u8]) -> Vec<u8> {
    let crc_at = image.len() - CRC_BYTES;
    let mut body = Vec::new();
    for piece in pieces_left(&image[..crc_at]) {
        put_piece(&mut body, image, piece);
    }
    put_record(&mut body, crc_at, &image[crc_at..]);
    body
}

/// What is left of the bytes without each longest run of 52 or more bytes
/// 0xFF: the pieces between these runs, in rising address; some may be empty.
fn pieces_left(bytes: &[u8]) -> Vec<Range<usize>> {
    let mut pieces = Vec::new();
    let mut start = 0; // of the current piece
    let mut at = 0; // no 0xFF stands right before it
    while at < bytes.len() {
        let run_end = at + run_length(&bytes[at..]);
        if run_end - at >= LEAST_RUN {
            pieces.push(start..at);
            start = run_end;
        }
        at = run_end + 1; // past the byte that ends the run
    }
    pieces.push(start..bytes.len());
    pieces
}

/// How many bytes 0xFF stand at the start.
fn run_length(bytes: &[u8]) -> usize {
    bytes.iter().take_while(|byte| **byte == ERASED).count()
}

/// A piece, cut at 52 bytes in rising address.
fn put_piece(body: &mut Vec<u8>, image: &[u8], piece: Range<usize>) {
    let mut address = piece.start;
    for data in image[piece].chunks(DATA) {
        put_record(body, address, data);
        address += data.len();
    }
}

/// A record: address (4), length (1), data.
fn put_record(body: &mut Vec<u8>, address: usize, data: &[u8]) {
    body.extend((address as u32).to_le_bytes());
    body.push(data.len() as u8);
    body.extend(data);
}

#[cfg(test)]
mod tests {
    use super::{write, LISTED};
    use crate::bundle::{check, Fault};
    use crate::crc::crc;
    use crate::device::{set_up, Listed, Region, StagingOffset};
    use crate::examples::Dice;
    use crate::host::End;
    use crate::packets::MOST;
    use crate::refusal::Refusal;
    use crate::run::run;
    use crate::version::Version;

    // ---------------------------------------------------------- helpers

    /// More than any bundle.
    const ROOM: usize = 70_000;

    /// What is lent to the maker.
    #[derive(Clone)]
    struct Lent {
        list: Vec<u8>,
        images: Vec<u8>,
    }

    /// The images one after the other, each with an offer of its own version
    /// and id.
    fn lent(images: &[Vec<u8>]) -> Lent {
        let mut all = Lent { list: Vec::new(), images: Vec::new() };
        for image in images {
            let offset = all.images.len();
            all.list.extend(listed(&offer_for(image), offset as u32, image.len() as u32));
            all.images.extend(image);
        }
        all
    }

    fn listed(offer: &[u8; 16], offset: u32, length: u32) -> Vec<u8> {
        let mut out = offer.to_vec();
        out.extend(offset.to_le_bytes());
        out.extend(length.to_le_bytes());
        out
    }

    /// An offer without need, of the image's version and id.
    fn offer_for(image: &[u8]) -> [u8; 16] {
        let mut offer = [0, 0, 0, 0, 0, 0, 0, 0, 0, 0, 0, 0, 2, 0, 0x42, 0];
        offer[4..8].copy_from_slice(&image[..4]);
        offer[2] = image[4];
        offer
    }

    /// Version 1.3.0, the id, then each byte so many times: an image without
    /// its CRC.
    fn before_crc(id: u8, runs: &[(usize, u8)]) -> Vec<u8> {
        let mut out = vec![0, 3, 0, 1, id];
        for (count, byte) in runs {
            out.resize(out.len() + count, *byte);
        }
        out
    }

    fn with_crc(before: &[u8]) -> Vec<u8> {
        let mut out = before.to_vec();
        out.extend(crc(before).to_be_bytes());
        out
    }

    fn image(id: u8, runs: &[(usize, u8)]) -> Vec<u8> {
        with_crc(&before_crc(id, runs))
    }

    /// An image of this length that has no byte 0xFF before its CRC.
    fn plain(id: u8, length: usize) -> Vec<u8> {
        image(id, &[(length - 7, 0x5C)])
    }

    /// The image whose CRC is this one, by two other bytes at `free`.
    fn image_of_crc(mut before: Vec<u8>, free: usize, wanted: u16) -> Vec<u8> {
        for value in 0..=u16::MAX {
            before[free..free + 2].copy_from_slice(&value.to_be_bytes());
            if crc(&before) == wanted {
                return with_crc(&before);
            }
        }
        panic!("two bytes reach every CRC");
    }

    /// The bundle; with any output long enough it is the same, the bytes past
    /// it are untouched, and it reads back. One byte less is W8.
    fn made(lent: &Lent) -> Vec<u8> {
        let mut out = vec![0xA5; ROOM];
        let length = write(&lent.list, &lent.images, &mut out).unwrap();
        assert!(out[length..].iter().all(|byte| *byte == 0xA5));
        let bundle = out[..length].to_vec();
        let mut exact = vec![0xA5; length];
        assert_eq!(write(&lent.list, &lent.images, &mut exact), Ok(length));
        assert_eq!(exact, bundle);
        let mut short = vec![0xA5; length - 1];
        let refused = write(&lent.list, &lent.images, &mut short);
        assert_eq!(refused, Err(Fault { row: Refusal::W8, entry: 0 }));
        assert_eq!(short, vec![0xA5; length - 1]);
        reads_back(lent, &bundle);
        bundle
    }

    /// "Reading back gives the same offers and, after an erase, the same
    /// images", each record inside its region.
    fn reads_back(lent: &Lent, bundle: &[u8]) {
        let read = check(bundle).unwrap();
        assert_eq!(read.entries.len() * LISTED, lent.list.len());
        for (entry, listed) in read.entries.iter().zip(lent.list.chunks(LISTED)) {
            assert_eq!(entry.packet, listed[..16]);
            let offset = u32::from_le_bytes(listed[16..20].try_into().unwrap()) as usize;
            let length = u32::from_le_bytes(listed[20..24].try_into().unwrap()) as usize;
            let mut region = vec![0xFF; length];
            for record in &entry.records {
                let start = record.address as usize;
                region[start..start + record.data.len()].copy_from_slice(record.data);
            }
            assert!(region == lent.images[offset..offset + length]);
        }
    }

    /// Address and length of each record of each body.
    fn records(bundle: &[u8]) -> Vec<Vec<(u32, usize)>> {
        let read = check(bundle).unwrap();
        let of = |entry: &crate::bundle::Entry| {
            entry.records.iter().map(|record| (record.address, record.data.len())).collect()
        };
        read.entries.iter().map(of).collect()
    }

    /// A row before W8: refused with any output, which stays untouched.
    fn refused(lent: &Lent) -> (Refusal, u8) {
        let mut out = vec![0xA5; ROOM];
        let Fault { row, entry } = write(&lent.list, &lent.images, &mut out).unwrap_err();
        assert!(out.iter().all(|byte| *byte == 0xA5));
        let none = write(&lent.list, &lent.images, &mut []);
        assert_eq!(none, Err(Fault { row, entry }));
        (row, entry)
    }

    /// Four images of 20 bytes, ids 1 to 4.
    fn four_images() -> Lent {
        lent(&[plain(1, 20), plain(2, 20), plain(3, 20), plain(4, 20)])
    }

    /// Four images with these bytes of the list changed: entry from 1, place
    /// in the entry, byte.
    fn four_with(changes: &[(usize, usize, u8)]) -> Lent {
        let mut lent = four_images();
        for (entry, at, byte) in changes {
            lent.list[24 * (entry - 1) + at] = *byte;
        }
        lent
    }

    // ------------------------------------------------------- the bundle

    /// Every byte of a bundle of two; the images in another order, with other
    /// bytes around them.
    #[test]
    fn two_of_eight_bytes() {
        let mut images = vec![0xAA];
        images.extend([0x00, 0x02, 0x00, 0x01, 0x02, 0xFF, 0x0B, 0x21]);
        images.extend([0xBB, 0xBB]);
        images.extend([0x00, 0x03, 0x00, 0x01, 0x01, 0x5C, 0x71, 0xAA]);
        images.push(0xCC);
        let one = [0, 0, 1, 0, 0, 3, 0, 1, 2, 2, 0, 1, 2, 0, 0x42, 0];
        let two = [0, 0, 2, 0, 0, 2, 0, 1, 0, 0, 0, 0, 2, 0, 0x42, 0];
        let list = [listed(&one, 11, 8), listed(&two, 1, 8)].concat();
        let mut expected = vec![2, 1, 0, 0, 0, 0, 0, 0];
        expected.extend(one);
        expected.extend([56, 0, 0, 0, 18, 0, 0, 0]);
        expected.extend(two);
        expected.extend([74, 0, 0, 0, 18, 0, 0, 0]);
        expected.extend([0, 0, 0, 0, 6, 0x00, 0x03, 0x00, 0x01, 0x01, 0x5C]);
        expected.extend([6, 0, 0, 0, 2, 0x71, 0xAA]);
        expected.extend([0, 0, 0, 0, 6, 0x00, 0x02, 0x00, 0x01, 0x02, 0xFF]);
        expected.extend([6, 0, 0, 0, 2, 0x0B, 0x21]);
        assert_eq!(expected.len(), 92);
        assert_eq!(made(&Lent { list, images }), expected);
    }

    /// Bytes after the version and the id, and the records.
    type Shape<'a> = (&'a [(usize, u8)], &'a [(u32, usize)]);

    #[test]
    fn runs() {
        let cases: [Shape; 19] = [
            // Right after the id byte.
            (&[(51, 0xFF), (10, 1)], &[(0, 52), (52, 14), (66, 2)]),
            (&[(52, 0xFF), (10, 1)], &[(0, 5), (57, 10), (67, 2)]),
            (&[(53, 0xFF), (10, 1)], &[(0, 5), (58, 10), (68, 2)]),
            // In the middle.
            (&[(60, 1), (51, 0xFF), (60, 1)], &[(0, 52), (52, 52), (104, 52), (156, 20), (176, 2)]),
            (&[(60, 1), (52, 0xFF), (60, 1)], &[(0, 52), (52, 13), (117, 52), (169, 8), (177, 2)]),
            (&[(60, 1), (53, 0xFF), (60, 1)], &[(0, 52), (52, 13), (118, 52), (170, 8), (178, 2)]),
            // Right before the CRC.
            (&[(20, 1), (51, 0xFF)], &[(0, 52), (52, 24), (76, 2)]),
            (&[(20, 1), (52, 0xFF)], &[(0, 25), (77, 2)]),
            (&[(20, 1), (53, 0xFF)], &[(0, 25), (78, 2)]),
            // From the id byte to the CRC.
            (&[(51, 0xFF)], &[(0, 52), (52, 4), (56, 2)]),
            (&[(52, 0xFF)], &[(0, 5), (57, 2)]),
            (&[(53, 0xFF)], &[(0, 5), (58, 2)]),
            // Twice 52: one run.
            (&[(104, 0xFF), (1, 1)], &[(0, 5), (109, 1), (110, 2)]),
            // Two runs with one byte between: both long, both short, one long.
            (&[(52, 0xFF), (1, 1), (60, 0xFF)], &[(0, 5), (57, 1), (118, 2)]),
            (&[(51, 0xFF), (1, 1), (51, 0xFF)], &[(0, 52), (52, 52), (104, 4), (108, 2)]),
            (&[(51, 0xFF), (1, 1), (52, 0xFF)], &[(0, 52), (52, 5), (109, 2)]),
            // What is left before, between and after is 52 or 104 bytes, then one more.
            (&[(47, 1), (52, 0xFF), (104, 1), (60, 0xFF)], &[(0, 52), (104, 52), (156, 52), (268, 2)]),
            (
                &[(48, 1), (52, 0xFF), (105, 1), (60, 0xFF)],
                &[(0, 52), (52, 1), (105, 52), (157, 52), (209, 1), (270, 2)],
            ),
            // 52 bytes of another value are no such run.
            (&[(52, 0xFE), (52, 0x00)], &[(0, 52), (52, 52), (104, 5), (109, 2)]),
        ];
        for (runs, expected) in cases {
            assert_eq!(records(&made(&lent(&[image(1, runs)]))), [expected], "{runs:?}");
        }
    }

    /// A CRC byte 0xFF does not lengthen a run, and the CRC record is always
    /// there. Bytes after the version and the id, where the two free bytes
    /// stand, and the records; for each CRC the same.
    #[test]
    fn runs_with_ff_in_the_crc() {
        let cases: [(&[(usize, u8)], usize, &[(u32, usize)]); 13] = [
            (&[(51, 0xFF), (10, 1)], 60, &[(0, 52), (52, 14), (66, 2)]),
            (&[(52, 0xFF), (10, 1)], 60, &[(0, 5), (57, 10), (67, 2)]),
            (&[(53, 0xFF), (10, 1)], 60, &[(0, 5), (58, 10), (68, 2)]),
            (&[(20, 1), (51, 0xFF), (20, 1)], 90, &[(0, 52), (52, 44), (96, 2)]),
            (&[(20, 1), (52, 0xFF), (20, 1)], 90, &[(0, 25), (77, 20), (97, 2)]),
            (&[(20, 1), (53, 0xFF), (20, 1)], 90, &[(0, 25), (78, 20), (98, 2)]),
            // With the CRC's bytes there are 52 or 53 from 50 and 51.
            (&[(20, 1), (50, 0xFF)], 10, &[(0, 52), (52, 23), (75, 2)]),
            (&[(20, 1), (51, 0xFF)], 10, &[(0, 52), (52, 24), (76, 2)]),
            (&[(20, 1), (52, 0xFF)], 10, &[(0, 25), (77, 2)]),
            (&[(20, 1), (53, 0xFF)], 10, &[(0, 25), (78, 2)]),
            // From the id byte to the CRC; the version's bytes are free.
            (&[(50, 0xFF)], 1, &[(0, 52), (52, 3), (55, 2)]),
            (&[(51, 0xFF)], 1, &[(0, 52), (52, 4), (56, 2)]),
            (&[(52, 0xFF)], 1, &[(0, 5), (57, 2)]),
        ];
        for (runs, free, expected) in cases {
            for wanted in [0xFFFF, 0xFF5C, 0x5CFF] {
                let image = image_of_crc(before_crc(1, runs), free, wanted);
                let bundle = made(&lent(&[image]));
                assert_eq!(bundle[bundle.len() - 2..], wanted.to_be_bytes());
                assert_eq!(records(&bundle), [expected], "{runs:?}, CRC {wanted:04x}");
            }
        }
    }

    /// Images may share bytes: the second lies inside the first, and the third
    /// holds both.
    #[test]
    fn images_that_share_bytes() {
        let second = image(2, &[(60, 0xFF), (3, 1)]);
        assert_eq!(second.len(), 70);
        let mut before = before_crc(1, &[(5, 1)]);
        before.extend(&second);
        let first = with_crc(&before);
        assert_eq!(first.len(), 82);
        let mut before = before_crc(3, &[]);
        before.extend(&first);
        let third = with_crc(&before);
        assert_eq!(third.len(), 89);
        let list = [
            listed(&offer_for(&first), 5, 82),
            listed(&offer_for(&second), 15, 70),
            listed(&offer_for(&third), 0, 89),
        ]
        .concat();
        let bundle = made(&Lent { list, images: third });
        assert_eq!(
            records(&bundle),
            [
                vec![(0, 15), (75, 5), (80, 2)],
                vec![(0, 5), (65, 3), (68, 2)],
                vec![(0, 20), (80, 7), (87, 2)],
            ]
        );
    }

    /// Seven images of 65,536 bytes, each but seven bytes one run.
    #[test]
    fn seven_of_the_largest() {
        let images: Vec<Vec<u8>> = (1..=7).map(|id| image(id, &[(65_529, 0xFF)])).collect();
        let bundle = made(&lent(&images));
        assert_eq!(bundle.len(), 176 + 7 * 17);
        assert_eq!(records(&bundle), vec![vec![(0, 5), (65_534, 2)]; 7]);
    }

    // ------------------------------------------------------ rows W1-W8

    #[test]
    fn w1_count() {
        let images: Vec<Vec<u8>> = (1..=8).map(|id| plain(id, 8)).collect();
        for count in 1..=7 {
            // An image of 8 bytes takes 24 bytes of the table and 18 of a body.
            assert_eq!(made(&lent(&images[..count])).len(), 8 + 42 * count);
        }
        assert_eq!(refused(&lent(&images)), (Refusal::W1, 0));
        assert_eq!(refused(&lent(&[])), (Refusal::W1, 0));
        for length in [1, 23, 25, 47, 49, 167, 169, 191] {
            let mut cut = lent(&images);
            cut.list.truncate(length);
            assert_eq!(refused(&cut), (Refusal::W1, 0), "{length}");
        }
        let mut long = lent(&images);
        long.list.resize(24 * 257, 0);
        assert_eq!(refused(&long), (Refusal::W1, 0));
    }

    #[test]
    fn w2_offers() {
        for (at, byte) in
            [(0, 1), (1, 1), (1, 0x40), (1, 0x80), (3, 1), (13, 1), (12, 1), (12, 0x12), (2, 0), (2, 0xE0), (2, 0xFF)]
        {
            for entry in 1..=4 {
                let lent = four_with(&[(entry, at, byte)]);
                assert_eq!(refused(&lent), (Refusal::W2, entry as u8), "{at} {byte}");
            }
            assert_eq!(refused(&four_with(&[(3, at, byte), (2, 13, 9)])), (Refusal::W2, 2));
        }
        // The least and the greatest id; the platform and the need are free.
        made(&lent(&[plain(1, 20), plain(0xDF, 20)]));
        made(&four_with(&[(1, 8, 0xFF), (1, 11, 7), (2, 14, 0xFF), (2, 15, 0xFF)]));
    }

    #[test]
    fn w3_repeated_id() {
        let with_ids = |ids: &[u8]| {
            let images: Vec<Vec<u8>> = ids.iter().map(|id| plain(*id, 20)).collect();
            refused(&lent(&images))
        };
        assert_eq!(with_ids(&[1, 1]), (Refusal::W3, 2));
        assert_eq!(with_ids(&[1, 2, 1]), (Refusal::W3, 3));
        assert_eq!(with_ids(&[5, 2, 2, 5]), (Refusal::W3, 3));
        assert_eq!(with_ids(&[5, 5, 5]), (Refusal::W3, 2));
        assert_eq!(with_ids(&[1, 2, 3, 4, 5, 6, 1]), (Refusal::W3, 7));
    }

    #[test]
    fn w4_length() {
        made(&lent(&[plain(1, 8)]));
        for length in 0..8 {
            // Seven bytes are a version, an id and a right CRC.
            let mut short = lent(&[plain(1, 7)]);
            short.images.push(0);
            short.list[20] = length;
            assert_eq!(refused(&short), (Refusal::W4, 1), "{length}");
        }
        made(&lent(&[image(1, &[(65_529, 0xFF)])]));
        assert_eq!(refused(&lent(&[image(1, &[(65_530, 0xFF)])])), (Refusal::W4, 1));
        assert_eq!(refused(&lent(&[plain(1, 20), plain(2, 7)])), (Refusal::W4, 2));
        assert_eq!(refused(&lent(&[plain(1, 7), plain(2, 20), plain(3, 7)])), (Refusal::W4, 1));
    }

    /// Four images of 20 bytes are 80 bytes; the last starts at 60.
    #[test]
    fn w4_not_wholly_lent() {
        let mut lent = four_images();
        lent.images.truncate(79);
        assert_eq!(refused(&lent), (Refusal::W4, 4));
        lent.images.truncate(39);
        assert_eq!(refused(&lent), (Refusal::W4, 2));
        lent.images.clear();
        assert_eq!(refused(&lent), (Refusal::W4, 1));
        let placed = |offset: u32, length: u32| {
            let mut lent = four_images();
            lent.list[40..44].copy_from_slice(&offset.to_le_bytes());
            lent.list[44..48].copy_from_slice(&length.to_le_bytes());
            refused(&lent)
        };
        // Up to the end there is no W4 (but another image); past it there is.
        assert_eq!(placed(72, 8), (Refusal::W5, 2));
        for (offset, length) in [
            (73, 8),
            (72, 9),
            (0, 81),
            (80, 8),
            (81, 8),
            (0, 65_536),
            (0xFFFF_FFF8, 8),
            (0xFFFF_FFFF, 8),
            (0xFFFF_FFF8, 28),
            (20, 0xFFFF_FFFF),
            (20, 0xFFFF_FFEC),
        ] {
            assert_eq!(placed(offset, length), (Refusal::W4, 2), "{offset} {length}");
        }
    }

    #[test]
    fn w5_crc() {
        // One wrong bit in any byte of the second image.
        for at in 20..40 {
            let mut lent = four_images();
            lent.images[at] ^= 0x10;
            assert_eq!(refused(&lent), (Refusal::W5, 2), "{at}");
        }
        // The low byte first.
        let mut lent = lent(&[vec![0, 3, 0, 1, 1, 0x5C, 0x71, 0xAA]]);
        made(&lent);
        lent.images.swap(6, 7);
        assert_eq!(refused(&lent), (Refusal::W5, 1));
        // The first of two.
        let mut lent = four_images();
        lent.images[79] ^= 1;
        lent.images[59] ^= 1;
        assert_eq!(refused(&lent), (Refusal::W5, 3));
    }

    #[test]
    fn w6_version_and_id() {
        // One bit of the offer's version, variant and major among them, or its id.
        for (at, byte) in [(4, 1), (5, 2), (6, 1), (7, 0), (2, 9)] {
            for entry in 1..=4 {
                let lent = four_with(&[(entry, at, byte)]);
                assert_eq!(refused(&lent), (Refusal::W6, entry as u8), "{at}");
            }
        }
        assert_eq!(refused(&four_with(&[(4, 2, 9), (2, 4, 1)])), (Refusal::W6, 2));
        // Two images that stand at each other's offers.
        assert_eq!(refused(&four_with(&[(3, 16, 60), (4, 16, 40)])), (Refusal::W6, 3));
    }

    /// 65,534 bytes in records of 52 are 1,260 whole ones and one of 14; with
    /// the CRC's there are 1,262, so 32 + 65,536 + 6,310 bytes.
    #[test]
    fn w7_one_of_the_largest() {
        assert_eq!(refused(&lent(&[plain(1, 65_536)])), (Refusal::W7, 0));
        // With a long run: 100 bytes, the run, 50 bytes, the CRC.
        let served = made(&lent(&[image(1, &[(95, 1), (65_384, 0xFF), (50, 1)])]));
        assert_eq!(records(&served), [[(0, 52), (52, 48), (65_484, 50), (65_534, 2)]]);
        assert_eq!(served.len(), 32 + 4 * 5 + 152);
    }

    /// Without a run, 59,750 bytes are 1,149 records of 52 and the CRC's; one
    /// byte more is one record more.
    #[test]
    fn w7_one_without_a_run() {
        assert_eq!(made(&lent(&[plain(1, 59_750)])).len(), 32 + 59_750 + 5 * 1_150);
        // 32 + 59,751 + 5 * 1,151 = 65,538.
        assert_eq!(refused(&lent(&[plain(1, 59_751)])), (Refusal::W7, 0));
    }

    /// Exactly 65,536 bytes, and one more, with one image and with two.
    #[test]
    fn w7_border() {
        // 32; 25 bytes in one record; the run; 59,722 bytes in 1,148 records
        // of 52 and one of 26; the CRC's: 32 + 30 + 59,722 + 5,745 + 7.
        let one = |last| lent(&[image(1, &[(20, 1), (52, 0xFF), (last, 1)])]);
        assert_eq!(made(&one(59_722)).len(), 65_536);
        assert_eq!(refused(&one(59_723)), (Refusal::W7, 0));
        // With a run of 51 it would be longer.
        let no_run = lent(&[image(1, &[(20, 1), (51, 0xFF), (59_722, 1)])]);
        assert_eq!(refused(&no_run), (Refusal::W7, 0));
        // 56; 59,698 bytes in 1,148 records of 52 and the CRC's; 27 bytes in
        // two records: 56 + 59,698 + 5,745 + 27 + 10.
        let two = |last| lent(&[plain(1, 59_698), plain(2, last)]);
        assert_eq!(made(&two(27)).len(), 65_536);
        assert_eq!(refused(&two(28)), (Refusal::W7, 0));
    }

    /// 50 bytes: exactly long enough, one byte short, and none (the other
    /// tests too try the first two, in `made`).
    #[test]
    fn w8_output() {
        let lent = lent(&[plain(1, 8)]);
        let too_short = Err(Fault { row: Refusal::W8, entry: 0 });
        for (length, expected) in [(0, too_short), (49, too_short), (50, Ok(50)), (51, Ok(50))] {
            let mut out = vec![0xA5; length];
            assert_eq!(write(&lent.list, &lent.images, &mut out), expected);
            let untouched = if expected.is_ok() { 50 } else { 0 };
            assert!(out[untouched..].iter().all(|byte| *byte == 0xA5));
        }
    }

    /// Each row with the next one: the earlier wins, also where the later
    /// one's entry stands earlier.
    #[test]
    fn the_earlier_row() {
        // W1 and W2.
        let images: Vec<Vec<u8>> = (0..8).map(|id| plain(id, 20)).collect();
        assert_eq!(refused(&lent(&images)), (Refusal::W1, 0));
        assert_eq!(refused(&lent(&images[..7])), (Refusal::W2, 1));
        // W2 and W3: of other entries, and of the same (id 0 twice).
        assert_eq!(refused(&four_with(&[(2, 2, 1), (4, 13, 1)])), (Refusal::W2, 4));
        assert_eq!(refused(&four_with(&[(2, 2, 0), (3, 2, 0)])), (Refusal::W2, 2));
        // W3 and W4.
        assert_eq!(refused(&four_with(&[(1, 20, 7), (4, 2, 2)])), (Refusal::W3, 4));
        assert_eq!(refused(&four_with(&[(4, 20, 7), (4, 2, 2)])), (Refusal::W3, 4));
        // W4 and W5: a length of 19 gives another CRC.
        assert_eq!(refused(&four_with(&[(1, 20, 19)])), (Refusal::W5, 1));
        assert_eq!(refused(&four_with(&[(1, 20, 19), (3, 20, 7)])), (Refusal::W4, 3));
        assert_eq!(refused(&four_with(&[(4, 20, 21)])), (Refusal::W4, 4));
        // W5 and W6.
        assert_eq!(refused(&four_with(&[(1, 4, 1), (3, 20, 19)])), (Refusal::W5, 3));
        assert_eq!(refused(&four_with(&[(3, 4, 1), (3, 20, 19)])), (Refusal::W5, 3));
        // W6 and W7.
        let mut large = lent(&[plain(1, 65_536), plain(2, 20)]);
        assert_eq!(refused(&large), (Refusal::W7, 0));
        large.list[24 + 4] = 1;
        assert_eq!(refused(&large), (Refusal::W6, 2));
        // W7 and W8: `refused` lends no output too.
        assert_eq!(refused(&lent(&[plain(1, 65_536)])), (Refusal::W7, 0));
        // W1 and all others.
        let nothing = Lent { list: vec![0xFF; 23], images: Vec::new() };
        assert_eq!(refused(&nothing), (Refusal::W1, 0));
    }

    // --------------------------------------------------------- searches

    /// Address and length of each record, byte by byte: a byte is left out
    /// where it lies in any 52 bytes 0xFF before the CRC.
    fn records_by_bytes(image: &[u8]) -> Vec<(u32, usize)> {
        let before = &image[..image.len() - 2];
        let mut left_out = vec![false; before.len()];
        for (start, window) in before.windows(52).enumerate() {
            if window.iter().all(|byte| *byte == 0xFF) {
                left_out[start..start + 52].fill(true);
            }
        }
        let mut records: Vec<(u32, usize)> = Vec::new();
        let mut open = false;
        for (at, left_out) in left_out.iter().enumerate() {
            match records.last_mut() {
                _ if *left_out => open = false,
                Some((_, length)) if open && *length < 52 => *length += 1,
                _ => {
                    records.push((at as u32, 1));
                    open = true;
                }
            }
        }
        records.push((before.len() as u32, 2));
        records
    }

    /// An image of some runs of 0xFF with other bytes around them.
    fn some_image(dice: &mut Dice, id: u8) -> Vec<u8> {
        let mut before = vec![dice.below(4) as u8 * 85, 3, 0, 255, id];
        for _ in 0..1 + dice.below(6) {
            let count = match dice.below(4) {
                0 => 1 + dice.below(3),
                1 => 50 + dice.below(5),
                2 => 102 + dice.below(5),
                _ => 1 + dice.below(120),
            };
            let erased = dice.below(2) == 0;
            for _ in 0..count {
                before.push(if erased { 0xFF } else { 0xFD + dice.below(3) as u8 });
            }
        }
        with_crc(&before)
    }

    #[test]
    fn searched() {
        let mut dice = Dice(20_260_322);
        let (mut all, mut with_runs) = (0, 0);
        for _ in 0..2_000 {
            let count = 1 + dice.below(MOST as u32) as u8;
            let images: Vec<Vec<u8>> = (1..=count).map(|id| some_image(&mut dice, 31 * id)).collect();
            let bundle = made(&lent(&images));
            let expected: Vec<Vec<(u32, usize)>> = images.iter().map(|i| records_by_bytes(i)).collect();
            assert_eq!(records(&bundle), expected);
            for (image, records) in images.iter().zip(&expected) {
                let sent: usize = records.iter().map(|(_, length)| length).sum();
                all += 1;
                with_runs += (sent < image.len()) as u32;
            }
        }
        assert!(with_runs > all / 4 && with_runs < all, "{with_runs} of {all}");
    }

    /// Demand 3's premise: on a device with the same region lengths the run
    /// stages every image. The floors are met (A5).
    #[test]
    fn staged_on_a_device() {
        let mut dice = Dice(20_260_323);
        for _ in 0..200 {
            let count = 1 + dice.below(MOST as u32) as u8;
            let images: Vec<Vec<u8>> = (1..=count).map(|id| some_image(&mut dice, 31 * id)).collect();
            let lent = lent(&images);
            let mut list = [Listed::default(); MOST];
            let mut base = 0;
            for (slot, image) in images.iter().enumerate() {
                let running = Version::from_parts(1, 2, image[0]);
                let region = Region { base: StagingOffset(base), length: image.len() as u32 };
                let floor = Version::from_parts(255, dice.below(4) as u16, 0);
                list[slot] = Listed { id: image[4], running, region, floor };
                base += image.len() as u32;
            }
            let mut staging = vec![0x33; base as usize];
            let device = set_up(0x0042, &list, count, &staging);
            assert_eq!(device.refused, None);
            let left = run(0x17, &made(&lent), device.value, &mut staging);
            let report = left.report();
            assert_eq!((report.end, report.completed, report.passes), (Some(End::Done), count as u32, 1));
            assert!(staging == lent.images);
        }
    }
}
