//! "The bundle": the house format and its check, rows B1-B8.

use crate::packets::{read_offer, Offer, DATA, MOST, PROTOCOL, SHORT};
use crate::refusal::Refusal;

/// Bytes before the table.
pub const HEAD: usize = 8;
/// Bytes of one table entry.
pub const ENTRY: usize = 24;
/// B1: most bytes of a bundle.
pub const MOST_BYTES: usize = 65_536;

/// One record of a body, as it lies in the bundle.
#[derive(Clone, Copy, Debug, PartialEq, Eq)]
pub struct Record<'a> {
    pub address: u32,
    pub data: &'a [u8],
}

/// One offer with its body.
#[derive(Clone, Debug, PartialEq, Eq)]
pub struct Entry<'a> {
    /// The table's 16 bytes.
    pub packet: [u8; SHORT],
    pub offer: Offer,
    pub offset: u32,
    pub length: u32,
    pub records: Vec<Record<'a>>,
}

/// A bundle that passed the check.
#[derive(Clone, Debug, PartialEq, Eq)]
pub struct Bundle<'a> {
    pub entries: Vec<Entry<'a>>,
}

/// A refusal and its entry, counted from 1; 0 where none is meant.
#[derive(Clone, Copy, Debug, PartialEq, Eq)]
pub struct Fault {
    pub row: Refusal,
    pub entry: u8,
}

pub fn fault<T>(row: Refusal, entry: usize) -> Result<T, Fault> {
    Err(Fault { row, entry: entry as u8 })
}

/// The bundle check: B1-B8, one after another over the whole bundle.
pub fn check(bundle: &[u8]) -> Result<Bundle<'_>, Fault> {
    // B1: under 8 or over 65,536 bytes.
    if bundle.len() < HEAD || bundle.len() > MOST_BYTES {
        return fault(Refusal::B1, 0);
    }
    // B2: byte 1 not 1, or bytes 2-7 not zero.
    if bundle[1] != 1 || bundle[2..HEAD].iter().any(|byte| *byte != 0) {
        return fault(Refusal::B2, 0);
    }
    // B3: count not 1-7.
    let count = bundle[0] as usize;
    if !(1..=MOST).contains(&count) {
        return fault(Refusal::B3, 0);
    }
    // B4: table past the end.
    if HEAD + ENTRY * count > bundle.len() {
        return fault(Refusal::B4, 0);
    }
    // B5: an offer's bytes.
    if let Some(index) = (0..count).find(|index| offer_faulty(offer_bytes(bundle, *index))) {
        return fault(Refusal::B5, index + 1);
    }
    // B6: id already used earlier.
    if let Some(index) = (0..count).find(|index| id_repeated(bundle, *index)) {
        return fault(Refusal::B6, index + 1);
    }
    // B7: bodies in order without gaps to the end.
    if let Some(index) = first_gap(bundle, count) {
        return fault(Refusal::B7, index + 1);
    }
    // B8: each body is records.
    let mut entries = Vec::new();
    for index in 0..count {
        match entry_of(bundle, index) {
            None => return fault(Refusal::B8, index + 1),
            Some(entry) => entries.push(entry),
        }
    }
    Ok(Bundle { entries })
}

/// The offer's 16 bytes in the table.
fn offer_bytes(bundle: &[u8], index: usize) -> &[u8] {
    let at = HEAD + ENTRY * index;
    &bundle[at..at + SHORT]
}

/// Body offset and body length in the table.
fn body_place(bundle: &[u8], index: usize) -> (u32, u32) {
    let at = HEAD + ENTRY * index + SHORT;
    (four(&bundle[at..at + 4]), four(&bundle[at + 4..at + 8]))
}

/// Four bytes, little-endian.
pub fn four(bytes: &[u8]) -> u32 {
    u32::from_le_bytes([bytes[0], bytes[1], bytes[2], bytes[3]])
}

/// B5: bytes 0, 1, 3 or 13 not zero, byte 12 not 2, or id outside 1-0xDF.
pub fn offer_faulty(offer: &[u8]) -> bool {
    [0, 1, 3, 13].iter().any(|at| offer[*at] != 0)
        || offer[12] != PROTOCOL
        || !(1..=0xDF).contains(&offer[2])
}

/// B6: id already used earlier.
fn id_repeated(bundle: &[u8], index: usize) -> bool {
    let id = offer_bytes(bundle, index)[2];
    (0..index).any(|earlier| offer_bytes(bundle, earlier)[2] == id)
}

/// B7: the first entry whose offset is not where the table or the previous
/// body ends; the last entry where the last end is not the file's end.
fn first_gap(bundle: &[u8], count: usize) -> Option<usize> {
    let mut end = (HEAD + ENTRY * count) as u64;
    for index in 0..count {
        let (offset, length) = body_place(bundle, index);
        if offset as u64 != end {
            return Some(index);
        }
        end += length as u64;
    }
    if end != bundle.len() as u64 {
        return Some(count - 1);
    }
    None
}

/// B8 for one entry, after B7: its contents, or nothing where its body is
/// empty, holds a cut record, or a record of length 0 or over 52.
fn entry_of(bundle: &[u8], index: usize) -> Option<Entry<'_>> {
    let bytes = offer_bytes(bundle, index);
    let mut packet = [0u8; SHORT];
    packet.copy_from_slice(bytes);
    let (offset, length) = body_place(bundle, index);
    let body = &bundle[offset as usize..offset as usize + length as usize];
    Some(Entry {
        packet,
        offer: read_offer(bytes).value,
        offset,
        length,
        records: records_of(body)?,
    })
}

/// A body is records: address (4), length (1), data.
fn records_of(body: &[u8]) -> Option<Vec<Record<'_>>> {
    if body.is_empty() {
        return None;
    }
    let mut records = Vec::new();
    let mut rest = body;
    while !rest.is_empty() {
        let (record, after) = one_record(rest)?;
        records.push(record);
        rest = after;
    }
    Some(records)
}

/// The first record and what follows it.
fn one_record(rest: &[u8]) -> Option<(Record<'_>, &[u8])> {
    if rest.len() < 5 {
        return None;
    }
    let length = rest[4] as usize;
    if length == 0 || length > DATA || rest.len() < 5 + length {
        return None;
    }
    let record = Record { address: four(&rest[0..4]), data: &rest[5..5 + length] };
    Some((record, &rest[5 + length..]))
}

/// E14: the lines of the small program.
pub fn lines(bundle: &[u8]) -> String {
    match check(bundle) {
        Err(fault) => format!("refused {} {}\n", fault.row, fault.entry),
        Ok(read) => {
            let mut out = format!("offers {}\n", read.entries.len());
            for entry in &read.entries {
                out += &format!(
                    "{} {} records {}\n",
                    entry.offer.id,
                    entry.offer.version,
                    entry.records.len()
                );
            }
            out
        }
    }
}
