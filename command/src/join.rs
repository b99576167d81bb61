//! `cfu join`: makes a bundle of CFU's own files.
use std::ffi::{OsStr, OsString};

use cfu_updater::bundle_layout::limits::{BUNDLE_LIMIT, ENTRY, HEAD, OFFER_LIMIT};
use cfu_updater::bundle_layout::{BundleRefusal, BundleRow};
use cfu_updater::wire::codes::{PROTOCOL, SHORT_SIZE};

use crate::args::{missing, Known, Line};
use crate::bundle::{Bundle, Row};
use crate::failure::{text, Failure, Status};
use crate::files;
use crate::output::Output;
use crate::shown;
use crate::split::{swap_protocol, PROTOCOL_AT, SWAP_PROTOCOL};

/// The format of a bundle, in byte 1 of its head.
const FORMAT: u8 = 1;

/// An offer and its body, as the files have them.
struct Part {
    offer: Vec<u8>,
    body: Vec<u8>,
}

/// Carries out the words behind the verb.
pub fn run(words: &[OsString], out: &mut Output) -> Result<Status, Failure> {
    let line = Line::read(words, &[Known::Flag(SWAP_PROTOCOL)])?;
    let Some((name, files)) = line.arguments.split_first() else {
        return Err(missing("OUT"));
    };
    files::may_be_written(name)?;
    let pairs = files.chunks_exact(2);
    match pairs.remainder() {
        [offer] => return Err(Failure::Wrong(text(&[&"PAYLOAD is missing behind ", offer]))),
        _ if files.is_empty() => return Err(missing("OFFER")),
        _ => (),
    }
    files::is_not_read(name, files)?;
    let swap = line.has(SWAP_PROTOCOL);
    // One pair more shows that there are too many.
    let pairs = pairs.take(OFFER_LIMIT + 1);
    let parts = pairs.map(|pair| read(&pair[0], &pair[1], swap)).collect::<Result<Vec<Part>, Failure>>()?;
    let bundle = Bundle::of(joined(&parts));
    if let Some(row) = bundle.refusal() {
        return Err(Failure::Refused(refusal(&bundle, &row, swap)));
    }
    files::write(name, &bundle.bytes)?;
    out.line(text(&[name, &": ", &shown::count(bundle.bytes.len(), "byte"), &", ", &shown::count(parts.len(), "offer")]));
    Ok(Status::Fine)
}

/// Reads a pair of files. A body longer than a bundle is refused with the bundle.
fn read(offer: &OsStr, payload: &OsStr, swap: bool) -> Result<Part, Failure> {
    let mut bytes = files::read(offer, SHORT_SIZE)?;
    if bytes.len() != SHORT_SIZE {
        return Err(Failure::refused(text(&[&offer, &format!(": an offer has {SHORT_SIZE} bytes")])));
    }
    swap_protocol(&mut bytes, swap);
    Ok(Part { offer: bytes, body: files::read(payload, BUNDLE_LIMIT)? })
}

/// The bundle of these parts: its head with the count and the format, the table of offers with the place of each body, and the bodies.
fn joined(parts: &[Part]) -> Vec<u8> {
    let mut bytes = vec![0; HEAD];
    bytes[..2].copy_from_slice(&[parts.len() as u8, FORMAT]);
    let mut at = HEAD + ENTRY * parts.len();
    for part in parts {
        bytes.extend_from_slice(&part.offer);
        bytes.extend_from_slice(&(at as u32).to_le_bytes());
        bytes.extend_from_slice(&(part.body.len() as u32).to_le_bytes());
        at += part.body.len();
    }
    parts.iter().for_each(|part| bytes.extend_from_slice(&part.body));
    bytes
}

/// What is said of a bundle that the check refuses, whose offers' bytes 12 were exchanged or not.
fn refusal(bundle: &Bundle, row: &Row, swap: bool) -> Vec<OsString> {
    let mut lines = vec![format!("refused {}", shown::row(row.number, row.entry)).into()];
    let foreign_order = match bundle.checked {
        Err(BundleRefusal { row: BundleRow::B5, place }) if place > 0 => bundle.offer_bytes(place - 1)[PROTOCOL_AT] == PROTOCOL.rotate_left(4),
        _ => false,
    };
    if foreign_order && swap {
        lines.push(format!("byte 12 had CFU's order already: without {SWAP_PROTOCOL}").into());
    } else if foreign_order {
        lines.push(format!("byte 12 has fwupd's order of the protocol's four bits: {SWAP_PROTOCOL}").into());
    }
    lines
}
