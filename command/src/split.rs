//! `cfu split`: cuts a bundle into CFU's own files.
use std::ffi::{OsStr, OsString};
use std::path::Path;

use cfu_updater::bundle_layout::Entry;

use crate::args::{Known, Line};
use crate::bundle::Bundle;
use crate::failure::{text, Failure, Status};
use crate::files;
use crate::output::Output;
use crate::shown;

/// The option of `split` and `join` that exchanges the two halves of byte 12.
pub const SWAP_PROTOCOL: &str = "--swap-protocol";

/// Where an offer has its protocol.
pub const PROTOCOL_AT: usize = 12;

/// Exchanges the two halves of byte 12 of an offer, where that is asked for.
pub fn swap_protocol(offer: &mut [u8], asked: bool) {
    if let (true, Some(byte)) = (asked, offer.get_mut(PROTOCOL_AT)) {
        *byte = byte.rotate_left(4);
    }
}

/// Carries out the words behind the verb.
pub fn run(words: &[OsString], out: &mut Output) -> Result<Status, Failure> {
    let line = Line::read(words, &[Known::Flag(SWAP_PROTOCOL)])?;
    let [name, folder] = line.exactly(["BUNDLE", "DIR"])?;
    files::may_be_written(folder)?;
    let bundle = Bundle::read(name)?;
    if let Some(row) = bundle.refusal() {
        return Err(Failure::refused(text(&[&files::called(name), &": refused ", &shown::row(row.number, row.entry)])));
    }
    let cut = cut(&bundle, folder, line.has(SWAP_PROTOCOL));
    if !files::is_input(name) {
        cut.iter().try_for_each(|file| files::is_not_read(&file.name, [name]))?;
    }
    files::make_folder(folder)?;
    for file in &cut {
        files::write(&file.name, &file.bytes)?;
        out.line(text(&[&file.name, &": ", &shown::count(file.bytes.len(), "byte")]));
    }
    Ok(Status::Fine)
}

/// A file that is written.
struct Cut {
    name: OsString,
    bytes: Vec<u8>,
}

/// The files of a bundle, in its order, the offer before its payload.
fn cut(bundle: &Bundle, folder: &OsStr, swap: bool) -> Vec<Cut> {
    let file = |entry: &Entry, kind: &str, bytes: &[u8]| {
        let name = Path::new(folder).join(format!("{}.{kind}.bin", entry.offer.id));
        Cut { name: name.into(), bytes: bytes.to_vec() }
    };
    let mut files = Vec::new();
    for (place, entry) in (0..).zip(bundle.entries()) {
        let mut offer = file(entry, "offer", bundle.offer_bytes(place));
        swap_protocol(&mut offer.bytes, swap);
        files.extend([offer, file(entry, "payload", bundle.body(entry))]);
    }
    files
}
