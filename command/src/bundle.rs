//! A bundle: its bytes, and what the check says of them.
use std::ffi::OsStr;

use cfu_updater::bundle::check;
use cfu_updater::bundle_layout::head::table_end;
use cfu_updater::bundle_layout::limits::BUNDLE_LIMIT;
use cfu_updater::bundle_layout::{BundleRefusal, Checked, Entry};
use cfu_updater::c_types::numbers::{lettered, ROW_B};
use cfu_updater::wire::codes::SHORT_SIZE;

use crate::failure::Failure;
use crate::files;

/// The row that refuses a bundle, as include/cfu.h numbers it, and the entry that it names, 0 for none.
pub struct Row {
    pub number: u32,
    pub entry: u32,
}

/// A bundle and what the check answered.
pub struct Bundle {
    pub bytes: Vec<u8>,
    pub checked: Result<Checked, BundleRefusal>,
}

impl Bundle {
    /// The bundle of these bytes.
    pub fn of(bytes: Vec<u8>) -> Bundle {
        Bundle { checked: check(&bytes), bytes }
    }

    /// The bundle of a file.
    pub fn read(name: &OsStr) -> Result<Bundle, Failure> {
        files::read_or_input(name, BUNDLE_LIMIT).map(Bundle::of)
    }

    /// The row that refuses it, if one does.
    pub fn refusal(&self) -> Option<Row> {
        let refusal = self.checked.as_ref().err()?;
        Some(Row { number: lettered(ROW_B, refusal.row.number()), entry: refusal.place.into() })
    }

    /// Its offers with their bodies; none of a bundle that is refused.
    pub fn entries(&self) -> &[Entry] {
        self.checked.as_ref().map_or(&[], |checked| &checked.table[..checked.count.into()])
    }

    /// The 16 bytes of an offer of its table, counted from 0.
    pub fn offer_bytes(&self, place: u8) -> &[u8] {
        let at = table_end(place);
        &self.bytes[at..at + SHORT_SIZE]
    }

    /// The body of one of its offers.
    pub fn body(&self, entry: &Entry) -> &[u8] {
        let at = entry.offset as usize;
        &self.bytes[at..at + entry.length as usize]
    }
}
