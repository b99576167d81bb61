//! What several verbs print alike: counts, versions, offers, and the rows that refuse.
use cfu_updater::wire::version::Version;
use cfu_updater::wire_offer::offer::OfferFields;
use cfu_updater::words::{name, sentence, Kind};

/// A count of things: `1 byte`, `2 bytes`.
pub fn count(number: usize, thing: &str) -> String {
    format!("{number} {thing}{}", if number == 1 { "" } else { "s" })
}

/// A version, `major.minor.variant`.
pub fn version(v: Version) -> String {
    format!("{}.{}.{}", v.major(), v.minor(), v.variant())
}

/// A least version as an offer has it, `major.minor`.
pub fn least(release: u32) -> String {
    format!("{}.{}", release >> Version::MINOR_BITS, release % (1 << Version::MINOR_BITS))
}

/// An offer with its number in the bundle, from 1.
pub fn offer(entry: usize, o: &OfferFields) -> String {
    let need = match o.need {
        0 => "nothing".to_string(),
        need => format!("component {need} at {} or later", least(o.least)),
    };
    format!("offer {entry}: component {}, version {}, needs {need}, platform 0x{:04X}", o.id, version(o.version), o.platform)
}

/// The row that a call answered, the entry that it names, and its sentence; what stands behind `refused`.
pub fn row(number: u32, entry: u32) -> String {
    let place = if entry == 0 { String::new() } else { format!(", entry {entry}") };
    format!("{}{place}: {}", name(Kind::Call, number), sentence(Kind::Call, number))
}
