//! The judgement of an image in a bundle, as far as it can be made without the device, by the proved functions of `image`.
use cfu_updater::bundle_cut::CRC_SIZE;
use cfu_updater::bundle_layout::Entry;
use cfu_updater::bundle_records::walk::next_record;
use cfu_updater::bundle_records::Next;
use cfu_updater::crc16::crc16;
use cfu_updater::device_component::setup::{REGION_LEAST, STAGING_LIMIT};
use cfu_updater::image::judge::{examine, ImageFault};
use cfu_updater::image::region::{Region, StagingOffset};
use cfu_updater::wire::address::RegionAddress;
use cfu_updater::wire::version::Version;

/// Where an image has its component's id, behind its version.
pub const ID_AT: usize = 4;

/// What is said of an image.
#[derive(Clone, Copy, PartialEq, Eq)]
pub enum Verdict {
    /// Nothing is wrong with it.
    Good,
    /// Its records end past the largest region.
    Long,
    /// It is shorter than the shortest region.
    Short,
    /// Its CRC is wrong.
    Crc,
    /// It is another component's.
    Component,
    /// It bears another version than its offer.
    Version,
}

impl Verdict {
    /// Its word in JSON.
    pub fn word(self) -> &'static str {
        match self {
            Verdict::Good => "good",
            Verdict::Long => "long",
            Verdict::Short => "short",
            Verdict::Crc => "crc",
            Verdict::Component => "component",
            Verdict::Version => "version",
        }
    }
}

/// What stands in an image.
pub struct Borne {
    pub crc: u16,
    pub component: u8,
    pub version: Version,
    /// The CRC that its bytes give.
    pub right: u16,
}

/// An image that was judged.
pub struct Judged {
    pub verdict: Verdict,
    /// The highest end of a record, which is the region's length.
    pub end: u64,
    /// What stands in it; nothing where it has no region.
    pub borne: Option<Borne>,
}

/// A record of a body: its address and its data.
type Record<'a> = (RegionAddress, &'a [u8]);

/// The records of a body, in its order.
fn records(body: &[u8]) -> impl Iterator<Item = Record<'_>> {
    let mut at = 0;
    std::iter::from_fn(move || match next_record(body, at, body.len() as u64) {
        Next::Record { address, start, size, next } => {
            at = next;
            Some((address, &body[start..start + size as usize]))
        }
        Next::End | Next::Bad => None,
    })
}

/// What stands in an image: version and id, and at the end the CRC, high byte first; nothing in bytes that are too few for them.
pub fn borne_by(image: &[u8]) -> Option<Borne> {
    let (before, crc) = image.split_last_chunk::<CRC_SIZE>()?;
    Some(Borne { crc: u16::from_be_bytes(*crc), component: *before.get(ID_AT)?, version: Version::read_at(before, 0), right: crc16(before) })
}

/// The judgement on a region that holds the image of an offer.
fn verdict_on(image: &[u8], entry: &Entry) -> Verdict {
    match examine(image, entry.offer.id) {
        Err(ImageFault::Damaged) => Verdict::Crc,
        Err(ImageFault::Foreign) => Verdict::Component,
        Ok(version) if version != entry.offer.version => Verdict::Version,
        Ok(_) => Verdict::Good,
    }
}

/// Judges the image of an offer: its records are laid over an erased region, in the order of the body, and the region is examined.
pub fn judge(entry: &Entry, body: &[u8]) -> Judged {
    let end = records(body).map(|(address, data)| u64::from(address.number()) + data.len() as u64).max().unwrap_or(0);
    let len = match u32::try_from(end) {
        Ok(len) if len <= STAGING_LIMIT => len,
        _ => return Judged { verdict: Verdict::Long, end, borne: None },
    };
    if len < REGION_LEAST {
        return Judged { verdict: Verdict::Short, end, borne: None };
    }
    let region = Region { base: StagingOffset::new(0), len };
    let mut staging = vec![0; len as usize];
    region.erase(&mut staging);
    records(body).for_each(|(address, data)| region.write(address, &mut staging, data));
    Judged { verdict: verdict_on(&staging, entry), end, borne: borne_by(&staging) }
}
