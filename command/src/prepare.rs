//! An offer to be made, and its image as the writer takes it: filled up to its region, and stamped.
use std::ffi::OsString;
use std::path::PathBuf;

use cfu_updater::bundle_cut::{CRC_SIZE, ERASED};
use cfu_updater::crc16::crc16;
use cfu_updater::device_component::setup::{REGION_LEAST, STAGING_LIMIT};
use cfu_updater::wire::codes::PROTOCOL;
use cfu_updater::wire::version::Version;
use cfu_updater::wire_offer::offer::OfferFields;

use crate::failure::{text, Failure};
use crate::files;
use crate::judge::ID_AT;
use crate::shown;
use crate::values::Need;

/// An offer to be made, with its image and what is done to that.
pub struct Planned {
    pub offer: OfferFields,
    /// The image's file as it was named, and where it is.
    pub image: OsString,
    pub path: PathBuf,
    /// The region's length, up to which a shorter image is filled.
    pub size: Option<u32>,
    /// Version, id and CRC are put into free places of the image.
    pub stamp: bool,
}

/// An image as the writer takes it.
pub struct Prepared {
    pub bytes: Vec<u8>,
    pub stamped: bool,
}

/// The fields of an offer in a bundle.
pub fn offer_fields(id: u8, version: Version, need: Option<Need>, platform: u16) -> OfferFields {
    OfferFields {
        segment: 0,
        force_immediate_reset: false,
        force_ignore_version: false,
        id,
        token: 0,
        version,
        need: need.map_or(0, |need| need.component),
        least: need.map_or(0, |need| need.least),
        protocol: PROTOCOL,
        platform,
    }
}

/// Reads the images of the offers, fills them and stamps them, in their order.
pub fn prepare(plan: &[Planned]) -> Result<Vec<Prepared>, Failure> {
    let (mut images, mut stamped) = (Vec::new(), Vec::new());
    for (entry, planned) in (1..).zip(plan) {
        let file = planned.read(entry)?;
        if planned.stamps(&file) {
            planned.differs(entry, &file, &stamped)?;
            stamped.push((entry, file.clone()));
        }
        images.push(planned.prepared(entry, file)?);
    }
    Ok(images)
}

/// What the stamp may fill: bytes that are all 0x00, or all 0xFF as an erase leaves them.
fn is_free(bytes: &[u8]) -> bool {
    [0x00, ERASED].iter().any(|free| bytes.iter().all(|byte| byte == free))
}

impl Planned {
    /// A refusal of the image's file. `entry` is its offer's number, from 1.
    fn refused(&self, entry: usize, words: &str) -> Failure {
        Failure::refused(text(&[&format!("entry {entry}: "), &self.path, &" ", &words]))
    }

    /// Reads the image's file, and refuses one that is longer than its region. Of one over the largest region only that is known.
    fn read(&self, entry: usize) -> Result<Vec<u8>, Failure> {
        let most = STAGING_LIMIT as usize;
        let file = files::read(self.path.as_os_str(), most)?;
        match self.size {
            Some(size) if file.len() > size as usize => {
                let has = if file.len() > most { format!("over {most}") } else { file.len().to_string() };
                Err(self.refused(entry, &format!("has {has} bytes, over the size of {size}")))
            }
            _ => Ok(file),
        }
    }

    /// The image of this file is stamped. A file that is shorter than the shortest region is left to the writer, which refuses it.
    fn stamps(&self, file: &[u8]) -> bool {
        self.stamp && file.len() >= REGION_LEAST as usize
    }

    /// Refuses a file of the same bytes as an earlier one that is stamped.
    fn differs(&self, entry: usize, file: &[u8], stamped: &[(usize, Vec<u8>)]) -> Result<(), Failure> {
        match stamped.iter().find(|(_, earlier)| earlier == file) {
            Some((earlier, _)) => Err(self.refused(entry, &format!("has the same bytes as the image of entry {earlier}"))),
            None => Ok(()),
        }
    }

    /// The image of a file, filled and stamped.
    fn prepared(&self, entry: usize, file: Vec<u8>) -> Result<Prepared, Failure> {
        let stamped = self.stamps(&file);
        if stamped {
            self.has_room(entry, &file)?;
        }
        let mut bytes = file;
        self.fill(&mut bytes);
        if stamped {
            self.put(entry, &mut bytes)?;
        }
        Ok(Prepared { bytes, stamped })
    }

    /// Fills an image up to its region, as an erase leaves it, unless it is shorter than the shortest region, which the writer refuses. A region over the
    /// largest is filled only so far that the writer refuses it.
    fn fill(&self, image: &mut Vec<u8>) {
        match self.size {
            Some(size) if image.len() >= REGION_LEAST as usize => image.resize(size.min(STAGING_LIMIT + 1) as usize, ERASED),
            _ => (),
        }
    }

    /// The first bytes of the offer's image: its version and its id.
    fn label(&self) -> [u8; ID_AT + 1] {
        let v = self.offer.version.bytes();
        [v[0], v[1], v[2], v[3], self.offer.id]
    }

    /// Refuses a file that has something else than free bytes where the label goes. One that has this label already is the build's own work, so its own end has
    /// to be free or right too, before it is filled: what was cut or damaged gets no CRC.
    fn has_room(&self, entry: usize, file: &[u8]) -> Result<(), Failure> {
        let place = &file[..=ID_AT];
        if *place == self.label() {
            return self.crc_fits(entry, file);
        }
        if is_free(place) {
            return Ok(());
        }
        let (component, version) = (place[ID_AT], shown::version(Version::read_at(place, 0)));
        let words = format!("bears component {component}, version {version}, in bytes 0 to {ID_AT}: the stamp goes only into free bytes");
        Err(self.refused(entry, &words))
    }

    /// Refuses an image whose last bytes are neither free nor the CRC of all before them, high byte first. The end of an image over the largest region is not
    /// known; the writer refuses it.
    fn crc_fits(&self, entry: usize, image: &[u8]) -> Result<(), Failure> {
        let (before, place) = image.split_at(image.len() - CRC_SIZE);
        if image.len() > STAGING_LIMIT as usize || is_free(place) || *place == crc16(before).to_be_bytes() {
            return Ok(());
        }
        let words = format!("has a wrong CRC, 0x{:02X}{:02X}, in its last two bytes: the stamp goes only into free bytes", place[0], place[1]);
        Err(self.refused(entry, &words))
    }

    /// Puts the label into an image that has room for it, and the CRC of all before it at its end.
    fn put(&self, entry: usize, image: &mut [u8]) -> Result<(), Failure> {
        image[..=ID_AT].copy_from_slice(&self.label());
        self.crc_fits(entry, image)?;
        let (before, place) = image.split_at_mut(image.len() - CRC_SIZE);
        place.copy_from_slice(&crc16(before).to_be_bytes());
        Ok(())
    }
}
