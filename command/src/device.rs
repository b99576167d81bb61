//! The simulated device of `cfu update`: its record and its staging memory.
use cfu_updater::bundle_cut::ERASED;
use cfu_updater::c_device::{cfu_device_reset, cfu_device_set_up, cfu_device_version_reply};
use cfu_updater::c_device_packet::{cfu_device_content, cfu_device_offer};
use cfu_updater::c_read::cfu_read_version_reply;
use cfu_updater::c_types::numbers::SERVED;
use cfu_updater::c_version::{COMPONENTS_SIZE, ID_AT, RUNNING_SIZE};
use cfu_updater::device_bytes::{COMPONENTS_START, DEVICE_SIZE, LIST_SIZE};
use cfu_updater::device_component_bytes::{component_in, COMPONENT_SIZE, LISTED_SIZE};
use cfu_updater::wire::codes::{LONG_SIZE, SHORT_SIZE};
use cfu_updater::wire::version::Version;

use crate::output::Output;
use crate::shown;

/// A component as the device is set up with it.
#[derive(Clone, Copy)]
pub struct Listed {
    pub id: u8,
    pub running: Version,
    /// Its region of the staging memory.
    pub base: u32,
    pub length: u32,
    /// The lowest version that it takes, by major and minor; 0.0.0 is none.
    pub floor: Version,
}

/// What a call refused by a row answers: the row's number, as include/cfu.h has it.
pub type Refused = u32;

/// Nothing, or the row that refused a call.
fn served(number: u32) -> Result<(), Refused> {
    if number == SERVED {
        Ok(())
    } else {
        Err(number)
    }
}

/// The device: its record, and its staging memory, which starts erased.
pub struct Device {
    record: [u8; DEVICE_SIZE],
    staging: Vec<u8>,
}

impl Device {
    /// Sets a device up, or gives the row that refuses it.
    pub fn set_up(platform: u16, components: &[Listed], staging: usize) -> Result<Device, Refused> {
        let mut list = [0; LIST_SIZE];
        for (place, component) in list.chunks_exact_mut(LISTED_SIZE).zip(components) {
            place.copy_from_slice(&listed_bytes(component));
        }
        let mut device = Device { record: [0; DEVICE_SIZE], staging: vec![ERASED; staging] };
        served(cfu_device_set_up(&mut device.record, platform, &list, components.len() as u8, &device.staging))?;
        Ok(device)
    }

    /// Prints what runs, which the version reply tells, and the floor and what is pending, which only the device's record has.
    pub fn show(&self, out: &mut Output) -> Result<(), Refused> {
        let (mut packet, mut components) = ([0; LONG_SIZE], [0; COMPONENTS_SIZE]);
        served(cfu_device_version_reply(&self.record, &mut packet))?;
        let reply = cfu_read_version_reply(&packet, &mut components);
        served(reply.number)?;
        let own = self.record[COMPONENTS_START..].chunks_exact(COMPONENT_SIZE);
        for (running, own) in components.chunks_exact(RUNNING_SIZE).zip(own).take(reply.count.into()) {
            let own = component_in(own);
            let floor = match own.fixed.floor {
                floor if floor.release() == 0 => String::new(),
                floor => format!(", floor {}", shown::version(floor)),
            };
            let pending = own.staged.map_or_else(String::new, |version| format!(", pending {}", shown::version(version)));
            out.line(format!("  component {} runs {}{floor}{pending}", running[ID_AT], shown::version(Version::read_at(running, 0))));
        }
        Ok(())
    }

    /// Answers a packet. A device that has served this host alone since the start owes no ready-reply, so that one reply comes for each packet; where none
    /// comes, it is an empty one.
    pub fn serve(&mut self, packet: &[u8]) -> Result<Vec<u8>, Refused> {
        let mut due = [0; 2 * SHORT_SIZE]; // up to two replies
        let replies = if packet.len() == SHORT_SIZE {
            cfu_device_offer(&mut self.record, &self.staging, packet, &mut due)
        } else {
            cfu_device_content(&mut self.record, &mut self.staging, packet, &mut due)
        };
        served(replies.number)?;
        Ok(if replies.count > 0 { due[..SHORT_SIZE].to_vec() } else { Vec::new() })
    }

    /// Resets the device.
    pub fn reset(&mut self) -> Result<(), Refused> {
        served(cfu_device_reset(&mut self.record))
    }
}

/// A component of the list that set-up takes: id, running version, base and length of the region, floor.
fn listed_bytes(component: &Listed) -> Vec<u8> {
    let words = [component.running.bytes(), component.base.to_le_bytes(), component.length.to_le_bytes(), component.floor.bytes()];
    [&[component.id], words.concat().as_slice()].concat()
}
