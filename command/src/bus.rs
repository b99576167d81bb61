//! The simulated bus of `cfu update`: it takes packets to the device and replies to the host, and delivers blocks twice where that is asked for.
use std::collections::VecDeque;

use cfu_updater::wire::codes::{FLAG_FIRST_BLOCK, FLAG_LAST_BLOCK, LONG_SIZE};

use crate::device::{Device, Refused};

/// The bus, and the device at its end.
pub struct Bus<'a> {
    device: &'a mut Device,
    /// Blocks that are neither first nor last are delivered twice, as some hubs do.
    twice: bool,
    /// The replies on their way to the host, the oldest first.
    replies: VecDeque<Vec<u8>>,
}

impl Bus<'_> {
    /// A bus to a device, with nothing on its way.
    pub fn new(device: &mut Device, twice: bool) -> Bus<'_> {
        Bus { device, twice, replies: VecDeque::new() }
    }

    /// The packet is one that is delivered twice.
    pub fn doubles(&self, packet: &[u8]) -> bool {
        self.twice && packet.len() == LONG_SIZE && packet[0] & (FLAG_FIRST_BLOCK | FLAG_LAST_BLOCK) == 0
    }

    /// Takes a packet to the device; each reply to it is then on its way.
    pub fn deliver(&mut self, packet: &[u8]) -> Result<(), Refused> {
        let times = if self.doubles(packet) { 2 } else { 1 };
        for _ in 0..times {
            let reply = self.device.serve(packet)?;
            self.replies.push_back(reply);
        }
        Ok(())
    }

    /// Takes the next reply to the host; where none comes, an empty one lets the host end by H2.
    pub fn bring(&mut self) -> Vec<u8> {
        self.replies.pop_front().unwrap_or_default()
    }
}
