//! The lines of Rust in README.md, against the bench device of document 01: E13's update completes both offers, a second one none, and a cut bundle is refused
//! by its row; and the same update in bodies of three blocks, over a bus that delivers the middle ones twice, completes both with the same count of packets.
include!("update.rs");

use std::collections::VecDeque;

use cfu_updater::c_access::{cfu_device_component, cfu_list_put};
use cfu_updater::c_device::cfu_device_set_up;
use cfu_updater::c_device_packet::{cfu_device_content, cfu_device_offer};
use cfu_updater::c_types::types::{CListed, CVersion};
use cfu_updater::c_writer::cfu_bundle_write;
use cfu_updater::device_bytes::{DEVICE_SIZE, LIST_SIZE};
use cfu_updater::wire::codes::{FLAG_FIRST_BLOCK, FLAG_LAST_BLOCK, SHORT_SIZE};
use cfu_updater::words::{name, Kind};

const REGION: u32 = 64;

/// The bench device behind a bus, and the replies on their way to the host.
struct Bench {
    device: [u8; DEVICE_SIZE],
    staging: [u8; 2 * REGION as usize],
    coming: VecDeque<Vec<u8>>,
    /// Blocks that are neither first nor last are delivered twice.
    doubles: bool,
    packets: u32,
    copies: u32,
    waits: u32,
}

impl Bench {
    fn new(doubles: bool) -> Bench {
        let mut bench = Bench { device: [0; DEVICE_SIZE], staging: [0x77; 2 * REGION as usize], coming: VecDeque::new(), doubles, packets: 0, copies: 0, waits: 0 };
        let mut list = [0; LIST_SIZE];
        for (place, minor) in [(0, 2), (1, 1)] {
            let (running, floor) = (CVersion { major: 1, minor, variant: 0 }, CVersion { major: 0, minor: 0, variant: 0 });
            cfu_list_put(&mut list, place, CListed { id: place as u8 + 1, running, base: REGION * place, length: REGION, floor });
        }
        assert_eq!(cfu_device_set_up(&mut bench.device, 0x0042, &list, 2, &bench.staging), 0);
        bench
    }

    fn deliver(&mut self, packet: &[u8]) {
        let mut replies = [0; 2 * SHORT_SIZE];
        let answer = if packet.len() == SHORT_SIZE {
            cfu_device_offer(&mut self.device, &self.staging, packet, &mut replies)
        } else {
            cfu_device_content(&mut self.device, &mut self.staging, packet, &mut replies)
        };
        assert_eq!((answer.number, answer.count), (0, 1));
        self.coming.push_back(replies[..SHORT_SIZE].to_vec());
    }

    fn send(&mut self, packet: &[u8]) -> Vec<u8> {
        if packet.is_empty() {
            self.waits += 1;
        } else {
            self.packets += 1;
            self.deliver(packet);
            if self.doubles && packet.len() == LONG_SIZE && packet[0] & (FLAG_FIRST_BLOCK | FLAG_LAST_BLOCK) == 0 {
                self.copies += 1;
                self.deliver(packet);
            }
        }
        self.coming.pop_front().expect("a reply")
    }

    /// The versions that are staged, as their minor numbers.
    fn staged(&self) -> [u16; 2] {
        [0, 1].map(|place| cfu_device_component(&self.device, place).staged.minor)
    }
}

/// A bundle of the same offers whose bodies the writer cuts, into 52, 10 and 2 bytes.
fn threes(bundle: &[u8], images: &[u8]) -> Vec<u8> {
    let (mut list, mut out) = (Vec::new(), vec![0; 1024]);
    for place in 0..2 {
        list.extend_from_slice(&bundle[8 + 24 * place..][..SHORT_SIZE]);
        list.extend_from_slice(&(REGION * place as u32).to_le_bytes());
        list.extend_from_slice(&REGION.to_le_bytes());
    }
    let written = cfu_bundle_write(&list, images, &mut out);
    assert_eq!(written.number, 0);
    out.truncate(written.length as usize);
    out
}

fn main() {
    let bundle = std::fs::read(std::env::args().nth(1).expect("usage: rust BUNDLE")).expect("a bundle");
    let mut bench = Bench::new(false);
    assert_eq!(update(&bundle, 0xA5, |packet| bench.send(packet)), Ok(0));
    assert_eq!(bench.staged(), [3, 2]);
    assert_eq!(update(&bundle, 0xA5, |packet| bench.send(packet)), Ok(2));
    assert_eq!((bench.packets, bench.waits), (13 + 5, 0));
    // E13's 13 packets and one block more in each body: 15, whether the two middle blocks come once or twice.
    let threes = threes(&bundle, &bench.staging);
    for (doubles, copies) in [(false, 0), (true, 2)] {
        let mut other = Bench::new(doubles);
        assert_eq!(update(&threes, 0xA5, |packet| other.send(packet)), Ok(0));
        assert_eq!((other.packets, other.copies, other.waits, other.coming.len()), (15, copies, copies, 0));
        assert_eq!((other.staged(), other.staging), ([3, 2], bench.staging));
        println!("Rust: 0 offers left, packets 15, copies {copies}, replies passed over {copies}: as expected");
    }
    let refused = update(&bundle[..bundle.len() - 1], 0xA5, |_| panic!("a packet is sent"));
    assert_eq!(refused.map_err(|row| name(Kind::Call, row)), Err("B7"));
    println!("Rust: 0 offers left, packets {}: as expected", bench.packets);
}
