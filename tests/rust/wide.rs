//! Numbers from outside whose sum passes 32 bits, and E13: document 01, "The bundle", "The device", "The host", rows B7, S4 and N1; document 02, A4. Written
//! from these documents. `cargo test` runs these cases with the usize of the machine; tests/rust/wide.sh runs them with a usize of 32 bits.
use cfu_updater::bundle::check;
use cfu_updater::device_component::record::{Fixed, Listed};
use cfu_updater::device_component::setup::SetupRow;
use cfu_updater::host_decide::Action;
use cfu_updater::device::setup::set_up;
use cfu_updater::host::inner::inner_step;
use cfu_updater::host::step::step;
use cfu_updater::host_bytes::{are_contents, contents_bytes, is_kept, keep, read_body, read_cursor};
use cfu_updater::host_record::fits::{body_at, in_hand, is_last};
use cfu_updater::host_record::record::{Awaited, End, Host, HostStage, Place};
use cfu_updater::image::region::{Region, StagingOffset};
use cfu_updater::bundle_layout::{BundleRefusal, BundleRow, Checked};
use cfu_updater::host_packet::action::written;
use cfu_updater::host_packet::answer::{host_after, packet_of, Sent, StepRefusal, Written};
use cfu_updater::bundle_records::walk::next_record;
use cfu_updater::bundle_records::Next;
use cfu_updater::update::run;
use cfu_updater::wire::address::RegionAddress;
use cfu_updater::wire::version::Version;
use cfu_updater::wire::words::{word16_at, word32_at};

#[allow(dead_code)] // each test uses some of it
mod layout;
use layout::*;

/// Component 1 at 1.3.0, which needs component 2 at 1.2; component 2 at 1.2.0.
const ONE: [u8; SHORT_SIZE] = [0, 0, 1, 0, 0, 3, 0, 1, 2, 2, 0, 1, 2, 0, 0x42, 0];
const TWO: [u8; SHORT_SIZE] = [0, 0, 2, 0, 0, 2, 0, 1, 0, 0, 0, 0, 2, 0, 0x42, 0];

/// An image of 64 bytes.
fn image(version: Version, id: u8) -> Vec<u8> {
    let mut m = vec![0x5A; 64];
    make_image(&mut m, version.number(), id);
    m
}

fn images() -> [Vec<u8>; 2] {
    [image(Version::new(1, 3, 0), 1), image(Version::new(1, 2, 0), 2)]
}

/// An image as records of 52 and 12 bytes.
fn body(m: &[u8]) -> Vec<u8> {
    [record_bytes(0, &m[..52]), record_bytes(52, &m[52..])].concat()
}

/// A bundle of two offers with their bodies, from byte 56 and from byte 130 on.
fn bundle(offers: [([u8; SHORT_SIZE], &[u8]); 2]) -> Vec<u8> {
    bundle_of(&offers.map(|(offer, m)| (offer, body(m))))
}

fn one_first() -> Vec<u8> {
    let [one, two] = images();
    bundle([(ONE, &one), (TWO, &two)])
}

fn region(base: u32, len: u32) -> Region {
    Region {
        base: StagingOffset::new(base),
        len,
    }
}

/// Two components, 1 at 1.2.0 and 2 at 1.1.0, with these regions.
fn listed(one: Region, two: Region) -> [Listed; COMPONENT_LIMIT] {
    let component = |id, minor, region| Listed {
        fixed: Fixed { id, region, floor: Version::new(1, 0, 0) },
        running: Version::new(1, minor, 0),
    };
    let mut list = [component(0, 0, region(0, 0)); COMPONENT_LIMIT];
    list[0] = component(1, 2, one);
    list[1] = component(2, 1, two);
    list
}

/// A host of token 5 that awaits the reply to this block, and has passed over none.
fn sending(entry: u32, block: u32) -> Host {
    let mut h = Host::fresh(5);
    let place = Place { entry, block };
    h.stage = HostStage::Sending(Awaited { place, passed: false });
    h
}

/// E12's contents, with entry 0 at another place and with other records.
fn moved(offset: u32, length: u32, records: u32) -> Checked {
    let mut c = check(&one_first()).unwrap();
    c.table[0].offset = offset;
    c.table[0].length = length;
    c.table[0].records = records;
    c
}

/// What an action sends over the body of an entry, and the packet, which held other bytes before.
fn laid(b: &[u8], c: Checked, entry: u32, cursor: usize, action: Action) -> (Option<Written>, [u8; LONG_SIZE]) {
    let mut packet = [0x5A; LONG_SIZE];
    (written(&mut packet, b, body_at(c.table, entry), cursor, action, 5), packet)
}

/// The bundle lacks what is to be sent, which is N1: nothing is sent, and the packet is zero.
#[track_caller]
fn lacks(written: (Option<Written>, [u8; LONG_SIZE])) {
    assert_eq!(written, (None, [0; LONG_SIZE]));
}

/// E13: 13 packets in 2 passes where component 1 comes first, 9 in 1 where it comes second. Both images are staged.
fn e13_in_both_orders() {
    let [one, two] = images();
    let orders = [(bundle([(ONE, &one), (TWO, &two)]), 13, 2), (bundle([(TWO, &two), (ONE, &one)]), 9, 1)];
    for (b, packets, passes) in orders {
        let mut staging = vec![0x11; 128];
        let s = set_up(0x42, listed(region(0, 64), region(64, 64)), 2, &staging).unwrap();
        let a = run(&b, 5, s, &mut staging).unwrap();
        assert_eq!(a.report.progress, Some(End::Done));
        assert_eq!((a.report.packets, a.report.passes), (packets, passes));
        assert_eq!((a.report.completed, a.report.mask), (2, 3));
        assert_eq!(staging, [&one[..], &two].concat());
    }
}

/// A region whose end passes 32 bits lies in no buffer, S4 refuses it, and neither erase nor write touches a byte.
fn regions_past_32_bits() {
    for (base, len) in [(0xFFFFFFFF, 0xFFFFFFFF), (0xFFFFFFC0, 64), (0xFFFFFFC0, 128), (64, 0xFFFFFFC0), (64, 0xFFFFFFFF)] {
        let r = region(base, len);
        let mut staging = [0x11; 128];
        assert!(!r.is_inside(128), "{base} {len}");
        r.erase(&mut staging);
        r.write(RegionAddress::new(0), &mut staging, &[0x22; 8]);
        assert_eq!(staging, [0x11; 128], "{base} {len}");
        for list in [listed(region(0, 64), r), listed(r, region(0, 64))] {
            assert_eq!(set_up(0x42, list, 2, &staging), Err(SetupRow::S4), "{base} {len}");
        }
    }
}

/// B7 where a body's end passes 32 bits: at the next entry, also where that starts at what is left of the end in 32 bits and ends with the file; at
/// the last entry, where none follows.
fn bodies_past_32_bits() {
    let b7 = Err(BundleRefusal { row: BundleRow::B7, place: 2 });
    for next in [0u32, 55, 56, 130] {
        let mut b = one_first();
        put(&mut b, entry_start(0) + entry_at::LENGTH, &0xFFFFFFFFu32.to_le_bytes());
        put(&mut b, entry_start(1) + entry_at::OFFSET, &next.to_le_bytes());
        put(&mut b, entry_start(1) + entry_at::LENGTH, &(204 - next).to_le_bytes());
        assert_eq!(check(&b), b7, "{next}");
    }
    let mut b = one_first();
    put(&mut b, entry_start(1) + entry_at::LENGTH, &0xFFFFFFFFu32.to_le_bytes());
    assert_eq!(check(&b), b7);
}

/// N1 for block 0xFFFFFFFF, over the bundle and over contents with as many records; and it is not the last block of a body of none.
fn blocks_past_32_bits() {
    let b = one_first();
    let h = sending(0, 0xFFFFFFFF);
    // Nothing is sent, and the record is unchanged.
    let a = step(h, &b, &[0; SHORT_SIZE]);
    assert_eq!((a, packet_of(h, a), host_after(h, a)), (Err(StepRefusal::N1), [0; LONG_SIZE], h));
    for records in [0, 2, 0xFFFFFFFF] {
        let c = moved(56, 74, records);
        let mut packet = [0x5A; LONG_SIZE];
        let hand = body_at(c.table, in_hand(h.stage));
        let a = inner_step(&mut packet, Ok(c.count), hand, 113, h, &b, &[0; SHORT_SIZE]);
        assert_eq!((a, packet), (Err(StepRefusal::N1), [0; LONG_SIZE]));
        let place = Place {
            entry: 0,
            block: 0xFFFFFFFF,
        };
        assert!(!is_last(records, place), "{records}");
    }
}

/// A4: block 0 has none before it, so that sequence 65,535 is foreign there; the reply to block 0 is passed over once where block 1 is awaited.
fn replies_before_block_0() {
    let b = one_first();
    let mut reply = [0; SHORT_SIZE];
    put(&mut reply, content_reply_at::SEQUENCE, &0xFFFFu16.to_le_bytes());
    let a = step(sending(0, 0), &b, &reply).unwrap();
    assert_eq!((a.sent, a.host.stage), (Sent::Nothing, HostStage::Ended(End::Foreign)));
    let h = sending(0, 1);
    let a = step(h, &b, &[0; SHORT_SIZE]).unwrap();
    let place = Place { entry: 0, block: 1 };
    let passed = Host {
        stage: HostStage::Sending(Awaited { place, passed: true }),
        ..h
    };
    assert_eq!((a.sent, a.host), (Sent::Nothing, passed));
    assert_eq!(passed.report().progress, None);
    let a = step(passed, &b, &[0; SHORT_SIZE]).unwrap();
    assert_eq!((a.sent, a.host.stage), (Sent::Nothing, HostStage::Ended(End::Foreign)));
}

/// N1 for an offer whose place in the table passes 32 bits.
fn offers_past_32_bits() {
    let b = one_first();
    let c = check(&b).unwrap();
    for entry in [2, 0x0AAAAAAA, 0x0AAAAAAB, 0x15555555, 0xFFFFFFFE, 0xFFFFFFFF] {
        let a = laid(&b, c, entry, 9, Action::Offer(entry));
        if entry == 2 {
            // The table ends, but the bytes go on.
            let sent = Sent::Offer;
            assert_eq!(a.0, Some(Written { sent, cursor: 9 }));
        } else {
            lacks(a);
        }
    }
}

/// N1 for a block of a body whose end passes 32 bits, also where what is left of that end in 32 bits is the end of a body.
fn ends_past_32_bits() {
    let b = one_first();
    let block = Action::Block(Place { entry: 0, block: 1 });
    let (a, _) = laid(&b, moved(56, 74, 2), 0, 113, block);
    let sent = Sent::Content;
    assert_eq!(a, Some(Written { sent, cursor: 130 }));
    for (offset, length) in [(0xFFFFFFFF, 131), (131, 0xFFFFFFFF), (0xFFFFFFFF, 0xFFFFFFFF)] {
        lacks(laid(&b, moved(offset, length, 2), 0, 113, block));
    }
    for end in [1 << 32, (1 << 32) + 130, u64::MAX] {
        assert_eq!(next_record(&b, 113, end), Next::Bad, "{end}");
        assert_eq!(next_record(&b, usize::MAX, end), Next::Bad, "{end}");
    }
}

/// A cursor that was stored comes back, and words past the bytes are zero.
fn numbers_in_bytes() {
    let c = moved(0xFFFFFFFF, 0xFFFFFFFF, 0xFFFFFFFF);
    for cursor in [0, 130, 65536, 0xFFFFFFFF] {
        let mut q = contents_bytes(Ok(c));
        let stage = sending(0, 0xFFFFFFFE).stage;
        assert!(are_contents(&q) && !is_kept(&q, stage) && read_cursor(&q) == 0);
        keep(&mut q, stage, cursor);
        assert!(is_kept(&q, stage) && !is_kept(&q, sending(0, 0xFFFFFFFF).stage));
        assert_eq!(read_cursor(&q), cursor);
        let body = read_body(&q, 0);
        assert_eq!((body.start, body.end, body.records), (0xFFFFFFFF, 0x1_FFFF_FFFE, 0xFFFFFFFF));
    }
    assert_eq!((word16_at(&[1, 2], 1), word16_at(&[1, 2], 0xFFFF)), (2, 0));
    assert_eq!((word32_at(&[1, 2, 3, 4], 2), word32_at(&[1, 2, 3, 4], 0xFFFF)), (0x0403, 0));
}

pub const CASES: [(&str, fn()); 8] = [
    ("E13 in both orders", e13_in_both_orders),
    ("regions past 32 bits", regions_past_32_bits),
    ("bodies past 32 bits", bodies_past_32_bits),
    ("blocks past 32 bits", blocks_past_32_bits),
    ("replies before block 0", replies_before_block_0),
    ("offers past 32 bits", offers_past_32_bits),
    ("ends past 32 bits", ends_past_32_bits),
    ("numbers in bytes", numbers_in_bytes),
];

#[test]
fn sums_past_32_bits() {
    for (name, case) in CASES {
        println!("{name}");
        case();
    }
}
