//! Bench examples of document 01, cases of A1, A4 and A5, and a few searches
//! around them.

use crate::bundle::{check, lines, Fault};
use crate::device::*;
use crate::host::{End, Host, Packet, Stage as HostStage};
use crate::packets::*;
use crate::refusal::Refusal;
use crate::run::{run, run_doubled, run_where, Run};
use crate::version::Version;

// -------------------------------------------------------------- helpers

/// Platform 0x0042; id 1 at 0x01000200, region 0-63; id 2 at 0x01000100,
/// region 64-127.
fn bench() -> Device {
    let mut list = [Listed::default(); MOST];
    list[0] = listed(1, 0x0100_0200, 0, 64);
    list[1] = listed(2, 0x0100_0100, 64, 64);
    let made = set_up(0x0042, &list, 2, &[0; 128]);
    assert_eq!(made.refused, None);
    made.value
}

fn listed(id: u8, running: u32, base: u32, length: u32) -> Listed {
    Listed {
        id,
        running: Version(running),
        region: Region { base: StagingOffset(base), length },
        floor: Version(0),
    }
}

/// E2's offer with perhaps other bytes.
fn offer_with(changes: &[(usize, &[u8])]) -> [u8; SHORT] {
    let mut packet =
        [0, 0, 1, 0xA5, 0, 3, 0, 1, 0, 0, 0, 0, 2, 0, 0x42, 0];
    for (at, bytes) in changes {
        packet[*at..*at + bytes.len()].copy_from_slice(bytes);
    }
    packet
}

/// Reply bytes with these places set.
fn bytes(places: &[(usize, u8)]) -> Answer {
    let mut reply = [0u8; SHORT];
    for (at, byte) in places {
        reply[*at] = *byte;
    }
    Answer::Reply(reply)
}

fn offered() -> Device {
    let (device, answer) = bench().offer(&[0; 128], &offer_with(&[]));
    assert_eq!(answer, bytes(&[(3, 0xA5), (12, 1)]));
    device
}

fn block(flags: u8, length: u8, sequence: u16, address: u32) -> [u8; LONG] {
    let mut packet = [0u8; LONG];
    packet[0] = flags;
    packet[1] = length;
    packet[2..4].copy_from_slice(&sequence.to_le_bytes());
    packet[4..8].copy_from_slice(&address.to_le_bytes());
    packet[8..].fill(0x5C);
    packet
}

fn image(id: u8, version: Version, length: usize) -> Vec<u8> {
    let mut out: Vec<u8> = (0..length - 2).map(|i| (37 * i + 11) as u8).collect();
    out[0..4].copy_from_slice(&version.to_bytes());
    out[4] = id;
    let crc = crate::crc::crc(&out);
    out.extend(crc.to_be_bytes());
    out
}

/// A body of records of at most `most` bytes.
fn body(image: &[u8], most: usize) -> Vec<u8> {
    let mut out = Vec::new();
    for (number, piece) in image.chunks(most).enumerate() {
        out.extend(((number * most) as u32).to_le_bytes());
        out.push(piece.len() as u8);
        out.extend(piece);
    }
    out
}

fn bundle_of(offers: &[(Offer, Vec<u8>)]) -> Vec<u8> {
    let mut out = vec![offers.len() as u8, 1, 0, 0, 0, 0, 0, 0];
    let mut at = (8 + 24 * offers.len()) as u32;
    for (offer, body) in offers {
        out.extend(build_offer(offer).value);
        out.extend(at.to_le_bytes());
        out.extend((body.len() as u32).to_le_bytes());
        at += body.len() as u32;
    }
    for (_, body) in offers {
        out.extend(body);
    }
    out
}

fn plain_offer(id: u8, version: Version, need: (u8, u32)) -> Offer {
    Offer {
        id,
        version,
        need_id: need.0,
        need_least: need.1,
        protocol: 2,
        platform: 0x0042,
        ..Offer::default()
    }
}

/// E12's two offers: component 1 needs component 2's new version.
fn e12() -> [(Offer, Vec<u8>); 2] {
    let one = Version::from_parts(1, 3, 0);
    let two = Version::from_parts(1, 2, 0);
    [
        (plain_offer(1, one, (2, two.major_minor())), body(&image(1, one, 64), 52)),
        (plain_offer(2, two, (0, 0)), body(&image(2, two, 64), 52)),
    ]
}

// ------------------------------------------------------------ E1 to E10

#[test]
fn e1_version_reply() {
    let mut expected = [0u8; LONG];
    expected[..20].copy_from_slice(&[
        0x02, 0, 0, 0x02, 0, 0x02, 0, 0x01, 0, 0x01, 0x42, 0, 0, 0x01, 0, 0x01, 0, 0x02, 0x42, 0,
    ]);
    let reply = bench().version_reply();
    assert_eq!(reply.refused, None);
    assert_eq!(reply.value, expected);
}

#[test]
fn e2_to_e6_offers() {
    let cases: [(&[(usize, &[u8])], Answer); 6] = [
        (&[], bytes(&[(3, 0xA5), (12, 1)])),
        (&[(4, &[0, 2, 0, 1])], bytes(&[(3, 0xA5), (12, 2)])),
        (&[(12, &[1])], bytes(&[(3, 0xA5), (8, 0xE0), (12, 2)])),
        (&[(4, &[0, 2, 0, 1]), (12, &[1])], bytes(&[(3, 0xA5), (8, 0xE0), (12, 2)])),
        (&[(8, &[2, 2, 0, 1])], bytes(&[(3, 0xA5)])),
        (&[(8, &[2, 1, 0, 1])], bytes(&[(3, 0xA5), (12, 1)])),
    ];
    for (changes, expected) in cases {
        let (_, answer) = bench().offer(&[0; 128], &offer_with(changes));
        assert_eq!(answer, expected);
    }
}

#[test]
fn e7_content_when_idle() {
    let (next, answer) = bench().content(&mut [0; 128], &block(FIRST, 4, 0x1234, 0));
    assert_eq!(next, bench());
    assert_eq!(answer, bytes(&[(0, 0x34), (1, 0x12), (4, 0x0A)]));
}

#[test]
fn e8_to_e10_content() {
    let cases = [(52, 12, 0), (52, 13, 0x09), (1, 0xFFFF_FFFF, 0x09), (53, 0, 0x0B)];
    for (length, address, status) in cases {
        let mut staging = [0xA5; 128];
        let (next, answer) = offered().content(&mut staging, &block(FIRST, length, 0, address));
        assert_eq!(answer, bytes(&[(4, status)]));
        if status == 0 {
            assert!(matches!(next.stage, Stage::Receiving(open) if open.next == 1));
            assert_eq!(staging[..12], [0xFF; 12]);
            assert_eq!(staging[12..64], [0x5C; 52]);
            assert_eq!(staging[64..], [0xA5; 64]);
        } else {
            assert_eq!(next, offered());
            assert_eq!(staging, [0xA5; 128]);
        }
    }
}

// ----------------------------------------------------------- E12 to E14

#[test]
fn e12_bundle() {
    let bundle = bundle_of(&e12());
    assert_eq!(bundle.len(), 204);
    let read = check(&bundle).unwrap();
    assert_eq!(read.entries[0].offset, 56);
    assert_eq!(read.entries[1].offset, 130);
    for entry in &read.entries {
        let lengths: Vec<usize> = entry.records.iter().map(|r| r.data.len()).collect();
        assert_eq!(lengths, [52, 12]);
    }
}

/// What was sent and answered, in words.
fn told(run: &Run) -> Vec<String> {
    run.trace
        .iter()
        .map(|exchange| match (exchange.packet, exchange.answer) {
            (Packet::ForOffer(sent), Answer::Reply(reply)) if sent[2] == 0xFF => {
                format!("code {} {}", sent[0], reply[12])
            }
            (Packet::ForOffer(sent), Answer::Reply(reply)) => {
                format!("offer {} {} {}", sent[2], reply[12], reply[8])
            }
            (Packet::ForContent(sent), Answer::Reply(reply)) => {
                format!("content {:02x} {}", sent[0], reply[4])
            }
            _ => "?".to_string(),
        })
        .collect()
}

#[test]
fn e13_first_order() {
    let mut staging = [0x33; 128];
    let left = run(0x17, &bundle_of(&e12()), bench(), &mut staging);
    assert_eq!(
        told(&left),
        [
            "code 0 1",
            "code 1 1",
            "offer 1 0 0",
            "offer 2 1 0",
            "content 80 0",
            "content 40 0",
            "code 2 1",
            "code 1 1",
            "offer 1 1 0",
            "content 80 0",
            "content 40 0",
            "offer 2 2 2",
            "code 2 1",
        ]
    );
    let report = left.report();
    assert_eq!((report.packets, report.passes, report.completed), (13, 2, 2));
    assert_eq!(report.end, Some(End::Done));
    assert_eq!(staging[..64], image(1, Version(0x0100_0300), 64));
    assert_eq!(staging[64..], image(2, Version(0x0100_0200), 64));
}

#[test]
fn e13_other_order() {
    let [one, two] = e12();
    let mut staging = [0x33; 128];
    let left = run(0x17, &bundle_of(&[two, one]), bench(), &mut staging);
    let report = left.report();
    assert_eq!((report.packets, report.passes, report.completed), (9, 1, 2));
    assert_eq!(report.end, Some(End::Done));
}

#[test]
fn e14_lines() {
    let mut bundle = bundle_of(&e12());
    assert_eq!(lines(&bundle), "offers 2\n1 1.3.0 records 2\n2 1.2.0 records 2\n");
    bundle[8 + 16] += 1;
    assert_eq!(lines(&bundle), "refused B7 1\n");
}

// -------------------------------------------------------------------- A1

/// The bench where component 1 runs this version.
fn bench_at(running: u32) -> Device {
    let mut device = bench();
    device.components[0].running = Version(running);
    device
}

/// A session open on component 1.
fn open(device: Device) -> Device {
    Device { stage: Stage::Offered(Offered { slot: 0, token: 0xA5 }), ..device }
}

/// REJECT with this reason.
fn rejected(reason: u8) -> Answer {
    bytes(&[(3, 0xA5), (8, reason), (12, 2)])
}

/// E2's offer at this version, perhaps with other bytes.
fn offer_of(version: u32, changes: &[(usize, &[u8])]) -> [u8; SHORT] {
    let mut packet = offer_with(changes);
    packet[4..8].copy_from_slice(&version.to_le_bytes());
    packet
}

/// Running, offered, and the reason; nothing for ACCEPT.
const A1_OFFERS: [(u32, u32, Option<u8>); 31] = [
    // The customer's case: from 1.2.0 to a debug build of one number, and back.
    (0x0100_0200, 0x0100_0201, Some(0xE2)),
    (0x0100_0201, 0x0100_0200, Some(0xE2)),
    // Same variant: release one less, the same, one greater.
    (0x0100_0200, 0x0100_0100, Some(0)),
    (0x0100_0200, 0x0100_0200, Some(0)),
    (0x0100_0200, 0x0100_0300, None),
    (0x0100_0207, 0x0100_0107, Some(0)),
    (0x0100_0207, 0x0100_0207, Some(0)),
    (0x0100_0207, 0x0100_0307, None),
    // Other variant, older release.
    (0x0100_0200, 0x0100_0101, Some(0xE2)),
    (0x0100_0200, 0x0100_01FF, Some(0xE2)),
    (0x0100_0207, 0x0100_0106, Some(0xE2)),
    // Other variant, same release.
    (0x0100_0207, 0x0100_0206, Some(0xE2)),
    (0x0100_0207, 0x0100_0208, Some(0xE2)),
    (0x0100_0207, 0x0100_0287, Some(0xE2)),
    // Other variant, newer release.
    (0x0100_0200, 0x0100_0301, Some(0xE2)),
    (0x0100_0207, 0x0100_0300, Some(0xE2)),
    (0x0100_0200, 0x0200_0001, Some(0xE2)),
    // From minor to major: 0.65535 and 1.0, 127.65535 and 128.0.
    (0x00FF_FF00, 0x0100_0000, None),
    (0x0100_0000, 0x00FF_FF00, Some(0)),
    (0x0100_0000, 0x00FF_FFFF, Some(0xE2)),
    (0x7FFF_FF03, 0x8000_0003, None),
    (0x8000_0003, 0x7FFF_FF03, Some(0)),
    // The least and the greatest.
    (0, 0, Some(0)),
    (0, 1, Some(0xE2)),
    (0, 0xFF, Some(0xE2)),
    (0, 0x100, None),
    (0, 0x1FF, Some(0xE2)),
    (0xFFFF_FFFF, 0xFFFF_FFFF, Some(0)),
    (0xFFFF_FFFE, 0xFFFF_FFFF, Some(0xE2)),
    (0xFFFF_FEFF, 0xFFFF_FFFF, None),
    (0xFFFF_FFFF, 0xFFFF_FEFF, Some(0)),
];

/// I and V are ignored, so each case stands for all four of their values.
#[test]
fn a1_offers() {
    for (running, offered, reason) in A1_OFFERS {
        for flags in [0, 0x40, 0x80, 0xC0] {
            let device = bench_at(running);
            let (next, answer) =
                device.offer(&[0; 128], &offer_of(offered, &[(1, &[flags])]));
            let expected = match reason {
                Some(reason) => (device, rejected(reason)),
                None => (open(device), bytes(&[(3, 0xA5), (12, 1)])),
            };
            assert_eq!((next, answer), expected, "{running:08x} {offered:08x}");
        }
    }
}

/// Offers of another variant: checks 1 to 6 come before, 7 and 8 after.
#[test]
fn a1_order_of_the_checks() {
    let cases: [(&[(usize, &[u8])], u8); 9] = [
        (&[], 0xE2),
        (&[(12, &[1])], 0xE0),
        (&[(2, &[3])], 1),
        (&[(2, &[0])], 1),
        (&[(14, &[0x43])], 1),
        (&[(0, &[1])], 0xE1),
        // The need of E5, which alone is SKIP; one of an absent component; a met one.
        (&[(8, &[2, 2, 0, 1])], 0xE2),
        (&[(8, &[9, 0, 0, 0])], 0xE2),
        (&[(8, &[2, 1, 0, 1])], 0xE2),
    ];
    for offered in [0x0100_0101, 0x0100_0201, 0x0100_0301] {
        for (changes, reason) in cases {
            let (next, answer) = bench().offer(&[0; 128], &offer_of(offered, changes));
            assert_eq!((next, answer), (bench(), rejected(reason)));
        }
        // 1. session not idle.
        let (next, answer) = open(bench()).offer(&[0; 128], &offer_of(offered, &[]));
        assert_eq!((next, answer), (open(bench()), bytes(&[(3, 0xA5), (12, 3)])));
        // 6. component pending.
        let mut pending = bench();
        pending.components[0].staged = Some(Version(0x0100_0300));
        let (next, answer) = pending.offer(&[0; 128], &offer_of(offered, &[]));
        assert_eq!((next, answer), (pending, rejected(2)));
    }
    // Check 7 still comes before 8.
    let old = offer_of(0x0100_0200, &[(8, &[2, 2, 0, 1])]);
    assert_eq!(bench().offer(&[0; 128], &old).1, rejected(0));
}

/// The variant is that of the offer's own component; a need has none.
#[test]
fn a1_variant_of_its_own_component() {
    let mut device = bench();
    device.components[1].running = Version(0x0100_01FF);
    let answers: [(&[(usize, &[u8])], Answer); 7] = [
        (&[], bytes(&[(3, 0xA5), (12, 1)])),
        (&[(4, &[0xFF, 3, 0, 1])], rejected(0xE2)),
        (&[(2, &[2])], rejected(0xE2)),
        (&[(2, &[2]), (4, &[0xFF, 2, 0, 1])], bytes(&[(3, 0xA5), (12, 1)])),
        (&[(2, &[2]), (4, &[0xFF, 1, 0, 1])], rejected(0)),
        // 1.1.255 meets 1.1 and not 1.2.
        (&[(8, &[2, 1, 0, 1])], bytes(&[(3, 0xA5), (12, 1)])),
        (&[(8, &[2, 2, 0, 1])], bytes(&[(3, 0xA5)])),
    ];
    for (changes, expected) in answers {
        assert_eq!(device.offer(&[0; 128], &offer_with(changes)).1, expected);
    }
}

/// Running, another version, and whether an image of it may be taken and a
/// staged one may stand.
const A1_STAGED: [(u32, u32, bool); 25] = [
    // Same variant: release one less, the same, one greater.
    (0x0100_0200, 0x0100_0100, false),
    (0x0100_0200, 0x0100_0200, true),
    (0x0100_0200, 0x0100_0300, true),
    (0x0100_0207, 0x0100_0107, false),
    (0x0100_0207, 0x0100_0207, true),
    (0x0100_0207, 0x0100_0307, true),
    // Other variant: older, same and newer release.
    (0x0100_0200, 0x0100_0101, false),
    (0x0100_0200, 0x0100_0201, false),
    (0x0100_0200, 0x0100_0301, false),
    (0x0100_0207, 0x0100_0106, false),
    (0x0100_0207, 0x0100_0206, false),
    (0x0100_0207, 0x0100_0208, false),
    (0x0100_0207, 0x0100_0300, false),
    (0x0100_0207, 0x0200_0008, false),
    // From minor to major.
    (0x0100_0000, 0x00FF_FF00, false),
    (0x00FF_FF00, 0x0100_0000, true),
    (0x8000_0003, 0x7FFF_FF03, false),
    (0x7FFF_FF03, 0x8000_0003, true),
    // The least and the greatest.
    (0, 0, true),
    (0, 0xFF, false),
    (0, 0x100, true),
    (0, 0xFFFF_FFFF, false),
    (0xFFFF_FFFF, 0xFFFF_FFFF, true),
    (0xFFFF_FFFF, 0xFFFF_FEFF, false),
    (0xFFFF_FFFE, 0xFFFF_FFFF, false),
];

/// 64 bytes in blocks of 52 and 12 into an open session of component 1.
fn send(device: Device, staging: &mut [u8; 128], image: &[u8]) -> (Device, Answer) {
    let mut first = block(FIRST, 52, 0, 0);
    first[8..60].copy_from_slice(&image[..52]);
    let mut last = block(LAST, 12, 1, 52);
    last[8..20].copy_from_slice(&image[52..]);
    let (device, answer) = device.content(staging, &first);
    assert_eq!(answer, bytes(&[]));
    device.content(staging, &last)
}

/// Success: pending with the image's version. Failure: not pending. Either
/// way idle, and the region holds what was sent.
#[test]
fn a1_image_judgement() {
    for (running, version, taken) in A1_STAGED {
        let own = image(1, Version(version), 64);
        let mut torn = own.clone();
        torn[63] ^= 1;
        let other = image(2, Version(version), 64);
        let mut torn_other = other.clone();
        torn_other[63] ^= 1;
        let sent = [
            (own, if taken { 0 } else { 0x07 }),
            (torn, 0x05),
            (other, 0x04),
            (torn_other, 0x05),
        ];
        for (image, status) in sent {
            let mut staging = [0xA5; 128];
            let (next, answer) = send(open(bench_at(running)), &mut staging, &image);
            let mut expected = bench_at(running);
            if status == 0 {
                expected.components[0].staged = Some(Version(version));
            }
            assert_eq!(answer, bytes(&[(0, 1), (4, status)]), "{running:08x} {version:08x}");
            assert_eq!(next, expected);
            assert_eq!(staging[..64], image[..]);
            assert_eq!(staging[64..], [0xA5; 64]);
        }
    }
}

/// What every entry that can meet D1 answers to a state that breaks it.
fn meets_d1(device: Device) {
    let refused = (device, Answer::Refused(Refusal::D1, [0; SHORT]));
    let mut staging = [0xA5; 128];
    let notify = [1, 0, 0xFE, 0xA5, 0, 0, 0, 0, 0, 0, 0, 0, 0, 0, 0, 0];
    let code_0 = [0, 0, 0xFF, 0xA5, 0, 0, 0, 0, 0, 0, 0, 0, 0, 0, 0, 0];
    for report in [offer_with(&[]), offer_with(&[(2, &[2])]), code_0, notify] {
        assert_eq!(device.offer(&staging, &report), refused);
    }
    for flags in [FIRST, FIRST | LAST, LAST] {
        assert_eq!(device.content(&mut staging, &block(flags, 4, 0, 0)), refused);
    }
    // D1 comes before D2 and D3.
    assert_eq!(device.offer(&staging[..127], &[0; 15]), refused);
    assert_eq!(device.content(&mut staging[..127], &[0; 59]), refused);
    assert_eq!(staging, [0xA5; 128]);
    let reply = device.version_reply();
    assert_eq!((reply.refused, reply.value), (Some(Refusal::D1), [0; LONG]));
    let reset = device.reset();
    assert_eq!((reset.refused, reset.value), (Some(Refusal::D1), device));
}

/// What the entries answer to an idle device where component 1 is pending.
fn passes_d1(device: Device, staged: Version) {
    let mut staging = [0xA5; 128];
    assert_eq!(device.offer(&staging, &offer_with(&[])), (device, rejected(2)));
    let (next, answer) = device.content(&mut staging, &block(FIRST, 4, 0, 0));
    assert_eq!((next, answer), (device, bytes(&[(4, 0x0A)])));
    let reply = device.version_reply();
    assert_eq!(reply.refused, None);
    assert_eq!(reply.value[4..8], device.components[0].running.to_bytes());
    let reset = device.reset();
    let mut expected = bench_at(staged.0);
    expected.components[0].floor = device.components[0].floor;
    assert_eq!((reset.refused, reset.value), (None, expected));
}

#[test]
fn a1_d1_staged_and_running() {
    for (running, version, stands) in A1_STAGED {
        let staged = Some(Version(version));
        let mut device = bench_at(running);
        device.components[0].staged = staged;
        if stands {
            passes_d1(device, Version(version));
            continue;
        }
        meets_d1(device);
        // Also while another component is open and a READY is owed.
        let stage = Stage::Offered(Offered { slot: 1, token: 9 });
        meets_d1(Device { stage, owed: Some(3), ..device });
        let stage = Stage::Receiving(Receiving { slot: 1, token: 9, next: 0 });
        meets_d1(Device { stage, previous: block(0, 4, 65_535, 0), ..device });
        // Also at the last listed component, and not past it.
        let mut last = bench();
        last.components[1].running = Version(running);
        last.components[1].staged = staged;
        meets_d1(last);
        let mut past = bench();
        past.components[2].running = Version(running);
        past.components[2].staged = staged;
        assert_eq!(past.version_reply(), bench().version_reply());
    }
}

/// The customer's case in a run: the debug build is rejected and leaves
/// nothing, the next offer lands, and no pass is repeated.
#[test]
fn a1_customers_run() {
    let debug = Version(0x0100_0201);
    let two = Version(0x0100_0200);
    let bundle = bundle_of(&[
        (plain_offer(1, debug, (0, 0)), body(&image(1, debug, 64), 52)),
        (plain_offer(2, two, (0, 0)), body(&image(2, two, 64), 52)),
    ]);
    let mut staging = [0x33; 128];
    let left = run(0x17, &bundle, bench(), &mut staging);
    assert_eq!(
        told(&left),
        [
            "code 0 1",
            "code 1 1",
            "offer 1 2 226",
            "offer 2 1 0",
            "content 80 0",
            "content 40 0",
            "code 2 1",
        ]
    );
    let report = left.report();
    assert_eq!((report.packets, report.passes, report.end), (7, 1, Some(End::Done)));
    assert_eq!(left.host.mask, 2);
    let mut expected = bench();
    expected.components[1].staged = Some(two);
    assert_eq!(left.device, expected);
    assert_eq!(staging[..64], [0x33; 64]);
    assert_eq!(staging[64..], image(2, two, 64));
}

/// An offer of another variant is in no smallest set, so its version meets
/// no need, however new.
#[test]
fn a1_other_variant_meets_no_need() {
    let debug = Version(0x0100_0301);
    let two = Version(0x0100_0200);
    let bundle = bundle_of(&[
        (plain_offer(1, debug, (0, 0)), body(&image(1, debug, 64), 52)),
        (plain_offer(2, two, (1, 0x01_0003)), body(&image(2, two, 64), 52)),
    ]);
    let mut staging = [0x33; 128];
    let left = run(0x17, &bundle, bench(), &mut staging);
    assert_eq!(
        told(&left),
        ["code 0 1", "code 1 1", "offer 1 2 226", "offer 2 0 0", "code 2 1"]
    );
    let report = left.report();
    assert_eq!((report.packets, report.passes, report.end), (5, 1, Some(End::Done)));
    assert_eq!((left.host.mask, left.device, staging), (0, bench(), [0x33; 128]));
}

/// Every pair of these versions, told by their three parts.
#[test]
fn a1_searched() {
    let mut parts = Vec::new();
    for major in [0, 1, 0x80, 0xFF] {
        for minor in [0, 1, 0xFF, 0x100, 0xFFFF] {
            for variant in [0, 1, 0x80, 0xFF] {
                parts.push((major, minor, variant));
            }
        }
    }
    let version = |(major, minor, variant)| Version::from_parts(major, minor, variant);
    for before in &parts {
        for after in &parts {
            let same = before.2 == after.2;
            let newer = (after.0, after.1) > (before.0, before.1);
            let lower = (after.0, after.1) < (before.0, before.1);
            let mut device = bench_at(version(*before).0);
            let after = version(*after);
            let expected = match (same, newer) {
                (false, _) => rejected(0xE2),
                (true, false) => rejected(0),
                (true, true) => bytes(&[(3, 0xA5), (12, 1)]),
            };
            assert_eq!(device.offer(&[0; 128], &offer_of(after.0, &[])).1, expected);
            let status = if same && !lower { 0 } else { 0x07 };
            let sent = send(open(device), &mut [0; 128], &image(1, after, 64)).1;
            assert_eq!(sent, bytes(&[(0, 1), (4, status)]));
            device.components[0].staged = Some(after);
            let broken = device.version_reply().refused == Some(Refusal::D1);
            assert_eq!(broken, !same || lower);
        }
    }
}

// -------------------------------------------------------------------- A4

/// A content reply with status and sequence.
fn answered(sequence: u16, status: u8) -> Answer {
    let [low, high] = sequence.to_le_bytes();
    bytes(&[(0, low), (1, high), (4, status)])
}

/// Component 1 has taken a first block of four bytes and a middle one after
/// it, the latter at this sequence; its unused data are not zero.
fn after_middle(sequence: u16, staging: &mut [u8; 128]) -> (Device, [u8; LONG]) {
    let first = block(FIRST, 4, sequence.wrapping_sub(1), 0);
    let middle = block(0, 4, sequence, 4);
    let (device, answer) = offered().content(staging, &first);
    assert_eq!(answer, answered(sequence.wrapping_sub(1), 0));
    assert_eq!(device.previous, first);
    let (device, answer) = device.content(staging, &middle);
    assert_eq!(answer, answered(sequence, 0));
    assert_eq!(device.previous, middle);
    (device, middle)
}

/// What a packet that changes nothing is answered with.
fn only_answers(device: Device, packet: &[u8; LONG], status: u8) {
    let mut staging = [0xA5; 128];
    let sequence = u16::from_le_bytes([packet[2], packet[3]]);
    let (next, answer) = device.content(&mut staging, packet);
    assert_eq!((next, answer), (device, answered(sequence, status)), "{packet:02x?}");
    assert_eq!(staging, [0xA5; 128]);
}

/// Bench with a receiving session on component 1, as a record from outside.
fn receiving(next: u16, previous: [u8; LONG]) -> Device {
    let stage = Stage::Receiving(Receiving { slot: 0, token: 0xA5, next });
    Device { stage, previous, ..bench() }
}

/// Any number of copies is answered with 0 and written nowhere, and then the
/// block after it is taken; also from 65,535 to 0.
#[test]
fn a4_middle_block_again() {
    for sequence in [0, 1, 2, 0xFF, 0x100, 0x1234, 65_534, 65_535] {
        for copies in [1, 2, 3, 300] {
            let mut staging = [0x33; 128];
            let (device, middle) = after_middle(sequence, &mut staging);
            for _ in 0..copies {
                only_answers(device, &middle, 0);
            }
            let after = sequence.wrapping_add(1);
            let (next, answer) = device.content(&mut staging, &block(0, 4, after, 8));
            assert_eq!(answer, answered(after, 0));
            let stage =
                Stage::Receiving(Receiving { slot: 0, token: 0xA5, next: after.wrapping_add(1) });
            assert_eq!(next, Device { stage, previous: block(0, 4, after, 8), ..device });
            assert_eq!(staging[..12], [0x5C; 12]);
            assert_eq!(staging[12..64], [0xFF; 52]);
            assert_eq!(staging[64..], [0x33; 64]);
            // The one before the last is no longer the block just taken.
            only_answers(next, &middle, 0x0B);
        }
    }
}

/// Check 3 comes first: a first block sent again is 0x0B. So is a block with
/// its sequence and without the flag, whatever else is the same.
#[test]
fn a4_first_block_again() {
    for sequence in [0, 7, 65_535] {
        let first = block(FIRST, 4, sequence, 0);
        let (device, _) = offered().content(&mut [0; 128], &first);
        only_answers(device, &first, 0x0B);
        only_answers(device, &block(0, 4, sequence, 0), 0x0B);
        only_answers(device, &block(LAST, 4, sequence, 0), 0x0B);
        only_answers(device, &block(FIRST | LAST, 4, sequence, 0), 0x0B);
        // It is still the next one that is taken.
        let next = sequence.wrapping_add(1);
        let (_, answer) = device.content(&mut [0; 128], &block(0, 4, next, 0));
        assert_eq!(answer, answered(next, 0));
    }
}

/// Check 1 comes first: a last block ended the session, so its copy is 0x0A,
/// whether the image was good or not, and also where it was the first too.
#[test]
fn a4_last_block_again() {
    for torn in [0, 1] {
        let mut sent = image(1, Version(0x0100_0300), 64);
        sent[63] ^= torn;
        let (device, answer) = send(offered(), &mut [0; 128], &sent);
        assert_eq!(answer, answered(1, if torn == 0 { 0 } else { 0x05 }));
        let mut last = block(LAST, 12, 1, 52);
        last[8..20].copy_from_slice(&sent[52..]);
        only_answers(device, &last, 0x0A);
    }
    let only = block(FIRST | LAST, 4, 9, 0);
    let (device, answer) = offered().content(&mut [0; 128], &only);
    assert_eq!(answer, answered(9, 0x05));
    only_answers(device, &only, 0x0A);
}

/// A copy with one bit changed anywhere, unused data too. (At sequence 1 no
/// bit makes it 2, which is the next.)
#[test]
fn a4_changed_copy() {
    let (device, middle) = after_middle(1, &mut [0; 128]);
    for bit in 0..8 * LONG {
        let mut changed = middle;
        changed[bit / 8] ^= 1 << (bit % 8);
        only_answers(device, &changed, 0x0B);
    }
    let mut cleared = middle;
    cleared[8 + 4..].fill(0);
    only_answers(device, &cleared, 0x0B);
    only_answers(device, &middle, 0);
}

/// What else is refused or answered in between leaves the previous packet,
/// and a copy brings no owed READY.
#[test]
fn a4_previous_packet_stays() {
    let mut staging = [0x33; 128];
    let (device, middle) = after_middle(1, &mut staging);
    let notify = [1, 0, 0xFE, 0x77, 0, 0, 0, 0, 0, 0, 0, 0, 0, 0, 0, 0];
    let mut now = device;
    for report in [
        offer_with(&[]),
        offer_with(&[(0, &[1]), (2, &[0xFF])]),
        offer_with(&[(0, &[2]), (2, &[0xFF])]),
        offer_with(&[(0, &[3]), (2, &[0xFF])]),
        offer_with(&[(0, &[2]), (2, &[0xFE])]),
        notify,
        notify,
    ] {
        now = now.offer(&staging, &report).0;
        only_answers(now, &middle, 0);
    }
    assert_eq!(now, Device { owed: Some(0x77), ..device });
    // Content checks 2 to 5, and rows D2 and D3.
    let others = [
        (block(0, 0, 2, 0), 0x0B),
        (block(1, 4, 2, 0), 0x0B),
        (block(FIRST, 4, 2, 0), 0x0B),
        (block(0, 4, 3, 0), 0x0B),
        (block(0, 4, 2, 61), 0x09),
    ];
    for (packet, status) in others {
        only_answers(now, &packet, status);
        only_answers(now, &middle, 0);
    }
    for (lent, report) in [(127, &middle[..]), (128, &middle[..59])] {
        let (next, answer) = now.content(&mut staging[..lent], report);
        assert_eq!(next, now);
        assert!(matches!(answer, Answer::Refused(..)));
    }
    // The READY comes with the last block.
    let (next, answer) = now.content(&mut staging, &block(LAST, 4, 2, 8));
    assert!(matches!(answer, Answer::ReplyThenReady(..)));
    assert_eq!(next, bench());
}

/// Of all previous sequences one alone stands before the next. What else the
/// packet holds D1 does not ask.
#[test]
fn a4_d1_previous() {
    for next in [0, 1, 2, 0xFF, 0x100, 0x1234, 65_534, 65_535] {
        let before = next_to(next);
        for sequence in 0..=65_535 {
            let device = receiving(next, block(0, 4, sequence, 0));
            let broken = device.version_reply().refused == Some(Refusal::D1);
            assert_eq!(broken, sequence != before);
        }
        let off = [next, before.wrapping_sub(1), next.wrapping_add(1), before.swap_bytes() ^ 1];
        for sequence in off {
            for flags in [0, FIRST, LAST] {
                let device = receiving(next, block(flags, 4, sequence, 0));
                meets_d1(device);
                meets_d1(Device { owed: Some(3), ..device });
            }
        }
        let others =
            [(0, 4, 0), (FIRST, 4, 0), (LAST, 4, 0), (255, 4, 0), (0, 0, 0), (0, 53, 0), (0, 1, 64)];
        for (flags, length, address) in others {
            let device = receiving(next, block(flags, length, before, address));
            assert_eq!(device.version_reply().refused, None);
            assert_eq!((device.reset().refused, device.reset().value), (None, bench()));
        }
    }
    // Zeros have the sequence 0.
    assert_eq!(receiving(1, [0; LONG]).version_reply().refused, None);
    meets_d1(receiving(0, [0; LONG]));
    meets_d1(receiving(2, [0; LONG]));
}

/// The sequence just before.
fn next_to(next: u16) -> u16 {
    ((next as u32 + 65_535) % 65_536) as u16
}

/// A record from outside may hold what no session took: a copy of it is
/// judged in the order of the checks, and one with last was no middle block.
#[test]
fn a4_previous_from_outside() {
    let cases = [
        (block(0, 4, 6, 0), 0),
        (block(0, 52, 6, 12), 0),
        // 2.
        (block(0, 0, 6, 0), 0x0B),
        (block(0, 53, 6, 0), 0x0B),
        (block(0x20, 4, 6, 0), 0x0B),
        // 3 and 4.
        (block(FIRST, 4, 6, 0), 0x0B),
        (block(LAST, 4, 6, 0), 0x0B),
        (block(FIRST | LAST, 4, 6, 0), 0x0B),
        // 4 comes before 5.
        (block(0, 4, 6, 61), 0),
        (block(0, 1, 6, 0xFFFF_FFFF), 0),
    ];
    for (previous, status) in cases {
        only_answers(receiving(7, previous), &previous, status);
    }
}

/// Blank after set-up, an ACCEPT, code 0, a reset and the last block; while a
/// session does not receive, its bytes are not looked at and stay.
#[test]
fn a4_previous_blank() {
    let noise = [0xC3; LONG];
    let code = |code| offer_with(&[(0, &[code]), (2, &[0xFF])]);
    let none = [0; 128];
    assert_eq!(bench().previous, [0; LONG]);
    let idle = Device { previous: noise, ..bench() };
    let waiting = Device { previous: noise, ..offered() };
    let busy = receiving(7, block(0, 4, 6, 0));
    // An ACCEPT.
    assert_eq!(idle.offer(&none, &offer_with(&[])).0, offered());
    for device in [idle, waiting, busy] {
        // Code 0, and a reset.
        assert_eq!(device.offer(&none, &code(0)).0, bench());
        assert_eq!(device.reset().value, bench());
        // Codes 1, 2 and an unknown one, and an unknown extended one.
        for report in [code(1), code(2), code(3), offer_with(&[(0, &[9]), (2, &[0xFE])])] {
            assert_eq!(device.offer(&none, &report).0, device);
        }
        assert_eq!(device.version_reply(), bench().version_reply());
    }
    // REJECT and SKIP, content while idle, READY; BUSY, and a READY owed.
    for changes in [(12, &[1][..]), (4, &[0, 2, 0, 1]), (8, &[2, 2, 0, 1])] {
        assert_eq!(idle.offer(&none, &offer_with(&[changes])).0, idle);
    }
    only_answers(idle, &noise, 0x0A);
    only_answers(idle, &block(FIRST, 4, 0, 0), 0x0A);
    let notify = [1, 0, 0xFE, 0x77, 0, 0, 0, 0, 0, 0, 0, 0, 0, 0, 0, 0];
    assert_eq!(idle.offer(&none, &notify), (idle, bytes(&[(3, 0x77), (12, 4)])));
    assert_eq!(waiting.offer(&none, &offer_with(&[])).0, waiting);
    assert_eq!(waiting.offer(&none, &notify).0, Device { owed: Some(0x77), ..waiting });
    // An offered session takes no copy: it has taken no block.
    let held = Device { previous: block(0, 4, 6, 0), ..offered() };
    only_answers(held, &block(0, 4, 6, 0), 0x0B);
    // The last block: 0, 0x04, 0x05 and 0x07, from each session that is open.
    let mut torn = image(1, Version(0x0100_0300), 64);
    torn[63] ^= 1;
    let images = [
        (image(1, Version(0x0100_0300), 64), 0),
        (image(2, Version(0x0100_0300), 64), 0x04),
        (torn, 0x05),
        (image(1, Version(0x0100_0100), 64), 0x07),
    ];
    for (sent, status) in images {
        let (next, answer) = send(waiting, &mut [0; 128], &sent);
        assert_eq!((next.previous, answer), ([0; LONG], answered(1, status)));
    }
    let (next, answer) = waiting.content(&mut [0; 128], &block(FIRST | LAST, 4, 0, 0));
    assert_eq!((next, answer), (bench(), answered(0, 0x05)));
    // A first block is held instead of what stood there.
    let (next, _) = waiting.content(&mut [0; 128], &block(FIRST, 4, 0, 0));
    assert_eq!(next.previous, block(FIRST, 4, 0, 0));
}

/// A bundle of one offer with records of a byte each.
fn bundle_of_records(records: usize) -> Vec<u8> {
    let one = Version(0x0100_0300);
    bundle_of(&[(plain_offer(1, one, (0, 0)), body(&image(1, one, records), 1))])
}

fn sending(record: u32, passed: bool) -> Host {
    Host { packets: 9, ..at(HostStage::Sending { entry: 0, record, passed }) }
}

fn content_status(sequence: u16, status: u8) -> [u8; SHORT] {
    build_content_reply(&ContentReply { sequence, status }).value
}

/// Before a middle block and before the last: one such reply changes the flag
/// alone; then the block's own reply goes on, and a second one is H2.
#[test]
fn a4_host_passes_over_one() {
    let bundle = bundle_of_records(8);
    for record in 1..8u32 {
        let sequence = record as u16;
        let before = content_status(sequence - 1, 0);
        let mut noisy = [0xFF; SHORT];
        noisy[..2].copy_from_slice(&before[..2]);
        noisy[4] = 0;
        for reply in [before, noisy] {
            let stepped = sending(record, false).step(&bundle, &reply);
            assert_eq!((stepped.packet, stepped.refused), (None, None));
            assert_eq!(stepped.host, sending(record, true));
            // The next step is as it were without.
            let plain = sending(record, false).step(&bundle, &content_status(sequence, 0));
            let after = stepped.host.step(&bundle, &content_status(sequence, 0));
            assert_eq!(after, plain);
            assert!(after.packet.is_some());
            if record < 7 {
                assert_eq!(after.host, Host { packets: 10, ..sending(record + 1, false) });
            } else {
                assert_eq!((after.host.mask, after.host.stage), (1, HostStage::Closing));
            }
            let failed = stepped.host.step(&bundle, &content_status(sequence, 9));
            assert_eq!(failed.host.stage, HostStage::Ended(End::H1(9)));
            // A second one.
            let second = stepped.host.step(&bundle, &reply);
            assert_eq!((second.packet, second.host.stage), (None, HostStage::Ended(End::H2)));
            assert_eq!(second.host.packets, 9);
        }
    }
}

/// Not passed over: another status, sequence or length; and any while the
/// first block's reply is awaited, whatever the flag.
#[test]
fn a4_host_passes_over_no_other() {
    let bundle = bundle_of_records(8);
    let ends = |host: Host, reply: &[u8]| {
        let stepped = host.step(&bundle, reply);
        let stage = HostStage::Ended(End::H2);
        assert_eq!((stepped.host, stepped.packet), (Host { stage, ..host }, None));
    };
    for record in 1..8u32 {
        for status in 1..=255 {
            ends(sending(record, false), &content_status(record as u16 - 1, status));
        }
        for sequence in (0..=65_535).filter(|s| *s != record as u16 - 1 && *s != record as u16) {
            ends(sending(record, false), &content_status(sequence, 0));
        }
        let before = content_status(record as u16 - 1, 0);
        ends(sending(record, false), &before[..15]);
        ends(sending(record, false), &[&before[..], &[0]].concat());
        ends(sending(record, false), &[]);
    }
    for passed in [false, true] {
        for sequence in 1..=65_535 {
            ends(sending(0, passed), &content_status(sequence, 0));
        }
        let stepped = sending(0, passed).step(&bundle, &content_status(0, 0));
        assert_eq!(stepped.host, Host { packets: 10, ..sending(1, false) });
    }
}

/// N1 asks nothing of the flag and stands before it; what is passed over is
/// not counted.
#[test]
fn a4_host_and_n1() {
    let bundle = bundle_of_records(8);
    let copy = content_status(6, 0);
    for passed in [false, true] {
        let stage = HostStage::Sending { entry: 1, record: 7, passed };
        let many = Host { packets: 1 << 31, ..sending(7, passed) };
        for host in [at(stage), sending(8, passed), many] {
            let stepped = host.step(&bundle, &copy);
            assert_eq!(stepped.refused, Some(Fault { row: Refusal::N1, entry: 0 }));
            assert_eq!((stepped.host, stepped.packet), (host, None));
        }
    }
    let most = Host { packets: (1 << 31) - 1, ..sending(7, false) };
    let stepped = most.step(&bundle, &copy);
    assert_eq!(stepped.host, Host { packets: (1 << 31) - 1, ..sending(7, true) });
    let stepped = stepped.host.step(&bundle, &content_status(7, 0));
    assert_eq!((stepped.refused, stepped.host.packets), (None, 1 << 31));
}

/// No bundle of today has so many records; the step itself knows no border.
#[test]
fn a4_host_sequence_from_65_535_to_0() {
    let bytes = bundle_of_records(8);
    let mut bundle = check(&bytes).unwrap();
    let record = bundle.entries[0].records[0];
    bundle.entries[0].records = vec![record; 65_540];
    let cases = [(65_535, 65_534, 65_535), (65_536, 65_535, 0), (65_537, 0, 1), (65_538, 1, 2)];
    for (record, before, own) in cases {
        let stepped = sending(record, false).step_over(&bundle, &content_status(before, 0));
        assert_eq!((stepped.host, stepped.packet), (sending(record, true), None));
        let again = stepped.host.step_over(&bundle, &content_status(before, 0));
        assert_eq!(again.host.stage, HostStage::Ended(End::H2));
        let after = stepped.host.step_over(&bundle, &content_status(own, 0));
        assert_eq!(after.host, Host { packets: 10, ..sending(record + 1, false) });
    }
}

// Whole runs.

/// Neither first nor last.
fn is_middle(packet: &Packet) -> bool {
    matches!(packet, Packet::ForContent(sent) if sent[0] & (FIRST | LAST) == 0)
}

/// Packets and first answers of a run.
fn exchanged(run: &Run) -> Vec<(Packet, Answer)> {
    run.trace.iter().map(|exchange| (exchange.packet, exchange.answer)).collect()
}

/// E12's offers with bodies of records of at most `most` bytes.
fn e12_cut(most: usize) -> [(Offer, Vec<u8>); 2] {
    let [(one, _), (two, _)] = e12();
    [(one, body(&image(1, one.version, 64), most)), (two, body(&image(2, two.version, 64), most))]
}

/// Every middle block twice, in both orders: counts and all else as without,
/// and every copy is answered with 0.
#[test]
fn a4_run_with_every_middle_block_twice() {
    for (most, records) in [(22, 3), (16, 4), (5, 13), (1, 64)] {
        let [one, two] = e12_cut(most);
        for (offers, packets, passes) in [([one.clone(), two.clone()], 9, 2), ([two, one], 5, 1)] {
            let bundle = bundle_of(&offers);
            let mut staging = [0x33; 128];
            let left = run_where(0x17, &bundle, bench(), &mut staging, |_, sent| is_middle(sent));
            let report = left.report();
            assert_eq!((report.end, report.completed), (Some(End::Done), 2));
            assert_eq!((report.packets, report.passes), (packets + 2 * records, passes));
            let copies: Vec<Answer> = left.trace.iter().filter_map(|sent| sent.again).collect();
            assert_eq!(copies.len(), 2 * (records as usize - 2));
            for exchange in left.trace.iter().filter(|sent| sent.again.is_some()) {
                assert_eq!(exchange.again, Some(exchange.answer));
            }
            let mut plain_staging = [0x33; 128];
            let plain = run(0x17, &bundle, bench(), &mut plain_staging);
            assert_eq!((left.host, left.device), (plain.host, plain.device));
            assert_eq!((exchanged(&left), staging), (exchanged(&plain), plain_staging));
        }
    }
}

/// Each middle block alone, by its bit of the pattern.
#[test]
fn a4_run_with_one_middle_block_twice() {
    let bundle = bundle_of(&e12_cut(16));
    let mut plain_staging = [0x33; 128];
    let plain = run(0x17, &bundle, bench(), &mut plain_staging);
    let mut tried = 0;
    for number in (0..plain.trace.len()).filter(|n| is_middle(&plain.trace[*n].packet)) {
        let mut staging = [0x33; 128];
        let left = run_doubled(0x17, &bundle, bench(), &mut staging, 1 << number);
        assert_eq!((left.host, left.device), (plain.host, plain.device));
        assert_eq!((exchanged(&left), staging), (exchanged(&plain), plain_staging));
        let again: Vec<bool> = left.trace.iter().map(|sent| sent.again.is_some()).collect();
        assert_eq!(again, (0..left.trace.len()).map(|n| n == number).collect::<Vec<bool>>());
        tried += 1;
    }
    assert_eq!(tried, 4);
}

/// A first block twice: the copy's 0x0B is no reply that is passed over, and
/// the host ends with H2; the device keeps the session.
#[test]
fn a4_run_with_a_first_block_twice() {
    let [one, two] = e12_cut(16);
    let mut staging = [0x33; 128];
    let left = run_doubled(0x17, &bundle_of(&[two, one]), bench(), &mut staging, 1 << 3);
    assert_eq!(
        told(&left),
        ["code 0 1", "code 1 1", "offer 2 1 0", "content 80 0", "content 00 0"]
    );
    assert_eq!(left.trace[3].again, Some(answered(0, 0x0B)));
    let report = left.report();
    assert_eq!((report.end, report.packets, report.completed), (Some(End::H2), 5, 0));
    assert!(matches!(left.device.stage, Stage::Receiving(open) if open.next == 2));
}

/// A last block twice: its copy is 0x0A, which the host meets in place of an
/// offer reply: token 0, status 0. Another token than 0 gives H2.
#[test]
fn a4_run_with_a_last_block_twice() {
    let [one, two] = e12_cut(16);
    let bundle = bundle_of(&[two.clone(), one]);
    let left = run_doubled(0x17, &bundle, bench(), &mut [0x33; 128], 1 << 6);
    assert_eq!(left.trace[6].again, Some(answered(3, 0x0A)));
    let report = left.report();
    assert_eq!((report.end, report.packets, report.completed), (Some(End::H2), 8, 1));
    // Token 0 reads it as a SKIP, which code 2 does not await.
    let left = run_doubled(0, &bundle_of(&[two]), bench(), &mut [0x33; 128], 1 << 6);
    let report = left.report();
    assert_eq!((report.end, report.packets, report.completed), (Some(End::H3), 8, 1));
}

/// A finding, not a promise: with token 0 the copy of a last block is taken
/// for a SKIP of the next offer, and each later reply for the one before it.
/// Component 2's body then goes to component 1, whose judgement refuses it.
#[test]
fn a4_token_0_takes_a_last_blocks_copy_for_a_skip() {
    let [one, two] = e12_cut(16);
    let left = run_doubled(0, &bundle_of(&[two, one]), bench(), &mut [0x33; 128], 1 << 6);
    assert_eq!(left.report().end, Some(End::H1(0x04)));
    assert_eq!(left.device.components[0].staged, None);
    assert_eq!(left.device.components[1].staged, Some(Version(0x0100_0200)));
}

/// Demand 3 where any of the blocks that are neither first nor last come
/// twice, and the copies do not count.
#[test]
fn a4_demand_3_searched() {
    let mut dice = Dice(20_260_404);
    let mut copies = 0;
    for _ in 0..5_000 {
        let device = some_device(&mut dice);
        let mut offers = some_offers(&mut dice, &device, 4);
        let before: Vec<u8> = (0..128).map(|_| dice.below(256) as u8).collect();
        for _order in 0..2 {
            let bundle = bundle_of(&offers);
            let (token, salt) = (dice.below(256) as u8, dice.below(3) as usize);
            let twice = |number: usize, sent: &Packet| is_middle(sent) && (number + salt) % 3 < 2;
            let mut staging = before.clone();
            let left = run_where(token, &bundle, device, &mut staging, twice);
            let mut plain_staging = before.clone();
            let plain = run(token, &bundle, device, &mut plain_staging);
            assert_eq!((left.host, left.device), (plain.host, plain.device));
            assert_eq!((exchanged(&left), &staging), (exchanged(&plain), &plain_staging));
            let set = smallest(&device, &offers);
            assert_eq!((left.host.mask, left.report().end), (set, Some(End::Done)));
            assert_eq!((left.device, staging), left_by(set, &device, &before, &offers));
            copies += left.trace.iter().filter(|sent| sent.again.is_some()).count();
            offers.reverse();
        }
    }
    assert!(copies >= 10_000, "{copies}");
}

// -------------------------------------------------------------------- A5

/// The bench where component 1 runs this version and has this floor.
fn bench_with(running: u32, floor: u32) -> Device {
    let mut device = bench_at(running);
    device.components[0].floor = Version(floor);
    device
}

/// Running, floor, offered, and the reason; nothing for ACCEPT.
const A5_OFFERS: [(u32, u32, u32, Option<u8>); 48] = [
    // Floor 1.5 above running 1.2: up to running, between, one below, at it, one above.
    (0x0100_0200, 0x0100_0500, 0x0100_0100, Some(0)),
    (0x0100_0200, 0x0100_0500, 0x0100_0200, Some(0)),
    (0x0100_0200, 0x0100_0500, 0x0100_0300, Some(0)),
    (0x0100_0200, 0x0100_0500, 0x0100_0400, Some(0)),
    (0x0100_0200, 0x0100_0500, 0x0100_0500, None),
    (0x0100_0200, 0x0100_0500, 0x0100_0600, None),
    (0x0100_0200, 0x0100_0500, 0x0200_0000, None),
    // One above running, and at running.
    (0x0100_0200, 0x0100_0300, 0x0100_0200, Some(0)),
    (0x0100_0200, 0x0100_0300, 0x0100_0300, None),
    (0x0100_0200, 0x0100_0300, 0x0100_0400, None),
    (0x0100_0200, 0x0100_0200, 0x0100_0100, Some(0)),
    (0x0100_0200, 0x0100_0200, 0x0100_0200, Some(0)),
    (0x0100_0200, 0x0100_0200, 0x0100_0300, None),
    // Below running it changes nothing: a version at the floor is still old.
    (0x0100_0200, 0x0100_0100, 0x0100_0000, Some(0)),
    (0x0100_0200, 0x0100_0100, 0x0100_0100, Some(0)),
    (0x0100_0200, 0x0100_0100, 0x0100_0200, Some(0)),
    (0x0100_0200, 0x0100_0100, 0x0100_0300, None),
    (0x0100_0200, 0x0000_0100, 0x0100_0300, None),
    // The running variant is not the floor's: the release alone counts.
    (0x0100_0207, 0x0100_0500, 0x0100_0407, Some(0)),
    (0x0100_0207, 0x0100_0500, 0x0100_0507, None),
    (0x0100_0207, 0x0100_0500, 0x0100_0607, None),
    (0x0100_02FF, 0x0100_0500, 0x0100_04FF, Some(0)),
    (0x0100_02FF, 0x0100_0500, 0x0100_05FF, None),
    // Another variant: 0xE2 below the floor, at it and above it.
    (0x0100_0200, 0x0100_0500, 0x0100_0101, Some(0xE2)),
    (0x0100_0200, 0x0100_0500, 0x0100_0301, Some(0xE2)),
    (0x0100_0200, 0x0100_0500, 0x0100_04FF, Some(0xE2)),
    (0x0100_0200, 0x0100_0500, 0x0100_0501, Some(0xE2)),
    (0x0100_0200, 0x0100_0500, 0x0100_0601, Some(0xE2)),
    // Also variant 0, which is the floor's and not the running one's.
    (0x0100_0207, 0x0100_0500, 0x0100_0400, Some(0xE2)),
    (0x0100_0207, 0x0100_0500, 0x0100_0500, Some(0xE2)),
    (0x0100_0207, 0x0100_0500, 0x0100_0600, Some(0xE2)),
    // From minor to major, and from 127 to 128.
    (0x0100_0200, 0x0200_0000, 0x01FF_FF00, Some(0)),
    (0x0100_0200, 0x0200_0000, 0x0200_0000, None),
    (0x0100_0200, 0x01FF_FF00, 0x01FF_FE00, Some(0)),
    (0x0100_0200, 0x01FF_FF00, 0x01FF_FF00, None),
    (0x0100_0200, 0x01FF_FF00, 0x0200_0000, None),
    (0x0100_0203, 0x8000_0000, 0x7FFF_FF03, Some(0)),
    (0x0100_0203, 0x8000_0000, 0x8000_0003, None),
    (0x0100_0203, 0x7FFF_FF00, 0x8000_0003, None),
    // The least and the greatest.
    (0, 0, 0x100, None),
    (0, 0x100, 0x100, None),
    (0, 0x200, 0x100, Some(0)),
    (0, 0x200, 0x200, None),
    (0, 0xFFFF_FF00, 0xFFFF_FE00, Some(0)),
    (0, 0xFFFF_FF00, 0xFFFF_FF00, None),
    (0xFFFF_FDFF, 0xFFFF_FF00, 0xFFFF_FEFF, Some(0)),
    (0xFFFF_FDFF, 0xFFFF_FF00, 0xFFFF_FFFF, None),
    (0xFFFF_FFFF, 0xFFFF_FF00, 0xFFFF_FFFF, Some(0)),
];

/// I and V are ignored here too.
#[test]
fn a5_offers() {
    for (running, floor, offered, reason) in A5_OFFERS {
        for flags in [0, 0x40, 0x80, 0xC0] {
            let device = bench_with(running, floor);
            let (next, answer) =
                device.offer(&[0; 128], &offer_of(offered, &[(1, &[flags])]));
            let expected = match reason {
                Some(reason) => (device, rejected(reason)),
                None => (open(device), bytes(&[(3, 0xA5), (12, 1)])),
            };
            assert_eq!((next, answer), expected, "{running:08x} {floor:08x} {offered:08x}");
        }
    }
}

/// Offers above running and below the floor: checks 1 to 6 and A1's come
/// before, 8 after.
#[test]
fn a5_order_of_the_checks() {
    let device = bench_with(0x0100_0200, 0x0100_0500);
    let cases: [(&[(usize, &[u8])], u8); 9] = [
        (&[], 0),
        (&[(12, &[1])], 0xE0),
        (&[(2, &[3])], 1),
        (&[(14, &[0x43])], 1),
        (&[(0, &[1])], 0xE1),
        // The need of E5, which alone is SKIP; one of an absent component; a met one; its own.
        (&[(8, &[2, 2, 0, 1])], 0),
        (&[(8, &[9, 0, 0, 0])], 0),
        (&[(8, &[2, 1, 0, 1])], 0),
        (&[(8, &[1, 2, 0, 1])], 0),
    ];
    for offered in [0x0100_0300, 0x0100_0400] {
        for (changes, reason) in cases {
            let (next, answer) = device.offer(&[0; 128], &offer_of(offered, changes));
            assert_eq!((next, answer), (device, rejected(reason)));
        }
        let (next, answer) = open(device).offer(&[0; 128], &offer_of(offered, &[]));
        assert_eq!((next, answer), (open(device), bytes(&[(3, 0xA5), (12, 3)])));
        let mut pending = device;
        pending.components[0].staged = Some(Version(0x0100_0500));
        let (next, answer) = pending.offer(&[0; 128], &offer_of(offered, &[]));
        assert_eq!((next, answer), (pending, rejected(2)));
    }
    // At the floor check 8 decides.
    let skipped = offer_of(0x0100_0500, &[(8, &[2, 2, 0, 1])]);
    assert_eq!(device.offer(&[0; 128], &skipped), (device, bytes(&[(3, 0xA5)])));
    let met = offer_of(0x0100_0500, &[(8, &[2, 1, 0, 1])]);
    assert_eq!(device.offer(&[0; 128], &met).0, open(device));
}

/// The floor is that of the offer's own component, and it meets no need: this
/// is asked of the effective version.
#[test]
fn a5_floor_of_its_own_component() {
    let mut device = bench();
    device.components[1].floor = Version(0x0100_0500);
    let accepted = bytes(&[(3, 0xA5), (12, 1)]);
    let skipped = bytes(&[(3, 0xA5)]);
    let answers: [(&[(usize, &[u8])], Answer); 8] = [
        (&[], accepted),
        (&[(2, &[2])], rejected(0)),
        (&[(2, &[2]), (4, &[0, 4, 0, 1])], rejected(0)),
        (&[(2, &[2]), (4, &[0, 5, 0, 1])], accepted),
        (&[(8, &[2, 1, 0, 1])], accepted),
        (&[(8, &[2, 2, 0, 1])], skipped),
        (&[(8, &[2, 5, 0, 1])], skipped),
        // A need of itself, met by what runs.
        (&[(8, &[1, 2, 0, 1])], accepted),
    ];
    for (changes, expected) in answers {
        assert_eq!(device.offer(&[0; 128], &offer_with(changes)).1, expected);
    }
    // Pending at the floor it meets what the staged version meets.
    device.components[1].staged = Some(Version(0x0100_0500));
    let needs = [(5, accepted), (6, skipped)];
    for (minor, expected) in needs {
        let offer = offer_with(&[(8, &[2, minor, 0, 1])]);
        assert_eq!(device.offer(&[0; 128], &offer).1, expected);
    }
}

/// Running, floor, another version, and whether an image of it may be taken
/// and a staged one may stand.
const A5_STAGED: [(u32, u32, u32, bool); 39] = [
    // Floor 1.5 above running 1.2.
    (0x0100_0200, 0x0100_0500, 0x0100_0100, false),
    (0x0100_0200, 0x0100_0500, 0x0100_0200, false),
    (0x0100_0200, 0x0100_0500, 0x0100_0300, false),
    (0x0100_0200, 0x0100_0500, 0x0100_0400, false),
    (0x0100_0200, 0x0100_0500, 0x0100_0500, true),
    (0x0100_0200, 0x0100_0500, 0x0100_0600, true),
    // One above running, at running, and below it.
    (0x0100_0200, 0x0100_0300, 0x0100_0200, false),
    (0x0100_0200, 0x0100_0300, 0x0100_0300, true),
    (0x0100_0200, 0x0100_0200, 0x0100_0100, false),
    (0x0100_0200, 0x0100_0200, 0x0100_0200, true),
    (0x0100_0200, 0x0100_0200, 0x0100_0300, true),
    (0x0100_0200, 0x0100_0100, 0x0100_0000, false),
    (0x0100_0200, 0x0100_0100, 0x0100_0100, false),
    (0x0100_0200, 0x0100_0100, 0x0100_0200, true),
    // The running variant is not the floor's.
    (0x0100_0207, 0x0100_0500, 0x0100_0407, false),
    (0x0100_0207, 0x0100_0500, 0x0100_0507, true),
    (0x0100_0207, 0x0100_0500, 0x0100_0607, true),
    (0x0100_0207, 0x0100_0200, 0x0100_0207, true),
    (0x0100_02FF, 0x0100_0500, 0x0100_04FF, false),
    (0x0100_02FF, 0x0100_0500, 0x0100_05FF, true),
    // Another variant: below the floor, at it and above it.
    (0x0100_0200, 0x0100_0500, 0x0100_04FF, false),
    (0x0100_0200, 0x0100_0500, 0x0100_0501, false),
    (0x0100_0200, 0x0100_0500, 0x0100_0601, false),
    (0x0100_0207, 0x0100_0500, 0x0100_0400, false),
    (0x0100_0207, 0x0100_0500, 0x0100_0500, false),
    (0x0100_0207, 0x0100_0500, 0x0100_0600, false),
    // From minor to major, and from 127 to 128.
    (0x0100_0200, 0x0200_0000, 0x01FF_FF00, false),
    (0x0100_0200, 0x0200_0000, 0x0200_0000, true),
    (0x0100_0203, 0x8000_0000, 0x7FFF_FF03, false),
    (0x0100_0203, 0x8000_0000, 0x8000_0003, true),
    (0x0100_0203, 0x7FFF_FF00, 0x8000_0003, true),
    // The least and the greatest.
    (0, 0, 0, true),
    (0, 0x100, 0, false),
    (0, 0x100, 0x100, true),
    (0, 0xFFFF_FF00, 0xFFFF_FE00, false),
    (0, 0xFFFF_FF00, 0xFFFF_FF00, true),
    (0xFFFF_FDFF, 0xFFFF_FF00, 0xFFFF_FEFF, false),
    (0xFFFF_FDFF, 0xFFFF_FF00, 0xFFFF_FFFF, true),
    (0xFFFF_FFFF, 0xFFFF_FF00, 0xFFFF_FFFF, true),
];

/// As for A1: 0x05 and 0x04 come before 0x07, and either way the session is
/// idle and the region holds what was sent.
#[test]
fn a5_image_judgement() {
    for (running, floor, version, taken) in A5_STAGED {
        let own = image(1, Version(version), 64);
        let mut torn = own.clone();
        torn[63] ^= 1;
        let other = image(2, Version(version), 64);
        let sent = [(own, if taken { 0 } else { 0x07 }), (torn, 0x05), (other, 0x04)];
        for (image, status) in sent {
            let mut staging = [0xA5; 128];
            let (next, answer) = send(open(bench_with(running, floor)), &mut staging, &image);
            let mut expected = bench_with(running, floor);
            if status == 0 {
                expected.components[0].staged = Some(Version(version));
            }
            assert_eq!(answer, answered(1, status), "{running:08x} {floor:08x} {version:08x}");
            assert_eq!(next, expected);
            assert_eq!(staging[..64], image[..]);
            assert_eq!(staging[64..], [0xA5; 64]);
        }
    }
}

/// The image's own version counts, not the offered one; and the floor is that
/// of the component the session is open on.
#[test]
fn a5_image_under_an_offer_at_the_floor() {
    let device = bench_with(0x0100_0200, 0x0100_0500);
    let (taken, answer) = device.offer(&[0; 128], &offer_of(0x0100_0500, &[]));
    assert_eq!(answer, bytes(&[(3, 0xA5), (12, 1)]));
    for (version, status) in [(0x0100_0300, 7), (0x0100_0400, 7), (0x0100_0500, 0), (0x0100_0600, 0)] {
        let (next, answer) = send(taken, &mut [0; 128], &image(1, Version(version), 64));
        let mut expected = device;
        if status == 0 {
            expected.components[0].staged = Some(Version(version));
        }
        assert_eq!((next, answer), (expected, answered(1, status)));
    }
    let mut other = bench();
    other.components[1].floor = Version(0x0100_0500);
    let (next, answer) = send(open(other), &mut [0; 128], &image(1, Version(0x0100_0300), 64));
    assert_eq!(answer, answered(1, 0));
    assert_eq!(next.components[0].staged, Some(Version(0x0100_0300)));
    assert_eq!(next.components[1], other.components[1]);
}

/// A staged version below the floor, for every entry; one at the floor stands,
/// and a reset makes it running and keeps the floor.
#[test]
fn a5_d1_staged_and_floor() {
    for (running, floor, version, stands) in A5_STAGED {
        let staged = Some(Version(version));
        let mut device = bench_with(running, floor);
        device.components[0].staged = staged;
        if stands {
            passes_d1(device, Version(version));
            continue;
        }
        meets_d1(device);
        // Also while another component is open and a READY is owed.
        let stage = Stage::Offered(Offered { slot: 1, token: 9 });
        meets_d1(Device { stage, owed: Some(3), ..device });
        let stage = Stage::Receiving(Receiving { slot: 1, token: 9, next: 0 });
        meets_d1(Device { stage, previous: block(0, 4, 65_535, 0), ..device });
        // Also at the last listed component, and not past it.
        let mut last = bench();
        last.components[1] = Component {
            running: Version(running),
            floor: Version(floor),
            staged,
            ..last.components[1]
        };
        meets_d1(last);
        let mut past = bench();
        past.components[2] = Component { region: Region::default(), ..last.components[1] };
        assert_eq!(past.version_reply(), bench().version_reply());
        let reset = past.reset();
        assert_eq!((reset.refused, reset.value), (None, past));
    }
}

/// S5: a variant other than 0 in any listed slot, whatever the release; none
/// past the count; and S1 to S4 come first over the whole list.
#[test]
fn a5_set_up() {
    let staging = [0x33; 128];
    let refusal = |list: &[Listed; MOST], count| {
        let made = set_up(0x0042, list, count, &staging);
        match made.refused {
            None => assert_eq!(made.value.count, count),
            Some(_) => assert_eq!(made.value, Device::default()),
        }
        made.refused
    };
    let most = MOST as u8;
    let mut good = [Listed::default(); MOST];
    for slot in 0..most {
        good[slot as usize] = listed(1 + slot, 0x0100_0200, 16 * slot as u32, 16);
    }
    assert_eq!(refusal(&good, most), None);
    for variant in 1..=255 {
        for slot in 0..MOST {
            for release in [0, 0x0100_0100, 0x0100_0200, 0x0100_0500, 0xFFFF_FF00] {
                let mut list = good;
                list[slot].floor = Version(release);
                assert_eq!(refusal(&list, most), None);
                list[slot].floor = Version(release + variant);
                assert_eq!(refusal(&list, most), Some(Refusal::S5));
                // At and past the count it is not looked at.
                let expected = if slot == 0 { Some(Refusal::S2) } else { None };
                assert_eq!(refusal(&list, slot as u8), expected);
                assert_eq!(refusal(&list, slot as u8 + 1), Some(Refusal::S5));
                // The running version's variant does not allow the floor's.
                list[slot].running = Version(0x0100_0200 + variant);
                assert_eq!(refusal(&list, most), Some(Refusal::S5));
            }
        }
    }
    // The floor's fault stands before or behind the other one's slot.
    for slot in [0, 3, 6] {
        let mut list = good;
        list[slot].floor = Version(0x0100_0501);
        assert_eq!(refusal(&list, most + 1), Some(Refusal::S2));
        assert_eq!(refusal(&list, 0), Some(Refusal::S2));
        let long = vec![0; 65_537];
        assert_eq!(set_up(0x0042, &list, most, &long).refused, Some(Refusal::S1));
        for other in 0..MOST {
            let mut bad = list;
            bad[other].id = 0xE0;
            assert_eq!(refusal(&bad, most), Some(Refusal::S3));
            let mut bad = list;
            bad[other].region.length = 7;
            assert_eq!(refusal(&bad, most), Some(Refusal::S4));
            let mut bad = list;
            bad[other].region.base = StagingOffset(120);
            assert_eq!(refusal(&bad, most), Some(Refusal::S4));
            let mut bad = list;
            bad[other].region.length = 17;
            let expected = if other == 6 { Refusal::S5 } else { Refusal::S4 };
            assert_eq!(refusal(&bad, most), Some(expected));
        }
    }
}

/// Set-up hands the floor on as it was given, also above running; a component
/// past the count has none.
#[test]
fn a5_set_up_gives_the_floor() {
    for floor in [0, 0x100, 0x0100_0100, 0x0100_0200, 0x0100_0300, 0xFFFF_FF00] {
        let mut list = [Listed::default(); MOST];
        list[0] = listed(1, 0x0100_0200, 0, 64);
        list[1] = listed(2, 0x0100_0100, 64, 64);
        list[2] = Listed { floor: Version(0x0100_0501), ..listed(3, 7, 8, 8) };
        list[0].floor = Version(floor);
        let made = set_up(0x0042, &list, 2, &[0; 128]);
        assert_eq!((made.refused, made.value), (None, bench_with(0x0100_0200, floor)));
        list[0].floor = Version(0);
        list[1].floor = Version(floor);
        let made = set_up(0x0042, &list, 2, &[0; 128]).value;
        assert_eq!((made.components[0].floor, made.components[1].floor), (Version(0), Version(floor)));
    }
}

/// D1 by S5, for every entry and stage; not past the count.
#[test]
fn a5_d1_floor_with_a_variant() {
    for floor in [1, 0xFF, 0x0100_0101, 0x0100_0201, 0x0100_0280, 0x0100_0501, 0xFFFF_FFFF] {
        for slot in 0..2 {
            let mut device = bench();
            device.components[slot].floor = Version(floor);
            meets_d1(device);
            // Of the running variant, too.
            device.components[slot].running = Version(0x0100_0200 + floor % 256);
            meets_d1(device);
            for open in 0..2 {
                let stage = Stage::Offered(Offered { slot: open, token: 9 });
                meets_d1(Device { stage, owed: Some(3), ..device });
                let stage = Stage::Receiving(Receiving { slot: open, token: 9, next: 0 });
                meets_d1(Device { stage, previous: block(0, 4, 65_535, 0), ..device });
            }
            // Staged above the floor, of the running variant.
            device.components[slot].staged = Some(Version(0xFFFF_FF00 + floor % 256));
            meets_d1(device);
        }
        let mut past = bench();
        past.components[2].floor = Version(floor);
        assert_eq!(past.version_reply(), bench().version_reply());
        assert_eq!((past.reset().refused, past.reset().value), (None, past));
        let (next, answer) = past.offer(&[0; 128], &offer_with(&[]));
        assert_eq!((next, answer), (open(past), bytes(&[(3, 0xA5), (12, 1)])));
    }
}

/// What runs may stand below the floor: every entry serves it, in every stage.
#[test]
fn a5_running_below_the_floor() {
    for floor in [0x0100_0300, 0x0100_0500, 0xFFFF_FF00] {
        let device = bench_with(0x0100_0200, floor);
        assert_eq!(device.version_reply(), bench().version_reply());
        assert_eq!((device.reset().refused, device.reset().value), (None, device));
        assert_eq!(device.offer(&[0; 128], &offer_of(0x0100_0200, &[])), (device, rejected(0)));
        let code_0 = offer_with(&[(0, &[0]), (2, &[0xFF])]);
        let accepted = bytes(&[(3, 0xA5), (12, 1)]);
        assert_eq!(open(device).offer(&[0; 128], &code_0), (device, accepted));
        only_answers(device, &block(FIRST, 4, 0, 0), 0x0A);
        // A block is taken, whatever the image will be.
        let mut staging = [0x33; 128];
        let (next, answer) = open(device).content(&mut staging, &block(FIRST, 4, 6, 0));
        assert_eq!(answer, answered(6, 0));
        assert_eq!(next.components, device.components);
        assert_eq!(staging[..4], [0x5C; 4]);
        assert_eq!(next.reset().value, device);
        // The other component is updated as ever.
        let other = device.offer(&[0; 128], &offer_with(&[(2, &[2])])).0;
        assert_eq!(other.stage, Stage::Offered(Offered { slot: 1, token: 0xA5 }));
    }
}

/// Through an update to the floor and a reset: the floor stays, what stands at
/// it runs, and nothing older is taken then.
#[test]
fn a5_reset_keeps_the_floor() {
    let device = bench_with(0x0100_0207, 0x0100_0500);
    let at_floor = Version(0x0100_0507);
    let (next, _) = device.offer(&[0; 128], &offer_of(at_floor.0, &[]));
    let (next, answer) = send(next, &mut [0; 128], &image(1, at_floor, 64));
    assert_eq!(answer, answered(1, 0));
    let mut expected = device;
    expected.components[0].staged = Some(at_floor);
    assert_eq!(next, expected);
    let reset = next.reset();
    assert_eq!((reset.refused, reset.value), (None, bench_with(at_floor.0, 0x0100_0500)));
    let now = reset.value;
    for (offered, reason) in [(0x0100_0407, 0), (0x0100_0507, 0), (0x0100_0500, 0xE2)] {
        assert_eq!(now.offer(&[0; 128], &offer_of(offered, &[])), (now, rejected(reason)));
    }
    assert_eq!(now.offer(&[0; 128], &offer_of(0x0100_0607, &[])).0, open(now));
    // Nothing pending: a reset changes no floor either, nor that of the other.
    let mut two = bench_with(0x0100_0200, 0x0100_0500);
    two.components[1].floor = Version(0x0100_0100);
    assert_eq!((two.reset().refused, two.reset().value), (None, two));
    two.components[1].staged = Some(Version(0x0100_0100));
    let after = two.reset().value;
    two.components[1].staged = None;
    assert_eq!(after, two);
}

/// Every triple of these versions, told by their parts.
#[test]
fn a5_searched() {
    let releases = [(0, 0), (0, 1), (0, 0xFF), (0, 0xFFFF), (1, 0), (0x80, 0x100), (0xFF, 0xFFFF)];
    let variants = [0, 1, 0xFF];
    for before in releases {
        for floor in releases {
            for after in releases {
                for (own, other) in variants.iter().flat_map(|v| variants.map(|w| (*v, w))) {
                    let running = Version::from_parts(before.0, before.1, own);
                    let floor_version = Version::from_parts(floor.0, floor.1, 0);
                    let mut device = bench_with(running.0, floor_version.0);
                    let version = Version::from_parts(after.0, after.1, other);
                    let expected = if own != other {
                        rejected(0xE2)
                    } else if after <= before || after < floor {
                        rejected(0)
                    } else {
                        bytes(&[(3, 0xA5), (12, 1)])
                    };
                    let answer = device.offer(&[0; 128], &offer_of(version.0, &[])).1;
                    assert_eq!(answer, expected);
                    let good = own == other && after >= before && after >= floor;
                    let sent = send(open(device), &mut [0; 128], &image(1, version, 64)).1;
                    assert_eq!(sent, answered(1, if good { 0 } else { 0x07 }));
                    device.components[0].staged = Some(version);
                    let broken = device.version_reply().refused == Some(Refusal::D1);
                    assert_eq!(broken, !good);
                }
            }
        }
    }
}

// Whole runs.

/// Floors of both components.
fn bench_floors(one: u32, two: u32) -> Device {
    let mut device = bench_with(0x0100_0200, one);
    device.components[1].floor = Version(two);
    device
}

/// E13 where component 2's new version stands at its floor: as without one, in
/// both orders. One release higher, and component 2 is rejected, so that 1,
/// which needs it, is skipped; no second pass is run.
#[test]
fn a5_runs_of_e13() {
    let [one, two] = e12();
    let orders = [[one.clone(), two.clone()], [two, one]];
    for (number, offers) in orders.iter().enumerate() {
        let bundle = bundle_of(offers);
        for (one, two) in [(0x0100_0300, 0x0100_0200), (0x0100_0200, 0x0100_0100), (0, 0x0100_0200)] {
            let mut staging = [0x33; 128];
            let left = run(0x17, &bundle, bench_floors(one, two), &mut staging);
            let mut plain_staging = [0x33; 128];
            let plain = run(0x17, &bundle, bench(), &mut plain_staging);
            assert_eq!((left.host, exchanged(&left)), (plain.host, exchanged(&plain)));
            assert_eq!(staging, plain_staging);
            let mut expected = bench_floors(one, two);
            expected.components[0].staged = Some(Version(0x0100_0300));
            expected.components[1].staged = Some(Version(0x0100_0200));
            assert_eq!(left.device, expected);
        }
        // Component 2's floor is 1.3: 1.2 is newer than what runs, and too old.
        let device = bench_floors(0, 0x0100_0300);
        let mut staging = [0x33; 128];
        let left = run(0x17, &bundle, device, &mut staging);
        let offered = match number {
            0 => ["offer 1 0 0", "offer 2 2 0"],
            _ => ["offer 2 2 0", "offer 1 0 0"],
        };
        let expected = ["code 0 1", "code 1 1", offered[0], offered[1], "code 2 1"];
        assert_eq!(told(&left), expected);
        let report = left.report();
        assert_eq!((report.packets, report.passes, report.end), (5, 1, Some(End::Done)));
        assert_eq!((left.host.mask, left.device, staging), (0, device, [0x33; 128]));
        // Component 1's floor is 1.4: 2 lands alone. In the first order 1 is
        // rejected before its need is looked at: no SKIP, one pass.
        let device = bench_floors(0x0100_0400, 0);
        let mut staging = [0x33; 128];
        let left = run(0x17, &bundle, device, &mut staging);
        let report = left.report();
        assert_eq!((report.packets, report.passes, report.end), (7, 1, Some(End::Done)));
        assert_eq!(report.completed, 1);
        let mut expected = device;
        expected.components[1].staged = Some(Version(0x0100_0200));
        assert_eq!((left.device, &staging[..64]), (expected, &[0x33; 64][..]));
    }
}

/// An image below the floor in the body of an offer at the floor: H1 with
/// status 7, and nothing is pending.
#[test]
fn a5_run_with_an_old_image() {
    let floor = Version(0x0100_0500);
    for (version, status) in [(0x0100_0300, 7), (0x0100_0400, 7), (0x0100_0500, 0)] {
        let body = body(&image(1, Version(version), 64), 52);
        let bundle = bundle_of(&[(plain_offer(1, floor, (0, 0)), body)]);
        let device = bench_floors(floor.0, 0);
        let left = run(0x17, &bundle, device, &mut [0x33; 128]);
        let mut expected = device;
        let end = if status == 0 {
            expected.components[0].staged = Some(Version(version));
            End::Done
        } else {
            End::H1(status)
        };
        assert_eq!((left.report().end, left.device), (Some(end), expected));
    }
}

// --------------------------------------------------------------- packets

#[test]
fn packets_read_back() {
    let offer = Offer {
        segment: 7,
        immediate_reset: true,
        ignore_version: false,
        id: 0xFD,
        token: 9,
        version: Version(0x89AB_CDEF),
        need_id: 0xFE,
        need_least: 0x00FF_FFFF,
        protocol: 15,
        platform: 0xBEEF,
    };
    let packet = build_offer(&offer);
    assert_eq!(packet.refused, None);
    assert_eq!(packet.value[1], 0x40);
    assert_eq!(read_offer(&packet.value).value, offer);
    for bad in [
        Offer { need_least: 0x0100_0000, ..offer },
        Offer { protocol: 16, ..offer },
        Offer { id: 0xFE, ..offer },
        Offer { id: 0xFF, ..offer },
    ] {
        let answer = build_offer(&bad);
        assert_eq!((answer.refused, answer.value), (Some(Refusal::P2), [0; SHORT]));
    }
}

#[test]
fn packets_of_all_bits_read_and_built_again() {
    let read = read_offer(&[0xFD; SHORT]).value;
    let mut expected = [0xFD; SHORT];
    expected[1] = 0xC0;
    expected[12] = 0x0D;
    expected[13] = 0;
    assert_eq!(build_offer(&read).value, expected);
    let mut packet = block(0xC0, 5, 0x1234, 0x8000_0001);
    let read = read_content(&packet).value;
    packet[8 + 5..].fill(0);
    assert_eq!(build_content(&read).value, packet);
    for (flags, length) in [(0, 0), (0, 53), (1, 5), (0x20, 5)] {
        let bad = Content { flags, length, ..Content::ZERO };
        assert_eq!(build_content(&bad).refused, Some(Refusal::P2));
    }
}

#[test]
fn packets_of_another_length() {
    for length in [0usize, 15, 17, 59, 61] {
        let packet = vec![0xFFu8; length];
        assert_eq!(read_offer(&packet).refused, Some(Refusal::P1));
        assert_eq!(read_offer(&packet).value, Offer::default());
        assert_eq!(read_information(&packet).refused, Some(Refusal::P1));
        assert_eq!(read_extended(&packet).refused, Some(Refusal::P1));
        assert_eq!(read_offer_reply(&packet).refused, Some(Refusal::P1));
        assert_eq!(read_content_reply(&packet).refused, Some(Refusal::P1));
        assert_eq!(read_content(&packet).refused, Some(Refusal::P1));
        assert_eq!(read_content(&packet).value, Content::ZERO);
        assert_eq!(read_version_reply(&packet).refused, Some(Refusal::P1));
    }
}

#[test]
fn version_reply_either_way() {
    let built = bench().version_reply().value;
    let mut noisy = built;
    noisy[1] = 0xFF;
    noisy[2] = 0xFF;
    noisy[3] = 0xF2;
    noisy[8] = 0xFF;
    noisy[59] = 0xFF;
    let read = read_version_reply(&noisy);
    assert_eq!(read.refused, None);
    assert_eq!(build_version_reply(&read.value).value, built);
    for (at, byte) in [(0, MOST as u8 + 1), (3, 1), (3, 3)] {
        let mut bad = built;
        bad[at] = byte;
        let read = read_version_reply(&bad);
        assert_eq!((read.refused, read.value), (Some(Refusal::P2), VersionReply::default()));
    }
    let bad = VersionReply { count: MOST as u8 + 1, protocol: 2, ..Default::default() };
    assert_eq!(build_version_reply(&bad).refused, Some(Refusal::P2));
    let bad = VersionReply { count: MOST as u8, protocol: 0x12, ..Default::default() };
    assert_eq!(build_version_reply(&bad).refused, Some(Refusal::P2));
}

// ---------------------------------------------------------------- bundle

fn refused(bundle: &[u8]) -> (Refusal, u8) {
    let Fault { row, entry } = check(bundle).unwrap_err();
    (row, entry)
}

#[test]
fn bundle_rows() {
    let good = bundle_of(&e12());
    assert!(check(&good).is_ok());
    assert_eq!(refused(&good[..7]), (Refusal::B1, 0));
    assert_eq!(refused(&vec![0; 65_537]), (Refusal::B1, 0));
    assert_eq!(refused(&vec![0; 65_536]), (Refusal::B2, 0));
    let with = |changes: &[(usize, u8)]| {
        let mut bundle = good.clone();
        for (at, byte) in changes {
            bundle[*at] = *byte;
        }
        refused(&bundle)
    };
    for at in 1..8 {
        assert_eq!(with(&[(at, 2)]), (Refusal::B2, 0));
    }
    assert_eq!(with(&[(0, 0)]), (Refusal::B3, 0));
    assert_eq!(with(&[(0, MOST as u8 + 1)]), (Refusal::B3, 0));
    assert_eq!(refused(&good[..55]), (Refusal::B4, 0));
    assert_eq!(refused(&good[..56]), (Refusal::B7, 2));
    for (at, byte) in [(0, 1), (1, 1), (3, 1), (13, 1), (12, 3), (12, 0x12), (2, 0), (2, 0xE0)] {
        assert_eq!(with(&[(8 + at, byte)]), (Refusal::B5, 1));
        assert_eq!(with(&[(32 + at, byte)]), (Refusal::B5, 2));
        assert_eq!(with(&[(32 + at, byte), (8 + 13, 9), (24, 0)]), (Refusal::B5, 1));
    }
    assert_eq!(with(&[(34, 1)]), (Refusal::B6, 2));
    assert_eq!(with(&[(34, 1), (24, 0)]), (Refusal::B6, 2));
    assert_eq!(with(&[(24, 55)]), (Refusal::B7, 1));
    assert_eq!(with(&[(48, 131)]), (Refusal::B7, 2));
    assert_eq!(with(&[(28, 73)]), (Refusal::B7, 2));
    assert_eq!(with(&[(52, 75)]), (Refusal::B7, 2));
    assert_eq!(with(&[(52, 73)]), (Refusal::B7, 2));
    assert_eq!(with(&[(28, 0), (48, 56), (52, 148)]), (Refusal::B8, 1));
    assert_eq!(with(&[(60, 0)]), (Refusal::B8, 1));
    assert_eq!(with(&[(60, 53)]), (Refusal::B8, 1));
    assert_eq!(with(&[(117, 13)]), (Refusal::B8, 1));
    assert_eq!(with(&[(117, 11)]), (Refusal::B8, 1));
    assert_eq!(with(&[(134, 0)]), (Refusal::B8, 2));
}

// ------------------------------------------------------------------ host

fn at(stage: HostStage) -> Host {
    Host { stage, passes: 1, ..Host::fresh(0x17) }
}

fn offer_status(status: u8) -> [u8; SHORT] {
    build_offer_reply(&OfferReply { token: 0x17, reason: 0, status }).value
}

#[test]
fn host_table_every_cell() {
    let bundle = bundle_of(&e12());
    let stages = [
        (HostStage::Opening, [1, 256]),
        (HostStage::Listing, [1, 256]),
        (HostStage::Waiting { entry: 0, busy: 1 }, [4, 256]),
        (HostStage::Closing, [1, 256]),
    ];
    for (stage, good) in stages {
        for status in 0..=255u8 {
            let next = at(stage).step(&bundle, &offer_status(status)).host.stage;
            let wrong = next == HostStage::Ended(End::H3);
            assert_eq!(wrong, !good.contains(&(status as i32)));
        }
    }
    for status in 4..=255u8 {
        let host = at(HostStage::Offering { entry: 0, busy: 0 });
        let next = host.step(&bundle, &offer_status(status)).host.stage;
        assert_eq!(next, HostStage::Ended(End::H3));
    }
}

#[test]
fn host_ninth_busy() {
    let bundle = bundle_of(&e12());
    let mut host = at(HostStage::Offering { entry: 1, busy: 0 });
    for count in 1..=8u8 {
        let stepped = host.step(&bundle, &offer_status(BUSY));
        assert_eq!(stepped.host.stage, HostStage::Waiting { entry: 1, busy: count });
        let stepped = stepped.host.step(&bundle, &offer_status(READY));
        assert_eq!(stepped.host.stage, HostStage::Offering { entry: 1, busy: count });
        host = stepped.host;
    }
    let stepped = host.step(&bundle, &offer_status(BUSY));
    assert_eq!(stepped.host.stage, HostStage::Ended(End::H4));
    assert_eq!(stepped.packet, None);
    assert_eq!(stepped.host.packets, host.packets);
}

#[test]
fn host_ends_stay() {
    let bundle = bundle_of(&e12());
    for end in [End::Done, End::H1(9), End::H2, End::H3, End::H4] {
        let host = at(HostStage::Ended(end));
        let stepped = host.step(&bundle, &offer_status(ACCEPT));
        assert_eq!((stepped.host, stepped.packet, stepped.refused), (host, None, None));
    }
}

#[test]
fn host_h2_before_h1_and_h3() {
    let bundle = bundle_of(&e12());
    let wrong_token = build_offer_reply(&OfferReply { token: 0x18, reason: 0, status: 9 }).value;
    let stepped = at(HostStage::Opening).step(&bundle, &wrong_token);
    assert_eq!(stepped.host.stage, HostStage::Ended(End::H2));
    let sending = at(HostStage::Sending { entry: 0, record: 1, passed: false });
    let wrong = build_content_reply(&ContentReply { sequence: 0, status: 9 }).value;
    assert_eq!(sending.step(&bundle, &wrong).host.stage, HostStage::Ended(End::H2));
    let right = build_content_reply(&ContentReply { sequence: 1, status: 9 }).value;
    assert_eq!(sending.step(&bundle, &right).host.stage, HostStage::Ended(End::H1(9)));
    for length in [0, 15, 17] {
        let reply = vec![0x17; length];
        assert_eq!(sending.step(&bundle, &reply).host.stage, HostStage::Ended(End::H2));
    }
}

#[test]
fn host_n1_clauses() {
    let bundle = bundle_of(&e12());
    let sound = at(HostStage::Closing);
    let bad = [
        at(HostStage::Offering { entry: 2, busy: 0 }),
        at(HostStage::Waiting { entry: 2, busy: 1 }),
        at(HostStage::Sending { entry: 2, record: 0, passed: false }),
        at(HostStage::Sending { entry: 1, record: 2, passed: false }),
        at(HostStage::Offering { entry: 0, busy: 9 }),
        at(HostStage::Waiting { entry: 0, busy: 9 }),
        Host { passes: 3, ..sound },
        Host { packets: 1 << 31, ..sound },
        Host { mask: 4, ..sound },
        Host { mask: 1 << 31, ..sound },
        Host { mask: 4, ..at(HostStage::Ended(End::Done)) },
        Host { mask: 4, ..Host::fresh(1) },
    ];
    for host in bad {
        let stepped = host.step(&bundle, &offer_status(ACCEPT));
        assert_eq!(stepped.refused, Some(Fault { row: Refusal::N1, entry: 0 }));
        assert_eq!((stepped.host, stepped.packet), (host, None));
        let stepped = host.step(&bundle[..203], &offer_status(ACCEPT));
        assert_eq!(stepped.refused, Some(Fault { row: Refusal::B7, entry: 2 }));
        assert_eq!((stepped.host, stepped.packet), (host, None));
    }
    let good = [
        at(HostStage::Offering { entry: 1, busy: 8 }),
        at(HostStage::Sending { entry: 1, record: 1, passed: false }),
        Host { passes: 2, packets: (1 << 31) - 1, mask: 3, ..sound },
    ];
    for host in good {
        assert_eq!(host.step(&bundle, &offer_status(ACCEPT)).refused, None);
    }
}

/// A finding, not a promise: an offer reply is also a content reply with
/// sequence 0 and status 0. Over bodies of one record each, a host cannot
/// distinguish one fixed ACCEPT from a device.
#[test]
fn host_takes_one_fixed_reply_for_a_device() {
    let offers: Vec<(Offer, Vec<u8>)> = (1..=2)
        .map(|id| (plain_offer(id, Version(9), (0, 0)), body(&image(id, Version(9), 8), 52)))
        .collect();
    let bundle = bundle_of(&offers);
    let mut host = Host::fresh(0x17);
    while !matches!(host.stage, HostStage::Ended(_)) {
        host = host.step(&bundle, &offer_status(ACCEPT)).host;
    }
    let report = host.report();
    assert_eq!((report.end, report.completed), (Some(End::Done), 2));
}

// -------------------------------------------------------------- demand 3

/// A small generator of numbers; the same ones on every run.
pub struct Dice(pub u64);

impl Dice {
    pub fn below(&mut self, border: u32) -> u32 {
        self.0 = self.0.wrapping_mul(6_364_136_223_846_793_005).wrapping_add(1);
        ((self.0 >> 33) % border as u64) as u32
    }
}

/// A device of up to seven components with small versions of two variants,
/// every second one with a floor (A5), some pending, perhaps an open session.
fn some_device(dice: &mut Dice) -> Device {
    let count = 1 + dice.below(MOST as u32) as u8;
    let mut device = Device { platform: 0x0042, staging: 8 * 16, count, ..Default::default() };
    for slot in 0..count as usize {
        let (release, variant) = (dice.below(4), dice.below(2));
        let floor = if dice.below(2) == 0 { 0 } else { dice.below(10) };
        let staged = match dice.below(4) {
            0 => Some(Version(256 * (release.max(floor) + dice.below(3)) + variant)),
            _ => None,
        };
        device.components[slot] = Component {
            id: 1 + slot as u8,
            running: Version(256 * release + variant),
            region: Region { base: StagingOffset(16 * slot as u32), length: 9 + dice.below(8) },
            floor: Version(256 * floor),
            staged,
        };
    }
    let slot = dice.below(count as u32) as u8;
    if !device.components[slot as usize].pending() {
        device.stage = match dice.below(3) {
            0 => Stage::Idle,
            1 => Stage::Offered(Offered { slot, token: 1 }),
            _ => Stage::Receiving(Receiving { slot, token: 1, next: 5 }),
        };
        // Only a receiving session needs the packet before; others may hold it.
        device.previous = block(0, 1, 4, 0);
        if device.stage != Stage::Idle && dice.below(2) == 0 {
            device.owed = Some(3);
        }
    }
    device
}

/// Offers with good bodies for the components that the device has, most of
/// the running variant. Every second time all are newer than what can run,
/// few are below a floor and most need one another, so that many passes are
/// run. Records have at most so many bytes.
fn some_offers(dice: &mut Dice, device: &Device, most_data: u32) -> Vec<(Offer, Vec<u8>)> {
    let chained = dice.below(2) == 0;
    let most = MOST as u8;
    let mut ids: Vec<u8> = if chained { (1..=most).collect() } else { (1..=most + 2).collect() };
    let count = if chained { MOST as u32 } else { 1 + dice.below(MOST as u32) };
    let mut offers = Vec::new();
    for _ in 0..count {
        let id = ids.remove(dice.below(ids.len() as u32) as usize);
        let component = device.listed().iter().find(|c| c.id == id);
        let variant = match (component, dice.below(8)) {
            (Some(component), 1..) => component.running.0 % 256,
            _ => dice.below(3),
        };
        let version = match chained {
            true => Version(256 * (6 + dice.below(2)) + variant),
            false => Version(256 * dice.below(6) + variant),
        };
        let need = match (chained, dice.below(3)) {
            (true, _) => (dice.below(8) as u8, 6),
            (false, 0) => (0, dice.below(3)),
            (false, _) => (1 + dice.below(8) as u8, dice.below(6)),
        };
        let mut offer = plain_offer(id, version, need);
        if dice.below(12) == 0 {
            offer.platform = 0x0043;
        }
        let length = match component {
            Some(component) => component.region.length as usize,
            None => 10,
        };
        offers.push((offer, body(&image(id, version, length), 1 + dice.below(most_data) as usize)));
    }
    offers
}

/// Passes checks 2 to 7, A1's and A5's among them, against the device after
/// code 0.
fn passes_2_to_7(device: &Device, offer: &Offer) -> bool {
    match device.listed().iter().find(|c| c.id == offer.id) {
        None => false,
        Some(c) => {
            offer.platform == device.platform
                && c.staged.is_none()
                && offer.version.0 % 256 == c.running.0 % 256
                && offer.version.0 / 256 > c.running.0 / 256
                && offer.version.0 / 256 >= c.floor.0 / 256
        }
    }
}

/// The smallest closed set: grown from nothing until it is closed.
fn smallest(device: &Device, offers: &[(Offer, Vec<u8>)]) -> u32 {
    let mut set = 0u32;
    loop {
        let before = set;
        for (index, (offer, _)) in offers.iter().enumerate() {
            let by_device = device
                .listed()
                .iter()
                .any(|c| c.id == offer.need_id && c.effective().0 / 256 >= offer.need_least);
            let by_member = offers.iter().enumerate().any(|(other, (member, _))| {
                other != index
                    && before & (1 << other) != 0
                    && member.id == offer.need_id
                    && member.version.0 / 256 >= offer.need_least
            });
            if passes_2_to_7(device, offer) && (offer.need_id == 0 || by_device || by_member) {
                set |= 1 << index;
            }
        }
        if set == before {
            return set;
        }
    }
}

/// Device and staging as demand 3 says they are left.
fn left_by(set: u32, device: &Device, staging: &[u8], offers: &[(Offer, Vec<u8>)]) -> (Device, Vec<u8>) {
    let mut device = *device;
    let mut staging = staging.to_vec();
    device.stage = Stage::Idle;
    device.owed = None;
    device.previous = [0; LONG];
    for (index, (offer, _)) in offers.iter().enumerate() {
        if set & (1 << index) == 0 {
            continue;
        }
        for component in device.components.iter_mut().filter(|c| c.id == offer.id) {
            component.staged = Some(offer.version);
            let base = component.region.base.0 as usize;
            let length = component.region.length as usize;
            staging[base..base + length].copy_from_slice(&image(offer.id, offer.version, length));
        }
    }
    (device, staging)
}

#[test]
fn demand_3_searched() {
    let mut dice = Dice(20_260_321);
    let mut most_passes = 0;
    let (mut other_variants, mut below_floor) = (0, 0);
    for _ in 0..20_000 {
        let device = some_device(&mut dice);
        let mut offers = some_offers(&mut dice, &device, 20);
        let before: Vec<u8> = (0..128).map(|_| dice.below(256) as u8).collect();
        for _order in 0..2 {
            let bundle = bundle_of(&offers);
            let records: usize =
                check(&bundle).unwrap().entries.iter().map(|e| e.records.len()).sum();
            let mut staging = before.clone();
            let left = run(dice.below(256) as u8, &bundle, device, &mut staging);
            let report = left.report();
            let n = offers.len();
            let set = smallest(&device, &offers);
            assert_eq!(report.end, Some(End::Done));
            assert_eq!(report.packets as usize, left.trace.len());
            assert!(report.packets as usize <= 1 + n * (n + 2) + records);
            assert!(report.passes as usize <= n);
            assert_eq!(left.host.mask, set);
            assert_eq!((left.device, staging), left_by(set, &device, &before, &offers));
            assert_eq!(left.device.version_reply().refused, None);
            most_passes = most_passes.max(report.passes);
            other_variants += told(&left).iter().filter(|line| line.ends_with(" 2 226")).count();
            below_floor += offers.iter().filter(|(offer, _)| floor_alone(&device, offer)).count();
            offers.reverse();
        }
    }
    assert!(most_passes >= 5, "{most_passes}");
    assert!(other_variants >= 1000, "{other_variants}");
    assert!(below_floor >= 5_000, "{below_floor}");
}

/// It is the floor alone that keeps the offer out of checks 2 to 7.
fn floor_alone(device: &Device, offer: &Offer) -> bool {
    let mut without = *device;
    for component in without.components.iter_mut() {
        component.floor = Version(0);
    }
    passes_2_to_7(&without, offer) && !passes_2_to_7(device, offer)
}

/// The set in hand is one of the closed ones and every other contains it; all
/// sets of offers are tried.
#[test]
fn demand_3_smallest_of_all_closed_sets() {
    let mut dice = Dice(20_260_505);
    let mut by_floor = 0;
    for _ in 0..2_000 {
        let device = some_device(&mut dice);
        let offers = some_offers(&mut dice, &device, 20);
        let set = smallest(&device, &offers);
        assert!(closed(set, &device, &offers));
        for other in 0..1u32 << offers.len() {
            assert!(!closed(other, &device, &offers) || other & set == set);
        }
        let mut without = device;
        without.components.iter_mut().for_each(|component| component.floor = Version(0));
        by_floor += (smallest(&without, &offers) != set) as u32;
    }
    assert!(by_floor >= 100, "{by_floor}");
}

/// "it holds every offer that passes checks 2 to 7 against the device after
/// code 0 and whose need is none, or met by an effective version then or by
/// the offered version of another member".
fn closed(set: u32, device: &Device, offers: &[(Offer, Vec<u8>)]) -> bool {
    offers.iter().enumerate().all(|(index, (offer, _))| {
        let by_device = |c: &Component| {
            c.id == offer.need_id && c.effective().0 / 256 >= offer.need_least
        };
        let by_member = |other: usize, member: &Offer| {
            other != index
                && set >> other & 1 == 1
                && member.id == offer.need_id
                && member.version.0 / 256 >= offer.need_least
        };
        let met = offer.need_id == 0
            || device.listed().iter().any(by_device)
            || offers.iter().enumerate().any(|(other, (member, _))| by_member(other, member));
        set >> index & 1 == 1 || !passes_2_to_7(device, offer) || !met
    })
}

#[test]
fn demand_3_longest_run() {
    let most = MOST as u8;
    let mut device = Device { platform: 0x0042, staging: 128, count: most, ..Default::default() };
    let mut offers = Vec::new();
    for slot in 0..most {
        let region = Region { base: StagingOffset(16 * slot as u32), length: 16 };
        device.components[slot as usize] =
            Component { id: 1 + slot, running: Version(256), region, ..Default::default() };
        let need = if slot + 1 == most { (0, 0) } else { (2 + slot, 2) };
        let body = body(&image(1 + slot, Version(512), 16), 7);
        offers.push((plain_offer(1 + slot, Version(512), need), body));
    }
    let left = run(0, &bundle_of(&offers), device, &mut [0; 128]);
    let report = left.report();
    // A pass is code 1, the offers and code 2; an image of 16 bytes is three blocks of 7.
    let (count, pass) = (most as u32, most as u32 + 2);
    assert_eq!((report.end, report.completed), (Some(End::Done), count));
    assert_eq!((report.passes, report.packets), (count, 1 + count * pass + count * 3));
    offers.reverse();
    let other = run(0, &bundle_of(&offers), device, &mut [0; 128]);
    assert_eq!((other.report().passes, other.report().packets), (1, 1 + pass + count * 3));
    assert_eq!(left.device, other.device);
}
