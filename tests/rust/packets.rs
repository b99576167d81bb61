//! The packets, built and read: document 01, "Packets", rows P1 and P2, and the packets of examples E1, E2, E7, E8 and E10. Written from that
//! document.
use cfu_updater::wire_content::content::{build_content, read_content, ContentFields};
use cfu_updater::wire_content::reply::{build_content_reply, read_content_reply, ContentReply};
use cfu_updater::wire_offer::kind::{read_offer_packet, OfferPacket};
use cfu_updater::wire_offer::offer::{build_offer, OfferFields};
use cfu_updater::wire_offer::reply::{build_offer_reply, read_offer_reply, OfferReply};
use cfu_updater::wire_offer::signal::{build_extended, build_information, Signal};
use cfu_updater::wire_version::{build_version_reply, read_version_reply, Running, VersionReply};
use cfu_updater::wire::address::RegionAddress;
use cfu_updater::wire::verdict::{told, PacketRefusal};
use cfu_updater::wire::version::Version;

#[allow(dead_code)] // each test uses some of it
mod layout;
use layout::*;

/// Packets to read: all zeros, all ones, then a fixed sequence of arbitrary bytes.
fn samples<const N: usize>() -> Vec<[u8; N]> {
    let mut state: u64 = 0x0042;
    let mut all = vec![[0; N], [0xFF; N]];
    for _ in 0..2000 {
        all.push(core::array::from_fn(|_| {
            state = state.wrapping_mul(6364136223846793005).wrapping_add(1442695040888963407);
            (state >> 56) as u8
        }));
    }
    all
}

fn running(id: u8, major: u8, minor: u16, platform: u16) -> Running {
    Running {
        version: Version::new(major, minor, 0),
        id,
        platform,
    }
}

/// A reply with these components, then empty ones.
fn version_reply(count: u8, protocol: u8, some: &[Running]) -> VersionReply {
    let mut components = [running(0, 0, 0, 0); COMPONENT_LIMIT];
    components[..some.len()].copy_from_slice(some);
    VersionReply {
        count,
        protocol,
        components,
    }
}

/// The offer of E2: id 1, version 1.3.0, token 0xA5, platform 0x0042.
fn e2() -> OfferFields {
    OfferFields {
        segment: 0,
        force_immediate_reset: false,
        force_ignore_version: false,
        id: 1,
        token: 0xA5,
        version: Version::new(1, 3, 0),
        need: 0,
        least: 0,
        protocol: 2,
        platform: 0x0042,
    }
}

const E2: [u8; SHORT_SIZE] = [0, 0, 1, 0xA5, 0, 3, 0, 1, 0, 0, 0, 0, 2, 0, 0x42, 0];

/// The content of E8: the first block, 52 bytes at address 12.
fn e8() -> ContentFields {
    ContentFields {
        flags: 0x80,
        length: 52,
        sequence: 0x1234,
        address: RegionAddress::new(12),
        data: core::array::from_fn(|i| i as u8 + 1),
    }
}

#[test]
fn a_version_is_variant_minor_major() {
    let v = Version::new(0x01, 0x0203, 0x04);
    assert_eq!(v.number(), 0x01020304);
    assert_eq!(v.bytes(), [0x04, 0x03, 0x02, 0x01]);
    assert_eq!(Version::read(0x04, 0x03, 0x02, 0x01), v);
    assert_eq!((v.major(), v.minor(), v.variant()), (0x01, 0x0203, 0x04));
    assert_eq!(v.release(), 0x010203);
}

#[test]
fn e1_version_reply_both_ways() {
    let mut packet = [0; LONG_SIZE];
    put(&mut packet, 0, &[2, 0, 0, 2, 0, 2, 0, 1, 0, 1, 0x42, 0, 0, 1, 0, 1, 0, 2, 0x42, 0]);
    let fields = version_reply(2, 2, &[running(1, 1, 2, 0x42), running(2, 1, 1, 0x42)]);
    assert_eq!(build_version_reply(fields), Ok(packet));
    assert_eq!(read_version_reply(&packet), Ok(fields));
}

#[test]
fn version_reply_p2_either_way() {
    let mut packet = [0; LONG_SIZE];
    let most = COMPONENT_LIMIT as u8;
    for (count, protocol) in [(most + 1, 2), (255, 2), (2, 0), (2, 1), (2, 3), (most, 15)] {
        let built = build_version_reply(version_reply(count, protocol, &[running(1, 1, 2, 0x42)]));
        assert_eq!(built, Err(PacketRefusal::P2), "count {count} protocol {protocol}");
        assert_eq!(told(built, [0; LONG_SIZE]), (2, [0; LONG_SIZE]));
        packet[version_reply_at::COUNT] = count;
        packet[version_reply_at::PROTOCOL] = protocol;
        packet[version_reply_at::COMPONENTS + 5] = 1;
        let read = read_version_reply(&packet);
        assert_eq!(read, Err(PacketRefusal::P2), "count {count} protocol {protocol}");
        assert_eq!(told(read, VersionReply::default()), (2, version_reply(0, 0, &[])));
    }
    // A protocol too large for its four bits, whose low bits are 2.
    assert_eq!(build_version_reply(version_reply(2, 18, &[])), Err(PacketRefusal::P2));
}

#[test]
fn version_reply_read_and_built_again() {
    for mut packet in samples::<LONG_SIZE>() {
        packet[version_reply_at::COUNT] %= COMPONENT_LIMIT as u8 + 2;
        packet[version_reply_at::PROTOCOL] = packet[version_reply_at::PROTOCOL] & 0xF3 | 2;
        let read = read_version_reply(&packet);
        let count = packet[version_reply_at::COUNT] as usize;
        if count > COMPONENT_LIMIT || packet[version_reply_at::PROTOCOL] % 16 != 2 {
            assert_eq!(read, Err(PacketRefusal::P2));
            continue;
        }
        let mut expected = [0; LONG_SIZE];
        expected[version_reply_at::COUNT] = packet[version_reply_at::COUNT];
        expected[version_reply_at::PROTOCOL] = 2;
        for component in 0..count {
            let start = version_reply_at::COMPONENTS + version_reply_at::COMPONENT_SIZE * component;
            for i in 0..version_reply_at::COMPONENT_SIZE {
                // Byte 4 is reserved.
                expected[start + i] = if i == 4 { 0 } else { packet[start + i] };
            }
        }
        let reply = read.unwrap();
        assert!(reply.components[count..].iter().all(|c| *c == running(0, 0, 0, 0)));
        assert_eq!(build_version_reply(reply), Ok(expected));
    }
}

#[test]
fn e2_offer_both_ways() {
    assert_eq!(build_offer(e2()), Ok(E2));
    assert_eq!(read_offer_packet(&E2), Ok(OfferPacket::Offer(e2())));
}

#[test]
fn each_field_of_an_offer_at_its_byte() {
    let fields = OfferFields {
        segment: 0x10,
        force_immediate_reset: true,
        force_ignore_version: false,
        id: 0x12,
        token: 0x13,
        version: Version::new(0x17, 0x1615, 0x14),
        need: 0x18,
        least: 0x1B1A19,
        protocol: 0x0C,
        platform: 0x1F1E,
    };
    let mut packet = [0x10, 0x40, 0x12, 0x13, 0x14, 0x15, 0x16, 0x17, 0x18, 0x19, 0x1A, 0x1B, 0x0C, 0, 0x1E, 0x1F];
    assert_eq!(build_offer(fields), Ok(packet));
    // Bit 6 is I, bit 7 is V.
    let other = OfferFields {
        force_immediate_reset: false,
        force_ignore_version: true,
        ..fields
    };
    packet[offer_at::FLAGS] = 0x80;
    assert_eq!(build_offer(other), Ok(packet));
    assert_eq!(read_offer_packet(&packet), Ok(OfferPacket::Offer(other)));
}

#[test]
fn offer_p2() {
    let cases = [
        OfferFields { id: 0xFE, ..e2() },
        OfferFields { id: 0xFF, ..e2() },
        OfferFields { least: 0x1000000, ..e2() },
        OfferFields { least: u32::MAX, ..e2() },
        OfferFields { protocol: 16, ..e2() },
        OfferFields { protocol: 18, ..e2() },
    ];
    for fields in cases {
        assert_eq!(told(build_offer(fields), [0; SHORT_SIZE]), (2, [0; SHORT_SIZE]), "{fields:?}");
    }
    let largest = OfferFields { id: 0xFD, least: 0xFFFFFF, protocol: 15, ..e2() };
    assert!(build_offer(largest).is_ok());
}

#[test]
fn information_and_extended() {
    let s = Signal { code: 2, token: 0xA5 };
    let mut packet = [0; SHORT_SIZE];
    put(&mut packet, 0, &[2, 0, 0xFF, 0xA5]);
    assert_eq!(build_information(s), packet);
    assert_eq!(read_offer_packet(&packet), Ok(OfferPacket::Information(s)));
    packet[signal_at::KIND] = 0xFE;
    assert_eq!(build_extended(s), packet);
    assert_eq!(read_offer_packet(&packet), Ok(OfferPacket::Extended(s)));
}

#[test]
fn byte_2_decides_the_kind_and_reserved_bits_are_zeroed() {
    for mut packet in samples::<SHORT_SIZE>() {
        for kind in [packet[signal_at::KIND], 0xFD, 0xFE, 0xFF] {
            packet[signal_at::KIND] = kind;
            let mut expected = packet;
            let built = match read_offer_packet(&packet).unwrap() {
                OfferPacket::Offer(o) => {
                    assert!(kind <= 0xFD);
                    expected[offer_at::FLAGS] &= 0xC0;
                    expected[offer_at::PROTOCOL] &= 0x0F;
                    expected[offer_at::RESERVED] = 0;
                    build_offer(o).unwrap()
                }
                OfferPacket::Information(s) => {
                    assert_eq!(kind, 0xFF);
                    expected = signal_packet(kind, packet[signal_at::CODE], packet[signal_at::TOKEN]);
                    build_information(s)
                }
                OfferPacket::Extended(s) => {
                    assert_eq!(kind, 0xFE);
                    expected = signal_packet(kind, packet[signal_at::CODE], packet[signal_at::TOKEN]);
                    build_extended(s)
                }
            };
            assert_eq!(built, expected);
        }
    }
}

#[test]
fn e2_offer_reply_both_ways() {
    let mut packet = [0; SHORT_SIZE];
    packet[offer_reply_at::TOKEN] = 0xA5;
    packet[offer_reply_at::STATUS] = 1;
    let fields = OfferReply { token: 0xA5, reason: 0, status: 1 };
    assert_eq!(build_offer_reply(fields), packet);
    assert_eq!(read_offer_reply(&packet), Ok(fields));
    for packet in samples::<SHORT_SIZE>() {
        let mut expected = [0; SHORT_SIZE];
        for i in [offer_reply_at::TOKEN, offer_reply_at::REASON, offer_reply_at::STATUS] {
            expected[i] = packet[i];
        }
        assert_eq!(build_offer_reply(read_offer_reply(&packet).unwrap()), expected);
    }
}

#[test]
fn e8_content_both_ways() {
    let mut packet = [0; LONG_SIZE];
    put(&mut packet, 0, &[0x80, 52, 0x34, 0x12, 12, 0, 0, 0]);
    for i in 0..DATA_SIZE {
        packet[content_at::DATA + i] = i as u8 + 1;
    }
    assert_eq!(build_content(e8()), Ok(packet));
    assert_eq!(read_content(&packet), Ok(e8()));
}

#[test]
fn content_p2() {
    for flags in 0..=255 {
        let built = build_content(ContentFields { flags, ..e8() });
        let served = [0, 0x40, 0x80, 0xC0].contains(&flags);
        assert_eq!(built.is_ok(), served, "flags {flags}");
        assert!(served || built == Err(PacketRefusal::P2), "flags {flags}");
    }
    for length in 0..=255 {
        let built = build_content(ContentFields { length, ..e8() });
        let served = (1..=52).contains(&length);
        assert_eq!(built.is_ok(), served, "length {length}");
        assert!(served || built == Err(PacketRefusal::P2), "length {length}");
        // Unused data is written as zero.
        let packet = built.unwrap_or([0; LONG_SIZE]);
        assert!(packet[content_at::DATA + (length as usize).min(DATA_SIZE)..].iter().all(|b| *b == 0), "length {length}");
    }
}

/// Flags and length are handed out as they stand, those of E10 too, for the device's checks to judge.
#[test]
fn content_read_and_built_again() {
    for packet in samples::<LONG_SIZE>() {
        let (own, over) = (packet[content_at::LENGTH], DATA_SIZE as u8 + 1);
        for (flags, length) in [(packet[content_at::FLAGS], own), (0xC0, own % over), (FLAG_LAST_BLOCK, over)] {
            let mut packet = packet;
            packet[content_at::FLAGS] = flags;
            packet[content_at::LENGTH] = length;
            let read = read_content(&packet).unwrap();
            assert_eq!((read.flags, read.length), (flags, length));
            let mut expected = packet;
            expected[content_at::DATA + (length as usize).min(DATA_SIZE)..].fill(0);
            assert_eq!(read.data, expected[content_at::DATA..]);
            let built = build_content(read);
            if flags % 0x40 == 0 && (1..=52).contains(&length) {
                assert_eq!(built, Ok(expected));
            } else {
                assert_eq!(built, Err(PacketRefusal::P2));
            }
        }
    }
}

#[test]
fn e7_content_reply_both_ways() {
    let mut packet = [0; SHORT_SIZE];
    put(&mut packet, 0, &[0x34, 0x12, 0, 0, 0x0A]);
    let fields = ContentReply { sequence: 0x1234, status: 0x0A };
    assert_eq!(build_content_reply(fields), packet);
    assert_eq!(read_content_reply(&packet), Ok(fields));
    for packet in samples::<SHORT_SIZE>() {
        let mut expected = [0; SHORT_SIZE];
        for i in [content_reply_at::SEQUENCE, content_reply_at::SEQUENCE + 1, content_reply_at::STATUS] {
            expected[i] = packet[i];
        }
        assert_eq!(build_content_reply(read_content_reply(&packet).unwrap()), expected);
    }
}

/// Every reader at every other length up to 100: the number, and all fields zero.
#[test]
fn p1_every_reader_at_every_other_length() {
    let bytes = [0xFF; 100];
    let zero = ContentFields {
        flags: 0,
        length: 0,
        sequence: 0,
        address: RegionAddress::new(0),
        data: [0; DATA_SIZE],
    };
    for n in 0..=100 {
        let p = &bytes[..n];
        if n != SHORT_SIZE {
            assert_eq!(read_offer_packet(p), Err(PacketRefusal::P1), "{n} bytes");
            let offer = told(read_offer_reply(p), OfferReply::default());
            assert_eq!(offer, (1, OfferReply { token: 0, reason: 0, status: 0 }), "{n} bytes");
            let content = told(read_content_reply(p), ContentReply::default());
            assert_eq!(content, (1, ContentReply { sequence: 0, status: 0 }), "{n} bytes");
        }
        if n != LONG_SIZE {
            let version = told(read_version_reply(p), VersionReply::default());
            assert_eq!(version, (1, version_reply(0, 0, &[])), "{n} bytes");
            let content = told(read_content(p), ContentFields::default());
            assert_eq!(content, (1, zero), "{n} bytes");
        }
    }
    assert_eq!(OfferReply::default(), OfferReply { token: 0, reason: 0, status: 0 });
    assert_eq!(ContentReply::default(), ContentReply { sequence: 0, status: 0 });
    assert_eq!(VersionReply::default(), version_reply(0, 0, &[]));
    assert_eq!(ContentFields::default(), zero);
}
