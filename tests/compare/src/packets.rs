//! Building and reading each of the seven packets.

use crate::case::{Case, Outcome};
use crate::devices::{guarded, same};
use crate::header::*;
use crate::layout::*;
use crate::lent::Lent;
use crate::random::Random;
use crate::tally::{self, Tally};
use crate::ALL;

/// The most components of a version reply and the most data of a content packet, as the bytes that count them.
const COUNT: u8 = COMPONENT_LIMIT as u8;
const DATA: u8 = DATA_SIZE as u8;

/// The packets, by number: version reply, offer, information, extended, offer reply, content, content reply.
const KINDS: usize = 7;

fn size_of(kind: u64) -> usize {
    if kind == 0 || kind == 5 {
        LONG_SIZE
    } else {
        SHORT_SIZE
    }
}

/// A byte that is often at a border of some field.
fn border(r: &mut Random, borders: &[u8]) -> u64 {
    if r.percent(70) {
        r.pick(borders) as u64
    } else {
        r.byte() as u64
    }
}

pub fn make_build(r: &mut Random) -> Case {
    let kind = r.below(KINDS) as u64;
    let mut size = size_of(kind);
    let mut bytes = match kind {
        0 => COMPONENTS_SIZE,
        5 => DATA_SIZE,
        _ => 0,
    };
    match r.below(40) {
        0 => size = r.pick(&[0, SHORT_SIZE - 1, SHORT_SIZE + 1, LONG_SIZE - 1, LONG_SIZE + 1, SHORT_SIZE + LONG_SIZE - size]),
        1 => bytes = r.pick(&[0, COMPONENTS_SIZE - 1, COMPONENTS_SIZE + 1, DATA_SIZE - 1, DATA_SIZE + 1]),
        _ => {}
    }
    Case::aimed("")
        .number("kind", kind)
        .number("size", size as u64)
        .number("count", border(r, &[0, 1, COUNT - 1, COUNT, COUNT + 1, 255]))
        .number("protocol", border(r, &[2, 2, 2, 2, 0, 1, 15, 16]))
        .number("code", border(r, &[0, 1, 2, 3]))
        .number("token", r.byte() as u64)
        .number("id", border(r, &[0, 1, 0xDF, 0xE0, 0xFD, 0xFE, 0xFF]))
        .number("flag I", border(r, &[0, 0, 1, 1, 2]) % 4)
        .number("flag V", border(r, &[0, 0, 1, 1, 255]) % 4)
        .number("version", r.next() & 0xFFFF_FFFF)
        .number("need", r.byte() as u64)
        .number("least", r.pick(&[0, 1, 0x00FF_FFFF, 0x0100_0000, 0xFFFF_FFFF, r.clone().next() & 0x00FF_FFFF]))
        .number("platform", r.next() & 0xFFFF)
        .number("flags", border(r, &[0, 0x80, 0x40, 0xC0, 1, 0x20, 0xFF]))
        .number("length", border(r, &[0, 1, DATA - 1, DATA, DATA + 1, 255]))
        .number("sequence", r.next() & 0xFFFF)
        .number("address", r.pick(&[0, 1, 0xFFFF_FFFF, r.clone().next() & 0xFFFF_FFFF]))
        .bytes("bytes", r.bytes(bytes))
}

pub fn run_build(case: &Case, tally: &mut Tally) -> Outcome {
    let field = |name: &str| case.number_at(name);
    let byte = |name: &str| case.number_at(name) as u8;
    let bytes = Lent::new(case.bytes_at("bytes"));
    let mut answers = Vec::new();
    for calls in ALL {
        let mut packet = Lent::new(&vec![0x5A; field("size") as usize]);
        let out = packet.lend();
        let number = match field("kind") {
            0 => calls.build_version_reply(byte("count"), byte("protocol"), bytes.bytes(), out),
            1 => calls.build_offer(offer_in(case), out),
            2 => calls.build_information(byte("code"), byte("token"), out),
            3 => calls.build_extended(byte("code"), byte("token"), out),
            4 => calls.build_offer_reply(byte("token"), byte("code"), byte("count"), out),
            5 => {
                let (sequence, address) = (field("sequence") as u16, field("address") as u32);
                calls.build_content(byte("flags"), byte("length"), sequence, address, bytes.bytes(), out)
            }
            _ => calls.build_content_reply(field("sequence") as u16, byte("code"), out),
        };
        guarded(calls, &[&packet, &bytes])?;
        answers.push((number, packet.bytes().to_vec()));
    }
    same("build", &answers, |(number, packet)| format!("number {number:X}, packet {}", crate::case::hex(packet)))?;
    tally.one("packets built");
    tally.one(tally::row(answers[0].0));
    if answers[0].0 != SERVED {
        return Ok(());
    }
    // What was built is read by all three.
    let read = Case::aimed("").number("kind", field("kind")).number("room", 0).bytes("packet", answers[0].1.clone());
    run_read(&read, tally)
}

fn offer_in(case: &Case) -> Offer {
    let byte = |name: &str| case.number_at(name) as u8;
    Offer {
        segment: byte("code"),
        force_immediate_reset: byte("flag I"),
        force_ignore_version: byte("flag V"),
        id: byte("id"),
        token: byte("token"),
        version: Version::of(case.number_at("version") as u32),
        need: byte("need"),
        least: case.number_at("least") as u32,
        protocol: byte("protocol"),
        platform: case.number_at("platform") as u16,
    }
}

pub fn make_read(r: &mut Random) -> Case {
    let kind = r.below(KINDS) as u64;
    let length = if r.percent(90) {
        size_of(kind)
    } else {
        r.pick(&[0, 1, SHORT_SIZE - 1, SHORT_SIZE, SHORT_SIZE + 1, LONG_SIZE - 1, LONG_SIZE, LONG_SIZE + 1])
    };
    let mut packet = r.bytes(length);
    if length == LONG_SIZE && kind == 0 && r.percent(85) {
        packet[version_reply_at::COUNT] = r.pick(&[0, 1, 3, COUNT - 1, COUNT, COUNT + 1]);
        packet[version_reply_at::PROTOCOL] = r.pick(&[2, 2, 2, 0x12, 0xF2, 1]);
    }
    if length == SHORT_SIZE && (1..=3).contains(&kind) {
        packet[signal_at::KIND] = r.pick(&[0, 1, 0xDF, 0xFD, EXTENDED, INFORMATION, r.clone().byte()]);
    }
    if length == LONG_SIZE && kind == 5 && r.percent(70) {
        packet[content_at::LENGTH] = r.pick(&[0, 1, 30, DATA - 1, DATA, DATA + 1, 255]);
    }
    let room = if r.percent(3) { 1 } else { 0 };
    Case::aimed("").number("kind", kind).number("room", room).bytes("packet", packet)
}

/// What reading answered: the number, the fields as words, and what was left in the lent buffer.
type Told = (u32, String, Vec<u8>);

pub fn run_read(case: &Case, tally: &mut Tally) -> Outcome {
    let kind = case.number_at("kind");
    let packet = Lent::new(case.bytes_at("packet"));
    // Where `room` is not 0, the buffer is that many bytes short.
    let short = case.number_at("room") as usize;
    let mut answers: Vec<Told> = Vec::new();
    for calls in ALL {
        let size = if kind == 0 { COMPONENTS_SIZE } else { DATA_SIZE };
        let mut left = Lent::new(&vec![0x5A; size - short.min(size)]);
        let (number, told) = match kind {
            0 => {
                let told = calls.read_version_reply(packet.bytes(), left.lend());
                (told.number, format!("{told:?}"))
            }
            1..=3 => {
                let told = calls.read_offer(packet.bytes());
                (told.number, format!("{told:?}"))
            }
            4 => {
                let told = calls.read_offer_reply(packet.bytes());
                (told.number, format!("{told:?}"))
            }
            5 => {
                let told = calls.read_content(packet.bytes(), left.lend());
                (told.number, format!("{told:?}"))
            }
            _ => {
                let told = calls.read_content_reply(packet.bytes());
                (told.number, format!("{told:?}"))
            }
        };
        guarded(calls, &[&packet, &left])?;
        answers.push((number, told, left.bytes().to_vec()));
    }
    same("read", &answers, |(_, told, left)| format!("{told}, left {}", crate::case::hex(left)))?;
    tally.one("packets read");
    tally.one(tally::row(answers[0].0));
    Ok(())
}
