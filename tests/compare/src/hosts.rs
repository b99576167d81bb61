//! Steps of the host: fresh and written records, good and bad bundles, replies that fit and hostile ones. The step over the bundle and the step over its
//! contents are compared with each other.

use second::host::{Host as SecondHost, Packet, Stage as SecondStage};

use crate::bundles::{any_bundle, any_entries, bundle};
use crate::calls::Calls;
use crate::case::{difference, hex, Case, Outcome};
use crate::devices::{any_record, count_passed, guarded};
use crate::header::*;
use crate::layout::*;
use crate::lent::Lent;
use crate::other;
use crate::random::Random;
use crate::tally::{self, Tally};
use crate::{library, made, ALL};

/// What a record is made to break: the clauses of row N1, and the forms of bytes that are no record.
pub const BROKEN: [&str; 14] = [
    "N1: offering past the entries",
    "N1: waiting past the entries",
    "N1: sending past the entries",
    "N1: block past the body",
    "N1: over 8 BUSY",
    "N1: more passes than offers",
    "N1: 2^31 packets",
    "N1: mask bit past the offers",
    "N1: no stage",
    "N1: no end",
    "N1: SKIP flag neither 0 nor 1",
    "N1: image flag neither 0 nor 1",
    "N1: flag of a reply passed over neither 0 nor 1",
    "N1: random bytes",
];

/// What is passed over in the records that steps meet.
pub const PASSED: [&str; 4] = [PASSED_STAGE, PASSED_END, PASSED_FLAG, PASSED_STATUS];

fn any_host(r: &mut Random, host: &HostRecord) -> Vec<u8> {
    let (flag, any): (Vec<Passed>, Vec<Passed>) = host.passed_over().into_iter().partition(|(name, _)| *name == PASSED_FLAG);
    let mut out = any_record(r, &host.bytes(), any);
    if !flag.is_empty() && r.percent(20) {
        out[host_at::PASSED] = 1;
    }
    out
}

/// A record that fits a bundle with bodies of so many records.
fn fitting(r: &mut Random, records: &[usize]) -> HostRecord {
    let count = records.len();
    let entry = r.below(count);
    let stage = match r.below(8) {
        0 => Stage::Opening,
        1 => Stage::Listing,
        2 => Stage::Offering { entry: entry as u32, busy: r.below(9) as u32 },
        3 => Stage::Waiting { entry: entry as u32, busy: r.below(9) as u32 },
        4 | 5 => Stage::Sending { entry: entry as u32, block: r.below(records[entry]) as u32, passed: r.percent(50) },
        6 => Stage::Closing,
        _ => {
            let end = r.below(5) as u32;
            Stage::Ended { end, status: if end == 1 { r.byte() } else { 0 } }
        }
    };
    HostRecord {
        token: r.byte(),
        stage,
        mask: r.below(1 << count) as u32,
        packets: r.pick(&[0, 1, 100, 0x7FFF_FFFF, 0x7FFF_FFFE]),
        passes: r.below(count + 1) as u32,
        skipped: r.percent(50),
        landed: r.percent(50),
    }
}

fn broken(r: &mut Random, records: &[usize], aim: &'static str) -> Vec<u8> {
    let count = records.len() as u32;
    let mut host = fitting(r, records);
    let entry = r.below(records.len());
    let past = r.pick(&[count, count + 1, OFFER_LIMIT as u32, 255, 256, u32::MAX]);
    match aim {
        "N1: offering past the entries" => host.stage = Stage::Offering { entry: past, busy: 0 },
        "N1: waiting past the entries" => host.stage = Stage::Waiting { entry: past, busy: 1 },
        "N1: sending past the entries" => host.stage = Stage::Sending { entry: past, block: 0, passed: r.percent(50) },
        "N1: block past the body" => {
            let block = records[entry] as u32 + r.pick(&[0, 1, 65_536, 1 << 30]);
            host.stage = Stage::Sending { entry: entry as u32, block, passed: r.percent(50) };
        }
        "N1: over 8 BUSY" => {
            let busy = r.pick(&[9, 10, 255, 256, u32::MAX]);
            host.stage = if r.percent(50) { Stage::Offering { entry: entry as u32, busy } } else { Stage::Waiting { entry: entry as u32, busy } };
        }
        "N1: more passes than offers" => host.passes = r.pick(&[count + 1, OFFER_LIMIT as u32 + 1, 255, u32::MAX]).max(count + 1),
        "N1: 2^31 packets" => host.packets = r.pick(&[1 << 31, (1 << 31) + 1, u32::MAX]),
        "N1: mask bit past the offers" => host.mask |= 1 << r.between(records.len(), 31),
        _ => {}
    }
    let mut bytes = any_host(r, &host);
    match aim {
        "N1: no stage" => bytes[host_at::STAGE] = r.pick(&[8, 9, 255]),
        "N1: no end" => {
            bytes[host_at::STAGE] = 7;
            let end = r.pick(&[5, 6, 255, 256, u32::MAX]);
            put(&mut bytes, host_at::FIRST, &end.to_le_bytes());
        }
        "N1: SKIP flag neither 0 nor 1" => bytes[host_at::SKIPPED] = r.pick(&[2, 3, 255]),
        "N1: image flag neither 0 nor 1" => bytes[host_at::LANDED] = r.pick(&[2, 3, 255]),
        "N1: flag of a reply passed over neither 0 nor 1" => bytes[host_at::PASSED] = r.pick(&[2, 3, 255]),
        "N1: random bytes" => bytes = r.bytes(HOST_SIZE),
        _ => {}
    }
    bytes
}

/// A reply to the packet that the host sent last, by its stage: mostly one that goes on.
pub fn reply_for(r: &mut Random, token: u8, stage: SecondStage, busy: bool) -> Vec<u8> {
    let mut reply = vec![0; SHORT_SIZE];
    match stage {
        SecondStage::Sending { record, passed, .. } => {
            // The reply to the block before comes again; seldom the one before that.
            let back = match r.below(100) {
                0 => 2,
                1 => 1,
                2..=19 if record > 0 && (!passed || r.percent(30)) => 1,
                _ => 0,
            };
            put(&mut reply, content_reply_at::SEQUENCE, &(record as u16).wrapping_sub(back).to_le_bytes());
            if r.percent(4) {
                let errors = [ERROR_CRC, ERROR_VERIFY, ERROR_VERSION, ERROR_INVALID_ADDR, ERROR_NO_OFFER, ERROR_INVALID, 0xFF, 1];
                reply[content_reply_at::STATUS] = r.pick(&errors);
            }
            if r.percent(2) {
                reply[content_reply_at::SEQUENCE + r.below(2)] ^= 1 << r.below(8);
            }
        }
        _ => {
            reply[offer_reply_at::TOKEN] = token;
            reply[offer_reply_at::STATUS] = match stage {
                SecondStage::Offering { .. } if busy => OFFER_BUSY,
                SecondStage::Offering { .. } => {
                    r.pick(&[OFFER_SKIP, OFFER_SKIP, OFFER_ACCEPT, OFFER_ACCEPT, OFFER_ACCEPT, OFFER_REJECT, OFFER_REJECT, OFFER_BUSY])
                }
                SecondStage::Waiting { .. } => OFFER_READY,
                _ => OFFER_ACCEPT,
            };
            if r.percent(3) {
                reply[offer_reply_at::STATUS] = r.pick(&[0, 1, 2, 3, 4, 5, OFFER_UNSUPPORTED, r.clone().byte()]);
            }
            if r.percent(2) {
                reply[offer_reply_at::TOKEN] ^= 1 << r.below(8);
            }
            reply[offer_reply_at::REASON] = r.pick(&[0, 0, REJECT_INV_COMPONENT, REJECT_WRONG_PROTOCOL]);
        }
    }
    match r.below(60) {
        0 => reply.truncate(r.below(SHORT_SIZE)),
        1 => reply.extend(r.bytes(r.clone().pick(&[1, 16, 44]))),
        2 => reply = r.bytes(SHORT_SIZE),
        // Bytes that no reader looks at.
        3 => put(&mut reply, offer_reply_at::STATUS + 1, &[1, 2, 3]),
        _ => {}
    }
    reply
}

pub fn make_host(r: &mut Random) -> Case {
    let bytes = if r.percent(85) {
        let most = r.pick(&[1, 3, 6]);
        bundle(&any_entries(r, most))
    } else {
        any_bundle(r)
    };
    let accepted = second::bundle::check(&bytes).ok();
    let records: Vec<usize> = accepted.map_or(vec![1], |read| read.entries.iter().map(|entry| entry.records.len()).collect());
    let mut aim = "";
    let host = match r.below(10) {
        0..=4 => {
            let fresh = HostRecord::fresh(r.byte());
            any_host(r, &fresh)
        }
        5..=7 => {
            let host = fitting(r, &records);
            any_host(r, &host)
        }
        8 => {
            aim = r.pick(&BROKEN);
            broken(r, &records, aim)
        }
        _ if r.percent(10) => r.bytes(r.clone().pick(&[0, HOST_SIZE - 1, HOST_SIZE + 1])),
        _ => fitting(r, &records).bytes().to_vec(),
    };
    // The second implementation follows along, so that the replies fit the record that they meet.
    let mut followed = other::host_of(&HostRecord::read(&host).unwrap_or(HostRecord::lost()));
    let busy = r.percent(10);
    let wanted = if aim.is_empty() { r.between(2, 40) } else { 2 };
    let mut replies = Vec::new();
    for _ in 0..wanted {
        let reply = reply_for(r, followed.token, followed.stage, busy);
        followed = follow(followed, &bytes, &reply);
        replies.push(reply);
        if matches!(followed.stage, SecondStage::Ended(_)) && r.percent(70) {
            break;
        }
    }
    Case::aimed(aim).bytes("host", host).bytes("bundle", bytes).list("replies", replies)
}

fn follow(host: SecondHost, bundle: &[u8], reply: &[u8]) -> SecondHost {
    let stepped = host.step(bundle, reply);
    let _: Option<Packet> = stepped.packet;
    stepped.host
}

struct Side {
    calls: &'static dyn Calls,
    host: Lent,
    packet: Lent,
    kept: Lent,
    contents: Lent,
    kept_packet: Lent,
}

pub fn run_host(case: &Case, tally: &mut Tally) -> Outcome {
    let bundle = Lent::new(case.bytes_at("bundle"));
    let mut sides = Vec::new();
    for calls in ALL {
        // What the check leaves, also of a refused bundle, and whatever the record is in the middle of.
        let mut contents = [0; CONTENTS_SIZE];
        calls.check(bundle.bytes(), &mut contents);
        sides.push(Side {
            calls,
            host: Lent::new(case.bytes_at("host")),
            packet: Lent::new(&[0; LONG_SIZE]),
            kept: Lent::new(case.bytes_at("host")),
            contents: Lent::new(&contents),
            kept_packet: Lent::new(&[0; LONG_SIZE]),
        });
    }
    for (place, reply) in case.list_at("replies").iter().enumerate() {
        let reply = Lent::new(reply);
        let before = HostRecord::read(sides[0].host.bytes());
        let mut answers = Vec::new();
        for side in &mut sides {
            side.packet.lend().fill(0x5A);
            side.kept_packet.lend().fill(0x5A);
            let told = side.calls.step(side.host.lend(), bundle.bytes(), reply.bytes(), side.packet.lend());
            guarded(side.calls, &[&side.host, &bundle, &reply, &side.packet])?;
            let report = side.calls.report(side.host.bytes());
            let older = side.contents.bytes().to_vec();
            let kept = side.calls.step_checked(side.kept.lend(), side.contents.lend(), bundle.bytes(), reply.bytes(), side.kept_packet.lend());
            guarded(side.calls, &[&side.kept, &side.contents, &bundle, &reply, &side.kept_packet])?;
            if kept != told || side.kept.bytes() != side.host.bytes() || side.kept_packet.bytes() != side.packet.bytes() {
                let name = side.calls.name();
                let answers = [("step", side_text(side, told)), ("step over contents", kept_text(side, kept))];
                return Err(difference(&format!("reply {place}, {name}: the two steps differ"), &answers));
            }
            // At every third reply the next step is lent contents that are older than its record.
            if place % 3 == 1 {
                side.contents.lend().copy_from_slice(&older);
            }
            answers.push((told, report));
        }
        let (first, rest) = sides.split_first().unwrap();
        let equal = rest.iter().zip(&answers[1..]).all(|(side, answer)| {
            *answer == answers[0]
                && side.host.bytes() == first.host.bytes()
                && side.packet.bytes() == first.packet.bytes()
                && side.contents.bytes() == first.contents.bytes()
        });
        if !equal {
            let told: Vec<(&str, String)> = sides
                .iter()
                .zip(&answers)
                .map(|(side, (told, report))| (side.calls.name(), format!("{}, {report:X?}", side_text(side, *told))))
                .collect();
            return Err(difference(&format!("reply {place}"), &told));
        }
        let (told, report) = answers[0];
        tally.one("host steps");
        let after = HostRecord::read(first.host.bytes());
        if let (Some(before), Some(after), SERVED) = (before, after, told.number) {
            repeated(tally, &before, reply.bytes(), &after, told, first.packet.bytes(), case.bytes_at("bundle"))
                .map_err(|what| format!("reply {place}: {what}: {}", side_text(first, told)))?;
        }
        tally.one(tally::row(told.number));
        tally.one(tally::ending(report.ending));
        if place == 0 && case.aim.starts_with(&tally::row(told.number)[5..]) {
            tally.one(case.aim);
        }
        let given = case.bytes_at("host");
        if let (0, SERVED, Some(record)) = (place, told.number, HostRecord::read(given)) {
            count_passed(tally, given, &record.passed_over());
        }
    }
    if bundle.bytes() != case.bytes_at("bundle") {
        return Err("the bundle was written to".to_string());
    }
    Ok(())
}

const OVER: &str = "reply again: passed over";
const OVER_SECOND: &str = "reply again: passed over while the second block is awaited";
const OVER_LAST: &str = "reply again: passed over while the last block is awaited";
const OVER_OTHER: &str = "reply again: passed over with other bytes that are not read";
const OVER_THEN: &str = "reply again: the awaited one after it";
const OVER_THEN_STATUS: &str = "reply again: the awaited one after it has a status";
const TWICE: &str = "reply again: for the second time";
const WITH_STATUS: &str = "reply again: with a status other than 0";
const OLDER: &str = "reply again: the one before the last";
const BEFORE_FIRST: &str = "reply again: sequence 65,535 while the first block is awaited";
const OTHER_LENGTH: &str = "reply again: not 16 bytes";

/// What a reply that comes again has to have met.
pub const REPEATS: [&str; 11] = [OVER, OVER_SECOND, OVER_LAST, OVER_OTHER, OVER_THEN, OVER_THEN_STATUS, TWICE, WITH_STATUS, OLDER, BEFORE_FIRST, OTHER_LENGTH];

/// A served step on a reply, while a block is awaited, that may be the one to a block before (document 02, A4): what it has to do, and its count.
fn repeated(tally: &mut Tally, before: &HostRecord, reply: &[u8], after: &HostRecord, told: Step, packet: &[u8], bundle: &[u8]) -> Outcome {
    let Stage::Sending { entry, block, passed } = before.stage else { return Ok(()) };
    if reply.len() < content_reply_at::STATUS + 1 {
        return Ok(());
    }
    let (sequence, status) = (two(&reply[content_reply_at::SEQUENCE..]), reply[content_reply_at::STATUS]);
    // The difference to the awaited sequence.
    let back = (block as u16).wrapping_sub(sequence);
    let foreign = HostRecord { stage: Stage::Ended { end: 2, status: 0 }, ..*before };
    let (name, wanted) = match (back, passed) {
        (1, _) if reply.len() != SHORT_SIZE => (OTHER_LENGTH, foreign),
        (_, _) if reply.len() != SHORT_SIZE => return Ok(()),
        (0, true) if status == SUCCESS => {
            tally.one(OVER_THEN);
            return Ok(());
        }
        (0, true) => (OVER_THEN_STATUS, HostRecord { stage: Stage::Ended { end: 1, status }, ..*before }),
        (1, _) if block == 0 => (BEFORE_FIRST, foreign),
        (1, _) if status != SUCCESS => (WITH_STATUS, foreign),
        (1, true) => (TWICE, foreign),
        (1, false) => (OVER, HostRecord { stage: Stage::Sending { entry, block, passed: true }, ..*before }),
        (2, _) if block >= 2 => (OLDER, foreign),
        _ => return Ok(()),
    };
    tally.one(name);
    if *after != wanted || told.length != 0 || packet.iter().any(|byte| *byte != 0) {
        return Err(format!("{name}: not what document 02, A4 says"));
    }
    if name == OVER {
        let records = second::bundle::check(bundle).map_or(0, |read| read.entries[entry as usize].records.len());
        if block == 1 {
            tally.one(OVER_SECOND);
        }
        if block as usize + 1 == records {
            tally.one(OVER_LAST);
        }
        let is_read = |place: &usize| *place < 2 || *place == content_reply_at::STATUS;
        if (0..SHORT_SIZE).any(|place| !is_read(&place) && reply[place] != 0) {
            tally.one(OVER_OTHER);
        }
    }
    Ok(())
}

fn side_text(side: &Side, told: Step) -> String {
    let (host, packet) = (hex(side.host.bytes()), hex(side.packet.bytes()));
    format!("{told:X?}, host {host}, packet {packet}, contents {}", hex(side.contents.bytes()))
}

fn kept_text(side: &Side, told: Step) -> String {
    let (host, packet) = (hex(side.kept.bytes()), hex(side.kept_packet.bytes()));
    format!("{told:X?}, host {host}, packet {packet}, contents {}", hex(side.contents.bytes()))
}

// ------------------------------------------------------ any contents

/// Contents that no check left: for the library and the made crate, since the second implementation has no contents.
pub fn make_contents(r: &mut Random) -> Case {
    let most = r.pick(&[1, 3, 6]);
    let entries = any_entries(r, most);
    let bytes = bundle(&entries);
    let records: Vec<usize> = entries.iter().map(|entry| entry.records.len()).collect();
    let mut contents = vec![0; CONTENTS_SIZE];
    made::Made.check(&bytes, &mut contents);
    for _ in 0..r.between(1, 3) {
        // One of the numbers between the count and the cursor.
        let place = contents_at::BODIES + 4 * r.below((contents_at::CURSOR - contents_at::BODIES) / 4);
        match r.below(7) {
            0 => contents[contents_at::COUNT] = r.pick(&[0, 1, OFFER_LIMIT as u8, OFFER_LIMIT as u8 + 1, 31, 32, 255]),
            1 => contents = r.bytes(CONTENTS_SIZE),
            2 => {
                // A cursor that is anything, for the block that the record may have in hand.
                let cursor = r.pick(&[0, 1, u64::MAX, u64::MAX - 4, bytes.len() as u64, r.clone().below(300) as u64]);
                let (entry, block) = (r.below(records.len()) as u32, r.below(3) as u32);
                let kept = Contents::read(&contents).unwrap_or_default();
                contents = Contents { entry, block, cursor, ..kept }.bytes().to_vec();
            }
            3 => contents[r.pick(&[contents_at::ROW, contents_at::PLACE])] = r.pick(&[0, 1, BUNDLE_ROWS - 1, BUNDLE_ROWS, BUNDLE_ROWS + 1, 255]),
            _ => {
                let was = four(&contents[place..]);
                let next = r.pick(&[0, 1, u32::MAX, was.wrapping_add(1), was.wrapping_sub(1), was / 2, bytes.len() as u32]);
                put(&mut contents, place, &next.to_le_bytes());
            }
        }
    }
    let host = if r.percent(30) { HostRecord::fresh(r.byte()) } else { fitting(r, &records) };
    let mut followed = other::host_of(&host);
    let mut replies = Vec::new();
    for _ in 0..r.between(2, 20) {
        let reply = reply_for(r, followed.token, followed.stage, false);
        followed = follow(followed, &bytes, &reply);
        replies.push(reply);
    }
    let size = if r.percent(2) { r.pick(&[0, CONTENTS_SIZE - 1, CONTENTS_SIZE + 1]) } else { CONTENTS_SIZE };
    contents.resize(size, 0);
    Case::aimed("").bytes("host", any_host(r, &host)).bytes("bundle", bytes).bytes("contents", contents).list("replies", replies)
}

pub fn run_contents(case: &Case, tally: &mut Tally) -> Outcome {
    let two: [&dyn Calls; 2] = [&library::Library, &made::Made];
    let bundle = Lent::new(case.bytes_at("bundle"));
    let mut hosts = two.map(|_| Lent::new(case.bytes_at("host")));
    let mut contents = two.map(|_| Lent::new(case.bytes_at("contents")));
    for (place, reply) in case.list_at("replies").iter().enumerate() {
        let reply = Lent::new(reply);
        let mut answers = Vec::new();
        for (side, calls) in two.iter().enumerate() {
            let mut packet = Lent::new(&[0x5A; LONG_SIZE]);
            let before = hosts[side].bytes().to_vec();
            let told = calls.step_checked(hosts[side].lend(), contents[side].lend(), bundle.bytes(), reply.bytes(), packet.lend());
            guarded(*calls, &[&hosts[side], &contents[side], &bundle, &reply, &packet])?;
            if told.number != SERVED && hosts[side].bytes() != before {
                return Err(format!("reply {place}, {}: a refused step changed the record", calls.name()));
            }
            answers.push((told, packet.bytes().to_vec(), hosts[side].bytes().to_vec(), contents[side].bytes().to_vec()));
        }
        if answers[0] != answers[1] {
            let told: Vec<(&str, String)> = two
                .iter()
                .zip(&answers)
                .map(|(calls, (told, packet, host, contents))| {
                    (calls.name(), format!("{told:X?}, host {}, packet {}, contents {}", hex(host), hex(packet), hex(contents)))
                })
                .collect();
            return Err(difference(&format!("reply {place}"), &told));
        }
        tally.one("steps over any contents");
        tally.one(tally::row(answers[0].0.number));
    }
    Ok(())
}
