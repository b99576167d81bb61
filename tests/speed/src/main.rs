//! The time of each call and of whole sessions: the static library, the made crate and the second implementation, in one table; and of the firmware's entry, in
//! a second one. Not a test of times: it ends with status 1 only where the three leave different bytes.

use std::hint::black_box;

use cfu_updater::bundle::check as made_check;
use cfu_updater::bundle_writer::write as made_write;
use cfu_updater::device::answer::Channel;
use cfu_updater::firmware::serve_lent;
use cfu_updater::update::run as made_run;
use compare::bundles::{bundle, Entry};
use compare::calls::Calls;
use compare::header::*;
use compare::layout::*;
use compare::library::Library;
use compare::random::Random;
use compare::{made, other};
use second::device::Answer;
use second::host::{Host as SecondHost, Packet, Stage as SecondStage};

/// How often each is measured; the least counts.
const REPETITIONS: usize = 40;
/// How long one measurement takes at least, in nanoseconds.
const LEAST: u64 = 500_000;

const TOKEN: u8 = 0xA5;
/// What every component runs, and what is offered to it.
const OLD: u32 = 0x0100_0100;
const NEW: u32 = 0x0100_0200;

/// A row of the table.
struct Row {
    what: String,
    times: Vec<f64>,
}

#[repr(C)]
struct Timespec {
    seconds: i64,
    nanoseconds: i64,
}

extern "C" {
    /// The C library's own: the time of a clock.
    fn clock_gettime(clock: i32, time: *mut Timespec) -> i32;
}

/// The clock of the processor time of this thread: what other programs take of the processor does not count.
const THREAD_TIME: i32 = 3;

/// Nanoseconds of the processor that this thread has had.
fn now() -> u64 {
    let mut time = Timespec { seconds: 0, nanoseconds: 0 };
    let failed = unsafe { clock_gettime(THREAD_TIME, &mut time) };
    assert!(failed == 0, "there is no clock of the thread's processor time");
    time.seconds as u64 * 1_000_000_000 + time.nanoseconds as u64
}

/// Does it some steps further down the stack, so that what a call keeps there lies elsewhere.
#[inline(never)]
fn deeper(steps: usize, run: &mut dyn FnMut()) {
    black_box([0u8; 48]);
    if steps == 0 {
        run();
    } else {
        deeper(steps - 1, run);
    }
}

/// The least time of a call of each, measured in turn so that all meet the same machine, at another place of the stack each time.
fn measure(what: String, calls: &mut [&mut dyn FnMut()]) -> Row {
    let mut rounds = Vec::new();
    for call in calls.iter_mut() {
        call();
        let mut count = 1u32;
        loop {
            let begun = now();
            for _ in 0..count {
                call();
            }
            if now() - begun >= LEAST || count > 1 << 24 {
                break;
            }
            count *= 2;
        }
        rounds.push(count);
    }
    let mut times = vec![f64::MAX; calls.len()];
    for repetition in 0..REPETITIONS {
        for (place, call) in calls.iter_mut().enumerate() {
            deeper(repetition, &mut || {
                let begun = now();
                for _ in 0..rounds[place] {
                    call();
                }
                times[place] = times[place].min((now() - begun) as f64 / rounds[place] as f64);
            });
        }
    }
    Row { what, times }
}

fn expect(what: &str, same: bool) {
    if !same {
        println!("speed: FAILED: {what}: the three leave different bytes");
        std::process::exit(1);
    }
}

// ------------------------------------------------------------ the inputs

/// A device whose components share the staging buffer equally.
fn device(count: usize, staging: usize) -> DeviceRecord {
    let mut record = DeviceRecord { platform: 0x0042, staging: staging as u32, count: count as u8, ..Default::default() };
    let length = (staging / count) as u32;
    for slot in 0..count {
        record.components[slot] = Component { id: slot as u8 + 1, running: OLD, base: slot as u32 * length, length, floor: OLD, staged: None };
    }
    record
}

/// The records of an image, each of so many bytes; a record of erased bytes is left out.
fn records(image: &[u8], size: usize) -> Vec<(u32, Vec<u8>)> {
    let mut out = Vec::new();
    for (place, data) in image.chunks(size).enumerate() {
        if data.iter().any(|byte| *byte != 0xFF) {
            out.push(((place * size) as u32, data.to_vec()));
        }
    }
    out
}

/// An image of a component of which only the first so many bytes, and the CRC, are not 0xFF.
fn image(length: usize, used: usize, id: u8) -> Vec<u8> {
    let mut r = Random::new(length as u64 + id as u64);
    let mut out = vec![0xFF; length];
    let used = used.min(length - CRC_SIZE);
    out[..used].copy_from_slice(&r.bytes(used));
    make_image(&mut out, NEW, id);
    out
}

/// A bundle for every component of a device, with records of so many bytes; the bodies share the bytes of the largest bundle.
fn bundle_for(record: &DeviceRecord, size: usize) -> Vec<u8> {
    let count = record.count as usize;
    let room = (BUNDLE_LIMIT - entry_start(count)) / count;
    // The record with the CRC stands apart.
    let used = (room - record_at::DATA - 2 * size) / (size + record_at::DATA) * size;
    let entries: Vec<Entry> = record
        .listed()
        .iter()
        .map(|component| {
            let image = image(component.length as usize, used, component.id);
            Entry { offer: offer_packet(component.id, NEW, [0; 4], record.platform), records: records(&image, size) }
        })
        .collect();
    bundle(&entries)
}

/// What the writer is given: a list of so many offers, and their images, each of so many bytes, of which only the first `used` and the CRC are not 0xFF.
fn given(count: usize, length: usize, used: usize) -> (Vec<u8>, Vec<u8>) {
    let (mut list, mut images) = (Vec::new(), Vec::new());
    for id in 1..=count as u8 {
        list.extend(offer_packet(id, NEW, [0; 4], 0x0042));
        list.extend((images.len() as u32).to_le_bytes());
        list.extend((length as u32).to_le_bytes());
        images.extend(image(length, used, id));
    }
    (list, images)
}

/// An offer for the last component.
fn offer_for(record: &DeviceRecord) -> [u8; SHORT_SIZE] {
    let id = record.listed().last().map_or(1, |component| component.id);
    let mut packet = offer_packet(id, NEW, [0; 4], record.platform);
    packet[offer_at::TOKEN] = TOKEN;
    packet
}

// --------------------------------------------------------------- the rows

fn check_row(what: &str, bytes: &[u8]) -> Row {
    let mut left = [[0; CONTENTS_SIZE]; 3];
    expect("bundle check", Library.check(bytes, &mut left[0]) == made::Made.check(bytes, &mut left[1]));
    expect("bundle check", other::Other.check(bytes, &mut left[2]).number == SERVED && left[0] == left[1] && left[1] == left[2]);
    let mut contents = [0; CONTENTS_SIZE];
    measure(
        format!("bundle check, {what}"),
        &mut [
            &mut || {
                black_box(Library.check(black_box(bytes), &mut contents));
            },
            &mut || {
                let _ = black_box(made_check(black_box(bytes)));
            },
            &mut || {
                black_box(second::bundle::check(black_box(bytes)).is_ok());
            },
        ],
    )
}

fn write_row(what: &str, list: &[u8], images: &[u8]) -> Row {
    let mut left = [vec![0; BUNDLE_LIMIT], vec![0; BUNDLE_LIMIT], vec![0; BUNDLE_LIMIT]];
    let written = Library.write(list, images, &mut left[0]);
    expect("bundle write", written.number == SERVED && written == made::Made.write(list, images, &mut left[1]));
    expect("bundle write", written == other::Other.write(list, images, &mut left[2]) && left[0] == left[1] && left[1] == left[2]);
    let [library, made, second] = &mut left;
    measure(
        format!("bundle write, {what}, {} bytes written", written.length),
        &mut [
            &mut || {
                black_box(Library.write(black_box(list), images, library));
            },
            &mut || {
                let _ = black_box(made_write(made, black_box(list), images));
            },
            &mut || {
                black_box(second::maker::write(black_box(list), images, second).is_ok());
            },
        ],
    )
}

/// The first reply of the second implementation, which every call here gives.
fn reply_of(answer: Answer) -> [u8; SHORT_SIZE] {
    match answer {
        Answer::Reply(reply) | Answer::ReplyThenReady(reply, _) | Answer::Refused(_, reply) => reply,
        Answer::NoReply => [0; SHORT_SIZE],
    }
}

/// One packet to a device that is in the same state each time; the last time is that of the firmware's entry by value.
fn packet_row(what: String, record: &DeviceRecord, staging: &[u8], packet: &[u8]) -> Row {
    let before = record.bytes();
    let mut stagings = [staging.to_vec(), staging.to_vec(), staging.to_vec(), staging.to_vec()];
    let [own, made_own, other_own, lent_own] = &mut stagings;
    let (made_device, other_device) = (made::device_of(record), other::device_of(record));
    let mut replies = [0; REPLIES_SIZE];
    let content = packet.len() == LONG_SIZE;
    let channel = if content { Channel::Content } else { Channel::Offer };
    // Once, to be compared.
    let mut kept = before;
    let library_told =
        if content { Library.content(&mut kept, own, packet, &mut replies) } else { Library.offer(&mut kept, own, packet, &mut replies) };
    let made_answer = if content { made_device.content(made_own, packet) } else { made_device.offer(made_own, packet) };
    let (next, answer) = if content { other_device.content(other_own, packet) } else { other_device.offer(other_own, packet) };
    for answer in [made_answer, serve_lent(made_device, channel, lent_own, packet)] {
        let answer = answer.expect("a packet that no row refuses");
        let (count, made_replies) = made::told(&answer);
        let told = (library_told.number, library_told.count) == (SERVED, count);
        expect(&what, told && made_replies == replies && made::record_of(&answer.device).bytes() == kept);
    }
    expect(&what, reply_of(answer) == replies[..SHORT_SIZE] && other::record_of(&next).bytes() == kept);
    expect(&what, own == made_own && made_own == other_own && other_own == lent_own);
    let mut lent = || {
        let _ = black_box(serve_lent(black_box(made_device), channel, lent_own, black_box(packet)));
    };
    // The region is written as it stands, so each repetition leaves the same.
    if content {
        measure(
            what,
            &mut [
                &mut || {
                    let mut device = before;
                    black_box(Library.content(black_box(&mut device), own, black_box(packet), &mut replies));
                },
                &mut || {
                    let _ = black_box(black_box(made_device).content(made_own, black_box(packet)));
                },
                &mut || {
                    black_box(black_box(other_device).content(other_own, black_box(packet)));
                },
                &mut lent,
            ],
        )
    } else {
        measure(
            what,
            &mut [
                &mut || {
                    let mut device = before;
                    black_box(Library.offer(black_box(&mut device), own, black_box(packet), &mut replies));
                },
                &mut || {
                    let _ = black_box(black_box(made_device).offer(made_own, black_box(packet)));
                },
                &mut || {
                    black_box(black_box(other_device).offer(other_own, black_box(packet)));
                },
                &mut lent,
            ],
        )
    }
}

/// A whole session by the library: one check, then a step and a packet in turn.
fn library_session(bundle: &[u8], device: &mut [u8; DEVICE_SIZE], staging: &mut [u8]) -> Report {
    let mut contents = [0; CONTENTS_SIZE];
    let mut host = [0; HOST_SIZE];
    let mut packet = [0; LONG_SIZE];
    let mut replies = [0; REPLIES_SIZE];
    let mut due = 0;
    Library.check(bundle, &mut contents);
    Library.fresh(&mut host, TOKEN);
    loop {
        let step = Library.step_checked(&mut host, &mut contents, bundle, &replies[..SHORT_SIZE * due], &mut packet);
        due = match step.length as usize {
            0 => match Library.report(&host) {
                // A reply was passed over, and no other is on its way.
                Report { ending: RUNNING, .. } => 0,
                report => return report,
            },
            SHORT_SIZE => Library.offer(device, staging, &packet[..SHORT_SIZE], &mut replies).count,
            _ => Library.content(device, staging, &packet, &mut replies).count,
        } as usize;
    }
}

/// The same steps by the second implementation: one check, then a step over the checked bundle and a packet in turn.
fn second_session(bundle: &[u8], device: second::device::Device, staging: &mut [u8]) -> (SecondHost, second::device::Device) {
    let mut host = SecondHost::fresh(TOKEN);
    let mut device = device;
    let Ok(read) = second::bundle::check(bundle) else { return (host, device) };
    let mut reply = [0; SHORT_SIZE];
    let mut due = SHORT_SIZE;
    loop {
        let stepped = host.step_over(&read, &reply[..due]);
        host = stepped.host;
        let (next, answer) = match stepped.packet {
            Some(Packet::ForOffer(packet)) => device.offer(staging, &packet),
            Some(Packet::ForContent(packet)) => device.content(staging, &packet),
            None if matches!(host.stage, SecondStage::Ended(_)) => return (host, device),
            // A reply was passed over, and no other is on its way.
            None => {
                due = 0;
                continue;
            }
        };
        device = next;
        reply = reply_of(answer);
        due = SHORT_SIZE;
    }
}

/// A whole session of all.
fn session_row(what: &str, record: &DeviceRecord, bytes: &[u8]) -> Row {
    let staging = vec![0; record.staging as usize];
    let mut stagings = [staging.clone(), staging.clone(), staging];
    let [own, made_own, other_own] = &mut stagings;
    let before = record.bytes();
    let (made_device, other_device) = (made::device_of(record), other::device_of(record));
    let mut kept = before;
    let report = library_session(bytes, &mut kept, own);
    let made_left = made_run(bytes, TOKEN, made_device, made_own).expect("a run that no row refuses");
    let (host, left) = second_session(bytes, other_device, other_own);
    expect(what, report.ending == DONE && report.completed == record.count as u32);
    expect(what, made_left.report.packets == report.packets && host.packets == report.packets);
    expect(what, made_left.report.mask == report.mask && host.mask == report.mask);
    expect(what, made::record_of(&made_left.device).bytes() == kept);
    expect(what, other::record_of(&left).bytes() == kept);
    expect(what, own == made_own && made_own == other_own);
    measure(
        format!("session, {what}, {} packets", report.packets),
        &mut [
            &mut || {
                let mut device = before;
                black_box(library_session(black_box(bytes), &mut device, own));
            },
            &mut || {
                let _ = black_box(made_run(black_box(bytes), TOKEN, made_device, made_own));
            },
            &mut || {
                black_box(second_session(black_box(bytes), other_device, other_own));
            },
        ],
    )
}

/// The sequence that a receiving session awaits.
const NEXT: u16 = 7;

/// The device after a block that was neither first nor last.
fn receiving(record: &DeviceRecord, slot: u8) -> DeviceRecord {
    let previous = content_packet(0, NEXT - 1, 0, &[0x3C; DATA_SIZE]);
    DeviceRecord { session: Session::Receiving { slot, token: TOKEN, next: NEXT }, previous, ..*record }
}

fn packet_rows() -> Vec<Row> {
    let mut rows = Vec::new();
    for (count, staging) in [(1, 4096), (COMPONENT_LIMIT, STAGING_LIMIT)] {
        let record = device(count, staging);
        let bytes = vec![0; staging];
        let what = format!("{count} component{}, {staging} bytes of staging", if count == 1 { "" } else { "s" });
        rows.push(packet_row(format!("offer, {what}"), &record, &bytes, &offer_for(&record)));
        let receiving = receiving(&record, count as u8 - 1);
        let packet = content_packet(0, NEXT, 100, &[0x3C; DATA_SIZE]);
        rows.push(packet_row(format!("content packet, {what}"), &receiving, &bytes, &packet));
        rows.push(packet_row(format!("content packet that comes again, {what}"), &receiving, &bytes, &receiving.previous));
    }
    for length in [64, 4096, STAGING_LIMIT] {
        let record = device(1, length);
        let receiving = receiving(&record, 0);
        let image = image(length, length, 1);
        let packet = content_packet(FLAG_LAST_BLOCK, NEXT, length as u32 - 20, &image[length - 20..]);
        rows.push(packet_row(format!("last block, image of {length} bytes"), &receiving, &image, &packet));
    }
    rows
}

fn main() {
    let mut rows = Vec::new();
    let two = device(2, 128);
    let small = bundle_for(&two, DATA_SIZE);
    let most = device(COMPONENT_LIMIT, STAGING_LIMIT);
    let one = device(1, STAGING_LIMIT);
    rows.push(check_row(&format!("{} bytes", small.len()), &small));
    for (record, size) in [(device(1, 4096), DATA_SIZE), (one, DATA_SIZE), (most, DATA_SIZE), (one, 1)] {
        let bytes = bundle_for(&record, size);
        let (length, count) = (bytes.len(), record.count);
        rows.push(check_row(&format!("{length} bytes, {count} offer{}, records of {size}", if count == 1 { "" } else { "s" }), &bytes));
    }
    for (what, count, length, used) in [
        ("1 image of 4096 bytes", 1, 4096, 4096),
        ("1 image of 59750 bytes", 1, 59_750, 59_750),
        ("1 image of 65536 bytes, half of it 0xFF", 1, STAGING_LIMIT, STAGING_LIMIT / 2),
        ("7 images of 8192 bytes", OFFER_LIMIT, 8192, 8192),
    ] {
        let (list, images) = given(count, length, used);
        rows.push(write_row(what, &list, &images));
    }
    let packets = packet_rows();
    let mut sessions = vec![session_row("2 images of 64 bytes", &two, &small)];
    for (record, size) in [(device(1, 4096), DATA_SIZE), (device(1, 16_384), DATA_SIZE), (one, DATA_SIZE), (most, DATA_SIZE), (one, 1)] {
        let bytes = bundle_for(&record, size);
        let (count, length) = (record.count, record.components[0].length);
        let plural = if count == 1 { "" } else { "s" };
        sessions.push(session_row(&format!("{count} image{plural} of {length} bytes, records of {size}"), &record, &bytes));
    }
    println!("nanoseconds of the processor, least of {REPETITIONS}; a session is one bundle check and then the host's steps and the device's calls in turn:");
    println!("  library: cfu_bundle_check, cfu_bundle_write, cfu_host_step_checked, cfu_device_offer and cfu_device_content");
    println!("  crate:   bundle::check, bundle_writer::write, Device::offer and Device::content; update::run for a session");
    println!(
        "  second:  the second implementation's check, maker, device (row D1 at each packet) and host's step over the checked bundle (row N1 at each step)"
    );
    println!("  firmware: firmware::serve_lent of the crate, the firmware's entry by value");
    println!();
    println!("| | library | crate | second | library/second | crate/second |");
    println!("|---|---:|---:|---:|---:|---:|");
    for row in rows.iter().chain(&packets).chain(&sessions) {
        let t = &row.times;
        println!("| {} | {:.0} | {:.0} | {:.0} | {:.2} | {:.2} |", row.what, t[0], t[1], t[2], t[0] / t[2], t[1] / t[2]);
    }
    println!();
    println!("| | firmware | firmware/library | firmware/crate | firmware/second |");
    println!("|---|---:|---:|---:|---:|");
    for row in &packets {
        let t = &row.times;
        println!("| {} | {:.0} | {:.2} | {:.2} | {:.2} |", row.what, t[3], t[3] / t[0], t[3] / t[1], t[3] / t[2]);
    }
}
