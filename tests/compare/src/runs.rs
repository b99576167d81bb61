//! Whole runs: a fresh host and a device of each implementation, over random devices and bundles, some of these from the writer; demand 3 wherever its
//! premise holds, as it has to for a written bundle where the regions are as long as the images; and hostile devices, against which every host has to end
//! within its bound. In some runs packets arrive twice in a row: blocks that are neither first nor last, of which demand 3 speaks (document 02, A4), or any.

use std::collections::VecDeque;

use cfu_updater::update::{run as made_run, RunRefusal};
use second::device::Answer;
use second::host::Packet;

use crate::bundles::{self, bundle, entries_in, Entry};
use crate::calls::Calls;
use crate::case::{difference, hex, Case, Outcome};
use crate::demand::{self, Shown};
use crate::devices::{any_record, broken_device, guarded, other_variant, valid_device, BROKEN};
use crate::floors;
use crate::header::*;
use crate::layout::*;
use crate::lent::Lent;
use crate::library::Library;
use crate::random::Random;
use crate::tally::{self, Tally};
use crate::writers::{self, Given, Pair};
use crate::{made, other, ALL};

// -------------------------------------------------------------- bundles

/// The records of an image: any cut, any order, what is 0xFF left out or not, and before them perhaps records that they write over.
fn records_for(r: &mut Random, image: &[u8]) -> Vec<(u32, Vec<u8>)> {
    let mut records = Vec::new();
    let least = 1 + image.len() / 20;
    let mut at = 0;
    while at < image.len() {
        let length = r.between(1, DATA_SIZE).max(least).min(DATA_SIZE).min(image.len() - at);
        let data = image[at..at + length].to_vec();
        if data.iter().any(|byte| *byte != 0xFF) || r.percent(30) {
            records.push((at as u32, data));
        }
        at += length;
    }
    if r.percent(50) {
        r.shuffle(&mut records);
    }
    if r.percent(25) {
        // A record whose bytes later ones write again: only where all of them are written later.
        let length = r.between(1, DATA_SIZE.min(image.len()));
        let at = r.below(image.len() - length + 1);
        let mut covered = vec![false; image.len()];
        for (address, data) in &records {
            covered[*address as usize..*address as usize + data.len()].fill(true);
        }
        if covered[at..at + length].iter().all(|covered| *covered) {
            records.insert(0, (at as u32, r.bytes(length)));
        }
    }
    if records.is_empty() {
        records.push((0, image[..1].to_vec()));
    }
    records
}

/// The records with a fault.
fn bad_records(r: &mut Random, component: &Component, version: u32) -> Vec<(u32, Vec<u8>)> {
    let length = component.length as usize;
    match r.below(8) {
        0 => {
            let mut image = demand::image(r, length, version, component.id);
            let place = r.below(length);
            image[place] ^= 1 << r.below(8);
            records_for(r, &image)
        }
        1 => {
            let image = demand::image(r, length, version, component.id ^ 1);
            records_for(r, &image)
        }
        2 => {
            let image = demand::image(r, length, component.running.wrapping_sub(256), component.id);
            records_for(r, &image)
        }
        3 => {
            // Good in itself, but not of the offered version.
            let image = demand::image(r, length, version.wrapping_add(256), component.id);
            records_for(r, &image)
        }
        4 => {
            let other = other_variant(r, component.running);
            let image = demand::image(r, length, other, component.id);
            records_for(r, &image)
        }
        5 => {
            let image = demand::image(r, length, floors::just_below(component), component.id);
            records_for(r, &image)
        }
        6 => {
            let image = demand::image(r, length, version, component.id);
            let mut records = records_for(r, &image);
            let place = r.below(records.len() + 1);
            let address = r.pick(&[component.length, component.length - 1, u32::MAX, u32::MAX - 1]);
            records.insert(place, (address, r.bytes(2)));
            records
        }
        _ => vec![(r.below(length) as u32, r.bytes(r.clone().between(1, DATA_SIZE)))],
    }
}

/// Offers for the device's components and some others, with needs that form chains, cycles and dead ends.
fn offers_for(r: &mut Random, device: &DeviceRecord) -> Vec<[u8; SHORT_SIZE]> {
    let chain = r.percent(30);
    let mut ids: Vec<u8> = device.listed().iter().map(|component| component.id).collect();
    ids.extend((10..=12).filter(|_| r.percent(12)));
    r.shuffle(&mut ids);
    let count = if r.percent(50) { ids.len().min(OFFER_LIMIT) } else { r.between(1, ids.len().min(OFFER_LIMIT)) };
    ids.truncate(count);
    // First the versions, for needs refer to them.
    let offered: Vec<(u8, u32)> = ids
        .iter()
        .map(|id| {
            let component = demand::component_of(device, *id);
            let running = component.map_or(0x0100_0000, |component| component.running);
            let version = match r.below(20) {
                5..=14 if component.is_some_and(floors::is_above) => floors::near(r, &component.copied().unwrap_or_default()),
                0 => running,
                1 => running.wrapping_sub(256),
                2 | 3 => other_variant(r, running),
                4 => running.wrapping_add(0x0100_0000),
                _ => running.wrapping_add(256),
            };
            (*id, version)
        })
        .collect();
    let mut offers = Vec::new();
    for (place, (id, version)) in offered.iter().enumerate() {
        let need = need_for(r, device, &offered, place, chain);
        let platform = if r.percent(96) { device.platform } else { device.platform ^ 1 };
        offers.push(offer_packet(*id, *version, need, platform));
    }
    if chain && r.percent(50) {
        r.shuffle(&mut offers);
    }
    offers
}

/// Those offers with good and bad bodies.
fn entries_for(r: &mut Random, device: &DeviceRecord) -> Vec<Entry> {
    let all_good = r.percent(75);
    let mut entries = Vec::new();
    for offer in offers_for(r, device) {
        let version = four(&offer[offer_at::VERSION..]);
        let records = match demand::component_of(device, offer[offer_at::ID]) {
            None => vec![(r.next() as u32, r.bytes(r.clone().between(1, DATA_SIZE))), (0, vec![1])],
            Some(component) if all_good || r.percent(60) => {
                let image = demand::image(r, component.length as usize, version, component.id);
                records_for(r, &image)
            }
            Some(component) => bad_records(r, component, version),
        };
        entries.push(Entry { offer, records });
    }
    entries
}

/// Those offers with images for the writer, as long as the regions of the device.
fn given_for(r: &mut Random, device: &DeviceRecord) -> Given {
    let mut pairs: Vec<Pair> = Vec::new();
    for offer in offers_for(r, device) {
        let (id, version) = (offer[offer_at::ID], four(&offer[offer_at::VERSION..]));
        let length = match demand::component_of(device, id) {
            None => r.between(REGION_LEAST, 140),
            Some(component) => component.length as usize,
        };
        pairs.push((offer, writers::image_for(r, length, version, id)));
    }
    Given::laid(r, &pairs)
}

fn need_for(r: &mut Random, device: &DeviceRecord, offered: &[(u8, u32)], place: usize, chain: bool) -> [u8; 4] {
    if chain && place + 1 < offered.len() {
        let (id, version) = offered[place + 1];
        return need_bytes(id, version / 256);
    }
    match r.below(10) {
        0..=4 => [0; 4],
        5 | 6 => {
            // Another offer's new version, or its own; sometimes one more than it.
            let (id, version) = r.pick(offered);
            need_bytes(id, version / 256 + r.pick(&[0, 0, 0, 1]))
        }
        7 | 8 => {
            let component = r.pick(device.listed());
            need_bytes(component.id, component.staged.unwrap_or(component.running) / 256 + r.pick(&[0, 0, 1]))
        }
        _ => need_bytes(r.pick(&[0xFE, 0xFF, 13, 0xE0]), r.below(2) as u32),
    }
}

pub fn make_run(r: &mut Random) -> Case {
    let device = valid_device(r);
    let hostile = if r.percent(20) { r.next() | 1 } else { 0 };
    let (mut given, mut laid) = (Given::default(), Vec::new());
    if r.percent(25) {
        given = given_for(r, &device);
    } else {
        laid = bundle(&entries_for(r, &device));
    }
    let mut record = any_record(r, &device.bytes(), device.passed_over());
    match r.below(50) {
        0 if given.list.is_empty() => laid = bundles::any_bundle(r),
        1 => {
            let aim = r.pick(&BROKEN);
            record = broken_device(r, aim);
        }
        _ => {}
    }
    Case::aimed("")
        .number("token", r.byte() as u64)
        .number("hostile", hostile)
        .number("twice", if r.percent(60) { r.next() | 1 } else { 0 })
        .number("any twice", r.percent(30) as u64)
        .number("order", r.next())
        .bytes("device", record)
        .bytes("staging", r.bytes(device.staging as usize))
        .bytes("bundle", laid)
        .bytes("list", given.list)
        .bytes("images", given.images)
}

// ----------------------------------------------------------------- runs

/// What a run leaves.
#[derive(Clone, Debug, PartialEq, Eq)]
struct Left {
    /// The number of the check or of a step that refused.
    number: u32,
    /// What the host sent, each with the first that the device sent to it, and to a second arrival of it.
    packets: Vec<Vec<u8>>,
    replies: Vec<Vec<u8>>,
    again: Vec<Option<Vec<u8>>>,
    /// The steps of the host, and those that passed over a reply.
    steps: usize,
    passed: usize,
    host: Vec<u8>,
    device: Vec<u8>,
    staging: Vec<u8>,
    report: Report,
}

impl Left {
    fn text(&self) -> String {
        let again = |place: usize| self.again[place].as_ref().map_or(String::new(), |reply| format!(" : {}", hex(reply)));
        let line = |place: usize| format!("{} : {}{}", hex(&self.packets[place]), hex(&self.replies[place]), again(place));
        let lines: Vec<String> = (0..self.packets.len()).map(line).collect();
        format!(
            "number {:X}, {} steps, {} passed over, {:X?}, host {}, device {}, staging {}\n      {}",
            self.number,
            self.steps,
            self.passed,
            self.report,
            hex(&self.host),
            hex(&self.device),
            hex(&self.staging),
            lines.join("\n      ")
        )
    }
}

/// Which step the host takes.
#[derive(Clone, Copy, PartialEq, Eq)]
enum By {
    Bundle,
    Contents,
}

struct Start<'a> {
    token: u8,
    device: &'a [u8],
    staging: &'a [u8],
    bundle: &'a [u8],
    /// 0 for the device's own replies, otherwise the seed of hostile ones.
    hostile: u64,
    twice: Twice,
}

/// Which packets arrive twice in a row.
#[derive(Clone, Copy)]
struct Twice {
    /// 0 for none.
    seed: u64,
    /// Any packets, and not only blocks that are neither first nor last.
    any: bool,
}

impl Twice {
    const NONE: Twice = Twice { seed: 0, any: false };

    /// The packet that was sent as this number, counted from 0, does.
    fn has(self, number: usize, packet: &[u8]) -> bool {
        let share = [100, 50, 20, 5][self.seed as usize >> 8 & 3];
        self.seed != 0 && (self.any || is_middle(packet)) && Random::of_case(self.seed, 98, number as u64).percent(share)
    }
}

/// A block that is neither first nor last.
fn is_middle(packet: &[u8]) -> bool {
    packet.len() == LONG_SIZE && packet[content_at::FLAGS] & (FLAG_FIRST_BLOCK | FLAG_LAST_BLOCK) == 0
}

/// The packets that a host sends at most, whatever it receives: in each of n passes code 1, code 2, r blocks, and for each offer nine offers and eight
/// notifies; and code 0.
fn most_packets(bundle: &[u8]) -> usize {
    let (offers, records) = counts(bundle);
    1 + offers * (17 * offers + 2 + records)
}

/// The steps that a host takes at most: one for each packet, the one that ends, and in each pass one that passes over a reply for each block but the first of a
/// body.
fn most_steps(bundle: &[u8]) -> usize {
    let (offers, records) = counts(bundle);
    most_packets(bundle) + 1 + offers * (records - offers)
}

/// The offers of a bundle, and the records of all bodies.
fn counts(bundle: &[u8]) -> (usize, usize) {
    let entries = entries_in(bundle);
    (entries.len(), entries.iter().map(|entry| entry.records.len()).sum())
}

/// A reply to a packet from a device that keeps no rule.
fn hostile_reply(seed: u64, place: usize, packet: &[u8]) -> Vec<u8> {
    let mut r = Random::of_case(seed, 99, place as u64);
    let style = seed >> 8 & 3;
    let mut reply = vec![0; SHORT_SIZE];
    if packet.len() == LONG_SIZE {
        put(&mut reply, content_reply_at::SEQUENCE, &packet[content_at::SEQUENCE..][..2]);
        if r.percent(1) {
            reply[content_reply_at::STATUS] = r.byte();
        }
    } else {
        reply[offer_reply_at::TOKEN] = packet[offer_at::TOKEN];
        reply[offer_reply_at::STATUS] = match (packet[signal_at::KIND], style) {
            (INFORMATION, _) => OFFER_ACCEPT,
            (EXTENDED, _) => OFFER_READY,
            // BUSY without end; SKIP and ACCEPT so that every pass is repeated; anything.
            (_, 0) => OFFER_BUSY,
            (_, 1) => r.pick(&[OFFER_SKIP, OFFER_ACCEPT]),
            (_, 2) => r.pick(&[OFFER_BUSY, OFFER_BUSY, OFFER_BUSY, OFFER_BUSY, OFFER_ACCEPT, OFFER_SKIP]),
            _ => r.pick(&[OFFER_SKIP, OFFER_ACCEPT, OFFER_REJECT, OFFER_BUSY]),
        };
        if r.percent(1) {
            reply[offer_reply_at::STATUS] = r.byte();
        }
    }
    match r.below(150) {
        0 => reply = r.bytes(SHORT_SIZE),
        1 => reply.truncate(r.below(SHORT_SIZE)),
        _ => {}
    }
    reply
}

fn whole_run(calls: &dyn Calls, start: &Start, by: By) -> Result<Left, String> {
    let bundle = Lent::new(start.bundle);
    let mut contents = Lent::new(&[0; CONTENTS_SIZE]);
    let mut host = Lent::new(&[0x5A; HOST_SIZE]);
    let mut device = Lent::new(start.device);
    let mut staging = Lent::new(start.staging);
    let mut packet = Lent::new(&[0; LONG_SIZE]);
    let mut replies = Lent::new(&[0; REPLIES_SIZE]);
    let mut left = Left {
        number: SERVED,
        packets: Vec::new(),
        replies: Vec::new(),
        again: Vec::new(),
        steps: 0,
        passed: 0,
        host: Vec::new(),
        device: Vec::new(),
        staging: Vec::new(),
        report: Report::default(),
    };
    calls.fresh(host.lend(), start.token);
    let told = calls.check(bundle.bytes(), contents.lend());
    left.number = told.number;
    let (most, most_steps) = if told.number == SERVED { (most_packets(start.bundle), most_steps(start.bundle)) } else { (0, 0) };
    // The replies on their way to the host. The first step awaits none, so any will do.
    let mut on_way = VecDeque::from([vec![0x77; start.token as usize % 20]]);
    while left.number == SERVED {
        // Where none is on its way, the host is handed no bytes.
        let reply = on_way.pop_front().unwrap_or_default();
        if left.steps == most_steps {
            return Err(format!("{}: the host does not end within {most_steps} steps", calls.name()));
        }
        left.steps += 1;
        let step = match by {
            By::Bundle => calls.step(host.lend(), bundle.bytes(), &reply, packet.lend()),
            By::Contents => calls.step_checked(host.lend(), contents.lend(), bundle.bytes(), &reply, packet.lend()),
        };
        guarded(calls, &[&host, &contents, &bundle, &packet])?;
        left.number = step.number;
        if step.number == SERVED && step.length == 0 && calls.report(host.bytes()).ending == RUNNING {
            left.passed += 1;
            continue;
        }
        if step.number != SERVED || step.length == 0 {
            break;
        }
        let sent = packet.bytes()[..step.length as usize].to_vec();
        if left.packets.len() == most {
            return Err(format!("{}: the host does not end within {most} packets", calls.name()));
        }
        let mut arrives = || {
            let answer = if start.hostile != 0 {
                hostile_reply(start.hostile, left.packets.len(), &sent)
            } else {
                let told = if sent.len() == SHORT_SIZE {
                    calls.offer(device.lend(), staging.bytes(), &sent, replies.lend())
                } else {
                    calls.content(device.lend(), staging.lend(), &sent, replies.lend())
                };
                guarded(calls, &[&device, &staging, &replies])?;
                // The READY that was owed is not for this host.
                replies.bytes()[..SHORT_SIZE * (told.count as usize).min(1)].to_vec()
            };
            if !answer.is_empty() {
                on_way.push_back(answer.clone());
            }
            Ok::<Vec<u8>, String>(answer)
        };
        let answer = arrives()?;
        let again = if start.twice.has(left.packets.len(), &sent) { Some(arrives()?) } else { None };
        left.packets.push(sent);
        left.replies.push(answer);
        left.again.push(again);
    }
    if bundle.bytes() != start.bundle {
        return Err(format!("{}: the bundle was written to", calls.name()));
    }
    left.report = calls.report(host.bytes());
    left.host = host.bytes().to_vec();
    left.device = device.bytes().to_vec();
    left.staging = staging.bytes().to_vec();
    Ok(left)
}

/// The case's own bundle, or the writer's; none where the regions are too long for one, or where the list of a smaller case is refused by another row.
fn bundle_in(case: &Case, given: &Given, tally: &mut Tally) -> Result<Option<Vec<u8>>, String> {
    if given.list.is_empty() {
        return Ok(Some(case.bytes_at("bundle").to_vec()));
    }
    let (told, mut out) = writers::written(given, BUNDLE_LIMIT)?;
    tally.one(tally::row(told.number));
    if told.number != SERVED {
        return Ok(None);
    }
    tally.one("whole runs of a written bundle");
    out.truncate(told.length as usize);
    Ok(Some(out))
}

pub fn run_run(case: &Case, tally: &mut Tally) -> Outcome {
    let given = Given { list: case.bytes_at("list").to_vec(), images: case.bytes_at("images").to_vec() };
    let Some(bundle) = bundle_in(case, &given, tally)? else { return Ok(()) };
    let start = Start {
        token: case.number_at("token") as u8,
        device: case.bytes_at("device"),
        staging: case.bytes_at("staging"),
        bundle: &bundle,
        hostile: case.number_at("hostile"),
        twice: Twice { seed: case.number_at("twice"), any: case.number_at("any twice") != 0 },
    };
    let mut lefts = Vec::new();
    for calls in ALL {
        lefts.push((calls.name(), whole_run(calls, &start, By::Contents)?));
    }
    lefts.push(("library, step over the bundle", whole_run(&Library, &start, By::Bundle)?));
    if lefts.iter().any(|(_, left)| *left != lefts[0].1) {
        let told: Vec<(&str, String)> = lefts.iter().map(|(name, left)| (*name, left.text())).collect();
        return Err(difference("whole run", &told));
    }
    let left = &lefts[0].1;
    tally.one("whole runs");
    tally.add("packets in whole runs", left.packets.len() as u64);
    tally.one(tally::row(left.number));
    tally.one(tally::ending(left.report.ending));
    if left.number == SERVED && left.report.ending == RUNNING {
        return Err("the run stopped before the host ended".to_string());
    }
    let copies = left.again.iter().flatten().count();
    if start.hostile != 0 {
        tally.one("whole runs against a hostile device");
        if left.passed > 0 {
            tally.one("whole runs against a hostile device: replies passed over");
        }
        return Ok(());
    }
    match (start.twice.any, left.report.ending) {
        _ if copies == 0 => {}
        (false, _) => tally.one("twice: whole runs with blocks that arrive twice"),
        (true, DONE) => tally.one("twice: whole runs with any packets, done"),
        (true, _) => tally.one("twice: whole runs with any packets, not done"),
    }
    whole_functions(&start, left)?;
    run_demand(case, &start, &given, left, tally)
}

/// The made crate's and the second implementation's own runs leave the same. In the made crate's each packet arrives once.
fn whole_functions(start: &Start, left: &Left) -> Outcome {
    let Some(device) = DeviceRecord::read(start.device) else { return Ok(()) };
    if start.twice.seed == 0 {
        made_function(start, left, &device)?;
    }
    if left.number != SERVED {
        return Ok(());
    }
    let mut staging = start.staging.to_vec();
    let twice = |number: usize, packet: &Packet| start.twice.has(number, sent_bytes(packet));
    let ran = second::run::run_where(start.token, start.bundle, other::device_of(&device), &mut staging, twice);
    let host = other::host_record(&ran.host).bytes();
    let same_trace = ran.trace.len() == left.packets.len()
        && ran.trace.iter().enumerate().all(|(place, exchange)| {
            left.packets[place] == sent_bytes(&exchange.packet)
                && left.replies[place] == first_of(&exchange.answer)
                && left.again[place] == exchange.again.as_ref().map(first_of)
        });
    if !is_left(start, left, &device, &other::record_of(&ran.device)) || staging != left.staging || host[..] != left.host[..] || !same_trace {
        return Err(format!("the second implementation's run differs: {ran:?}\n    the steps: {}", left.text()));
    }
    Ok(())
}

fn sent_bytes(packet: &Packet) -> &[u8] {
    match packet {
        Packet::ForOffer(bytes) => bytes,
        Packet::ForContent(bytes) => bytes,
    }
}

/// The first that is sent.
fn first_of(answer: &Answer) -> Vec<u8> {
    match answer {
        Answer::Refused(..) | Answer::NoReply => Vec::new(),
        Answer::Reply(reply) | Answer::ReplyThenReady(reply, _) => reply.to_vec(),
    }
}

fn made_function(start: &Start, left: &Left, device: &DeviceRecord) -> Outcome {
    let mut staging = start.staging.to_vec();
    let ran = made_run(start.bundle, start.token, made::device_of(device), &mut staging);
    match ran {
        Ok(ran) => {
            let same = is_left(start, left, device, &made::record_of(&ran.device))
                && staging == left.staging
                && ran.report.packets == left.report.packets
                && ran.report.passes == left.report.passes
                && ran.report.mask == left.report.mask
                && ran.report.completed == left.report.completed;
            if !same {
                return Err(format!("the made crate's run differs: {ran:?}\n    the steps: {}", left.text()));
            }
        }
        // Refused runs change nothing.
        Err(refusal) => {
            if staging != start.staging {
                return Err(format!("the made crate's refused run changed something: {refusal:?}"));
            }
            let number = match refusal {
                RunRefusal::Bundle(refusal) => made::bundle_number(refusal.row),
                RunRefusal::D1 => D1,
                RunRefusal::D2 => D2,
            };
            if left.number != SERVED && number != left.number {
                return Err(format!("the made crate's run is refused by {number:X}, the check by {:X}", left.number));
            }
        }
    }
    Ok(())
}

/// The bytes that the steps leave are read as this record; and are its own, zero where they are passed over, where those before were.
fn is_left(start: &Start, left: &Left, before: &DeviceRecord, record: &DeviceRecord) -> bool {
    let is_whole = before.bytes()[..] == start.device[..];
    DeviceRecord::read(&left.device).as_ref() == Some(record) && (!is_whole || record.bytes()[..] == left.device[..])
}

fn run_demand(case: &Case, start: &Start, given: &Given, left: &Left, tally: &mut Tally) -> Outcome {
    let Some(device) = DeviceRecord::read(start.device) else { return Ok(()) };
    let mut packet = [0; LONG_SIZE];
    let allowed = Library.version_reply(start.device, &mut packet) == SERVED && start.staging.len() == device.staging as usize;
    if left.number != SERVED || !allowed || (start.twice.seed != 0 && start.twice.any) {
        return Ok(());
    }
    let entries = entries_in(start.bundle);
    match (demand::premise(&device, &entries), is_fitting(&device, given)) {
        (true, _) => {}
        (false, true) => return Err("demand 3: its premise does not hold for a written bundle".to_string()),
        (false, false) => return Ok(()),
    }
    tally.one("demand 3: runs where its premise holds");
    let set = demand_of(start, left, &device, &entries)?;
    copies_change_nothing(start, left, tally)?;
    tally.add("demand 3: images staged", set.count_ones() as u64);
    floors::ran(tally, &device, &entries, set, left.report.passes);
    if is_fitting(&device, given) {
        staged_as_given(&device, given, set, &left.staging, tally)?;
    }
    if left.report.passes > 2 {
        tally.one("demand 3: runs of more than two passes");
    }
    if device.session != Session::Idle {
        tally.one("demand 3: runs that begin in an open session");
    }
    // Other orders of the same offers with their bodies, another token: the same device and bytes.
    let mut r = Random::new(case.number_at("order"));
    for order in orders(&mut r, entries.len()) {
        let permuted: Vec<Entry> = order.iter().map(|place| entries[*place].clone()).collect();
        let bytes = bundle(&permuted);
        let other = Start { token: r.byte(), bundle: &bytes, ..*start };
        let again = whole_run(&Library, &other, By::Contents)?;
        let permuted_set = demand_of(&other, &again, &device, &permuted)?;
        let same_set = (0..order.len()).all(|place| permuted_set >> place & 1 == set >> order[place] & 1);
        if !same_set || again.device != left.device || again.staging != left.staging {
            return Err(format!("demand 3: order {order:?} gives another end\n    {}\n    {}", left.text(), again.text()));
        }
        tally.one("demand 3: runs in another order");
    }
    Ok(())
}

/// Where blocks arrive twice, each copy is answered as the block was, the host passes over each of these replies, and all else is as where each arrives once.
fn copies_change_nothing(start: &Start, left: &Left, tally: &mut Tally) -> Outcome {
    let copies = left.again.iter().flatten().count();
    let same_reply = left.replies.iter().zip(&left.again).all(|(reply, again)| again.as_ref().is_none_or(|again| again == reply));
    if !same_reply || left.passed != copies || left.steps != left.packets.len() + copies + 1 {
        return Err(format!("demand 3: a copy is not answered as its block, or its reply is not passed over\n    {}", left.text()));
    }
    if copies == 0 {
        return Ok(());
    }
    let once = whole_run(&Library, &Start { twice: Twice::NONE, ..*start }, By::Contents)?;
    let same = once.packets == left.packets
        && once.replies == left.replies
        && once.host == left.host
        && once.device == left.device
        && once.staging == left.staging
        && once.report == left.report;
    if !same {
        return Err(format!("demand 3: blocks that arrive twice give another end\n    {}\n    {}", left.text(), once.text()));
    }
    tally.one("demand 3: runs with blocks that arrive twice");
    tally.add("demand 3: blocks that arrive twice", copies as u64);
    if left.packets.iter().zip(&left.again).all(|(packet, again)| !is_middle(packet) || again.is_some()) {
        tally.one("demand 3: runs in which every block but first and last arrives twice");
    }
    Ok(())
}

/// There is a written bundle, and its images are as long as the regions of the device.
fn is_fitting(device: &DeviceRecord, given: &Given) -> bool {
    let fits = |place: usize| match demand::component_of(device, given.offer(place)[offer_at::ID]) {
        Some(component) => given.image(place).is_some_and(|image| image.len() == component.length as usize),
        None => true,
    };
    given.count() > 0 && (0..given.count()).all(fits)
}

/// The region of each staged component is the image that the writer was given, byte for byte.
fn staged_as_given(device: &DeviceRecord, given: &Given, set: usize, staging: &[u8], tally: &mut Tally) -> Outcome {
    for place in (0..given.count()).filter(|place| set >> place & 1 == 1) {
        let component = demand::component_of(device, given.offer(place)[offer_at::ID]);
        let (Some(component), Some(image)) = (component, given.image(place)) else {
            return Err(format!("written bundle: entry {} is staged without a component or an image", place + 1));
        };
        if staging[component.base as usize..][..component.length as usize] != *image {
            return Err(format!("written bundle: entry {} is staged as another image than {}", place + 1, hex(image)));
        }
        tally.one("written bundle: images staged");
        if writers::has_left_out_run(image) {
            tally.one("written bundle: images staged with a left-out run");
        }
    }
    Ok(())
}

fn demand_of(start: &Start, left: &Left, device: &DeviceRecord, entries: &[Entry]) -> Result<usize, String> {
    let (Some(host), Some(after)) = (HostRecord::read(&left.host), DeviceRecord::read(&left.device)) else {
        return Err("a run left bytes that are no record".to_string());
    };
    let shown = Shown {
        before: device,
        staging_before: start.staging,
        entries,
        packets: &left.packets,
        replies: &left.replies,
        host,
        after,
        staging_after: &left.staging,
    };
    demand::check(&shown).map_err(|what| format!("{what}\n    {}", left.text()))
}

/// All orders of up to three offers, and some of more.
fn orders(r: &mut Random, count: usize) -> Vec<Vec<usize>> {
    let first: Vec<usize> = (0..count).collect();
    match count {
        1 => Vec::new(),
        2 => vec![vec![1, 0]],
        3 => vec![vec![0, 2, 1], vec![1, 0, 2], vec![1, 2, 0], vec![2, 0, 1], vec![2, 1, 0]],
        _ => (0..3)
            .map(|_| {
                let mut order = first.clone();
                r.shuffle(&mut order);
                order
            })
            .collect(),
    }
}

/// What the gate's run has to have met in whole runs.
pub const RUNS: [&str; 16] = [
    "whole runs of a written bundle",
    "written bundle: images staged",
    "written bundle: images staged with a left-out run",
    "whole runs against a hostile device",
    "demand 3: runs where its premise holds",
    "demand 3: images staged",
    "demand 3: runs of more than two passes",
    "demand 3: runs that begin in an open session",
    "demand 3: runs in another order",
    "whole runs against a hostile device: replies passed over",
    "twice: whole runs with blocks that arrive twice",
    "twice: whole runs with any packets, done",
    "twice: whole runs with any packets, not done",
    "demand 3: runs with blocks that arrive twice",
    "demand 3: blocks that arrive twice",
    "demand 3: runs in which every block but first and last arrives twice",
];
