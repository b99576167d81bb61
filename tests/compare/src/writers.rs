//! Writing bundles (document 02, A3): offers with images that have runs of 0xFF of every length, and every damage that a row of the writer names.

use std::iter::once;
use std::ops::Range;

use crate::bundles::entries_in;
use crate::calls::Calls;
use crate::case::{hex, Case, Outcome};
use crate::demand;
use crate::devices::{guarded, same, version};
use crate::header::Written;
use crate::layout::*;
use crate::lent::Lent;
use crate::library::Library;
use crate::random::Random;
use crate::tally::{self, Tally};
use crate::ALL;

/// The shortest run of 0xFF that is left out.
const RUN_LEAST: usize = 52;

/// What follows an image's version and id.
const FREE_AT: usize = image_at::ID + 1;

// --------------------------------------------------------------- images

/// How long a run is: often about the shortest that is left out.
fn run_length(r: &mut Random) -> usize {
    if r.percent(50) {
        r.between(RUN_LEAST - 2, RUN_LEAST + 1)
    } else {
        r.below(121)
    }
}

/// How many bytes stand between runs: often as many as fill records.
fn plain_length(r: &mut Random) -> usize {
    if r.percent(40) {
        r.pick(&[0, 1, 2, DATA_SIZE - FREE_AT, DATA_SIZE - FREE_AT + 1, DATA_SIZE - 1, DATA_SIZE, DATA_SIZE + 1, 2 * DATA_SIZE])
    } else {
        r.below(60)
    }
}

/// Bytes of which none is 0xFF.
fn plain(r: &mut Random, length: usize) -> Vec<u8> {
    r.bytes(length).into_iter().map(|byte| byte.min(0xFE)).collect()
}

/// What stands between the id and the CRC: runs of 0xFF, with other bytes before, between and after them or not.
fn free_bytes(r: &mut Random) -> Vec<u8> {
    let mut out = Vec::new();
    for _ in 0..r.pick(&[0, 1, 1, 2, 3]) {
        if r.percent(70) {
            let length = plain_length(r);
            out.extend(plain(r, length));
        }
        out.resize(out.len() + run_length(r), 0xFF);
    }
    if r.percent(70) {
        let length = r.pick(&[1, 2, 3, r.clone().below(60)]);
        out.extend(r.bytes(length));
    }
    out.resize(out.len().max(1), 0xFF);
    out
}

fn image_with(version: u32, id: u8, free: &[u8]) -> Vec<u8> {
    let mut out = [&[0; FREE_AT], free, &[0; CRC_SIZE]].concat();
    make_image(&mut out, version, id);
    out
}

/// An image of a region of so many bytes, with runs of 0xFF.
pub fn image_for(r: &mut Random, length: usize, version: u32, id: u8) -> Vec<u8> {
    let mut free = Vec::new();
    while free.len() < length - FREE_AT - CRC_SIZE {
        free.extend(free_bytes(r));
    }
    free.truncate(length - FREE_AT - CRC_SIZE);
    image_with(version, id, &free)
}

/// The longest runs of 0xFF.
fn runs(bytes: &[u8]) -> Vec<Range<usize>> {
    let mut out: Vec<Range<usize>> = Vec::new();
    for (place, _) in bytes.iter().enumerate().filter(|(_, byte)| **byte == 0xFF) {
        match out.last_mut() {
            Some(run) if run.end == place => run.end += 1,
            _ => out.push(place..place + 1),
        }
    }
    out
}

/// The writer leaves a run of the image out.
pub fn has_left_out_run(image: &[u8]) -> bool {
    runs(before_crc(image)).iter().any(|run| run.len() >= RUN_LEAST)
}

/// The bytes before the CRC.
fn before_crc(image: &[u8]) -> &[u8] {
    &image[..image.len() - CRC_SIZE]
}

/// The length of an image's body: what is left between the runs that are left out, cut at 52 bytes, and the CRC's record.
fn body_length(image: &[u8]) -> usize {
    let end = before_crc(image).len();
    let (mut at, mut size) = (0, record_at::DATA + CRC_SIZE);
    for gap in runs(before_crc(image)).into_iter().filter(|run| run.len() >= RUN_LEAST).chain(once(end..end)) {
        let left = gap.start - at;
        size += left + record_at::DATA * left.div_ceil(DATA_SIZE);
        at = gap.end;
    }
    size
}

// ----------------------------------------------------------- what is lent

/// An offer with its image.
pub type Pair = ([u8; SHORT_SIZE], Vec<u8>);

/// The list and the images, as they are lent.
#[derive(Clone, Debug, Default)]
pub struct Given {
    pub list: Vec<u8>,
    pub images: Vec<u8>,
}

impl Given {
    /// The images in any order, with any bytes between them.
    pub fn laid(r: &mut Random, pairs: &[Pair]) -> Given {
        let mut order: Vec<usize> = (0..pairs.len()).collect();
        r.shuffle(&mut order);
        let mut out = Given { list: vec![0; BUNDLE_ENTRY_SIZE * pairs.len()], images: Vec::new() };
        for place in order {
            let between = r.pick(&[0, 0, 1, 9]);
            out.images.extend(r.bytes(between));
            let (offer, image) = &pairs[place];
            put(out.entry(place), 0, offer);
            out.set(place, entry_at::OFFSET, out.images.len() as u32);
            out.set(place, entry_at::LENGTH, image.len() as u32);
            out.images.extend(image);
        }
        let after = r.pick(&[0, 0, 1, 9]);
        out.images.extend(r.bytes(after));
        out
    }

    pub fn count(&self) -> usize {
        self.list.len() / BUNDLE_ENTRY_SIZE
    }

    fn entry(&mut self, place: usize) -> &mut [u8] {
        &mut self.list[BUNDLE_ENTRY_SIZE * place..][..BUNDLE_ENTRY_SIZE]
    }

    fn set(&mut self, place: usize, at: usize, value: u32) {
        put(self.entry(place), at, &value.to_le_bytes());
    }

    fn field(&self, place: usize, at: usize) -> u32 {
        four(&self.list[BUNDLE_ENTRY_SIZE * place + at..])
    }

    pub fn offer(&self, place: usize) -> &[u8] {
        &self.list[BUNDLE_ENTRY_SIZE * place..][..SHORT_SIZE]
    }

    /// Where an image stands that is wholly lent.
    fn range(&self, place: usize) -> Option<Range<usize>> {
        let start = self.field(place, entry_at::OFFSET) as usize;
        let end = start + self.field(place, entry_at::LENGTH) as usize;
        (end <= self.images.len()).then_some(start..end)
    }

    /// An image that is wholly lent and not too short.
    pub fn image(&self, place: usize) -> Option<&[u8]> {
        self.range(place).filter(|range| range.len() >= REGION_LEAST).map(|range| &self.images[range])
    }

    /// The length of the bundle, where there is each image.
    fn bundle_length(&self) -> Option<usize> {
        let bodies: Option<usize> = (0..self.count()).map(|place| self.image(place).map(body_length)).sum();
        Some(entry_start(self.count()) + bodies?)
    }
}

// ----------------------------------------------------------------- cases

/// Offers with images: the ids differ, and row B5 allows each.
fn pairs(r: &mut Random, count: usize, free: impl Fn(&mut Random) -> Vec<u8>) -> Vec<Pair> {
    let mut ids: Vec<u8> = (1..=9).chain([ID_LIMIT]).collect();
    r.shuffle(&mut ids);
    ids.iter()
        .take(count)
        .map(|id| {
            let version = version(r);
            let need = if r.percent(60) { [0; 4] } else { [r.byte(), r.byte(), r.byte(), r.byte()] };
            let free = free(r);
            (offer_packet(*id, version, need, r.next() as u16), image_with(version, *id, &free))
        })
        .collect()
}

/// Some offers with small images; sometimes one image stands inside another.
fn small(r: &mut Random) -> Given {
    let count = r.pick(&[1, 1, 2, 2, 3, 4, OFFER_LIMIT]);
    let mut pairs = pairs(r, count, free_bytes);
    if count == 1 || r.percent(90) {
        return Given::laid(r, &pairs);
    }
    let (offer, inner) = (pairs[0].0, pairs[1].1.clone());
    let (before, after) = (free_bytes(r), free_bytes(r));
    pairs[0].1 = image_with(four(&offer[offer_at::VERSION..]), offer[offer_at::ID], &[&before[..], &inner, &after].concat());
    let mut out = Given::laid(r, &pairs);
    out.set(1, entry_at::OFFSET, out.field(0, entry_at::OFFSET) + (FREE_AT + before.len()) as u32);
    out
}

/// One offer whose bundle has so many bytes: 1148 full records and two that are not, with a run between these that is left out.
fn of_length(r: &mut Random, length: usize) -> Given {
    const FULL: usize = 1148;
    let rest = length - entry_start(1) - FULL * (record_at::DATA + DATA_SIZE) - 2 * record_at::DATA - (record_at::DATA + CRC_SIZE);
    let first = r.between(rest.saturating_sub(DATA_SIZE).max(1), (rest - 1).min(DATA_SIZE));
    let run = r.between(RUN_LEAST, 5000);
    let pairs = pairs(r, 1, |r| {
        let before = plain(r, FULL * DATA_SIZE + first - FREE_AT);
        [before, vec![0xFF; run], plain(r, rest - first)].concat()
    });
    Given::laid(r, &pairs)
}

/// Images as large as a region or a bundle can be, or just larger.
fn large(r: &mut Random) -> Given {
    let image_of = |length: usize| length - FREE_AT - CRC_SIZE;
    match r.below(10) {
        0..=3 => {
            let length = r.between(BUNDLE_LIMIT - 2, BUNDLE_LIMIT + 2);
            of_length(r, length)
        }
        4 | 5 => {
            // Without a run 59,750 bytes fit.
            let length = image_of(r.pick(&[59_749, 59_750, 59_750, 59_751, STAGING_LIMIT]));
            let pairs = pairs(r, 1, |r| plain(r, length));
            Given::laid(r, &pairs)
        }
        6 | 7 => {
            let length = image_of(r.pick(&[STAGING_LIMIT - 1, STAGING_LIMIT, STAGING_LIMIT + 1]));
            let count = r.between(1, 3);
            let pairs = pairs(r, count, |_| vec![0xFF; length]);
            Given::laid(r, &pairs)
        }
        _ => {
            let length = image_of(r.between(8_400, 8_700));
            let pairs = pairs(r, OFFER_LIMIT, |r| plain(r, length));
            Given::laid(r, &pairs)
        }
    }
}

/// The bytes of an offer that row B5 wants to be of one value.
const JUDGED: [usize; 5] = [offer_at::SEGMENT, offer_at::FLAGS, offer_at::TOKEN, offer_at::PROTOCOL, offer_at::RESERVED];

/// One damage; several may follow one another.
fn damage(r: &mut Random, given: &mut Given) {
    let count = given.count();
    if count == 0 {
        return;
    }
    let (entry, another) = (r.below(count), r.below(count));
    let (offset, length) = (given.field(entry, entry_at::OFFSET), given.field(entry, entry_at::LENGTH));
    let lent = given.images.len() as u32;
    match r.below(14) {
        0 => damage_list(r, &mut given.list),
        1 => given.entry(entry)[r.pick(&JUDGED)] = r.pick(&[0, 1, 2, 3, 0x12, 0x40, 255]),
        2 => given.entry(entry)[offer_at::ID] = r.pick(&[0, 1, ID_LIMIT, ID_LIMIT + 1, 0xFE, 0xFF]),
        3 => {
            let id = given.offer(another)[offer_at::ID];
            given.entry(entry)[offer_at::ID] = id;
            if r.percent(50) {
                again(given, entry, |image| image[image_at::ID] = id);
            }
        }
        4 => given.set(
            entry,
            entry_at::LENGTH,
            r.pick(&[0, 7, 7, 8, 9, length.wrapping_sub(1), length.wrapping_add(1), STAGING_LIMIT as u32 + 1, u32::MAX]),
        ),
        // Past the end by a byte, or just not.
        5 => given.set(entry, entry_at::OFFSET, (lent + r.pick(&[0, 1, 1])).saturating_sub(length)),
        // The sum is a small number in 32 bits.
        6 => given.set(entry, entry_at::OFFSET, r.pick(&[0, 1, length / 2]).min(lent).wrapping_sub(length)),
        7 => given.images.truncate(lent.saturating_sub(r.pick(&[1, 1, 2, lent / 2, lent])) as usize),
        8 => flip(r, given, entry, |length| length - CRC_SIZE..length),
        9 => flip(r, given, entry, |length| 0..length),
        10 => {
            let (place, bit) = (r.pick(&[0, 1, 2, 3, image_at::ID, image_at::ID]), r.below(8));
            again(given, entry, |image| image[place] ^= 1 << bit);
        }
        11 => given.entry(entry)[offer_at::VERSION + r.below(4)] ^= 1 << r.below(8),
        12 => {
            // Two entries have one image.
            let (offset, length) = (given.field(another, entry_at::OFFSET), given.field(another, entry_at::LENGTH));
            given.set(entry, entry_at::OFFSET, offset);
            given.set(entry, entry_at::LENGTH, length);
        }
        _ => given.set(entry, entry_at::OFFSET, offset.wrapping_add(r.pick(&[1, u32::MAX]))),
    }
}

/// A list of no entry, of eight, or of a length that is no whole number of them.
fn damage_list(r: &mut Random, list: &mut Vec<u8>) {
    match r.below(4) {
        0 => list.clear(),
        1 => list.truncate(r.below(list.len())),
        2 => list.extend(r.bytes(r.clone().pick(&[1, 8, BUNDLE_ENTRY_SIZE - 1]))),
        _ => *list = list.iter().copied().cycle().take(BUNDLE_ENTRY_SIZE * (OFFER_LIMIT + 1)).collect(),
    }
}

/// Another bit in a part of an image.
fn flip(r: &mut Random, given: &mut Given, entry: usize, part: impl Fn(usize) -> Range<usize>) {
    if let Some(range) = given.range(entry).filter(|range| range.len() >= REGION_LEAST) {
        let part = part(range.len());
        let place = r.between(part.start, part.end - 1);
        given.images[range][place] ^= 1 << r.below(8);
    }
}

/// An image that is changed and has its CRC made right again.
fn again(given: &mut Given, entry: usize, change: impl Fn(&mut [u8])) {
    if let Some(range) = given.range(entry).filter(|range| range.len() >= REGION_LEAST) {
        let image = &mut given.images[range];
        change(image);
        let (version, id) = (four(&image[image_at::VERSION..]), image[image_at::ID]);
        make_image(image, version, id);
    }
}

/// The length of the output: about that of the bundle, where it has one.
fn room_for(r: &mut Random, given: &Given) -> usize {
    let Some(length) = given.bundle_length() else { return r.below(200) };
    match r.below(20) {
        // Two rows at once.
        0..=5 if length > BUNDLE_LIMIT => r.below(BUNDLE_LIMIT),
        0..=8 => length,
        9 | 10 => length + 1,
        11..=13 => length + r.below(60),
        14..=16 => length - 1,
        17 => r.below(length),
        18 => 0,
        _ if r.percent(5) => BUNDLE_LIMIT,
        _ => length + 9,
    }
}

pub fn make_write(r: &mut Random) -> Case {
    let mut given = if r.below(250) == 0 { large(r) } else { small(r) };
    if r.percent(55) {
        for _ in 0..r.pick(&[1, 1, 1, 2, 3, 4]) {
            damage(r, &mut given);
        }
    }
    let room = room_for(r, &given);
    Case::aimed("").number("room", room as u64).bytes("list", given.list).bytes("images", given.images)
}

// ------------------------------------------------------------- comparison

/// What all three answer, and the output, of which no byte past the bundle was written.
pub fn written(given: &Given, room: usize) -> Result<(Written, Vec<u8>), String> {
    const BEFORE: u8 = 0x5A;
    let (list, images) = (Lent::new(&given.list), Lent::new(&given.images));
    let mut answers = Vec::new();
    for calls in ALL {
        let mut out = Lent::new(&vec![BEFORE; room]);
        let told = calls.write(list.bytes(), images.bytes(), out.lend());
        guarded(calls, &[&list, &images, &out])?;
        if list.bytes() != given.list || images.bytes() != given.images {
            return Err(format!("{}: the list or the images were written to", calls.name()));
        }
        answers.push((told, out.bytes().to_vec()));
    }
    same("write", &answers, |(told, out)| format!("{told:X?}, output {}", hex(out)))?;
    let (told, out) = answers.swap_remove(0);
    match out.get(told.length as usize..) {
        Some(rest) if rest.iter().all(|byte| *byte == BEFORE) => Ok((told, out)),
        _ => Err(format!("write: bytes past the bundle were written: {told:X?}, output {}", hex(&out))),
    }
}

/// The check accepts the bundle, and it reads back to the same offers and, over 0xFF, to the same images; the CRC is the last record, and addresses rise.
fn reads_back(given: &Given, bundle: &[u8]) -> Outcome {
    let told = Library.check(bundle, &mut [0; CONTENTS_SIZE]);
    let wrong = |what: &str| Err(format!("write: {what}: {}", hex(bundle)));
    if told.number != SERVED || told.count as usize != given.count() {
        return wrong("the check refuses the bundle");
    }
    for (place, entry) in entries_in(bundle).iter().enumerate() {
        let Some(image) = given.image(place) else { return wrong("an image that is not lent") };
        let end = image.len() - CRC_SIZE;
        if entry.offer != given.offer(place) || demand::written(image.len(), &entry.records).as_deref() != Some(image) {
            return wrong("another offer or another image is read back");
        }
        if entry.records.last() != Some(&(end as u32, image[end..].to_vec())) {
            return wrong("the CRC is not the last record");
        }
        if entry.records.windows(2).any(|two| two[0].0 as usize + two[0].1.len() > two[1].0 as usize) {
            return wrong("the addresses do not rise");
        }
    }
    Ok(())
}

pub fn run_write(case: &Case, tally: &mut Tally) -> Outcome {
    let given = Given { list: case.bytes_at("list").to_vec(), images: case.bytes_at("images").to_vec() };
    let room = case.number_at("room") as usize;
    let (told, out) = written(&given, room)?;
    tally.one("calls: write");
    tally.one(tally::row(told.number));
    if told.number != SERVED {
        count_refused(&given, room, told, tally);
        return Ok(());
    }
    let bundle = &out[..told.length as usize];
    reads_back(&given, bundle)?;
    if given.bundle_length() != Some(bundle.len()) {
        return Err(format!("write: the bundle should have {:?} bytes: {}", given.bundle_length(), hex(bundle)));
    }
    count_served(&given, room, bundle.len(), tally);
    Ok(())
}

// ----------------------------------------------------------------- counts

/// A run of 51, 52 and 53 bytes: right after the id, in the middle, right before the CRC.
const NEAR: [[&str; 3]; 3] = [
    ["write: a run of 51 after the id", "write: a run of 52 after the id", "write: a run of 53 after the id"],
    ["write: a run of 51 in the middle", "write: a run of 52 in the middle", "write: a run of 53 in the middle"],
    ["write: a run of 51 before the CRC", "write: a run of 52 before the CRC", "write: a run of 53 before the CRC"],
];

fn count_runs(image: &[u8], tally: &mut Tally) {
    let end = before_crc(image).len();
    for run in runs(before_crc(image)) {
        let place = match run {
            Range { start: FREE_AT, .. } => 0,
            _ if run.end == end => 2,
            _ => 1,
        };
        if (RUN_LEAST - 1..=RUN_LEAST + 1).contains(&run.len()) {
            tally.one(NEAR[place][run.len() + 1 - RUN_LEAST]);
        }
        if run.len() >= RUN_LEAST {
            tally.one("write: a left-out run");
        }
        if run.end == end && run.len() == RUN_LEAST - 1 && image[end] == 0xFF {
            tally.one("write: a run of 51 before a CRC that begins with 0xFF");
        }
    }
}

fn count_served(given: &Given, room: usize, length: usize, tally: &mut Tally) {
    tally.one("write: served");
    tally.one(if room == length { "write: an output exactly long enough" } else { "write: an output longer than the bundle" });
    if length == BUNDLE_LIMIT {
        tally.one("write: the largest bundle");
    }
    let ranges: Vec<Range<usize>> = (0..given.count()).filter_map(|place| given.range(place)).collect();
    if ranges.iter().any(|outer| ranges.iter().any(|inner| outer.start < inner.start && inner.end < outer.end)) {
        tally.one("write: an image inside another");
    }
    for image in (0..given.count()).filter_map(|place| given.image(place)) {
        count_runs(image, tally);
        match image.len() {
            REGION_LEAST => tally.one("write: the smallest image"),
            STAGING_LIMIT => tally.one("write: the largest image"),
            _ => {}
        }
    }
}

/// A row after this one would refuse the entry.
fn breaks_later(given: &Given, number: u32, place: usize) -> bool {
    let Some(image) = given.image(place) else { return number < W4 };
    let offer = given.offer(place);
    let named = image[image_at::ID] == offer[offer_at::ID] && image[..image_at::ID] == offer[offer_at::VERSION..offer_at::NEED];
    let right = crc(before_crc(image)).to_be_bytes() == image[image.len() - CRC_SIZE..];
    (number < W5 && !right) || (number < W6 && !named)
}

/// By which clause of its row a list was refused.
fn count_refused(given: &Given, room: usize, told: Written, tally: &mut Tally) {
    let entry = (told.entry as usize).saturating_sub(1);
    if (0..entry).any(|place| breaks_later(given, told.number, place)) {
        tally.one("write: an earlier entry breaks a later row");
    }
    match told.number {
        W1 if given.list.is_empty() => tally.one("W1: no entry"),
        W1 if given.list.len() % BUNDLE_ENTRY_SIZE != 0 => tally.one("W1: a cut entry"),
        W1 => tally.one("W1: eight entries"),
        W2 => count_offer(given.offer(entry), tally),
        W4 => count_lent(given, entry, tally),
        W6 => {
            let (offer, image) = (given.offer(entry), given.image(entry).unwrap_or_default());
            let version = offer[offer_at::VERSION..offer_at::NEED] == image[..image_at::ID];
            tally.one(if version { "W6: another id" } else { "W6: another version" });
        }
        W7 if room < BUNDLE_LIMIT => tally.one("W7: an output that is too short as well"),
        W7 if given.bundle_length() == Some(BUNDLE_LIMIT + 1) => tally.one("W7: one byte over the limit"),
        W8 if given.bundle_length() == Some(room + 1) => tally.one("W8: one byte short"),
        _ => {}
    }
}

/// The place of an offer that alone is wrong.
fn count_offer(offer: &[u8], tally: &mut Tally) {
    const NAMES: [&str; 5] = ["W2: segment", "W2: flags", "W2: token", "W2: protocol", "W2: reserved byte"];
    let is_wrong = |at: usize| offer[at] != if at == offer_at::PROTOCOL { PROTOCOL } else { 0 };
    let mut wrong: Vec<&str> = (0..JUDGED.len()).filter(|place| is_wrong(JUDGED[*place])).map(|place| NAMES[place]).collect();
    match offer[offer_at::ID] {
        0 => wrong.push("W2: id 0"),
        id if id > ID_LIMIT => wrong.push("W2: id over the limit"),
        _ => {}
    }
    if let [name] = wrong[..] {
        tally.one(name);
    }
}

fn count_lent(given: &Given, entry: usize, tally: &mut Tally) {
    let (offset, length) = (given.field(entry, entry_at::OFFSET), given.field(entry, entry_at::LENGTH));
    let (end, lent) = (offset as usize + length as usize, given.images.len());
    match length as usize {
        length if length < REGION_LEAST => tally.one("W4: under 8 bytes"),
        length if length > STAGING_LIMIT && end <= lent => tally.one("W4: over the limit and wholly lent"),
        length if length > STAGING_LIMIT => {}
        _ if end == lent + 1 => tally.one("W4: past the end by one byte"),
        _ if (offset.wrapping_add(length) as usize) < end => tally.one("W4: a sum that wraps"),
        _ => {}
    }
}

/// What the gate's run has to have met in writing.
pub const WRITTEN: [&str; 38] = [
    NEAR[0][0],
    NEAR[0][1],
    NEAR[0][2],
    NEAR[1][0],
    NEAR[1][1],
    NEAR[1][2],
    NEAR[2][0],
    NEAR[2][1],
    NEAR[2][2],
    "write: served",
    "write: a left-out run",
    "write: a run of 51 before a CRC that begins with 0xFF",
    "write: an output exactly long enough",
    "write: an output longer than the bundle",
    "write: the largest bundle",
    "write: the smallest image",
    "write: the largest image",
    "write: an image inside another",
    "write: an earlier entry breaks a later row",
    "W1: no entry",
    "W1: a cut entry",
    "W1: eight entries",
    "W2: segment",
    "W2: flags",
    "W2: token",
    "W2: protocol",
    "W2: reserved byte",
    "W2: id 0",
    "W2: id over the limit",
    "W4: under 8 bytes",
    "W4: over the limit and wholly lent",
    "W4: past the end by one byte",
    "W4: a sum that wraps",
    "W6: another version",
    "W6: another id",
    "W7: an output that is too short as well",
    "W7: one byte over the limit",
    "W8: one byte short",
];
