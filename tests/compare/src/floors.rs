//! Floors (document 02, A5): those that states are made with, versions next to them, and what every call keeps. Each border is counted, and has to be met so often.
//! What a call keeps is written from that document; only whether a record would be served without its floors is asked of an implementation.

use crate::bundles::Entry;
use crate::calls::Calls;
use crate::case::Outcome;
use crate::demand;
use crate::layout::*;
use crate::other::Other;
use crate::random::Random;
use crate::tally::Tally;

/// The latest release: a version without its variant has 24 bits.
const LAST_RELEASE: u32 = 0xFF_FFFF;

// ---------------------------------------------------------------- floors and versions

/// A floor for a component that runs this version: none, at its release, next to it, or far away.
pub fn floor(r: &mut Random, running: u32) -> u32 {
    let release = running / 256;
    let chosen = match r.below(20) {
        0..=7 => 0,
        8 | 9 => release,
        10 | 11 => release.saturating_sub(1),
        12..=14 => release + 1,
        15 | 16 => release + 2,
        17 => release + r.pick(&[3, 0x100, 0x1_0000]),
        18 => LAST_RELEASE,
        _ => r.next() as u32 / 256,
    };
    chosen.min(LAST_RELEASE) * 256
}

/// The floor with a variant, which S5 refuses.
pub fn with_variant(r: &mut Random, floor: u32) -> u32 {
    floor / 256 * 256 + r.pick(&[1, 2, 7, 0x80, 0xFF])
}

/// A version of the running variant: of the floor's release, of the one before it or of the one after it.
pub fn near(r: &mut Random, component: &Component) -> u32 {
    let floor = component.floor / 256;
    let release = r.pick(&[floor, floor, floor.saturating_sub(1), (floor + 1).min(LAST_RELEASE)]);
    release * 256 + component.running % 256
}

/// A version of the running variant and of the release just below the floor's.
pub fn just_below(component: &Component) -> u32 {
    (component.floor / 256).saturating_sub(1) * 256 + component.running % 256
}

/// The least version that an offer may have: a later release than the running one that is not below the floor's.
pub fn least(component: &Component) -> u32 {
    (component.running / 256 + 1).max(component.floor / 256).min(LAST_RELEASE) * 256 + component.running % 256
}

/// The floor is of a later release than the running version.
pub fn is_above(component: &Component) -> bool {
    component.floor / 256 > component.running / 256
}

fn is_below(version: u32, component: &Component) -> bool {
    version / 256 < component.floor / 256
}

/// A version that nothing but the floor is against: of the running variant, of no lower release, and below the floor.
fn is_below_alone(version: u32, component: &Component) -> bool {
    version % 256 == component.running % 256 && version / 256 >= component.running / 256 && is_below(version, component)
}

fn is_just_below(version: u32, component: &Component) -> bool {
    version / 256 + 1 == component.floor / 256
}

// ---------------------------------------------------------------- what has to be met

const SETUP_SERVED: &str = "floor: set-up serves one above the running version";
const SETUP_PAST: &str = "floor: set-up serves one with a variant past the count";
const SETUP_ONE: &str = "floor: set-up refuses one of several by S5";
const SETUP_S4: &str = "floor: set-up refuses by S4 where S5 would too";
const SETUP_S4_LATER: &str = "floor: set-up refuses by S4 where an earlier component breaks S5";
const SETUP_S3: &str = "floor: set-up refuses by S3 where S5 would too";
const OFFER_ALONE: &str = "floor: offers rejected for it alone";
const OFFER_JUST_BELOW: &str = "floor: offers rejected for it alone, one release below it";
const OFFER_NEED: &str = "floor: offers rejected for it alone, whose need is unmet";
const OFFER_VARIANT: &str = "floor: offers below it of another variant, rejected with 0xE2";
const OFFER_AT: &str = "floor: offers accepted at it, above the running version";
const OFFER_ABOVE: &str = "floor: offers accepted one release above it, above the running version";
const OFFER_UNDER: &str = "floor: offers accepted over one that is not above the running version";
const OFFER_NEEDED: &str = "floor: offers accepted whose need is met by a version below its component's floor";
const IMAGE_ALONE: &str = "floor: images answered 0x07 for it alone";
const IMAGE_JUST_BELOW: &str = "floor: images answered 0x07 for it alone, one release below it";
const IMAGE_RUNNING: &str = "floor: images answered 0x07 for it alone, of the running version";
const IMAGE_OTHER: &str = "floor: images below it, answered 0x04 or 0x05";
const IMAGE_AT: &str = "floor: images staged at it, above the running version";
const IMAGE_ABOVE: &str = "floor: images staged one release above it, above the running version";
const D1_VARIANT: &str = "floor: D1 for its variant alone";
const D1_STAGED: &str = "floor: D1 for a staged version below it alone";
const D1_JUST_BELOW: &str = "floor: D1 for a staged version below it alone, one release below it";
const SERVED_STAGED: &str = "floor: calls served with a staged version at it, above the running version";
const SERVED_PAST: &str = "floor: calls served with one past the count that D1 would refuse";
const RESET_KEPT: &str = "floor: kept by a reset";
const RESET_RUNS: &str = "floor: kept by a reset that makes a version at it run";
const RESET_BELOW: &str = "floor: kept by a reset, above what runs after it";
const RUN_OUT: &str = "floor: demand 3, runs in which it alone keeps an offer out";
const RUN_BAD: &str = "floor: demand 3, runs in which it keeps out an offer whose body is not good";
const RUN_NEEDED: &str = "floor: demand 3, runs in which it keeps out what another offer needs";
const RUN_MET: &str = "floor: demand 3, runs in which an offer at it is staged, above the running version";
const RUN_PASSES: &str = "floor: demand 3, runs of several passes with an offer kept out";
const TOLD: &str = "floor: told of a component";

/// What has to be met, and how often in the gate's run at least.
pub const FLOORS: [(&str, u64); 34] = [
    (SETUP_SERVED, 1000),
    (SETUP_PAST, 1000),
    (SETUP_ONE, 1000),
    (SETUP_S4, 300),
    (SETUP_S4_LATER, 100),
    (SETUP_S3, 300),
    (OFFER_ALONE, 1000),
    (OFFER_JUST_BELOW, 1000),
    (OFFER_NEED, 100),
    (OFFER_VARIANT, 100),
    (OFFER_AT, 1000),
    (OFFER_ABOVE, 300),
    (OFFER_UNDER, 1000),
    (OFFER_NEEDED, 100),
    (IMAGE_ALONE, 300),
    (IMAGE_JUST_BELOW, 300),
    (IMAGE_RUNNING, 100),
    (IMAGE_OTHER, 100),
    (IMAGE_AT, 300),
    (IMAGE_ABOVE, 100),
    (D1_VARIANT, 100),
    (D1_STAGED, 100),
    (D1_JUST_BELOW, 30),
    (SERVED_STAGED, 300),
    (SERVED_PAST, 1000),
    (RESET_KEPT, 300),
    (RESET_RUNS, 30),
    (RESET_BELOW, 100),
    (RUN_OUT, 300),
    (RUN_BAD, 30),
    (RUN_NEEDED, 30),
    (RUN_MET, 300),
    (RUN_PASSES, 30),
    (TOLD, 1000),
];

// ---------------------------------------------------------------- what each call keeps

/// Set-up with the list in these bytes answered this number.
pub fn set_up(tally: &mut Tally, number: u32, list: &[u8], count: u8) -> Outcome {
    if list.len() != LIST_SIZE || !(1..=COMPONENT_LIMIT).contains(&(count as usize)) {
        return Ok(());
    }
    let components = read_list(list).map(|listed| listed.component());
    let (listed, past) = components.split_at(count as usize);
    let is_bad = |component: &Component| component.floor % 256 != 0;
    let bad = listed.iter().filter(|component| is_bad(component)).count();
    match number {
        SERVED if bad > 0 => return Err("set-up serves a floor with a variant".to_string()),
        SERVED => {
            tally.add(SETUP_SERVED, listed.iter().any(is_above) as u64);
            tally.add(SETUP_PAST, past.iter().any(is_bad) as u64);
        }
        S5 if bad == 0 => return Err("set-up refuses by S5 floors without a variant".to_string()),
        S5 if bad == 1 && count > 1 => tally.one(SETUP_ONE),
        S4 if bad > 0 => {
            tally.one(SETUP_S4);
            // The regions that S4 refuses for themselves, by their length.
            let short = listed.iter().position(|component| (component.length as usize) < REGION_LEAST);
            let first = listed.iter().position(is_bad);
            tally.add(SETUP_S4_LATER, (short.is_some() && first < short) as u64);
        }
        S3 if bad > 0 => tally.one(SETUP_S3),
        _ => {}
    }
    Ok(())
}

/// A served call: no floor has a variant, no staged version is below its floor, and every floor is as it was.
pub fn served(tally: &mut Tally, before: &DeviceRecord, after: &DeviceRecord) -> Outcome {
    let is_bad = |component: &Component| component.floor % 256 != 0 || component.staged.is_some_and(|staged| is_below(staged, component));
    if before.listed().iter().chain(after.listed()).any(is_bad) {
        return Err("served with a floor that has a variant, or with a staged version below its floor".to_string());
    }
    if before.components.iter().zip(&after.components).any(|(before, after)| before.floor != after.floor) {
        return Err("a floor changed".to_string());
    }
    let is_staged_at = |component: &Component| is_above(component) && component.staged.is_some_and(|staged| staged / 256 == component.floor / 256);
    tally.add(SERVED_STAGED, before.listed().iter().any(is_staged_at) as u64);
    tally.add(SERVED_PAST, before.components[before.listed().len()..].iter().any(is_bad) as u64);
    Ok(())
}

/// A served packet of the offer channel, with the reply that is due.
pub fn offered(tally: &mut Tally, before: &DeviceRecord, packet: &[u8], reply: &[u8]) -> Outcome {
    // Information and extended have an id that no component has.
    let Some(component) = demand::component_of(before, packet[offer_at::ID]) else { return Ok(()) };
    let version = four(&packet[offer_at::VERSION..]);
    let is_later = version / 256 > component.running / 256;
    let needed = demand::component_of(before, packet[offer_at::NEED]);
    let effective = |own: &Component| own.staged.unwrap_or(own.running);
    match (reply[offer_reply_at::STATUS], reply[offer_reply_at::REASON]) {
        (OFFER_ACCEPT, _) if is_below(version, component) => return Err("an offer below the floor is accepted".to_string()),
        (OFFER_ACCEPT, _) => {
            match (is_above(component), version / 256 - component.floor / 256) {
                (true, 0) => tally.one(OFFER_AT),
                (true, 1) => tally.one(OFFER_ABOVE),
                (false, _) if component.floor > 0 => tally.one(OFFER_UNDER),
                _ => {}
            }
            tally.add(OFFER_NEEDED, needed.is_some_and(|own| is_below(effective(own), own)) as u64);
        }
        (OFFER_REJECT, REJECT_OLD_FW) if is_later && !is_below(version, component) => {
            return Err("a later offer that is not below the floor is rejected with 0".to_string());
        }
        (OFFER_REJECT, REJECT_OLD_FW) if is_later => {
            tally.one(OFFER_ALONE);
            tally.add(OFFER_JUST_BELOW, is_just_below(version, component) as u64);
            let least = number(&packet[offer_at::LEAST..][..3]) as u32;
            tally.add(OFFER_NEED, needed.is_some_and(|own| effective(own) / 256 < least) as u64);
        }
        (OFFER_REJECT, REJECT_WRONG_VARIANT) if is_later && is_below(version, component) => tally.one(OFFER_VARIANT),
        _ => {}
    }
    Ok(())
}

/// A served content packet that ended a session, with its reply; the image stands in the staging buffer.
pub fn judged(tally: &mut Tally, before: &DeviceRecord, staging: &[u8], reply: &[u8]) -> Outcome {
    let Some(component) = before.session.slot().map(|slot| before.components[slot as usize]) else { return Ok(()) };
    let version = four(&staging[component.base as usize + image_at::VERSION..]);
    let is_alone = is_below_alone(version, &component);
    match reply[content_reply_at::STATUS] {
        SUCCESS if is_below(version, &component) => return Err("an image below the floor is staged".to_string()),
        SUCCESS if is_above(&component) => match version / 256 - component.floor / 256 {
            0 => tally.one(IMAGE_AT),
            1 => tally.one(IMAGE_ABOVE),
            _ => {}
        },
        ERROR_VERSION if version % 256 == component.running % 256 && version / 256 >= component.running / 256 && !is_alone => {
            return Err("an image that nothing is against is answered with 0x07".to_string());
        }
        ERROR_VERSION if is_alone => {
            tally.one(IMAGE_ALONE);
            tally.add(IMAGE_JUST_BELOW, is_just_below(version, &component) as u64);
            tally.add(IMAGE_RUNNING, (version == component.running) as u64);
        }
        ERROR_VERIFY | ERROR_CRC if is_alone => tally.one(IMAGE_OTHER),
        _ => {}
    }
    Ok(())
}

/// A served reset.
pub fn reset(tally: &mut Tally, before: &DeviceRecord, after: &DeviceRecord) {
    for (before, after) in before.listed().iter().zip(after.listed()).filter(|(before, _)| before.floor != 0) {
        tally.one(RESET_KEPT);
        tally.add(RESET_RUNS, (is_above(before) && after.running / 256 == after.floor / 256) as u64);
        tally.add(RESET_BELOW, is_above(after) as u64);
    }
}

/// Counts a record that row D1 refuses for its floors alone: without their variants, or without floors, it is served.
pub fn refused(tally: &mut Tally, record: &DeviceRecord) {
    let is_served = |floor: fn(u32) -> u32| {
        let mut other = *record;
        for component in &mut other.components {
            component.floor = floor(component.floor);
        }
        Other.version_reply(&other.bytes(), &mut [0; LONG_SIZE]) == SERVED
    };
    if is_served(|floor| floor / 256 * 256) {
        tally.one(D1_VARIANT);
    } else if is_served(|_| 0) {
        tally.one(D1_STAGED);
        let is_near = |component: &Component| component.staged.is_some_and(|staged| is_just_below(staged, component));
        tally.add(D1_JUST_BELOW, record.listed().iter().any(is_near) as u64);
    }
}

/// Counts a component that a call told, by its floor.
pub fn told(tally: &mut Tally, floor: crate::header::Version) {
    tally.add(TOLD, (floor != crate::header::Version::default()) as u64);
}

/// Counts a whole run of which demand 3 holds, with the set that it staged: what the floors kept out, and what met them.
pub fn ran(tally: &mut Tally, before: &DeviceRecord, entries: &[Entry], set: usize, passes: u32) {
    let mut without = *before;
    for component in &mut without.components {
        component.floor = 0;
    }
    let component = |entry: &Entry| demand::component_of(before, entry.offer[offer_at::ID]);
    let is_out = |entry: &&Entry| demand::is_eligible(&without, entry) && !demand::is_eligible(before, entry);
    if entries.iter().any(|entry| is_out(&entry)) {
        tally.one(RUN_OUT);
        tally.add(RUN_PASSES, (passes > 1) as u64);
    }
    let is_bad = |entry: &Entry| component(entry).is_some_and(|component| !demand::is_good(component, entry));
    tally.add(RUN_BAD, entries.iter().filter(is_out).any(is_bad) as u64);
    // What the smallest closed set has besides where there are no floors: what is below one, and what needs that.
    let more = demand::smallest(&without, entries).unwrap_or(0) & !set;
    let members = |set: usize| entries.iter().enumerate().filter(move |(place, _)| set >> place & 1 == 1).map(|(_, entry)| entry);
    tally.add(RUN_NEEDED, members(more).any(|entry| demand::is_eligible(before, entry)) as u64);
    let is_at = |entry: &Entry, own: &Component| four(&entry.offer[offer_at::VERSION..]) / 256 == own.floor / 256;
    let is_met = |entry: &Entry| component(entry).is_some_and(|own| is_above(own) && is_at(entry, own));
    tally.add(RUN_MET, members(set).any(is_met) as u64);
}
