//! The floor of a component, its lowest allowed version: document 02, A5, over document 01's set-up, offer checks, image judgement, row D1 and reset. Written
//! from these documents.
use cfu_updater::device::answer::Refusal;
use cfu_updater::device::record::Device;
use cfu_updater::device::setup::{device_of, set_up};
use cfu_updater::device_component::record::{Component, Fixed, Listed};
use cfu_updater::device_component::setup::SetupRow;
use cfu_updater::device_session::stage::Stage;
use cfu_updater::image::region::{Region, StagingOffset};
use cfu_updater::wire::version::Version;

#[allow(dead_code)] // each test uses some of it
mod layout;
use layout::*;

const PLATFORM: u16 = 0x0042;
const REGION: usize = 64;
const STAGING: [u8; 2 * REGION] = [0x11; 2 * REGION];
const NO_NEED: [u8; 4] = [0; 4];

fn v(major: u8, minor: u16, variant: u8) -> Version {
    Version::new(major, minor, variant)
}

/// A component at a place of the list, with its number as id and a region of its own.
fn listed(place: u8, running: Version, floor: Version) -> Listed {
    let region = Region {
        base: StagingOffset::new(u32::from(place) * REGION as u32),
        len: REGION as u32,
    };
    Listed {
        fixed: Fixed { id: place + 1, region, floor },
        running,
    }
}

/// A list of two components: 1 with this running version and floor, 2 at 1.1.0 with this floor.
fn list(running: Version, floor: Version, other: Version) -> [Listed; COMPONENT_LIMIT] {
    let mut all = [listed(0, v(0, 0, 0), v(0, 0, 0)); COMPONENT_LIMIT];
    all[0] = listed(0, running, floor);
    all[1] = listed(1, v(1, 1, 0), other);
    all
}

/// The device of these, where component 2 has no floor.
#[track_caller]
fn device(running: Version, floor: Version) -> Device {
    set_up(PLATFORM, list(running, floor, v(0, 0, 0)), 2, &STAGING).unwrap()
}

/// The status and the reason of the reply to an offer of this version for component 1, and the device afterwards.
#[track_caller]
fn offered(d: Device, version: Version, need: [u8; 4]) -> ((u8, u8), Device) {
    let a = d.offer(&STAGING, &offer_packet(1, version.number(), need, PLATFORM)).unwrap();
    ((a.replies.reply[offer_reply_at::STATUS], a.replies.reply[offer_reply_at::REASON]), a.device)
}

/// The status of the last block of an image for component 1, and the device afterwards.
#[track_caller]
fn sent(d: Device, image: &[u8]) -> (u8, Device) {
    let mut staging = STAGING;
    let first = d.content(&mut staging, &content_packet(FLAG_FIRST_BLOCK, 7, 0, &image[..DATA_SIZE])).unwrap();
    assert_eq!(first.replies.reply[content_reply_at::STATUS], SUCCESS);
    let last = first.device.content(&mut staging, &content_packet(FLAG_LAST_BLOCK, 8, DATA_SIZE as u32, &image[DATA_SIZE..])).unwrap();
    (last.replies.reply[content_reply_at::STATUS], last.device)
}

fn image(version: Version, id: u8) -> Vec<u8> {
    let mut m = vec![0x5A; REGION];
    make_image(&mut m, version.number(), id);
    m
}

const ACCEPT: (u8, u8) = (OFFER_ACCEPT, 0);
const OLD: (u8, u8) = (OFFER_REJECT, REJECT_OLD_FW);
const VARIANT: (u8, u8) = (OFFER_REJECT, REJECT_WRONG_VARIANT);

#[test]
fn set_up_row_s5() {
    let running = v(1, 2, 0);
    let verdict = |list, count| set_up(PLATFORM, list, count, &STAGING).map(|_| ());
    let none = v(0, 0, 0);
    // Any release is a floor, also one above the running version.
    for floor in [none, v(0, 1, 0), v(1, 2, 0), v(1, 3, 0), v(2, 0, 0), v(255, 65535, 0)] {
        assert_eq!(verdict(list(running, floor, none), 2), Ok(()), "{floor:?}");
        for variant in 1..=255 {
            let odd = v(floor.major(), floor.minor(), variant);
            assert_eq!(verdict(list(running, odd, none), 2), Err(SetupRow::S5), "{odd:?}");
            assert_eq!(verdict(list(running, none, odd), 2), Err(SetupRow::S5), "{odd:?}");
            // Also where that is the running version's variant.
            assert_eq!(verdict(list(v(1, 2, variant), odd, none), 2), Err(SetupRow::S5), "{odd:?}");
        }
    }
    // Only the first `count` are the device's.
    assert_eq!(verdict(list(running, none, v(1, 0, 1)), 1), Ok(()));
    // S1 to S4 over the whole list before S5, whichever component breaks them.
    let odd = list(running, v(1, 0, 1), v(1, 0, 1));
    assert_eq!(verdict(odd, 0), Err(SetupRow::S2));
    for slot in 0..2 {
        let mut all = odd;
        all[slot].fixed.region.len = REGION_LEAST as u32 - 1;
        assert_eq!(verdict(all, 2), Err(SetupRow::S4));
        all[slot].fixed.id = 0;
        assert_eq!(verdict(all, 2), Err(SetupRow::S3));
    }
    assert_eq!(set_up(PLATFORM, odd, 2, &vec![0; STAGING_LIMIT + 1]), Err(SetupRow::S1));
    // What is refused leaves the blank device.
    assert_eq!(set_up(PLATFORM, odd, 2, &STAGING), Err(SetupRow::S5));
    assert_eq!(device_of(set_up(PLATFORM, odd, 2, &STAGING)), Device::blank());
}

#[test]
fn an_offer_below_the_floor_is_rejected_with_0() {
    // The floor, what is offered to 1.2.0, and the reply.
    let rows = [
        (v(1, 4, 0), v(1, 2, 0), OLD),
        (v(1, 4, 0), v(1, 3, 0), OLD),
        (v(1, 4, 0), v(1, 4, 0), ACCEPT),
        (v(1, 4, 0), v(1, 5, 0), ACCEPT),
        (v(1, 4, 0), v(2, 0, 0), ACCEPT),
        (v(1, 4, 0), v(0, 65535, 0), OLD),
        (v(2, 0, 0), v(1, 65535, 0), OLD),
        (v(2, 0, 0), v(2, 0, 0), ACCEPT),
        (v(255, 65535, 0), v(255, 65534, 0), OLD),
        (v(255, 65535, 0), v(255, 65535, 0), ACCEPT),
        // One that is not above the running version's release asks for nothing more.
        (v(1, 2, 0), v(1, 2, 0), OLD),
        (v(1, 2, 0), v(1, 3, 0), ACCEPT),
        (v(1, 1, 0), v(1, 1, 0), OLD),
        (v(1, 1, 0), v(1, 2, 0), OLD),
        (v(1, 1, 0), v(1, 3, 0), ACCEPT),
        (v(1, 3, 0), v(1, 3, 0), ACCEPT),
    ];
    for (floor, version, reply) in rows {
        let d = device(v(1, 2, 0), floor);
        let (told, next) = offered(d, version, NO_NEED);
        assert_eq!(told, reply, "floor {floor:?}, offer {version:?}");
        assert_eq!(next.components, d.components);
        assert_eq!(next.session.stage == Stage::Idle, reply != ACCEPT);
    }
}

#[test]
fn a_floor_counts_by_release_and_after_the_variant() {
    let d = device(v(1, 2, 7), v(1, 4, 0));
    assert_eq!(offered(d, v(1, 3, 7), NO_NEED).0, OLD);
    assert_eq!(offered(d, v(1, 4, 7), NO_NEED).0, ACCEPT);
    for release in [3, 4, 5] {
        assert_eq!(offered(d, v(1, release, 0), NO_NEED).0, VARIANT);
        assert_eq!(offered(d, v(1, release, 8), NO_NEED).0, VARIANT);
    }
    // A pending component comes before both.
    let mut pending = d;
    pending.components[0] = d.components[0].with_staged(v(1, 4, 7));
    assert_eq!(offered(pending, v(1, 3, 7), NO_NEED).0, (OFFER_REJECT, REJECT_SWAP_PENDING));
}

#[test]
fn a_floor_comes_before_a_need_and_is_no_part_of_it() {
    let unmet = need_bytes(2, 0x01_0002);
    let d = device(v(1, 2, 0), v(1, 4, 0));
    assert_eq!(offered(d, v(1, 3, 0), unmet).0, OLD);
    assert_eq!(offered(d, v(1, 4, 0), unmet).0, (OFFER_SKIP, 0));
    // Component 2 runs 1.1.0, far below its own floor, and meets a need of 1.1 all the same.
    let s = set_up(PLATFORM, list(v(1, 2, 0), v(1, 4, 0), v(200, 0, 0)), 2, &STAGING).unwrap();
    assert_eq!(offered(s, v(1, 4, 0), need_bytes(2, 0x01_0001)).0, ACCEPT);
    assert_eq!(offered(s, v(1, 4, 0), unmet).0, (OFFER_SKIP, 0));
}

#[test]
fn an_image_below_the_floor_is_answered_with_0x07() {
    // The offer may be of another version than the image.
    for offer in [v(1, 4, 0), v(1, 5, 0), v(2, 0, 0)] {
        let (told, open) = offered(device(v(1, 2, 0), v(1, 4, 0)), offer, NO_NEED);
        assert_eq!(told, ACCEPT);
        for below in [v(1, 3, 0), v(1, 2, 0), v(1, 1, 0), v(0, 65535, 0), v(1, 4, 1), v(1, 3, 1)] {
            let (status, next) = sent(open, &image(below, 1));
            assert_eq!(status, ERROR_VERSION, "{below:?}");
            assert_eq!((next.components, next.session.stage), (open.components, Stage::Idle), "{below:?}");
        }
        for fine in [v(1, 4, 0), v(1, 5, 0), v(2, 0, 0), v(255, 65535, 0)] {
            let (status, next) = sent(open, &image(fine, 1));
            assert_eq!((status, next.components[0].staged), (SUCCESS, Some(fine)), "{fine:?}");
            assert_eq!(next.components[0].fixed, open.components[0].fixed);
        }
        // The CRC and the id come first.
        assert_eq!(sent(open, &image(v(1, 3, 0), 2)).0, ERROR_VERIFY);
        let mut damaged = image(v(1, 3, 0), 1);
        damaged[REGION - CRC_SIZE] ^= 1;
        assert_eq!(sent(open, &damaged).0, ERROR_CRC);
    }
    // The running version's own release is above its floor, at it, or below it.
    for (floor, status) in [(v(1, 1, 0), SUCCESS), (v(1, 2, 0), SUCCESS), (v(1, 3, 0), ERROR_VERSION)] {
        let (told, open) = offered(device(v(1, 2, 7), floor), v(1, 3, 7), NO_NEED);
        assert_eq!((told, sent(open, &image(v(1, 2, 7), 1)).0), (ACCEPT, status), "{floor:?}");
    }
}

/// What the entries answer: all alike.
#[track_caller]
fn answers(d: Device, answer: Result<(), Refusal>) {
    let mut staging = STAGING;
    let offer = d.offer(&STAGING, &[0; SHORT_SIZE]);
    let content = d.content(&mut staging, &[0; LONG_SIZE]);
    assert_eq!((offer.map(|_| ()), content.map(|_| ())), (answer, answer));
    assert_eq!((d.version_reply().map(|_| ()), d.reset().map(|_| ())), (answer, answer));
    assert_eq!(staging, STAGING);
    if answer == Err(Refusal::D1) {
        assert_eq!((d.after(offer), d.after(content), d.after_reset(d.reset())), (d, d, d));
    }
}

#[test]
fn d1_refuses_a_staged_version_below_the_floor_and_a_floor_with_a_variant() {
    let with = |place: usize, floor, staged| {
        let mut d = device(v(1, 2, 0), v(0, 0, 0));
        let c = Component {
            fixed: Fixed { floor, ..d.components[place].fixed },
            running: v(1, 2, 7),
            staged,
        };
        d.components[place] = c;
        d
    };
    let pending = |major, minor| Some(v(major, minor, 7));
    for place in [0, 1] {
        // At the floor and above it, also where the running version is below it.
        answers(with(place, v(1, 4, 0), pending(1, 4)), Ok(()));
        answers(with(place, v(1, 4, 0), pending(1, 5)), Ok(()));
        answers(with(place, v(1, 4, 0), None), Ok(()));
        answers(with(place, v(1, 2, 0), pending(1, 2)), Ok(()));
        answers(with(place, v(255, 65535, 0), pending(255, 65535)), Ok(()));
        // Below it, though not below the running version.
        answers(with(place, v(1, 4, 0), pending(1, 3)), Err(Refusal::D1));
        answers(with(place, v(1, 4, 0), pending(1, 2)), Err(Refusal::D1));
        answers(with(place, v(1, 3, 0), pending(1, 2)), Err(Refusal::D1));
        answers(with(place, v(2, 0, 0), pending(1, 65535)), Err(Refusal::D1));
        answers(with(place, v(255, 65535, 0), pending(255, 65534)), Err(Refusal::D1));
        for variant in [1, 7, 0x80, 255] {
            answers(with(place, v(0, 0, variant), None), Err(Refusal::D1));
            answers(with(place, v(1, 2, variant), pending(1, 3)), Err(Refusal::D1));
        }
    }
    // Components past the count are not looked at.
    answers(with(2, v(1, 4, 0), pending(1, 3)), Ok(()));
    answers(with(COMPONENT_LIMIT - 1, v(0, 0, 1), None), Ok(()));
}

#[test]
fn a_reset_keeps_the_floor() {
    let floor = v(1, 4, 0);
    let d = device(v(1, 2, 0), floor);
    let idle = d.reset();
    assert_eq!(idle, Ok(d));
    assert_eq!(offered(d, v(1, 3, 0), NO_NEED).0, OLD);
    // What is staged at the floor runs; the floor is then its release and asks for nothing more.
    let (_, staged) = sent(offered(d, v(1, 4, 0), NO_NEED).1, &image(v(1, 4, 0), 1));
    let after = staged.reset().unwrap();
    assert_eq!((after.components[0].running, after.components[0].fixed.floor), (v(1, 4, 0), floor));
    assert_eq!(offered(after, v(1, 4, 0), NO_NEED).0, OLD);
    assert_eq!(offered(after, v(1, 5, 0), NO_NEED).0, ACCEPT);
    // The version reply says what runs, whatever the floor.
    assert_eq!(number(&d.version_reply().unwrap()[version_reply_at::COMPONENTS..][..4]), u64::from(v(1, 2, 0).number()));
}
