//! The CRC, a region of the staging buffer, the image in it, a component's versions, and set-up: document 01, "The device", rows S1 to S4, and the
//! addresses of E8 and E9; document 02, A1 and A2. Written from these documents. The components have no floor; floors.rs has those.
use cfu_updater::device_component::record::{Component, Fixed, Listed};
use cfu_updater::device_component::setup::{setup_verdict, SetupRow};
use cfu_updater::crc16::crc16;
use cfu_updater::image::judge::{examine, ImageFault};
use cfu_updater::image::region::{Region, StagingOffset};
use cfu_updater::wire::address::RegionAddress;
use cfu_updater::wire::version::Version;

#[allow(dead_code)] // each test uses some of it
mod layout;
use layout::*;

fn region(base: u32, len: u32) -> Region {
    Region {
        base: StagingOffset::new(base),
        len,
    }
}

/// An image of `size` bytes.
fn image(size: usize, version: Version, id: u8) -> Vec<u8> {
    let mut m: Vec<u8> = (0..size).map(|i| i as u8).collect();
    make_image(&mut m, version.number(), id);
    m
}

/// A component as set-up makes it.
fn component(id: u8, running: Version, region: Region) -> Component {
    Component::listed(Listed {
        fixed: Fixed { id, region, floor: Version::new(0, 0, 0) },
        running,
    })
}

#[test]
fn the_crc_gives_its_check_value() {
    assert_eq!(crc16(b"123456789"), 0x31C3);
    assert_eq!(crc16(b""), 0);
    assert_eq!(crc16(&[0; 64]), 0);
    // The polynomial itself, from a single bit.
    assert_eq!(crc16(&[1]), 0x1021);
    // Bytes with their own CRC after them have the CRC 0.
    assert_eq!(crc16(b"123456789\x31\xC3"), 0);
}

#[test]
fn the_crc_by_the_table_is_that_bit_after_bit() {
    for first in 0..=255 {
        for second in 0..=255 {
            let bytes = [first, second];
            assert_eq!(crc16(&bytes), crc(&bytes), "{bytes:02x?}");
        }
    }
}

#[test]
fn e8_and_e9_addresses_in_a_region_of_64() {
    for r in [region(0, 64), region(64, 64)] {
        assert!(r.holds(RegionAddress::new(12), 52));
        assert!(!r.holds(RegionAddress::new(13), 52));
        assert!(!r.holds(RegionAddress::new(0xFFFFFFFF), 1));
        assert!(r.holds(RegionAddress::new(63), 1));
        assert!(!r.holds(RegionAddress::new(64), 1));
    }
}

#[test]
fn erase_and_write_change_their_own_bytes_only() {
    let mut staging = [0x11; 128];
    region(64, 64).erase(&mut staging);
    assert!(staging[..64].iter().all(|b| *b == 0x11));
    assert!(staging[64..].iter().all(|b| *b == 0xFF));
    region(64, 64).write(RegionAddress::new(12), &mut staging, &[0x22; 52]);
    assert!(staging[64..76].iter().all(|b| *b == 0xFF));
    assert!(staging[76..].iter().all(|b| *b == 0x22));
    assert!(staging[..64].iter().all(|b| *b == 0x11));
    let before = staging;
    region(64, 64).write(RegionAddress::new(13), &mut staging, &[0x33; 52]);
    region(0, 64).write(RegionAddress::new(0xFFFFFFFF), &mut staging, &[0x33]);
    assert_eq!(staging, before);
}

#[test]
fn an_image_is_judged_by_crc_then_id_then_its_version() {
    let v = Version::new(1, 3, 0);
    for size in [8, 64, 500] {
        let m = image(size, v, 1);
        assert_eq!(examine(&m, 1), Ok(v), "{size} bytes");
        assert_eq!(examine(&m, 2), Err(ImageFault::Foreign), "{size} bytes");
        for i in 0..size {
            let mut damaged = m.clone();
            damaged[i] ^= 0x10;
            assert_eq!(examine(&damaged, 1), Err(ImageFault::Damaged), "{size} bytes, byte {i}");
            assert_eq!(examine(&damaged, 2), Err(ImageFault::Damaged), "{size} bytes, byte {i}");
        }
    }
}

#[test]
fn an_image_is_read_from_its_region() {
    let v = Version::new(1, 2, 7);
    let mut staging = [0; 128];
    staging[64..].copy_from_slice(&image(64, v, 2));
    assert_eq!(region(64, 64).image(&staging, 2), Ok(v));
    assert_eq!(region(64, 63).image(&staging, 2), Err(ImageFault::Damaged));
}

/// The most components, as the byte that counts them, and the shortest region.
const MOST: u8 = COMPONENT_LIMIT as u8;
const LEAST: u32 = REGION_LEAST as u32;

/// Set-up of components with these ids and regions, over a buffer of n bytes.
fn set_up(n: usize, count: u8, some: &[(u8, u32, u32)]) -> Result<(), SetupRow> {
    let made = |(id, base, len)| component(id, Version::new(1, 0, 0), region(base, len));
    let mut components = [made((0, 0, 0)); COMPONENT_LIMIT];
    for (component, told) in components.iter_mut().zip(some) {
        *component = made(*told);
    }
    setup_verdict(n, count, components)
}

#[test]
fn set_up_rows_s1_to_s4() {
    let bench = [(1, 0, 64), (2, 64, 64)];
    assert_eq!(set_up(128, 2, &bench), Ok(()));
    assert_eq!(set_up(STAGING_LIMIT, 2, &bench), Ok(()));
    // S1 comes first, over a count, ids and regions that are wrong too.
    assert_eq!(set_up(STAGING_LIMIT + 1, 2, &bench), Err(SetupRow::S1));
    assert_eq!(set_up(STAGING_LIMIT + 1, 0, &[]), Err(SetupRow::S1));
    for count in [0, MOST + 1, 255] {
        assert_eq!(set_up(128, count, &bench), Err(SetupRow::S2), "count {count}");
    }
    for id in [0, ID_LIMIT + 1, 0xFD, 0xFF] {
        assert_eq!(set_up(128, 2, &[(1, 0, 64), (id, 64, 64)]), Err(SetupRow::S3), "id {id}");
    }
    assert_eq!(set_up(128, 2, &[(1, 0, 64), (ID_LIMIT, 64, 64)]), Ok(()));
    assert_eq!(set_up(128, 2, &[(1, 0, 64), (1, 64, 64)]), Err(SetupRow::S3));
    // S3 over the whole list before S4.
    assert_eq!(set_up(128, 2, &[(1, 0, LEAST - 1), (0, 64, 64)]), Err(SetupRow::S3));
    let regions = [(64, LEAST - 1), (64, 65), (63, 64), (0, 64), (32, LEAST), (0xFFFFFFFF, 64), (0xFFFFFFC0, 64), (64, 0xFFFFFFFF)];
    for (base, len) in regions {
        assert_eq!(set_up(128, 2, &[(1, 0, 64), (2, base, len)]), Err(SetupRow::S4), "region {base} {len}");
    }
    // Regions may touch, in either order, and as many of the shortest as there may be components are allowed.
    assert_eq!(set_up(128, 2, &[(1, 64, 64), (2, 0, 64)]), Ok(()));
    let most: Vec<_> = (1..=MOST).map(|id| (id, LEAST * u32::from(id), LEAST)).collect();
    let end = REGION_LEAST * (COMPONENT_LIMIT + 1);
    assert_eq!(set_up(end, MOST, &most), Ok(()));
    assert_eq!(set_up(end - 1, MOST, &most), Err(SetupRow::S4));
    // Only the first `count` components are the device's.
    assert_eq!(set_up(128, 1, &[(1, 0, 64), (1, 0, 64)]), Ok(()));
}

#[test]
fn a_staged_version_is_effective_until_a_reset_makes_it_running() {
    let (old, new) = (Version::new(1, 2, 0), Version::new(1, 3, 0));
    let c = component(1, old, region(0, 64));
    assert!(!c.is_pending());
    assert_eq!(c.effective(), old);
    let staged = c.with_staged(new);
    assert!(staged.is_pending());
    assert_eq!((staged.effective(), staged.running), (new, old));
    let reset = staged.after_reset();
    assert!(!reset.is_pending());
    assert_eq!((reset.effective(), reset.running), (new, new));
}

/// Offer check 7 asks for a greater release than the running one; image judgement and D1 refuse a lower one. All three want the running variant (document 02,
/// A1).
#[test]
fn versions_against_the_running_one() {
    let c = component(1, Version::new(1, 2, 7), region(0, 64));
    let lower = [Version::new(1, 1, 7), Version::new(0, 65535, 7), Version::new(0, 0, 7)];
    let greater = [Version::new(1, 3, 7), Version::new(2, 0, 7), Version::new(255, 65535, 7)];
    for v in lower {
        assert!(!c.is_wrong_variant(v) && c.is_too_low(v));
        assert!(!c.image_version_fits(v));
        assert!(!c.with_staged(v).keeps_staged());
    }
    for v in greater {
        assert!(!c.is_wrong_variant(v) && !c.is_too_low(v));
        assert!(c.image_version_fits(v));
        assert!(c.with_staged(v).keeps_staged());
    }
    assert!(!c.is_wrong_variant(c.running) && c.is_too_low(c.running));
    assert!(c.image_version_fits(c.running));
    assert!(c.with_staged(c.running).keeps_staged());
    assert!(c.keeps_staged());
}

/// Another variant fits nowhere, whatever its release; a release is old or not whatever its variant.
#[test]
fn another_variant_than_the_running_one() {
    let c = component(1, Version::new(1, 2, 7), region(0, 64));
    for variant in [0, 6, 8, 0x87, 255] {
        for (major, minor, old) in [(1, 1, true), (1, 2, true), (1, 3, false), (2, 0, false), (0, 65535, true)] {
            let v = Version::new(major, minor, variant);
            assert!(c.is_wrong_variant(v));
            assert_eq!(c.is_too_low(v), old);
            assert!(!c.image_version_fits(v));
            assert!(!c.with_staged(v).keeps_staged());
        }
    }
    // It is the running version's variant that counts, also where another is staged.
    let odd = c.with_staged(Version::new(1, 3, 9));
    assert!(odd.is_wrong_variant(Version::new(1, 4, 9)));
    assert!(!odd.is_wrong_variant(Version::new(1, 4, 7)));
}
