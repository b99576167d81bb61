//! The two ways to the CRC of the crate of tools/rust_crate, under the names that main.c calls them by; `level` is the crate's opt-level.
#![no_std]

use cfu_updater::speed_crc::{crc16_by_bits, crc16_by_table};
use core::slice::from_raw_parts;

/// # Safety
/// So many bytes can be read at that place.
#[cfg_attr(level = "3", export_name = "crate_3_table")]
#[cfg_attr(level = "s", export_name = "crate_s_table")]
pub unsafe extern "C" fn table(bytes: *const u8, length: usize) -> u16 {
    crc16_by_table(unsafe { from_raw_parts(bytes, length) })
}

/// # Safety
/// So many bytes can be read at that place.
#[cfg_attr(level = "3", export_name = "crate_3_bits")]
#[cfg_attr(level = "s", export_name = "crate_s_bits")]
pub unsafe extern "C" fn bits(bytes: *const u8, length: usize) -> u16 {
    crc16_by_bits(unsafe { from_raw_parts(bytes, length) })
}
