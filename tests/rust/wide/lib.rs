//! The cases of tests/rust/wide.rs, by number, for wide.mjs: a case that fails panics, which is a trap there.
#[path = "../wide.rs"]
mod wide;

/// How many cases there are.
#[no_mangle]
pub extern "C" fn count() -> u32 {
    wide::CASES.len() as u32
}

/// The bits of a usize.
#[no_mangle]
pub extern "C" fn bits() -> u32 {
    usize::BITS
}

#[no_mangle]
pub extern "C" fn run(i: u32) {
    wide::CASES[i as usize].1()
}

/// Where the name of a case stands, and how long it is.
#[no_mangle]
pub extern "C" fn name(i: u32) -> *const u8 {
    wide::CASES[i as usize].0.as_ptr()
}

#[no_mangle]
pub extern "C" fn name_length(i: u32) -> usize {
    wide::CASES[i as usize].0.len()
}
