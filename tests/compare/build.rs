//! Links the static library that tools/library makes, and checks the numbers of src/layout.rs against include/cfu.h.
use std::collections::HashMap;

/// A number as C and Rust write it.
fn number(text: &str) -> Option<u64> {
    match text.strip_prefix("0x") {
        Some(digits) => u64::from_str_radix(digits, 16).ok(),
        None => text.parse().ok(),
    }
}

fn main() {
    let own = std::env::var("CARGO_MANIFEST_DIR").unwrap();
    let top = format!("{own}/../..");
    println!("cargo:rustc-link-search=native={top}/target/staticlib");
    println!("cargo:rustc-link-lib=static=cfu");
    println!("cargo:rerun-if-changed={top}/target/staticlib/libcfu.a");

    let (header, layout) = (format!("{top}/include/cfu.h"), format!("{own}/src/layout.rs"));
    println!("cargo:rerun-if-changed={header}");
    println!("cargo:rerun-if-changed={layout}");
    let layout = std::fs::read_to_string(layout).unwrap();
    // `pub const NAME: TYPE = NUMBER;`
    let ours: HashMap<&str, u64> = layout
        .lines()
        .filter_map(|line| {
            let (name, rest) = line.strip_prefix("pub const ")?.split_once(": ")?;
            let (_, value) = rest.strip_suffix(';')?.split_once(" = ")?;
            Some((name, number(value)?))
        })
        .collect();
    // `#define CFU_NAME NUMBER`
    let mut held = 0;
    for line in std::fs::read_to_string(header).unwrap().lines() {
        let mut words = line.strip_prefix("#define CFU_").unwrap_or("").split_whitespace();
        if let (Some(name), Some(value)) = (words.next(), words.next()) {
            assert_eq!(ours.get(name).copied(), number(value), "CFU_{name}: src/layout.rs and include/cfu.h");
            held += 1;
        }
    }
    assert!(held > 0, "include/cfu.h defines no number");
}
