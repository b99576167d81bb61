#!/usr/bin/env bash
# The Rust crate is made afresh from the proved source, builds with overflow checks and without a warning, its documentation too, and its tests
# pass: the examples and rows of document 01, run through rustc. The crate with its wrappers for C builds so too, with the standard library and without.
set -u
cd "$(dirname "$0")/../.." || exit 1

fail() {
    printf 'tests/rust/run.sh: FAILED: %s\n' "$1"
    exit 1
}

for tool in python3 cargo rustc; do
    command -v "$tool" >/dev/null 2>&1 || fail "$tool is not installed"
done
rustc --version || fail "rustc does not run"

python3 tests/rust/forms.py || fail "tools/rust_crate on forms of its own"

crate=target/rust/cfu_updater
rm -rf "$crate"
python3 tools/rust_crate "$crate" || fail "the crate is not made"

export RUSTFLAGS='-D warnings -C overflow-checks=on' RUSTDOCFLAGS='-D warnings' CARGO_TARGET_DIR="$PWD/target/rust/build"
cd "$crate" || exit 1
cargo build --offline --quiet || fail "the crate does not build"
cargo doc --offline --quiet --no-deps || fail "its documentation does not build"
cargo test --offline --quiet || fail "its tests"
cd c || exit 1
cargo build --offline --quiet || fail "the wrappers for C do not build"
cargo build --release --offline --quiet || fail "the wrappers for C do not build for release"
cargo rustc --release --offline --quiet --no-default-features --crate-type staticlib || fail "the wrappers for C do not build without the standard library"
cargo doc --offline --quiet --no-deps || fail "the wrappers' documentation does not build"
