#!/usr/bin/env bash
# The Rust crate with a usize of 32 bits: it is made, built with overflow checks for WebAssembly, and the cases of wide.rs run in node. It is no part
# of the gate, which has no such target: it needs a rustc with wasm32-unknown-unknown, named by RUSTC where it is not the first, and node.
set -u
cd "$(dirname "$0")/../.." || exit 1

fail() {
    printf 'tests/rust/wide.sh: FAILED: %s\n' "$1"
    exit 1
}

rustc=${RUSTC:-rustc}
for tool in python3 "$rustc" node; do
    command -v "$tool" >/dev/null 2>&1 || fail "$tool is not installed"
done
"$rustc" --version || fail "rustc does not run"

crate=target/rust/cfu_updater out=target/rust/wide
rm -rf "$crate" "$out"
mkdir -p "$out"
python3 tools/rust_crate "$crate" || fail "the crate is not made"

build() {
    "$rustc" --edition 2021 --target wasm32-unknown-unknown -D warnings -C overflow-checks=on -C opt-level=2 -C panic=abort --out-dir "$out" "$@"
}
build --crate-type rlib --crate-name cfu_updater "$crate/src/lib.rs" || fail "the crate does not build"
# Beside wide.rs and the formats that it uses.
mkdir "$crate/tests/wide" && cp tests/rust/wide/lib.rs "$crate/tests/wide" || fail "the cases are not copied"
build --crate-type cdylib --crate-name wide --extern cfu_updater="$out/libcfu_updater.rlib" "$crate/tests/wide/lib.rs" || fail "the cases do not build"
node tests/rust/wide/wide.mjs "$out/wide.wasm" || fail "a case"
