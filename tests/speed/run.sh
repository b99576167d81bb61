#!/usr/bin/env bash
# The time of the static library and of the crate of tools/rust_crate against the second implementation, as one table, of the firmware's entry, as a second one,
# and of the CRC by the table of sixteen against bit by bit, as a third (crc.sh). It fails where they leave different bytes, never on a time.
set -u
cd "$(dirname "$0")/../.." || exit 1

fail() {
    printf 'tests/speed/run.sh: FAILED: %s\n' "$1"
    exit 1
}

for tool in python3 cargo rustc rt; do
    command -v "$tool" >/dev/null 2>&1 || fail "$tool is not installed"
done

tools/library || fail "the library is not made"
python3 tools/rust_crate target/rust/cfu_updater >/dev/null || fail "the crate is not made"
cargo build --offline --quiet --release -j1 --manifest-path tests/speed/Cargo.toml --target-dir target/speed || fail "the measurement does not build"
printf 'processor: %s\n' "$(sed -n 's/^model name[^:]*: //p' /proc/cpuinfo | head -n 1)"
printf 'clock: %s MHz\n' "$(sed -n 's/^cpu MHz[^:]*: //p' /proc/cpuinfo | head -n 1)"
printf 'compiler of the crate and of the second implementation: %s, release\n' "$(rustc --version)"
target/speed/release/speed || fail "the measurement"
echo
bash tests/speed/crc.sh || fail "the measurement of the CRC"
