#!/usr/bin/env bash
# 6,000 random packets between the library and fwupd's own readers and builders (packets.py), where fwupd is installed. Where it is not, packets.py says so, and
# nothing is built.
set -u
cd "$(dirname "$0")/../.." || exit 1

fail() {
    printf 'tests/fwupd/run.sh: FAILED: %s\n' "$1"
    exit 1
}

command -v python3 >/dev/null 2>&1 || fail "python3 is not installed"
if command -v fwupdtool >/dev/null 2>&1; then
    tools/c_library || fail "the library is not made"
fi
python3 tests/fwupd/packets.py target/c_library/libcfu.so || fail "fwupd's readers and builders"
