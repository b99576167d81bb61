#!/usr/bin/env bash
# Random and damaged input against three implementations: the static library behind include/cfu.h, the crate of tools/rust_crate, and tests/second. They are
# compared byte for byte, with guard bytes around every lent buffer, and demand 3 is tried by brute force on whole runs. First: tools/library
#
# usage: tests/compare/run.sh                              the gate's counts and seed, then a small run under valgrind
#        tests/compare/run.sh --long N --seed S            N times the gate's counts, from another seed
#        tests/compare/run.sh --seed S --kind K --case C   the one case that a difference names
set -u
cd "$(dirname "$0")/../.." || exit 1

fail() {
    printf 'tests/compare/run.sh: FAILED: %s\n' "$1"
    exit 1
}

case ${1-} in
-h | --help)
    sed -n '2,/^set/{s/^# \{0,1\}//p}' "$0"
    exit 0
    ;;
esac

for tool in python3 cargo rt valgrind; do
    command -v "$tool" >/dev/null 2>&1 || fail "$tool is not installed"
done

tools/library || fail "the library is not made"
python3 tools/rust_crate target/rust/cfu_updater >/dev/null || fail "the crate is not made"
cargo build --offline --quiet --release -j1 --manifest-path tests/compare/Cargo.toml --target-dir target/compare || fail "the comparison does not build"
if [ $# -gt 0 ]; then
    exec target/compare/release/compare "$@"
fi
target/compare/release/compare || fail "the comparison"
valgrind --quiet --error-exitcode=9 target/compare/release/compare --small || fail "the comparison under valgrind"
