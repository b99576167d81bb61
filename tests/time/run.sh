#!/usr/bin/env bash
# `update::run` over bundles of 1,000 and of 10,000 records: its time grows with the records, not with their square. First: rt ci, or rt run in crates/run_time
set -eu
cd "$(dirname "$0")/../.."
export LC_ALL=C
made=$(mktemp -d)
trap 'rm -rf "$made"' EXIT
repetitions=100
most=20 # times as long for ten times the records: 10 is linear, 100 the square
TIMEFORMAT=%3U

fail() {
    printf 'tests/time: FAILED: %s\n' "$1"
    exit 1
}

python3 tests/time/bundle.py 12 7 >"$made/bundle"
cmp "$made/bundle" crates/run_time/stdin || fail "crates/run_time/stdin is not what bundle.py writes"

# The least of three times over a bundle of $1 records, in milliseconds of the processor, left in `least`.
measure() {
    local expected="done, packets $((1 + 2 + 1 + $1)), passes 1, completed 1"
    local turn spent
    python3 tests/time/bundle.py "$1" >"$made/bundle"
    least=
    for turn in 1 2 3; do
        { time crates/run_time/out/run_time "$repetitions" <"$made/bundle" >"$made/printed"; } 2>"$made/spent" || fail "$(cat "$made/spent")"
        [ "$(cat "$made/printed")" = "$expected" ] || fail "$1 records: expected '$expected', printed '$(cat "$made/printed")'"
        spent=$((10#$(tr -d . <"$made/spent")))
        if [ "$turn" = 1 ] || [ "$spent" -lt "$least" ]; then
            least=$spent
        fi
    done
    [ "$least" -gt 0 ] || fail "$1 records: too short to be timed"
    echo "$1 records: $expected; $repetitions runs in $least ms, $((least * 1000000 / repetitions / ($1 + 4))) ns a packet"
}

measure 1000
small=$least
measure 10000
tenths=$((least * 10 / small))
echo "ten times the records: $((tenths / 10)).$((tenths % 10)) times as long, $most at most (on $(sed -n 's/^model name[^:]*: //p' /proc/cpuinfo | head -n 1))"
[ "$tenths" -le $((most * 10)) ] || fail "the time does not grow with the records"
