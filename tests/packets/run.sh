#!/usr/bin/env bash
# The script that run_packets reads and the lines that it must print are those that cases.py and expect.py write.
set -eu
cd "$(dirname "$0")/../.."
made=$(mktemp -d)
trap 'rm -rf "$made"' EXIT
python3 tests/packets/cases.py >"$made/stdin"
python3 tests/packets/expect.py <"$made/stdin" >"$made/stdout"
for file in stdin stdout; do
    if ! cmp "$made/$file" "crates/run_packets/$file"; then
        echo "tests/packets: crates/run_packets/$file is stale"
        exit 1
    fi
done
echo "tests/packets: $(grep -c ' ->' "$made/stdout") cases, as committed"
