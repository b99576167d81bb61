#!/usr/bin/env bash
# The frames that main_loop reads and the lines that it must print are those that cases.py writes, and the program prints them; a head cut in two and an
# empty input end the loop too. First: rt ci, or rt run in crates/main_loop
set -eu
cd "$(dirname "$0")/../.."
made=$(mktemp -d)
trap 'rm -rf "$made"' EXIT
for file in stdin stdout; do
    python3 tests/main_loop/cases.py "$file" >"$made/$file"
    cmp "$made/$file" "crates/main_loop/$file" || { echo "tests/main_loop: crates/main_loop/$file is stale"; exit 1; }
done
holds() {
    crates/main_loop/out/main_loop >"$made/printed"
    cmp "$made/printed" "$made/expected" || { echo "tests/main_loop: $1: printed $(tail -n 1 "$made/printed")"; exit 1; }
}
cp "$made/stdout" "$made/expected"
holds "all frames" <"$made/stdin"
echo "set-up: served" >"$made/expected"
holds "an empty input" </dev/null
printf 'set-up: served\ncut frame\n' >"$made/expected"
printf 'O' >"$made/head"
holds "half a head" <"$made/head"
echo "tests/main_loop: $(wc -l <"$made/stdout") lines, an empty input and half a head"
