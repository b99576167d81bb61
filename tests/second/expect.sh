#!/usr/bin/env bash
# usage: tests/second/expect.sh CASES PROGRAM [WORD]
# The frames of tests/CASES/cases.py are PROGRAM's stdin, and what the second implementation prints for them, told WORD, is its stdout.
set -u
cd "$(dirname "$0")/../.." || exit 1
for tool in cargo python3; do
    command -v "$tool" >/dev/null 2>&1 || { echo "$tool is not installed"; exit 1; }
done
made=$(mktemp -d) || exit 1
trap 'rm -rf "$made"' EXIT
python3 "tests/$1/cases.py" >"$made/stdin" || exit 1
cargo run --offline --quiet --manifest-path tests/second/Cargo.toml --target-dir target/second --bin "expect_$1" -- "${@:3}" <"$made/stdin" >"$made/stdout" || exit 1
for file in stdin stdout; do
    cmp "$made/$file" "crates/$2/$file" || { echo "tests/$1: crates/$2/$file is not what the cases and the second implementation give"; exit 1; }
done
echo "tests/$1, $2: $(grep -c '^#' "$made/stdout") cases, $(wc -l <"$made/stdout") lines, as the second implementation has them"
