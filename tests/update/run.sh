#!/usr/bin/env bash
# The cases of a whole run: what the second implementation prints for them is what the proved programs must print (crates/run_turns/stdout,
# crates/run_update/stdout), and the turns leave the record and the bytes that `run` leaves. Runs with packets that arrive twice (T) are in the turns alone: there
# a report stands before what they leave.
set -u
cd "$(dirname "$0")/../.." || exit 1
bash tests/second/expect.sh update run_turns turns || exit 1
bash tests/second/expect.sh update run_update || exit 1
left() { awk -v "$1" '/^record/ { held = $0; reported = before ~ / mask [0-9a-f]+$/ } /^staging/ && (all || !reported) { print held; print } { before = $0 }' "$2"; }
[ "$(left all=0 crates/run_turns/stdout)" = "$(left all=1 crates/run_update/stdout)" ] || { echo "tests/update: the turns and the run do not leave the same"; exit 1; }
