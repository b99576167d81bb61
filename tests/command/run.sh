#!/usr/bin/env bash
# The command `cfu` (docs/COMMAND.md): it builds, without a warning of clippy and in rustfmt's form; its lines, its status and its files are those of the page
# (cases.py); and fwupd's parsers read what it cuts, where they are installed (fwupd.py).
set -u
cd "$(dirname "$0")/../.." || exit 1

fail() {
    printf 'tests/command/run.sh: FAILED: %s\n' "$1"
    exit 1
}

for tool in python3 cargo cargo-fmt cargo-clippy; do
    command -v "$tool" >/dev/null 2>&1 || fail "$tool is not installed"
done

program=target/command/cfu
rm -f "$program"
tools/command || fail "the command does not build"
[ -x "$program" ] || fail "tools/command leaves no $program"
echo "tools/command: $program"

cargo fmt --manifest-path command/Cargo.toml -- --check || fail "cargo fmt --check"
echo "cargo fmt --check: command"
cargo clippy --offline --quiet --no-deps --all-targets --manifest-path command/Cargo.toml --target-dir target/command/clippy -- -D warnings || fail "cargo clippy"
echo "cargo clippy: command"

python3 tests/command/cases.py "$program" || fail "the command"
python3 tests/command/fwupd.py "$program" || fail "fwupd's parsers"
