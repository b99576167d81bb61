#!/usr/bin/env bash
# The second implementation, written from documents 00, 01, 003, and A1 to A5 of 02 alone: its own tests.
set -u
cd "$(dirname "$0")" || exit 1
command -v cargo >/dev/null 2>&1 || { echo "cargo is not installed"; exit 1; }
cargo test --offline --quiet --target-dir ../../target/second
