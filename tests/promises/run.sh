#!/usr/bin/env bash
# The names in docs/PROMISES.md are those of the repository.
set -u
cd "$(dirname "$0")/../.." || exit 1
python3 tests/promises/names.py
