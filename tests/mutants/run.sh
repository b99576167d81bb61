#!/usr/bin/env bash
# Each mutant, a changed definition, breaks the statement that it is said to break (docs/WRONG_PROGRAMS.md).
set -u
cd "$(dirname "$0")/../.." || exit 1
python3 tools/wrong_table --check || exit 1
python3 tests/mutants/try.py
