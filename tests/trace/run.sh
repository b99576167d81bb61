#!/usr/bin/env bash
# Every name in docs/TRACE.md and under the questions of docs/ASSURANCE.md is where it is said to be, and every public function of the updater has a contract
# without a precondition.
set -u
cd "$(dirname "$0")/../.." || exit 1
python3 tools/pictures --check || exit 1
python3 tools/contracts.py --check || exit 1
python3 tools/trace --check
