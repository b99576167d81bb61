#!/usr/bin/env bash
# The wrong programs, those that `rt ci` tries and the further ones: each is refused at a fact of the function that it changes.
set -u
cd "$(dirname "$0")/../.." || exit 1
python3 tools/wrong
