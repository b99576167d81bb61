#!/usr/bin/env bash
# The cases of the host: what the second implementation prints for them is what the proved program must print (crates/run_host/stdout).
set -u
cd "$(dirname "$0")/../.." || exit 1
bash tests/second/expect.sh host run_host
