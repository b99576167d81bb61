#!/usr/bin/env bash
# The device's cases: what the second implementation prints for them is what the proved program must print (crates/run_device/stdout).
set -u
cd "$(dirname "$0")/../.." || exit 1
bash tests/second/expect.sh device run_device
