#!/usr/bin/env bash
# The instructions of steps.c on microcontrollers with Arm's Cortex-M0 and Cortex-M4, as a C compiler for them makes it and an emulator runs it. No part of the
# gate: it needs Debian's gcc-arm-none-eabi and qemu-user.
set -u
cd "$(dirname "$0")/../../.." || exit 1

fail() {
    printf 'tests/speed/crc/arm.sh: FAILED: %s\n' "$1"
    exit 1
}

for tool in arm-none-eabi-gcc arm-none-eabi-nm qemu-arm python3; do
    command -v "$tool" >/dev/null 2>&1 || fail "$tool is not installed"
done
out=target/speed_crc/arm
mkdir -p "$out"
# The CRC that is due, by Python's own.
due=$(python3 - <<'END'
import binascii
random, data = 1, []
for _ in range(4096):
    random = (random * 1664525 + 1013904223) % 2**32
    data.append(random >> 24)
print(binascii.crc_hqx(bytes(data), 0))
END
)

# Instructions of the way $1 on the processor $2 at the level $3, left in `count`.
instructions() {
    local flags="-std=c99 -Wall -Wextra -Werror -mthumb -mcpu=$2"
    # shellcheck disable=SC2086  # flags without spaces in them
    arm-none-eabi-gcc $flags "-$3" -DTABLE=table -DBITS=bits -c -o "$out/steps.o" tests/speed/crc/steps.c || fail "steps.c for $2"
    # shellcheck disable=SC2086
    arm-none-eabi-gcc $flags -O1 "-DWAY=$1" "-DDUE=$due" -c -o "$out/arm.o" tests/speed/crc/arm.c || fail "arm.c for $2"
    # shellcheck disable=SC2086
    arm-none-eabi-gcc $flags -nostdlib -static -e start -o "$out/program" "$out/arm.o" "$out/steps.o" || fail "the program for $2"
    qemu-arm -singlestep -d nochain,exec -D "$out/log" "$out/program" || fail "the CRC by $1 on $2 is not $due"
    count=$(arm-none-eabi-nm "$out/program" | python3 -c '
import re, sys
places = {name: int(place, 16) & ~1 for place, _, name in map(str.split, sys.stdin)}
steps = [int(found.group(1), 16) for found in map(re.compile(r"\[[0-9a-f]+/([0-9a-f]+)/").search, open(sys.argv[1])) if found]
print(steps.index(places["end"]) - steps.index(places["begin"]))' "$out/log") || fail "no count for $2"
}

echo "the CRC of 4096 bytes, instructions for a byte of them; C, gcc $(arm-none-eabi-gcc -dumpversion)"
echo
echo '| | table | bits | table/bits |'
echo '|---|---:|---:|---:|'
for processor in cortex-m0 cortex-m4; do
    for level in O2 Os; do
        instructions table "$processor" "$level"
        by_table=$count
        instructions bits "$processor" "$level"
        awk "BEGIN { printf \"| %s, -%s | %.1f | %.1f | %.2f |\\n\", \"$processor\", \"$level\", $by_table / 4096, $count / 4096, $by_table / $count }"
    done
done
