#!/usr/bin/env bash
# include/cfu.h says what the crates c_* export and what the wrappers of the made crate do: fit.py checks the one against the other, and finds each of the slips
# below. Both libraries define the header's functions and no other of its names; the words of include/cfu_words.h are those of the table; both headers compile
# alone, as C99 and as C++.
set -u
cd "$(dirname "$0")/../.." || exit 1

fail() {
    printf 'tests/header/run.sh: FAILED: %s\n' "$1"
    exit 1
}

for tool in python3 rt cargo gcc g++ nm sed; do
    command -v "$tool" >/dev/null 2>&1 || fail "$tool is not installed"
done

crate=target/rust/cfu_updater
tools/library || fail "the proved library is not made"
tools/c_library >/dev/null || fail "the library of the made crate is not made"
python3 tests/header/fit.py --made $crate || fail "the header does not fit"

# The names that a library defines for C.
names() {
    nm "$@" 2>/dev/null | sed -n 's/.* T \(cfu_\w*\)$/\1/p' | sort -u
}
grep -o '\bcfu_[a-z_]*(' include/cfu.h | tr -d '(' | sort -u >target/header.names
[ -s target/header.names ] || fail "the header names no function"
for library in target/staticlib/libcfu.a target/c_library/libcfu.a "-D target/c_library/libcfu.so"; do
    # shellcheck disable=SC2086  # an option and a path
    names $library | cmp -s - target/header.names || fail "$library defines other functions than the header: $(names $library | diff - target/header.names)"
done
echo "three libraries define the $(wc -l <target/header.names) functions"

made=$(mktemp -d) || fail "no temporary directory"
trap 'rm -rf "$made"' EXIT
slips=0
# A slip: what it is, the edit, and what the misfit must name.
slip() {
    sed "$2" include/cfu.h >"$made/cfu.h"
    cmp -s include/cfu.h "$made/cfu.h" && fail "$1: the edit changes nothing"
    python3 tests/header/fit.py "$made/cfu.h" >"$made/said" && fail "$1: goes unseen"
    grep -q "^misfit: .*\\b$3\\b" "$made/said" || fail "$1: $(cat "$made/said")"
    slips=$((slips + 1))
}
slip "a parameter's width" 's/size_t device_len, uint16_t platform,/size_t device_len, uint32_t platform,/' cfu_device_set_up
slip "two parameters exchanged" 's/cfu_build_information(uint8_t code, uint8_t token/cfu_build_information(uint8_t token, uint8_t code/' cfu_build_information
slip "a buffer that must not be const" 's/^uint32_t cfu_device_reset(uint8_t/uint32_t cfu_device_reset(const uint8_t/' cfu_device_reset
slip "a buffer that must be const" 's/cfu_host_report(const /cfu_host_report(/' cfu_host_report
slip "a length that is no size_t" 's/cfu_device_reset(uint8_t \*device, size_t device_len/cfu_device_reset(uint8_t *device, uint32_t device_len/' cfu_device_reset
slip "an answer's type" 's/^uint32_t cfu_host_fresh(/uint16_t cfu_host_fresh(/' cfu_host_fresh
slip "a function's name" 's/cfu_build_content_reply(/cfu_build_reply(/' cfu_build_content_reply
slip "a function left out" '/^uint32_t cfu_device_reset(/d' cfu_device_reset
slip "a field's width" 's/^    uint16_t minor;/    uint8_t minor;/' cfu_version
slip "a field left out" '/^    uint32_t mask;/d' cfu_report
slip "two fields exchanged" 's/^    uint8_t reason;/    uint8_t status;/;t;s/^    uint8_t status;/    uint8_t reason;/' cfu_offer_reply
slip "a size" 's/^#define CFU_DEVICE_SIZE [0-9]*/&1/' CFU_DEVICE_SIZE
slip "a row's number" 's/^#define CFU_B7 0x4207/#define CFU_B7 0x4208/' CFU_B7
slip "a row's number of set-up" 's/^#define CFU_S5 0x5305/#define CFU_S5 0x5306/' CFU_S5
slip "a row's number of the writer" 's/^#define CFU_W5 0x5705/#define CFU_W5 0x5706/' CFU_W5
slip "a row of the writer left out" '/^#define CFU_W8 /d' CFU_W8
slip "an end's number" 's/^#define CFU_H4 0x4804/#define CFU_H4 4/' CFU_H4
slip "a code of CFU" 's/^#define CFU_OFFER_BUSY 3/#define CFU_OFFER_BUSY 4/' CFU_OFFER_BUSY
slip "a limit" 's/^#define CFU_STAGING_LIMIT [0-9]*/&1/' CFU_STAGING_LIMIT
slip "a kind" 's/^#define CFU_KIND_EXTENDED 3/#define CFU_KIND_EXTENDED 2/' CFU_KIND_EXTENDED
slip "a component's size in a record" 's/\( CFU_COMPONENT_LIMIT times [0-9]*\)\( bytes: id (1)\)/\11\2/' COMPONENT_SIZE
slip "another limit in a comment" 's/ CFU_OFFER_LIMIT times / CFU_COMPONENT_LIMIT times /' BODIES_START
slip "a place in a device's record" 's/^\( \* *[0-9]*\)\(  owed ready-reply\)/\11\2/' OWED_AT
slip "the previous packet's place" 's/^\( \* *[0-9]*\)\(  previous packet\)/\11\2/' PREVIOUS_AT
slip "the previous packet's place by its name" 's/^#define CFU_DEVICE_PREVIOUS_AT [0-9]*/&1/' CFU_DEVICE_PREVIOUS_AT
slip "a width in a device's record" 's/region base ([0-9])/region base (2)/' REGION_AT
slip "a place in a host's record" 's/^\( \* *[0-9]*\)\(  mask of\)/\11\2/' MASK_AT
slip "the place of a reply that was passed over" 's/^\( \* *[0-9]*\)\(  a reply was passed over\)/\11\2/' PASSED_AT
slip "a size in the words on older records" 's/a host.s record 25 in place of 24/a host'"'"'s record 26 in place of 24/' HOST_SIZE
slip "the list's size in the words on older records" 's/the list has 119 bytes/the list has 91 bytes/' LIST_SIZE
slip "a component's place in the words on older records" 's/with what is staged at 17/with what is staged at 18/' STAGED_AT
slip "a place in the contents" 's/^\( \* *[0-9]*\)\(  the block that\)/\11\2/' HAND_START
slip "a place in the writer's list" 's/, at 20 how long it is/, at 24 how long it is/' SHORT_SIZE
slip "a width in the writer's list" 's/how long it is (4)/how long it is (2)/' SHORT_SIZE
slip "a place that has a name" 's/^#define CFU_COMPONENT_STAGED_AT [0-9]*/&1/' CFU_COMPONENT_STAGED_AT
slip "the floor's place by its name" 's/^#define CFU_COMPONENT_FLOOR_AT [0-9]*/&1/' CFU_COMPONENT_FLOOR_AT
slip "the floor's width" 's/floor (4)/floor (2)/' FLOOR_AT
slip "the floor left out of the list" 's/floor (4), CFU_LIST_SIZE/CFU_LIST_SIZE/' FLOOR_AT
slip "a part's size that has a name" 's/^#define CFU_BODY_SIZE [0-9]*/&1/' CFU_BODY_SIZE
slip "a number left out" '/^#define CFU_ERROR_CRC /d' CFU_ERROR_CRC
slip "a row that set-up lacks" 's/^#define CFU_SERVED 0/&\n#define CFU_S6 0x5306/' CFU_S6
slip "a number that nothing has" 's/^#define CFU_SERVED 0/&\n#define CFU_B9 0x4209/' CFU_B9
slip "a row that the writer lacks" 's/^#define CFU_SERVED 0/&\n#define CFU_W9 0x5709/' CFU_W9
slip "a declaration that nothing has" 's/^uint32_t cfu_host_fresh(/int spare;\n&/' "int spare"
slip "a macro left out" '/^#define CFU_LEAST_MINOR(/d' macros
slip "a component's field left out" '/^    uint8_t pending;/d' cfu_component
slip "the floor left out" '/^    cfu_version floor;$/d' cfu_listed
slip "the floor behind what is staged" '/^    cfu_version floor;  /d;s/^    cfu_version staged;.*/&\n    cfu_version floor;/' cfu_component

# A slip in the wrappers of the made crate: what it is, the edit, and what the misfit must name.
wrapped() {
    rm -rf "$made/crate"
    mkdir -p "$made/crate/c/src" "$made/crate/src/c_types"
    cp "$crate/src/c_types/types.rs" "$made/crate/src/c_types/"
    sed "$2" $crate/c/src/lib.rs >"$made/crate/c/src/lib.rs"
    cmp -s $crate/c/src/lib.rs "$made/crate/c/src/lib.rs" && fail "$1: the edit changes nothing"
    python3 tests/header/fit.py --made "$made/crate" >"$made/said" && fail "$1: goes unseen"
    grep -q "^misfit: .*\\b$3\\b" "$made/said" || fail "$1: $(cat "$made/said")"
    slips=$((slips + 1))
}
wrapped "a wrapper that lends for writing what is read" 's/cfu_host_report(host: \*const u8/cfu_host_report(host: *mut u8/' cfu_host_report
wrapped "a wrapper with two parameters exchanged" 's/cfu_build_information(code: u8, token: u8,/cfu_build_information(token: u8, code: u8,/' cfu_build_information
wrapped "a wrapper left out" 's/pub unsafe extern "C" fn cfu_device_reset(/pub unsafe fn cfu_device_reset(/' cfu_device_reset
wrapped "a slice of a pointer outside of its place" 's/^    cfu_updater::c_device::cfu_device_reset(.*$/    core::slice::from_raw_parts(device, 1);/' slices
echo "$slips slips seen"

python3 tests/header/table.py || fail "the words"

printf '#include "cfu.h"\n#include "cfu.h"\n#include "cfu_words.h"\n#include "cfu_words.h"\n' >"$made/alone.c"
cp "$made/alone.c" "$made/alone.cpp"
gcc -std=c99 -Wall -Wextra -Wpedantic -Werror -fsyntax-only -I include "$made/alone.c" || fail "the headers alone, as C99"
g++ -std=c++11 -Wall -Wextra -Wpedantic -Werror -fsyntax-only -I include "$made/alone.cpp" || fail "the headers alone, as C++"
echo "the headers compile alone, as C99 and as C++"
