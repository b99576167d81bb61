#!/usr/bin/env bash
# The CRC of 65,536 bytes by the table of sixteen (crates/crc16) and bit by bit (crates/speed_crc), as the kit's back end, rustc and C compilers make it: time and
# instructions of each, in one run, as one table. It fails where two of them differ on a message, never on a time.
set -u
cd "$(dirname "$0")/../.." || exit 1

fail() {
    printf 'tests/speed/crc.sh: FAILED: %s\n' "$1"
    exit 1
}

for tool in python3 rustc rt gcc nm valgrind; do
    command -v "$tool" >/dev/null 2>&1 || fail "$tool is not installed"
done
out=target/speed_crc
here=tests/speed/crc
rm -rf "$out"
mkdir -p "$out"

# The kit's back end, as it makes the library for C.
tools/library speed_crc || fail "crates/speed_crc as a library"
names=library

# The crate of tools/rust_crate, with what is only measured in it.
python3 tools/rust_crate --measured "$out/crate" >/dev/null || fail "the crate is not made"
for level in 3 s; do
    flags="--edition 2021 -C opt-level=$level -C codegen-units=1 -C panic=abort"
    # shellcheck disable=SC2086  # flags without spaces in them
    rustc $flags --crate-type rlib --crate-name cfu_updater -o "$out/libcfu_updater_$level.rlib" "$out/crate/src/lib.rs" || fail "the crate at opt-level $level"
    # shellcheck disable=SC2086
    rustc $flags --crate-type lib --emit obj --check-cfg 'cfg(level, values("3", "s"))' --cfg "level=\"$level\"" \
        --extern "cfu_updater=$out/libcfu_updater_$level.rlib" -o "$out/crate_$level.o" "$here/steps.rs" || fail "the crate's two ways at opt-level $level"
    # All of it is in there: what is left open would be taken from the library.
    [ -z "$(nm -u "$out/crate_$level.o")" ] || fail "the crate's two ways at opt-level $level call something else"
    names="$names crate_$level"
done

# C of the same steps.
for compiler in gcc clang; do
    if command -v "$compiler" >/dev/null 2>&1; then
        for level in O2 Os; do
            name=${compiler}_$level
            "$compiler" -std=c99 -Wall -Wextra -Werror "-$level" "-DTABLE=${name}_table" "-DBITS=${name}_bits" -c -o "$out/$name.o" "$here/steps.c" ||
                fail "$name"
            names="$names $name"
        done
    else
        echo "$compiler is not installed: its rows are left out"
    fi
done

# shellcheck disable=SC2086
gcc -std=c99 -Wall -Wextra -Werror -O2 "-DWAYS=$(printf 'X(%s) ' $names)" -o "$out/crc" "$here/main.c" "$out"/*.o target/staticlib/libspeed_crc.a ||
    fail "the measurement does not build"
"$out/crc" >"$out/times" || { cat "$out/times"; fail "the measurement"; }

time_of() {
    sed -n "s/^$1 //p" "$out/times"
}

# Instructions of one call, as valgrind counts them.
instructions_of() {
    valgrind --tool=callgrind --callgrind-out-file=/dev/null --toggle-collect="${1/#library_/crc16_by_}" "$out/crc" "$1" 2>&1 | sed -n 's/^.*Collected : //p'
}

in_words() {
    case $1 in
    library) echo "library (the kit's back end)" ;;
    crate_*) echo "crate, $(rustc --version | cut -d ' ' -f 1-2), opt-level ${1#crate_}" ;;
    *) echo "C, ${1%_*} $("${1%_*}" -dumpversion), -${1#*_}" ;;
    esac
}

per_byte() {
    awk "BEGIN { printf \"$1\", $2 / 65536 }"
}

printf 'processor: %s\n' "$(sed -n 's/^model name[^:]*: //p' /proc/cpuinfo | head -n 1)"
echo 'the CRC of 65536 bytes, a byte of them: nanoseconds of the processor, least of 40, and instructions'
echo
echo '| | table, ns | bits, ns | table/bits | table, instructions | bits, instructions | table/bits |'
echo '|---|---:|---:|---:|---:|---:|---:|'
for name in $names; do
    table=$(time_of "${name}_table")
    bits=$(time_of "${name}_bits")
    table_steps=$(instructions_of "${name}_table")
    bits_steps=$(instructions_of "${name}_bits")
    for count in "$table" "$bits" "$table_steps" "$bits_steps"; do
        [ "${count:-0}" -gt 0 ] || fail "a time or a count of instructions is missing for $name"
    done
    printf '| %s | %s | %s | %s | %s | %s | %s |\n' "$(in_words "$name")" "$(per_byte %.2f "$table")" "$(per_byte %.2f "$bits")" \
        "$(awk "BEGIN { printf \"%.2f\", $table / $bits }")" "$(per_byte %.1f "$table_steps")" "$(per_byte %.1f "$bits_steps")" \
        "$(awk "BEGIN { printf \"%.2f\", $table_steps / $bits_steps }")"
done
