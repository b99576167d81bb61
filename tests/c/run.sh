#!/usr/bin/env bash
# Both libraries from C, the proved one (tools/library) and the made one (tools/c_library: static, shared, and without the standard library): calls.c (each
# function of include/cfu.h on document 01's values) and the examples (cases.py and maker.py), as they are, with the compiler's checks of addresses and of
# undefined behaviour, and under valgrind.
set -u
cd "$(dirname "$0")/../.." || exit 1

fail() {
    printf 'tests/c/run.sh: FAILED: %s\n' "$1"
    exit 1
}

for tool in rt cargo make cc gcc python3 valgrind; do
    command -v "$tool" >/dev/null 2>&1 || fail "$tool is not installed"
done

tools/library || fail "the proved library is not made"
tools/c_library >/dev/null || fail "the library of the made crate is not made"
tools/c_library --no-std >/dev/null || fail "the library of the made crate without the standard library is not made"
declare -A library=([proved]=target/staticlib/libcfu.a [made]=target/c_library/libcfu.a [no_std]=target/c_library/no_std/libcfu.a
    [shared]=target/c_library/libcfu.so)
out=target/c
rm -rf "$out"
make -s -C examples/c || fail "the examples do not build"
make -s -C examples/c PROVED=1 OUT=../../target/c/proved || fail "the examples do not build over the proved library"
cmp -s "$out/update" "$out/proved/update" && fail "the examples of both libraries are the same file"

# What the library without the standard library needs of others: the undefined names of the part that has the calls.
part=$(nm -A "${library[no_std]}" 2>/dev/null | sed -n 's/^[^:]*:\([^:]*\):.* T cfu_bundle_check$/\1/p')
needs=$(mkdir -p "$out/part" && cd "$out/part" && ar x "../../../${library[no_std]}" "$part" && nm -u "$part" | sed 's/^ *U //' | sort | tr '\n' ' ')
[ "$needs" = "memcpy memset " ] || fail "the library without the standard library needs: $needs"
# The same of the proved library, whose one part has all calls.
needs=$(nm -u "${library[proved]}" | sed -n 's/^ *U //p' | sort -u | tr '\n' ' ')
[ "$needs" = "memcpy memset " ] || fail "the proved library needs: $needs"

for name in $(grep -o '\bcfu_[a-z_]*(' include/cfu.h | tr -d '(' | sort -u); do
    grep -q "\b$name(" tests/c/calls.c || fail "tests/c/calls.c does not call $name"
done

# Builds a program over a library into $out: the library, its name, its source, and further flags.
build() {
    mkdir -p "$out/$1"
    gcc -std=c99 -Wall -Wextra -Wpedantic -Werror -g "${@:4}" -I include -Wl,-rpath,"$PWD/target/c_library" -o "$out/$1/$2" "$3" "${library[$1]}" ||
        fail "$2 does not build over the library $1"
}
checks='-fsanitize=address,undefined -fno-sanitize-recover=all'
grind='valgrind --quiet --error-exitcode=99 --leak-check=full --errors-for-leak-kinds=all'
for which in proved made no_std shared; do
    echo "library $which: ${library[$which]}"
    build $which calls tests/c/calls.c -O2
    "$out/$which/calls" examples/e12.bundle || fail "calls over the library $which"
done
for which in proved made; do
    echo "library $which, checked"
    build $which calls_checked tests/c/calls.c -O1 $checks
    build $which update examples/c/update.c -O2
    build $which bundle examples/c/bundle.c -O2
    build $which update_checked examples/c/update.c -O1 $checks
    build $which bundle_checked examples/c/bundle.c -O1 $checks
    "$out/$which/calls_checked" examples/e12.bundle || fail "calls with the compiler's checks over the library $which"
    for kind in '' _checked; do
        python3 tests/c/cases.py "$out/$which/update$kind" || fail "the example update$kind over the library $which"
        python3 tests/c/maker.py "$out/$which/bundle$kind" || fail "the example bundle$kind over the library $which"
    done
    $grind "$out/$which/calls" examples/e12.bundle || fail "the calls under valgrind over the library $which"
    python3 tests/c/cases.py --few $grind "$out/$which/update" || fail "the example update under valgrind over the library $which"
    python3 tests/c/maker.py --few $grind "$out/$which/bundle" || fail "the example bundle under valgrind over the library $which"
done
