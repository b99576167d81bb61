#!/usr/bin/env bash
# The lines of C and of Rust in README.md compile as they stand and update the bench device of document 01 by E12's bundle (main.c and main.rs beside this).
set -u
cd "$(dirname "$0")/../.." || exit 1

fail() {
    printf 'tests/readme/run.sh: FAILED: %s\n' "$1"
    exit 1
}

for tool in cargo rustc gcc python3; do
    command -v "$tool" >/dev/null 2>&1 || fail "$tool is not installed"
done
out=target/readme
mkdir -p "$out"

# The block of README.md in a language, of which there is one.
block() {
    [ "$(grep -c "^\`\`\`$1\$" README.md)" -eq 1 ] || fail "README.md has not one block of $1"
    sed -n "/^\`\`\`$1\$/,/^\`\`\`\$/{/^\`\`\`/d;p}" README.md
}
block c >"$out/update.c"
block rust >"$out/update.rs"

tools/c_library >/dev/null || fail "the library is not made"
gcc -std=c99 -Wall -Wextra -Wpedantic -Werror -I include -I "$out" -o "$out/c" tests/readme/main.c target/c_library/libcfu.a || fail "the lines of C do not compile"
"$out/c" examples/e12.bundle || fail "the lines of C"

cp tests/readme/main.rs "$out/main.rs"
crate=target/rust/cfu_updater
rustc --edition 2021 -D warnings -O --crate-type rlib --crate-name cfu_updater -o "$out/libcfu_updater.rlib" $crate/src/lib.rs || fail "the crate does not build"
rustc --edition 2021 -D warnings -O --extern cfu_updater="$out/libcfu_updater.rlib" -o "$out/rust" "$out/main.rs" || fail "the lines of Rust do not compile"
"$out/rust" examples/e12.bundle || fail "the lines of Rust"
