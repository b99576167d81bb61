#!/usr/bin/env bash
# The made library (tools/c_library) on other targets than this machine's: each is cross-compiled and runs in an emulator. It is no part of the gate, which has
# none of these tools: what is installed runs, and of the rest the script says what is missing and that it was not run.
#
# usage: tests/c/targets.sh [TARGET..]        (all of them where none is named)
#
#   armv7-unknown-linux-gnueabihf   32-bit Arm Linux: calls.c and the example update (cases.py), in qemu. The size_t has 32 bits.
#   aarch64-unknown-linux-gnu       64-bit Arm Linux: the same.
#   s390x-unknown-linux-gnu         the same on a machine that is big-endian.
#   x86_64-pc-windows-gnu           Windows: calls.c over the static library and over cfu.dll, and the example once, in wine.
#   thumbv7em-none-eabi             Cortex-M4, without an operating system and the standard library: calls.c and targets/device.c, in qemu, with semihosting.
#   thumbv6m-none-eabi              Cortex-M0: device.c on a Cortex-M0, calls.c on a Cortex-M3, whose instructions are a superset, since no board of qemu with a
#                                   Cortex-M0 has the memory. For both also the size of the device's calls in flash.
#
# rustc needs the target's library, or the source of its own library, of which cargo then builds the target's (build-std, which RUSTC_BOOTSTRAP=1 allows). RUSTC
# names a rustc that is not the first on the PATH; RUST_TARGET, where TARGET is in capitals with _ for -, a folder with the rustc and the cargo of one target.
# Debian packages:
#   rustc          rustc-web with rust-web-src from 1.96 for every target; or libstd-rust-web-dev:armhf, :arm64 and :s390x for Linux (rustc-web has to be of the
#                  same version), and rustc, cargo and libstd-rust-dev-windows of 1.63 for Windows. With rustup: rustup target add TARGET.
#   C compilers    gcc-arm-linux-gnueabihf, gcc-aarch64-linux-gnu, gcc-s390x-linux-gnu, gcc-mingw-w64-x86-64, gcc-arm-none-eabi with libnewlib-arm-none-eabi
#   emulators      qemu-user-static, qemu-system-arm, wine with wine64
set -u
cd "$(dirname "$0")/../.." || exit 1

fail() {
    printf 'tests/c/targets.sh: FAILED: %s\n' "$1"
    exit 1
}

for tool in python3 timeout; do
    command -v "$tool" >/dev/null 2>&1 || fail "$tool is not installed"
done

out=$PWD/target/targets
bundle=examples/e12.bundle
ran=() not_run=()
strict=(-std=c99 -Wall -Wextra -Wpedantic -Werror -I include)
path=$PATH rustc=${RUSTC:-rustc}

# Says why a target, or a part of it, is not run.
missing() {
    printf '%s: NOT RUN: %s\n' "$1" "$2"
    not_run+=("$1 ($2)")
    return 1
}

# The first of these commands that is installed.
first() {
    local command
    for command; do
        command -v "$command" && return
    done
    return 1
}

# Chooses the rustc and the cargo of a target, and empties the folder for what is built for it.
start() {
    local folder=RUST_${1//-/_}
    folder=${folder^^}
    PATH=$path rustc=${RUSTC:-rustc}
    if [ -n "${!folder:-}" ]; then
        PATH=${!folder}:$path rustc=rustc
    fi
    echo "--- $1"
    rm -rf "${out:?}/$1"
    mkdir -p "$out/$1"
}

# Makes the library of a target, with std or core, and the target's linker; further words go to the environment of the build.
library() {
    local target=$1 part=$2 linker=$3 libraries source flags=()
    first "$rustc" >/dev/null || { missing "$target" "$rustc is not installed"; return 1; }
    first cargo >/dev/null || { missing "$target" "cargo is not installed"; return 1; }
    libraries=$("$rustc" --print target-libdir --target "$target" 2>/dev/null) || { missing "$target" "$("$rustc" --version) does not know the target"; return 1; }
    source=$("$rustc" --print sysroot)/lib/rustlib/src/rust/library
    set -- "${@:4}" "CARGO_TARGET_$(tr a-z- A-Z_ <<<"$target")_LINKER=$linker" "RUSTC=$rustc"
    if compgen -G "$libraries/lib$part-*.rlib" >/dev/null; then
        echo "library: $("$rustc" --version) with its lib$part"
    elif [ -d "$source/$part" ]; then
        echo "library: $("$rustc" --version) with lib$part built from its source"
        set -- "$@" RUSTC_BOOTSTRAP=1 CARGO_UNSTABLE_BUILD_STD="$([ "$part" = std ] && echo std,panic_abort || echo core)"
        if [ -d "$source/vendor" ]; then
            mkdir -p "$out/cargo"
            printf '[source.crates-io]\nreplace-with = "vendor"\n[source.vendor]\ndirectory = "%s"\n' "$source/vendor" >"$out/cargo/config.toml"
            set -- "$@" CARGO_HOME="$out/cargo"
        fi
    else
        missing "$target" "$("$rustc" --version) has no lib$part of the target, and not the source of it"
        return 1
    fi
    [ "$part" = std ] || flags+=(--no-std)
    env "$@" tools/c_library "${flags[@]}" --target "$target" || fail "the library for $target"
}

# Runs a program that counts its checks: what it is, and the command.
counts() {
    local said status
    said=$(timeout 300 "${@:2}" 2>"$out/stderr")
    status=$?
    said=${said//$'\r'/}
    printf '%s: %s\n' "$1" "$said"
    [ "$status" -eq 0 ] && grep -qxE '[1-9][0-9]* passed, 0 failed' <<<"$said" && return
    cat "$out/stderr"
    fail "$1, status $status"
}

linux() {
    local target=$1 cc=$2 emulator program
    start "$target"
    first "$cc" >/dev/null || { missing "$target" "$cc is not installed"; return; }
    library "$target" std "$cc" || return
    for program in tests/c/calls.c examples/c/update.c; do
        "$cc" "${strict[@]}" -O2 -static -o "$out/$target/$(basename "$program" .c)" "$program" "target/c_library/$target/libcfu.a" -lpthread -ldl ||
            fail "$program for $target does not build"
    done
    emulator=$(first "$3-static" "$3") || { missing "$target" "linked; $3-static is not installed"; return; }
    "$cc" --version | head -n 1
    "$emulator" --version | head -n 1
    counts "$target: calls" "$emulator" "$out/$target/calls" "$bundle"
    python3 tests/c/cases.py "$emulator" "$out/$target/update" || fail "$target: the example"
    ran+=("$target")
}

windows() {
    local target=x86_64-pc-windows-gnu cc=x86_64-w64-mingw32-gcc wine made
    start "$target"
    first "$cc" >/dev/null || { missing "$target" "$cc is not installed"; return; }
    library "$target" std "$cc" || return
    made=target/c_library/$target
    # What Rust's standard library uses of Windows.
    local system=(-lws2_32 -luserenv -lbcrypt -lntdll -ladvapi32)
    "$cc" "${strict[@]}" -O2 -o "$out/$target/calls.exe" tests/c/calls.c "$made/libcfu.a" "${system[@]}" || fail "calls.c for $target does not build"
    "$cc" "${strict[@]}" -O2 -o "$out/$target/calls_dll.exe" tests/c/calls.c "$made/cfu.dll" || fail "calls.c over cfu.dll does not build"
    "$cc" "${strict[@]}" -O2 -o "$out/$target/update.exe" examples/c/update.c "$made/libcfu.a" "${system[@]}" || fail "update.c for $target does not build"
    cp "$made/cfu.dll" "$out/$target/" || fail "cfu.dll is not copied"
    wine=$(first wine wine64) || { missing "$target" "linked; wine is not installed"; return; }
    export WINEPREFIX=${WINEPREFIX:-$out/wine} WINEDEBUG=${WINEDEBUG:--all}
    "$cc" --version | head -n 1
    "$wine" --version
    counts "$target: calls" "$wine" "$out/$target/calls.exe" "$bundle"
    counts "$target: calls over cfu.dll" "$wine" "$out/$target/calls_dll.exe" "$bundle"
    # cases.py has the line ends and the terminal of Unix; here E13 alone.
    timeout 300 "$wine" "$out/$target/update.exe" "$bundle" >"$out/$target/e13" 2>"$out/stderr" || fail "$target: the example"
    tr -d '\r' <"$out/$target/e13" | grep -xF 'report: completed 2 of 2, packets 13, passes 2' || fail "$target: the example's report"
    ran+=("$target")
}

# A target, its processor for gcc, the machine for calls.c, the one for device.c.
microcontroller() {
    local target=$1 cpu=$2 large=$3 small=$4 cc=arm-none-eabi-gcc emulator=qemu-system-arm made
    start "$target"
    first "$cc" >/dev/null || { missing "$target" "$cc is not installed"; return; }
    [ -e "$("$cc" -print-file-name=rdimon.specs)" ] || { missing "$target" "newlib with semihosting (rdimon.specs) is not installed"; return; }
    library "$target" core "$cc" CARGO_PROFILE_RELEASE_OPT_LEVEL=s || return
    made=target/c_library/$target/no_std/libcfu.a
    # shellcheck disable=SC2054 # the commas are the linker's
    local chip=(-mcpu="$cpu" -mthumb -mfloat-abi=soft -Os -ffunction-sections -fdata-sections -nostartfiles -Wl,--gc-sections)

    # Builds a program into the target's folder, for a flash and a memory of this size.
    build() {
        "$cc" "${strict[@]}" "${chip[@]}" "-DBUNDLE=\"$bundle\"" --specs=rdimon.specs -T tests/c/targets/cortex_m.ld -Wl,--defsym=flash_size="$2" \
            -Wl,--defsym=ram_size="$3" -Wl,-z,noexecstack -o "$out/$target/$(basename "$1" .c).elf" tests/c/targets/start.c "$1" "$made" ||
            fail "$1 for $target does not build"
    }
    build tests/c/calls.c 4M 4M
    build tests/c/targets/device.c 256K 16K

    # The library alone, with what these calls need of it and of the compiler's library.
    size() {
        local name=$1 call roots=()
        for call in "${@:2}"; do
            roots+=("-Wl,-u,$call")
        done
        "$cc" "${chip[@]}" -Wl,-e,"$2" "${roots[@]}" -o "$out/$target/size.elf" "$made" || fail "the $name calls for $target do not link"
        arm-none-eabi-size "$out/$target/size.elf" | awk -v name="$target: $name" 'NR == 2 { print name ": flash " $1 + $2 ", static memory " $2 + $3 }'
    }
    size 'set-up, offer and content' cfu_device_set_up cfu_device_offer cfu_device_content
    size "all of the device's calls" cfu_list_put cfu_device_{set_up,component,version_reply,offer,content,reset}

    first "$emulator" >/dev/null || { missing "$target" "linked; $emulator is not installed"; return; }
    "$cc" --version | head -n 1
    "$emulator" --version | head -n 1
    local flags=(-nographic -monitor none -serial none -semihosting-config 'enable=on,target=native')
    counts "$target: calls on $large" "$emulator" -machine "$large" "${flags[@]}" -kernel "$out/$target/calls.elf"
    counts "$target: device on $small" "$emulator" -machine "$small" "${flags[@]}" -kernel "$out/$target/device.elf"
    ran+=("$target")
}

[ $# -gt 0 ] || set -- armv7-unknown-linux-gnueabihf aarch64-unknown-linux-gnu s390x-unknown-linux-gnu x86_64-pc-windows-gnu thumbv7em-none-eabi thumbv6m-none-eabi
for name; do
    case $name in
    armv7-unknown-linux-gnueabihf) linux "$name" arm-linux-gnueabihf-gcc qemu-arm ;;
    aarch64-unknown-linux-gnu) linux "$name" aarch64-linux-gnu-gcc qemu-aarch64 ;;
    s390x-unknown-linux-gnu) linux "$name" s390x-linux-gnu-gcc qemu-s390x ;;
    x86_64-pc-windows-gnu) windows ;;
    thumbv7em-none-eabi) microcontroller "$name" cortex-m4 mps2-an386 mps2-an386 ;;
    thumbv6m-none-eabi) microcontroller "$name" cortex-m0 mps2-an385 microbit ;;
    *) fail "$name is no target of this script" ;;
    esac
done
echo "--- ran: ${#ran[@]}${ran[*]:+: ${ran[*]}}"
echo "--- not run: ${#not_run[@]}"
[ "${#not_run[@]}" -eq 0 ] || printf '  %s\n' "${not_run[@]}"
