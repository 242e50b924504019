#!/bin/bash
# The library for s390x, and its tests under qemu; `make s390x` runs both parts:
#
#     port/s390x.sh tools    installs what is needed
#     port/s390x.sh test     translates, builds, tests, and prints a report
#
# SEED and STEPS are those of the outside test. Over the kit's archive that is target/outside/outside.
set -u -o pipefail
cd "$(dirname "$0")/.." || exit 1
export PYTHONDONTWRITEBYTECODE=1
: "${SEED:=1}" "${STEPS:=1000000}"
here=$PWD
work=target/s390x
packages=(rustc gcc-s390x-linux-gnu libc6-dev-s390x-cross qemu-user)
builds=(checked unchecked)
cross=s390x-linux-gnu-

say() {
    echo "s390x: $*"
}

fail() {
    say "FAILED: $*"
    exit 1
}

# Runs a command with its output in a log, which is shown where the command fails.
quietly() {
    "$@" >"$here/$work/log" 2>&1 || { tail -n 20 "$here/$work/log"; return 1; }
}

# The version of a package, and nothing where it is not installed.
version() {
    dpkg-query -W -f '${db:Status-Status} ${Version}' "$1" 2>/dev/null | sed -n 's/^installed //p'
}

# ---- tools

as_root() {
    if [ "$(id -u)" = 0 ]; then
        "$@"
    else
        sudo "$@"
    fi
}

install_packages() {
    local package missing=()
    command -v python3 >/dev/null || missing+=(python3)
    for package in "${packages[@]}"; do
        [ -n "$(version "$package")" ] || missing+=("$package")
    done
    [ ${#missing[@]} != 0 ] || return 0
    [ "$(id -u)" = 0 ] || command -v sudo >/dev/null || fail "only root can install ${missing[*]}, and there is no sudo"
    say "installing ${missing[*]}"
    # a source that is down need not be the one that has them
    quietly as_root apt-get update || say "apt-get update failed; trying with the lists that are there"
    for package in "${missing[@]}"; do
        quietly as_root apt-get install -y --no-install-recommends "$package" || fail "cannot install the package $package"
    done
}

# Rust's core and std for s390x, of the compiler's version. The package can't be installed next to the native one, so it is
# unpacked beside, with package lists of its own: the machine's own setup stays as it is.
unpack_std() {
    local wanted options
    wanted=$(version libstd-rust-dev)
    [ -n "$wanted" ] || fail "no package libstd-rust-dev beside rustc"
    [ ! -e "$work/std/$wanted" ] || return 0
    say "fetching libstd-rust-dev $wanted for s390x"
    rm -rf "$work/apt" "$work/std"
    mkdir -p "$work/apt/lists/partial" "$work/apt/cache/archives/partial" "$work/std"
    options=(-o APT::Architecture=s390x -o APT::Architectures=s390x -o APT::Sandbox::User=root
        -o "Dir::State::lists=$here/$work/apt/lists" -o "Dir::Cache=$here/$work/apt/cache")
    quietly apt-get "${options[@]}" update || say "apt-get update failed for s390x; trying with what it got"
    (cd "$work/apt" && quietly apt-get "${options[@]}" download "libstd-rust-dev=$wanted") ||
        fail "cannot fetch the package libstd-rust-dev $wanted for s390x"
    quietly dpkg-deb -x "$work"/apt/libstd-rust-dev_*_s390x.deb "$work/std" || fail "cannot unpack libstd-rust-dev"
    touch "$work/std/$wanted"
}

tools() {
    local tool
    mkdir -p "$work"
    for tool in apt-get dpkg dpkg-query dpkg-deb; do
        command -v $tool >/dev/null || fail "no $tool: this needs Debian's package tools"
    done
    install_packages
    unpack_std
    say "tools: $(for p in "${packages[@]}"; do echo -n "$p $(version "$p"), "; done)libstd-rust-dev for s390x"
}

# ---- tests

# rustc for s390x. Programs are linked statically, so that qemu needs no libraries.
rust() {
    "$rustc" --sysroot "$work/std/usr" --target s390x-unknown-linux-gnu -C linker=${cross}gcc -C target-feature=+crt-static "$@"
}

# archive.sh with the cross tools.
archive() {
    RUSTC="$rustc --sysroot $work/std/usr --target s390x-unknown-linux-gnu" CC=${cross}gcc AR=${cross}ar NM=${cross}nm \
        port/archive.sh "$@"
}

# Whether the object in a folder is for the machine, and uses neither floating-point nor vector registers, which a
# hypervisor would have to save.
fits_machine() {
    ${cross}readelf -h "$1/zokormendu.o" >"$1/elf" && grep -q 'Machine: .*S/390' "$1/elf" && grep -q 'big endian' "$1/elf" &&
        ${cross}objdump -d "$1/zokormendu.o" >"$1/code" && grep -q '<zk_raw_fresh>:' "$1/code" && ! grep -q '%[fv][0-9]' "$1/code"
}

# The C example over an installed copy of the archive in a folder.
example() {
    local copy=$here/$1/installed
    make --no-print-directory install ARCHIVE="$here/$1/libzokormendu.a" PREFIX="$copy" LIBDIR="$copy/lib" DESTDIR= &&
        ${cross}gcc -std=c11 -Wall -Wextra -pedantic -Werror -O2 -static -I"$copy/include" -o "$1/guests" example-c/guests.c \
            -L"$copy/lib" -lzokormendu
}

# The outside test over the archive in a folder, by a C compiler, its ar, and rustc with its options.
build_outside() {
    local folder=$1 cc=$2 ar=$3
    shift 3
    "$cc" -std=c11 -Wall -Wextra -pedantic -Werror -O2 -Iinclude -c -o "$folder/header.o" outside/header.c &&
        "$ar" rcs "$folder/libheader.a" "$folder/header.o" &&
        "$@" --edition 2021 -C opt-level=3 -L native="$folder" -l static=header -l static=zokormendu -o "$folder/outside" \
            outside/outside.rs
}

# A program of the gate, held to its stored output: not optimised and so with every check, and without overflow checks.
program() {
    local name=$1 out=$tests/$1 input=crates/$1/stdin way
    [ -e "$input" ] || input=/dev/null
    for way in "-C opt-level=0 -C overflow-checks=on" "-C opt-level=3 -C overflow-checks=off"; do
        # shellcheck disable=SC2086
        quietly rust --edition 2021 $way -C panic=abort -o "$out" "$work/source/$name/main.rs" || fail "the program $name does not compile"
        qemu-s390x "$out" <"$input" >"$out.out" || fail "the program $name, $way: exit status $?"
        cmp "$out.out" "crates/$name/stdout" || fail "the program $name, $way: another output"
    done
}

# What is done with each control: its name, a file, a text in it, and another one in its place by which a check fails. Without
# checks neither stops the C example.
controls() {
    "$1" "an index" number.rs "if s.first() == Some(&b'0') {" "if s[1] == b'0' {"
    "$1" "an overflow" digits.rs "c - b'0'" "c - b'9'"
}

# Whether the text of a control is there once: seen first, since a change of a crate can take it away.
stands() {
    [ "$(grep -cF "$3" "$work/source/library/$2")" = 1 ] || fail "control, $1: no such line in $2"
}

# A copy of the source with one line changed so that a check must fail: what is seen if a proof is wrong. The C example over
# its checked archive, and the outside test over its plain one, must be stopped by the trap.
control() {
    local name=$1 file=$2 from=$3 to=$4 copy=$work/source/control out=$tests/control text
    rm -rf "$copy"
    cp -r "$work/source/library" "$copy"
    text=$(<"$copy/$file")
    echo "${text/"$from"/"$to"}" >"$copy/$file"
    quietly archive "$copy" "$out" checked || fail "control, $name: not built"
    quietly example "$out" || fail "control, $name: not built"
    trapped qemu-s390x "$out/guests" || fail "control, $name, checked: not stopped"
    RUSTC=$rustc quietly port/archive.sh "$copy" "$out" plain || fail "control, $name: not built"
    quietly build_outside "$out" cc ar "$rustc" || fail "control, $name: not built"
    trapped "$out/outside" || fail "control, $name, plain: not stopped"
}

# Whether a program ends by SIGILL or SIGTRAP. It runs in a shell of its own, which reports the signal to the log.
trapped() {
    bash -c '"$@"; exit $?' - "$@" >"$work/log" 2>&1
    case $? in 132 | 133) ;; *) return 1 ;; esac
}

# How far an outside test is.
progress() {
    local steps
    steps=$(grep -oE '[0-9]+ steps' "$tests/$1.log" | tail -n 1)
    echo -n "$1 ${steps% steps}, "
}

# Of an outside test that has ended.
ended_well() {
    [ "$(tail -n 1 "$tests/$1.log")" = "nothing differs" ] || { tail -n 5 "$tests/$1.log"; fail "the outside test, $1"; }
}

hash_of() {
    sed -n 's/^hash over .*: //p' "$tests/$1.log"
}

# The outside test, side by side: over the kit's archive, over the plain one for this machine, and over those for s390x.
outside() {
    local name i shown=$SECONDS pids=()
    trap 'kill $(jobs -p) 2>/dev/null' EXIT
    target/outside/outside "$SEED" 100000 "$STEPS" >"$tests/kit.log" 2>&1 & pids+=($!)
    "$tests/plain/outside" "$SEED" 100000 "$STEPS" >"$tests/plain.log" 2>&1 & pids+=($!)
    for name in "${builds[@]}"; do
        qemu-s390x "$tests/$name/outside" "$SEED" 100000 "$STEPS" >"$tests/$name.log" 2>&1 & pids+=($!)
    done
    while [ -n "$(jobs -r)" ]; do
        sleep 1
        for i in "${!runs[@]}"; do
            kill -0 "${pids[$i]}" 2>/dev/null || ended_well "${runs[$i]}"
        done
        [ $((SECONDS - shown)) -ge 20 ] || continue
        shown=$SECONDS
        say "outside: $(for name in "${runs[@]}"; do progress "$name"; done)of $STEPS steps"
    done
    for i in "${!runs[@]}"; do
        name=${runs[$i]}
        wait "${pids[$i]}" || fail "the outside test, $name: exit status $?"
        ended_well "$name"
        [ -n "$(hash_of "$name")" ] || fail "the outside test, $name: no hash"
        [ "$(hash_of "$name")" = "$(hash_of kit)" ] || fail "the outside test, $name: another hash"
    done
}

run_tests() {
    local build name file programs=() tests=$work/tests runs=(kit plain "${builds[@]}") rustc
    rustc=$(dpkg -L rustc | grep '/bin/rustc$') || fail "no rustc in the package rustc"
    [ -e target/outside/outside ] || fail "no target/outside/outside: make s390x makes it"
    # an archive that is there has passed all of it, and is as old as the sources that were read
    rm -rf "$work/source" "$tests" "${builds[@]/#/$work/}"
    mkdir -p "$tests"
    touch "$tests/begin"

    say "translating"
    port/translate_test.py | tee "$tests/report" || fail "the translator"
    port/translate.py "$work/source/library" | tee -a "$tests/report" || fail "the library is not translated"
    port/translate.py "$work/source/again" >"$work/log" || fail "the library is not translated again"
    diff -r "$work/source/library" "$work/source/again" || fail "translated once more, the library is another"
    controls stands
    for file in crates/*/src/main.rt; do
        name=$(basename "$(dirname "$(dirname "$file")")")
        programs+=("$name")
        port/translate.py "$work/source/$name" "$name" || fail "the program $name is not translated"
    done

    for build in "${builds[@]}"; do
        say "building the $build archive"
        archive "$work/source/library" "$tests/$build" "$build" | tee -a "$tests/report" || fail "the $build archive is not built"
        fits_machine "$tests/$build" || fail "the $build archive is for another machine, or uses registers that it should not"
        quietly example "$tests/$build" || fail "the C example is not built"
        quietly build_outside "$tests/$build" ${cross}gcc ${cross}ar rust || fail "the outside test is not built"
    done
    say "building the plain archive, for this machine"
    RUSTC=$rustc quietly port/archive.sh "$work/source/library" "$tests/plain" plain || fail "the plain archive is not built"
    quietly build_outside "$tests/plain" cc ar "$rustc" || fail "the outside test is not built"

    say "the C example"
    for build in "${builds[@]}"; do
        qemu-s390x "$tests/$build/guests" | cmp - example-c/guests.expected || fail "the C example, $build: another output"
    done
    say "the programs of the gate: ${programs[*]}"
    for name in "${programs[@]}"; do
        program "$name"
    done
    say "controls: a copy with a line changed, which a check must stop"
    controls control
    say "the outside test, four at a time: seven to twenty-five minutes for a million steps"
    outside
    if [ "$STEPS" -ge 1000000 ]; then
        for build in "${builds[@]}"; do
            mkdir -p "$work/$build"
            touch -r "$tests/begin" "$tests/$build/libzokormendu.a"
            cp -p "$tests/$build/libzokormendu.a" "$work/$build/libzokormendu.a" || fail "cannot copy the $build archive"
        done
    fi

    echo
    say "report"
    sed 's/^/  /' "$tests/report"
    echo "  both for s390x, big-endian, without floating-point and vector registers"
    echo "  C example: as expected, checked and unchecked"
    echo "  programs: ${programs[*]}: as stored, with every check, and without overflow checks"
    echo "  controls: an index past the end and an overflow are stopped by a check"
    echo "  outside: nothing differs; hash over all answers and all memory:"
    for name in "${runs[@]}"; do
        echo "    $(hash_of "$name")  $(describe "$name"), $(grep '^seed ' "$tests/$name.log")"
    done
    for build in "${builds[@]}"; do
        [ ! -e "$work/$build" ] || echo "  $work/$build/libzokormendu.a"
    done
    [ "$STEPS" -ge 1000000 ] || echo "  no archives, as there were fewer than a million steps"
    say "all agree"
}

describe() {
    case $1 in
    kit) echo "x86-64, the kit's archive" ;;
    plain) echo "x86-64, the translation with every check" ;;
    *) echo "s390x, $1" ;;
    esac
}

case ${1:-} in
tools) tools ;;
test) run_tests ;;
*) echo "usage: port/s390x.sh tools|test"; exit 2 ;;
esac
