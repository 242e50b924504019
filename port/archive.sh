#!/bin/bash
# Makes OUT/libzokormendu.a of a translated library:
#
#     port/archive.sh SOURCE OUT checked|unchecked|plain
#
# checked      a bounds or overflow check that fails stops the program. The compiler leaves out those that it can show to hold
# unchecked    the compiler is told that none fails, which is what the proofs say, and leaves all of them out
# plain        not optimised, so that every check is there: for tests, since it needs Rust's own libraries
#
# RUSTC, CC, AR and NM name the tools, with their options. What the first two export is held to the header, and what they need
# to what a freestanding program has; the archive is there only if that holds.
set -eu -o pipefail
source=$1 out=$2 mode=$3
port=$(dirname "$0")
: "${RUSTC:=rustc}" "${CC:=cc}" "${AR:=ar}" "${NM:=nm}"
case $mode in
checked) flags=(-C opt-level=3 -C overflow-checks=on) ;;
unchecked) flags=(-C opt-level=3 -C overflow-checks=off --cfg unchecked) ;;
plain) flags=(-C opt-level=0 -C overflow-checks=on) ;;
*) echo "archive: checked, unchecked or plain, not $mode"; exit 2 ;;
esac

fail() {
    echo "archive: $mode: $*"
    exit 1
}

rm -rf "$out"
mkdir -p "$out"
# One unit together with Rust's core, so that the object needs nothing of it.
$RUSTC --edition 2021 --crate-type staticlib --crate-name zokormendu "${flags[@]}" -C panic=abort -C lto=fat \
    -C codegen-units=1 -o "$out/rustc.a" "$source/lib.rs"
# The other members are rustc's helpers for arithmetic.
member=$($AR t "$out/rustc.a" | grep '\.zokormendu\.') || fail "no object of the library"
[ "$(wc -l <<<"$member")" = 1 ] || fail "more than one object of the library"
object=$out/zokormendu.o
$AR p "$out/rustc.a" "$member" >"$object"
rm "$out/rustc.a"

objects=("$object")
needed=(memcpy memset memcmp)
if [ "$mode" != unchecked ]; then
    $CC -O2 -ffreestanding -c -o "$out/stop.o" "$port/stop.c"
    objects+=("$out/stop.o")
    needed+=(zk_stop)
fi

if [ "$mode" = plain ]; then
    $AR rcs "$out/libzokormendu.a" "${objects[@]}"
    echo "$mode: every check is there"
    exit
fi

exports=$($NM -g --defined-only "$object" | awk '{print $NF}' | sort)
declared=$(grep -o '\bzk_raw_[a-z_]*(' "$port/../include/zokormendu.h" | tr -d '(' | sort -u)
[ "$exports" = "$declared" ] || fail "exports that are not the header's: $(diff <(echo "$exports") <(echo "$declared"))"
needs=$($NM -u "$object" | awk '{print $NF}')
for symbol in $needs; do
    [[ " ${needed[*]} " = *" $symbol "* ]] || fail "needs $symbol"
done
# Functions that are not the library's are those that a failed check calls.
others=$($NM --defined-only "$object" | awk 'tolower($2) == "t" {print $NF}' | grep -vc 'zokormendu\|^zk_raw_' || true)
case $mode in
checked) [ "$others" != 0 ] || fail "no check is in it" ;;
unchecked) [ "$others" = 0 ] || fail "$others functions that are not the library's are in it" ;;
esac
$AR rcs "$out/libzokormendu.a" "${objects[@]}"
needs=$(grep -vx zk_stop <<<"$needs" | xargs || true)
echo "$mode: $(wc -l <<<"$exports") functions, $(stat -c %s "$object") bytes, needs ${needs:-nothing}"
