#!/bin/bash
# Two archives and the ordinary program in one process, for speed:
#
#     bench/measure.sh OUT NAME ARCHIVE NAME ARCHIVE [LAYOUT]
#
# Functions of the program and of the archives begin at multiples of 64. With a LAYOUT, a positive number, they stand in an order of
# its own: where a function lies can change what it takes by more than two versions differ. That needs an rustc that links with lld.
set -eu -o pipefail
out=$1 first=$2 one=$3 second=$4 other=$5 layout=${6:-}
here=$(dirname "$0")
"$here/align.sh" "$one" "$out/libzokormendu.a"
"$here/align.sh" "$other" "$out/libport.a" port
options=()
[ -z "$layout" ] || options=(-C "link-arg=-Wl,--shuffle-sections=.text.*=$layout")
FIRST=$first SECOND=$second rustc --edition 2021 -C opt-level=3 -C llvm-args=-align-all-functions=6 "${options[@]}" \
    -L native="$out" -l static=zokormendu -l static=port -o "$out/bench" "$here/bench.rs"
"$out/bench"
