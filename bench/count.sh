#!/bin/bash
# Instructions a call, counted by valgrind's callgrind: a line for each kind of call, a column for each archive.
#
#     bench/count.sh OUT ARCHIVE...
#
# What a call takes is the difference between many and half as many, without that of a call that does nothing. It is the same in
# every run.
set -eu -o pipefail
shopt -s inherit_errexit
out=$1
shift
here=$(dirname "$0")
mkdir -p "$out"

# The instructions of a command, which must succeed.
counted() {
    valgrind --tool=callgrind --callgrind-out-file=/dev/null --log-file="$out/log" "$@" >/dev/null
    awk '/Collected/ {print $4}' "$out/log"
}

# What one call takes, in PROGRAM, of a KIND, with TIMES and half of that.
each() {
    local half=$(($3 / 2)) some many
    some=$(counted "$1" "$2" "$half")
    many=$(counted "$1" "$2" "$3")
    echo $(((many - some) / half))
}

programs=() none=()
for archive; do
    program=$out/count-${#programs[@]}
    cc -O2 -I"$here/../include" -o "$program" "$here/count.c" "$archive"
    programs+=("$program")
    nothing=$(each "$program" nothing 2000)
    none+=("$nothing")
done
kinds=$("${programs[0]}")
while read -r kind; do
    case $kind in
    nothing) continue ;;
    configure | remaining | sweep* | list | guest*) times=8 ;;
    *) times=2000 ;;
    esac
    printf '%-24s' "$kind"
    for k in "${!programs[@]}"; do
        taken=$(each "${programs[k]}" "$kind" $times)
        printf '%12d' $((taken - none[k]))
    done
    printf '\n'
done <<<"$kinds"
