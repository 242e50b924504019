#!/bin/bash
# A copy of an archive in which every function begins at a multiple of 64, so that times hang less on where the linker puts it:
#
#     bench/align.sh IN OUT [PREFIX]
#
# With a PREFIX the functions zk_raw_... are called PREFIX_raw_... in the copy.
set -eu -o pipefail
in=$(realpath "$1") out=$(realpath -m "$2") prefix=${3:-}
work=$(mktemp -d)
trap 'rm -rf "$work"' EXIT
cd "$work"
ar x "$in"
for object in *.o; do
    options=()
    while read -r section; do
        options+=(--set-section-alignment "$section=64")
    done < <(objdump -h "$object" | awk '$2 ~ /^\.text\./ {print $2}')
    if [ -n "$prefix" ]; then
        nm -g --defined-only "$object" | awk -v to="${prefix}_raw_" '{name = $3; if (sub(/^zk_raw_/, to, name)) print $3, name}' >names
        options+=(--redefine-syms=names)
    fi
    objcopy "${options[@]}" "$object"
done
rm -f "$out"
mkdir -p "$(dirname "$out")"
ar rcs "$out" ./*.o
