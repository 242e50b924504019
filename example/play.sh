#!/bin/bash
# Plays a file of lines at the console and shows each beside its answer; a long line is shown cut.
set -eu -o pipefail
lines=$(realpath "$1")
cd "$(dirname "$0")/.."
answers=$(target/bin/console <"$lines")
paste "$lines" <(echo "$answers") | while IFS=$'\t' read -r line answer; do
    [ ${#line} -le 56 ] || line="${line:0:53}..."
    printf '%-56s  %s\n' "$line" "$answer"
done
