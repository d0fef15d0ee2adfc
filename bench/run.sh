#!/bin/sh
# Runs the program on a text of BYTES bytes, on one of half and on one of a quarter, and prints what
# each took, the greatest memory too: run.sh [facts|names [BYTES]]. BYTES is the limit if left out.
. "$(dirname -- "$(readlink -f -- "$0")")/prepare.sh"
shape=${1:-facts}
bytes=${2:-16777216}

build_program

for size in "$bytes" $((bytes / 2)) $((bytes / 4)); do
    python3 "$bench/plain_text.py" "$size" "$shape" > "$work/text"
    measure "$work/text" "$program" run --depth 1
done
