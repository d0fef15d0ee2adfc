#!/bin/sh
# Reads texts of 16, 8 and 4 MiB less some bytes, with some 200,000, 100,000 and 50,000 facts: splits them into tokens,
# and then splits and parses them, and prints what each took, the reading and the greatest memory too.
. "$(dirname -- "$(readlink -f -- "$0")")/prepare.sh"

build_program

for size in 16777000 8388500 4194250; do
    python3 "$bench/plain_text.py" "$size" long > "$work/text"
    measure_to lex
    measure_to parse
done
