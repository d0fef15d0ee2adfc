#!/bin/sh
# Types texts whose typing takes time, each whole and at half its count, and prints what each took, the
# greatest memory too: 200,000 facts, one fact of 1,000,000 tokens, terms that are nested 250 deep, and a query
# whose types double, which ends in a fault. The time of `parse` is that of reading alone, which typing does first.
. "$(dirname -- "$(readlink -f -- "$0")")/prepare.sh"

build_program

measured() {
    python3 "$bench/typing_text.py" "$1" "$2" > "$work/text"
    for stage in parse typed; do
        printf '%-9s' "$1"
        measure_to "$stage"
    done
}

for count in 200000 100000; do measured facts "$count"; done
for count in 1000000 500000; do measured tokens "$count"; done
for count in 1000 500; do measured nested "$count"; done
for count in 1000 500; do measured doubling "$count"; done
