#!/bin/sh
# Prints an answer of 1,048,574 nodes, tests the name restriction of texts whose clause has N names and a
# head of N cells, and writes the reports of texts with N words and N queries; prints what each took. The
# times of `typed` are those of reading and typing alone, which the others do first.
. "$(dirname -- "$(readlink -f -- "$0")")/prepare.sh"

build_program

measured() {
    python3 "$bench/restricted_text.py" "$1" "$2" > "$work/text"
    printf '%-9s' "$1"
    measure "$work/text" "$program" run --depth 20
}

for count in 1000 2000 4000; do
    measured names "$count"
    measure_to typed
done

for count in 1000 2000 4000; do measured words "$count"; done

# A program whose answer doubles at each step: 1,048,574 nodes with its tuples.
measured doubling 18
