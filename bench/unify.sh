#!/bin/sh
# Unifies towers of 20, 40 and 80 abstractions in the queries of a text, and prints what 100 queries took and
# what 200 took, each run the whole program: reading, typing and writing too.
. "$(dirname -- "$(readlink -f -- "$0")")/prepare.sh"

build_program

for shape in closed open clash; do
    for depth in 20 40 80; do
        for count in 100 200; do
            python3 "$bench/unify_text.py" "$shape" "$depth" "$count" > "$work/text"
            printf '%-7s %-4s %-4s' "$shape" "$depth" "$count"
            measure "$work/text" "$program" run --depth 1
        done
    done
done
