#!/bin/sh
# Examines properties, and prints what each took beside a search by hand: `run` on the hypothesis, and `run` on a text with
# a query for each of its answers, the conclusion with that answer put in: examine.sh [DEPTH [FACTS]]. The first property is that of
# the substitution of a name for itself, to depth DEPTH, 4 if left out; the second has FACTS answers, 10,000 if left out, with
# a conclusion of 32 steps each. Both have no counterexample.
. "$(dirname -- "$(readlink -f -- "$0")")/prepare.sh"
depth=${1:-4}
facts=${2:-10000}

build_program

by_hand() {
    python3 "$bench/examine_text.py" "$1" "$facts" property > "$work/property"
    python3 "$bench/examine_text.py" "$1" "$facts" hypothesis > "$work/hypothesis"
    "$program" run --depth "$2" < "$work/hypothesis" |
        python3 "$bench/examine_text.py" "$1" "$facts" conclusions > "$work/conclusions"
    for workers in 1 4; do
        printf '%-6s examine     %s ' "$1" "$workers"
        measure "$work/property" "$program" examine --depth "$2" --workers "$workers"
    done
    for part in hypothesis conclusions; do
        printf '%-6s %-11s 1 ' "$1" "$part"
        measure "$work/$part" "$program" run --depth "$2"
    done
}

by_hand subst "$depth" 2> /dev/null
by_hand steps 1000 2> /dev/null
