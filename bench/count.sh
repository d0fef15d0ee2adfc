#!/bin/sh
# Counts the uses of clauses in the derivations of 20,000 answers, by one, two and four workers, and prints what each took, the
# greatest memory too; before that a run of the same queries, which makes no derivation: count.sh [LEVELS]. Each answer has a
# substitution to so many levels, 3 if left out. All counts must be the same.
. "$(dirname -- "$(readlink -f -- "$0")")/prepare.sh"
levels=${1:-3}

build_program
python3 "$bench/program_text.py" choices "$levels" > "$work/text"

for workers in 1 2 4; do
    printf 'run   %s ' "$workers"
    measure "$work/text" "$program" run --depth 1000 --workers "$workers"
    printf 'count %s ' "$workers"
    measure "$work/text" "$program" count --depth 1000 --workers "$workers"
    "$program" count --depth 1000 --workers "$workers" < "$work/text" > "$work/counts$workers"
    cmp "$work/counts1" "$work/counts$workers"
done
