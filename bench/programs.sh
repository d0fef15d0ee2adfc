#!/bin/sh
# Runs six programs on growing queries, and prints what each took, the greatest memory too: a list that is reversed, queens
# that do not attack each other, the subsets of a list, a substitution in a lambda term, the type of a lambda term, and a
# table of facts that is asked often. The depth is such that nothing is cut.
. "$(dirname -- "$(readlink -f -- "$0")")/prepare.sh"

build_program

measured() {
    python3 "$bench/program_text.py" "$1" "$2" > "$work/text"
    printf '%-8s %-4s' "$1" "$2"
    measure "$work/text" "$program" run --depth 10000
}

for size in 10 20 40 80 400 2000; do measured reverse "$size"; done
for size in 6 7 8; do measured queens "$size"; done
for size in 10 14 18; do measured subsets "$size"; done
for size in 2 4 6 8; do measured subst "$size"; done
for size in 10 20 40 80; do measured types "$size"; done
for size in 100 1000 10000; do measured facts "$size"; done
