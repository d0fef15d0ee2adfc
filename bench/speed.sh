#!/bin/sh
# Runs the workloads of speed_text.py by this interpreter with one, two and four workers, and by SWI-Prolog and ELPI where they
# are installed (Debian's packages swi-prolog-nox and elpi), and prints what each took. Words are the workloads to run: all, where
# none is given.
. "$(dirname -- "$(readlink -f -- "$0")")/prepare.sh"

build_program
: > "$work/nothing"

text() {
    python3 "$bench/speed_text.py" "$1" "$2" > "$work/$1.$2"
}

for workload in ${*:-reverse substitute types deep40 deep80 queens subsets towers capture}; do
    text "$workload" apl
    for workers in 1 2 4; do
        printf '%-10s %-10s' "$workload" "$workers"
        measure "$work/$workload.apl" "$program" run --depth 10000 --workers "$workers"
    done
    if command -v swipl > /dev/null; then
        text "$workload" pl
        printf '%-10s %-10s' "$workload" SWI-Prolog
        measure "$work/nothing" swipl -q -g main -t halt "$work/$workload.pl"
    fi
    if command -v elpi > /dev/null; then
        text "$workload" elpi
        printf '%-10s %-10s' "$workload" ELPI
        measure "$work/nothing" elpi -test -no-tc "$work/$workload.elpi" 2> /dev/null
    fi
done
