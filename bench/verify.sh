#!/bin/sh
# Has the program check bundles of many parts, and prints what each took: an answer with many variables, one with as many
# conditions, two towers of abstractions whose binders all differ, and a variable under many swappings, each with half as many
# parts and with all. Then come bundles of 16 MiB with one term or one type that is nested as deep as that allows: none may end
# the process.
. "$(dirname -- "$(readlink -f -- "$0")")/prepare.sh"

build_program
for shape in variables-50000 variables-100000 conditions-50000 conditions-100000 towers-2000 towers-4000 swaps-2000 swaps-4000 \
    left-2090000 tuples-4100000 pairs-4190000 types-4190000 table-1000000; do
    python3 "$bench/bundle_text.py" "${shape%-*}" "${shape#*-}" > "$work/$shape"
    printf '%-18s' "$shape"
    measure "$work/$shape" "$program" check
done
