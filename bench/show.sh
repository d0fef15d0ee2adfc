#!/bin/sh
# Has the program that shows derivations show some of 100,000 nodes, and of 1,000,000 where a bundle holds as many, in each
# format, and prints what each took: a chain of atoms, one whose clauses have a name of their own each, a tree whose leaves
# are equally high, and a query of many atoms.
. "$(dirname -- "$(readlink -f -- "$0")")/prepare.sh"

# The program that stands, or the one that another build has made.
if [ -z "${SHOWER:-}" ]; then
    "$bench/../alphaprolog-show" --as text < "$bench/../crates/ap_show_cli/stdin" > /dev/null
    SHOWER=$bench/../crates/ap_show_cli/out/ap_show_cli
fi

for shape in chain-100000 names-100000 tree-100000 wide-100000 chain-1000000 names-1000000 \
    tree-1000000 wide-1000000; do
    python3 "$bench/show_bundle.py" "${shape%-*}" "${shape#*-}" > "$work/$shape"
    for format in text latex html; do
        printf '%-14s %-6s' "$shape" "$format"
        measure "$work/$shape" "$SHOWER" --as "$format"
    done
done
