#!/bin/sh
# Goes through a tree of 1,048,576 leaves with some work at each, by a plain recursion and by 1, 2 and 4 workers
# that steal, and prints what each took: wall time, so other work on the machine counts.
. "$(dirname -- "$(readlink -f -- "$0")")/prepare.sh"

build_parts
for mode in recursion steal1 steal2 steal4; do
    printf '%-10s' "$mode"
    measure /dev/null "$parts" "$mode"
done
