#!/bin/sh
# Splits texts of 16, 8 and 4 MiB less some bytes into tokens, and prints what each took, the reading and the greatest
# memory too. The shapes: an ordinary program with long words and a comment, a dense one with short
# words, and parentheses alone.
. "$(dirname -- "$(readlink -f -- "$0")")/prepare.sh"

build_program

for shape in ordinary dense parens; do
    for size in 16777000 8388500 4194250; do
        python3 "$bench/token_text.py" "$size" "$shape" > "$work/text"
        printf '%-9s' "$shape"
        measure_to lex
    done
done
