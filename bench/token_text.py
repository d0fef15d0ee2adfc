#!/usr/bin/env python3
"""Writes a text of exactly SIZE bytes of one shape: token_text.py SIZE SHAPE"""

import sys

SHAPES = {
    "ordinary": "% the typing judgement of the simply typed lambda calculus, one rule for each form of term\n"
    "typing_judgement(Context, application(Function, Argument), Result_type) :-\n"
    "    typing_judgement(Context, Function, arrow_type(Argument_type, Result_type)),\n"
    "    typing_judgement(Context, Argument, Argument_type).\n",
    "dense": "typ(Gamma, lam(x\\E), fun_ty(T,U)) :- x # Gamma, typ([(x,T)|Gamma], E, U).\n",
    "parens": "(",
}


def main():
    size = int(sys.argv[1])
    line = SHAPES[sys.argv[2]]
    sys.stdout.write((line * (size // len(line) + 1))[:size])


main()
