#!/usr/bin/env python3
"""Writes a text whose typing takes time: typing_text.py SHAPE [COUNT]

The shapes:
  facts     COUNT facts of one predicate, each with a variable
  tokens    one fact of about COUNT tokens: a list of lists of pairs
  nested    COUNT facts, each a term that is nested 250 deep
  chain     one query of COUNT equations, each variable a list of the one before; the first stays open
  doubling  one query of COUNT equations, each variable the pair of the one before with itself, and a clash
"""

import sys

HEAD = "nat : type.\nz : nat.\ns : nat -> nat.\n"


def facts(count):
    yield HEAD + "pred p(nat, nat).\n"
    for number in range(count):
        yield f"p(X, {'s(' * (number % 4)}z{')' * (number % 4)}).\n"


def tokens(count):
    yield HEAD + "pred p([[(nat, nat)]]).\n"
    row = "[" + ",".join(["(z,z)"] * 16) + "]"
    yield "p([" + ",".join([row] * max(1, count // 98)) + "]).\n"


def nested(count):
    yield HEAD + "pred p(nat).\n"
    for _ in range(count):
        yield "p(" + "s(" * 249 + "X" + ")" * 249 + ").\n"


def chain(count):
    yield "?- " + ", ".join(f"X{n + 1} = [X{n}]" for n in range(count)) + ".\n"


def doubling(count):
    yield "?- " + ", ".join(f"X{n + 1} = (X{n}, X{n})" for n in range(count)) + f", X{count} = ().\n"


SHAPES = {
    "facts": (facts, 200_000),
    "tokens": (tokens, 1_000_000),
    "nested": (nested, 1_000),
    "chain": (chain, 2_000),
    "doubling": (doubling, 1_000),
}


def main():
    shape, count = SHAPES[sys.argv[1]]
    if len(sys.argv) > 2:
        count = int(sys.argv[2])
    sys.stdout.writelines(shape(count))


main()
