#!/usr/bin/env python3
"""Writes a text for measurements: restricted_text.py SHAPE COUNT

The shapes:
  names     a clause with COUNT free names and a list of COUNT variables in its head, whose type can
            hold no names
  words     COUNT constructors, and COUNT queries with a variable that stays open
  doubling  COUNT predicates, each of which makes a pair of what the one before it makes
"""

import sys


def names(count):
    yield "id : name_type.\ne : type.\nc : e.\npred p([e]).\n"
    yield "p([" + ",".join(f"X{number}" for number in range(count)) + "]) :- "
    yield ", ".join(f"a{number} # b" for number in range(count)) + ".\n"


def words(count):
    yield "e : type.\nc : e.\n"
    for number in range(count):
        yield f"c{number} : e.\n"
    yield "pred p(e).\np(X).\n"
    for _ in range(count):
        yield "?- p(X).\n"


def doubling(count):
    yield "e : type.\nc : e.\nf : (e, e) -> e.\npred p0(e).\np0(c).\n"
    for number in range(1, count + 1):
        yield f"pred p{number}(e).\np{number}(f(X,X)) :- p{number - 1}(X).\n"
    yield f"?- p{count}(X).\n"


SHAPES = {"names": names, "words": words, "doubling": doubling}


def main():
    for piece in SHAPES[sys.argv[1]](int(sys.argv[2])):
        sys.stdout.write(piece)


main()
