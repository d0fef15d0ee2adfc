#!/usr/bin/env python3
"""Writes a text of facts of exactly SIZE bytes: plain_text.py SIZE [SHAPE]

The shapes:
  facts   one predicate, and as many facts of it as fit
  names   about half of the text declares constructors, and the facts use each of them
  long    facts of 83 bytes, some 200,000 in 16 MiB; they are in the grammar, and not typed
"""

import sys

DEEPEST = 8


def facts(size):
    yield "nat : type.\nz : nat.\ns : nat -> nat.\npred p(nat).\n"
    number = 0
    while True:
        deep = number % DEEPEST
        yield "p(" + "s(" * deep + "z" + ")" * deep + ").\n"
        number += 1


def names(size):
    yield "nat : type.\nz : nat.\n"
    count = size // 2 // len("f0000000 : nat -> nat.\n")
    for number in range(count):
        yield f"f{number:07} : nat -> nat.\n"
    yield "pred p(nat).\n"
    number = 0
    while True:
        yield f"p(f{number % max(count, 1):07}(z)).\n"
        number += 1


def long(size):
    while True:
        yield "reachable(graph(Edges,Nodes), path(From,[(From,Via),(Via,To)|Others],To), x\\s(N)).\n"


SHAPES = {"facts": facts, "names": names, "long": long}
QUERY = "?- p(X).\n"


def main():
    size = int(sys.argv[1])
    shape = SHAPES[sys.argv[2] if len(sys.argv) > 2 else "facts"]
    room = size - len(QUERY)
    out = sys.stdout
    for item in shape(size):
        if len(item) > room:
            break
        out.write(item)
        room -= len(item)
    # Blanks fill the text to its size.
    out.write(" " * room + QUERY)


main()
