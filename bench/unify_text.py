#!/usr/bin/env python3
"""Writes a text whose queries unify two towers of abstractions: unify_text.py SHAPE DEPTH COUNT

A tower is lam(x1\\lam(x2\\..)). The two of a query bind other names. There are COUNT equal queries, so that
what one takes shows in the difference of two counts. The shapes:
  closed  the innermost term has each bound name
  open    the innermost terms are two variables: one is bound to the other with DEPTH exchanges
  clash   as closed, but the innermost terms differ in their last name
"""

import sys

HEAD = "id : name_type.\nexp : type.\nvar : id -> exp.\nall : [id] -> exp.\nlam : id\\exp -> exp.\n"


def tower(letter, depth, inner):
    names = [f"{letter}{number}" for number in range(depth)]
    return "".join(f"lam({name}\\" for name in names) + inner(names) + ")" * depth


def all_names(names):
    return "all([" + ",".join(names) + "])"


def other_last(names):
    return "all([" + ",".join(names[:-1] + names[:1]) + "])"


SHAPES = {
    "closed": (all_names, all_names),
    "open": (lambda names: "X", lambda names: "Y"),
    "clash": (all_names, other_last),
}


def main():
    shape, depth, count = sys.argv[1], int(sys.argv[2]), int(sys.argv[3])
    left, right = SHAPES[shape]
    query = f"?- {tower('x', depth, left)} = {tower('y', depth, right)}.\n"
    sys.stdout.write(HEAD)
    sys.stdout.writelines(query for _ in range(count))


main()
