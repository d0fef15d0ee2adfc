#!/usr/bin/env python3
"""Writes a bundle whose derivation has so many nodes: show_bundle.py SHAPE NODES.

chain: atoms, each by the clause whose body is the next one. names: the same, where each clause has a name of its own and a
condition on it. tree: two atoms in each body, all leaves equally high. wide: a query of so many atoms.
"""
import sys

HEAD = "id : name_type.\nt : type.\nz : t.\npred p(t).\n"


def chain(count):
    """An atom a node, and one by a clause without a body at the end."""
    text = HEAD + "p(X).\np(X) :- p(X).\n?- p(z).\n"
    return text, ["atom 2 0 1", "r 0"] * (count - 2) + ["atom 1 0 1", "r 0", "true"]


def names(count):
    """Three nodes for each atom: it, `and`, and the condition on its name."""
    text = HEAD + "p(X).\np(X) :- x # X, p(X).\n?- p(z).\n"
    nodes = []
    for number in range((count - 2) // 3):
        nodes += ["atom 2 1 1", f"m 0 {number}", "r 0", "and", "fresh"]
    return text, nodes + ["atom 1 0 1", "r 0", "true"]


def tree(count):
    """Two nodes for each atom: it, and `and` or `true` below it; as many as there are asked for, or up to twice as many."""
    text = HEAD + "p(X).\np(X) :- p(X), p(X).\n?- p(z).\n"
    height = (count // 2 + 1).bit_length() - 1
    nodes, waiting = [], [height]
    while waiting:
        left = waiting.pop()
        nodes += ["atom 2 0 1", "r 0", "and"] if left else ["atom 1 0 1", "r 0", "true"]
        waiting += [left - 1] * 2 if left else []
    return text, nodes


def wide(count):
    """Three nodes for each atom of the query: it, `true`, and `and` above it."""
    atoms = count // 3
    text = HEAD + "p(X).\n?- " + ",\n".join(["p(z)"] * atoms) + ".\n"
    return text, ["and", "atom 1 0 1", "r 0", "true"] * (atoms - 1) + ["atom 1 0 1", "r 0", "true"]


def main():
    shape, count = {"chain": chain, "names": names, "tree": tree, "wide": wide}[sys.argv[1]], int(sys.argv[2])
    text, nodes = shape(count)
    lines = ["alphaprolog bundle 2", f"text {len(text)}", text, "terms 2", "t u", "t a 2 0", "derivations 1", "derivation 1"]
    lines += ["vars 0", "conds 0", "binds 0"]
    lines += ["r 1" if node == "r 0" else node for node in nodes]
    print("\n".join([*lines, "end"]))


if __name__ == "__main__":
    main()
