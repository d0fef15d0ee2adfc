#!/usr/bin/env python3
"""Writes a program with one query that takes a search of some length: program_text.py SHAPE SIZE

The shapes:
  reverse  a list of SIZE parts is reversed, each part put behind the rest
  queens   SIZE queens on a board of as many rows and columns, none of which attacks another: all answers
  subsets  the subsets of a list of SIZE constants, each an answer
  subst    the clauses of examples/substitution.apl, asked of a term of SIZE levels, each of which is an
           abstraction in the pair of the term below with itself
  facts    a table of SIZE facts, of which one in the middle is asked 262,144 times by its first argument
  types    the clauses of examples/types.apl, asked for the type of a numeral: a function that is used SIZE times
  choices  20,000 choices, after each of which the substitution of `subst` to SIZE levels is made
"""

import os
import sys

EXAMPLES = os.path.join(os.path.dirname(os.path.realpath(__file__)), "..", "examples")

REVERSE = """nat : type.
z : nat.
s : nat -> nat.
pred append([nat], [nat], [nat]).
append([], L, L).
append([X|L], M, [X|N]) :- append(L, M, N).
pred reverse([nat], [nat]).
reverse([], []).
reverse([X|L], R) :- reverse(L, M), append(M, [X], R).
"""
QUEENS = """nat : type.
z : nat.
s : nat -> nat.
pred add(nat, nat, nat).
add(z, N, N).
add(s(M), N, s(K)) :- add(M, N, K).
pred differ(nat, nat).
differ(z, s(N)).
differ(s(N), z).
differ(s(M), s(N)) :- differ(M, N).
pred select(nat, [nat], [nat]).
select(X, [X|L], L).
select(X, [Y|L], [Y|M]) :- select(X, L, M).
pred safe(nat, nat, [nat]).
safe(Q, D, []).
safe(Q, D, [P|L]) :- add(Q, D, S), differ(S, P), add(P, D, T), differ(T, Q), safe(Q, s(D), L).
pred place([nat], [nat], [nat]).
place([], L, L).
place([Q|L], P, R) :- select(X, [Q|L], M), safe(X, s(z), P), place(M, [X|P], R).
"""
SUBSETS = """pred subset([key], [key]).
subset([], []).
subset([X|L], [X|M]) :- subset(L, M).
subset([X|L], M) :- subset(L, M).
"""


def number(n):
    """A number as a term."""
    return "s(" * n + "z" + ")" * n


def clauses(name):
    """The items of an example that are no queries; each query stands on a line of its own."""
    with open(os.path.join(EXAMPLES, name), encoding="utf-8") as text:
        return "".join(line for line in text if not line.startswith("?-"))


def reverse(size):
    return REVERSE + "?- reverse([" + ",".join(["z"] * size) + "], R).\n"


def queens(size):
    return QUEENS + "?- place([" + ",".join(number(n) for n in range(size)) + "], [], R).\n"


def subsets(size):
    keys = [f"k{i}" for i in range(size)]
    return "key : type.\n" + "".join(f"{key} : key.\n" for key in keys) + SUBSETS + f"?- subset([{','.join(keys)}], R).\n"


def term(levels):
    if levels == 0:
        return "app(var(a),var(b))"
    below = term(levels - 1)
    return f"app(lam(x{levels}\\{below}),{below})"


def subst(size):
    return clauses("substitution.apl") + f"?- subst({term(size)}, a, var(b), R).\n"


def types(size):
    uses = "app(var(f)," * size + "var(x)" + ")" * size
    return clauses("types.apl") + f"?- tc([], lam(f\\lam(x\\{uses})), T).\n"


def facts(size):
    lines = ["key : type."] + [f"k{i} : key." for i in range(size)]
    lines += ["pred next(key, key)."] + [f"next(k{i}, k{(i + 1) % size})." for i in range(size)]
    lines += ["pred c0.", f"c0 :- next(k{size // 2}, X)."]
    for level in range(18):
        lines += [f"pred c{level + 1}.", f"c{level + 1} :- c{level}, c{level}."]
    return "\n".join(lines) + "\n?- c18.\n"


def choices(size):
    lines = ["key : type."] + [f"k{i} : key." for i in range(10)] + ["pred one(key).", "pred side(key)."]
    lines += [f"one(k{i})." for i in range(10)] + ["side(k0).", "side(k1)."]
    goals = ["one(A)", "one(B)", "one(C)", "one(D)", "side(E)", f"subst({term(size)}, a, var(b), R)"]
    return clauses("substitution.apl") + "\n".join(lines) + "\n?- " + ", ".join(goals) + ".\n"


SHAPES = {"reverse": reverse, "queens": queens, "subsets": subsets, "subst": subst, "types": types, "facts": facts, "choices": choices}


def main():
    sys.stdout.write(SHAPES[sys.argv[1]](int(sys.argv[2])))


if __name__ == "__main__":
    main()
