#!/usr/bin/env python3
"""Writes the texts of an exam by hand: examine_text.py SHAPE SIZE KIND

The shapes:
  subst  the clauses of examples/substitution.apl and the property `subst(M, a, var(a), R), M = R`; SIZE is not used
  steps  SIZE facts of the number 64 as the answers of the hypothesis, for each of which a conclusion of 32 steps is searched

The kinds:
  property    the property itself, for `examine`
  hypothesis  the query of its hypothesis alone, for `run`
  conclusions a query of the conclusion for each line of standard input, which is an answer that `run` gave for the
              hypothesis: the equations that the line has, and the conclusion. Lines of totals and notes are left out, and
              what an answer leaves open, `_1` and so on, is a variable of its query
"""
import os
import re
import sys

EXAMPLES = os.path.join(os.path.dirname(os.path.realpath(__file__)), "..", "examples")

STEPS = """nat : type.
z : nat.
s : nat -> nat.
pred even(nat).
even(z).
even(s(s(N))) :- even(N).
pred item(nat).
"""


def clauses(name):
    """The items of an example that are no queries; each query stands on a line of its own."""
    with open(os.path.join(EXAMPLES, name), encoding="utf-8") as text:
        return "".join(line for line in text if not line.startswith("?-"))


def numeral(number):
    return "s(" * number + "z" + ")" * number


def shape_of(shape, size):
    """The clauses, the hypothesis and the conclusion."""
    if shape == "subst":
        return clauses("substitution.apl"), "subst(M, a, var(a), R)", "M = R"
    facts = "".join(f"item({numeral(64)}).\n" for _ in range(size))
    return STEPS + facts, "item(N)", "even(N)"


def conclusion_queries(conclusion):
    for line in sys.stdin:
        if line.startswith("%"):
            continue
        answer = line.rstrip("\n").partition(" where ")[0]
        answer = re.sub(r"\b_(\d+)\b", r"V\1", answer)
        yield f"?- {answer}, {conclusion}.\n"


def main():
    shape, size, kind = sys.argv[1], int(sys.argv[2]), sys.argv[3]
    items, hypothesis, conclusion = shape_of(shape, size)
    sys.stdout.write(items)
    if kind == "property":
        print(f"?- {hypothesis}, {conclusion}.")
    elif kind == "hypothesis":
        print(f"?- {hypothesis}.")
    else:
        sys.stdout.writelines(conclusion_queries(conclusion))


if __name__ == "__main__":
    main()
