#!/usr/bin/env python3
"""Checks and converts bundles of 16,777,216 bytes, or nearly as many as are given, and prints what each took.

usage: bench/bundle_shapes.py PROGRAM [BYTES [SHAPE]]

A shape is a bundle of one version or of both: many derivations, one large term, one long derivation, a table of one long chain,
tables whose lines double, the largest terms beside a long derivation. What `check` writes must be what the shape says.
Exit status: 1 where it is not.
"""
import os
import subprocess
import sys
import tempfile
import time

SIZE = int(sys.argv[2]) if len(sys.argv) > 2 else 16_777_216
SIGNATURE = "id : name_type.\ne : type.\nz : e.\ns : e -> e.\nc : (e, e) -> e.\n"
NAMES = SIGNATURE + "?- X = a.\n"
TERMS = SIGNATURE + "pred p(e).\np(X).\n?- p(X).\n"
TREES = "pred p.\np.\np :- p, p.\n?- p.\n"
BOTH = SIGNATURE + "pred q(e).\nq(X).\npred p.\np.\np :- p, p.\np :- " + 100 * "z = z, " + "p.\n?- q(X), p.\n"
ANSWER = "derivation 1\nvars 0\nconds 0\nbinds "


def bundle(version, text, derivations, table=None):
    """A bundle with these derivations, and this table."""
    lines = "" if table is None else f"terms {len(table)}\n" + "".join(table)
    return f"alphaprolog bundle {version}\ntext {len(text)}\n{text}\n{lines}derivations {len(derivations)}\n{''.join(derivations)}end\n"


def as_many(part, room):
    return max(1, room // len(part))


def many(version):
    """The same short derivation, as often as there is room."""
    line, table = ("t n 0 1\n", None) if version == 1 else ("r 0\n", ["t n 0 1\n"])
    part = ANSWER + "1\n" + line + "eq\n"
    count = as_many(part, SIZE - 200)
    return bundle(version, NAMES, [part] * count, table), f"% {count} derivations checked\n"


def of_term(term):
    """A derivation in version 1 in which a term stands twice."""
    return [f"{ANSWER}1\nt {term}\natom 1 0 1\nt {term}\ntrue\n"]


def chain(_):
    """A term of one chain, in full."""
    count = as_many("a 3 ", (SIZE - 300) // 2)
    return bundle(1, TERMS, of_term("a 3 " * count + "a 2 u")), "% 1 derivations checked\n"


def left(_):
    """A term whose left parts are nested, in full."""
    count = as_many("a 4 p " + " a 2 u", (SIZE - 300) // 2)
    return bundle(1, TERMS, of_term("a 4 p " * count + "a 2 u" + " a 2 u" * count)), "% 1 derivations checked\n"


def by_table(table):
    """A derivation in version 2 in which the last term of the table stands twice."""
    last = len(table) - 1
    return bundle(2, TERMS, [f"{ANSWER}1\nr {last}\natom 1 0 1\nr {last}\ntrue\n"], table)


def chain_table(_):
    """A table of one chain of constructors."""
    table, room = ["t u\n", "t a 2 0\n"], SIZE - 400
    while room > 0:
        table.append(f"t a 3 {len(table) - 1}\n")
        room -= len(table[-1])
    return by_table(table), "% 1 derivations checked\n"


def doubled(lines):
    """A table in which each pair has the line before it twice."""
    table = ["t u\n", "t a 2 0\n"]
    for _ in range(lines):
        table += [f"t p {len(table) - 1} {len(table) - 1}\n", f"t a 4 {len(table)}\n"]
    return table


def doubled_once(_):
    """The largest term that doubled lines make and that may be written in full twice."""
    return by_table(doubled(21)), "% 1 derivations checked\n"


def doubled_alone(_):
    """The largest term that doubled lines make and that `check` reads: twice that is too large to be written in full."""
    return by_table(doubled(22)), "% 1 derivations checked\n"


def doubled_too_large(_):
    """A whole bundle of doubled lines, of which the last is cited."""
    table, room = doubled(0), SIZE - 400
    while room > 0:
        table.append(f"t p {len(table) - 1} {len(table) - 1}\n")
        room -= len(table[-1])
    written = by_table(table)
    line = written[: written.index("\nr ")].count("\n") + 2
    return written, f"% bundle fault: line {line}, kind 5 Expanded\n"


def doubled_unused(_):
    """The same, of which the first is cited."""
    written, _ = doubled_too_large(None)
    last = written.rindex("\nr ")
    number = written[last + 3 : written.index("\n", last + 1)]
    return written.replace(f"\nr {number}\n", "\nr 1\n"), "% 1 derivations checked\n"


def tree(nested):
    """A derivation of many nodes, nested in the last part of each or in the first."""
    leaf = "atom 1 0 0\ntrue\n"
    front, back = ("atom 2 0 0\nand\n" + leaf, "") if nested == "right" else ("atom 2 0 0\nand\n", leaf)
    count = as_many(front + back, SIZE - 300)
    nodes = front * count + leaf + back * count
    return bundle(1, TREES, [ANSWER + "0\n" + nodes]), "% 1 derivations checked\n"


def largest(nested):
    """The largest terms that may be read, and a derivation of as many nodes as there is room for beside them."""
    table, leaf = doubled(21), "atom 1 0 0\ntrue\n"
    last = f"r {len(table) - 1}\n"
    parts = {
        "right": ("atom 2 0 0\nand\n" + leaf, ""),
        "left": ("atom 2 0 0\nand\n", leaf),
        "short": ("atom 3 0 0\n" + 100 * "and\neq\n", ""),
    }
    front, back = parts[nested]
    count = as_many(front + back, SIZE - len(BOTH) - len("".join(table)) - 200)
    nodes = "and\natom 1 0 1\n" + last + "true\n" + front * count + leaf + back * count
    return bundle(2, BOTH, [ANSWER + "1\n" + last + nodes], table), "% 1 derivations checked\n"


SHAPES = {
    "many derivations, version 1": (many, 1),
    "many derivations, version 2": (many, 2),
    "one chain twice, in full": (chain, None),
    "nested to the left twice, in full": (left, None),
    "a table of one chain, cited twice": (chain_table, None),
    "doubled lines, cited twice": (doubled_once, None),
    "doubled lines, the largest": (doubled_alone, None),
    "doubled lines, too large": (doubled_too_large, None),
    "doubled lines, not cited": (doubled_unused, None),
    "a derivation nested to the right": (tree, "right"),
    "a derivation nested to the left": (tree, "left"),
    "largest terms, nested to the right": (largest, "right"),
    "largest terms, nested to the left": (largest, "left"),
    "largest terms, short nodes": (largest, "short"),
}


def run(program, words, path, out):
    """The status, the seconds and the memory in MiB of a run, which writes to a file."""
    with open(path, "rb") as given, open(out, "wb") as file:
        start = time.monotonic()
        process = subprocess.Popen([program, *words], stdin=given, stdout=file, stderr=subprocess.DEVNULL)
        _, status, usage = os.wait4(process.pid, 0)
    return os.waitstatus_to_exitcode(status), time.monotonic() - start, usage.ru_maxrss / 1024


def main():
    program, only = sys.argv[1], sys.argv[3] if len(sys.argv) > 3 else ""
    wrong = 0
    for name, (make, given) in SHAPES.items():
        if only not in name:
            continue
        text, wanted = make(given)
        with tempfile.TemporaryDirectory() as folder:
            path, out = f"{folder}/bundle", f"{folder}/out"
            with open(path, "w", encoding="ascii") as file:
                file.write(text)
            for words in ["check"], ["convert", "--to", "1"], ["convert", "--to", "2"]:
                status, seconds, memory = run(program, words, path, out)
                with open(out, "rb") as file:
                    said = file.read(200).decode()
                good = said == wanted if words == ["check"] else status in (0, 2)
                wrong += not good
                size = os.path.getsize(out)
                took = f"{' '.join(words):<14} {seconds:6.2f} s {memory:7.1f} MiB"
                print(f"{name:<36} {len(text):>9} bytes  {took}  status {status}, {size} bytes written", flush=True)
                if not good:
                    print(f"  WRONG: {said!r}, wanted was {wanted!r}", flush=True)
    return wrong > 0


sys.exit(main())
