"""Writes a bundle with one derivation of many parts: bundle_text.py SHAPE COUNT.

variables    the binding is a list of so many variables, each with its type, in no order
conditions   and a name is fresh for each of them
towers       two towers of so many abstractions are equal, whose binders all differ
left         the binding is a tree nested so deep in first arguments
tuples       the binding is a tree whose nodes are pairs nested in left parts, all in all so deep
pairs        the binding is a pair nested so deep in left parts, which no type fits
types        a variable has the type of pairs nested so deep in left parts, which no term has
table        the pair of `pairs`, by the lines of a table
swaps        a variable is equal to itself, with so many swappings before it on both sides
"""
import sys


def variables(count):
    return [(7919 * i) % count for i in range(count)] if count % 7919 else list(range(count))


def listed(terms):
    return "".join(f" a 1 p {term}" for term in terms) + " a 0 u"


def block(text, vars, conds, binds, nodes):
    lines = [f"text {len(text.encode())}", text, "derivations 1", "derivation 1", f"vars {len(vars)}"]
    lines += vars + [f"conds {len(conds)}"] + conds + [f"binds {len(binds)}"] + binds + nodes + ["end"]
    return "alphaprolog bundle 1\n" + "\n".join(lines) + "\n"


def with_variables(count):
    term = "t" + listed(f"s 0 {x}" for x in variables(count))
    text = "nat : type.\nz : nat.\npred p([nat]).\np(X).\n?- p(X).\n"
    return block(text, [f"v {x} d 0" for x in variables(count)], [], [term], ["atom 1 0 1", term, "true"])


def with_conditions(count):
    term = "t" + listed(f"s 0 {x}" for x in variables(count))
    text = "id : name_type.\nnat : type.\nis : [nat] -> nat.\npred p(nat).\n?- a # X, X = is(Y).\n"
    return block(text, [f"v {x} d 0" for x in variables(count)], [f"c 0 0 {x}" for x in sorted(variables(count))],
                 ["t a 2" + term[1:], term], ["and", "fresh", "eq"])


def with_towers(count):
    text = "id : name_type.\nexp : type.\nvar : id -> exp.\nlam : id\\exp -> exp.\npred same(exp, exp).\nsame(X, X).\n?- same(X, Y).\n"
    left = "t" + "".join(f" a 3 l 0 {2 * i}" for i in range(count)) + " a 2 n 0 0"
    right = "t" + "".join(f" a 3 l 0 {2 * i + 1}" for i in range(count)) + " a 2 n 0 1"
    return block(text, [], [], [left, right], ["atom 1 0 1", left, "true"])


def nested(count, first, last):
    return "".join(first for _ in range(count)) + last


def with_left(count):
    text = "t : type.\nleaf : t.\nnode : (t, ()) -> t.\n?- X = X; X = leaf.\n"
    return block(text, [], [], [f"t {nested(count, 'a 3 p ', 'a 2 u')}{' u' * count}"], ["left", "eq"])


def with_tuples(count):
    each = 200
    text = f"t : type.\nleaf : t.\nnode : {'(' * each}t{', ())' * each} -> t.\n?- X = X; X = leaf.\n"
    term = nested(count // each, "a 3 " + "p " * each, "a 2 u") + " u" * (count // each * each)
    return block(text, [], [], [f"t {term}"], ["left", "eq"])


PAIRS = "nat : type.\nz : nat.\n?- X = X; X = z.\n"


def with_pairs(count):
    return block(PAIRS, [], [], [f"t {nested(count, 'p ', 'u')}{' u' * count}"], ["left", "eq"])


def with_types(count):
    return block(PAIRS, [f"v 0 {nested(count, 'p ', 'u')}{' u' * count}"], [], ["t s 0 0"], ["left", "eq"])


def with_table(count):
    lines = ["t u"] + [f"t p {i} 0" for i in range(count)]
    whole = block(PAIRS, [], [], [f"r {count}"], ["left", "eq"])
    return whole.replace("bundle 1", "bundle 2").replace("derivations 1\n", "\n".join([f"terms {len(lines)}"] + lines + ["derivations 1"]) + "\n")


def with_swaps(count):
    text = "id : name_type.\nexp : type.\nvar : id -> exp.\nlam : id\\exp -> exp.\npred same(exp, exp).\nsame(X, X).\n?- same(X, Y).\n"
    swaps = "".join(f" 0 {2 * i} {2 * i + 1}" for i in range(count))
    term = f"t s {count}{swaps} 0"
    return block(text, ["v 0 d 0"], [], [term, term], ["atom 1 0 1", term, "true"])


shapes = {"variables": with_variables, "conditions": with_conditions, "towers": with_towers, "left": with_left, "tuples": with_tuples, "pairs": with_pairs, "types": with_types, "table": with_table, "swaps": with_swaps}
sys.stdout.write(shapes[sys.argv[1]](int(sys.argv[2])))
