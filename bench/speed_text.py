#!/usr/bin/env python3
"""Writes a program for this interpreter, SWI-Prolog or ELPI: speed_text.py WORKLOAD LANGUAGE

The languages are apl, pl and elpi. A program of the last two runs by its predicate main. In Prolog a name is an atom, bound
names are renamed by new numbers, and types are unified with the occurs check; in ELPI binders are the language's own. The workloads:
  reverse     a list of 2,000 parts is reversed, each part put behind the rest
  substitute  20,000 queries, each a substitution in a lambda term of two binders that would capture
  types       the types of 200 lambda terms of 16 binders
  deep40      the types of 20 lambda terms, each of which nests 40 binders
  deep80      the same, 80 binders
  queens      eight queens: all answers, each written as `yes`
  subsets     the subsets of a list of 18 constants, likewise
  towers      500 equations of two terms of 120 binders whose names differ
  capture     500 substitutions below 110 binders, each of which would capture
"""

import sys

NAMES = "id : name_type.\nexp : type.\nvar : id -> exp.\napp : (exp, exp) -> exp.\nlam : id\\exp -> exp.\n"
SUBST = {
    "apl": NAMES
    + "pred subst(exp, id, exp, exp).\n"
    + "subst(var(X), X, E, E).\n"
    + "subst(var(Y), X, _, var(Y)) :- X # Y.\n"
    + "subst(app(M,N), X, E, app(M2,N2)) :- subst(M,X,E,M2), subst(N,X,E,N2).\n"
    + "subst(lam(y\\M), X, E, lam(y\\M2)) :- y # X, y # E, subst(M,X,E,M2).\n",
    "pl": "subst(M, X, E, R) :- in_place_of(M, [X-E], R).\n"
    + "in_place_of(var(X), L, R) :- ( stands_for(L, X, E) -> R = E ; R = var(X) ).\n"
    + "in_place_of(app(M,N), L, app(M2,N2)) :- in_place_of(M, L, M2), in_place_of(N, L, N2).\n"
    + "in_place_of(lam(Y,M), L, lam(Z,M2)) :- flag(names, Z, Z + 1), in_place_of(M, [Y-var(Z)|L], M2).\n"
    + "stands_for([Y-E|L], X, R) :- ( X == Y -> R = E ; stands_for(L, X, R) ).\n",
    "elpi": "kind exp type.\ntype app exp -> exp -> exp.\ntype lam (exp -> exp) -> exp.\n"
    + "pred subst i:exp, i:exp, i:exp, o:exp.\n"
    + "subst X X E E :- !.\n"
    + "subst (app M N) X E (app M2 N2) :- !, subst M X E M2, subst N X E N2.\n"
    + "subst (lam F) X E (lam G) :- !, pi y\\ subst (F y) X E (G y).\n"
    + "subst Y _ _ Y.\n",
}
TYPES = {
    "apl": NAMES
    + "ty : type.\no : ty.\narr : (ty, ty) -> ty.\n"
    + "pred mem((id, ty), [(id, ty)]).\nmem(P, [P|_]).\nmem(P, [_|L]) :- mem(P, L).\n"
    + "pred tc([(id, ty)], exp, ty).\n"
    + "tc(G, var(X), T) :- mem((X,T), G).\n"
    + "tc(G, app(M,N), U) :- tc(G, M, arr(T,U)), tc(G, N, T).\n"
    + "tc(G, lam(x\\M), arr(T,U)) :- x # G, tc([(x,T)|G], M, U).\n",
    "pl": ":- set_prolog_flag(occurs_check, true).\n"
    + "mem(P, [P|_]).\nmem(P, [_|L]) :- mem(P, L).\n"
    + "tc(G, var(X), T) :- mem(X-T, G).\n"
    + "tc(G, app(M,N), U) :- tc(G, M, arr(T,U)), tc(G, N, T).\n"
    + "tc(G, lam(X,M), arr(T,U)) :- tc([X-T|G], M, U).\n",
    "elpi": "kind exp type.\ntype app exp -> exp -> exp.\ntype lam (exp -> exp) -> exp.\n"
    + "kind ty type.\ntype arr ty -> ty -> ty.\n"
    + "pred tc i:exp, o:ty.\n"
    + "tc (app M N) U :- tc M (arr T U), tc N T.\n"
    + "tc (lam F) (arr T U) :- pi x\\ tc x T => tc (F x) U.\n",
}


# Terms of the lambda calculus: ("var", name), ("app", left, right), ("lam", name, body).
def var(name):
    return "var", name


def app(left, right):
    return "app", left, right


def lam(name, body):
    return "lam", name, body


def lams(names, body):
    for name in reversed(names):
        body = lam(name, body)
    return body


def shown(term, language):
    """A term as it is written; it isn't deeper than Python's stack."""
    kind = term[0]
    if kind == "var":
        return term[1] if language == "elpi" else f"var({term[1]})"
    if kind == "app":
        parts = shown(term[1], language), shown(term[2], language)
        return "(app {} {})".format(*parts) if language == "elpi" else "app({},{})".format(*parts)
    body = shown(term[2], language)
    return {"apl": f"lam({term[1]}\\{body})", "pl": f"lam({term[1]},{body})", "elpi": f"(lam {term[1]}\\ {body})"}[language]


def program(language, clauses, goals, result=None):
    """The clauses, and goals that are run one after another; each answer of a goal is written if it has a result."""
    if language == "apl":
        return clauses + "".join(f"?- {goal}.\n" for goal in goals)
    if language == "pl":
        write = f", print({result}), nl" if result else ""
        lines = [f"goal({number}) :- {goal}{write}.\n" for number, goal in enumerate(goals)]
        return clauses + "".join(lines) + f"main :- forall(between(0, {len(goals) - 1}, I), ignore(goal(I))).\n"
    write = f", term_to_string {result} Text, print Text" if result else ""
    lines = [f"goal {number} :- {goal}{write}.\n" for number, goal in enumerate(goals)]
    return (
        clauses + "pred goal i:int.\n" + "".join(lines) + "pred each i:int, i:int.\neach N N :- !.\neach I N :- goal I, J is I + 1, each J N.\n"
        + f"main :- each 0 {len(goals)}.\n"
    )


def reverse(language):
    parts = ",".join(["z"] * 2000)
    if language == "elpi":
        clauses = (
            "kind nat type.\ntype z nat.\npred append i:list nat, i:list nat, o:list nat.\nappend [] L L.\nappend [X|L] M [X|N] :- append L M N.\n"
            "pred reverse i:list nat, o:list nat.\nreverse [] [].\nreverse [X|L] R :- reverse L M, append M [X] R.\n"
        )
        return program(language, clauses, [f"reverse [{parts}] R"], "R")
    heads = "nat : type.\nz : nat.\npred append([nat], [nat], [nat]).\npred reverse([nat], [nat]).\n" if language == "apl" else ""
    clauses = (
        heads + "append([], L, L).\nappend([X|L], M, [X|N]) :- append(L, M, N).\n"
        "reverse([], []).\nreverse([X|L], R) :- reverse(L, M), append(M, [X], R).\n"
    )
    return program(language, clauses, [f"reverse([{parts}], R)"], "R")


def subst_goal(language, term, name, by):
    if language == "elpi":
        return f"subst {shown(term, language)} {name} {shown(by, language)} R"
    return f"subst({shown(term, language)}, {name}, {shown(by, language)}, R)"


def free_names(language, names):
    return "".join(f"type {name} exp.\n" for name in names) if language == "elpi" else ""


def substitute(language):
    goals = []
    for number in range(20000):
        bound, other = f"b{number % 10}", f"c{number % 7}"
        inner = app(var("a"), lam(other, app(app(var(other), var(bound)), var("a"))))
        goals.append(subst_goal(language, lam(bound, inner), "a", app(var("b0"), var("c0"))))
    free = free_names(language, ["a", "b0", "c0"])
    return program(language, SUBST[language] + free, goals, "R")


def type_goal(language, term):
    if language == "elpi":
        return f"tc {shown(term, language)} T"
    return f"tc([], {shown(term, language)}, T)"


def types(language):
    goals = []
    for number in range(200):
        names = [f"x{place}" for place in range(16)]
        body = var(names[-1])
        for place in range(15):
            body = app(var(names[(place + number) % 15]), body)
        goals.append(type_goal(language, lams(names, body)))
    return program(language, TYPES[language], goals, "T")


def deep(language, depth):
    names = [f"x{place}" for place in range(depth)]
    body = var(names[0])
    for name in names[1:]:
        body = app(body, var(name))
    return program(language, TYPES[language], [type_goal(language, lams(names, body))] * 20, "T")


QUEENS = """add(z, N, N).
add(s(M), N, s(K)) :- add(M, N, K).
differ(z, s(_)).
differ(s(_), z).
differ(s(M), s(N)) :- differ(M, N).
select(X, [X|L], L).
select(X, [Y|L], [Y|M]) :- select(X, L, M).
safe(_, _, []).
safe(Q, D, [P|L]) :- add(Q, D, S), differ(S, P), add(P, D, T), differ(T, Q), safe(Q, s(D), L).
place([], L, L).
place([Q|L], P, R) :- select(X, [Q|L], M), safe(X, s(z), P), place(M, [X|P], R).
"""
QUEENS_ELPI = """kind nat type.
type z nat.
type s nat -> nat.
pred add i:nat, i:nat, o:nat.
add z N N.
add (s M) N (s K) :- add M N K.
pred differ i:nat, i:nat.
differ z (s _).
differ (s _) z.
differ (s M) (s N) :- differ M N.
pred take o:nat, i:list nat, o:list nat.
take X [X|L] L.
take X [Y|L] [Y|M] :- take X L M.
pred safe i:nat, i:nat, i:list nat.
safe _ _ [].
safe Q D [P|L] :- add Q D S, differ S P, add P D T, differ T Q, safe Q (s D) L.
pred place i:list nat, i:list nat, o:list nat.
place [] L L.
place [Q|L] P R :- take X [Q|L] M, safe X (s z) P, place M [X|P] R.
"""


def number_of(language, number):
    return "(s " * number + "z" + ")" * number if language == "elpi" else "s(" * number + "z" + ")" * number


def all_answers(language, clauses, goal, result):
    """A goal whose answers are all found, and written as `yes`."""
    if language == "apl":
        return program(language, clauses, [f"exists {result} ({goal})"])
    if language == "pl":
        return clauses + f"main :- forall({goal}, (write(yes), nl)).\n"
    return clauses + f"main :- {goal}, print yes, fail.\nmain.\n"


def queens(language):
    numbers = ",".join(number_of(language, number) for number in range(8))
    if language == "elpi":
        return all_answers(language, QUEENS_ELPI, f"place [{numbers}] [] R", "R")
    heads = "" if language == "pl" else (
        "nat : type.\nz : nat.\ns : nat -> nat.\npred add(nat, nat, nat).\npred differ(nat, nat).\npred select(nat, [nat], [nat]).\n"
        "pred safe(nat, nat, [nat]).\npred place([nat], [nat], [nat]).\n"
    )
    return all_answers(language, heads + QUEENS, f"place([{numbers}], [], R)", "R")


def subsets(language):
    keys = [f"k{number}" for number in range(18)]
    parts = ",".join(keys)
    if language == "elpi":
        clauses = "kind key type.\n" + "".join(f"type {key} key.\n" for key in keys)
        clauses += "pred subset i:list key, o:list key.\nsubset [] [].\nsubset [X|L] [X|M] :- subset L M.\nsubset [_|L] M :- subset L M.\n"
        return all_answers(language, clauses, f"subset [{parts}] R", "R")
    heads = "" if language == "pl" else "key : type.\n" + "".join(f"{key} : key.\n" for key in keys) + "pred subset([key], [key]).\n"
    clauses = heads + "subset([], []).\nsubset([X|L], [X|M]) :- subset(L, M).\nsubset([_|L], M) :- subset(L, M).\n"
    return all_answers(language, clauses, f"subset([{parts}], R)", "R")


ALPHA = """alpha(G, var(X), var(Y)) :- same(G, X, Y).
alpha(G, app(M,N), app(P,Q)) :- alpha(G, M, P), alpha(G, N, Q).
alpha(G, lam(X,M), lam(Y,N)) :- alpha([X-Y|G], M, N).
same([X-Y|G], A, B) :- ( A == X -> B == Y ; B == Y -> fail ; same(G, A, B) ).
same([], X, X).
"""


def towers(language):
    def tower(letter):
        names = [f"{letter}{place}" for place in range(120)]
        return shown(lams(names, app(var(names[0]), var(names[-1]))), language)

    left, right = tower("x"), tower("y")
    goal = {"apl": f"{left} = {right}", "pl": f"alpha([], {left}, {right})", "elpi": f"{left} = {right}"}[language]
    clauses = {"apl": NAMES, "pl": ALPHA, "elpi": "kind exp type.\ntype app exp -> exp -> exp.\ntype lam (exp -> exp) -> exp.\n"}[language]
    return program(language, clauses, [goal] * 500)


def capture(language):
    names = [f"x{place}" for place in range(110)]
    term = lams(names, app(var("a"), var(names[-1])))
    by = var(names[0])
    goals = [subst_goal(language, term, "a", by)] * 500
    return program(language, SUBST[language] + free_names(language, ["a", names[0]]), goals, "R")


WORKLOADS = {
    "reverse": reverse,
    "substitute": substitute,
    "types": types,
    "deep40": lambda language: deep(language, 40),
    "deep80": lambda language: deep(language, 80),
    "queens": queens,
    "subsets": subsets,
    "towers": towers,
    "capture": capture,
}


def main():
    if len(sys.argv) != 3 or sys.argv[1] not in WORKLOADS or sys.argv[2] not in ("apl", "pl", "elpi"):
        sys.exit(__doc__)
    sys.setrecursionlimit(10000)
    sys.stdout.write(WORKLOADS[sys.argv[1]](sys.argv[2]))


if __name__ == "__main__":
    main()
