#!/usr/bin/env python3
"""Runs texts of many shapes, each at a size and at twice that size, and tells which end badly or grow faster than their size.

usage: bench/sizes.py PROGRAM [BYTES [WORKERS[,..] [SHAPE ..]]]

BYTES is the first size, 262,144 where none is given, and WORKERS are 1,4. A shape that is a search has a number of steps in place
of bytes, a sixteenth of them. Each run has a limit of processor seconds (LIMIT, 60) and of address space (GIBIBYTES, 8). For each shape a line
of a table has seconds and MiB at both sizes for each number of workers. It is marked where a run ended by a signal, by a status that
is not that of the shape or at a limit, where numbers of workers wrote different bytes, and where twice the size took more than 2.3 times
the seconds or the memory, beyond what is too little to be measured. Exit status: 1 where a line is marked.
"""
import hashlib
import os
import resource
import subprocess
import sys
import tempfile

LIMIT = int(os.environ.get("LIMIT", "60"))
ROOM = int(os.environ.get("GIBIBYTES", "8")) << 30
GROWTH = 2.3
LEAST_SECONDS, LEAST_MEBIBYTES = 0.3, 64

BEGIN = "n : name_type. t : type. z : t. s : t -> t. v : n -> t. l : n\\t -> t. c : (t, t) -> t. "
TEXTS, SEARCHES = {}, {}


def repeated(before, part, behind, size, between=""):
    """So many bytes: the part again and again."""
    count = max(1, (size - len(before) - len(behind)) // (len(part) + len(between)))
    return before + between.join([part] * count) + behind


def numbered(before, part, behind, size, between=""):
    """The same, where `@` in the part is its number, and `$` the next."""
    parts, left, number = [], size - len(before) - len(behind), 0
    while left > 0:
        parts.append(part.replace("@", str(number)).replace("$", str(number + 1)))
        left -= len(parts[-1]) + len(between)
        number += 1
    return before + between.join(parts) + behind


def text(name, before, part, behind, between="", status=0, by=repeated):
    TEXTS[name] = (lambda size: by(BEGIN + before, part, behind, size, between)), status


def search(name, clauses, depth=lambda steps: steps):
    """A text with clauses that take so many steps, and the depth to which it is searched."""
    SEARCHES[name] = (lambda steps: BEGIN + clauses.replace("@", str(steps))), depth


def halves(first, second):
    """Two texts, each of half the size, one behind the other."""
    return lambda size: first(size // 2) + second(size // 2)


def made(name, make, status=0):
    """A text that a function of its size makes."""
    TEXTS[name] = (lambda size: BEGIN + make(size)), status


def nested(opening, middle, closing, count):
    return opening * count + middle + closing * count


def parts_of(name, before, middle, behind, bytes_of_part):
    """A text with two lists of as many parts each: `@` stands for a list of `t`, `$` for one of `z`."""
    def make(size):
        count = max(2, size // bytes_of_part)
        return before + ",".join(["t"] * count) + middle + ",".join(["z"] * count) + behind

    made(name, make)


# Terms and goals with many parts.
text("list in a fact", "pred p([t]). p([", "z", "]). ?- p(X).", ",")
text("list in a fact, not asked", "pred p([t]). p([", "z", "]).", ",")
text("list in a query", "?- X = [", "z", "].", ",")
made("two equal lists", halves(lambda n: repeated("?- [", "z", "]", n, ","), lambda n: repeated(" = [", "z", "].", n, ",")))
made("two lists of variables", halves(lambda n: numbered("?- [z,", "X@", "]", n, ","), lambda n: numbered(" = [", "Y@", "|_].", n, ",")))
text("list of variables", "pred p([t]). p([", "X@", "]). ?- p(Y).", ",", by=numbered)
text("list of variables in a query", "?- [", "X@", "] = [z|_].", ",", by=numbered)
text("list of new variables in a fact", "pred p([t]). p([", "_", "]). ?- p(X).", ",")
text("list of new variables in a query", "?- X = [", "_", "|[z]].", ",")
text("list of free names", "?- X = [", "a@", "].", ",", by=numbered)
text("tuple", "?- X = (", "z", ").", ",")
text("type with many parts", "pred p((", "t", ")). p(X). ?- p(X).", ",")
parts_of("tuple of a type with many parts", "pred p((", ")). p(X). ?- p((", ")).", 4)
parts_of("constructor with many parts", "d : (", ") -> t. ?- X = d(", ").", 4)
text("predicate with many parts", "pred p(", "t", "). p(X).", ",", status=3)
text("abstractions", "?- X = [", "l(a\\v(a))", "].", ",")
text("abstractions whose binders all differ", "?- X = [", "l(a@\\v(a@))", "].", ",", by=numbered)
made("two abstractions over lists", halves(lambda n: repeated("?- a\\[", "a", "]", n, ","), lambda n: repeated(" = b\\[", "b", "].", n, ",")))
text("conjunction", "?- ", "z = z", ".", ", ")
text("conjunction of calls", "pred p. p. ?- ", "p", ".", ", ")
text("conjunction in a body", "pred p. pred q. p. q :- ", "p", ". ?- q.", ", ")
text("conjunction of choices", "?- ", "(z = z; z = s(z))", ".", ", ")
text("disjunction", "?- ", "z = z", ".", "; ")
text("disjunction of calls", "pred p. p. ?- ", "p", ".", "; ")
text("disjunction with a variable", "?- ", "X = z", ".", "; ")
text("chain of variables", "?- ", "X@ = X$", ", X0 = z.", ", ", by=numbered)
text("chain of variables, each bound to the one before", "?- ", "X$ = X@", ", X0 = z.", ", ", by=numbered)
text("exists", "?- ", "exists X (X = z)", ".", ", ")
text("exists that binds nothing", "?- ", "exists X (s(X) = s(X))", ", Y = z.", ", ")
text("new names", "?- ", "new a (a # z)", ".", ", ")
# What nests.
text("towers of 200", "", "?- X = " + nested("s(", "z", ")", 200) + ". ", "")
text("lists that nest 255", "", "?- X = " + nested("[", "z", "]", 255) + ". ", "")
text("abstractions that nest 255", "", "?- X = " + "a\\" * 255 + "a. ", "")
text("goals in 255 parentheses", "", "?- " + nested("(", "z = z", ")", 255) + ". ", "")
text("terms in 254 parentheses", "", "?- " + nested("(", "z", ")", 254) + " = X. ", "")
text("new names that nest 254", "", "?- " + nested("new a (", "a # z", ")", 254) + ". ", "")
text("exists that nest 254", "", "?- " + nested("exists X (X = z, ", "z = z", ")", 254) + ". ", "")
text("facts that nest 253", "pred p(t). ", "p(" + nested("s(", "X", ")", 253) + "). ", "?- p(X).")
text("predicates whose types nest 250", "", "pred p@(" + nested("[", "t", "]", 250) + "). ", "", by=numbered)
# Names, conditions and swappings.
text("conditions on one variable", "?- X = X, ", "a@ # X", ", X = s(Y).", ", ", by=numbered)
text("conditions on one variable that stays", "?- s(X) = s(X), ", "a@ # X", ".", ", ", by=numbered)
text("a condition on each variable", "?- a # [z, ", "X@", "].", ", ", by=numbered)
text("new names beside a variable", "?- ", "new a (a # X)", ", X = z.", ", ")
text("freshness for a list", "?- a # [", "b", "].", ",")
text("swapping of a list", "?- X = swap(a, b, [", "v(a)", "]).", ",")
text("swapping of a list of variables", "?- X = swap(a, b, [z, ", "X@", "]).", ", ", by=numbered)
text("swappings of a variable, one in another", "?- ", "X$ = swap(a@, a$, X@)", ", X0 = v(a0).", ", ", by=numbered)
SWAPPINGS = "".join(f"swap(a{i}, a{i + 1}, " for i in range(250)) + "X" + ")" * 250
text("250 swappings of a variable", "", f"?- X = {SWAPPINGS}, X = v(A). ", "")
text("250 swappings of a variable that is bound", "", f"?- {SWAPPINGS} = Y, Y = v(A), s(X) = s(X). ", "")
text("free names of a clause", "pred p(t). p(X) :- ", "a@ # X", ". ?- p(Y).", ", ", by=numbered)
text("free names of a clause that binds", "pred p(t). p(X) :- X = z, ", "a@ # X", ". ?- p(Y).", ", ", by=numbered)
# Items.
text("facts", "pred p(t). ", "p(z). ", "?- p(z).")
text("facts that don't agree", "pred p(t). ", "p(z). ", "?- p(s(X)).")
text("facts that all differ", "pred p(t). ", "c@ : t. p(c@). ", "?- p(c7). ?- p(X).", by=numbered)
text("facts of lists", "pred p([t], t). ", "p([z, s(z)|X], s(Y)). ", "?- p(X, Y).")
text("clauses with conditions", "pred p(t, t). ", "p(v(A), X) :- A # X. ", "?- p(X, Y).")
text("clauses with names in answers", "pred p(t). ", "p(l(a\\X)) :- a # X. ", "?- p(X).")
made("facts and as many queries", halves(lambda n: repeated("pred p(t). pred q(t). q(s(z)). ", "p(z). ", "", n), lambda n: repeated("", "?- q(s(X)). ", "", n)))
text("types", "", "t@ : type. ", "", by=numbered)
text("types of names", "", "m@ : name_type. ", "", by=numbered)
text("data types", "", "t@ : type. c@ : t@. ?- X = c@. ", "", by=numbered)
text("constructors", "", "c@ : t. ", "?- X = c0.", by=numbered)
text("constructors that are asked", "", "c@ : t. ?- X = c@. ", "", by=numbered)
text("predicates", "", "pred p@(t). p@(X) :- X = z. ?- p@(Y). ", "", by=numbered)
text("predicates without clauses", "", "pred p@. ", "?- p0.", by=numbered)
text("tiny queries", "", "?- z = z. ", "")
text("tiny queries with a variable", "", "?- X = z. ", "")
text("tiny queries with variables that differ", "", "?- X@ = z. ", "", by=numbered)
text("tiny queries, one a line", "", "?- z = z.\r\n", "")


def chain_of_types(part, ends_first):
    """Types, each of which has terms by the next alone, the last by a constant, which stands first or last."""
    def make(size):
        count = max(2, size // (len(part) + 36))
        types = "".join(f"t{i} : type. " for i in range(count))
        steps = [part.replace("@", str(i)).replace("$", str(i + 1)) for i in range(count - 1)]
        end = f"e : t{count - 1}. "
        steps = [end, *reversed(steps)] if ends_first else [*steps, end]
        return types + "".join(steps)

    return make


made("types, each by the next", chain_of_types("c@ : t$ -> t@. ", False))
made("types, each by the one before", chain_of_types("c@ : t$ -> t@. ", True))
made("types, each by the one before, and queries", chain_of_types("c@ : t$ -> t@. ?- X = c@(Y). ", True))
made("types, each by the one before, and predicates", chain_of_types("c@ : t$ -> t@. pred p@(t@). p@(X) :- v(a) = v(a). ", True))
made("terms, each in the next", lambda size: numbered("?- X0 = z, ", "X$ = c(z, X@)", ", z = s(z).", size, ", "))
# Words.
text("one long identifier", "", "a", " : type.")
text("one long variable", "?- ", "X", " = z.")
text("one long name", "?- X = ", "\xce\xb1", ".")
text("one long comment", "%", "x", "\n?- X = z.")
text("empty lines", "", "\n", "?- X = z.")
text("empty comments", "", "%\n", "?- X = z.")
made("names beside words that are taken", halves(lambda n: numbered("?- [", "n@", "] = _. ", n, ","), lambda n: repeated("?- Y = [", "a\\a", "].", n, ",")))
made("queries beside words that are taken", halves(lambda n: numbered("?- [", "_@", "] = [z|_]. ", n, ","), lambda n: repeated("", "?- Y = s(_). ", "", n)))
# Faults at the end, and texts that are none.
text("a byte at the end", "", "?- z = z. ", "\xff", status=2)
text("a character at the end", "", "?- z = z. ", "1", status=2)
text("no end", "?- ", "z = z", "", ", ", status=2)
text("a type fault at the end", "?- ", "z = z", ", z = Z, v(Z) = z.", ", ", status=3)
text("a part too few", "pred p(", "t", "). p(z).", ",", status=3)
text("a type twice at the end", "", "u@ : type. ", "u0 : type.", by=numbered, status=3)
for name, part in (("full stops", "."), ("parentheses", "("), ("brackets", "["), ("binders", "a\\"), ("queries without an end", "?-"),
                   ("commas", ","), ("colons", ":"), ("bytes that are no text", "\xff"), ("zeros", "\0"), ("mathematical letters", "\xf0\x9d\x94\xb8")):
    text(f"nothing but {name}", "", part, "", status=2)

# Searches.
search("a chain of calls", "pred p. p :- p. ?- p.")
search("a term that grows", "pred p(t). p(X) :- p(s(X)). ?- p(z).")
search("an answer that was grown", "pred p(t). p(z). p(s(X)) :- p(X). ?- p(X), z = s(z). ?- p(X).", lambda steps: min(steps, 512))
search("a choice at each step", "pred p. p. p :- p. ?- p.")
search("a choice at each step that fails", "pred p. p :- z = s(z). p :- p. ?- p.")
search("lists appended", "pred a([t], [t], [t]). a([], L, L). a([X|K], L, [X|M]) :- a(K, L, M). pred n(t, [t]). n(z, []). n(s(N), [z|L]) :- n(N, L). "
       "pred d(t). d(z). d(s(N)) :- d(N). ?- n(N, K), a(K, [z], L), z = s(z).", lambda steps: min(steps, 512))


def tree(steps):
    """Branches that are cut, as many as there are steps."""
    return max(1, steps.bit_length() - 1)


search("branches that are cut in a row", "pred p. p :- p. p :- p. ?- p.", tree)
search("answers of a tree", "pred p. p. p :- p, z = z. p :- p. ?- p.", lambda steps: tree(steps) + 1)


def by_halves(steps):
    """A recursion that calls itself twice, and builds as many parts round a variable that is older than they are."""
    clauses = (f"pred b{i + 1}(t, t). b{i + 1}(X, Z) :- b{i}(X, Y), b{i}(Y, Z). " for i in range(tree(steps)))
    return BEGIN + "pred b0(t, t). b0(X, s(X)). " + "".join(clauses) + f"?- exists X (b{tree(steps)}(z, X))."


SEARCHES["a term that is built round an older variable"] = by_halves, lambda steps: tree(steps) + 2


def doubled(size):
    """Variables, each the pair of the one before twice: as many as make a term of so many parts."""
    count = max(2, size.bit_length() - 6)
    return BEGIN + "?- X0 = z, " + ", ".join(f"X{i + 1} = (X{i}, X{i})" for i in range(count)) + ", z = s(z)."


TEXTS["types of pairs, each of the one before twice"] = doubled, 0


def once(program, name, depth, workers):
    """The status, in words where it is none, the seconds, the MiB and what was written."""
    def limits():
        resource.setrlimit(resource.RLIMIT_AS, (ROOM, ROOM))
        resource.setrlimit(resource.RLIMIT_CPU, (LIMIT, LIMIT))

    words = [program, "run", "--depth", str(depth), "--workers", workers]
    with open(name, "rb") as given, tempfile.TemporaryFile() as out:
        process = subprocess.Popen(words, stdin=given, stdout=out, stderr=subprocess.DEVNULL, preexec_fn=limits)
        _, status, usage = os.wait4(process.pid, 0)
        out.seek(0)
        written = hashlib.file_digest(out, "sha256").hexdigest()
    code = os.waitstatus_to_exitcode(status)
    return code, usage.ru_utime + usage.ru_stime, usage.ru_maxrss / 1024, written


def faults(first, second, wanted):
    """What is wrong with two runs, the second at twice the size."""
    for code, _, _, _ in (first, second):
        if code in (-9, -24):
            yield f"no end in {LIMIT} s"
        elif code < 0:
            yield f"signal {-code}"
        elif code != wanted:
            yield f"status {code}"
    if second[1] > max(LEAST_SECONDS, GROWTH * first[1]):
        yield f"{second[1] / max(first[1], 0.001):.1f} times the seconds"
    if second[2] > max(LEAST_MEBIBYTES, GROWTH * first[2]):
        yield f"{second[2] / first[2]:.1f} times the memory"


def line_of(program, shape, made, depths, status, workers):
    """Prints a line of the table, and gives whether it is unmarked."""
    cells, marks, digests = [], [], [set(), set()]
    for count in workers:
        runs = []
        for place, (given, depth) in enumerate(zip(made, depths)):
            with tempfile.NamedTemporaryFile() as file:
                file.write(given.encode("latin-1"))
                file.flush()
                runs.append(once(program, file.name, depth, count))
                digests[place].add(runs[-1][3])
        cells += [f"{run[1]:.2f} s, {run[2]:.0f}" for run in runs]
        marks += [f"{count}: {fault}" for fault in faults(*runs, status)]
    if any(len(of_size) > 1 for of_size in digests):
        marks.append("the bytes differ")
    print(f"| {shape} | {' | '.join(cells)} | {'; '.join(dict.fromkeys(marks))} |", flush=True)
    return not marks


def main():
    program, size = sys.argv[1], int(sys.argv[2]) if len(sys.argv) > 2 else 262_144
    workers = sys.argv[3].split(",") if len(sys.argv) > 3 else ["1", "4"]
    wanted = sys.argv[4:] or [*TEXTS, *SEARCHES]
    print(f"| Shape | {' | '.join(f'{n} worker(s), {k}' for n in workers for k in (size, 2 * size))} | |")
    print("|---" * (2 + 2 * len(workers)) + "|")
    good = True
    for shape in wanted:
        if shape in TEXTS:
            make, status = TEXTS[shape]
            good &= line_of(program, shape, [make(size), make(2 * size)], [3, 3], status, workers)
        else:
            make, depth = SEARCHES[shape]
            steps = [size // 16, size // 8]
            good &= line_of(program, shape, [make(n) for n in steps], [depth(n) for n in steps], 0, workers)
    sys.exit(0 if good else 1)


main()
