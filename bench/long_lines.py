#!/usr/bin/env python3
"""Runs texts of 16,777,216 bytes, or as many as are given, in one line, with a fault or a warning at one place, and tests what is said of each.

usage: bench/long_lines.py PROGRAM [BYTES]

Of each text it prints the seconds and the memory of the run, and tests that the line, the column and the status are those of the
place, that at most 200 columns of the line are shown, and that the mark stands below the place. Exit status: 1 where one fails.
"""
import os
import re
import sys
import tempfile
import time

SIZE = int(sys.argv[2]) if len(sys.argv) > 2 else 16_777_216
BEGIN = b"exp : type. z : exp. pred p(exp). "
PART = b"p(z). "
PLACE = re.compile(r"(error|warning): .*\n  line (\d+), column (\d+)\n1 \| (.*)\n  \| ( *)(\^+)")


def filled(length):
    """So many bytes of clauses without a fault."""
    count, rest = divmod(length, len(PART))
    return PART * count + b" " * rest


def at_end(piece):
    return BEGIN + filled(SIZE - len(BEGIN) - len(piece)) + piece


def at_begin(piece):
    return BEGIN + piece + filled(SIZE - len(BEGIN) - len(piece))


def one_clause(piece):
    """A text with one clause that has goals up to the end."""
    head = BEGIN + b"pred q. q :- "
    count, rest = divmod(SIZE - len(head) - len(piece), len(b"p(z), "))
    return head + b"p(z), " * count + b" " * rest + piece


def texts():
    """(what it is, the text, the marked bytes, the status that is wanted)."""
    yield "a Clash at the end", at_end(b"p(w)."), b"w", 3
    yield "a Clash at the begin", at_begin(b"p(w). "), b"w", 3
    yield "an undeclared word at the end", at_end(b"r(z)."), b"r", 3
    yield "a character at the end", at_end(b"p(1)."), b"1", 2
    yield "Grammar at the end", at_end(b"p(:)."), b":", 2
    yield "Grammar at the begin", at_begin(b"p(:). "), b":", 2
    yield "a byte at the end", at_end(b"p(\xff"), b"\xff", 2
    yield "a clause of the whole text, with a Clash at its end", one_clause(b"p(w)."), b"w", 3
    yield "a clause of the whole text without an end", one_clause(b"p(z)"), b"", 2
    yield "one word, which is not declared", BEGIN + b"x" * (SIZE - len(BEGIN) - 1) + b".", b"x", 3
    yield "a name in a head at the end", at_end(b"pred n(exp, exp). n(X, _)."), b"X", 0


def run(program, name, text):
    """The status, what was said, the seconds and the memory in MiB of a run."""
    with open(name, "wb") as file:
        file.write(text)
    start, out = time.time(), name + ".said"
    pid = os.fork()
    if pid == 0:
        os.dup2(os.open(name, os.O_RDONLY), 0)
        os.dup2(os.open(os.devnull, os.O_WRONLY), 1)
        os.dup2(os.open(out, os.O_WRONLY | os.O_CREAT | os.O_TRUNC), 2)
        os.execv(program, [program, "run", "--depth", "2"])
    _, status, used = os.wait4(pid, 0)
    with open(out, encoding="utf-8") as file:
        return os.waitstatus_to_exitcode(status), file.read(), time.time() - start, used.ru_maxrss // 1024


def failure(text, piece, wanted, status, said):
    """What is wrong with what was said of a text, or nothing."""
    found = PLACE.match(said)
    if status != wanted or not found:
        return f"status {status}, said {said[:300]!r}"
    line, column, shown, before = int(found[2]), int(found[3]), found[4], len(found[5])
    if line != 1 or text[column - 1:column - 1 + len(piece)] != piece:
        return f"line {line}, column {column}"
    if len(shown) > 200 or before >= 200:
        return f"{len(shown)} columns, {before} before the mark"
    below = shown[before:before + 1].encode()
    return None if below == piece[:1] or piece == b"\xff" else f"the mark stands below {below!r}"


def main():
    program, failures = os.path.abspath(sys.argv[1]), 0
    with tempfile.TemporaryDirectory() as folder:
        for what, text, piece, wanted in texts():
            assert len(text) == SIZE and b"\n" not in text
            status, said, seconds, memory = run(program, f"{folder}/text", text)
            wrong = failure(text, piece, wanted, status, said)
            print(f"{what}: {seconds:.1f} s, {memory} MiB{', ' + wrong if wrong else ''}", flush=True)
            failures += bool(wrong)
    print(f"{failures} failures")
    sys.exit(1 if failures else 0)


if __name__ == "__main__":
    main()
