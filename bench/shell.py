#!/usr/bin/env python3
"""Talks to the interactive program through a pipe, and prints what that took.

usage: bench/shell.py PROGRAM [QUERIES [BYTES]]

QUERIES queries (10,000) of a small text, one after another, each when the one before is answered: the greatest memory
after the first hundred, after half of them and after all. Then a text of facts of BYTES bytes (16,777,000) is loaded,
and a few queries are asked of it: the time and the memory of each.
"""
import subprocess
import sys
import tempfile
import time

NAT = """nat : type.
z : nat.
s : nat -> nat.
pred add(nat, nat, nat).
add(z, N, N).
add(s(M), N, s(K)) :- add(M, N, K).
"""
FACTS = "nat : type.\nz : nat.\ns : nat -> nat.\npred fact(nat, nat).\n"
QUERIES = ["add(X, Y, s(s(s(z)))).", "add(X, z, s(X)).", "add(X, s(z), Y).", "ad(X).", "add(X, z)."]
ASKED = ["fact(X, Y).", "fact(z, Y).", "fact(X, z).", "fac(X)."]
# What is said of a fault ends with a line of help.
FAULTY = ["ad(X).", "add(X, z).", "fac(X)."]


def facts(size):
    """A text of facts of that many bytes at most."""
    parts, left, number = [FACTS], size - len(FACTS), 0
    while True:
        first, second = number % 8, number % 5
        line = f"fact({'s(' * first}z{')' * first}, {'s(' * second}s(z){')' * second}). % the fact of the number {number:07}\n"
        if len(line) > left:
            return "".join(parts)
        parts.append(line)
        left -= len(line)
        number += 1


class Session:
    """A session with the program, in which messages come among what is written."""

    def __init__(self, program, text):
        self.file = tempfile.NamedTemporaryFile("w", suffix=".apl")
        self.file.write(text)
        self.file.flush()
        self.process = subprocess.Popen([program], stdin=subprocess.PIPE, stdout=subprocess.PIPE, text=True)
        self.say(":messages among")
        self.ask(f":load {self.file.name}", "loaded: ")

    def say(self, line):
        self.process.stdin.write(line + "\n")
        self.process.stdin.flush()

    def ask(self, line, end):
        """The seconds until a line is read that begins so behind its blanks."""
        start = time.monotonic()
        self.say(line)
        while not self.process.stdout.readline().lstrip().startswith(end):
            if self.process.poll() is not None:
                sys.exit("the program ended")
        return time.monotonic() - start

    def memory(self):
        """The greatest memory so far, and that of now, in MiB."""
        with open(f"/proc/{self.process.pid}/status", encoding="utf-8") as file:
            found = dict(line.split(":", 1) for line in file)
        return tuple(int(found[name].split()[0]) / 1024 for name in ("VmHWM", "VmRSS"))

    def told(self):
        most, now = self.memory()
        return f"memory {now:.1f} MiB, at most {most:.1f}"

    def end(self):
        self.process.stdin.close()
        for _ in self.process.stdout:
            pass
        if self.process.wait() != 0:
            sys.exit("the program failed")
        self.file.close()


def many(program, count):
    session = Session(program, NAT)
    start = time.monotonic()
    for number in range(1, count + 1):
        query = QUERIES[number % len(QUERIES)]
        session.ask(query, "= " if query in FAULTY else "% query 1: ")
        if number in (100, count // 2, count):
            print(f"{number:>6} queries {time.monotonic() - start:>8.2f} s   {session.told()}", flush=True)
    session.end()


def large(program, size):
    start = time.monotonic()
    session = Session(program, facts(size))
    print(f"{size} bytes loaded {time.monotonic() - start:.2f} s   {session.told()}", flush=True)
    for query in ASKED:
        taken = session.ask(query, "= " if query in FAULTY else "% query 1: ")
        print(f"{query:<12} {taken:>8.2f} s   {session.told()}", flush=True)
    session.end()


def main():
    program = sys.argv[1]
    many(program, int(sys.argv[2]) if len(sys.argv) > 2 else 10_000)
    large(program, int(sys.argv[3]) if len(sys.argv) > 3 else 16_777_000)


main()
