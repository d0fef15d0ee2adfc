#!/usr/bin/env python3
"""Runs `--answers N` by several workers, and prints what each part took.

usage: bench/first_answers.py PROGRAM

A wide tree with answers, cuts and failures: 200 runs with each of 2, 4, 8 and 64 workers, with N from 1 to one more than
there are answers, must write what one worker writes without the option, up to the N-th answer. Then endless searches behind a
first answer that takes more and more to find, at depth 1,000,000; and nine queens, the first answer and all.
"""
import itertools
import subprocess
import sys
import time

from program_text import number, queens

WIDE = """t : type.
a : t.
b : t.
c : t.
pred deeper.
deeper :- deeper.
deeper.
pred deep.
deep :- deeper.
pred some(t).
some(a).
some(b) :- deep.
some(c).
pred same(t, t).
same(X, X).
?- some(A), some(B), some(C), same(A, C), some(D).
"""
NAT = """nat : type.
z : nat.
s : nat -> nat.
pred loop.
loop :- loop.
loop :- loop.
pred wander(nat).
wander(s(N)) :- wander(N).
wander(s(N)) :- wander(N).
pred one(nat, nat).
one(N, z) :- wander(N).
one(N, s(z)).
pred reach(nat).
reach(z).
reach(s(N)) :- reach(N).
reach(s(N)) :- loop.
"""
WORKERS = (1, 2, 4, 8, 64)
PATIENCE = 60


def run(program, text, depth, workers, answers=None):
    """What a run writes, None if it takes too long, and the seconds."""
    command = [program, "run", "--depth", str(depth), "--workers", str(workers)]
    if answers is not None:
        command += ["--answers", str(answers)]
    start = time.monotonic()
    try:
        done = subprocess.run(command, input=text.encode(), stdout=subprocess.PIPE, stderr=subprocess.DEVNULL, timeout=PATIENCE)
    except subprocess.TimeoutExpired:
        return None, PATIENCE
    return done.stdout.decode(), time.monotonic() - start


def part(report, wanted):
    """The report of one query up to so many answers."""
    lines = report.splitlines()[:-1]
    kept, found = [], 0
    for line in lines:
        kept.append(line)
        found += not line.startswith("%")
        if found == wanted:
            break

    def total(word):
        return sum(int(line.split()[-1]) for line in kept if line.startswith(f"% {word} "))

    totals = f"% query 1: {found} answers, {total('cut')} cut, {total('stuck')} stuck"
    return "".join(line + "\n" for line in kept + [totals])


def check_wide(program):
    whole, _ = run(program, WIDE, 3, 1)
    answers = int(whole.splitlines()[-1].split()[3])
    print(f"a wide tree of {answers} answers, {len(whole.splitlines()) - 1 - answers} notes between them")
    wrong = 0
    for workers in WORKERS[1:]:
        begun = time.monotonic()
        for wanted in itertools.islice(itertools.cycle(range(1, answers + 2)), 200):
            wrote, _ = run(program, WIDE, 3, workers, wanted)
            wrong += wrote != part(whole, wanted)
        print(f"  {workers:>2} workers: 200 runs, {time.monotonic() - begun:.1f} s")
    print(f"  {wrong} wrong")
    return wrong


def time_endless(program):
    print("the first answer, before endless work")
    wrong = 0
    texts = [("at once", "?- X = z ; loop.")]
    texts += [(f"behind 2^{n} branches", f"?- one({number(n)}, X) ; loop.") for n in (8, 12, 16)]
    texts += [(f"{n} choices deep, with endless work beside each", f"?- reach({number(n)}).") for n in (10, 20, 200)]
    for what, query in texts:
        line = []
        for workers in WORKERS:
            wrote, seconds = run(program, NAT + query + "\n", 1_000_000, workers, 1)
            wrong += wrote is None or not wrote.endswith("% query 1: 1 answers, 0 cut, 0 stuck\n")
            line.append(f"{workers}: " + ("no end" if wrote is None else f"{seconds:.3f} s"))
        print(f"  {what}: " + ", ".join(line))
    return wrong


def time_queens(program):
    size = 9
    text = queens(size)
    print(f"{size} queens")
    for wanted in (1, 10, None):
        line = []
        for workers in WORKERS[:4]:
            _, seconds = run(program, text, 1000, workers, wanted)
            line.append(f"{workers}: {seconds:.2f} s")
        print(f"  {'all' if wanted is None else wanted} answers: " + ", ".join(line))


def main():
    program = sys.argv[1]
    wrong = check_wide(program) + time_endless(program)
    time_queens(program)
    sys.exit(wrong != 0)


main()
