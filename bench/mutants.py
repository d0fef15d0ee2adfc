#!/usr/bin/env python3
"""Runs mutated texts of the examples, and tests what the program says of each on standard error.

usage: bench/mutants.py PROGRAM [COUNT [SEED]]

Of each text it tests that the program ends by a status of the language; that the report is a fault's line exactly
where something is said of an error; that the marked place stands in the item of that line, and in its line where
the fault is one of the tokens; that no line says more than 200 columns of the text; and that no control character is
written. Exit status: 1 where a text fails a test, each of which is printed.
"""
import collections
import glob
import os
import random
import re
import subprocess
import sys

HERE = os.path.dirname(os.path.abspath(__file__))
PIECES = [b"(", b")", b",", b";", b".", b":-", b"?-", b"\\", b"|", b"[", b"]", b"#", b"=", b"new ", b"exists ",
          b"swap(", b"_ ", b"X ", b"a ", b"name_type", b"type", b"pred ", b"->", b"%", b"\n", b"\xff", b"\xc3\xa9",
          b"\t", b"1", b"\xe2\x80\xae", b"\xcc\x81", b"not", b" is "]
FAULT = re.compile(rb"% (syntax|type|name) fault: item (\d+), line (\d+), kind (\d+) (\w+)")
PLACE = re.compile(rb"error: .*\n  line (\d+), column (\d+)\n")


def mutated(text, chance):
    """A text with one to four changes: a piece put in, a part copied elsewhere, or a part left out."""
    out = bytearray(text)
    for _ in range(chance.randint(1, 4)):
        if not out:
            break
        at = chance.randrange(len(out))
        change = chance.random()
        if change < 0.4:
            out[at:at + chance.randint(0, 6)] = chance.choice(PIECES)
        elif change < 0.7:
            part = out[at:at + chance.randint(1, 30)]
            to = chance.randrange(len(out))
            out[to:to] = part
        else:
            del out[at:at + chance.randint(1, 12)]
    return bytes(out)


def item_at(text, line, column):
    """The item, from 1, in which a place stands: one more than the `.` before it that no comment holds."""
    lines = text.split(b"\n")
    before = lines[:line - 1]
    last = lines[line - 1].decode("utf-8", "replace")[:column - 1].encode() if line <= len(lines) else b""
    return 1 + sum(part.split(b"%")[0].count(b".") for part in [*before, last])


def failure(text, done):
    """What is wrong with what was written of a text, or nothing."""
    if done.returncode not in (0, 2, 3, 4):
        return f"status {done.returncode}"
    fault = FAULT.match(done.stdout)
    said = PLACE.match(done.stderr)
    if bool(fault) != bool(said) or bool(fault) != (done.returncode != 0):
        return "a fault without an error, or an error without a fault"
    if any(byte < 32 and byte != 10 for byte in done.stderr):
        return "a control character"
    if any(len(part.decode("utf-8", "replace")) > 400 for part in done.stderr.split(b"\n")):
        return "a long line"
    if not fault:
        return None
    item, line = int(fault[2]), int(fault[3])
    at, column = int(said[1]), int(said[2])
    if fault[5] in (b"NotUtf8", b"Character"):
        return None if at == line else f"line {at} in place of {line}"
    found = item_at(text, at, column)
    return None if found == item and at >= line else f"item {found} in place of {item}"


def main():
    program = sys.argv[1]
    count = int(sys.argv[2]) if len(sys.argv) > 2 else 2000
    chance = random.Random(int(sys.argv[3]) if len(sys.argv) > 3 else 1)
    names = sorted(glob.glob(os.path.join(HERE, "..", "examples", "**", "*.apl"), recursive=True))
    seeds = [open(name, "rb").read() for name in names]
    kinds, failures = collections.Counter(), 0
    for number in range(count):
        text = mutated(chance.choice(seeds), chance)
        try:
            done = subprocess.run([program, "run", "--depth", "3"], input=text, capture_output=True, timeout=60)
        except subprocess.TimeoutExpired:
            kinds["over a minute"] += 1
            continue
        fault = FAULT.match(done.stdout)
        kinds[fault[5].decode() if fault else "no fault"] += 1
        wrong = failure(text, done)
        if wrong:
            failures += 1
            print(f"text {number}: {wrong}\n{done.stdout[:200]!r}\n{done.stderr[:600].decode('utf-8', 'replace')}")
    print(", ".join(f"{kind} {number}" for kind, number in kinds.most_common()))
    print(f"{count} texts, {failures} failures")
    sys.exit(1 if failures else 0)


if __name__ == "__main__":
    main()
