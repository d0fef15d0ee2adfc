#!/usr/bin/env python3
"""Lists what a reader stumbles over: audit.py [long] [silent] [twice] [CRATE..]; without a word for a list, their counts.

- long: contract clauses of more than 100 columns.
- silent: public items other than fields without a line of `///`.
- twice: names that are defined in several modules of specs, whatever their crates.
"""
import glob
import os
import re
import sys
from collections import Counter, defaultdict

TOP = os.path.dirname(os.path.dirname(os.path.realpath(__file__)))
LISTS = ("long", "silent", "twice")
ITEM = re.compile(r"\s*pub (?!use |mod |ghost )(?:(?:const|unsafe|fn|struct|enum|trait|type|static) )*(\w+)")
METHOD = re.compile(r"    fn (\w+)")
OPENED = re.compile(r"(?:pub\(crate\) )?((?:pub )?(?:struct|trait|enum|impl|fn))\b.*\{$")
DEFINED = re.compile(r"(?:abbrev|record|data) pub (\S+)|pub (?:record|data) (\S+)")


def lines_of(pattern, crates):
    for path in sorted(glob.glob(f"{TOP}/crates/*/{pattern}", recursive=True)):
        crate = os.path.relpath(path, TOP).split("/")[1]
        if not crates or crate in crates:
            with open(path, encoding="utf-8") as file:
                yield crate, os.path.relpath(path, TOP), file.read().splitlines()


def long_clauses(crates):
    for crate, path, lines in lines_of("src/**/*.rt", crates):
        for number, line in enumerate(lines, 1):
            if re.match(r"\s*(requires|ensures|pub ghost)\b", line) and len(line) > 100:
                yield crate, f"{path}:{number}: {len(line)}"


def has_words(lines, at):
    """Whether `///` stands before a line, with attributes between them at most."""
    at -= 1
    while at >= 0 and lines[at].lstrip().startswith("#["):
        at -= 1
    return at >= 0 and lines[at].lstrip().startswith("///")


def silent_items(crates):
    for crate, path, lines in lines_of("src/**/*.rt", crates):
        within = ""
        for at, line in enumerate(lines):
            if opened := OPENED.match(line):
                within = opened[1]
            elif line == "}":
                within = ""
            public = ITEM.match(line)
            if within.endswith("struct") and line.startswith("    "):
                continue
            if within == "pub trait":
                public = public or METHOD.match(line)
            if public and not has_words(lines, at):
                yield crate, f"{path}:{at + 1}: {public[1]}"


def names_twice(crates):
    places = defaultdict(list)
    for crate, path, lines in lines_of("specs/**/*.antt", crates):
        for line in lines:
            if found := DEFINED.match(line):
                places[found[1] or found[2]].append((crate, path))
    for name, found in sorted(places.items(), key=lambda it: (-len(it[1]), it[0])):
        if len(found) > 1:
            yield found[0][0], f"{name}: " + ", ".join(path.removeprefix("crates/").replace("/specs/", "::").removesuffix(".antt") for _, path in found)


def main(words):
    crates = [word for word in words if word not in LISTS]
    asked = [word for word in words if word in LISTS]
    for name, found in zip(LISTS, (long_clauses(crates), silent_items(crates), names_twice(crates))):
        found = list(found)
        if not asked:
            counts = ", ".join(f"{crate} {n}" for crate, n in Counter(crate for crate, _ in found).most_common())
            print(f"{name}: {len(found)} ({counts})")
        elif name in asked:
            print(*(line for _, line in found), sep="\n")


main(sys.argv[1:])
