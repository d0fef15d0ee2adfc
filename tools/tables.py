#!/usr/bin/env python3
"""Checks, or with --write draws, the tables of docs/ that list the crates: crates.txt is where they are listed.

- docs/ARCHITECTURE.md, between the lines `<!-- crates -->` and `<!-- end of crates -->`: drawn.
- docs/ARCHITECTURE.md, the table of times, and docs/PROVED.md: each crate has one row.
- crates.txt: a crate stands only on crates above it, and each library is named in a file of the crate, or in its
  comment behind "toolchain:".
"""
import glob
import os
import re
import sys

TOP = os.path.dirname(os.path.dirname(os.path.realpath(__file__)))
MARKS = "<!-- crates -->\n", "<!-- end of crates -->\n"


def text_of(path):
    with open(f"{TOP}/{path}", encoding="utf-8") as file:
        return file.read()


def listed():
    """The crates in order: (layer, name, libraries, what it offers)."""
    layer, crates = "", []
    for line in text_of("crates.txt").splitlines():
        if line.startswith("# -- "):
            layer = line[5:]
        head, colon, rest = line.partition("#")[0].partition(":")
        if colon:
            crates.append((layer, head.split()[0], rest.split(), line.partition("# ")[2]))
    return crates


def without_implied(libraries, below):
    """The libraries of the repository that none of the others stands on."""
    own = [it for it in libraries if it in below]
    return [it for it in own if not any(it in below[other] for other in own)]


def table(crates):
    below, lines, layer = {}, [], None
    for _, name, libraries, _ in crates:
        own = [it for it in libraries if it in below]
        below[name] = set(own).union(*[below[it] for it in own])
    for its_layer, name, libraries, offers in crates:
        if its_layer != layer:
            layer = its_layer
            lines += [f"\n**{layer}**\n", "| Crate | Stands on | What it offers the layers below it in this table |", "|---|---|---|"]
        stands = ", ".join(f"`{it}`" for it in without_implied(libraries, below))
        lines.append(f"| `{name}` | {stands} | {offers.partition(' (toolchain:')[0]} |")
    return "\n".join(lines) + "\n\n"


def drawn(text, crates):
    front, _, rest = text.partition(MARKS[0])
    _, _, back = rest.partition(MARKS[1])
    return front + MARKS[0] + table(crates) + MARKS[1] + back


def sources(name):
    files = glob.glob(f"{TOP}/crates/{name}/src/**/*.rt", recursive=True)
    for part in ("specs", "proofs"):
        files += glob.glob(f"{TOP}/crates/{name}/{part}/**/*.antt", recursive=True)
    for file in files:
        with open(file, encoding="utf-8") as it:
            yield it.read()


def edges(crates):
    """What is wrong with the lines of crates.txt."""
    seen, names = set(), {name for _, name, _, _ in crates}
    for _, name, libraries, offers in crates:
        text, excused = "\n".join(sources(name)), offers.partition("toolchain:")[2]
        for library in libraries:
            if library in names and library not in seen:
                yield f"crates.txt: {name} stands on {library}, which comes after it"
            if not re.search(rf"\b{library}\b", text) and library not in excused:
                yield f"crates.txt: no file of {name} names {library}"
        seen.add(name)


def rows(path, pattern, crates):
    """What is wrong with a table that has a row for each crate."""
    found = [name for cell in re.findall(pattern, text_of(path)) for name in re.findall(r"`(ap_\w+)`", cell)]
    for _, name, _, _ in crates:
        if found.count(name) != 1:
            yield f"{path}: {name} has {found.count(name)} rows"
    names = {name for _, name, _, _ in crates}
    yield from (f"{path}: {name} is no crate" for name in found if name not in names)


def main():
    crates = listed()
    architecture = "docs/ARCHITECTURE.md"
    text = text_of(architecture)
    if "--write" in sys.argv[1:]:
        with open(f"{TOP}/{architecture}", "w", encoding="utf-8") as file:
            file.write(drawn(text, crates))
        text = text_of(architecture)
    wrong = list(edges(crates))
    if text != drawn(text, crates):
        wrong.append(f"{architecture}: the table of crates is not that of crates.txt (tools/tables.py --write)")
    wrong += rows(architecture, r"(?m)^(\| `ap_\w+` \|) [\d.]*[^|`]*\|[^|`]*\|[^|`]*\|$", crates)
    wrong += rows("docs/PROVED.md", r"(?m)^\| ((?:`ap_\w+`(?:, )?)+) \|", crates)
    print("\n".join(wrong) if wrong else f"the tables list the {len(crates)} crates of crates.txt")
    return 1 if wrong else 0


if __name__ == "__main__":
    sys.exit(main())
