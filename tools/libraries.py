#!/usr/bin/env python3
"""Builds the program and the libraries below it, with all processors at work.

`rt all check` takes crates by how many are below them and gives each one process, so that a chain of dear crates ends
alone. Here those come first that have the most minutes behind them, and a crate gets the processors for which nothing
else is ready. A library holds its statements and not its proofs, as under `rt ci`: a check above it has less to read.
It fits only the libraries that it was built over, so it has a stamp of its own; the commands of `rt` build others, and
those are taken here where they stand. With ALPHAPROLOG_WHOLE in the environment all are built as those are. The
functions of the kit's own `rt` do the work, under its locks. tools/build.py runs this script, with the number of
processes to use; its output is that of `rt all check`. Exit status: 0 where the program stands, 1 where a crate was
refused, 3 where this kit hasn't the functions that are called here.
"""
import concurrent.futures
import importlib.machinery
import importlib.util
import os
import shutil
import sys
import tempfile
import threading

import build

REFUSED, OTHER_KIT = 1, 3
STATEMENTS = "--statements"
# Whether libraries are built as `rt lib` builds them, so that its commands go on from them.
WHOLE = "ALPHAPROLOG_WHOLE" in os.environ
MOST_PROCESSES = 4
PRINTING = threading.Lock()


def kit_functions():
    """The functions that the command `rt` is made of."""
    place = os.path.realpath(shutil.which("rt"))
    loader = importlib.machinery.SourceFileLoader("rt", place)
    kit = importlib.util.module_from_spec(importlib.util.spec_from_loader("rt", loader))
    loader.exec_module(kit)
    # These belong to the main thread, before any other starts.
    kit.rtlib.guarded()
    if STATEMENTS not in kit.rtlib.help_of("build"):
        raise AttributeError(f"rattle build lacks {STATEMENTS}")
    if hasattr(kit, "share_work"):
        # A kit that has it takes over what was proved in another clone.
        kit.share_work(True)
    return kit.rtlib


def libraries(kit):
    """The program's libraries by name, lowest first, locked against other commands."""
    program = kit.Crate(f"{build.TOP}/crates/{build.PROGRAM}", build.TOP, {})
    found = {crate.name: crate for crate in program.below()}
    program.held = kit.lock([*found.values(), program])
    for crate in found.values():
        kit.stop_on_links(crate.folder)
    return program, found


def stamp_of(crate):
    """The stamp by which a library stands: there is one for its sources, no older than those below it."""
    folder = os.path.dirname(crate.rlib)
    made = [f"{folder}/{name}" for name in build.STAMPS]
    made = [place for place in made if os.path.isfile(place) and build.text_of(place) == crate.stamp()]
    if not made or not os.path.isdir(crate.rlib):
        return None
    below = [library.stamped for library in crate.deps]
    return made[0] if all(it and os.path.getmtime(it) <= os.path.getmtime(made[0]) for it in below) else None


def keep_stamp(crate):
    """Notes the stamp by which a library stands, and keeps its sum, which those above it ask for often."""
    crate.stamped = stamp_of(crate)
    if crate.stamped:
        found = build.text_of(crate.stamped)
        crate.stamp = lambda: found


def build_statements(kit, crate, flags):
    """Builds a library that holds its statements, and stamps it."""
    folder = os.path.dirname(crate.rlib)
    shutil.rmtree(folder, ignore_errors=True)
    os.makedirs(folder)
    stamp = crate.stamp()
    status = crate.call(kit.RATTLE, "build", *crate.words(flags, keeps=False), STATEMENTS, "-o", crate.rlib)
    if status == 0 and stamp == crate.stamp():
        with open(f"{folder}/{build.STAMPS[0]}", "w", encoding="utf-8") as file:
            file.write(stamp)


def built(kit, crate, processes):
    """Builds a library, prints what was said of it, and tells whether it stands."""
    flags = ["--jobs", str(processes)]
    with tempfile.TemporaryFile("a+", errors="replace") as crate.out:
        if WHOLE:
            crate.build_rlib(flags, anew=False)
        else:
            build_statements(kit, crate, flags)
        keep_stamp(crate)
        crate.out.seek(0)
        with PRINTING:
            print(f"== {crate.name}\n{crate.out.read()}", end="", flush=True)
    return bool(crate.stamped)


class Plan:
    """Which library comes next, and with how many processes."""

    def __init__(self, names, below, minutes, lanes):
        self.below, self.lanes = below, lanes
        self.names = set(names)
        self.behind = {}
        for name in reversed(names):
            above = [self.behind[other] for other in self.behind if name in below[other]]
            self.behind[name] = minutes.get(name, 1) + max(above, default=0)
        self.left = sorted(names, key=lambda name: -self.behind[name])
        self.running, self.done = {}, set()

    def is_ready(self, name):
        return all(library in self.done for library in self.below[name] if library in self.names)

    def next(self):
        """The next library and its processes, or none where all lanes are taken or each library waits for others."""
        ready = [name for name in self.left if self.is_ready(name)]
        idle = self.lanes - sum(self.running.values())
        if not ready or idle <= 0:
            return None
        name, processes = ready[0], max(1, min(MOST_PROCESSES, idle // len(ready)))
        self.left.remove(name)
        self.running[name] = processes
        return name, processes

    def stands(self, name):
        self.left.remove(name)
        self.done.add(name)

    def ended(self, name):
        del self.running[name]
        self.done.add(name)


def build_all(kit, crates, plan):
    """Builds all libraries; where one is refused, those at work end and no other begins."""
    with concurrent.futures.ThreadPoolExecutor(plan.lanes) as pool:
        works = {}
        while plan.left or works:
            while (found := plan.next()) is not None:
                name, processes = found
                works[pool.submit(built, kit, crates[name], processes)] = name
            ended, _ = concurrent.futures.wait(works, return_when=concurrent.futures.FIRST_COMPLETED)
            for work in ended:
                name = works.pop(work)
                if not work.result():
                    print(f"{name} was refused", flush=True)
                    return REFUSED
                plan.ended(name)
    return 0


def build_program(program, lanes):
    """Proves and builds the program, and runs it on the words of its own run."""
    os.makedirs(f"{program.folder}/out", exist_ok=True)
    return REFUSED if program.run(["--jobs", str(lanes)], build.words_of_its_run()) else 0


def main():
    try:
        kit = kit_functions()
        program, crates = libraries(kit)
    except (AttributeError, ImportError, TypeError) as error:
        print(f"this kit is made otherwise: {error}", flush=True)
        return OTHER_KIT
    for crate in crates.values():
        keep_stamp(crate)
    below = {name: [library.name for library in crate.deps] for name, crate in crates.items()}
    lanes = int(sys.argv[1]) if len(sys.argv) > 1 else build.processors()
    plan = Plan(list(crates), below, build.measured_minutes(), lanes)
    for name, crate in crates.items():
        if crate.stamped:
            plan.stands(name)
    return build_all(kit, crates, plan) or build_program(program, lanes)


if __name__ == "__main__":
    sys.exit(main())
