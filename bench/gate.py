#!/usr/bin/env python3
"""Runs the gate and tells the processor minutes of each crate: its check and builds, its tests, its edits.

usage: bench/gate.py [words of rt ci]      as bench/gate.py --anew, at the top of the repository or of a clone

The processes that `rt ci` starts are looked at every two seconds, so a crate may lose some seconds. The rows are
those of the table of times in docs/ARCHITECTURE.md. Exit status: that of `rt ci`.
"""
import collections
import os
import subprocess
import sys
import time

TICKS = os.sysconf("SC_CLK_TCK")


def stat(process):
    """The parent of a process, and its processor seconds with those of the children that it has waited for."""
    with open(f"/proc/{process}/stat", encoding="utf-8", errors="replace") as file:
        fields = file.read().rpartition(")")[2].split()
    return int(fields[1]), sum(map(int, fields[11:15])) / TICKS, fields[19]


def looked_at(root):
    """The work of the processes below root: (process, start) to (crate, kind, seconds)."""
    stats = {}
    for process in filter(str.isdigit, os.listdir("/proc")):
        try:
            stats[int(process)] = stat(process)
        except OSError:
            pass
    below = {root}
    for _ in range(12):
        below |= {it for it, (parent, _, _) in stats.items() if parent in below}
    found = {}
    for process in below - {root}:
        try:
            with open(f"/proc/{process}/cmdline", encoding="utf-8", errors="replace") as file:
                words = file.read().split("\0")
            here = os.readlink(f"/proc/{process}/cwd")
        except OSError:
            continue
        if "--crate-name" in words and stats[process][0] not in below - {root}:
            name = words[words.index("--crate-name") + 1]
            kind = "edits" if "rt-edit" in here else "tests" if "--test" in words else "check"
            found[process, stats[process][2]] = name, kind, stats[process][1]
    return found


def edits_of(name):
    folder = f"crates/{name}/must-fail"
    return len(os.listdir(folder)) if os.path.isdir(folder) else 0


def shown(minutes):
    return f"{minutes:.1f}" if minutes >= 0.05 else ""


def main():
    gate, work = subprocess.Popen(["rt", "ci", *sys.argv[1:]]), {}
    start = time.monotonic()
    while gate.poll() is None:
        work.update(looked_at(gate.pid))
        time.sleep(2)
    minutes = collections.defaultdict(collections.Counter)
    for name, kind, seconds in work.values():
        minutes[name][kind] += seconds / 60
    for name in sorted(minutes):
        count, of = edits_of(name), minutes[name]
        edits = f"{shown(of['edits'])} ({count})" if count else ""
        print(f"| `{name}` | {shown(of['check'])} | {shown(of['tests'])} | {edits} |")
    total = sum(minutes.values(), collections.Counter())
    print(", ".join(f"{kind} {total[kind]:.0f}" for kind in ("check", "tests", "edits")), "processor minutes,", end=" ")
    print(f"{total.total():.0f} in all; {(time.monotonic() - start) / 60:.0f} minutes")
    return gate.returncode


if __name__ == "__main__":
    sys.exit(main())
