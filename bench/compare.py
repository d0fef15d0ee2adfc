#!/usr/bin/env python3
"""Runs the workloads of speed_text.py by an earlier program and by one of today, in turns: compare.py TIMES EARLIER NOW [WORKLOAD..]

A line for each workload has the least processor seconds of TIMES turns and the greatest memory in MiB (never less than what this
script takes itself, some 14), for the earlier program and for today's, each by one worker; what part of the one the other is; and
the least seconds of SWI-Prolog and of ELPI, where they are installed (Debian's packages swi-prolog-nox and elpi). A program that
ends with a status other than 0 is told by `status`.
"""

import os
import shutil
import subprocess
import sys
import tempfile

BENCH = os.path.dirname(os.path.abspath(__file__))
SPEED_TEXT = os.path.join(BENCH, "speed_text.py")
# What runs today's program as `./alphaprolog` does: the earlier one knew nothing of it.
AS_THE_COMMAND = ["sh", "-c", '. "$0"; exec "$@"', os.path.join(BENCH, "..", "tools", "memory.sh")]
WORKLOADS = ["reverse", "substitute", "types", "deep40", "deep80", "queens", "subsets", "towers", "capture"]
OTHERS = {"pl": ["swipl", "-q", "-g", "main", "-t", "halt"], "elpi": ["elpi", "-test", "-no-tc"]}


def took(command, path):
    """The processor seconds and the MiB that a command takes with a file as its input."""
    with open(path, "rb") as text:
        process = subprocess.Popen(command, stdin=text, stdout=subprocess.DEVNULL, stderr=subprocess.DEVNULL)
        _, status, usage = os.wait4(process.pid, 0)
    if status:
        print(f"status {os.waitstatus_to_exitcode(status)}: {' '.join(command)}", file=sys.stderr)
    return usage.ru_utime + usage.ru_stime, usage.ru_maxrss / 1024


def written(folder, workload, language):
    """The path of a workload's text in a language."""
    path = os.path.join(folder, f"{workload}.{language}")
    with open(path, "wb") as text:
        subprocess.run([sys.executable, SPEED_TEXT, workload, language], stdout=text, check=True)
    return path


def commands(folder, workload, earlier, now):
    """What is run, by its name, each with its input."""
    text = written(folder, workload, "apl")
    words = ["run", "--depth", "10000"]
    found = {"earlier": ([earlier, *words], text), "now": ([*AS_THE_COMMAND, now, *words], text)}
    for language, words in OTHERS.items():
        if shutil.which(words[0]):
            found[words[0]] = [*words, written(folder, workload, language)], os.devnull
    return found


def compare(folder, times, workload, earlier, now):
    found = commands(folder, workload, earlier, now)
    seen = {name: [] for name in found}
    for _ in range(times):
        for name, (command, path) in found.items():
            seen[name].append(took(command, path))
    least = {name: min(seconds for seconds, _ in runs) for name, runs in seen.items()}
    most = {name: max(memory for _, memory in runs) for name, runs in seen.items()}
    own = "  ".join(f"{name} {least[name]:.2f} s {most[name]:.0f} MiB" for name in ("earlier", "now"))
    others = "  ".join(f"{name} {least[name]:.2f} s" for name in found if name not in ("earlier", "now"))
    print(f"{workload:<10}  {own}  now/earlier {least['now'] / least['earlier']:.3f}  {others}", flush=True)


def main():
    times, earlier, now = int(sys.argv[1]), sys.argv[2], sys.argv[3]
    with tempfile.TemporaryDirectory() as folder:
        for workload in sys.argv[4:] or WORKLOADS:
            compare(folder, times, workload, earlier, now)


main()
