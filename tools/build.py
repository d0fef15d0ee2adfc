#!/usr/bin/env python3
"""Proves the crates below a program, several side by side, and builds it: ap_cli, or the one that the environment names.

Progress goes to standard error, one line a crate; what `rt` prints goes to .build/log. Exit status: 0 where the
program stands, 70 where it could not be built, 130 where the build was interrupted. A second start goes on where
the first ended, and two starts at one time take turns.
"""
import contextlib
import fcntl
import os
import re
import shutil
import signal
import subprocess
import sys
import time

TOP = os.path.dirname(os.path.dirname(os.path.realpath(__file__)))
# The crate of the program that is built. The words on which it is tried, once it stands, are those of its own run.
PROGRAM = os.environ.get("ALPHAPROLOG_PROGRAM", "ap_cli")
ROOM = f"{TOP}/.build"
LOG = f"{ROOM}/log"
NOT_BUILT = 70
# What tells that a library stands: built by tools/libraries.py, or by rt.
STAMPS = "statements", "stamp"
# The status of tools/libraries.py where the kit is made otherwise than it expects.
LIBRARIES_BY_RT = 3
# The memory that one check may take.
BYTES_A_CHECK = 3 << 30
# What `loop_seconds` gives where docs/ARCHITECTURE.md's table holds: its machine, alone, gave 0.048 and took 0.7 of it.
LOOP_SECONDS_OF_THE_TABLE = 0.068


def say(text):
    """Writes a line to standard error; where that is closed nothing is lost but the line."""
    try:
        print(f"alphaprolog: {text}", file=sys.stderr, flush=True)
    except OSError:
        pass


def words_of_its_run():
    """The words on which the gate runs the program."""
    place = f"{TOP}/crates/{PROGRAM}/args"
    return text_of(place).split() if os.path.isfile(place) else []


def fail(text):
    say(text)
    sys.exit(NOT_BUILT)


def text_of(path):
    with open(path, encoding="utf-8", errors="replace") as file:
        return file.read()


def wanted_kit():
    """The kit's label and its logic, which README.md names under "What is trusted"."""
    found = re.search(r"`(rattle-kit-\S+) logic (\w+)`", text_of(f"{TOP}/README.md"))
    if not found:
        fail("README.md doesn't name the kit any more (`rattle-kit-.. logic ..` under 'What is trusted')")
    return found.groups()


def stop_without_the_kit():
    """Stops where `rt` isn't there, or has another logic: that is what proofs rest on, whatever the kit's label is."""
    label, logic = wanted_kit()
    where = "(README.md, under 'What is trusted')"
    if not shutil.which("rt"):
        fail(f"the command rt isn't on the PATH. The program is proved and built with {label} logic {logic} {where}")
    said = subprocess.run(["rt", "version"], capture_output=True, text=True, errors="replace", check=False)
    found = " ".join((said.stdout.strip().splitlines() or ["no version"])[0].split())
    if found.split()[1:] != ["logic", logic]:
        fail(f"rt is of another kit: {found}. The program is proved with the logic {logic}, that of {label} {where}")
    if found.split()[0] != label:
        say(f"the kit {found} is labelled otherwise than {label}, with which the program was proved; its logic is the same")


def crates_below():
    """The crates of this repository that the program stands on, and itself, lowest first."""
    below = {}
    for line in text_of(f"{TOP}/crates.txt").splitlines():
        head, colon, libraries = line.partition("#")[0].partition(":")
        if colon:
            below[head.split()[0]] = libraries.split()
    order = []

    def add(name):
        for library in below[name]:
            if library in below and library not in order:
                add(library)
        if name not in order:
            order.append(name)

    add(PROGRAM)
    return order, below


def measured_minutes():
    """The processor minutes of each crate's check, by the table of docs/ARCHITECTURE.md."""
    rows = re.findall(r"(?m)^\| `(ap_\w+)` \| ([\d.]+)[^|]*\|", text_of(f"{TOP}/docs/ARCHITECTURE.md"))
    return {name: float(minutes) for name, minutes in rows}


def loop_seconds():
    """The processor seconds of a short loop: how fast this machine is."""
    start = time.process_time()
    total = 0
    for number in range(1_000_000):
        total += number
    return time.process_time() - start


def estimate(left, below, jobs):
    """The minutes that so many jobs need for these crates on this machine: no less than their longest chain."""
    minutes, chain = measured_minutes(), {}
    for name in left:
        longest = max([chain.get(library, 0) for library in below[name]], default=0)
        chain[name] = minutes.get(name, 1) + longest
    total = sum(minutes.get(name, 1) for name in left)
    pace = min(loop_seconds() for _ in range(3)) / LOOP_SECONDS_OF_THE_TABLE
    return max(1, round(max(total / jobs, max(chain.values(), default=0)) * 1.1 * pace))


def processors():
    """The processors that this build may use."""
    return len(os.sched_getaffinity(0))


def jobs_at_once():
    """One check a processor, where memory allows."""
    found = re.search(r"MemAvailable:\s+(\d+) kB", text_of("/proc/meminfo"))
    memory = int(found[1]) * 1024 if found else BYTES_A_CHECK
    return max(1, min(processors(), memory // BYTES_A_CHECK))


def being_proved(names):
    """The crates among these that a check is at work on now."""
    found = set()
    for process in filter(str.isdigit, os.listdir("/proc")):
        try:
            words = text_of(f"/proc/{process}/cmdline").split("\0")
            here = os.readlink(f"/proc/{process}/cwd").startswith(TOP)
        except OSError:
            continue
        # A look at the sources alone, which comes before the proofs, is told by its word --only.
        if here and "--crate-name" in words and "--only" not in words:
            found.add(words[words.index("--crate-name") + 1])
    return [name for name in names if name in found]


class Progress:
    """What was said so far of a build."""

    def __init__(self, crates, built):
        self.crates, self.built, self.start, self.done, self.working = crates, set(built), time.monotonic(), set(), []

    def clock(self):
        seconds = int(time.monotonic() - self.start)
        return f"[{seconds // 60:2}:{seconds % 60:02}]"

    def look(self):
        """Says what ended and what began since the last look."""
        ended = [name for name in re.findall(r"(?m)^== (ap_\w+)$", text_of(LOG)) if name not in self.done]
        for name in ended:
            self.done.add(name)
            say(f"{self.clock()} {len(self.done | self.built)} of {len(self.crates)}: {name} done")
        working = being_proved([name for name in self.crates if name not in self.done])
        begun = [name for name in working if name not in self.working]
        if begun:
            say(f"{self.clock()} proving {', '.join(begun)}")
        self.working += begun


def end(process):
    """Ends a command with all that it started."""
    for which in (signal.SIGTERM, signal.SIGKILL):
        try:
            os.killpg(process.pid, which)
            process.wait(timeout=5)
        except (ProcessLookupError, subprocess.TimeoutExpired):
            pass


def say_log(what, count):
    """Says what became of the build, where the log is, and its last lines."""
    lines = text_of(LOG).splitlines()[-count:]
    say(f"{what}; the log is {LOG}, and " + ("ends with" if lines else "is empty so far"))
    if lines:
        say("\n" + "\n".join("    " + line[:160] for line in lines))


def run(words, progress):
    """Runs a command in the program's folder, with its output in the log; gives its status."""
    with open(LOG, "a", encoding="utf-8") as log, open(f"{TOP}/crates/{PROGRAM}/stdin", "rb") as given:
        process = subprocess.Popen(
            words, cwd=f"{TOP}/crates/{PROGRAM}", stdin=given, stdout=log, stderr=log, start_new_session=True
        )
        try:
            while process.poll() is None:
                time.sleep(1)
                progress.look()
        except KeyboardInterrupt:
            end(process)
            say_log(f"{progress.clock()} interrupted", 5)
            say("what was proved is kept: start again to go on")
            sys.exit(130)
        progress.look()
        return process.returncode


def files_below():
    """The files that the program is made of."""
    files = [f"{TOP}/crates.txt", f"{TOP}/HANDLES"]
    for name in crates_below()[0]:
        for part in ("src", "specs", "proofs"):
            for folder, _, names in os.walk(f"{TOP}/crates/{name}/{part}"):
                files += [f"{folder}/{file}" for file in names]
    return files


def is_current():
    """Whether the program is newer than each file that it is made of."""
    program = f"{TOP}/crates/{PROGRAM}/out/{PROGRAM}"
    if not os.access(program, os.X_OK):
        return False
    made = os.stat(program).st_mtime
    return all(os.stat(file).st_mtime <= made for file in files_below())


@contextlib.contextmanager
def locked(name, waits):
    """Holds a lock, after those who hold it now: two starts at one time take turns."""
    os.makedirs(ROOM, exist_ok=True)
    with open(f"{ROOM}/{name}", "w", encoding="utf-8") as lock:
        try:
            fcntl.flock(lock, fcntl.LOCK_EX | fcntl.LOCK_NB)
        except BlockingIOError:
            say(waits)
            fcntl.flock(lock, fcntl.LOCK_EX)
        yield


def build():
    crates, below = crates_below()
    built = [name for name in crates if any(os.path.isfile(f"{TOP}/crates/{name}/out/rlib/{stamp}") for stamp in STAMPS)]
    left, jobs = [name for name in crates if name not in built], jobs_at_once()
    progress = Progress(crates, built)
    say(
        f"the program is proved and built first: {len(crates)} crates, {len(left)} of them not yet, {jobs} side by side; "
        f"about {estimate(left, below, jobs)} minutes. The log is {LOG}"
    )
    sooner = {"ap_run_cli": "./alphaprolog-unproved", "ap_cli": "./alphaprolog-unproved", "ap_shell_cli": "./alphaprolog-shell --unproved"}
    if PROGRAM in sooner:
        say(f"to look sooner, without proofs: {sooner[PROGRAM]} with the same words")
    open(LOG, "w", encoding="utf-8").close()
    status = run([sys.executable, "-B", f"{TOP}/tools/libraries.py", str(jobs)], progress)
    if status == LIBRARIES_BY_RT:
        status = run(["rt", "all", "check", "--jobs", str(jobs)], progress)
        status = status or run(["rt", "run", "--jobs", str(jobs), "--", *words_of_its_run()], progress)
    if status:
        say_log(f"{progress.clock()} the program was not built", 15)
        fail("what was proved is kept: a second start goes on from there")
    say(f"{progress.clock()} proved and built")


def main():
    stop_without_the_kit()
    with locked("lock", "another start is building the program: waiting for it"):
        if not is_current():
            build()
        # Newer than files beside it that it isn't made of, so that the next start needn't ask.
        os.utime(f"{TOP}/crates/{PROGRAM}/out/{PROGRAM}")


STOPS = signal.SIGINT, signal.SIGTERM, signal.SIGHUP


def interrupt(_signal, _frame):
    """The first signal interrupts. Those behind it are ignored, so that what is being done ends and the log is named."""
    for stop in STOPS:
        signal.signal(stop, signal.SIG_IGN)
    raise KeyboardInterrupt


if __name__ == "__main__":
    # A stop by a signal is an interrupt like that of the keyboard, also where that one was ignored.
    for stop in STOPS:
        signal.signal(stop, interrupt)
    try:
        main()
    except KeyboardInterrupt:
        say("interrupted: start again to go on")
        sys.exit(130)
