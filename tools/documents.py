#!/usr/bin/env python3
"""Checks that the documents show what the gate runs.

usage: tools/documents.py [PROGRAM [SHELL [SHOW]]]

Each fenced block of README.md, docs/LANGUAGE.md, docs/TUTORIAL.md and docs/FROM_PROLOG.md is one of these:

- commands `./alphaprolog ..`, each with what it shows: a run of examples/runs, or a line of examples/commands or of examples/examined, with all that
  the gate has for it in crates/ap_cases/stdout; below it may stand what is said on standard error. Where FILE, BUNDLE or the like
  stands for what is read, the gate has the lines somewhere. Other commands are tried with the built program alone (below);
- a session of `./alphaprolog-shell`: what is typed behind the prompts `?- ` and `|  `, and what is written for it;
- a report: lines that stand together in crates/ap_cases/stdout;
- messages (`error:`, `warning:`, `note:`): each stands in crates/ap_cases/stdout;
- a program: a text of examples/, byte for byte. Where the words before it say "in part", each of its paragraphs
  stands in one text.

In the tables each row with an example of examples/faults/ and a fault's line has the line that the gate has for it. Each
text of examples/faults/ ends with a comment that has that line and what is said of it, which stands in crates/ap_cases/stdout.

With the built PROGRAM each command of the documents is run besides, as it is written, and must show on standard output and
standard error what its block has; each text of examples/faults/ what its comment has. No other example may have a warning, and
each must have the gate's report at the depth from which on its head says that nothing is cut. So must the lines of
examples/commands. With the built SHELL the sessions are held, and with SHOW the commands of `./alphaprolog-show` are run; without
them these are left out.
Prints each thing that differs, and how many blocks and texts were compared; the status is 1 where one differs.
"""
import collections
import os
import re
import subprocess
import sys
import tempfile

TOP = os.path.dirname(os.path.dirname(os.path.realpath(__file__)))
DOCUMENTS = "README.md", "docs/LANGUAGE.md", "docs/TUTORIAL.md", "docs/FROM_PROLOG.md"
RUN = re.compile(r"\./alphaprolog run --depth (\d+)(?: --workers \d+)? < examples/(\S+)$")
COMMAND_LINE = re.compile(r"(?:sed .* \| )?\./alphaprolog(?:-show)? [\w-]")
SESSION = re.compile(r"\./alphaprolog-shell (\S+)$")
PROMPT = re.compile(r"(?:\?- |\|  )(.*)$")
HOLES = re.compile(r"\b(?:FILE|TEXT|BUNDLE|N)\b")
MESSAGE = re.compile(r"(?:error|warning|note): ")
REPORT = re.compile(r"% (?:query \d+: |cut |stuck |property |proof |\w+ fault: )|yes$|[A-Z]\w* = ")
DEPTH = re.compile(r"[Dd]epth ([\d,]+) or more")
ROW = re.compile(r"\| .*`(\w+\.apl)`.*\| `(% .*)` \|$")
CUT = "note: branches that were cut at the depth: %d; a run with a greater number behind `--depth` follows them further"

counts = collections.Counter()


def text_of(path):
    with open(f"{TOP}/{path}", "rb") as file:
        return file.read().decode("utf-8", "replace")


def differ(path, line, what):
    counts["differ"] += 1
    print(f"{path}:{line}: {what}")


def example_texts():
    """The texts of examples/ by their names."""
    top = os.path.realpath(f"{TOP}/examples")
    paths = [os.path.join(folder, name) for folder, _, names in os.walk(top) for name in sorted(names)]
    return {os.path.relpath(it, top): text_of(os.path.relpath(it, TOP)) for it in paths if it.endswith(".apl")}


def gate_reports():
    """What the gate has for each run of examples/runs, by its depth and name."""
    found = re.findall(r"^% examples/(\S+)\n(.*?)^% status \d+$", text_of("crates/ap_cases/stdout"), re.M | re.S)
    runs = [it.split(" ") for it in text_of("examples/runs").splitlines()]
    assert [it for _, it in runs] == [it for it, _ in found], "examples/runs and crates/ap_cases/stdout differ in their texts"
    return {(depth, name): report for (depth, name), (_, report) in zip(runs, found)}


def gate_commands():
    """What the gate has for each line of examples/commands, by the command as it is typed."""
    found = re.findall(r"^% (\w[^\n]*? < examples/\S+)\n(.*?)^% status \d+$", text_of("crates/ap_cases/stdout"), re.M | re.S)
    lines = [it.replace(" < ", " < examples/") for it in text_of("examples/commands").splitlines()]
    assert lines == [it for it, _ in found], "examples/commands and crates/ap_cases/stdout differ in their lines"
    return {f"./alphaprolog {line}": report for line, report in found}


def gate_exams():
    """What the gate has for each line of examples/examined, by the command as it is typed."""
    found = re.findall(r"^% examples/(\S+), depth (\d+)\n(.*?)^% status \d+$", text_of("crates/ap_cases/stdout"), re.M | re.S)
    runs = [it.split(" ") for it in text_of("examples/examined").splitlines()]
    assert runs == [[depth, name] for name, depth, _ in found], "examples/examined and crates/ap_cases/stdout differ in their texts"
    return {f"./alphaprolog examine --depth {depth} < examples/{name}": report for name, depth, report in found}


def messages_of(lines):
    """The messages of some lines: each begins with its word, and goes on with lines that are indented or numbered."""
    messages = []
    for line in lines:
        if MESSAGE.match(line):
            messages.append([line])
        elif messages and line:
            messages[-1].append(line)
    return ["\n".join(it) for it in messages]


def blocks(text):
    """The fenced blocks of a document: the line where each begins, the words before it, and its lines."""
    words, lines, begin = [], None, 0
    for number, line in enumerate(text.splitlines(), 1):
        if not line.startswith("```"):
            (words if lines is None else lines).append(line)
        elif lines is None:
            lines, begin = [], number + 1
        else:
            yield begin, " ".join(words), lines
            words, lines = [], None


def commands_of(lines):
    """The commands of a block, each with the lines that it shows."""
    commands = []
    for line in lines:
        if COMMAND_LINE.match(line):
            commands.append((line, []))
        else:
            commands[-1][1].append(line)
    return commands


class Checker:
    def __init__(self, programs, room):
        """With the programs that are built, and a room in which commands run as they would in the repository."""
        self.program, self.shell, self.show = programs
        self.room = room
        for name, program in zip(("alphaprolog", "alphaprolog-shell", "alphaprolog-show"), programs):
            os.symlink(program or "/nowhere", f"{room}/{name}")
        os.symlink(f"{TOP}/examples", f"{room}/examples")
        self.texts = example_texts()
        self.reports = gate_reports()
        self.commands = gate_commands() | gate_exams()
        self.all_reports = text_of("crates/ap_cases/stdout")
        self.all_messages = self.all_reports

    def said(self, path, line, message, cut=0):
        """Whether the gate has a message."""
        counts["messages"] += 1
        if message != CUT % cut and f"\n{message}\n" not in self.all_messages:
            differ(path, line, f"the gate says nowhere: {message.splitlines()[0]}")

    def shown_by(self, words):
        """What a command shows on standard output and standard error, and its status."""
        ran = subprocess.run(words, shell=True, cwd=self.room, capture_output=True, check=False)
        return ran.stdout.decode(), ran.stderr.decode(), ran.returncode

    def command(self, path, line, words, shown):
        match = RUN.match(words)
        if HOLES.search(words):
            self.report(path, line, shown)
        elif not match and words not in self.commands:
            self.other_command(path, line, words, shown)
        else:
            report = self.reports.get(match.groups()) if match else self.commands[words]
            self.gate_command(path, line, words, shown, report)

    def gate_command(self, path, line, words, shown, report):
        """Compares a command that the gate runs: its report, and the messages below it."""
        counts["commands"] += 1
        if not shown:
            if report is None or self.program and self.shown_by(words)[0] != report:
                differ(path, line, f"the gate has no report, or another one, for {words}")
            return
        shown = "".join(f"{it}\n" for it in shown)
        if report is None or not shown.startswith(report):
            differ(path, line, f"the gate has another report for {words}")
            return
        said = shown[len(report):]
        if RUN.match(words):
            cut = sum(int(it) for it in re.findall(r"^% query .* (\d+) cut,", report, re.M))
            for message in messages_of(said.splitlines()):
                self.said(path, line, message, cut)
        if self.program:
            counts["commands run"] += 1
            if self.shown_by(words)[:2] != (report, said):
                differ(path, line, f"the program shows something else for {words}")

    def other_command(self, path, line, words, shown):
        """Tries a command that the gate doesn't run. Where nothing is shown below it, it must end with status 0."""
        if self.show if words.startswith("./alphaprolog-show") else self.program:
            counts["commands run"] += 1
            report, said, status = self.shown_by(words)
            if report + said != "".join(f"{it}\n" for it in shown) if shown else status != 0:
                differ(path, line, f"the program shows something else for {words}")

    def session(self, path, line, lines):
        """Holds a session with the messages among what is written, as a terminal shows them; only the greeting needs one."""
        counts["sessions"] += 1
        if f'"{lines[1]}\\n"' not in text_of("crates/ap_shell_cli/src/main.rt"):
            differ(path, line, "the greeting is another one")
        if not self.shell:
            return
        typed, shown = [":messages among"], []
        for it in lines[2:]:
            match = PROMPT.match(it)
            (typed if match else shown).append(match[1] if match else it)
        with tempfile.NamedTemporaryFile("w", dir=self.room) as file:
            file.write("".join(f"{it}\n" for it in typed))
            file.flush()
            written, loaded, _ = self.shown_by(f"{lines[0]} < {file.name}")
        if loaded + written != "".join(f"{it}\n" for it in shown):
            differ(path, line, f"the session is another one: {loaded + written}")

    def report(self, path, line, lines):
        """Whether the gate has lines that stand together."""
        if lines:
            counts["reports"] += 1
            if "\n" + "\n".join(lines) + "\n" not in self.all_reports:
                differ(path, line, "the gate has no such report")

    def program_text(self, path, line, words, lines):
        text = "".join(f"{it}\n" for it in lines)
        if text in self.texts.values():
            counts["programs"] += 1
            return
        counts["programs in part"] += 1
        parts = [f"\n{it}\n" for it in text.rstrip("\n").split("\n\n")]
        if "in part" not in words:
            differ(path, line, "no text of examples/ is this program, and it isn't said that this is a part of one")
        elif not any(all(part in f"\n{it}" for part in parts) for it in self.texts.values()):
            differ(path, line, "no text of examples/ has these parts")

    def block(self, path, line, words, lines):
        if SESSION.match(lines[0]):
            self.session(path, line, lines)
        elif COMMAND_LINE.match(lines[0]):
            for command, shown in commands_of(lines):
                self.command(path, line, command, [it for it in shown if it != "rt ci"])
        elif MESSAGE.match(lines[0]):
            for message in messages_of(lines):
                self.said(path, line, message)
        elif REPORT.match(lines[0]):
            self.report(path, line, lines)
        else:
            self.program_text(path, line, words, lines)

    def document(self, path):
        text = text_of(path)
        for line, words, lines in blocks(text):
            self.block(path, line, words, lines)
        for line, row in enumerate(text.splitlines(), 1):
            match = ROW.match(row)
            if match:
                counts["rows"] += 1
                if self.reports.get(("10", f"faults/{match[1]}")) != f"{match[2]}\n":
                    differ(path, line, f"the gate has another line for {match[1]}")

    def fault(self, name):
        """Whether the comment at the end of a text with a fault is what is written for it."""
        path = f"examples/{name}"
        lines = [it[2:] for it in self.texts[name].partition("\n% The report, and what is said on standard error:\n")[2].splitlines()]
        counts["faults"] += 1
        report, said = "".join(f"{it}\n" for it in lines[:1]), "".join(f"{it}\n" for it in lines[1:])
        if self.reports.get(("10", name)) != report:
            differ(path, 1, "the gate has another line for it")
        for message in messages_of(said.splitlines()):
            # the cases of ap_cases are UTF-8
            if not name.endswith("_not_utf8.apl"):
                self.said(path, 1, message)
        if self.program:
            counts["texts run"] += 1
            if self.shown_by(f"./alphaprolog run --depth 10 < {path}")[:2] != (report, said):
                differ(path, 1, "the program shows something else for it")

    def example(self, depth, name):
        """Whether a text without a fault has no warning, and at the depth that its head tells the report of the gate."""
        claim = DEPTH.search(self.texts[name])
        for at in {depth, claim[1].replace(",", "") if claim else depth}:
            counts["texts run"] += 1
            report, said, _ = self.shown_by(f"./alphaprolog run --depth {at} < examples/{name}")
            if report != self.reports[(depth, name)] or "warning: " in said:
                differ(f"examples/{name}", 1, f"the program has another report, or a warning, at depth {at}")

    def command_line(self, words):
        """Whether a line of examples/commands or of examples/examined shows what the gate has for it, and no warning."""
        counts["texts run"] += 1
        report, said, _ = self.shown_by(words)
        if report != self.commands[words] or "warning: " in said:
            differ("examples/commands", 1, f"the program has another report, or a warning, for {words}")


def main():
    with tempfile.TemporaryDirectory() as room:
        programs = [os.path.abspath(it) for it in sys.argv[1:]]
        checker = Checker(programs + [""] * (3 - len(programs)), room)
        for path in DOCUMENTS:
            checker.document(path)
        for depth, name in checker.reports:
            if name.startswith("faults/"):
                checker.fault(name)
            elif checker.program:
                checker.example(depth, name)
        for words in checker.commands if checker.program else ():
            checker.command_line(words)
    print(", ".join(f"{count} {what}" for what, count in counts.items() if what != "differ") + f"; {counts['differ']} differ")
    return 1 if counts["differ"] else 0


sys.exit(main())
