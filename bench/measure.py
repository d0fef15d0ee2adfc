#!/usr/bin/env python3
"""Runs a command on a file as its input, and prints what it took: measure.py INPUT COMMAND..

The line has the bytes of the input, the seconds, the greatest memory in MiB, the exit status, and what was
written: the text if it is one short line, and else how many bytes.
"""

import os
import subprocess
import sys
import tempfile
import time

SHORT = 80


def written(out):
    """What the command wrote, in words."""
    size = os.fstat(out.fileno()).st_size
    if size <= SHORT:
        out.seek(0)
        text = out.read().decode("utf-8", "replace").strip()
        if text and "\n" not in text:
            return text
    return f"{size} bytes written"


def main():
    path, command = sys.argv[1], sys.argv[2:]
    with open(path, "rb") as text, tempfile.TemporaryFile() as out:
        start = time.monotonic()
        process = subprocess.Popen(command, stdin=text, stdout=out)
        _, status, usage = os.wait4(process.pid, 0)
        seconds = time.monotonic() - start
        size = os.path.getsize(path)
        said = written(out)
    code = os.waitstatus_to_exitcode(status)
    print(f"{size:>10} bytes {seconds:>8.2f} s {usage.ru_maxrss / 1024:>8.1f} MiB   status {code:<3} {said}")


main()
