#!/usr/bin/env python3
"""Tries the wrong bodies that the gate leaves out: the check must refuse each.

usage: bench/wrong_bodies.py [CRATE..]     at the top of the repository or of a clone

A crate that has must-fail edits costs the gate a second check of the whole crate, and each further edit half a minute. So
the gate has those that turn a crate's main promise, of the dearest crates none; all others stand in
bench/wrong_bodies/CRATE/, and are tried by this script, which sets them into crates/CRATE/must-fail/ for as long as
`rt must-fail` takes. Exit status: 0 where each was refused.
"""
import os
import shutil
import subprocess
import sys

TOP = os.path.dirname(os.path.dirname(os.path.realpath(__file__)))
KEPT = f"{TOP}/bench/wrong_bodies"


def tried(name):
    """Whether each wrong body of the crate is refused."""
    folder = f"{TOP}/crates/{name}/must-fail"
    had_folder, added = os.path.isdir(folder), []
    os.makedirs(folder, exist_ok=True)
    try:
        for edit in sorted(os.listdir(f"{KEPT}/{name}")):
            if os.path.exists(f"{folder}/{edit}"):
                sys.exit(f"{name}: {edit} stands in must-fail/ too")
            added.append(f"{folder}/{edit}")
            shutil.copyfile(f"{KEPT}/{name}/{edit}", added[-1])
        return subprocess.run(["rt", "must-fail", name], cwd=TOP, check=False).returncode == 0
    finally:
        for edit in added:
            os.remove(edit)
        if not had_folder:
            os.rmdir(folder)


def main():
    names = sys.argv[1:] or sorted(os.listdir(KEPT))
    let_through = [name for name in names if not tried(name)]
    print(f"{len(names)} crates: " + (f"not all refused in {', '.join(let_through)}" if let_through else "each wrong body was refused"))
    return bool(let_through)


if __name__ == "__main__":
    sys.exit(main())
