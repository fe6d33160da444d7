#!/usr/bin/env python3
"""Leaves the proved program at build/bullfrog, as `make program` has it.

    python3 bench/program.py

The crates that the program stands on are copied to a folder of their own, without the edits that the
prover is to refuse, and proved there by `rt ci`, which passes on what it proves as each crate is done. What
an earlier `rt ci` on this machine has proved of the same files is taken as it is.
"""

import os
import shutil
import subprocess
import sys
import tempfile
from pathlib import Path

TOP = Path(__file__).resolve().parent.parent
PROGRAM = "bullfrog"


def lines_of_crates():
    """The lines of crates.txt by the crate that each names."""
    lines = {}
    for line in (TOP / "crates.txt").read_text().splitlines():
        name, mark, _ = line.partition(":")
        if mark and not name.startswith("#"):
            lines[name] = line
    return lines


def below(name, lines, found):
    """Adds a crate and those that it stands on, which have a line."""
    if name in lines and name not in found:
        found.add(name)
        for other in lines[name].partition(":")[2].split():
            below(other, lines, found)
    return found


def copy(names, lines, to):
    """Copies these crates as a repository of their own."""
    (to / ".git").mkdir()
    (to / "crates.txt").write_text("".join(lines[name] + "\n" for name in sorted(names)))
    shutil.copy(TOP / "HANDLES", to)
    for name in names:
        leave = shutil.ignore_patterns("out", "must-fail")
        shutil.copytree(TOP / "crates" / name, to / "crates" / name, ignore=leave)


def main():
    lines = lines_of_crates()
    names = below(PROGRAM, lines, set())
    print(
        f"Proves {len(names)} crates and builds the program: about an hour and a half on four processors,\n"
        "and a minute where `rt ci` has passed on this machine. Each crate is told when it is done.",
        flush=True,
    )
    with tempfile.TemporaryDirectory(prefix="bullfrog-") as folder:
        copy(names, lines, Path(folder))
        run = subprocess.Popen(["rt", "ci"], cwd=folder, stdout=subprocess.PIPE, text=True)
        said = []
        for line in run.stdout:
            said.append(line)
            if line.startswith("rt: "):
                print(line, end="", flush=True)
        if run.wait():
            sys.exit("".join(said[-40:]) + "rt ci has not passed: nothing is left at build/")
        made = TOP / "build" / PROGRAM
        made.parent.mkdir(exist_ok=True)
        # A program that runs can't be written over, so it is put in its place.
        shutil.copy2(Path(folder) / "crates" / PROGRAM / "out" / PROGRAM, f"{made}.new")
        os.replace(f"{made}.new", made)
    print(f"{made.relative_to(TOP)} is the proved program")


main()
