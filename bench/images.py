#!/usr/bin/env python3
"""Counts what it costs to find the owner of a key and the rows of its granule, in instructions, by the rows of the old tables.

usage: bench/images.py [--quick] [PROGRAM]

PROGRAM is `image_counts`, by default as `rt run` leaves it.
Each line fills two tables, begins a migration of one kind, makes what finds its rows by their values, and then finds owners of
keys and the rows of their granules, some times at random keys, and not at all, both under `valgrind --tool=callgrind`; the
difference is what the calls cost. A call that reads its granule and no others costs as much in a large table as in a small one,
but for its searches by key.
"""

import re
import subprocess
import sys
import tempfile
from pathlib import Path

PROGRAM = Path(__file__).resolve().parent.parent / "crates/image_counts/out/image_counts"
CALLS = 1_000
ROWS = [1_000, 10_000, 100_000, 1_000_000]
KINDS = {
    "split": "a row of one table",
    "totals": "a group of four rows",
    "joined": "a row with its row of another table",
    "pairs": "four rows with four of another table",
}


def instructions(program, kind, rows, calls, folder):
    """The instructions that the program takes, and how many rows it found."""
    words = ["valgrind", "--tool=callgrind", f"--callgrind-out-file={folder}/out", program, kind, str(rows), str(calls)]
    ran = subprocess.run([str(word) for word in words], capture_output=True, check=True)
    return int(re.search(rb"Collected : (\d+)", ran.stderr).group(1)), int(ran.stdout)


def main():
    words = [word for word in sys.argv[1:] if word != "--quick"]
    sizes = ROWS if len(words) == len(sys.argv[1:]) else ROWS[:2]
    program = Path(words[0] if words else PROGRAM).resolve()
    if not program.is_file():
        sys.exit(f"{program.name} is not built: run `rt run` in crates/image_counts first")
    with tempfile.TemporaryDirectory() as folder:
        print(f"{'instructions a call':40}" + "".join(f"{rows:>12,}" for rows in sizes))
        for kind, what in KINDS.items():
            told = []
            for rows in sizes:
                alone, _ = instructions(program, kind, rows, 0, folder)
                took, found = instructions(program, kind, rows, CALLS, folder)
                if found != CALLS * (16 if kind == "pairs" else 1):
                    sys.exit(f"{kind} over {rows} rows found {found} rows")
                told.append((took - alone) // CALLS)
            print(f"{what:40}" + "".join(f"{count:>12,}" for count in told), flush=True)


if __name__ == "__main__":
    main()
