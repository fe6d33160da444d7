#!/usr/bin/env python3
"""Counts what a scan of a range of keys costs, in instructions, by the rows of the table and by those of the range.

usage: bench/ranges.py [PROGRAM]

PROGRAM is the built program, by default the one that `rt run` leaves. Each line runs a script that fills a table and then
counts the rows of a range, some times at different places, and a script that fills the same table alone, both under
`valgrind --tool=callgrind`; the difference is what the counts cost. A range that reads its own rows and no others costs as
much in a large table as in a small one, but for two searches by key, and each row in it adds the same.
"""

import random
import re
import subprocess
import sys
import tempfile
from pathlib import Path

PROGRAM = Path(__file__).resolve().parent.parent / "crates/bullfrog/out/bullfrog"
COUNTS = 50
TABLES = [1_000, 10_000, 100_000]
RANGES = [0, 1, 10, 100, 1_000]


def filled(size):
    """A table of the even numbers below twice the size, put in random order."""
    yield "CREATE TABLE t (id INT, n INT, PRIMARY KEY (id));"
    order = random.Random(size).sample(range(size), size)
    for start in range(0, size, 100):
        yield "INSERT INTO t VALUES " + ", ".join(f"({2 * key}, {key})" for key in order[start : start + 100]) + ";"


def counts(size, width):
    """Counts of ranges that have so many rows, each between two keys that no row has."""
    rng = random.Random(width)
    for low in (rng.randrange(size - width + 1) for _ in range(COUNTS)):
        yield f"SELECT COUNT(*) FROM t WHERE id > {2 * low - 1} AND id < {2 * (low + width) - 1};"


def instructions(program, lines, folder):
    """The instructions that the program takes for a script, and what it prints."""
    script = Path(folder) / "script.sql"
    script.write_text("PHASE; SESSION;\n" + "\n".join(lines) + "\n")
    words = ["valgrind", "--tool=callgrind", f"--callgrind-out-file={folder}/out", str(program), "try"]
    with script.open("rb") as text:
        ran = subprocess.run(words, stdin=text, capture_output=True, check=True)
    return int(re.search(rb"Collected : (\d+)", ran.stderr).group(1)), ran.stdout.decode()


def main():
    program = Path(sys.argv[1] if sys.argv[1:] else PROGRAM).resolve()
    if not program.is_file():
        sys.exit(f"{program.name} is not built: run `rt run` in crates/bullfrog first")
    print("instructions a statement   " + "".join(f"{width:>10,} rows" for width in RANGES))
    with tempfile.TemporaryDirectory() as folder:
        for size in TABLES:
            fill = list(filled(size))
            alone, _ = instructions(program, fill, folder)
            told = []
            for width in RANGES:
                if width > size:
                    continue
                took, printed = instructions(program, fill + list(counts(size, width)), folder)
                if printed.count(f"| {width}\n") != COUNTS:
                    sys.exit(f"a range of {width} rows among {size} was counted wrongly")
                told.append((took - alone) // COUNTS)
            print(f"a table of {size:>10,} rows " + "".join(f"{count:>15,}" for count in told), flush=True)


if __name__ == "__main__":
    main()
