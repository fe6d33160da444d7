#!/usr/bin/env python3
"""Counts what a statement costs that an index serves, in instructions, beside the same without the index and sqlite3's.

usage: bench/indexes.py [PROGRAM]

PROGRAM is the built program, by default the one that `rt run` leaves. Each line fills a table of which four rows have each
value of a column, and then runs statements on some values: on the table itself (a SELECT of the value's rows, and an UPDATE of
their other column), and behind a MIGRATE that splits it, where the first SELECT of a value on a new table moves the four rows
that it needs. `sqlite3 :memory:` has the same index, and computes the same new tables whole before its SELECT. All are counted
under `valgrind --tool=callgrind`, less what the script without those statements takes; what both print is compared.
"""

import random
import re
import subprocess
import sys
import tempfile
from pathlib import Path

PROGRAM = Path(__file__).resolve().parent.parent / "crates/bullfrog/out/bullfrog"
STATEMENTS = 20
SIZES = [1_000, 10_000, 100_000]
A_STATEMENT = 1_000

TABLE = "CREATE TABLE customer (id INT, city INT, pin INT, PRIMARY KEY (id))"
INDEX = "CREATE INDEX by_city ON customer (city);"
MIGRATE = (
    "MIGRATE (CREATE TABLE public AS SELECT id, city FROM customer;"
    " CREATE TABLE private AS SELECT id, pin FROM customer);"
)
WHOLE = [
    "CREATE TABLE public (id INT, city INT, PRIMARY KEY (id)) WITHOUT ROWID;",
    "INSERT INTO public SELECT id, city FROM customer;",
    "CREATE TABLE private (id INT, pin INT, PRIMARY KEY (id)) WITHOUT ROWID;",
    "INSERT INTO private SELECT id, pin FROM customer;",
    "DROP TABLE customer;",
]


def filled(size):
    order = random.Random(size).sample(range(size), size)
    for start in range(0, size, A_STATEMENT):
        tuples = ", ".join(f"({key}, {key % (size // 4)}, {key % 97})" for key in order[start : start + A_STATEMENT])
        yield f"INSERT INTO customer VALUES {tuples};"


def cities(size):
    rng = random.Random(size + 1)
    return [rng.randrange(size // 4) for _ in range(STATEMENTS)]


def selected(size):
    return [f"SELECT id, pin FROM customer WHERE city = {city};" for city in cities(size)]


def updated(size):
    return [f"UPDATE customer SET pin = pin + 1 WHERE city = {city};" for city in cities(size)]


def instructions(words, text, folder):
    """The instructions that a program takes for a script, and what it prints."""
    counted = ["valgrind", "--tool=callgrind", f"--callgrind-out-file={folder}/out", *words]
    ran = subprocess.run(counted, input=text.encode(), capture_output=True, check=True)
    return int(re.search(rb"Collected : (\d+)", ran.stderr).group(1)), ran.stdout.decode()


def rows(printed, is_ours):
    lines = printed.splitlines()
    return [line.split("| ", 1)[1].split(", ") for line in lines if " | " in line] if is_ours else [line.split("|") for line in lines]


def main():
    program = Path(sys.argv[1] if sys.argv[1:] else PROGRAM).resolve()
    if not program.is_file():
        sys.exit(f"{program.name} is not built: run `rt run` in crates/bullfrog first")
    ours, theirs = [str(program), "try"], ["sqlite3", ":memory:"]

    with tempfile.TemporaryDirectory() as folder:

        def ours_of(lines):
            return instructions(ours, "\n".join(["PHASE; SESSION;", f"{TABLE};", *lines]), folder)

        def theirs_of(lines):
            return instructions(theirs, "\n".join(["BEGIN;", f"{TABLE} WITHOUT ROWID;", *lines, "COMMIT;"]), folder)

        def compared(name, size, with_index, without, eager, each):
            (alone, _), (took, printed) = with_index
            (bare, _), (scanned, same) = without
            (whole, _), (sqlite, other) = eager
            if not rows(printed, True) == rows(same, True) == rows(other, False) and "SELECT" in name:
                sys.exit(f"{name} on {size} rows differs")
            told = [(took - alone) // each, (scanned - bare) // each, (sqlite - whole) // each]
            print(f"{name:34}{size:>10,}" + "".join(f"{count:>15,}" for count in told), flush=True)

        print(f"{'instructions a statement':34}{'rows':>10}{'by the index':>15}{'without':>15}{'sqlite3':>15}")
        for size in SIZES:
            fill = list(filled(size))
            indexed, plain = [INDEX, *fill], fill
            for name, asked in (("SELECT of a value", selected(size)), ("UPDATE of a value", updated(size))):
                pairs = [(of(lines), of(lines + asked)) for of, lines in ((ours_of, indexed), (ours_of, plain), (theirs_of, indexed))]
                compared(name, size, *pairs, STATEMENTS)
            first = [f"SELECT id FROM public WHERE city = {cities(size)[0]};"]
            pairs = [
                (ours_of(indexed), ours_of([*indexed, MIGRATE, *first])),
                (ours_of(plain), ours_of([*plain, MIGRATE, *first])),
                (theirs_of(indexed), theirs_of([*indexed, *WHOLE, *first])),
            ]
            compared("MIGRATE and the first SELECT", size, *pairs, 1)


if __name__ == "__main__":
    main()
