#!/usr/bin/env python3
"""Counts what a statement costs behind granules that have moved, beside the same on a plain table.

usage: bench/moved.py [PROGRAM]

PROGRAM is the built program, by default the one that `rt run` leaves. A group of 8,000 rows and a join of 120 by 120 have moved, and a
further granule of each migration has not, so both are under way. Then the new table is asked by its whole key, and rows are put into it;
so is a plain table of the same rows. Each statement is counted under `valgrind --tool=callgrind` as the difference of two scripts. Last a log is
reopened of a join of 100 by 100 whose 10,000 rows were all updated one by one, and one of a plain table of the same rows and updates.
"""

import re
import subprocess
import sys
import tempfile
from pathlib import Path

PROGRAM = Path(__file__).resolve().parent.parent / "crates/bullfrog/out/bullfrog"
STATEMENTS = 50
MEMBERS = 8_000
SIDE = 120
UPDATED = 100
A_STATEMENT = 1_000


def inserts(table, tuples):
    for at in range(0, len(tuples), A_STATEMENT):
        yield f"INSERT INTO {table} VALUES {', '.join(map(str, tuples[at : at + A_STATEMENT]))};"


def joined(side):
    """Two tables whose rows of value 1 meet each other, with a pair of value 2 that nothing asks for."""
    rows = [(key, 1) for key in range(side)] + [(side, 2)]
    yield "CREATE TABLE a (id INT, v INT, PRIMARY KEY (id));"
    yield "CREATE TABLE b (id INT, v INT, PRIMARY KEY (id));"
    for table in "ab":
        yield from inserts(table, rows)
    yield "MIGRATE (CREATE TABLE t AS SELECT a.id AS x, b.id AS y, a.v AS n FROM a JOIN b ON a.v = b.v);"
    yield "SELECT x FROM t WHERE x = 0 AND y = 0;"


def pairs(side):
    """The same new table, plain."""
    yield "CREATE TABLE t (x INT, y INT, n INT, PRIMARY KEY (x, y));"
    yield from inserts("t", [(x, y, 1) for x in range(side) for y in range(side)])


def grouped():
    """Rows of one group, with a row of another that nothing asks for."""
    yield "CREATE TABLE line (id INT, x INT, n INT CHECK (n BETWEEN 0 AND 9), PRIMARY KEY (id));"
    yield from inserts("line", [(key, 1, key % 10) for key in range(MEMBERS)] + [(MEMBERS, 2, 1)])
    yield "MIGRATE (CREATE TABLE t AS SELECT x, SUM(n) AS n FROM line GROUP BY x);"
    yield "SELECT x FROM t WHERE x = 1;"


def one():
    yield "CREATE TABLE t (x INT, n INT, PRIMARY KEY (x));"
    yield f"INSERT INTO t VALUES (1, {sum(key % 10 for key in range(MEMBERS))});"


def run(words, lines):
    text = "\n".join(["PHASE; SESSION;", *lines]).encode()
    return subprocess.run(words, input=text, capture_output=True, check=True)


def instructions(words, lines, folder):
    counted = ["valgrind", "--tool=callgrind", f"--callgrind-out-file={folder}/out", *words]
    ran = run(counted, lines)
    return int(re.search(rb"Collected : (\d+)", ran.stderr).group(1)), ran.stdout


def replies(printed, behind):
    """What is told of each statement behind the first ones, without its number."""
    told = [line[2:].partition(" ") for line in printed.decode().splitlines() if line.startswith("1.")]
    return [(int(number) - behind, rest) for number, _, rest in told if int(number) > behind]


def compare(name, moved, plain, asked, words, folder):
    costs, told = [], []
    for fill in (moved, plain):
        alone, _ = instructions(words, fill, folder)
        took, printed = instructions(words, fill + asked, folder)
        costs.append((took - alone) // len(asked))
        told.append(replies(printed, len(fill)))
    if told[0] != told[1]:
        sys.exit(f"{name} differs")
    print(f"{name:44}{costs[0]:>14,}{costs[1]:>14,}{costs[0] / costs[1]:>8.2f}", flush=True)


def reopened(program, lines, updates, folder, name):
    log = f"{folder}/{name}"
    subprocess.run([program, "create", log], check=True, capture_output=True)
    words = [program, "run", log, "--workers", "0"]
    run(words, [*lines, *updates])
    return instructions(words, [], folder)[0]


def main():
    program = Path(sys.argv[1] if sys.argv[1:] else PROGRAM).resolve()
    if not program.is_file():
        sys.exit(f"{program.name} is not built: run `rt run` in crates/bullfrog first")
    words = [str(program), "try"]
    by_key = [f"SELECT n FROM t WHERE x = {at} AND y = {SIDE - 1 - at};" for at in range(STATEMENTS)]
    put = [f"INSERT INTO t VALUES ({at}, {1_000 + at}, 1);" for at in range(STATEMENTS)]
    of_group = ["SELECT n FROM t WHERE x = 1;"] * STATEMENTS
    again = ["DELETE FROM t WHERE x = 1;", "INSERT INTO t VALUES (1, 1);"] * (STATEMENTS // 2)
    updates = [f"UPDATE t SET n = 2 WHERE x = {x} AND y = {y};" for x in range(UPDATED) for y in range(UPDATED)]
    with tempfile.TemporaryDirectory() as folder:
        print(f"{'instructions a statement':44}{'moved':>14}{'plain':>14}{'ratio':>8}")
        compare(f"SELECT by key, a group of {MEMBERS:,}", list(grouped()), list(one()), of_group, words, folder)
        compare(f"DELETE and INSERT, a group of {MEMBERS:,}", list(grouped()), list(one()), again, words, folder)
        compare(f"SELECT by key, a join of {SIDE} by {SIDE}", list(joined(SIDE)), list(pairs(SIDE)), by_key, words, folder)
        compare(f"INSERT, a join of {SIDE} by {SIDE}", list(joined(SIDE)), list(pairs(SIDE)), put, words, folder)
        logs = [reopened(str(program), list(lines), updates, folder, name) for name, lines in (("moved", joined(UPDATED)), ("plain", pairs(UPDATED)))]
        print(f"{f'a log of {len(updates):,} updates, reopened':44}{logs[0]:>14,}{logs[1]:>14,}{logs[0] / logs[1]:>8.2f}")


if __name__ == "__main__":
    main()
