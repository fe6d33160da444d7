#!/usr/bin/env python3
"""Times `bullfrog try` against `sqlite3 :memory:` on the same statements, in the same run.

usage: bench/compare.py [--quick] [PROGRAM]

PROGRAM is the built program, by default the one that `rt run` leaves. Each work is a script that is made anew from a
fixed seed: it fills a table in random key order, and most then read or change it. Both programs run it in turn, some
rounds; their rows are compared, and printed are the least processor times (user and system, of the whole script) and
their ratio. sqlite3's table is WITHOUT ROWID, so that its scans give rows in the order of keys too. With `--quick` each
work has its first size alone. Without `sqlite3` it prints the times of bullfrog alone. It ends with status 1 where a
run fails or rows differ.
"""

import os
import random
import shutil
import subprocess
import sys
import tempfile
from pathlib import Path

PROGRAM = Path(__file__).resolve().parent.parent / "crates/bullfrog/out/bullfrog"
ROUNDS = 3
BLOCK = 100
TABLE = "CREATE TABLE t (id INT, n INT, name VARCHAR(20), PRIMARY KEY (id));"


def rows(size):
    """The rows of a table as tuples of SQL, in random key order."""
    rng = random.Random(size)
    return [f"({key}, {rng.randrange(1000)}, 'row {rng.randrange(size)}')" for key in rng.sample(range(10 * size), size)]


def keys(size, seed):
    """The keys of those rows, in another random order."""
    order = random.Random(size).sample(range(10 * size), size)
    random.Random(seed).shuffle(order)
    return order


def filled(size, a_statement=100):
    """A table with so many rows, so many of them a statement."""
    tuples = rows(size)
    yield TABLE
    for start in range(0, size, a_statement):
        yield f"INSERT INTO t VALUES {', '.join(tuples[start : start + a_statement])};"


def one_by_one(size):
    yield from filled(size, 1)


def by_hundreds(size):
    yield from filled(size)


def all_at_once(size):
    yield from filled(size, size)


def short_rows_at_once(size):
    """As many rows as a script of 16 MiB holds, in one statement."""
    order = random.Random(size).sample(range(size), size)
    yield "CREATE TABLE t (id INT, PRIMARY KEY (id));"
    yield f"INSERT INTO t VALUES {','.join(f'({key})' for key in order)};"
    yield "SELECT COUNT(*), MIN(id), MAX(id) FROM t;"


def selects_by_key(size):
    yield from filled(size)
    yield from (f"SELECT * FROM t WHERE id = {key};" for key in keys(size, 1))


def updates_by_key(size):
    yield from filled(size)
    yield from (f"UPDATE t SET n = n + 1 WHERE id = {key};" for key in keys(size, 2))


def deletes_by_key(size):
    yield from filled(size)
    yield from (f"DELETE FROM t WHERE id = {key};" for key in keys(size, 3)[: size // 2])
    yield "SELECT * FROM t;"


def delete_all(size):
    yield from filled(size)
    yield "DELETE FROM t WHERE n >= 0;"
    yield "SELECT COUNT(*) FROM t;"


def update_all(size):
    yield from filled(size)
    yield from ["UPDATE t SET n = n + 1;"] * 3
    yield "SELECT * FROM t;"


def counts_of_ranges(size):
    yield from filled(size)
    rng = random.Random(4)
    for low in (rng.randrange(10 * size) for _ in range(100)):
        yield f"SELECT COUNT(*) FROM t WHERE id BETWEEN {low} AND {low + 1000};"


def totals(size):
    yield from filled(size)
    for low in range(20):
        yield f"SELECT COUNT(*), SUM(n), MIN(n), MAX(name) FROM t WHERE n > {low} OR id < {size};"


def in_blocks(size):
    yield TABLE
    lines = [f"INSERT INTO t VALUES {row};" for row in rows(size)]
    lines += [f"UPDATE t SET n = n + 1 WHERE id = {key};" for key in keys(size, 2)]
    for start in range(0, len(lines), BLOCK):
        yield from ["BEGIN;", *lines[start : start + BLOCK], "COMMIT;"]
    yield "SELECT * FROM t;"


USUAL = [10_000, 100_000]
WORKS = [
    ("INSERT, one row a statement", one_by_one, USUAL),
    ("INSERT, 100 rows a statement", by_hundreds, USUAL),
    ("one INSERT of all rows", all_at_once, [50_000, 100_000, 200_000, 400_000]),
    ("one INSERT of short rows", short_rows_at_once, [100_000, 1_500_000]),
    ("SELECT by key", selects_by_key, USUAL),
    ("UPDATE by key", updates_by_key, USUAL),
    ("DELETE of half by key", deletes_by_key, USUAL),
    ("DELETE of all by a condition", delete_all, USUAL),
    ("UPDATE of all, three times", update_all, USUAL),
    ("100 counts of key ranges", counts_of_ranges, USUAL),
    ("20 scans with four totals", totals, USUAL),
    ("INSERT and UPDATE in blocks", in_blocks, USUAL),
]


def run(words, script):
    """The output of a program on a script, and the seconds of processor time that it took."""
    with script.open("rb") as text, tempfile.TemporaryFile() as output:
        child = subprocess.Popen(words, stdin=text, stdout=output)
        _, status, used = os.wait4(child.pid, 0)
        output.seek(0)
        printed = output.read()
    if status != 0:
        sys.exit(f"{words[0]} ended with status {os.waitstatus_to_exitcode(status)}: {printed[:200]!r}")
    return printed.decode(), used.ru_utime + used.ru_stime


def rows_of_report(report):
    """The rows of a report, each without its place."""
    return [line.split(" | ", 1)[1] for line in report.splitlines() if " | " in line]


def compare(program, name, size, lines, folder):
    """Times both programs on a script of these lines, and prints their least times."""
    text = "\n".join(lines) + "\n"
    script, other = folder / "script.sql", folder / "sqlite.sql"
    script.write_text("PHASE; SESSION;\n" + text)
    other.write_text('.mode quote\n.separator ", "\n' + text.replace("PRIMARY KEY (id));", "PRIMARY KEY (id)) WITHOUT ROWID;", 1))
    sqlite = shutil.which("sqlite3")
    times, others = [], []
    for _ in range(ROUNDS):
        report, took = run([program, "try"], script)
        times.append(took)
        if sqlite:
            printed, took = run([sqlite, ":memory:"], other)
            others.append(took)
            if rows_of_report(report) != printed.splitlines():
                sys.exit(f"{name}: the rows differ")
    ours = f"{name:30} {size:>8,} rows  bullfrog {min(times):7.3f} s"
    theirs = f"  sqlite3 {min(others):7.3f} s  ratio {min(times) / min(others):6.2f}" if sqlite else ""
    print(ours + theirs, flush=True)


def main():
    words = [word for word in sys.argv[1:] if word != "--quick"]
    program = Path(words[0] if words else PROGRAM).resolve()
    if not program.is_file():
        sys.exit(f"{program.name} is not built: run `rt run` in crates/bullfrog first")
    with tempfile.TemporaryDirectory() as folder:
        for name, work, sizes in WORKS:
            for size in sizes[:1] if "--quick" in sys.argv else sizes:
                compare(str(program), name, size, list(work(size)), Path(folder))


if __name__ == "__main__":
    main()
