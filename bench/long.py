#!/usr/bin/env python3
"""Times `bullfrog try` on scripts of many kinds, each as long as a script may be (16 MiB) or a part of it.

usage: bench/long.py [--part N] [PROGRAM]

PROGRAM is the built program, by default the one that `rt run` leaves. With `--part N` the scripts have an N-th of 16 MiB,
so that two runs tell how a kind grows. Printed are the pieces of each script and the processor time (user and system).
"""

import itertools
import os
import subprocess
import sys
import tempfile
from pathlib import Path

PROGRAM = Path(__file__).resolve().parent.parent / "crates/bullfrog/out/bullfrog"
LONGEST = 16 * 1024 * 1024
TABLE = "CREATE TABLE t (id INT, n INT, PRIMARY KEY (id));\n"
ONE_SESSION = "PHASE; SESSION;\n"


def keys():
    """Numbers below 10,000,000 in random order, each once."""
    step, at = 6_180_339, 1
    while True:
        yield at
        at = (at + step) % 10_000_000


def tables_falling():
    return "PHASE; SESSION;\n", (f"CREATE TABLE t{9_999_999 - n} (a INT, PRIMARY KEY (a));\n" for n in itertools.count()), ""


def indexes():
    return ONE_SESSION + TABLE, (f"CREATE INDEX i{n} ON t (n);\n" for n in itertools.count()), ""


def inserts():
    return ONE_SESSION + TABLE, (f"INSERT INTO t VALUES ({key}, 1);\n" for key in keys()), ""


def inserts_in_a_block():
    return ONE_SESSION + TABLE + "BEGIN;\n", (f"INSERT INTO t VALUES ({key}, 1);\n" for key in keys()), "COMMIT;\n"


def inserts_in_blocks():
    return ONE_SESSION + TABLE, (f"BEGIN; INSERT INTO t VALUES ({key}, 1); COMMIT;\n" for key in keys()), ""


def one_insert():
    rows = keys()
    return ONE_SESSION + TABLE + f"INSERT INTO t VALUES ({next(rows)}, 1)", (f", ({key}, 1)" for key in rows), ";\n"


def absent_rows():
    return ONE_SESSION + TABLE, (f"UPDATE t SET n = 2 WHERE id = {key};\n" for key in keys()), ""


def sixty_four_sessions():
    """The most sessions of a script, 16 a phase, with as many statements each as there is room for."""
    each = LONGEST // 80 // 64

    def piece(n, key):
        opening = ("PHASE;\n" if n % (16 * each) == 0 else "") + ("SESSION;\n" if n % each == 0 else "")
        return f"{opening}INSERT INTO t VALUES ({key}, 1);\n"

    return ONE_SESSION + TABLE, (piece(n, key) for n, key in enumerate(itertools.islice(keys(), 63 * each))), ""


KINDS = [
    ("one INSERT of short rows", one_insert),
    ("INSERT, one row a statement", inserts),
    ("INSERT, each in a block of its own", inserts_in_blocks),
    ("INSERT, all in one block", inserts_in_a_block),
    ("UPDATE of rows that are not there", absent_rows),
    ("CREATE TABLE, names falling", tables_falling),
    ("CREATE INDEX on one table", indexes),
    ("64 sessions of INSERTs", sixty_four_sessions),
]


def written(script, kind, longest):
    """Writes a script of a kind, and tells how many pieces it has."""
    head, pieces, tail = kind()
    room = longest - len(head) - len(tail)
    parts = []
    for piece in pieces:
        room -= len(piece)
        if room < 0:
            break
        parts.append(piece)
    script.write_text(head + "".join(parts) + tail)
    return len(parts)


def main():
    words = sys.argv[1:]
    part = 1
    if words[:1] == ["--part"]:
        part, words = int(words[1]), words[2:]
    program = Path(words[0] if words else PROGRAM).resolve()
    if not program.is_file():
        sys.exit(f"{program.name} is not built: run `rt run` in crates/bullfrog first")
    with tempfile.TemporaryDirectory() as folder:
        script = Path(folder) / "script.sql"
        for name, kind in KINDS:
            count = written(script, kind, LONGEST // part)
            with script.open("rb") as text:
                child = subprocess.Popen([program, "try"], stdin=text, stdout=subprocess.DEVNULL)
                _, status, used = os.wait4(child.pid, 0)
            if status != 0:
                sys.exit(f"{name}: ended with status {os.waitstatus_to_exitcode(status)}")
            print(f"{name:36} {count:>9,} pieces  {used.ru_utime + used.ru_stime:7.2f} s", flush=True)


main()
