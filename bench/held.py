#!/usr/bin/env python3
"""Tells the most memory that a run holds, by how many migrations it has.

A table of 10,000 rows is copied, or split in two of which the first goes on, by each MIGRATE in turn, and counted
behind it, so that all its rows have moved. Takes the program, as `rt run` leaves it; wants `/usr/bin/time`:

    python3 bench/held.py crates/bullfrog/out/bullfrog
"""

import os
import subprocess
import sys
import tempfile

ROWS, BLOCK = 10_000, 100
TIMES = [0, 1, 2, 4, 8, 16, 32, 64]


def filled():
    yield "PHASE; SESSION; CREATE TABLE t0 (id INT, n INT, name VARCHAR(20), PRIMARY KEY (id));"
    for start in range(0, ROWS, BLOCK):
        tuples = (f"({key}, {key % 1000}, 'row {key}')" for key in range(start, start + BLOCK))
        yield f"INSERT INTO t0 VALUES {', '.join(tuples)};"


def copied(number):
    return f"CREATE TABLE t{number + 1} AS SELECT id, n, name FROM t{number}"


def split(number):
    return f"{copied(number)}; CREATE TABLE s{number + 1} AS SELECT id, n FROM t{number}"


def script(targets, times):
    yield from filled()
    for number in range(times):
        yield f"MIGRATE ({targets(number)}); SELECT COUNT(*) FROM t{number + 1};"


def most(words, text):
    """The most memory of a run, in MB."""
    done = subprocess.run(
        ["/usr/bin/time", "-f", "%M", *words], input=text.encode(), capture_output=True, check=True
    )
    assert f"complete {ROWS}" in done.stdout.decode() or "migration none" in done.stdout.decode()
    return int(done.stderr.split()[-1]) / 1024


def main():
    program = os.path.abspath(sys.argv[1])
    print("| migrations | copied, MB | read back, MB | split, MB | read back, MB |\n|---|---|---|---|---|")
    for times in TIMES:
        cells = []
        for targets in (copied, split):
            with tempfile.TemporaryDirectory() as folder:
                log = os.path.join(folder, "log")
                subprocess.run([program, "create", log], check=True, stdout=subprocess.DEVNULL)
                words = [program, "run", "--workers", "0", log]
                cells += [most(words, "".join(script(targets, times))), most(words, "")]
        print(f"| {times} | {' | '.join(f'{cell:.1f}' for cell in cells)} |", flush=True)


if __name__ == "__main__":
    main()
