#!/usr/bin/env python3
"""What sessions and workers on threads cost, each as a ratio within one run.

Takes the program, as `rt run` leaves it, and how many rows a table has:

    python3 bench/threads.py crates/bullfrog/out/bullfrog 100000

Told are the wall time and the processor time of each side, the medians of rounds in which one side runs behind the
other, without what reopening the log takes, and the ratio of the time that its mark is about:

    reads        four sessions that read a row each time, to one session with all their statements (processor time, 1.3)
    ranges       the same with 200 rows each time (processor time, 1.3)
    commits      four sessions of commits, to one session with all of them (wall time, 1.1)
    moving       four sessions of commits on a table that two workers move beside them, to one session with all of them and
                 no workers (wall time, 2)
    finish       `--finish` that moves every granule, to one SELECT of everything that does (wall time)
    workers      how many granules two workers have moved when a session of INSERTs has ended
"""

import os
import resource
import statistics
import subprocess
import sys
import tempfile
import time

ROUNDS = 7
SESSIONS = 4


def run(program, log, script, *options):
    """The wall time and the processor time of a run, and its report."""
    before = resource.getrusage(resource.RUSAGE_CHILDREN)
    start = time.monotonic()
    done = subprocess.run(
        [program, "run", *options, log], input=script.encode(), capture_output=True, check=True
    )
    wall = time.monotonic() - start
    after = resource.getrusage(resource.RUSAGE_CHILDREN)
    spent = after.ru_utime + after.ru_stime - before.ru_utime - before.ru_stime
    return wall, spent, done.stdout.decode()


def sessions_of(statements, count):
    """A phase of so many sessions that share the statements out."""
    parts = ["\n".join(statements[first::count]) for first in range(count)]
    return "PHASE;\n" + "".join(f"SESSION;\n{part}\n" for part in parts)


def fill(rows):
    values = [f"({n}, 'name {n % 1000}', {n * 7 % 100})" for n in range(rows)]
    inserts = [
        "INSERT INTO person VALUES " + ", ".join(values[first : first + 500]) + ";"
        for first in range(0, rows, 500)
    ]
    table = "CREATE TABLE person (id INT, name VARCHAR(20), balance INT, PRIMARY KEY (id));"
    return "PHASE; SESSION;\n" + table + "\n" + "\n".join(inserts)


SPLIT = (
    "PHASE; SESSION; MIGRATE (CREATE TABLE pub AS SELECT id, name FROM person;"
    " CREATE TABLE priv AS SELECT id, balance FROM person);"
)


class Bench:
    def __init__(self, program, rows, folder):
        self.program, self.rows, self.folder = program, rows, folder
        self.count = 0

    def log(self, *scripts):
        """A new log, over which these scripts were run without workers."""
        self.count += 1
        path = os.path.join(self.folder, f"log{self.count}")
        subprocess.run([self.program, "create", path], check=True, capture_output=True)
        for script in scripts:
            run(self.program, path, script, "--workers", "0")
        return path

    def time(self, scripts, script, options):
        """The wall time and the processor time of a run over a new log, without those of reopening it, and its report."""
        path = self.log(*scripts)
        reopened = run(self.program, path, "PHASE;", "--workers", "0")
        wall, spent, text = run(self.program, path, script, *options)
        os.remove(path)
        return wall - reopened[0], spent - reopened[1], text

    def medians(self, scripts, *sides):
        """The median times of each side, a script and its options, which run one behind the other in each round."""
        rounds = [[self.time(scripts, script, options) for script, *options in sides] for _ in range(ROUNDS)]
        return [
            (statistics.median(one[0] for one in times), statistics.median(one[1] for one in times), times[-1][2])
            for times in zip(*rounds)
        ]


def tell(name, one, other, which):
    ratio = other[which] / max(one[which], 1e-9)
    print(
        f"{name}: wall {one[0]:.2f} s and {other[0]:.2f} s, processor {one[1]:.2f} s and {other[1]:.2f} s,"
        f" ratio of {'processor' if which else 'wall'} time {ratio:.2f}",
        flush=True,
    )


ALONE = ("--workers", "0")


def main():
    program, rows = os.path.abspath(sys.argv[1]), int(sys.argv[2])
    with tempfile.TemporaryDirectory() as folder:
        bench = Bench(program, rows, folder)
        filled = fill(rows)

        def beside(name, scripts, statements, which):
            """Four sessions beside one session, without workers."""
            sides = [(sessions_of(statements, count), *ALONE) for count in (1, SESSIONS)]
            tell(name, *bench.medians(scripts, *sides), which)

        beside("reads", [filled], [f"SELECT * FROM person WHERE id = {n * 13 % rows};" for n in range(100000)], 1)
        spans = [(n * 13 % (rows - 200), n * 13 % (rows - 200) + 199) for n in range(10000)]
        beside("ranges", [filled], [f"SELECT * FROM person WHERE id BETWEEN {low} AND {high};" for low, high in spans], 1)
        beside("commits", [filled], [f"UPDATE person SET balance = {n} WHERE id = {n};" for n in range(5000)], 0)

        both = [filled, SPLIT]
        writes = [f"UPDATE priv SET balance = {n} WHERE id = {n};" for n in range(2000)]
        sides = [(sessions_of(writes, 1), *ALONE), (sessions_of(writes, SESSIONS), "--workers", "2")]
        tell("moving", *bench.medians(both, *sides), 0)
        sides = [("PHASE; SESSION; SELECT COUNT(*) FROM priv;", *ALONE), ("PHASE; SESSION;", *ALONE, "--finish")]
        tell("finish", *bench.medians(both, *sides), 0)
        busy = "PHASE; SESSION;\n" + "\n".join(f"INSERT INTO other VALUES ({n});" for n in range(rows // 20))
        other = "PHASE; SESSION; CREATE TABLE other (id INT, PRIMARY KEY (id));"
        workers = bench.time([filled, other, SPLIT], busy, ("--workers", "2"))
        print("workers beside inserts: " + workers[2].splitlines()[-1], f"in {workers[0]:.2f} s")


if __name__ == "__main__":
    main()
