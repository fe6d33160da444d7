#!/usr/bin/env python3
"""Kills runs over a log at random moments, and reopens it each time.

A run writes its report at its end, so a killed one has told nothing. One is let end first, and tells how long the
others may take. What is asked of the log is that it reopens, that it holds the first of the commits and no others,
in the midst of a migration too, and that no commit is lost that an earlier run had told of. Takes the program, as
`rt run` leaves it, and how many kills:

    python3 bench/kills.py crates/bullfrog/out/bullfrog 200

With `--threads` the runs have four sessions at the same time, whose transactions insert two rows each, and two
workers that move the rows of a migration beside them. Then the same is asked of each session: what is there are
the rows of its first transactions, and none by half.

    python3 bench/kills.py crates/bullfrog/out/bullfrog 300 --threads
"""

import os
import random
import re
import subprocess
import sys
import tempfile
import time

SESSIONS = 4
WORKERS = 2


class OneSession:
    """Runs of one session, whose statements insert a row each."""

    rows = 400
    options = ("--workers", "0")
    table = "CREATE TABLE t (id INT, n INT, PRIMARY KEY (id));"
    migrate = "MIGRATE (CREATE TABLE t AS SELECT id, n FROM t);"
    kills_between = 20

    def script(self, kept):
        first = kept[0] + 1
        rows = (f"INSERT INTO t VALUES ({n}, {n * 7 % 100});" for n in range(first, first + self.rows))
        return "PHASE; SESSION;\n" + "\n".join(rows)

    def ended(self, text):
        return f"end commits {self.rows} " in text

    def questions(self):
        return ["SELECT COUNT(*), MIN(id), MAX(id) FROM t;"]

    def is_right(self, count):
        return True


class Threads:
    """Runs of several sessions at the same time, whose transactions insert two rows each."""

    rows = 120
    options = ("--workers", str(WORKERS))
    table = "CREATE TABLE t (s INT, n INT, PRIMARY KEY (s, n));"
    migrate = "MIGRATE (CREATE TABLE t AS SELECT s, n FROM t);"
    kills_between = 2

    def script(self, kept):
        parts = ["PHASE;"]
        for session, count in enumerate(kept, 1):
            parts.append("SESSION;")
            for n in range(count + 1, count + self.rows, 2):
                two = f"INSERT INTO t VALUES ({session}, {n}); INSERT INTO t VALUES ({session}, {n + 1});"
                parts.append(f"BEGIN; {two} COMMIT;")
        return "\n".join(parts)

    def ended(self, text):
        return f"end commits {SESSIONS * self.rows // 2} " in text

    def questions(self):
        sessions = range(1, SESSIONS + 1)
        return [f"SELECT COUNT(*), MIN(n), MAX(n) FROM t WHERE s = {s};" for s in sessions]

    def is_right(self, count):
        return count % 2 == 0


class Log:
    def __init__(self, program, path, shape):
        self.program, self.path, self.shape = program, path, shape
        assert subprocess.run([program, "create", path], check=False).returncode == 0
        self.run(shape.table)

    def run(self, statements):
        """What a script of one session tells, without workers."""
        words = [self.program, "run", self.path, "--workers", "0"]
        script = "PHASE; SESSION; " + statements
        done = subprocess.run(words, input=script.encode(), capture_output=True, check=False)
        text = done.stdout.decode()
        assert done.returncode == 0, (done.returncode, text)
        return text

    def migrate(self):
        text = self.run(self.shape.migrate)
        assert "1.1 migrated 1" in text, text

    def kept(self):
        """How many rows of each session are there, which are its first."""
        questions = self.shape.questions()
        text = self.run(" ".join(questions))
        counts = []
        for place in range(1, len(questions) + 1):
            found = re.search(rf"1\.{place} \| (\d+), (\w+), (\w+)", text).groups()
            count = int(found[0])
            assert count == 0 or (int(found[1]), int(found[2])) == (1, count), text
            assert self.shape.is_right(count), text
            counts.append(count)
        return counts

    def kill(self, kept, after=None):
        """Begins a run and kills it after some time, if after any: whether it was killed, and what it told."""
        words = [self.program, "run", self.path, *self.shape.options]
        going = subprocess.Popen(words, stdin=subprocess.PIPE, stdout=subprocess.PIPE)
        going.stdin.write(self.shape.script(kept).encode())
        going.stdin.close()
        if after is not None:
            time.sleep(after)
            going.kill()
        text = going.stdout.read().decode()
        return going.wait() != 0, text


def main():
    program, kills = os.path.abspath(sys.argv[1]), int(sys.argv[2])
    shape = Threads() if "--threads" in sys.argv[3:] else OneSession()
    with tempfile.TemporaryDirectory() as folder:
        log = Log(program, os.path.join(folder, "log"), shape)
        start = time.monotonic()
        log.kill(log.kept())
        whole = time.monotonic() - start
        told, killed, ended, moved = log.kept(), 0, 0, 0
        while killed < kills:
            if (killed + ended) % shape.kills_between == shape.kills_between // 2:
                log.migrate()
                moved += 1
            was_killed, text = log.kill(told, random.uniform(0, whole))
            killed += was_killed
            kept = log.kept()
            for before, now in zip(told, kept):
                assert before <= now <= before + shape.rows, (told, kept)
            if shape.ended(text):
                ended += 1
                assert kept == [before + shape.rows for before in told], (told, kept)
            told = kept
        print(
            f"{killed} runs killed, {ended} ended, {moved} migrations begun,"
            f" {sum(told)} rows kept, none lost"
        )


if __name__ == "__main__":
    main()
