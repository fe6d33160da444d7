#!/usr/bin/env python3
"""Runs a script over a log whose file must not grow past some size, and reopens it without that bound.

What is asked: the run ends with status 5 and its whole report; the commits that it tells of are those before the
one that is told `disk fault`, which the log may hold too; each later one is told `halted`, all with one count; and
the log goes on where the disk has room again. Takes the program, as `rt run` leaves it, and tries each size from
the log's own on:

    python3 bench/full_disk.py crates/bullfrog/out/bullfrog
"""

import os
import re
import resource
import signal
import subprocess
import sys
import tempfile

ROWS = 40
RECORD = 5 + 21


def run(program, log, script, most=None):
    def bound():
        signal.signal(signal.SIGXFSZ, signal.SIG_IGN)
        resource.setrlimit(resource.RLIMIT_FSIZE, (most, most))

    done = subprocess.run(
        [program, "run", log, "--workers", "0"],
        input=script.encode(),
        capture_output=True,
        check=False,
        preexec_fn=bound if most else None,
    )
    return done.returncode, done.stdout.decode()


def inserts(first):
    return "PHASE; SESSION;\n" + "\n".join(
        f"INSERT INTO t VALUES ({n});" for n in range(first, first + ROWS)
    )


def rows_in(program, log):
    status, text = run(program, log, "PHASE; SESSION; SELECT COUNT(*), MAX(id) FROM t;")
    assert status == 0, (status, text)
    count, most = re.search(r"1\.1 \| (\d+), (\w+)", text).groups()
    assert count == "0" or count == most, text
    return int(count)


def fill(program, log, most):
    status, text = run(program, log, inserts(1), most)
    replies = re.findall(r"^1\.\d+ (.*)$", text, re.M)
    assert len(replies) == ROWS, text
    told = replies.count("inserted 1")
    if told == ROWS:
        assert status == 0, (status, text)
        return False
    assert status == 5, (status, text)
    assert replies == ["inserted 1"] * told + ["disk fault"] + ["halted 1"] * (ROWS - told - 1), text
    assert f"end commits {told} " in text, text
    kept = rows_in(program, log)
    assert told <= kept <= told + 1, (told, kept)
    status, text = run(program, log, inserts(kept + 1))
    assert status == 0 and rows_in(program, log) == kept + ROWS, text
    return True


def main():
    program, tried = os.path.abspath(sys.argv[1]), 0
    with tempfile.TemporaryDirectory() as folder:
        log = os.path.join(folder, "log")
        assert subprocess.run([program, "create", log], check=False).returncode == 0
        table = "PHASE; SESSION; CREATE TABLE t (id INT, PRIMARY KEY (id));"
        assert run(program, log, table)[0] == 0
        with open(log, "rb") as file:
            start = file.read()
        while True:
            with open(log, "wb") as file:
                file.write(start)
            if not fill(program, log, len(start) + tried):
                break
            tried += 7
    print(f"{tried // 7} sizes at which the disk is full")


if __name__ == "__main__":
    main()
