#!/usr/bin/env python3
"""Bounds the memory of runs with threads, and reopens the log each time.

Where memory runs out for one thread, the others end too, and the run ends with status 7 and has written nothing. What
is asked of the log is what `kills.py` asks behind a kill: that it reopens, and that it holds the first of each session's
transactions. Takes the program, as `rt run` leaves it, and at how many sizes it is run: from one at which memory runs out
before any session, and no thread can be made, to one at which it does not run out:

    python3 bench/memory.py crates/bullfrog/out/bullfrog 100
"""

import os
import resource
import subprocess
import sys
import tempfile

from kills import Log, Threads

# How long a run may take, in seconds; one that leaves a thread behind takes longer.
LIMIT = 60
LEAST, MOST = 1 << 23, 1 << 29


def bounded(log, kept, size):
    """A run whose memory is bounded: its status, and what it told."""

    def bound():
        resource.setrlimit(resource.RLIMIT_AS, (size, size))

    words = [log.program, "run", log.path, *log.shape.options]
    done = subprocess.run(
        words,
        input=log.shape.script(kept).encode(),
        capture_output=True,
        check=False,
        timeout=LIMIT,
        preexec_fn=bound,
    )
    return done.returncode, done.stdout.decode()


def main():
    program, sizes = os.path.abspath(sys.argv[1]), int(sys.argv[2])
    with tempfile.TemporaryDirectory() as folder:
        log = Log(program, os.path.join(folder, "log"), Threads())
        log.migrate()
        ended, within, before = 0, 0, 0
        for number in range(sizes):
            size = int(LEAST * (MOST / LEAST) ** (number / sizes))
            kept = log.kept()
            status, text = bounded(log, kept, size)
            now = log.kept()
            assert status in (0, 7), (status, text)
            assert all(count >= was for count, was in zip(now, kept)), (kept, now)
            if status == 0:
                assert log.shape.ended(text), text
                ended += 1
                continue
            assert text == "", text
            if now == kept:
                before += 1
            else:
                within += 1
        print(
            f"{sizes} runs of {LEAST} to {MOST} bytes: {ended} ended, {within} ran out of memory while sessions were"
            f" served, {before} before any commit; each log reopened with the first of each session's transactions"
        )


if __name__ == "__main__":
    main()
