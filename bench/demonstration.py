#!/usr/bin/env python3
"""Runs `demo` of several sizes, each on a new file, and compares what it writes with what it must.

    python3 bench/demonstration.py [PROGRAM]

PROGRAM is build/bullfrog where none is given. Behind each size the log is run once more without a script. Tells each
size with its seconds, and ends with status 1 where anything else was written.
"""

import subprocess
import sys
import tempfile
import time
from pathlib import Path

PROGRAM = Path(sys.argv[1] if len(sys.argv) > 1 else "build/bullfrog").resolve()
SIZES = [1, 2, 7, 100, 1000]


def call(*words):
    """What the program writes, and its status."""
    ran = subprocess.run([PROGRAM, *words], input=b"", capture_output=True)
    return ran.stdout.decode(), ran.returncode


def lines(size):
    """What a demonstration writes: the owners are the remainders of 1 to 16 times the size by 7."""
    accounts = 16 * size
    owners = sum(account % 7 for account in range(1, accounts + 1))
    return (
        f"7.1 rows 1\n7.1 | {accounts}, {1610 * size}\n7.2 rows 1\n7.2 | {accounts}, {owners}\n"
        f"end commits {5 * size + 4} migration 1 complete {accounts}\n"
    )


def main():
    wrong = []
    with tempfile.TemporaryDirectory() as folder:
        for size in SIZES:
            log = str(Path(folder) / f"{size}.log")
            began = time.monotonic()
            told = call("demo", str(size), log)
            print(f"demo {size}: {time.monotonic() - began:.1f} s", flush=True)
            again = call("run", log, "--workers", "0")
            if told != (lines(size), 0) or again != (f"end commits 0 migration 1 complete {16 * size}\n", 0):
                wrong.append(f"demo {size}: {told}, then {again}")
        log = str(Path(folder) / "1.log")
        for words in (["0", "new"], ["1001", "new"], ["new"]):
            if call("demo", *words) != ("usage error\n", 1):
                wrong.append(f"demo {' '.join(words)}")
        size = Path(log).stat().st_size
        if call("demo", "1", log) != (f"not empty: {size} bytes\n", 8):
            wrong.append("demo over a log")
    print("\n".join(wrong) if wrong else "all as it must be")
    sys.exit(1 if wrong else 0)


if __name__ == "__main__":
    main()
