#!/usr/bin/env python3
"""Builds `thread_runs` and runs it with as many random scripts as its words say, from a seed on.

    python3 bench/thread_runs.py 10000 1000

The program is built by `rt run`, which proves it first, over what `rt ci` has kept. The scripts are shared out among
so many processes as there are processors.
"""

import os
import subprocess
import sys
import time
from pathlib import Path

CRATE = Path(__file__).resolve().parent.parent / "crates" / "thread_runs"


def main():
    count, seed = int(sys.argv[1]), int(sys.argv[2])
    subprocess.run(["rt", "run", "--", "1", str(seed)], cwd=CRATE, check=True)
    program = CRATE / "out" / "thread_runs"
    shares = os.cpu_count() or 1
    start, going = time.monotonic(), []
    for share in range(shares):
        first, behind = count * share // shares, count * (share + 1) // shares
        words = [program, str(behind - first), str(seed + first)]
        going.append(subprocess.Popen(words, stdout=subprocess.DEVNULL))
    failed = sum(one.wait() != 0 for one in going)
    print(f"{count} scripts in {time.monotonic() - start:.0f} s, {failed} of {shares} processes failed")
    sys.exit(failed != 0)


main()
