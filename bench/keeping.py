#!/usr/bin/env python3
"""Times `bullfrog run` on one-row commits, beside the device calls that they need, in one run.

The floor makes as many appends as the run has commits, each with its record's length: a write behind the gate, a
sync, a write of the gate, a sync. Takes the program, as `rt run` leaves it, and how many commits:

    python3 bench/keeping.py crates/bullfrog/out/bullfrog 10000
"""

import os
import subprocess
import sys
import tempfile
import time

TIMES = 5


def floor(path, count, size):
    record = size.to_bytes(4, "little") + bytes(size) + b"\0"
    log = os.open(path, os.O_RDWR | os.O_CREAT | os.O_TRUNC)
    os.pwrite(log, b"BFROGLG1\0", 0)
    os.fdatasync(log)
    gate, start = 8, time.monotonic()
    for _ in range(count):
        os.pwrite(log, record, gate + 1)
        os.fdatasync(log)
        os.pwrite(log, b"\xa5", gate)
        os.fdatasync(log)
        gate += size + 5
    os.close(log)
    return time.monotonic() - start


def timed(program, log, script):
    start = time.monotonic()
    words = [program, "run", log, "--workers", "0"]
    done = subprocess.run(words, input=script, capture_output=True, check=True)
    return time.monotonic() - start, done.stdout


def main():
    program, count = os.path.abspath(sys.argv[1]), int(sys.argv[2])
    table = b"PHASE; SESSION; CREATE TABLE t (id INT, n INT, PRIMARY KEY (id));"
    rows = "".join(f"INSERT INTO t VALUES ({n}, {n * 7 % 100});\n" for n in range(count))
    script = b"PHASE; SESSION;\n" + rows.encode()
    best = {"floor": float("inf"), "run": float("inf"), "reopen": float("inf")}
    with tempfile.TemporaryDirectory() as folder:
        for turn in range(TIMES):
            log = os.path.join(folder, f"log{turn}")
            subprocess.run([program, "create", log], check=True, capture_output=True)
            timed(program, log, table)
            before = os.path.getsize(log)
            taken, _ = timed(program, log, script)
            size = (os.path.getsize(log) - before) // count - 5
            best["run"] = min(best["run"], taken)
            best["reopen"] = min(best["reopen"], timed(program, log, b"")[0])
            best["floor"] = min(best["floor"], floor(os.path.join(folder, "floor"), count, size))
    for name, taken in best.items():
        print(f"{name} {taken:.3f} s")
    print(f"run to floor {best['run'] / best['floor']:.2f}")


main()
