#!/usr/bin/env python3
"""Tells what a migration costs: until the first reply on its new table, and until all its rows have moved.

usage: bench/migrations.py [--quick] [--moving] [PROGRAM]

PROGRAM is the built program, by default the one that `rt run` leaves. Each line fills tables, migrates them, and asks for one
row of a new table; for all rows it asks for a total over the new tables, which moves each. `sqlite3 :memory:` computes the
same new tables whole, and asks the same.

A first reply takes less than the noise of a clock, so it is counted in instructions (`valgrind --tool=callgrind`): of the
script with the migration and the reply, less those of the script that only fills. `further` is what one more reply on
another row costs, and `sooner` how many times as many instructions sqlite3 takes to its first reply.

What moves everything is counted so too, of a table of 10,000 rows. It is timed of 100,000 rows, in processor time within the
run that fills the table: our program tells how much it took since it came to a mark of the script (`mark.c`, which is built by
`cc` and loaded before it), and sqlite3 what each statement takes (`.timer on`). The programs take turns for some rounds, sqlite3
before ours and behind. The times are medians, and `ratio` is the median of the rounds' ratios, each to the mean of the two runs of
sqlite3 beside it; `least` is the ratio of the least times, of as many runs each. Ours has the whole report and the end of the run in
it, but not the reading of the script, which is parsed whole before; sqlite3's has the reading of its statements and the dropping
of the old tables. The tables are filled in the order of their keys, and in random order: then rows stand apart in our memory.

With `--quick` the two smallest sizes are tried for the first replies, with `--moving` nothing of them.
"""

import os
import random
import re
import statistics
import subprocess
import sys
import tempfile
from pathlib import Path

PROGRAM = Path(__file__).resolve().parent.parent / "crates/bullfrog/out/bullfrog"
ROUNDS = 7
# So many rows are moved.
MOVED = 100_000
# The length of a text that marks a place of a script, where our program asks for a block of memory of that length.
MARK = 251
ROWS = [1_000, 10_000, 100_000, 1_000_000]
# A script has 16 MiB at most, so this many rows have shorter values, and more of them a group and a joined row.
MANY = 1_000_000
A_STATEMENT = 1_000


def inserts(table, tuples):
    return [f"INSERT INTO {table} VALUES {','.join(tuples[at : at + A_STATEMENT])};" for at in range(0, len(tuples), A_STATEMENT)]


class Split:
    """A customer table into a public and a private one: a row of one table."""

    name = "split in two"
    tables = ["customer (id INT, name VARCHAR(9), pin INT, PRIMARY KEY (id))"]
    migrate = "MIGRATE (CREATE TABLE public AS SELECT id, name FROM customer; CREATE TABLE private AS SELECT id, pin FROM customer);"
    eager = [
        "CREATE TABLE public (id INT, name, PRIMARY KEY (id)) WITHOUT ROWID;",
        "INSERT INTO public SELECT id, name FROM customer;",
        "CREATE TABLE private (id INT, pin INT, PRIMARY KEY (id)) WITHOUT ROWID;",
        "INSERT INTO private SELECT id, pin FROM customer;",
        "DROP TABLE customer;",
    ]
    all = ["SELECT COUNT(*), MAX(name) FROM public;", "SELECT COUNT(*), SUM(pin) FROM private;"]

    def fill(self, size, keys):
        rng = random.Random(size)
        name, most = ("n", 9) if size == MANY else ("n{}", 9999)
        return inserts("customer", [f"({key},'{name.format(key)}',{rng.randrange(most)})" for key in keys(rng, size)])

    def first(self, size, at):
        return f"SELECT * FROM public WHERE id = {size // 2 + at};"


class Totals:
    """Order lines summed up by order: a group of four rows."""

    name = "totals of four rows"
    tables = ["line (id INT, ord INT, qty INT CHECK (qty BETWEEN 0 AND 99), PRIMARY KEY (id))"]
    migrate = "MIGRATE (CREATE TABLE total AS SELECT ord, COUNT(*) AS parts, SUM(qty) AS qty FROM line GROUP BY ord);"
    eager = [
        "CREATE TABLE total (ord INT, parts INT, qty INT, PRIMARY KEY (ord)) WITHOUT ROWID;",
        "INSERT INTO total SELECT ord, COUNT(*), SUM(qty) FROM line GROUP BY ord;",
        "DROP TABLE line;",
    ]
    all = ["SELECT COUNT(*), SUM(qty) FROM total;"]

    def fill(self, size, keys):
        rng = random.Random(size)
        orders, most = (size // 20, 9) if size == MANY else (size // 4, 99)
        return inserts("line", [f"({key},{key % orders},{rng.randrange(most)})" for key in keys(rng, size)])

    def first(self, size, at):
        return f"SELECT * FROM total WHERE ord = {size // 40 + at};"


class Joined:
    """Order lines joined with stock by the item: each line meets one row of stock."""

    name = "joined with another table"
    tables = [
        "line (id INT, item INT, qty INT, PRIMARY KEY (id))",
        "stock (item INT, name VARCHAR(9), PRIMARY KEY (item))",
    ]
    migrate = "MIGRATE (CREATE TABLE bought AS SELECT id, stock.name, qty FROM line JOIN stock ON line.item = stock.item);"
    eager = [
        "CREATE TABLE bought (id INT, name, qty INT, PRIMARY KEY (id)) WITHOUT ROWID;",
        "INSERT INTO bought SELECT id, stock.name, qty FROM line JOIN stock ON line.item = stock.item;",
        "DROP TABLE line;",
        "DROP TABLE stock;",
    ]
    all = ["SELECT COUNT(*), SUM(qty) FROM bought;"]

    def fill(self, size, keys):
        rng = random.Random(size)
        stock, most = (size // 1000, 9) if size == MANY else (size // 10, 99)
        return inserts("stock", [f"({key},'n{key}')" for key in range(stock)]) + inserts(
            "line", [f"({key},{rng.randrange(stock)},{rng.randrange(most)})" for key in keys(rng, size)]
        )

    def first(self, size, at):
        return f"SELECT * FROM bought WHERE id = {size // 2 + at};"


class Pairs:
    """Bidders with offers of one lot: four rows with four, all of which move as one."""

    name = "four rows with four"
    tables = ["bid (bidder INT, lot INT, PRIMARY KEY (bidder))", "offer (seller INT, lot INT, PRIMARY KEY (seller))"]
    migrate = "MIGRATE (CREATE TABLE met AS SELECT bidder, seller, bid.lot FROM bid JOIN offer ON bid.lot = offer.lot);"
    eager = [
        "CREATE INDEX offer_lot ON offer (lot);",
        "CREATE TABLE met (bidder INT, seller INT, lot INT, PRIMARY KEY (bidder, seller)) WITHOUT ROWID;",
        "INSERT INTO met SELECT bidder, seller, bid.lot FROM bid JOIN offer ON bid.lot = offer.lot;",
        "DROP TABLE bid;",
        "DROP TABLE offer;",
    ]
    all = ["SELECT COUNT(*), SUM(lot) FROM met;"]

    def fill(self, size, keys):
        rng = random.Random(size)
        lots = size // 8
        return [
            line
            for table in ("bid", "offer")
            for line in inserts(table, [f"({key},{key % lots})" for key in keys(rng, size // 2)])
        ]

    def first(self, size, at):
        return f"SELECT * FROM met WHERE bidder = {size // 16 + at} AND seller = {size // 16 + at + size // 8};"


KINDS = [Split(), Totals(), Joined(), Pairs()]


def at_random(rng, size):
    return rng.sample(range(size), size)


def in_order(rng, size):
    return range(size)


def both_of(kind, filled, asked, timed=False):
    """What both programs run. Where nothing is asked the tables are filled alone, and else migrated before it. Where it is
    `timed` both are told where the migration begins."""
    ours = [f"CREATE TABLE {table};" for table in kind.tables] + filled
    theirs = [f"CREATE TABLE {table} WITHOUT ROWID;" for table in kind.tables] + filled
    if timed:
        ours += ["CREATE TABLE mark (id INT, text VARCHAR(255), PRIMARY KEY (id));", f"INSERT INTO mark VALUES (1,'{'m' * MARK}');"]
        theirs += [".timer on"]
    if asked:
        ours += [kind.migrate, *asked]
        theirs += [*kind.eager, *asked]
    return "\n".join(["PHASE; SESSION;", *ours]).encode(), "\n".join(["BEGIN;", *theirs, "COMMIT;"]).encode()


def rows_of(output, is_ours):
    lines = output.decode().splitlines()
    if is_ours:
        return [line.split("| ", 1)[1].replace("'", "").split(", ") for line in lines if " | " in line]
    return [line.split("|") for line in lines]


def run(words, script, environment=None):
    return subprocess.run(words, input=script, capture_output=True, check=True, env=environment)


def instructions(words, script, folder):
    counted = ["valgrind", "--tool=callgrind", f"--callgrind-out-file={folder}/out", *words]
    return int(re.search(rb"Collected : (\d+)", run(counted, script).stderr).group(1))


def our_time(words, script, folder):
    """The processor time from the mark to the end, in seconds."""
    ran = run(words, script, {**os.environ, "LD_PRELOAD": f"{folder}/mark.so"})
    return float(re.search(rb"since the last of \d+ marks: ([\d.]+)", ran.stderr).group(1))


def their_time(words, script):
    """The processor time of the statements behind `.timer on`, in seconds."""
    times = re.findall(rb"user ([\d.]+) sys ([\d.]+)", run(words, script).stdout)
    return sum(float(user) + float(system) for user, system in times)


def compare(what, both, programs, count):
    """Stops where the programs tell different rows, or not so many."""
    told = [rows_of(run(words, script).stdout, at == 0) for at, (words, script) in enumerate(zip(programs, both))]
    if told[0] != told[1] or len(told[0]) != count:
        sys.exit(f"{what} differs")


def measure_first(kind, size, programs, folder):
    filled = kind.fill(size, at_random)
    replies = [kind.first(size, at) for at in (0, 1)]
    fill, first, further = (both_of(kind, filled, replies[:count]) for count in range(3))
    compare(f"{kind.name} of {size} rows", further, programs, 2)
    count = lambda at, both: instructions(programs[at], both[at], folder)
    ours = [count(0, both) for both in (fill, first, further)]
    eager = count(1, first) - count(1, fill)
    print(
        f"{kind.name:28}{size:>10,}{ours[1] - ours[0]:>14,}{ours[2] - ours[1]:>12,}{eager / max(ours[1] - ours[0], 1):>10,.0f}",
        flush=True,
    )


def measure_moving(kind, keys, programs, folder):
    few = [both_of(kind, kind.fill(MOVED // 10, keys), asked) for asked in ([], kind.all)]
    compare(f"{kind.name} of {MOVED // 10} rows", few[1], programs, len(kind.all))
    counts = [instructions(words, few[1][at], folder) - instructions(words, few[0][at], folder) for at, words in enumerate(programs)]
    filled = kind.fill(MOVED, keys)
    compare(f"{kind.name} of {MOVED} rows", both_of(kind, filled, kind.all), programs, len(kind.all))
    ours, theirs = both_of(kind, filled, kind.all, timed=True)
    before, own, behind = [], [], []
    for _ in range(ROUNDS):
        before.append(their_time(programs[1], theirs))
        own.append(our_time(programs[0], ours, folder))
        behind.append(their_time(programs[1], theirs))
    ratio = statistics.median(2 * time / (one + other) for one, time, other in zip(before, own, behind))
    print(
        f"{kind.name:28}{keys.__name__:>10}{counts[0]:>14,}{counts[1]:>14,}{counts[0] / counts[1]:>8.2f}"
        f"{statistics.median(own):>10.3f}{statistics.median(before + behind):>10.3f}{ratio:>8.2f}{min(own) / min(before):>8.2f}",
        flush=True,
    )


def main():
    words = [word for word in sys.argv[1:] if not word.startswith("--")]
    sizes = [] if "--moving" in sys.argv else ROWS[:2] if "--quick" in sys.argv else ROWS
    program = Path(words[0] if words else PROGRAM).resolve()
    if not program.is_file():
        sys.exit(f"{program.name} is not built: run `rt run` in crates/bullfrog first")
    programs = [[str(program), "try"], ["sqlite3", ":memory:"]]
    with tempfile.TemporaryDirectory() as folder:
        mark = Path(__file__).resolve().with_name("mark.c")
        subprocess.run(["cc", "-O2", "-shared", "-fPIC", f"-DMARK={MARK}", "-o", f"{folder}/mark.so", mark], check=True)
        print(f"{'first reply':28}{'rows':>10}{'instructions':>14}{'further':>12}{'sooner':>10}")
        for kind in KINDS:
            for size in sizes:
                measure_first(kind, size, programs, folder)
        print(f"{'moving all':28}{'filled':>10}{'at 10,000':>14}{'sqlite3':>14}{'ratio':>8}{'s':>10}{'sqlite3':>10}{'ratio':>8}{'least':>8}")
        for keys in (in_order, at_random):
            for kind in KINDS:
                measure_moving(kind, keys, programs, folder)


if __name__ == "__main__":
    main()
