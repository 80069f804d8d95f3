#!/usr/bin/env python3
"""Times filters over 5,000,000 rows, ours and sqlite3's in the same run, best of three: on a number, on a number with a
fraction and on a text, one filter that keeps 10 rows and one that keeps a tenth of all and prints them.

Ours has no stored tables, so a script that loads the file and asks the same SELECT some times is timed, and the script
that only loads, and of the difference a part. sqlite3 (Debian's package) loads the file once and tells the time of each
SELECT itself (.timer). Both print into files. Processor seconds are counted, as each program has one thread.

A filter that keeps 10 rows is to take at most a twentieth of sqlite3's time on a number and a tenth on a text.
"""
import os
import pathlib
import re
import subprocess
import sys
import tempfile

from load import PROGRAM

ROWS = 5_000_000
NUMBERS = 500_000
ROUNDS = 3
TABLE = "CREATE TABLE T (I INTEGER, N NUMERIC(9,2), C CHAR(10));\n"
# What is asked, and how many times ours is asked in one run.
FILTERS = [
    ("INTEGER, 10 rows", "SELECT I FROM T WHERE I = 7;\n", 50),
    ("NUMERIC(9,2), 10 rows", "SELECT N FROM T WHERE N = 0.07;\n", 50),
    ("CHAR(10), 10 rows", "SELECT C FROM T WHERE C = '000007abcd';\n", 50),
    ("INTEGER, a tenth", "SELECT I FROM T WHERE I < 50000;\n", 5),
    ("NUMERIC(9,2), a tenth", "SELECT N FROM T WHERE N < 500;\n", 5),
    ("CHAR(10), a tenth", "SELECT C FROM T WHERE C < '050000';\n", 5),
]


def write_records(path):
    with open(path, "w", encoding="ascii", newline="") as out:
        for row in range(ROWS):
            k = row % NUMBERS
            out.write(f"{k},{k // 100}.{k % 100:02},{k:06}abcd\n")


def seconds(command, folder):
    """The processor seconds of a command that prints into a file."""
    with open(folder / "out.txt", "wb") as out:
        child = subprocess.Popen(command, cwd=folder, stdout=out)
        _, status, usage = os.wait4(child.pid, 0)
    if status != 0:
        sys.exit(f"{command[0]}: status {status}")
    return usage.ru_utime + usage.ru_stime


def ours(folder):
    """The seconds of each filter, best of all rounds."""
    load = TABLE + "LOAD T FROM 't.csv';\n"
    (folder / "load.sql").write_text(load)
    for place, (_, query, times) in enumerate(FILTERS):
        (folder / f"{place}.sql").write_text(load + query * times)
    loaded = min(seconds([PROGRAM, "run", "load.sql"], folder) for _ in range(ROUNDS))
    return [
        (min(seconds([PROGRAM, "run", f"{place}.sql"], folder) for _ in range(ROUNDS)) - loaded) / times
        for place, (_, _, times) in enumerate(FILTERS)
    ]


def theirs(folder):
    """The seconds of each filter that sqlite3 tells, best of all rounds, and how many rows it prints."""
    script = TABLE + ".mode csv\n.import t.csv T\n.mode list\n.output their.txt\n.timer on\n"
    script += "".join(query for _, query, _ in FILTERS) * ROUNDS
    done = subprocess.run(["sqlite3", ":memory:"], input=script, capture_output=True, text=True, cwd=folder, check=True)
    told = (folder / "their.txt").read_text() + done.stdout
    times = [float(user) + float(system) for user, system in re.findall(r"user ([\d.]+) sys ([\d.]+)", told)]
    if len(times) != ROUNDS * len(FILTERS):
        sys.exit(f"sqlite3 told {len(times)} times")
    return [min(times[place :: len(FILTERS)]) for place in range(len(FILTERS))]


def main():
    with tempfile.TemporaryDirectory() as name:
        folder = pathlib.Path(name)
        write_records(folder / "t.csv")
        print("filter  sqlr/ms  sqlite3/ms  ratio")
        for (filter_name, _, _), mine, peer in zip(FILTERS, ours(folder), theirs(folder)):
            print(f"{filter_name}: {mine * 1e3:.1f} {peer * 1e3:.1f} {mine / peer:.3f}")


if __name__ == "__main__":
    main()
