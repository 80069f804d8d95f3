#!/usr/bin/env python3
"""Times how long a CSV file takes to be loaded, ours and sqlite3's in the same run, best of three.

The records are made by a fixed rule: INTEGER, NUMERIC(9,2), CHAR(10) and SMALLINT. They are loaded into a
table without keys, and into one whose INTEGER is its PRIMARY KEY and which has an index on (SMALLINT, CHAR(10)). The
peak memory of ours is told beside the file's bytes plus 100 bytes a row. sqlite3 is Debian's package.
"""
import os
import pathlib
import subprocess
import sys
import tempfile
import time

PROGRAM = pathlib.Path(__file__).resolve().parent.parent / "crates/sqlr_cli/out/sqlr_cli"
COLUMNS = "(I INTEGER{key}, N NUMERIC(9,2), C CHAR(10), S SMALLINT);\n"
PLAIN = "CREATE TABLE T " + COLUMNS.format(key="")
KEYED = "CREATE TABLE T " + COLUMNS.format(key=" NOT NULL PRIMARY KEY") + "CREATE INDEX {name}ON T (S, C);\n"
TABLES = {"plain": (PLAIN, PLAIN), "keyed": (KEYED.format(name=""), KEYED.format(name="SC "))}


def states(count):
    """So many numbers by a fixed rule, with their places."""
    state = 1
    for i in range(count):
        state = (state * 48271) % 2147483647
        yield i, state


def letters(state, many):
    return "".join(chr(97 + (state >> 2 * place) % 26) for place in range(many))


def write_records(path, count):
    with open(path, "w", encoding="ascii", newline="") as out:
        for i, state in states(count):
            out.write(f"{i * 7},{state % 9999999}.{state % 100:02},{letters(state, 10)},{state % 32768 - 16384}\n")


def once(command, folder, **options):
    """Seconds, and the peak of the child's memory in bytes."""
    start = time.perf_counter()
    child = subprocess.Popen(command, cwd=folder, stdout=subprocess.DEVNULL, **options)
    _, status, usage = os.wait4(child.pid, 0)
    if status != 0:
        sys.exit(f"{command[0]}: status {status}")
    return time.perf_counter() - start, usage.ru_maxrss * 1024


def compared(folder, tables, allowed):
    """The seconds of ours and of sqlite3's, and the peak of ours beside what is allowed, in a line."""
    (folder / "ours.sql").write_text(tables[0] + "LOAD T FROM 't.csv';\n")
    (folder / "theirs.sql").write_text(tables[1] + ".mode csv\n.import t.csv T\n")
    ours = [once([PROGRAM, "run", "ours.sql"], folder) for _ in range(3)]
    theirs = []
    for _ in range(3):
        with open(folder / "theirs.sql", "rb") as script:
            theirs.append(once(["sqlite3", ":memory:"], folder, stdin=script))
    best, peer = min(ours)[0], min(theirs)[0]
    peak = max(memory for _, memory in ours)
    return f"{best:.3f} {peer:.3f} {best / peer:.2f} {peak / 1e6:.1f} {allowed / 1e6:.1f}"


def main():
    print("table  rows  sqlr/s  sqlite3/s  ratio  sqlr/MB  allowed/MB")
    with tempfile.TemporaryDirectory() as name:
        folder = pathlib.Path(name)
        for count in (250_000, 500_000, 1_000_000):
            write_records(folder / "t.csv", count)
            allowed = (folder / "t.csv").stat().st_size + 100 * count
            for table, scripts in TABLES.items():
                print(table, count, compared(folder, scripts, allowed), flush=True)


if __name__ == "__main__":
    main()
