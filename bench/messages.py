#!/usr/bin/env python3
"""Times what messages cost: many in a long script, and one behind a long statement. Best of three.

1. A script of 10 MB with 1,000 refused statements, and the same script with a column that is there in
   their place: the difference is what refusing and telling 1,000 times costs. It is to be at most 0.1 s.
2. A statement of 5 MB with a fault behind it, and the same without the fault: the fault is to cost no more
   than the parse, in time and in memory at the peak. sqlite3 reads a statement of the same kind beside.
3. A file of 300 MB that is refused, and what is wrong with all of it told, at its first record and at its last; and the same
   file loaded. A refusal is to cost at most twice what loading takes.

Processor seconds are counted, and the peak of memory as the system tells it. All output goes to files.
"""
import os
import pathlib
import subprocess
import sys
import tempfile

from load import PROGRAM

ROUNDS = 3
REFUSALS = 1000
PADDING = 10_000_000 // REFUSALS
ITEMS = 1_700_000
RECORDS = 6_000_000


def used(command, folder, script=None, statuses=(0,)):
    """The processor seconds of a command and its peak of memory in MB."""
    with open(folder / "out.txt", "wb") as out, open(folder / (script or os.devnull), "rb") as given:
        child = subprocess.Popen(command, cwd=folder, stdin=given, stdout=out, stderr=out)
        _, status, usage = os.wait4(child.pid, 0)
    if os.waitstatus_to_exitcode(status) not in statuses:
        sys.exit(f"{command[0]}: status {status}")
    return usage.ru_utime + usage.ru_stime, usage.ru_maxrss / 1024


def best(command, folder, script=None, statuses=(0,)):
    rounds = [used(command, folder, script, statuses) for _ in range(ROUNDS)]
    return min(seconds for seconds, _ in rounds), min(peak for _, peak in rounds)


def write_scripts(folder):
    table = "CREATE TABLE T (A INTEGER);\n"
    padding = ("-- " + "x" * 60 + "\n") * (PADDING // 64)
    (folder / "refused.sql").write_text(table + (padding + "SELECT B FROM T;\n") * REFUSALS)
    (folder / "well.sql").write_text(table + (padding + "SELECT A FROM T;\n") * REFUSALS)
    items = "A, " * ITEMS
    (folder / "long.sql").write_text(f"SELECT {items}A FROM T;\n")
    (folder / "faulty.sql").write_text(f"SELECT {items}A FORM T;\n")
    (folder / "theirs.sql").write_text(f"SELECT {items}A FORM T;\n")


def write_file(path, first, last):
    """A file of records of four fields, of which the first and the last may be faulty."""
    with open(path, "w") as file:
        file.write(first)
        for start in range(1, RECORDS, 1000):
            file.writelines(f"{number},name of {number % 997},{number % 9973}.25,some more words on it\n" for number in range(start, start + 1000))
        file.write(last)


def refused_files(folder):
    """What the same file costs where it is loaded, and where it is refused at its first or its last record."""
    for name, first, last in (("whole", "", ""), ("first", "x,a,1.5,b\n", "y,a,1.5,b\n"), ("last", "", "x,a,1.5,b\n")):
        write_file(folder / "rows.csv", first, last)
        size = (folder / "rows.csv").stat().st_size / 1e6
        (folder / "load.sql").write_text("CREATE TABLE T (A INTEGER, B CHAR(20), C NUMERIC(9,2), D CHAR(30));\nLOAD T FROM 'rows.csv';\n")
        yield name, size, *best([PROGRAM, "run", "load.sql"], folder, statuses=(0, 1))


def main():
    with tempfile.TemporaryDirectory() as room:
        folder = pathlib.Path(room)
        write_scripts(folder)
        refused, _ = best([PROGRAM, "run", "refused.sql"], folder, statuses=(1,))
        well, _ = best([PROGRAM, "run", "well.sql"], folder)
        print(f"1,000 refusals in 10 MB: {refused:.3f} s, the same without them {well:.3f} s, difference {refused - well:.3f} s")
        # The select list is over the limit, so that it is refused behind its parse.
        parsed, parsed_peak = best([PROGRAM, "run", "long.sql"], folder, statuses=(1,))
        faulty, faulty_peak = best([PROGRAM, "run", "faulty.sql"], folder, statuses=(1,))
        print(f"a statement of 5 MB: {parsed:.3f} s and {parsed_peak:.0f} MB; with a fault behind it {faulty:.3f} s and {faulty_peak:.0f} MB")
        loaded = None
        for name, size, seconds, peak in refused_files(folder):
            loaded = loaded or seconds
            told = "loaded" if name == "whole" else f"refused at its {name} record"
            print(f"a file of {size:.0f} MB {told}: {seconds:.2f} s and {peak:.0f} MB, {seconds / loaded:.2f} times the first")
        theirs, theirs_peak = best(["sqlite3", ":memory:"], folder, "theirs.sql", statuses=(0, 1))
        print(f"sqlite3 on the faulty one: {theirs:.3f} s and {theirs_peak:.0f} MB; ratio {faulty / theirs:.2f}")


if __name__ == "__main__":
    main()
