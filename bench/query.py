#!/usr/bin/env python3
"""Times SELECTs over one table, ours and sqlite3's in the same run, best of three.

One keeps a tenth of the rows by a column's comparison, and prints three columns of them; the other calculates with two
columns and looks at the end of a text, and prints one column.

Ours has no stored tables, so each run loads the table first, which takes longer than one SELECT. So a
script that loads and asks the same SELECT ten times is timed, and the script that only loads, and a tenth
of the difference is told. Processor seconds are counted, as each program has one thread, and so a
difference of two times is not one of what else the machine did.

What is printed goes to files, where the rows have to be as many and have the same first columns. sqlite3
(Debian's package) prints in its list mode, which does not quote texts, and keeps NUMERIC(9,2) as a float. (A file select.py
would hide Python's own module of that name.)
"""
import os
import pathlib
import re
import subprocess
import sys
import tempfile
from dataclasses import dataclass
from typing import Callable

import load

SELECTS = 10
LISTED = ".mode list\n.headers on\n"
ROW = re.compile(r"(-?\d+)(\|.*)?\n")


@dataclass(frozen=True)
class Question:
    """A SELECT, the table that it is asked of, and what writes so many records of it into a file."""

    query: str
    table: str
    write_records: Callable


def write_numbered_texts(path, count):
    """Records of a number that goes up, two numbers below 1,000, and nine letters with a digit behind them."""
    with open(path, "w", encoding="ascii", newline="") as out:
        for i, state in load.states(count):
            text = f"{load.letters(state, 9)}{state // 7 % 10}"
            out.write(f"{i},{state % 1999 - 999},{state // 1999 % 1999 - 999},{text}\n")


QUESTIONS = {
    "filter": Question("SELECT I, N, C FROM T WHERE S < -13107;\n", load.PLAIN, load.write_records),
    "expression": Question(
        "SELECT A FROM T WHERE B * 2 + C > 100 AND D LIKE '%7';\n",
        "CREATE TABLE T (A INTEGER, B INTEGER, C INTEGER, D CHAR(10));\n",
        write_numbered_texts,
    ),
}


def seconds(command, folder, out, script=None):
    """The processor time of a command that prints into a file."""
    with open(folder / out, "wb") as printed, open(folder / (script or os.devnull), "rb") as given:
        child = subprocess.Popen(command, cwd=folder, stdin=given, stdout=printed)
        _, status, usage = os.wait4(child.pid, 0)
    if status != 0:
        sys.exit(f"{command[0]}: status {status}")
    return usage.ru_utime + usage.ru_stime


def keys(path):
    """The first column of the rows that were printed."""
    with open(path, encoding="ascii") as lines:
        return [row[1] for row in map(ROW.fullmatch, lines) if row]


def write_scripts(folder, question):
    ours = question.table + "LOAD T FROM 't.csv';\n"
    theirs = question.table + ".mode csv\n.import t.csv T\n" + LISTED
    (folder / "ours_load.sql").write_text(ours)
    (folder / "ours.sql").write_text(ours + question.query * SELECTS)
    (folder / "theirs_load.sql").write_text(theirs)
    (folder / "theirs.sql").write_text(theirs + question.query * SELECTS)


def round_of(folder):
    """The four times of one round: ours and theirs, each with the SELECTs and without."""
    sqlite = ["sqlite3", ":memory:"]
    return (
        seconds([load.PROGRAM, "run", "ours.sql"], folder, "ours.txt"),
        seconds([load.PROGRAM, "run", "ours_load.sql"], folder, "ours_load.txt"),
        seconds(sqlite, folder, "theirs.txt", "theirs.sql"),
        seconds(sqlite, folder, "theirs_load.txt", "theirs_load.sql"),
    )


def timed(folder, name, question, count):
    """A line of what a question takes over so many rows."""
    question.write_records(folder / "t.csv", count)
    best = [min(times) for times in zip(*(round_of(folder) for _ in range(3)))]
    ours, theirs = ((asked - loaded) / SELECTS for asked, loaded in (best[:2], best[2:]))
    rows = keys(folder / "ours.txt")
    if rows != keys(folder / "theirs.txt"):
        sys.exit("the two print other rows")
    per_row = (time / count * 1e6 for time in (ours, theirs))
    figures = f"{ours:.4f} {theirs:.4f} {ours / theirs:.2f} " + " ".join(f"{micros:.3f}" for micros in per_row)
    return f"{name} {count} {len(rows) // SELECTS} {figures}"


def main():
    print("query  rows  printed  sqlr/s  sqlite3/s  ratio  sqlr/us a row  sqlite3/us a row")
    with tempfile.TemporaryDirectory() as name:
        folder = pathlib.Path(name)
        for name, question in QUESTIONS.items():
            write_scripts(folder, question)
            for count in (250_000, 500_000, 1_000_000):
                print(timed(folder, name, question, count), flush=True)


if __name__ == "__main__":
    main()
