#!/usr/bin/env python3
"""Times how long scripts of the whole language take to be read, and what sqlite3 takes to prepare the same, best of three.

Each script of 2.5, 5 and 10 MB is of one shape, in few statements of some 100 kB, so that what is told of each refusal counts
for nothing. Our program is timed three times: on the script with a slip at its very end, where it reads all of it, tells the
slip and runs nothing, so that this is reading alone; on the script without the slip, whose statements it refuses or
answers over an empty table one by one; and on one statement of that length, which no limit on a part of it may make slow. All
three are to grow in line with the length, and reading is to take at most 0.05 s a megabyte.

sqlite3 (the module of Python) prepares the same conditions, lists and columns by EXPLAIN, which runs nothing, in shorter
statements, as it takes no chain of over 1,000 operators and no table of over 2,000 columns. It finds names and makes a
program too, so that the ratio tells what size of cost ours is; it is no race. What it has not, as SET STATISTICS, has no
ratio. Processor seconds are counted.
"""
import os
import pathlib
import sqlite3
import subprocess
import sys
import tempfile
import time

from load import PROGRAM

ROUNDS = 3
MEGABYTE = 1_000_000
SIZES = (2.5, 5, 10)
# The bytes of a statement of ours, and how many pieces sqlite3 gets in one.
STATEMENT = 100_000
PIECES = 100
ALLOWED = 0.05
COLUMNS = "A INTEGER, B CHAR(16), C NUMERIC(9,2)"


class Shape:
    """Statements of one kind: a head, pieces with something between them, and a tail. Piece k is made of k."""

    def __init__(self, name, head, piece, between, tail=";\n", has_peer=True):
        self.name, self.head, self.piece, self.between, self.tail = name, head, piece, between, tail
        self.has_peer = has_peer

    def statement(self, first, count):
        return self.head + self.between.join(self.piece(k) for k in range(first, first + count)) + self.tail

    def count(self, size):
        """How many pieces fill a size."""
        return int(size / (len(self.statement(1000, 1000)) / 1000)) + 1

    def statements(self, size, pieces):
        """Statements of so many pieces each, that fill a size together."""
        whole = self.count(size)
        return [self.statement(first, min(pieces, whole - first)) for first in range(0, whole, pieces)]


def nested(k):
    return "(" * 60 + f"A = {k}" + ")" * 60


def mixed(k):
    return f"(A + {k}) * -C = 2 OR " + "NOT (" * 15 + f"A BETWEEN - + -{k} AND (((C + 1)))" + ")" * 15


def listed(k):
    return "A IN (" + ", ".join(str(k * 200 + i) for i in range(200)) + ")"


def asked(k):
    return (
        f"A IN (SELECT A FROM T U WHERE U.A = {k} AND EXISTS (SELECT * FROM T V WHERE V.C < (SELECT MAX(C) FROM T) AND V.B = U.B))"
    )


WHERE = "SELECT A FROM T WHERE "
SHAPES = [
    Shape("OR and AND", WHERE, lambda k: f"A = {k} AND B <> 'x{k}' OR C >= {k}.50", " OR "),
    Shape("sums and products", "SELECT ", lambda k: f"A + {k} * C - A / {k + 1}", " + ", " FROM T;\n"),
    Shape("predicates", WHERE, lambda k: f"B LIKE 'x{k}%' AND A IS NOT NULL AND NOT C NOT BETWEEN {k} AND {k + 9}.5", " OR "),
    Shape("60 parentheses", WHERE, nested, " OR "),
    Shape("NOT, signs, parentheses", WHERE, mixed, " OR "),
    Shape("IN of 200 members", WHERE, listed, " OR "),
    Shape("subqueries", WHERE, asked, " AND "),
    Shape("select lists", "SELECT ", lambda k: f"SUM(A + {k}) AS N{k % 1000}, COUNT(*)", ", ", " FROM T GROUP BY A, B HAVING MAX(C) > 1 ORDER BY 1 DESC;\n"),
    Shape("CREATE TABLE", "CREATE TABLE N (", lambda k: f"C{k} NUMERIC(9,2) NOT NULL, D{k} CHAR(16)", ", ", ");\n"),
    Shape("SET STATISTICS", "SET STATISTICS T (", lambda k: f"COLUMN_{k}", ", ", ") KEYS 5 PAGES 1 CLUSTERED LOW -1.50 HIGH 9;\n", False),
]


def used(folder, script, ends=(1,)):
    """The processor seconds of our program on a script, which may end so; all of its output goes to a file."""
    with open(folder / "out.txt", "wb") as out:
        child = subprocess.Popen([PROGRAM, "run", script], cwd=folder, stdout=out, stderr=out)
        _, status, usage = os.wait4(child.pid, 0)
    if os.waitstatus_to_exitcode(status) not in ends:
        sys.exit(f"status {status}: {(folder / 'out.txt').read_bytes()[:300]}")
    return usage.ru_utime + usage.ru_stime


def best(work):
    return min(work() for _ in range(ROUNDS))


def prepared(statements):
    """The processor seconds that sqlite3 takes to prepare statements."""
    database = sqlite3.connect(":memory:", isolation_level=None)
    database.execute(f"CREATE TABLE T ({COLUMNS})")
    explained = ["EXPLAIN " + it for it in statements]
    start = time.process_time()
    for statement in explained:
        database.execute(statement).close()
    return time.process_time() - start


def main():
    print(f"reading is to take at most {ALLOWED} s a megabyte")
    print(f"{'shape':24} {'MB':>5} {'read/s':>7} {'s/MB':>7} {'run/s':>7} {'one/s':>7} {'sqlite3/s':>9} {'ratio':>6}")
    over = False
    with tempfile.TemporaryDirectory() as room:
        folder = pathlib.Path(room)
        for shape in SHAPES:
            for size in SIZES:
                length = size * MEGABYTE
                text = f"CREATE TABLE T ({COLUMNS});\n" + "".join(shape.statements(length, shape.count(STATEMENT)))
                (folder / "slip.sql").write_text(text + ";")
                (folder / "whole.sql").write_text(text)
                (folder / "one.sql").write_text(f"CREATE TABLE T ({COLUMNS});\n" + shape.statement(0, shape.count(length)))
                megabytes = len(text) / MEGABYTE
                read, ran = best(lambda: used(folder, "slip.sql")), best(lambda: used(folder, "whole.sql"))
                one = best(lambda: used(folder, "one.sql", (0, 1)))
                line = f"{shape.name:24} {size:5} {read:7.3f} {read / megabytes:7.4f} {ran:7.3f} {one:7.3f}"
                if shape.has_peer:
                    theirs = best(lambda: prepared(shape.statements(length, PIECES)))
                    line += f" {theirs:9.3f} {read / theirs:6.2f}"
                over |= read / megabytes > ALLOWED
                print(line, flush=True)
    sys.exit("reading took more than it may" if over else 0)


if __name__ == "__main__":
    main()
