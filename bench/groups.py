#!/usr/bin/env python3
"""Times groups, set functions, DISTINCT and ORDER BY: ours, sqlite3's and PostgreSQL's in the same run, best of three.

usage: groups.py [PROGRAM] [WORKLOAD ..]

Peers, settings and the way of timing are those of joins.py. The table has 1,000,000 rows, or the share of them that GROUPS_SCALE says:
K10, K1000 and K100000 with so many values, A with some 630,000, V NUMERIC(9,2) and C CHAR(10). The rows of all three are compared once
sorted, with numbers rounded to two digits, since sqlite3 adds up in floating point.
"""
import os
import pathlib
import random
import re
import shutil
import sys
import tempfile
from dataclasses import dataclass

from joins import SERVER, SQLITE, Cluster, seconds_of, usage_of
from load import PROGRAM as BUILT

ROWS = max(10, int(1_000_000 * float(os.environ.get("GROUPS_SCALE", "1"))))
COLUMNS = "K10 INTEGER, K1000 INTEGER, K100000 INTEGER, A INTEGER, V NUMERIC(9,2), C CHAR(10)"


@dataclass(frozen=True)
class Workload:
    """A SELECT, what it may take beside sqlite3 and PostgreSQL, and how many times it is asked in one run."""

    name: str
    query: str
    allowed: tuple
    times: int = 3


HALF = (0.5, 0.5)
WORKLOADS = [
    *(Workload(f"group-{k}", f"SELECT K{k}, COUNT(*), SUM(V) FROM T GROUP BY K{k}", HALF) for k in (10, 1000, 100000)),
    Workload("order-number", "SELECT A, V FROM T ORDER BY A", (0.4, 0.4), 2),
    Workload("order-text", "SELECT C FROM T ORDER BY C DESC", HALF, 2),
    Workload("distinct-1000", "SELECT DISTINCT K1000 FROM T", HALF),
    Workload("distinct-100000", "SELECT DISTINCT K100000 FROM T", HALF),
    Workload("count-distinct", "SELECT COUNT(DISTINCT A) FROM T", HALF),
    Workload("aggregates", "SELECT AVG(V), MIN(V), MAX(V) FROM T", (0.1, None), 10),
]


def write_records(folder):
    made = random.Random(8)
    letters = "abcdefghijklmnopqrstuvwxyz"
    with open(folder / "T.csv", "w", encoding="ascii", newline="") as out:
        for _ in range(ROWS):
            keys = [made.randrange(10), made.randrange(1000), made.randrange(100_000), made.randrange(1_000_000)]
            cents = made.randrange(-99_999_999, 100_000_000)
            text = "".join(made.choices(letters, k=10))
            out.write(f"{','.join(map(str, keys))},{'-' * (cents < 0)}{abs(cents) // 100}.{abs(cents) % 100:02},{text}\n")


# ---- what is printed


def value(field):
    """A field as all three print it: a text without quotes and the spaces at its end, a number rounded to two digits."""
    if re.fullmatch(r"-?\d+(\.\d*)?(e[+-]?\d+)?", field):
        return f"{float(field) + 0.0:.2f}"
    return field.strip("'").rstrip()


def rows_of(path, header):
    """The rows that one SELECT printed, sorted."""
    lines = path.read_text("ascii").splitlines()
    if header:
        start = max(place for place, line in enumerate(lines) if re.match(r"[A-Z]", line) and line != "OK")
        lines = lines[start + 1 :]
    return sorted(tuple(map(value, line.split("|"))) for line in lines if not re.fullmatch(r"\d+ rows( loaded)?", line))


# ---- each program


class Postgres(Cluster):
    def fill(self):
        self.told(f"CREATE TABLE T ({COLUMNS});\nCOPY T FROM '{self.folder}/T.csv' (FORMAT csv);\nVACUUM ANALYZE T;\n")

    def asked(self, workload):
        """The processor seconds of one SELECT, best of the rounds; its rows stay in a file."""
        asked = f"COPY ({workload.query}) TO '{self.folder}/postgres.txt' (DELIMITER '|');\n"
        counted = "\\! cat /proc/$BACKEND/schedstat\n"
        script = "SELECT pg_backend_pid() AS pid \\gset\n\\setenv BACKEND :pid\n" + asked
        script += (counted + asked * workload.times) * 3 + counted
        times = [int(line.split()[0]) / 1e9 for line in self.told(script).splitlines()]
        return min(after - before for before, after in zip(times, times[1:])) / workload.times


def timed(command, name, folder, load, workload, with_script):
    for kind, count in (("load", 0), ("ask", workload.times), ("once", 1)):
        (folder / f"{name}_{kind}.sql").write_text(load + f"{workload.query};\n" * count)
    words = command if with_script else [*command, f"{name}_once.sql"]
    usage_of(words, folder, f"{name}_once.txt", f"{name}_once.sql" if with_script else os.devnull)
    return seconds_of(name, command, folder, workload.times, with_script)


def asked_of_all(program, folder, cluster, workload):
    """Of each program that is there what one SELECT takes, and its rows."""
    create = f"CREATE TABLE T ({COLUMNS});\n"
    told = {}
    if program:
        seconds = timed([program, "run"], "sqlr", folder, create + "LOAD T FROM 'T.csv';\n", workload, False)
        told["sqlr"] = (seconds, rows_of(folder / "sqlr_once.txt", True))
    if SQLITE:
        load = create + ".mode csv\n.import T.csv T\nANALYZE;\n.mode list\n"
        told["sqlite3"] = (timed([SQLITE, ":memory:"], "sqlite", folder, load, workload, True), rows_of(folder / "sqlite_once.txt", False))
    if cluster:
        told["PostgreSQL"] = (cluster.asked(workload), rows_of(folder / "postgres.txt", False))
    return told


NAMES = ("sqlr", "sqlite3", "PostgreSQL")


def line_of(workload, told, names):
    """A line of what a workload takes; and whether all printed the same rows."""
    words = [workload.name, str(len(next(iter(told.values()))[1]))]
    words += [f"{told[name][0] * 1e3:.1f}" if name in told else "-" for name in names]
    ratios = [told["sqlr"][0] / told[peer][0] if "sqlr" in told and peer in told else None for peer in names[1:]]
    words += ["-" if ratio is None else f"{ratio:.3f}" for ratio in ratios]
    missed = any(ratio is not None and most is not None and ratio > most for ratio, most in zip(ratios, workload.allowed))
    same = all(rows == next(iter(told.values()))[1] for _, rows in told.values())
    return " ".join(words + ["MISSED" if missed else "holds"] + [] if same else words + ["OTHER ROWS"]), same


def run(workloads, words, ask, names=NAMES):
    """Asks all whose names begin with one of the words, or all, and tells a line of each; gives whether all printed the same rows."""
    same = True
    print("workload  rows ", *(f"{name}/ms " for name in names), "ratios to them  target")
    for workload in workloads:
        if not words or workload.name.startswith(tuple(words)):
            line, is_same = line_of(workload, ask(workload), names)
            print(line, flush=True)
            same = same and is_same
    return same


def main(workloads, write, asked, server):
    """Writes the records, fills the server if there is one, and ends with status 0 where all printed the same rows."""
    program = pathlib.Path(sys.argv[1]).resolve() if len(sys.argv) > 1 else BUILT
    folder = pathlib.Path(tempfile.mkdtemp())
    try:
        write(folder)
        if not SERVER:
            sys.exit(not run(workloads, sys.argv[2:], lambda it: asked(program, folder, None, it)))
        if os.geteuid() == 0:
            shutil.chown(folder, "postgres")
        with server(folder) as cluster:
            cluster.fill()
            sys.exit(not run(workloads, sys.argv[2:], lambda it: asked(program, folder, cluster, it)))
    finally:
        shutil.rmtree(folder, ignore_errors=True)


if __name__ == "__main__":
    main(WORKLOADS, write_records, asked_of_all, Postgres)
