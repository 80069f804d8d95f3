#!/usr/bin/env python3
"""Times the works that a data team asks of an engine: ours, sqlite3's, PostgreSQL's, ClickHouse's and data.table's in the same run, best of
three.

usage: all.py [PROGRAM] [WORKLOAD ..]

Settings and the way of timing are those of joins.py and of columnar.py, but that ours are by the program's --timing; rows are compared as
groups.py does. FACT has 1,000,000 rows, DIM 100,000, SCAN 5,000,000, or the shares of them that ALL_SCALE says; D1, D2 and D3 have 1,000 rows
each, OUTER_ROWS 2,000 and INNER_ROWS 20,000. A goal is a ratio to PostgreSQL in the same run: what is aimed at divided by what PostgreSQL took
where the aim was set. LOAD is that of a file of some 50 MB. A peer that isn't there is left out, and so is a work that can't be asked of it.
"""
import contextlib
import os
import pathlib
import random
import re
import shutil
import subprocess
import sys
import tempfile

import columnar
from groups import BUILT, NAMES, Postgres, Workload, rows_of, run, timed
from joins import ROUNDS, SERVER, SQLITE, usage_of

SCALE = float(os.environ.get("ALL_SCALE", "1"))
FACTS, DIMENSIONS, SCANNED = (max(1000, int(count * SCALE)) for count in (1_000_000, 100_000, 5_000_000))
TABLES = {
    "FACT": "ID INTEGER, D INTEGER, A1 INTEGER, A2 INTEGER, A3 INTEGER, K10 INTEGER, K1000 INTEGER, K100000 INTEGER, V NUMERIC(9,2), C CHAR(10)",
    "DIM": "ID INTEGER NOT NULL, W INTEGER",
    "KEYED": "ID INTEGER NOT NULL UNIQUE, W INTEGER",
    "D1": "ID INTEGER NOT NULL, W INTEGER",
    "D2": "ID INTEGER NOT NULL, W INTEGER",
    "D3": "ID INTEGER NOT NULL, W INTEGER",
    "SCAN": "N INTEGER",
    "OUTER_ROWS": "K INTEGER",
    "INNER_ROWS": "K INTEGER",
}


def asked(name, query, aim=None, times=3):
    """A SELECT, and the milliseconds that are aimed at beside those that PostgreSQL took there."""
    return Workload(name, query, (None, aim[0] / aim[1] if aim else None), times)


WORKLOADS = [
    asked("scan-0.1", f"SELECT COUNT(*) FROM SCAN WHERE N < {SCANNED // 1000}", (6, 866)),
    asked("scan-10", f"SELECT COUNT(*) FROM SCAN WHERE N < {SCANNED // 10}", (7, 917)),
    asked("scan-90", f"SELECT COUNT(*) FROM SCAN WHERE N < {SCANNED // 10 * 9}", (8, 1240)),
    asked("join", "SELECT COUNT(*) FROM FACT, DIM WHERE FACT.D = DIM.ID", (45, 794)),
    asked("join-unique", "SELECT COUNT(*) FROM FACT, KEYED WHERE FACT.D = KEYED.ID", (45, 747)),
    asked("star", "SELECT COUNT(*) FROM FACT, D1, D2, D3 WHERE A1 = D1.ID AND A2 = D2.ID AND A3 = D3.ID AND D1.W < 500", (80, 377)),
    asked("group-10", "SELECT K10, SUM(V), COUNT(*) FROM FACT GROUP BY K10", (45, 580)),
    asked("group-1000", "SELECT K1000, SUM(V), COUNT(*) FROM FACT GROUP BY K1000", (50, 610)),
    asked("group-100000", "SELECT K100000, SUM(V), COUNT(*) FROM FACT GROUP BY K100000", (60, 1260)),
    asked("aggregates", "SELECT AVG(V), MIN(V), MAX(V) FROM FACT", (6, 309), 10),
    asked("distinct-1000", "SELECT DISTINCT K1000 FROM FACT", (14, 399)),
    asked("distinct-100000", "SELECT DISTINCT K100000 FROM FACT", (24, 645)),
    asked("count-distinct", "SELECT COUNT(DISTINCT D) FROM FACT", (50, 437)),
    asked("order-number", "SELECT D FROM FACT ORDER BY D", (75, 1180), 2),
    asked("order-text", "SELECT C FROM FACT ORDER BY C DESC", (125, 1360), 2),
    asked("exists-index", "SELECT COUNT(*) FROM DIM WHERE EXISTS (SELECT * FROM KEYED WHERE KEYED.ID = DIM.W)", (100, 247)),
    asked("exists", "SELECT COUNT(*) FROM OUTER_ROWS WHERE EXISTS (SELECT * FROM INNER_ROWS WHERE INNER_ROWS.K = OUTER_ROWS.K)", (3, 5.6), 1),
    asked("in-list", "SELECT COUNT(*) FROM FACT WHERE D IN (SELECT W FROM D1)", (8, 275)),
    asked("above-average", "SELECT COUNT(*) FROM FACT WHERE V > (SELECT AVG(V) FROM FACT)", (12, 713)),
    asked("or", "SELECT COUNT(*) FROM FACT WHERE K10 = 3 OR K1000 < 100"),
    asked("arithmetic", "SELECT COUNT(*) FROM FACT WHERE K10 * 2 + K1000 < 500"),
    asked("like", "SELECT COUNT(*) FROM FACT WHERE C LIKE '%ab%'", (12, 269)),
    asked("load", "", (450, 1960), 1),
]

PEERS = (*NAMES, "ClickHouse", "data.table")
# Where ClickHouse wants other words: None where it can't be asked.
CLICKHOUSE = {
    "join": "SELECT COUNT(*) FROM FACT ALL INNER JOIN DIM ON D = ID",
    "join-unique": "SELECT COUNT(*) FROM FACT ALL INNER JOIN KEYED ON D = ID",
    "star": None,
    "aggregates": "SELECT AVG(toFloat64(V)), MIN(V), MAX(V) FROM FACT",
    "exists-index": None,
    "exists": None,
    "above-average": "SELECT COUNT(*) FROM FACT WHERE toFloat64(V) > (SELECT AVG(toFloat64(V)) FROM FACT)",
}
DATA_TABLE = {
    "scan-0.1": f"SCAN[N < {SCANNED // 1000}, .N]",
    "scan-10": f"SCAN[N < {SCANNED // 10}, .N]",
    "scan-90": f"SCAN[N < {SCANNED // 10 * 9}, .N]",
    "join": "DIM[FACT, on = .(ID = D), nomatch = NULL, .N]",
    "join-unique": "KEYED[FACT, on = .(ID = D), nomatch = NULL, .N]",
    "star": "D3[D2[D1[W < 500][FACT, on = .(ID = A1), nomatch = NULL], on = .(ID = A2), nomatch = NULL], on = .(ID = A3), nomatch = NULL, .N]",
    "group-10": "FACT[, .(sum(V), .N), by = K10]",
    "group-1000": "FACT[, .(sum(V), .N), by = K1000]",
    "group-100000": "FACT[, .(sum(V), .N), by = K100000]",
    "aggregates": "FACT[, .(mean(V), min(V), max(V))]",
    "distinct-1000": "unique(FACT[, .(K1000)])",
    "distinct-100000": "unique(FACT[, .(K100000)])",
    "count-distinct": "FACT[, uniqueN(D)]",
    "order-number": "FACT[order(D), .(D)]",
    "order-text": "FACT[order(C, decreasing = TRUE), .(C)]",
    "exists-index": "DIM[W %in% KEYED$ID, .N]",
    "exists": "OUTER_ROWS[K %in% INNER_ROWS$K, .N]",
    "in-list": "FACT[D %in% D1$W, .N]",
    "above-average": "FACT[V > mean(V), .N]",
    "or": "FACT[K10 == 3 | K1000 < 100, .N]",
    "arithmetic": "FACT[K10 * 2 + K1000 < 500, .N]",
    "like": "FACT[grepl('ab', C, fixed = TRUE), .N]",
}


def write_table(folder, name, records):
    with open(folder / f"{name}.csv", "w", encoding="ascii", newline="") as out:
        out.writelines(",".join(map(str, record)) + "\n" for record in records)


def fact_records(made):
    letters = "abcdefghijklmnopqrstuvwxyz"
    for number in range(FACTS):
        cents = made.randrange(-99_999_999, 100_000_000)
        value = f"{'-' * (cents < 0)}{abs(cents) // 100}.{abs(cents) % 100:02}"
        keys = [made.randrange(many) for many in (DIMENSIONS, 1000, 1000, 1000, 10, 1000, 100_000)]
        yield [number, *keys, value, "".join(made.choices(letters, k=10))]


def write_records(folder):
    made = random.Random(10)
    write_table(folder, "FACT", fact_records(made))
    numbers = list(range(DIMENSIONS))
    made.shuffle(numbers)
    for name in ("DIM", "KEYED"):
        write_table(folder, name, ((number, made.randrange(2 * DIMENSIONS)) for number in numbers))
    for name in ("D1", "D2", "D3"):
        write_table(folder, name, ((number, made.randrange(1000)) for number in range(1000)))
    write_table(folder, "SCAN", ((number * 1_234_577 % SCANNED,) for number in range(SCANNED)))
    write_table(folder, "OUTER_ROWS", ((made.randrange(40_000),) for _ in range(2000)))
    write_table(folder, "INNER_ROWS", ((made.randrange(40_000),) for _ in range(20_000)))


def used(workload):
    """The tables that a workload names, with their columns."""
    words = set(re.findall(r"\w+", workload.query)) if workload.query else {"FACT"}
    return {name: columns for name, columns in TABLES.items() if name in words}


def created(tables):
    return "".join(f"CREATE TABLE {name} ({columns});\n" for name, columns in tables.items())


class Server(Postgres):
    def fill(self):
        self.told(created(TABLES) + "".join(self.copied(name) for name in TABLES) + "VACUUM ANALYZE;\n")

    def copied(self, name):
        return f"COPY {name} FROM '{self.folder}/{name}.csv' (FORMAT csv);\n"

    def loaded(self):
        """The processor seconds of a COPY of FACT into a table of its own."""
        counted = "\\! cat /proc/$BACKEND/schedstat\n"
        script = "SELECT pg_backend_pid() AS pid \\gset\n\\setenv BACKEND :pid\n"
        script += f"CREATE TABLE LOADED ({TABLES['FACT']});\n" + counted + self.copied("FACT").replace("COPY FACT", "COPY LOADED") + counted
        before, after = (int(line.split()[0]) / 1e9 for line in self.told(script + "DROP TABLE LOADED;\n").splitlines())
        return after - before


def load_script(tables, for_sqlite):
    if for_sqlite:
        return created(tables) + ".mode csv\n" + "".join(f".import {it}.csv {it}\n" for it in tables) + "ANALYZE;\n.mode list\n"
    return created(tables) + "".join(f"LOAD {it} FROM '{it}.csv';\n" for it in tables)


def timed_by_itself(program, folder, load, workload):
    """The seconds of one SELECT by the program's --timing, best of all that the rounds ask: its own clock, since a difference of whole runs
    has in it what LOAD varies by."""
    (folder / "sqlr_ask.sql").write_text(load + f"{workload.query};\n" * workload.times)
    best = []
    for _ in range(ROUNDS):
        with open(folder / "sqlr_ask.txt", "wb") as out:
            ran = subprocess.run([program, "run", "--timing", "sqlr_ask.sql"], cwd=folder, stdout=out, stderr=subprocess.PIPE, check=True)
        best += [float(it) for it in re.findall(rb"sqlr: ([0-9.]+) s", ran.stderr)[-workload.times :]]
    return min(best)


def loads_of_all(program, folder, cluster, house, tables):
    """What a run takes that loads and asks nothing; of PostgreSQL its COPY alone, of ClickHouse its INSERT, of data.table its fread."""
    told = {}
    for name, command, with_script in (("sqlr", [program, "run"], False), ("sqlite3", [SQLITE, ":memory:"], True)):
        if command[0]:
            script = f"{name}_load.sql"
            (folder / script).write_text(load_script(tables, with_script).replace("ANALYZE;\n", ""))
            words, given = (command, script) if with_script else ([*command, script], os.devnull)
            told[name] = (min(usage_of(words, folder, "load.txt", given) for _ in range(ROUNDS)), [])
    if cluster:
        told["PostgreSQL"] = (min(cluster.loaded() for _ in range(ROUNDS)), [])
    if house:
        told["ClickHouse"] = (house.loaded("FACT"), [])
    if columnar.has_data_table():
        told["data.table"] = (columnar.data_table_loaded(folder, "FACT"), [])
    return told


def asked_of_all(program, folder, cluster, house, workload):
    """Of each program that is there what one SELECT takes, and its rows."""
    tables = used(workload)
    if not workload.query:
        return loads_of_all(program, folder, cluster, house, tables)
    told = {}
    if program:
        told["sqlr"] = (timed_by_itself(program, folder, load_script(tables, False), workload), rows_of(folder / "sqlr_ask.txt", True))
    if SQLITE:
        seconds = timed([SQLITE, ":memory:"], "sqlite", folder, load_script(tables, True), workload, True)
        told["sqlite3"] = (seconds, rows_of(folder / "sqlite_once.txt", False))
    if cluster:
        told["PostgreSQL"] = (cluster.asked(workload), rows_of(folder / "postgres.txt", False))
    if house and CLICKHOUSE.get(workload.name, workload.query):
        seconds, rows = house.asked(CLICKHOUSE.get(workload.name, workload.query))
        told["ClickHouse"] = (seconds, rows_of(rows, False))
    if workload.name in DATA_TABLE and columnar.has_data_table():
        seconds, rows = columnar.data_table_asked(folder, tables, DATA_TABLE[workload.name], workload.times)
        told["data.table"] = (seconds, rows_of(rows, False))
    return told


def main():
    """Writes the records, fills the servers that there are, and ends with status 0 where all printed the same rows."""
    program = pathlib.Path(sys.argv[1]).resolve() if len(sys.argv) > 1 else BUILT
    folder = pathlib.Path(tempfile.mkdtemp())
    with contextlib.ExitStack() as peers:
        peers.callback(shutil.rmtree, folder, ignore_errors=True)
        write_records(folder)
        cluster = house = None
        if SERVER:
            if os.geteuid() == 0:
                shutil.chown(folder, "postgres")
            cluster = peers.enter_context(Server(folder))
            cluster.fill()
        if columnar.SERVER and columnar.CLIENT:
            house = peers.enter_context(columnar.ClickHouse(folder, TABLES))
        same = run(WORKLOADS, sys.argv[2:], lambda it: asked_of_all(program, folder, cluster, house, it), PEERS)
    sys.exit(not same)


if __name__ == "__main__":
    main()
