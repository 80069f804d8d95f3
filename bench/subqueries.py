#!/usr/bin/env python3
"""Times subqueries: ours, sqlite3's and PostgreSQL's in the same run, best of three.

usage: subqueries.py [PROGRAM] [WORKLOAD ..]

Peers, settings and the way of timing are those of joins.py, and rows are compared as groups.py does. BIG has 1,000,000 rows and PART 100,000, or the
shares of them that SUBQUERIES_SCALE says; ITEM has a tenth of BIG's rows, each with a number of its own, a number V that may come again, and N,
which is null in some.
"""
import os
import random

from groups import Postgres, Workload, main, rows_of, timed
from joins import SQLITE

ROWS = max(100, int(1_000_000 * float(os.environ.get("SUBQUERIES_SCALE", "1"))))
TABLES = {
    "BIG": "K INTEGER, K10 INTEGER, V NUMERIC(9,2)",
    "PART": "K INTEGER, K10 INTEGER, V NUMERIC(9,2)",
    "ITEM": "ID INTEGER NOT NULL UNIQUE, V INTEGER, N INTEGER, G INTEGER",
}
INDEXES = "CREATE INDEX ON ITEM (G);\n"
WORKLOADS = [
    Workload("exists-index", "SELECT COUNT(*) FROM PART WHERE EXISTS (SELECT * FROM ITEM WHERE ITEM.ID = PART.K)", (0.2, 1.0)),
    Workload("exists-10", "SELECT COUNT(*) FROM PART WHERE EXISTS (SELECT * FROM ITEM WHERE ITEM.ID = PART.K10)", (None, 0.1)),
    Workload("scalar-average", "SELECT COUNT(*) FROM BIG WHERE V > (SELECT AVG(V) FROM BIG)", (0.5, 0.5)),
    Workload("in-index", "SELECT COUNT(*) FROM PART WHERE K10 IN (SELECT V FROM ITEM WHERE ITEM.G = PART.K)", (None, None)),
    Workload("in-list", "SELECT COUNT(*) FROM BIG WHERE K IN (SELECT V FROM ITEM)", (None, 1.0), 1),
    Workload("not-in-null", "SELECT COUNT(*) FROM BIG WHERE K NOT IN (SELECT N FROM ITEM)", (None, None), 1),
]


def write_records(folder):
    made = random.Random(9)
    items = ROWS // 10
    for name, count in (("BIG", ROWS), ("PART", ROWS // 10)):
        with open(folder / f"{name}.csv", "w", encoding="ascii", newline="") as out:
            for _ in range(count):
                cents = made.randrange(0, 100_000_000)
                out.write(f"{made.randrange(2 * items)},{made.randrange(10)},{cents // 100}.{cents % 100:02}\n")
    with open(folder / "ITEM.csv", "w", encoding="ascii", newline="") as out:
        for number in range(items):
            null = "\\N" if made.randrange(1000) == 0 else str(made.randrange(2 * items))
            out.write(f"{number},{made.randrange(2 * items)},{null},{made.randrange(items)}\n")


def tables():
    return "".join(f"CREATE TABLE {name} ({columns});\n" for name, columns in TABLES.items())


class Server(Postgres):
    def fill(self):
        loads = "".join(f"COPY {name} FROM '{self.folder}/{name}.csv' (FORMAT csv, NULL '\\N');\n" for name in TABLES)
        self.told(tables() + loads + "CREATE INDEX ON ITEM (G);\nVACUUM ANALYZE;\n")


def asked_of_all(program, folder, cluster, workload):
    """Of each program that is there what one SELECT takes, and its rows."""
    told = {}
    if program:
        load = tables() + "".join(f"LOAD {name} FROM '{name}.csv';\n" for name in TABLES) + INDEXES
        told["sqlr"] = (timed([program, "run"], "sqlr", folder, load, workload, False), rows_of(folder / "sqlr_once.txt", True))
    if SQLITE:
        imports = "".join(f".import {name}.csv {name}\n" for name in TABLES)
        nulls = "UPDATE ITEM SET N = NULL WHERE N = '\\N';\n"
        load = tables() + ".mode csv\n" + imports + nulls + "CREATE INDEX ITEM_G ON ITEM (G);\nANALYZE;\n.mode list\n"
        told["sqlite3"] = (timed([SQLITE, ":memory:"], "sqlite", folder, load, workload, True), rows_of(folder / "sqlite_once.txt", False))
    if cluster:
        told["PostgreSQL"] = (cluster.asked(workload), rows_of(folder / "postgres.txt", False))
    return told


if __name__ == "__main__":
    main(WORKLOADS, write_records, asked_of_all, Server)
