#!/usr/bin/env python3
"""Times EXPLAIN, which searches for a least plan and writes its certificate, and the check of that certificate, best of three: blocks of
12 and of 14 tables joined as a chain, as a star and all to all (as far as a block's 64 conjuncts go), each table with statistics and an index
that is unique, or has ten rows a key. Joins of ten rows a key grow with each table, and so does what is cheaper than the least plan. Of a
script with some EXPLAINs and one with none the difference is taken, and of a check and that script too. Processor seconds are counted, and the
most memory that a process held.

Beside it stands PostgreSQL's planner on the same joins, with its search over all orders of joins (`join_collapse_limit` high and `geqo` off):
the planning time that EXPLAIN (SUMMARY) tells, best of three, in a cluster of its own under a temporary folder; of 14 tables all to all it would
take minutes, and isn't asked. It needs Debian's package postgresql; without it our figures are printed alone.
"""
import os
import pathlib
import re
import shutil
import subprocess
import sys
import tempfile

from load import PROGRAM

SERVER = next(iter(sorted(pathlib.Path("/usr/lib/postgresql").glob("*/bin"), reverse=True)), None)
TIMES = 3
EXPLAINS = 10
CONJUNCTS = 64
BLOCKS = [(shape, tables, index) for index in ("unique", "tens") for shape in ("chain", "star", "all") for tables in (12, 14)]
ALONE = ("all", 14)


def run(folder, *words):
    """The processor seconds of a run, the most memory that it held, in MiB, and what it printed."""
    with open(folder / "out.txt", "wb") as out:
        child = subprocess.Popen([PROGRAM, *words], cwd=folder, stdout=out)
        _, status, usage = os.wait4(child.pid, 0)
    if status != 0:
        sys.exit(f"{words}: status {status}")
    return usage.ru_utime + usage.ru_stime, usage.ru_maxrss / 1024, (folder / "out.txt").read_text()


def joins(shape, tables):
    """Pairs of columns that are equal."""
    if shape == "chain":
        return [(f"T{t}.Y", f"T{t + 1}.X") for t in range(1, tables)]
    if shape == "star":
        return [(f"T1.S{t}", f"T{t}.X") for t in range(2, tables + 1)]
    pairs = [(t, t + apart) for apart in range(1, tables) for t in range(1, tables - apart + 1)]
    return [(f"T{a}.X", f"T{b}.X") for a, b in pairs[:CONJUNCTS]]


def columns(shape, tables, table):
    sides = "".join(f", S{t} INTEGER" for t in range(2, tables + 1)) if shape == "star" and table == 1 else ""
    return f"(X INTEGER, Y INTEGER{sides})"


def query(shape, tables):
    names = ", ".join(f"T{t}" for t in range(1, tables + 1))
    return f"SELECT T1.X FROM {names} WHERE " + " AND ".join(f"{a} = {b}" for a, b in joins(shape, tables)) + ";"


def made_index(index, t):
    return f"CREATE {'UNIQUE ' if index == 'unique' else ''}INDEX ON T{t} (X);"


def keys(index, t):
    return 1000 * t if index == "unique" else 100 * t


def our_tables(shape, tables, index):
    for t in range(1, tables + 1):
        yield f"CREATE TABLE T{t} {columns(shape, tables, t)}; {made_index(index, t)}"
        yield f"SET STATISTICS T{t} ROWS {1000 * t} PAGES {10 * t}; SET STATISTICS T{t} (X) KEYS {keys(index, t)} PAGES {2 * t};"


def ours(folder, shape, tables, index):
    """The seconds of an EXPLAIN and of a check, the most memory in MiB, and how many states the certificate lists."""
    made = "\n".join(our_tables(shape, tables, index)) + "\n"
    asked = query(shape, tables)
    (folder / "tables.sql").write_text(made)
    (folder / "explains.sql").write_text(made + f"EXPLAIN {asked}\n" * EXPLAINS)
    (folder / "query.sql").write_text(made + asked + "\n")
    nothing = min(run(folder, "run", "tables.sql")[0] for _ in range(TIMES))
    explained = [run(folder, "run", "explains.sql") for _ in range(TIMES)]
    text = explained[0][2]
    certificate = text[text.index("CERTIFICATE") : text.index("END") + 4]
    (folder / "one.certificate").write_text(certificate)
    checked = min(run(folder, "check", "query.sql", "one.certificate")[0] for _ in range(TIMES))
    seconds = (min(it[0] for it in explained) - nothing) / EXPLAINS
    return seconds, checked - nothing, max(it[1] for it in explained), certificate.count("STATE")


def statements(shape, tables, index):
    for t in range(1, tables + 1):
        yield f"CREATE TABLE T{t} {columns(shape, tables, t)};"
        yield made_index(index, t)
        yield f"INSERT INTO T{t} (X, Y) SELECT i % {keys(index, t)}, i FROM generate_series(1, {1000 * t}) i;"
        yield f"ANALYZE T{t};"
    yield "SET join_collapse_limit = 100; SET from_collapse_limit = 100; SET geqo = off;"
    for _ in range(TIMES):
        yield f"EXPLAIN (SUMMARY) {query(shape, tables)}"


def as_postgres(*words, **kept):
    return subprocess.run(["runuser", "-u", "postgres", "--", *map(str, words)], check=True, capture_output=True, text=True, **kept).stdout


def planning(folder, shape, tables, index):
    """The milliseconds that PostgreSQL plans."""
    as_postgres("createdb", "-h", folder, f"{shape}{tables}{index}")
    told = as_postgres("psql", "-q", "-h", folder, "-d", f"{shape}{tables}{index}", "-f", "-", input="\n".join(statements(shape, tables, index)))
    return min(float(time) for time in re.findall(r"Planning Time: ([\d.]+) ms", told))


def peers():
    """The planning times of PostgreSQL by block, none where it isn't here."""
    if SERVER is None:
        return {}
    folder = pathlib.Path(tempfile.mkdtemp())
    try:
        shutil.chown(folder, "postgres")
        data = folder / "data"
        as_postgres(SERVER / "initdb", "-D", data)
        as_postgres(SERVER / "pg_ctl", "-D", data, "-w", "-o", f"-k {folder} -h ''", "-l", folder / "log", "start")
        try:
            return {block: planning(folder, *block) for block in BLOCKS if block[:2] != ALONE}
        finally:
            as_postgres(SERVER / "pg_ctl", "-D", data, "-m", "fast", "stop")
    finally:
        shutil.rmtree(folder, ignore_errors=True)


def main():
    theirs = peers()
    print("block  EXPLAIN/ms  check/ms  PostgreSQL/ms  ratio  states listed  MiB")
    with tempfile.TemporaryDirectory() as name:
        for shape, tables, index in BLOCKS:
            explain, check, held, states = ours(pathlib.Path(name), shape, tables, index)
            peer = theirs.get((shape, tables, index))
            beside = f"{peer:.1f} {explain * 1e3 / peer:.3f}" if peer else "- -"
            print(f"{shape} {tables} {index}: {explain * 1e3:.1f} {check * 1e3:.1f} {beside} {states} {held:.1f}")


if __name__ == "__main__":
    main()
