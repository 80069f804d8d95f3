#!/usr/bin/env python3
"""Times joins, a range of an index and a filter of two conjuncts: ours, sqlite3's and PostgreSQL's in the same run, best of three.

usage: joins.py [PROGRAM] [WORKLOAD ..]

The program is ./sqlr's, or the one that is named; the workloads are those whose names begin with one of the words given, or all.

Ours and sqlite3 (Debian's package, in memory) have no stored tables, so a script that loads and asks a SELECT some times is timed, and
the script that only loads, and of the difference a part. PostgreSQL (Debian's package postgresql) has a cluster of its own under a
temporary folder, without fsync, with enough memory for its sorts and hash tables, without parallel workers and without JIT; the tables are
loaded and analysed there once, and what counts is the processor time of the session's one backend, as the kernel keeps it, while it writes
the SELECT's rows into a file (COPY TO). sqlite3 has its tables analysed as well. A peer that isn't there is left out. Processor seconds are
counted, user and system. Each text that is printed goes into a file, and its rows, sorted, are compared with the peers'.

A join on a column without an index is to take no longer than either peer, all else at most a third of sqlite3's time.

The memory is that of a run with one SELECT: what the process holds when all is loaded, and its peak from there on. Beside them stand 16
bytes for each composite that the sorts of the plan hold at most, and the text that is printed, which is held as a whole before it goes
out. A peak is never told below what this script held itself when it started the process, some 13 MB. The last column is the plan that
EXPLAIN tells.
"""
import os
import pathlib
import random
import re
import resource
import shutil
import subprocess
import sys
import tempfile
import time
from dataclasses import dataclass

from load import PROGRAM as BUILT

SERVER = next(iter(sorted(pathlib.Path("/usr/lib/postgresql").glob("*/bin"), reverse=True)), None)
SQLITE = shutil.which("sqlite3")
ROUNDS = 3
# The share of the rows that tables have, to try the script out with less.
SCALE = float(os.environ.get("JOINS_SCALE", "1"))
# The processor seconds after which a run is broken off.
PATIENCE = 120
SETTINGS = {
    "fsync": "off",
    "full_page_writes": "off",
    "synchronous_commit": "off",
    "autovacuum": "off",
    "jit": "off",
    "shared_buffers": "2GB",
    "work_mem": "512MB",
    "maintenance_work_mem": "512MB",
    "max_wal_size": "4GB",
    "max_parallel_workers_per_gather": "0",
    "max_parallel_maintenance_workers": "0",
    "listen_addresses": "''",
}


def scaled(count):
    return max(10, int(count * SCALE))


BIG, SMALL, LINKS, MANY = scaled(1_000_000), scaled(100_000), scaled(100_000), scaled(5_000_000)
# Keys of the smaller table lie so far apart.
APART = BIG // 1000


# ---- the records: each table's by a seed of its own, so that they are the same in every run


def shuffled(count, seed):
    numbers = list(range(count))
    random.Random(seed).shuffle(numbers)
    return numbers


def small_records():
    """Each key once, in no order, and a number below a million."""
    made = random.Random(1)
    return ((key * APART, made.randrange(1_000_000)) for key in shuffled(SMALL, 2))


def dense_records():
    """Each a key of the smaller table, and a number below a million."""
    made = random.Random(3)
    return ((made.randrange(SMALL) * APART, made.randrange(1_000_000)) for _ in range(BIG))


def sparse_records():
    """Any number up to the greatest key, of which one in a thousand is a key."""
    made = random.Random(4)
    return ((made.randrange(SMALL * APART), made.randrange(1_000_000)) for _ in range(BIG))


def link_records(seed):
    """Two columns of the same numbers, each in an order of its own."""
    return zip(shuffled(LINKS, seed), shuffled(LINKS, seed + 1))


def rising_records():
    made = random.Random(5)
    return ((key, made.randrange(1_000_000)) for key in range(BIG))


def scattered_records():
    made = random.Random(6)
    return ((key, made.randrange(1_000_000)) for key in shuffled(BIG, 7))


def many_records():
    """Parts of numbers that each come once: a thousandth of them above, and one of so many below."""
    below = MANY // 1000
    numbers = (row * 1_234_577 % MANY for row in range(MANY))
    return ((row, number // below, number % below) for row, number in enumerate(numbers))


# ---- what is asked


@dataclass(frozen=True)
class Table:
    """A table's columns, all INTEGER, and what makes its records; and how many those are."""

    columns: tuple
    records: object
    rows: int


TABLES = {
    "SMALL": Table(("B", "W"), small_records, SMALL),
    "DENSE": Table(("A", "V"), dense_records, BIG),
    "SPARSE": Table(("A", "V"), sparse_records, BIG),
    "C1": Table(("X", "Y"), lambda: link_records(11), LINKS),
    "C2": Table(("X", "Y"), lambda: link_records(21), LINKS),
    "C3": Table(("X", "Y"), lambda: link_records(31), LINKS),
    "C4": Table(("X", "Y"), lambda: link_records(41), LINKS),
    "RISING": Table(("K", "V"), rising_records, BIG),
    "SCATTERED": Table(("K", "V"), scattered_records, BIG),
    "MANY": Table(("I", "N", "M"), many_records, MANY),
}


@dataclass(frozen=True)
class Workload:
    """A SELECT of some tables with some indexes (whether unique, the table, the column), what it may take beside sqlite3 and
    PostgreSQL, and how many times ours and the peers are asked in one run. The rows that a table hands on are told where they are fewer
    than all."""

    name: str
    tables: tuple
    indexes: tuple
    query: str
    allowed: tuple
    ours: int
    theirs: int
    kept: tuple = ()


AS_FAST = (1, 1)
A_THIRD = (1 / 3, None)
ALL = "SELECT A, V, W FROM DENSE, SMALL WHERE A = B"
# Both numbers lie evenly below a million: one V in a thousand is below the first of these, and the sum of one pair in a thousand below the
# second.
OWN = ALL + " AND V < 1000"
PAIR = ALL + " AND V + W < 44721"
APART_KEYS = "SELECT A, V, W FROM SPARSE, SMALL WHERE A = B"
UNIQUE = ((True, "SMALL", "B"),)
CHAIN = ("C1", "C2", "C3", "C4")
LINKED = "SELECT C1.X, C4.Y FROM C1, C2, C3, C4 WHERE C1.Y = C2.X AND C2.Y = C3.X AND C3.Y = C4.X"
EACH_X = tuple((False, table, "X") for table in CHAIN)
FROM, TO = BIG // 2, BIG // 2 + BIG // 100 - 1
KEPT = TO - FROM + 1


def ranged(name, table, condition):
    """One row in a hundred of a table with an index on K."""
    query = f"SELECT K, V FROM {table} WHERE {condition}"
    return Workload(name, (table,), ((False, table, "K"),), query, A_THIRD, 40, 200, ((table, KEPT),))


WORKLOADS = [
    Workload("plain-sparse", ("SPARSE", "SMALL"), (), APART_KEYS, AS_FAST, 3, 3),
    Workload("plain-own", ("DENSE", "SMALL"), (), OWN, AS_FAST, 3, 3),
    Workload("plain-pair", ("DENSE", "SMALL"), (), PAIR, AS_FAST, 3, 3),
    Workload("plain-all", ("DENSE", "SMALL"), (), ALL, AS_FAST, 2, 2),
    Workload("unique-sparse", ("SPARSE", "SMALL"), UNIQUE, APART_KEYS, A_THIRD, 3, 3),
    Workload("unique-own", ("DENSE", "SMALL"), UNIQUE, OWN, A_THIRD, 3, 20),
    Workload("unique-pair", ("DENSE", "SMALL"), UNIQUE, PAIR, A_THIRD, 3, 3),
    Workload("unique-all", ("DENSE", "SMALL"), UNIQUE, ALL, A_THIRD, 2, 2),
    Workload("chain-all", CHAIN, EACH_X, LINKED, A_THIRD, 5, 5),
    Workload("chain-few", CHAIN, EACH_X, f"{LINKED} AND C1.X < {LINKS // 100}", A_THIRD, 100, 100, (("C1", LINKS // 100),)),
    ranged("range-rising", "RISING", f"K BETWEEN {FROM} AND {TO}"),
    ranged("range-scattered", "SCATTERED", f"K BETWEEN {FROM} AND {TO}"),
    ranged("range-of-two", "SCATTERED", f"K >= {FROM} AND K <= {TO}"),
    Workload("filter", ("MANY",), (), "SELECT I, N, M FROM MANY WHERE N = 7 AND M < 10", A_THIRD, 100, 5, (("MANY", 10),)),
]


def created(workload, indexed):
    """The statements that make a workload's tables; and its indexes, where a name is told for each."""
    for table in workload.tables:
        columns = ", ".join(f"{column} INTEGER" for column in TABLES[table].columns)
        yield f"CREATE TABLE {table} ({columns});\n"
    for place, (unique, table, column) in enumerate(workload.indexes):
        yield f"CREATE {'UNIQUE ' if unique else ''}INDEX {indexed(place)}ON {table} ({column});\n"


def write_file(folder, table):
    """A table's records, written where they aren't yet. A process of its own does it, so that this one stays small: what a child has held
    at most begins with its parent's memory."""
    path = folder / f"{table}.csv"
    if path.exists():
        return
    writer = os.fork()
    if writer == 0:
        with open(path, "w", encoding="ascii", newline="") as out:
            out.writelines(",".join(map(str, record)) + "\n" for record in TABLES[table].records())
        os._exit(0)
    if os.waitpid(writer, 0)[1] != 0:
        sys.exit(f"{path} can't be written")


# ---- what is printed


def rows_printed(text, times):
    """How many rows each of so many SELECTs printed, and a sum of the last one's rows, sorted. Rows have a bar, and other lines of
    numbers have none. Other programs do it, so that this one stays small."""
    quoted = f"'{text}'"
    rows = r"grep -E '^-?[0-9]+(\|-?[0-9]+)+$' "
    count, rest = divmod(int(shell(f"{rows} {quoted} | wc -l")), times)
    if rest:
        sys.exit(f"{text}: {count * times + rest} rows of {times} SELECTs")
    return count, shell(f"{rows} {quoted} | tail -n {count} | LC_ALL=C sort | sha256sum").split()[0]


def shell(line):
    return subprocess.run(["bash", "-c", line], check=True, capture_output=True, text=True).stdout


# ---- ours and sqlite3


def set_limit():
    resource.setrlimit(resource.RLIMIT_CPU, (PATIENCE, PATIENCE))


def started(command, folder, out, script=os.devnull):
    """A process of a command that prints into a file."""
    with open(folder / out, "wb") as printed, open(folder / script, "rb") as given:
        kept = {"stdin": given, "stdout": printed, "stderr": subprocess.DEVNULL}
        return subprocess.Popen(command, cwd=folder, preexec_fn=set_limit, **kept)


def usage_of(command, folder, out, script=os.devnull):
    """The processor seconds of a command that prints into a file; `None` where it takes too long."""
    child = started(command, folder, out, script)
    _, status, usage = os.wait4(child.pid, 0)
    child.returncode = os.waitstatus_to_exitcode(status)
    took = usage.ru_utime + usage.ru_stime
    if os.WIFSIGNALED(status) and took >= PATIENCE - 1:
        return None
    if status != 0:
        sys.exit(f"{command[0]}: status {status}")
    return took


def seconds_of(name, command, folder, times, with_script):
    """The seconds of one of so many SELECTs, best of the rounds: of a run that asks them, less one that only loads."""
    best = {}
    for kind in ("load", "ask") * ROUNDS:
        script = f"{name}_{kind}.sql"
        words, given = (command, script) if with_script else ([*command, script], os.devnull)
        took = usage_of(words, folder, f"{name}_{kind}.txt", given)
        if took is None:
            return None
        best[kind] = min(took, best.get(kind, took))
    return (best["ask"] - best["load"]) / times


def write_ours(folder, workload):
    """Our scripts: one that loads, one that asks as well, one that tells the plan, and one that asks once, behind a named pipe."""
    load = "".join(created(workload, lambda place: ""))
    load += "".join(f"LOAD {table} FROM '{table}.csv';\n" for table in workload.tables)
    (folder / "sqlr_load.sql").write_text(load)
    (folder / "sqlr_ask.sql").write_text(load + f"{workload.query};\n" * workload.ours)
    (folder / "sqlr_plan.sql").write_text(load + f"EXPLAIN {workload.query};\n")
    (folder / "sqlr_held.sql").write_text(f"CREATE TABLE NONE (A INTEGER);\n{load}LOAD NONE FROM 'none.pipe';\n{workload.query};\n")


def ours(program, folder, workload):
    write_ours(folder, workload)
    return seconds_of("sqlr", [program, "run"], folder, workload.ours, False)


def plan_of(program, folder):
    """The plan that is told."""
    usage_of([program, "run", "sqlr_plan.sql"], folder, "sqlr_plan.txt")
    return re.search(r"(?m)^PLAN (.*)$", (folder / "sqlr_plan.txt").read_text())[1]


def theirs_in_memory(folder, workload):
    load = "".join(created(workload, lambda place: f"I{place} "))
    load += ".mode csv\n" + "".join(f".import {table}.csv {table}\n" for table in workload.tables) + "ANALYZE;\n.mode list\n.headers on\n"
    (folder / "sqlite_load.sql").write_text(load)
    (folder / "sqlite_ask.sql").write_text(load + f"{workload.query};\n" * workload.theirs)
    return seconds_of("sqlite", [SQLITE, ":memory:"], folder, workload.theirs, True)


# ---- memory


def held(program, folder):
    """What the process holds when all is loaded, and the most from there on, in bytes. It then waits for a named pipe: there the most is
    set back to what it holds, and a record goes through."""
    pipe = folder / "none.pipe"
    pipe.unlink(missing_ok=True)
    os.mkfifo(pipe)
    child = started([program, "run", "sqlr_held.sql"], folder, "sqlr_held.txt")
    with open_for(child, pipe) as out:
        loaded = resident(child.pid)
        pathlib.Path(f"/proc/{child.pid}/clear_refs").write_text("5")
        out.write("1\n")
    _, status, usage = os.wait4(child.pid, 0)
    if status != 0:
        sys.exit(f"{program}: status {status}")
    return loaded, usage.ru_maxrss * 1024


def open_for(child, pipe):
    """A named pipe, opened when the process reads it."""
    while True:
        try:
            return os.fdopen(os.open(pipe, os.O_WRONLY | os.O_NONBLOCK), "w")
        except OSError:
            if os.waitpid(child.pid, os.WNOHANG)[0]:
                sys.exit("sqlr ended before it had loaded all")
            time.sleep(0.005)


def resident(process):
    """The memory that a process holds, in bytes."""
    status = pathlib.Path(f"/proc/{process}/status").read_text()
    return int(re.search(r"(?m)^VmRSS:\s*(\d+) kB", status)[1]) * 1024


def composites_sorted(workload, plan, printed):
    """How many composites the sorts of a plan hold at most, the sorted inner sides of merges among them."""
    kept = {table: TABLES[table].rows for table in workload.tables} | dict(workload.kept)
    count = 0
    for inner in re.findall(r"SORTED \w+ (\d+)", plan):
        count += TABLES[workload.tables[int(inner) - 1]].rows
    for start in (found.end() for found in re.finditer(r"SORT\(", plan)):
        there = {workload.tables[int(number) - 1] for number in re.findall(r"(?:SEG|IDX|MATCH) (\d+)", balanced(plan[start:]))}
        # A row goes with one of the next table at most.
        count += printed if len(there) == len(workload.tables) else min(kept[table] for table in there)
    return count


def balanced(text):
    """A beginning of a text up to the bracket that closes what is open."""
    open_ones = 1
    for place, character in enumerate(text):
        open_ones += {"(": 1, ")": -1}.get(character, 0)
        if open_ones == 0:
            return text[:place]
    return text


# ---- PostgreSQL


def as_postgres(*words, **kept):
    user = ["runuser", "-u", "postgres", "--"] if os.geteuid() == 0 else []
    return subprocess.run([*user, *map(str, words)], check=True, capture_output=True, text=True, **kept).stdout


class Cluster:
    """A PostgreSQL server of its own, which ends with the block that it is made for."""

    def __init__(self, folder):
        self.folder = folder
        self.data = folder / "data"

    def __enter__(self):
        settings = " ".join(f"-c {name}={value}" for name, value in SETTINGS.items())
        as_postgres(SERVER / "initdb", "-D", self.data, "--no-sync")
        as_postgres(SERVER / "pg_ctl", "-D", self.data, "-w", "-o", f"-k {self.folder} {settings}", "-l", self.folder / "log", "start")
        return self

    def __exit__(self, *_):
        as_postgres(SERVER / "pg_ctl", "-D", self.data, "-m", "fast", "stop")

    def told(self, script):
        """What a script of psql prints."""
        return as_postgres("psql", "-q", "-A", "-t", "-v", "ON_ERROR_STOP=1", "-h", self.folder, "-d", "postgres", "-f", "-", input=script)

    def seconds(self, workload):
        """The processor seconds of one SELECT, best of the rounds, and the plan; the last rows stay in a file."""
        self.told("".join(self.filled(workload)))
        asked = f"COPY ({workload.query}) TO '{self.folder}/postgres.txt' (DELIMITER '|');\n"
        counted = "\\! cat /proc/$BACKEND/schedstat\n"
        script = "SELECT pg_backend_pid() AS pid \\gset\n\\setenv BACKEND :pid\n" + asked
        script += (counted + asked * workload.theirs) * ROUNDS + counted
        # The kernel tells nanoseconds on a processor, and two other figures.
        times = [int(line.split()[0]) / 1e9 for line in self.told(script).splitlines()]
        best = min(after - before for before, after in zip(times, times[1:])) / workload.theirs
        self.told("".join(f"DROP TABLE {table};\n" for table in workload.tables))
        return best

    def filled(self, workload):
        yield from created(workload, lambda place: "")
        for table in workload.tables:
            yield f"COPY {table} FROM '{self.folder}/{table}.csv' (FORMAT csv);\n"
            yield f"VACUUM ANALYZE {table};\n"


# ---- all together


@dataclass
class Told:
    """What is told of a program: the seconds of one SELECT, and what it printed."""

    seconds: float
    rows: tuple


def asked_of_all(program, folder, cluster, workload):
    """What each program that is there takes and prints."""
    told = {}
    if program:
        told["sqlr"] = Told(ours(program, folder, workload), ())
    if SQLITE:
        told["sqlite3"] = Told(theirs_in_memory(folder, workload), ())
    if cluster:
        told["PostgreSQL"] = Told(cluster.seconds(workload), rows_printed(folder / "postgres.txt", 1))
    for name, text, times in (("sqlr", "sqlr_ask.txt", workload.ours), ("sqlite3", "sqlite_ask.txt", workload.theirs)):
        if name in told and told[name].seconds is not None:
            told[name].rows = rows_printed(folder / text, times)
    return told


def judged(workload, told):
    """The ratios to the peers, and whether they are allowed."""
    mine = told.get("sqlr")
    shown, holds = [], True
    for peer, allowed in zip(("sqlite3", "PostgreSQL"), workload.allowed):
        if not mine or mine.seconds is None or peer not in told or told[peer].seconds is None:
            shown.append("-")
            holds = holds and (not mine or mine.seconds is not None)
            continue
        ratio = mine.seconds / told[peer].seconds
        shown.append(f"{ratio:.3f}")
        holds = holds and (allowed is None or ratio <= allowed)
    return shown + ["-" if not mine else "holds" if holds else "MISSED"]


def line_of(program, folder, cluster, workload):
    """A line of what a workload takes, and whether all printed the same rows."""
    for table in workload.tables:
        write_file(folder, table)
    told = asked_of_all(program, folder, cluster, workload)
    prints = {each.rows for each in told.values() if each.rows}
    printed = next(iter(prints))[0]
    names = ("sqlr", "sqlite3", "PostgreSQL")
    took = [f"{told[name].seconds * 1e3:.1f}" if name in told and told[name].seconds is not None else "-" for name in names]
    words = [workload.name, str(printed), *took, *judged(workload, told)]
    if "sqlr" in told:
        plan = plan_of(program, folder)
        figures = ["-", "-"] if told["sqlr"].seconds is None else [f"{size / 1e6:.1f}" for size in held(program, folder)]
        sorts = 16 * composites_sorted(workload, plan, printed) / 1e6
        text = (folder / "sqlr_held.txt").stat().st_size / 1e6
        words += [*figures, f"{sorts:.1f}", f"{text:.1f}", plan]
    if len(prints) != 1:
        words.append("OTHER ROWS: " + ", ".join(name for name in told if told[name].rows))
    return " ".join(words), len(prints) == 1


def run(program, words, folder, cluster):
    """The lines of the workloads that are asked for; whether all printed the same."""
    same = True
    print("workload  rows  sqlr/ms  sqlite3/ms  PostgreSQL/ms  ratios to them  target  loaded/MB  peak/MB  sorts/MB  text/MB  plan")
    for workload in WORKLOADS:
        if not words or workload.name.startswith(tuple(words)):
            line, is_same = line_of(program, folder, cluster, workload)
            print(line, flush=True)
            same = same and is_same
    return same


def main():
    program = pathlib.Path(sys.argv[1]).resolve() if len(sys.argv) > 1 else BUILT
    if not program.exists():
        print(f"{program} isn't there: the peers alone")
        program = None
    for name, there in (("sqlite3", SQLITE), ("PostgreSQL", SERVER)):
        if not there:
            print(f"{name} isn't there: it is left out")
    folder = pathlib.Path(tempfile.mkdtemp())
    try:
        if not SERVER:
            sys.exit(not run(program, sys.argv[2:], folder, None))
        if os.geteuid() == 0:
            shutil.chown(folder, "postgres")
        with Cluster(folder) as cluster:
            sys.exit(not run(program, sys.argv[2:], folder, cluster))
    finally:
        shutil.rmtree(folder, ignore_errors=True)


if __name__ == "__main__":
    main()
