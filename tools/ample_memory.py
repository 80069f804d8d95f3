#!/usr/bin/env python3
"""Runs a script over 200,000 rows, which has to end, and compares its answers with those of SQLite.

usage: ample_memory.py PROGRAM

That want of memory is told only where memory was refused, no contract can say: a body that claims it falsely is seen by runs that have
ample memory and are long enough. So each thing that grows is grown here: sums and averages, lists of distinct rows and of distinct values,
sorts by columns and by other values, groups, lists of IN, a join with a sort, a unique index, and a table printed whole. Numbers with digits behind the point are given to
SQLite in their least units, and texts without padding. The status is 1 where an answer is another, or the script doesn't end well.
"""
import pathlib
import random
import sqlite3
import subprocess
import sys
import tempfile

ROWS, OTHER_ROWS, SEED = 200_000, 50_000, 1992
SCRIPT = """CREATE TABLE T (K INTEGER NOT NULL PRIMARY KEY, G SMALLINT, V NUMERIC(12,2), C CHAR(48));
LOAD T FROM 't.csv';
CREATE TABLE U (K INTEGER NOT NULL, W INTEGER);
LOAD U FROM 'u.csv';
CREATE INDEX ON T (C, V);
"""
# A query, that of SQLite where it says the same in another way, and how many digits behind the point each result column has there.
QUERIES = [
    ("SELECT SUM(V), COUNT(*), COUNT(V), MIN(V), MAX(C) FROM T", None, (2, 0, 0, 2, None)),
    ("SELECT AVG(V) FROM T", "SELECT SUM(V) * 10000 / COUNT(V) FROM T", (6,)),
    ("SELECT COUNT(DISTINCT C), COUNT(DISTINCT V), SUM(DISTINCT V) FROM T", None, (0, 0, 2)),
    ("SELECT DISTINCT C FROM T", None, (None,)),
    ("SELECT DISTINCT G, V FROM T", None, (0, 2)),
    ("SELECT C, COUNT(*), SUM(V), MIN(K) FROM T GROUP BY C", None, (None, 0, 2, 0)),
    ("SELECT G, COUNT(DISTINCT C) FROM T GROUP BY G HAVING COUNT(*) > 1", None, (0, 0)),
    ("SELECT K, C FROM T ORDER BY C DESC, K", None, (0, None)),
    ("SELECT V, K FROM T ORDER BY V, K DESC", None, (2, 0)),
    ("SELECT V * 2 AS X, K FROM T ORDER BY X, K", None, (2, 0)),
    ("SELECT K FROM T WHERE K IN (SELECT W FROM U)", None, (0,)),
    ("SELECT T.K, W FROM T, U WHERE V = W", "SELECT T.K, W FROM T, U WHERE V = W * 100", (0, 0)),
    ("SELECT COUNT(*) FROM T, U WHERE T.K = U.W", None, (0,)),
    ("SELECT COUNT(*) FROM T WHERE V > (SELECT AVG(V) FROM T)", "SELECT COUNT(*) FROM T WHERE V * (SELECT COUNT(V) FROM T) > (SELECT SUM(V) FROM T)", (0,)),
    ("SELECT * FROM T", None, (0, 0, 2, None)),
]


def made_rows():
    """The rows of both tables; numbers of V in hundredths, and nulls as None."""
    dice = random.Random(SEED)
    keys = dice.sample(range(1, 10 * ROWS), ROWS)
    texts = [f"a text of more than forty characters {number:08}" for number in range(ROWS)]
    rows = [
        (
            key,
            dice.choice([None, *range(-500, 500)]),
            None if dice.random() < 0.02 else dice.randint(-10**7, 10**7),
            None if dice.random() < 0.02 else dice.choice(texts),
        )
        for key in keys
    ]
    return rows, [(number, None if dice.random() < 0.05 else dice.choice(keys)) for number in range(OTHER_ROWS)]


def with_point(units, scale):
    """A number of least units as it is written."""
    digits = f"{abs(units):0{scale + 1}}"
    sign = "-" if units < 0 else ""
    return f"{sign}{digits[:-scale]}.{digits[-scale:]}" if scale else f"{sign}{digits}"


def as_field(value, scale):
    if value is None:
        return "\\N"
    return value if scale is None else with_point(value, scale)


def as_shown(value, scale):
    """A value as a row of an answer has it; texts are told without their padding."""
    if value is None:
        return "NULL"
    return f"'{value}'" if scale is None else with_point(value, scale)


def expected(rows, others):
    """The lines of each answer, by SQLite."""
    peer = sqlite3.connect(":memory:")
    peer.execute("CREATE TABLE T (K INTEGER, G INTEGER, V INTEGER, C TEXT)")
    peer.execute("CREATE TABLE U (K INTEGER, W INTEGER)")
    peer.executemany("INSERT INTO T VALUES (?, ?, ?, ?)", rows)
    peer.executemany("INSERT INTO U VALUES (?, ?)", others)
    peer.execute("CREATE INDEX T_V ON T (V)")
    peer.execute("CREATE INDEX T_K ON T (K)")
    for query, of_peer, scales in QUERIES:
        yield ["|".join(map(as_shown, row, scales)) for row in peer.execute(of_peer or query)]


def answers_of(output, count):
    """The rows of the last answers, each between its header and its number of rows, texts without padding."""
    answers, lines = [], output.decode().splitlines()
    at = len(lines)
    for _ in range(count):
        number = int(lines[at - 1].removesuffix(" rows"))
        answers.append(["|".join(map(unpadded, shown.split("|"))) for shown in lines[at - 1 - number : at - 1]])
        at -= number + 2
    return answers[::-1]


def unpadded(shown):
    return f"'{shown[1:-1].rstrip()}'" if shown.startswith("'") else shown


def main():
    (program,) = sys.argv[1:]
    rows, others = made_rows()
    with tempfile.TemporaryDirectory() as folder:
        room = pathlib.Path(folder)
        (room / "t.csv").write_text("".join(",".join(map(as_field, row, (0, 0, 2, None))) + "\n" for row in rows))
        (room / "u.csv").write_text("".join(",".join(map(as_field, row, (0, 0))) + "\n" for row in others))
        (room / "script.sql").write_text(SCRIPT + "".join(f"{query};\n" for query, _, _ in QUERIES))
        run = subprocess.run([str(pathlib.Path(program).resolve()), "run", "script.sql"], cwd=room, capture_output=True)
    if run.returncode:
        sys.exit(f"the script ended with status {run.returncode}: {run.stderr.decode()[-300:]}")
    failed = 0
    for (query, _, _), own, peers in zip(QUERIES, answers_of(run.stdout, len(QUERIES)), expected(rows, others)):
        is_same = own == peers if "ORDER BY" in query else sorted(own) == sorted(peers)
        failed += not is_same
        print(f"{'same' if is_same else 'OTHER'}: {len(own)} rows of {query}")
    sys.exit(1 if failed else 0)


if __name__ == "__main__":
    main()
