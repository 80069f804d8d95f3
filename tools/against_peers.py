#!/usr/bin/env python3
"""Asks made queries of our program, of SQLite and of PostgreSQL, where all three mean the same, and compares the rows.

usage: against_peers.py [--queries N] [--seed S] [--program PROGRAM] [--keep DIR] [--spoil]

Makes databases of one to six tables, and for each 40 queries: joins of up to six tables, arithmetic, conditions with
nulls, groups, DISTINCT, ORDER BY, subqueries of up to three levels, texts with spaces at their end. Each query is
asked of our program by two designs of the tables, with keys, indexes and wild statistics at random, and of the peers.
Rows are compared as bags, and with ORDER BY the fields of the keys also in their order. The certificates that EXPLAIN
prints of each query, by the first design, have to pass `check`. N is 2,000 and S is 1, unless said; the same S asks
the same.

What the three mean alike: exact numbers, in PostgreSQL as NUMERIC, in SQLite as integers of units of their scale, and
not asked there where one could have more than 18 digits; a quotient and AVG, cut towards zero as we do, by `div` in
PostgreSQL; texts that compare without the spaces at their end, and LIKE with them; nulls first, behind DESC last. How a
query is written for each stands in peers/dialects.py. Exceptions are compared with PostgreSQL alone, in queries where
one place alone can raise: a quotient of columns as a result column, and a subquery as a value, which has to be tried
last. Numbers of more than 38 digits, LIKE of anything but a column, and refused statements are left out.

A difference is told with its seed and the smallest script that is found in a minute; --keep writes the whole script and
its files to a folder. With --spoil a digit of our output is changed, and that has to be told. The status is 1 where
something differs. Where PostgreSQL isn't installed, the last line says so, and SQLite is asked alone. The tool starts a
PostgreSQL of its own in a temporary folder, as the account `nobody` where the superuser runs the tool, and ends it.
"""
import argparse
import itertools
import pathlib
import random
import re
import signal
import sys
import time
from collections import Counter

from expressions.tables import Dice

from peers.databases import file_name, file_text, made_database, made_design
from peers.engines import PostgresPeer, Program, SqlitePeer, postgres_folder, setup
from peers.judging import MARKS, Asked, Batch, Judge, alone
from peers.queries import QueryMaker
from peers.shrinking import shrunk
from peers.writing import OurWriter

ROOT = pathlib.Path(__file__).resolve().parent.parent
QUERIES_OF_A_BATCH = 40
SHOWN = 30
# A digit beside digits, points and bars: those of `N rows loaded` have a space behind the last one.
DIGIT_OF_A_ROW = re.compile(r"(?<=[\d.|])\d(?=[\d.|\n])|(?<=[\d.|\n])\d(?=[.|])")


def made_batch(dice, count):
    """A database, two designs of it, and queries."""
    tables = made_database(dice)
    percent = dice.one_of([0, 0, 5, 15])
    queries = [QueryMaker(dice, tables).query() for _ in range(count)]
    asked = tuple(Asked(query, OurWriter(dice, percent).query(query)) for query in queries)
    return Batch(tables, (made_design(dice, tables), made_design(dice, tables)), asked)


def spoiler(seed):
    """Changes one digit of the rows of the first output that has one."""
    source, done = random.Random(seed), []

    def spoiled(text):
        """An output with the digit changed, once."""
        rows = [found.start() for found in DIGIT_OF_A_ROW.finditer(text.partition("CERTIFICATE ")[0])]
        if done or not rows:
            return text
        place = source.choice(rows)
        done.append(place)
        digit = str((int(text[place]) + 1) % 10)
        line = text.count("\n", 0, place) + 1
        print(f"spoiled: in line {line} of our output a digit {text[place]} is {digit} now")
        return text[:place] + digit + text[place + 1 :]

    return spoiled


# ---- what is told


def shown(answer, beside):
    """An answer: first the rows that the one beside it lacks, with a star; of many rows the first ones."""
    if isinstance(answer, str):
        return answer
    if answer.error or answer.state:
        return f"exception {answer.state}" if answer.state else answer.error
    lacking = Counter(answer.rows) - Counter(getattr(beside, "rows", answer.rows))
    rows = [f"  * {row}" for row in lacking.elements()]
    rows += [f"    {row}" for row in ((Counter(answer.rows) - lacking).elements() if lacking else answer.rows)]
    return "\n".join([f"{len(answer.rows)} rows", *rows[:SHOWN], *(["    .."] if len(rows) > SHOWN else [])])


def script_of(batch, number):
    """A script of a batch by a design."""
    return "\n".join([*setup(batch.tables, batch.designs[number]), *(asked.text for asked in batch.asked), ""])


def tell(judge, seed, batch, difference):
    """Tells of a difference, and of the smallest script with it."""
    names = ", ".join(name for name, _ in difference.others)
    print(f"\nseed {seed}, query {difference.place + 1} of its batch: {difference.what} differ from {names}")
    found, small = difference, shrunk(batch, difference, lambda tried: judge.judged(seed, tried))
    if small is None:
        print("the difference doesn't come again where the query is asked alone")
        small = alone(batch, difference.place)
    else:
        found = next((it for it in judge.judged(seed, small) if it.kind == difference.kind), difference)
    for table in small.tables:
        print(f"---- file {file_name(table)}\n{file_text(Dice(seed), table)}", end="")
    for number in (0, 1):
        print(f"---- script, design {number + 1}\n{script_of(small, number)}", end="")
    for peer in judge.peers:
        print(f"---- script, {peer.name}\n{peer.text(small.asked[0].query)}")
    print(f"---- our program\n{shown(found.ours, found.others[0][1])}")
    for name, answer in found.others:
        print(f"---- {name}\n{shown(answer, found.ours)}", flush=True)


def keep(folder, seed, batch, peers):
    """Writes a batch's scripts and files to a folder of its seed."""
    there = folder / str(seed)
    there.mkdir(parents=True, exist_ok=True)
    for number in (0, 1):
        (there / f"design_{number + 1}.sql").write_text(script_of(batch, number))
    for table in batch.tables:
        (there / file_name(table)).write_text(file_text(Dice(seed), table))
    for peer in peers:
        queries = "".join(f"{peer.text(asked.query)}\n" for asked in batch.asked)
        (there / f"{peer.name.partition(' ')[0].lower()}.sql").write_text(peer.tables(batch.tables) + queries)


def summary(counts, differing):
    """The words of the last line."""
    marks = counts.marks
    with_them = ", ".join(f"{marks[mark]} with {mark}" for mark in MARKS)
    compared = ", ".join(f"{count} by {name}" for name, count in counts.compared.items())
    return (
        f"{marks['queries']} queries ({with_them}, {marks['exceptions']} raise, {marks['no row']} have no row), "
        f"{marks['rows']} rows, answered alike: {compared}; {marks['certificates']} certificates pass; "
        f"{differing} differ"
    )


# ---- the command


def arguments():
    """What the command line asks."""
    parser = argparse.ArgumentParser(usage=__doc__.partition("usage: ")[2].partition("\n")[0])
    parser.add_argument("--queries", type=int, default=2000)
    parser.add_argument("--seed", type=int, default=1)
    parser.add_argument("--program", type=pathlib.Path, default=ROOT / "release/sqlr")
    parser.add_argument("--keep", type=pathlib.Path)
    parser.add_argument("--spoil", action="store_true")
    return parser.parse_args()


def compare(asked, judge):
    """Asks of batches until there are as many queries; gives how many differ."""
    differing = 0
    for number in itertools.count():
        left = asked.queries - number * QUERIES_OF_A_BATCH
        if left <= 0:
            return differing
        seed = asked.seed * 10**6 + number
        batch = made_batch(Dice(seed), min(left, QUERIES_OF_A_BATCH))
        try:
            found, fault = judge.judged(seed, batch), ""
        except RuntimeError as error:
            found, fault = [], str(error)
            print(f"\nseed {seed}: {fault}", flush=True)
        differing += len(found) + bool(fault)
        if asked.keep and (found or fault):
            keep(asked.keep, seed, batch, judge.peers)
        for difference in found:
            tell(Judge(judge.program, judge.peers), seed, batch, difference)


def main():
    """Compares, and ends what it started."""
    asked = arguments()
    has_postgres = postgres_folder() is not None
    missing = "" if has_postgres else "; PostgreSQL isn't installed, and wasn't asked"
    begin = time.monotonic()
    signal.signal(signal.SIGTERM, lambda *_: sys.exit(1))
    engines = [Program(asked.program.resolve())]
    try:
        engines += [PostgresPeer()] if has_postgres else []
        program, *others = engines
        judge = Judge(program, [SqlitePeer(), *others], spoiler(asked.seed) if asked.spoil else None)
        differing = compare(asked, judge)
    finally:
        for engine in engines:
            engine.end()
    seconds = f"{time.monotonic() - begin:.0f} s"
    print(f"{summary(judge.counts, differing)}; seed {asked.seed}, {seconds}{missing}")
    sys.exit(1 if differing else 0)


if __name__ == "__main__":
    main()
