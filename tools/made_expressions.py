#!/usr/bin/env python3
"""Makes cases of SELECT over one table, and calculates what they print with whole numbers alone.

usage: made_expressions.py DIR                write made_*.case into the folder, and tell what they cover
       made_expressions.py --check DIR        compare the folder's made_*.case with what is made here; the
                                              status is 1 at a difference
       made_expressions.py --against-sqlite   compare the answers with those of sqlite3, where both languages
                                              mean the same; the status is 1 at a difference

Each file has a table of a few rows and 40 statements: most in a script that goes well, and those that raise an
exception, with a few others among them, in a second one. The rows are in the order of the table. No statement
may be told with two different exceptions.
"""
import pathlib
import sqlite3
import sys
from collections import Counter
from dataclasses import dataclass

from expressions.against_sqlite import means_the_same, plain_row, sqlite_table
from expressions.answers import Outcome, Statement, printed
from expressions.maker import Maker
from expressions.marks import answer_marks, statement_marks
from expressions.printing import Level, Printer
from expressions.recipes import CHOOSING, PLAIN, RAISING
from expressions.sizes import binds
from expressions.tables import Dice, Table, field_text, made_table

FILES = 50
STATEMENTS = 40
RAISING_OF_A_FILE = STATEMENTS - len(PLAIN) - len(CHOOSING)
SEED = 9075


# ---- made statements


@dataclass(frozen=True)
class Made:
    """A statement of a case: what it says, and what it answers."""

    statement: Statement
    sql: str
    outcome: Outcome
    marks: frozenset


def is_bound(statement):
    """Whether all numbers of a statement bind."""
    return all(binds(root) for root in (*statement.items, statement.condition))


def made_by(maker, recipe, raises):
    """A statement of a recipe that raises one exception, or none; most often a part of the rows is chosen."""
    wants_part = maker.dice.chance(85)
    while True:
        statement = recipe.make(maker)
        if not is_bound(statement):
            continue
        outcome = Outcome(statement, maker.table.rows)
        marks = statement_marks(statement) | answer_marks(outcome, len(maker.table.rows))
        is_wanted = len(outcome.states) == int(raises) and (not recipe.needs or recipe.needs in marks)
        is_part = raises or "no WHERE" in marks or "some of the rows" in marks
        if is_wanted and (is_part or not wants_part):
            return Made(statement, sql_of(maker.dice, statement), outcome, frozenset(marks))


def sql_of(dice, statement):
    """A statement as SQL; in some there are more parentheses than needed."""
    percent = dice.one_of([0, 0, 0, 4, 15])
    printer = Printer(lambda: dice.chance(percent))
    items = ", ".join(printer.at(Level.SUM, item) for item in statement.items)
    where = "" if statement.condition is None else f" WHERE {printer.at(Level.OR, statement.condition)}"
    return f"SELECT {items} FROM T{where};"


# ---- cases


@dataclass(frozen=True)
class Case:
    """A table, the file that it is loaded from, and the statements of two scripts."""

    table: Table
    records: list
    well: list
    raising: list


HEAD = """# tools/made_expressions.py makes this file: statements of made expressions over one table. What they print is
# calculated there with whole numbers by the rules for values and conditions (ISO/IEC 9075:1992, 6.12, 7.6 and 8), and
# not by our program. The second script has the statements that raise an exception.
"""


def made_case(number):
    """The case of a number."""
    dice = Dice(SEED * 1000 + number)
    table = made_table(dice)
    records = [",".join(field_text(dice, value) for value in row) for row in table.rows]
    maker = Maker(dice, table)
    well = [made_by(maker, recipe, False) for recipe in dice.mixed(PLAIN + CHOOSING)]
    first = number * RAISING_OF_A_FILE
    recipes = [RAISING[(first + place) % len(RAISING)] for place in range(RAISING_OF_A_FILE)]
    raising = [made_by(maker, recipe, True) for recipe in recipes]
    return Case(table, records, well[:-2], dice.mixed(raising + well[-2:]))


def script_sections(before, printed_before, statements):
    """The sections of a script: some lines and what they print, and statements behind them."""
    lines, output = list(before), list(printed_before)
    for made in statements:
        lines.append(made.sql)
        output += printed(made.statement, made.outcome)
    status = int(any(made.outcome.states for made in statements))
    return "".join(f"{line}\n" for line in ["---- script", *lines, "---- output", *output, f"---- status {status}"])


def case_text(case):
    """The text of a case."""
    columns = ", ".join(f"{column.name} {column.type.name}" for column in case.table.columns)
    setup = [f"CREATE TABLE T ({columns});", "LOAD T FROM 't.csv';"]
    records = "".join(f"{line}\n" for line in ["---- file t.csv", *case.records])
    first = script_sections(setup, ["OK", f"{len(case.records)} rows loaded"], case.well)
    return HEAD + records + first + script_sections([], [], case.raising)


def all_cases():
    """The cases by the names of their files."""
    return {f"made_{number:02}.case": made_case(number) for number in range(1, FILES + 1)}


# ---- the commands


def write(folder):
    """Writes all cases, and tells what they cover."""
    cases = all_cases()
    folder.mkdir(parents=True, exist_ok=True)
    for name, case in cases.items():
        (folder / name).write_text(case_text(case), encoding="ascii")
    made = [it for case in cases.values() for it in case.well + case.raising]
    counts = Counter(mark for it in made for mark in it.marks)
    print(f"{len(cases)} cases, {len(made)} statements, of which so many have:")
    for mark, count in sorted(counts.items()):
        print(f"{count:6} {mark}")
    return 0


def check(folder):
    """Compares the cases of a folder with those that are made here."""
    texts = {name: case_text(case) for name, case in all_cases().items()}
    there = {path.name: path.read_text(encoding="utf-8") for path in folder.glob("made_*.case")}
    differing = [name for name in sorted(texts.keys() | there.keys()) if texts.get(name) != there.get(name)]
    for name in differing:
        told = "it is missing" if name not in there else "it isn't made here" if name not in texts else "it differs"
        print(f"{name}: {told}")
    print(f"{len(texts)} cases, {len(differing)} differ")
    return 1 if differing else 0


def against_sqlite():
    """Compares the answers of the statements that sqlite3 has to answer alike."""
    compared_with_it, chosen, differing = 0, 0, 0
    for name, case in all_cases().items():
        connection = sqlite_table(case.table)
        for made in filter(means_the_same, case.well + case.raising):
            rows = [plain_row(row) for row in made.outcome.rows]
            answer = connection.execute(made.sql).fetchall()
            compared_with_it += 1
            chosen += "WHERE" in made.marks
            if answer != rows:
                differing += 1
                print(f"{name}: {made.sql}\n  here {rows}\n  sqlite3 {answer}")
    told = f"{compared_with_it} statements compared with sqlite3 {sqlite3.sqlite_version}"
    print(f"{told}, {chosen} of them with WHERE; {differing} differ")
    return 1 if differing else 0


def main():
    """Does what the command line asks."""
    match sys.argv[1:]:
        case ["--against-sqlite"]:
            sys.exit(against_sqlite())
        case ["--check", folder]:
            sys.exit(check(pathlib.Path(folder)))
        case [folder] if not folder.startswith("-"):
            sys.exit(write(pathlib.Path(folder)))
        case _:
            sys.exit(__doc__)


if __name__ == "__main__":
    main()
