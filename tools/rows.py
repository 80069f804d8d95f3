#!/usr/bin/env python3
r"""Asks the program what the rows of the folder `cases/rows` say of scripts.

usage: rows.py PROGRAM [--folder FOLDER] [--count COUNT]

A row is `QUESTION ANSWER | SCRIPT`, where `\n` in a script ends a line. A line `tables` has statements that make the tables of the rows
behind it in its file. An empty line, and one that begins with `--`, is passed over. The questions, and what answers them:

    bind       what becomes of a query: its refusal's label, or `bound` where it prints rows or an exception
    fault      the byte of the script's syntax fault
    message    that byte, the line and column that the message tells, and its words
    found      the end of these words: what stands there
    hint       the first hint that is told, or `none`

A line tells of each file, and one of each row that is wrong. The last counts the rows; the status is 1 where one is wrong, or there are
others than COUNT.
"""
import argparse
import concurrent.futures
import os
import pathlib
import re
import subprocess
import sys

ROWS = pathlib.Path(__file__).resolve().parent.parent / "cases/rows"
BOUND = re.compile(r"(?:.*\n)*(?:\d+ rows|exception \d{5})\n")
REFUSED = re.compile(r"error (E\d\d) \d{5}\n")
FAULT = re.compile(r"error E05 42000 at (\d+)\n")
HINT = re.compile(r"^hint: (.*)$", re.MULTILINE)
MESSAGE = re.compile(r"<stdin>:(\d+:\d+): error E05 42000: (.*)\n")


# ---- questions: each has its answer from what a script prints and says; none where there is no answer


def bind(printed, _):
    refused = REFUSED.fullmatch(printed)
    return refused[1] if refused else "bound" if BOUND.fullmatch(printed) else None


def fault(printed, _):
    told = FAULT.fullmatch(printed)
    return told and told[1]


def message(printed, said):
    told = FAULT.fullmatch(printed) and MESSAGE.match(said)
    return told and f"{fault(printed, said)} {told[1]} {told[2]}"


def found(printed, said):
    told = message(printed, said)
    return told and told.rpartition(", found ")[2]


def hint(_, said):
    told = HINT.search(said)
    return told[1] if told else "none"


QUESTIONS = {it.__name__: it for it in (bind, fault, message, found, hint)}


# ---- rows


def row_fault(program, tables, row):
    """What is wrong with a row, behind the statements that make its tables; None where nothing is."""
    front, bar, script = row.partition(" | ")
    question, blank, wanted = front.partition(" ")
    if not bar or not blank:
        return f"no row: {row}"
    if question not in QUESTIONS:
        return f"no question {question}"
    made = "OK\n" * tables.count(";")
    ran = subprocess.run([program, "run", "-"], input=(tables + script.replace(r"\n", "\n")).encode(), capture_output=True)
    printed, said = ran.stdout.decode(), ran.stderr.decode()
    if not printed.startswith(made):
        return f"no such tables: {tables}"
    answer = QUESTIONS[question](printed[len(made) :], said)
    return None if answer == wanted else f"{question} {answer}, and not {wanted}: {script}"


def rows(text):
    """The rows of a file: the line of each, the statements that make its tables, and the row."""
    tables = ""
    for number, line in enumerate(text.split("\n"), 1):
        if line.startswith("tables "):
            tables += line.removeprefix("tables ") + "\n"
        elif line and not line.startswith("--"):
            yield number, tables, line


# ---- files of rows, also for other tools


def ask(program, path, pool, rows_of, fault_of):
    """Asks the rows of a file, tells what is wrong, and gives how many it has and how many are wrong."""
    asked = list(rows_of(path.read_text(encoding="utf-8")))
    wrong = 0
    for (number, *_), told in zip(asked, pool.map(lambda row: fault_of(program, *row[1:]), asked)):
        if told:
            wrong += 1
            print(f"{path.name}:{number}: {told}")
    print(f"{path.name}: {len(asked)} rows, {wrong} wrong")
    return len(asked), wrong


def ask_folder(words, folder, rows_of, fault_of):
    """Does what the words of a tool say: asks the rows that a text of a file has, each with its line first, by what tells the fault of a row."""
    parser = argparse.ArgumentParser(description=words, formatter_class=argparse.RawDescriptionHelpFormatter)
    parser.add_argument("program", type=pathlib.Path)
    parser.add_argument("--folder", type=pathlib.Path, default=folder)
    parser.add_argument("--count", type=int)
    given = parser.parse_args()
    with concurrent.futures.ThreadPoolExecutor(os.cpu_count()) as pool:
        counts = [ask(given.program.resolve(), path, pool, rows_of, fault_of) for path in sorted(given.folder.glob("*.rows"))]
    asked, wrong = (sum(it) for it in zip((0, 0), *counts))
    if given.count not in (None, asked):
        print(f"{given.count} rows were to be asked")
    print(f"{asked} rows, {wrong} wrong")
    sys.exit(1 if wrong or not asked or given.count not in (None, asked) else 0)


if __name__ == "__main__":
    ask_folder(__doc__, ROWS, rows, row_fault)
