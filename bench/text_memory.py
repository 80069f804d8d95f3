#!/usr/bin/env python3
"""Measures what memory a script takes by what it is made of: bytes at the peak for each byte of the text.

usage: text_memory.py [PROGRAM ..]

Each form is one text of 4 MB: a statement of one long list or chain, or many statements. More than one program stand side by side, as an
old release beside a new one. The system counts what this script takes itself as the least, some 2 bytes.
"""
import os
import pathlib
import subprocess
import sys
import tempfile

from load import PROGRAM

SIZE = 4_000_000


FORMS = {
    ",1 in IN": ("SELECT A FROM T WHERE A IN (1", ",1", ");"),
    ", 1 in IN": ("SELECT A FROM T WHERE A IN (1", ", 1", ");"),
    ",NULL in IN": ("SELECT A FROM T WHERE A IN (1", ",NULL", ");"),
    ",'a' in IN": ("SELECT A FROM T WHERE A IN ('a'", ",'a'", ");"),
    ",A items": ("SELECT A", ",A", " FROM T;"),
    ",(A) items": ("SELECT A", ",(A)", " FROM T;"),
    "+SUM(A) items": ("SELECT A", ",SUM(A+1)", " FROM T;"),
    "FROM ,T": ("SELECT A FROM T", ",T", ";"),
    "GROUP BY ,A": ("SELECT A FROM T GROUP BY A", ",A", ";"),
    "ORDER BY ,1": ("SELECT A FROM T ORDER BY 1", ",1", ";"),
    "columns of a table": ("CREATE TABLE U (A CHAR", ",A CHAR", ");"),
    "columns of an index": ("CREATE INDEX ON T (A", ",A", ");"),
    "+1": ("SELECT 1", "+1", " FROM T;"),
    "*A": ("SELECT A", "*A", " FROM T;"),
    "OR A=1": ("SELECT A FROM T WHERE A=1", " OR A=1", ";"),
    "AND A=1": ("SELECT A FROM T WHERE A=1", " AND A=1", ";"),
    "SELECT A FROM T;": ("", "SELECT A FROM T;", ""),
    "EXPLAIN": ("", "EXPLAIN SELECT A FROM T;", ""),
    "CREATE TABLE": ("", "CREATE TABLE T (A INTEGER);", ""),
    "LOAD": ("", "LOAD T FROM 'x';", ""),
    "SET STATISTICS": ("", "SET STATISTICS T ROWS 1 PAGES 1;", ""),
    "a fault of syntax": ("SELECT SELECT", ",1", ";"),
}


def write_text(script, first, part, last):
    """Writes a script of one form, piece by piece, so that this one stays small."""
    with open(script, "w") as file:
        file.write("CREATE TABLE T (A INTEGER);\n" + first)
        for _ in range(SIZE // (1000 * len(part))):
            file.write(part * 1000)
        file.write(last)
    return script.stat().st_size


def peak(program, folder):
    """The most memory that a run takes, in bytes."""
    with open(os.devnull, "wb") as nowhere:
        child = subprocess.Popen([program, "run", "script.sql"], cwd=folder, stdout=nowhere, stderr=nowhere)
        _, status, usage = os.wait4(child.pid, 0)
    if os.waitstatus_to_exitcode(status) not in (0, 1):
        sys.exit(f"{program}: status {status}")
    return usage.ru_maxrss * 1024


def main():
    programs = [str(pathlib.Path(it).resolve()) for it in sys.argv[1:]] or [str(PROGRAM)]
    print("| form | " + " | ".join(pathlib.Path(it).name for it in programs) + " |")
    print("| --- |" + " --- |" * len(programs))
    with tempfile.TemporaryDirectory() as name:
        folder = pathlib.Path(name)
        for form, parts in FORMS.items():
            size = write_text(folder / "script.sql", *parts)
            print(f"| `{form}` | " + " | ".join(f"{peak(it, folder) / size:.0f}" for it in programs) + " |", flush=True)


if __name__ == "__main__":
    main()
