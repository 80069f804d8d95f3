#!/usr/bin/env python3
"""Runs and checks the deepest scripts and certificates in the least stack that the program takes, and in less.

usage: small_stack.py PROGRAM [--least]

A form is a script whose parentheses, signs, NOTs and subqueries are as deep as the language lets them be, or a certificate whose plan is. In a
stack of as many KB as README names, each has to print what it prints in 8 MB, with the same status; in one KB less, words say what is needed,
and the status is 2. --least tells of each form the least stack that it is done in, in KB, by a program that doesn't look at its limit. The last line
counts the forms; the status is 1 where one is not so.
"""
import concurrent.futures
import os
import pathlib
import re
import subprocess
import sys
import tempfile

ROOT = pathlib.Path(__file__).resolve().parent.parent
LEVELS, BLOCKS = 64, 32
AMPLE = 8192
TABLE = "CREATE TABLE T (A INTEGER);\nLOAD T FROM 't.csv';\n"


def least_stack():
    """How many KB the program takes, as README tells."""
    return int(re.search(r"a stack of (\d+) KB", (ROOT / "README.md").read_text())[1])


def nested(opened, inside, closed, times=BLOCKS - 1):
    return opened * times + inside + closed * times


def exists(words):
    """Subqueries that each name the table of the block around them."""
    opened = "".join(f"{words} (SELECT * FROM T X{n} WHERE X{n}.A = {f'X{n - 1}' if n else 'T'}.A AND " for n in range(BLOCKS - 1))
    return opened + "1 = 1" + ")" * (BLOCKS - 1)


# What stands in WHERE.
CONDITIONS = {
    "parentheses": nested("(", "A = 1", ")", LEVELS),
    "signs": "- " * LEVELS + "A = 1",
    "NOT": "NOT " * LEVELS + "A = 1",
    "sums": nested("(1 + ", "A", ")", LEVELS) + " = 65",
    "OR and AND": nested("(A = 2 OR A = 1 AND ", "A = 1", ")", LEVELS),
    "NOT, OR and AND": nested("NOT (A = 2 OR A = 1 AND ", "A = 1", ")", LEVELS // 2),
    "IN": nested("A IN (SELECT A FROM T WHERE ", "A = 1", ")"),
    "IN and a parenthesis": nested("A IN (SELECT A FROM T WHERE (", "A = 1", "))"),
    "NOT IN": nested("NOT A IN (SELECT A FROM T WHERE ", "A = 1", ")"),
    "IN in OR and AND": nested("A = 2 OR A = 1 AND A IN (SELECT A FROM T WHERE ", "A = 1", ")"),
    "NOT IN in OR and AND": nested("A = 2 OR A = 1 AND NOT A IN (SELECT A FROM T WHERE ", "A = 1", ")"),
    "IN in a parenthesis of OR and AND": nested("A = 2 OR A = 1 AND (A = 2 OR A = 1 AND A IN (SELECT A FROM T WHERE ", "A = 1", "))"),
    "IN of groups": nested("A IN (SELECT MAX(A) FROM T WHERE (", "A = 1", ") GROUP BY A HAVING COUNT(*) > 0 OR MIN(A) = 1)"),
    "IN of distinct rows": nested("A IN (SELECT DISTINCT A FROM T WHERE (", "A = 1", "))"),
    "IN of joins": nested("A IN (SELECT Y.A FROM T Y, T Z WHERE Y.A = Z.A AND (", "Y.A = 1", "))").replace("A IN", "T.A IN", 1).replace("(A IN", "(Y.A IN"),
    "ANY": nested("A = ANY (SELECT A FROM T WHERE (", "A = 1", "))"),
    "values": nested("A = (SELECT A FROM T WHERE (", "A = 1", "))"),
    "values in sums": nested("A = (0 + (SELECT MAX(A) FROM T WHERE ", "A = 1", "))"),
    "EXISTS": exists("EXISTS"),
    "NOT EXISTS": exists("NOT EXISTS"),
    "an unknown column below": nested("A IN (SELECT A FROM T WHERE (", "A = B", "))"),
    "a syntax fault below": nested("A IN (SELECT A FROM T WHERE (", "A = ", "))"),
    "an exception below": nested("A IN (SELECT A FROM T WHERE (", "A / 0 = 1", "))"),
}


def scripts():
    """The names and texts of the scripts."""
    for name, condition in CONDITIONS.items():
        yield name, f"{TABLE}SELECT T.A FROM T WHERE {condition};\n"
        yield f"{name}, explained", f"{TABLE}EXPLAIN SELECT T.A FROM T WHERE {condition};\n"
    yield "items", f"{TABLE}SELECT {nested('(1 + ', 'A', ')', LEVELS)} FROM T ORDER BY 1;\n"
    yield "arguments", f"{TABLE}SELECT SUM({nested('(1 + ', 'A', ')', LEVELS - 1)}) FROM T;\n"
    yield "HAVING", f"{TABLE}SELECT MAX(A) FROM T HAVING {nested('(MAX(A) = 2 OR MAX(A) = 1 AND ', 'MIN(A) = 1', ')', LEVELS - 1)};\n"


def plans():
    """Certificates whose plans have as many words as one may have."""
    join = "CREATE TABLE T (A INTEGER);\nSELECT 1 FROM T X, T Y WHERE X.A = Y.A;\n"
    sorts = "SORT(" * 63 + "ACCESS(SEG 1)" + ",1)" * 63
    yield "sorts", join, f"CERTIFICATE 3\nBLOCK 1\nPLAN LOOP({sorts},SEG 2)\nTARGET 0\nEND\n"
    loops = "LOOP(" * 62 + "ACCESS(SEG 1)" + ",SEG 2)" * 62
    yield "loops", join, f"CERTIFICATE 3\nBLOCK 1\nPLAN {loops}\nTARGET 0\nEND\n"


class Room:
    """A folder with the files of all forms."""

    def __init__(self, program, folder):
        self.program, self.folder = str(pathlib.Path(program).resolve()), pathlib.Path(folder)
        self.written("t.csv", "1\n")

    def written(self, name, text):
        (self.folder / name).write_text(text)
        return name

    def forms(self):
        """The names of the forms, and the words that the program is called with."""
        for number, (name, text) in enumerate(scripts()):
            yield name, ["run", self.written(f"{number}.sql", text)]
        for name, script, text in plans():
            yield name, ["check", self.written(f"{name}.sql", script), self.written(f"{name}.certificates", text)]

    def ran(self, words, stack):
        """Status, output and words of a call in a stack of so many KB."""
        ran = subprocess.run(["sh", "-c", f'ulimit -s {stack} && exec "$0" "$@"', self.program, *words], cwd=self.folder, capture_output=True)
        return ran.returncode, ran.stdout, ran.stderr

    def is_done(self, words, stack):
        """Whether a call does in a stack what it does in an ample one, where it doesn't break off."""
        ample = self.ran(words, AMPLE)
        return ample[0] in (0, 1, 3) and self.ran(words, stack) == ample

    def least(self, words):
        """The least stack that a call is done in."""
        low, high = 0, AMPLE
        while low + 1 < high:
            middle = (low + high) // 2
            low, high = (low, middle) if self.is_done(words, middle) else (middle, high)
        return high


def main():
    program, *rest = sys.argv[1:]
    needed = least_stack()
    with tempfile.TemporaryDirectory() as folder, concurrent.futures.ThreadPoolExecutor(os.cpu_count()) as pool:
        room = Room(program, folder)
        forms = list(room.forms())
        if "--least" in rest:
            for (name, _), stack in zip(forms, pool.map(lambda form: room.least(form[1]), forms)):
                print(f"{stack:5} KB  {name}")
            return
        refused = (2, b"", f"sqlr: a stack of {needed} KB is needed, and this one has {needed - 1} KB\n".encode())
        told = list(pool.map(lambda form: (room.is_done(form[1], needed), room.ran(form[1], needed - 1) == refused), forms))
    failed = 0
    for (name, _), (is_done, is_refused) in zip(forms, told):
        if not (is_done and is_refused):
            failed += 1
            print(f"{name}: " + ("not done in the stack that is needed" if not is_done else "not refused in less"))
    print(f"{len(forms)} forms in a stack of {needed} KB, {failed} failed")
    sys.exit(1 if failed else 0)


if __name__ == "__main__":
    main()
