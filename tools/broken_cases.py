#!/usr/bin/env python3
"""Breaks cases, and looks whether the runner of cases tells each that it has to.

usage: broken_cases.py PROGRAM

The runner is tools/cases.py, and PROGRAM what it runs. It runs a case as it stands, and then with another output,
message or status, cut short, empty, not there, and malformed in each way; a line tells of each, and the
status is 1 where one isn't told as it should be.
"""
import pathlib
import subprocess
import sys
import tempfile

RUNNER = pathlib.Path(__file__).resolve().parent / "cases.py"

CASE = """# A table with nothing in it.
---- file t.csv
5,ab
---- script
CREATE TABLE T (A INTEGER, B CHAR(3));
LOAD T FROM 't.csv';
SELECT A FROM T;
SELECT C FROM T;
---- output
OK
1 rows loaded
A
5
1 rows
error E14 42000
---- messages
script.sql:4:8: error E14 42000: table T has no column C
SELECT C FROM T;
       ^
---- status 1
"""

# Scripts that pass behind it.
SECOND = """---- script
SELECT A FROM T;
SELECT C FROM T;
---- output
A
5
1 rows
error E14 42000
---- messages
script.sql:2:8: error E14 42000: table T has no column C
SELECT C FROM T;
       ^
---- status 1
"""
FAULTY = """---- script
SELECT FROM T;
---- output
error E05 42000 at 7
---- messages
script.sql:1:8: error E05 42000: expected ALL, DISTINCT, "*", NOT or a value, found FROM
SELECT FROM T;
       ^
---- status 1
"""
CHECKED = """---- script
SELECT A FROM T;
---- certificates
CERTIFICATE 3
BLOCK 1
PLAN ACCESS(SEG 1)
TARGET 11
END
---- output
block 1 pass
---- status 0
"""

# What is done to the case, and how the line begins that tells of it.
BREAKS = [
    ("another output", lambda text: text.replace("A\n5\n", "A\n6\n"), "script 1: the output differs"),
    ("an output that lacks its last line", lambda text: text.replace("error E14 42000\n", ""), "script 1: the output differs"),
    ("another message", lambda text: text.replace("column C", "column B"), "script 1: the messages differ"),
    ("no messages", lambda text: text[: text.index("---- messages")] + "---- status 1\n", "script 1: the messages differ"),
    ("another status", lambda text: text.replace("status 1", "status 0"), "script 1: the status differs"),
    ("a note that isn't there", lambda text: text.replace("---- messages\n", "---- messages\nscript.sql:3:8: note: none\n"), "script 1: the messages differ"),
    ("a heading of no section", lambda text: text.replace("---- status 1", "---- work 7\n---- status 1"), "'work 7' is no heading"),
    ("another file", lambda text: text.replace("5,ab", "7,ab"), "script 1: the output differs"),
    ("a second script that differs", lambda text: text + SECOND.replace("1 rows", "0 rows"), "script 2: the output differs"),
    ("a second script's message at another line", lambda text: text + SECOND.replace("sql:2", "sql:6"), "script 2: the messages differ"),
    ("a second script's other status", lambda text: text.replace("status 1", "status 0") + SECOND, "script 1: the status differs"),
    ("a second script whose text is refused elsewhere", lambda text: text + FAULTY.replace("at 7", "at 97"), "script 2: the output differs"),
    ("a script behind one whose text is refused", lambda text: text + FAULTY + SECOND.replace("A\n5", "A\n6"), "script 3: the output differs"),
    ("other certificates", lambda text: text + CHECKED.replace("TARGET 11", "TARGET 12"), "script 2: the output differs"),
    ("a check's other status", lambda text: text + CHECKED.replace("status 0", "status 3"), "script 2: the status differs"),
    ("an empty case", lambda text: "", "the last line has no end"),
    ("a last line without its end", lambda text: text[:-1], "the last line has no end"),
    ("a comment alone", lambda text: text[: text.index("----")], "it ends before the status"),
    ("a case that ends in the middle", lambda text: text[: text.index("---- status")], "it ends before the status"),
    ("no comment", lambda text: text[text.index("----") :], "it begins with no comment"),
    ("a stray line", lambda text: "stray\n" + text, "it begins with no comment"),
    ("an unknown heading", lambda text: text.replace("---- output", "---- prints"), "'prints' is no heading"),
    ("a status of no run", lambda text: text.replace("status 1", "status 4"), "'status 4' is no heading"),
    ("no output", lambda text: text[: text.index("---- output")] + "---- status 1\n", "'status 1' is out of place"),
    ("a file behind a script", lambda text: text + "---- file u.csv\n1\n", "'file u.csv' is out of place"),
    ("certificates behind an output", lambda text: text.replace("---- messages", "---- certificates"), "'certificates' is out of place"),
    ("certificates twice", lambda text: text.replace("---- output", "---- certificates\n---- certificates\n---- output"), "'certificates' is out of place"),
    ("certificates for a script that was run", lambda text: text.replace("---- output", "---- certificates\n---- output"), "script 1: the output differs"),
    ("two outputs", lambda text: text.replace("---- messages", "---- output"), "'output' is out of place"),
    ("a file that is there twice", lambda text: text.replace("---- script", "---- file t.csv\n7,cd\n---- script"), "file 't.csv' is there twice"),
    ("a file that is the script", lambda text: text.replace("file t.csv", "file script.sql"), "file 'script.sql' can't lie beside"),
    ("a file in another folder", lambda text: text.replace("file t.csv", "file ../t.csv"), "file '../t.csv' can't lie beside"),
    ("text behind a status", lambda text: text + "stray\n", "text stands behind a status"),
    ("a script that is no UTF-8", lambda text: text.replace("---- script\n", "---- script percent-encoded\n%FF\n"), "a script is no UTF-8"),
]


def run(program, folder, *words):
    """What the runner prints of the cases of a folder, and its status."""
    ran = subprocess.run([sys.executable, RUNNER, program, "--folder", folder, *words], capture_output=True, text=True)
    return ran.stdout, ran.returncode


def main():
    program, failed = sys.argv[1], 0

    def judge(name, is_well, said):
        nonlocal failed
        failed += not is_well
        print(f"{name}: {'told' if is_well else f'NOT TOLD: {said}'}")

    with tempfile.TemporaryDirectory() as room:
        folder = pathlib.Path(room) / "broken"
        folder.mkdir()
        case = folder / "one.case"
        for name, text in [("the case as it stands", CASE), ("the case with more scripts", CASE + FAULTY + SECOND + CHECKED)]:
            case.write_text(text)
            told = run(program, room, "--count", "1")
            judge(name, told == ("1 cases, 0 failed\n", 0), told)
        for name, broken, wanted in BREAKS:
            case.write_text(broken(CASE))
            printed, status = run(program, room)
            is_well = printed.startswith(f"broken/one: {wanted}") and printed.endswith("1 cases, 1 failed\n")
            judge(name, is_well and status == 1, printed)
        told = run(program, room, "missing")
        judge("a case that is not there", told == ("0 cases, 0 failed\n", 1), told)
        case.write_text(CASE)
        told = run(program, room, "--count", "2")
        judge("fewer cases than there were", told == ("2 cases were to be run\n1 cases, 0 failed\n", 1), told)
        case.rename(folder / "one.text")
        printed, status = run(program, room)
        judge("a file that is no case", printed.startswith("broken/one.text: ") and status == 1, printed)
    sys.exit(1 if failed else 0)


if __name__ == "__main__":
    main()
