#!/usr/bin/env python3
"""Runs the program as it is called, and compares what it prints and its exit status.

usage: program_statuses.py [PROGRAM]

The program is ./sqlr, which builds it where it has to, or the one that is named.
A line for each case; the status is 1 where one differs. What is expected is worked out by hand from the
scripts, the words of a wrong command line are those of clap, and those of devices the system's. Of standard
error the beginning is compared, or the whole where a pattern is expected; where nothing is expected there, it is empty.
"""
import collections
import os
import pathlib
import re
import shutil
import subprocess
import sys
import tempfile

ROOT = pathlib.Path(__file__).resolve().parent.parent

# Where the program's standard output and standard error go is what subprocess takes for them; `first` is called before the program begins.
Case = collections.namedtuple(
    "Case", "name words status printed complaint output typed errors first", defaults=(b"", b"", subprocess.PIPE, b"", subprocess.PIPE, None)
)

HELP = b"""An engine for Entry SQL over tables in memory

Usage: sqlr <COMMAND>

Commands:
  run    Runs a script and prints its answers to standard output
  check  Checks certificates of a script's last query, and prints what they show
  help   Print this message or the help of the given subcommand(s)

Options:
  -h, --help     Print help
  -V, --version  Print version

Examples:
  sqlr run first.sql
  sqlr run - < first.sql
  sqlr check first.sql first.certificates

Exit status: 0 well, 1 refused or an exception, 2 broken off, 3 a certificate refused
To read on: docs/FIRST_STEPS.md, docs/LANGUAGE.md
"""

PARTS = b"""OK
5 rows loaded
NAME|PRICE
'Bolt M8         '|0.12
'Driver''s mate   '|14.90
2 rows
NUMBER|NAME|STOCK
1|'Bolt M8         '|500
4|'Bracket, angled '|3
2 rows
NAME|MATERIAL|PRICE
'Washer 3/8"     '|'Brass   '|0.05
'Bracket, angled '|'Steel   '|-1.50
2 rows
NAME|STOCK
'Bolt M8         '|500
'Washer 3/8"     '|NULL
'Driver''s mate   '|12
'Bracket, angled '|3
'O-ring          '|40
5 rows
NAME|WORTH
'Bolt M8         '|60.00
'Washer 3/8"     '|NULL
2 rows
"""

ORDERS = b"""OK
OK
OK
5 rows loaded
5 rows loaded
CUSTOMER|NAME|AMOUNT
'Olsen   '|'Bolt M8         '|24.00
1 rows
CUSTOMER|NAME|STOCK
'Meyer   '|'Driver''s mate   '|12
1 rows
CUSTOMER|CUSTOMER|NAME
'Kim     '|'Olsen   '|'Bolt M8         '
1 rows
"""

# The answers of examples/parts.sql in the other forms, whose other statements print OK and how many rows are loaded.
PARTS_CSV = b"""NAME,PRICE
Bolt M8,0.12
Driver's mate,14.90
NUMBER,NAME,STOCK
1,Bolt M8,500
4,"Bracket, angled",3
NAME,MATERIAL,PRICE
"Washer 3/8""\",Brass,0.05
"Bracket, angled",Steel,-1.50
NAME,STOCK
Bolt M8,500
"Washer 3/8""\",\\N
Driver's mate,12
"Bracket, angled",3
O-ring,40
NAME,WORTH
Bolt M8,60.00
"Washer 3/8""\",\\N
"""

PARTS_JSON = b"""[
{"NAME":"Bolt M8","PRICE":0.12},
{"NAME":"Driver's mate","PRICE":14.90}
]
[
{"NUMBER":1,"NAME":"Bolt M8","STOCK":500},
{"NUMBER":4,"NAME":"Bracket, angled","STOCK":3}
]
[
{"NAME":"Washer 3/8\\"","MATERIAL":"Brass","PRICE":0.05},
{"NAME":"Bracket, angled","MATERIAL":"Steel","PRICE":-1.50}
]
[
{"NAME":"Bolt M8","STOCK":500},
{"NAME":"Washer 3/8\\"","STOCK":null},
{"NAME":"Driver's mate","STOCK":12},
{"NAME":"Bracket, angled","STOCK":3},
{"NAME":"O-ring","STOCK":40}
]
[
{"NAME":"Bolt M8","WORTH":60.00},
{"NAME":"Washer 3/8\\"","WORTH":null}
]
"""

PARTS_TABLE = b"""OK
5 rows loaded
NAME           PRICE
-------------  -----
Bolt M8         0.12
Driver's mate  14.90
(2 rows)
NUMBER  NAME             STOCK
------  ---------------  -----
     1  Bolt M8            500
     4  Bracket, angled      3
(2 rows)
NAME             MATERIAL  PRICE
---------------  --------  -----
Washer 3/8"      Brass      0.05
Bracket, angled  Steel     -1.50
(2 rows)
NAME             STOCK
---------------  -----
Bolt M8            500
Washer 3/8"
Driver's mate       12
Bracket, angled      3
O-ring              40
(5 rows)
NAME         WORTH
-----------  -----
Bolt M8      60.00
Washer 3/8"
(2 rows)
"""

# What --timing tells behind a statement.
TIME = rb"sqlr: \d+\.\d{3} s\n"

FAULTS = b"""OK
OK
OK
error E07 42000
error E07 42000
error E07 42000
error E08 42000
error E08 42000
error E08 42000
error E09 42000
error E09 42000
error E10 42000 record 2
error E11 42000 record 2
error E11 22003 record 1
error E11 22001 record 1
error E12 23000 record 3
error E12 23000 record 1
error E13 42000
error E14 42000
error E15 42000
error E16 42000
error E17 42000
error E18 42000
error E19 42000
error E20 42000
error E21 42000
error E21 42000
error E22 42000
A|B
0 rows
"""

# The fault of each script of examples/faulty: its line, and what is told of it, at the column behind
# the byte of the line.
FAULTY = {
    "character": (b"error E01 42000 at 28\n", b"1:29: error E01 42000: no token begins with this character\n"),
    "levels": (b"error E06 42000 at 86\n", b"1:87: error E06 42000: more than 64 levels of parentheses, signs and NOTs are open here\n"),
    "name": (b"error E04 42000 at 7\n", b"1:8: error E04 42000: a name has at most 18 characters, and this one has 20\n"),
    "number": (b"error E03 42000 at 26\n", b"1:27: error E03 42000: a number has at most 38 digits, and this one has 40\n"),
    "string": (b"error E02 42000 at 12\n", b"1:13: error E02 42000: this string has no closing quote\n"),
    "syntax": (b"error E05 42000 at 7\n", b'1:8: error E05 42000: expected ALL, DISTINCT, "*", NOT or a value, found FROM\n'),
}

# A script on standard input, and the message on its second statement.
TYPED = b"CREATE TABLE T (A INTEGER);\nSELECT B FROM T;\n"
MESSAGE = b"""<stdin>:2:8: error E14 42000: table T has no column B
SELECT B FROM T;
       ^
"""


def without_output():
    os.close(1)


def as_nobody():
    """Whoever may read everything becomes one who may not."""
    if os.geteuid() == 0:
        os.setgroups([])
        os.setuid(65534)


def full_pipe():
    """The end of a pipe that nobody reads, has no room left, and doesn't wait."""
    reader, writer = os.pipe2(os.O_NONBLOCK)
    try:
        while True:
            os.write(writer, bytes(1 << 16))
    except BlockingIOError:
        return reader, writer


def option_cases(folder, full):
    """The options of a run, and wrong uses of them."""
    parts, orders = "examples/parts.sql", "examples/orders.sql"
    others = re.compile(rb"OK\n5 rows loaded\n")
    yield Case("answers as csv", ["run", "--as", "csv", parts], 0, PARTS_CSV, others)
    yield Case("answers as json", ["run", parts, "--as=json"], 0, PARTS_JSON, others)
    yield Case("answers as a table", ["run", "--as", "table", parts], 0, PARTS_TABLE)
    table = "CREATE TABLE T (A INTEGER, B CHAR(3));"
    for form, none in {"csv": b"A,B\n", "json": b"[]\n"}.items():
        words = ["run", "--as", form, "-c", f"{table} SELECT * FROM T;"]
        yield Case(f"no rows as {form}", words, 0, none, re.compile(rb"OK\n"))
    yield Case("no rows as a table", ["run", "--as", "table", "-c", f"{table} SELECT * FROM T;"], 0, b"OK\nA  B\n-  -\n(0 rows)\n")
    refused = b"<command>:1:47: error E14 42000: table T has no column C\n"
    words = ["run", "--as", "csv", "-c", f"{table} SELECT C FROM T;"]
    yield Case("refusal beside csv", words, 1, b"", re.compile(rb"OK\n" + re.escape(refused) + rb"(.*\n)*error E14 42000\n"))
    signs = folder / "signs.csv"
    signs.write_text("1,\"a|b\"\n2,''\n3,\\N\n4,\n")
    load = f"{table} LOAD T FROM '{signs}';"
    words = ["run", "--as", "csv", "-c", f"{load} SELECT * FROM T;"]
    # The texts are a|b, two quotes, NULL, and blanks.
    yield Case("bars and quotes in texts", words, 0, b"A,B\n1,a|b\n2,''\n3,\\N\n4,\n", re.compile(rb"OK\n4 rows loaded\n"))
    twice = "CREATE TABLE T (A INTEGER); CREATE TABLE T (B INTEGER); SELECT A FROM T;"
    there = b"<command>:1:42: error E07 42000: there is a table T already\n"
    yield Case("on behind a refusal", ["run", "-c", twice], 1, b"OK\nerror E07 42000\nA\n0 rows\n", there)
    yield Case("stop at a refusal", ["run", "--stop", "-c", twice], 1, b"OK\nerror E07 42000\n", there)
    divided = f"{load} SELECT 1 / (A - 1) FROM T; SELECT A FROM T;"
    yield Case("stop at an exception", ["run", "--stop", "-c", divided], 1, b"OK\n4 rows loaded\nexception 22012\n", b"<command>:1:")
    yield Case("nothing to stop at", ["run", "--stop", orders], 0, ORDERS)
    no_room = b"sqlr: standard output: No space left on device\n"
    yield Case("full output before a stop", ["run", "--stop", parts], 2, complaint=no_room, output=full)
    times = re.compile(TIME * 2)
    yield Case("timing", ["run", "--timing", "-c", f"{table} SELECT * FROM T;"], 0, b"OK\nA|B\n0 rows\n", times)
    yield Case("timing behind refusals", ["run", "--timing", "--stop", "-c", twice], 1, b"OK\nerror E07 42000\n", re.compile(TIME + re.escape(there) + rb"(.*\n)*" + TIME))
    wrong = b"<command>:1:47: error E14 42000: table T has no column C\n"
    yield Case("text of a script", ["run", "-c", f"{table} SELECT C FROM T;"], 1, b"OK\nerror E14 42000\n", wrong)
    yield Case("text that begins as an option", ["run", "-c", "--", f"-- none\n{table}"], 0, b"OK\n")
    both = b"error: a run takes one script\n\n  tip: behind -c its text stands in place of a file\n"
    yield Case("script and text", ["run", "-c", table, parts], 2, complaint=both)
    yield Case("no text", ["run", "-c"], 2, complaint=b"error: the script's text is missing behind -c\n")
    no_form = b"error: invalid value 'xml' for '--as <FORM>'\n  [possible values: csv, table, json]\n"
    yield Case("no such form", ["run", "--as", "xml", parts], 2, complaint=no_form)
    yield Case("no form", ["run", parts, "--as"], 2, complaint=b"error: a value is required for '--as <FORM>' but none was supplied\n")
    again = b"error: the argument '--stop' cannot be used multiple times\n"
    yield Case("an option twice", ["run", "--stop", "--stop", parts], 2, complaint=again)
    yield Case("no such option behind another", ["run", "--stop", "--quick", parts], 2, complaint=b"error: there is no option '--quick'\n")
    yield Case("option of a run for a check", ["check", "--stop", "a.sql", "a"], 2, complaint=b"error: there is no option '--stop'\n")


def cases(folder, full, closed, waiting):
    not_text = folder / "not_text.sql"
    not_text.write_bytes(b"-- \xc3\xbc\nSELECT A FROM \xff;\n")
    utf16 = folder / "utf16.sql"
    utf16.write_bytes("SELECT A FROM T;\n".encode("utf-16"))
    device = folder / "device.sql"
    device.write_text("CREATE TABLE T (A INTEGER);\nLOAD T FROM 'examples';\nSELECT A FROM T;\n")
    parts, missing = "examples/parts.sql", "examples/missing.sql"
    yield Case("parts", ["run", parts], 0, PARTS)
    yield Case("orders", ["run", "examples/orders.sql"], 0, ORDERS)
    first_told = b"examples/faults.sql:5:14: error E07 42000: there is a table T already\n"
    yield Case("faults", ["run", "examples/faults.sql"], 1, FAULTS, first_told)
    for name, (line, told) in FAULTY.items():
        script = f"examples/faulty/{name}.sql"
        yield Case(f"faulty {name}", ["run", script], 1, line, f"{script}:".encode() + told)
    yield Case("script on standard input", ["run", "-"], 1, b"OK\nerror E14 42000\n", MESSAGE, typed=TYPED)
    screen = b"OK\n" + MESSAGE + b"error E14 42000\n"
    yield Case("message before its line", ["run", "-"], 1, screen, typed=TYPED, errors=subprocess.STDOUT)
    join, certificates = "examples/join.sql", "examples/join.certificates"
    lower = folder / "lower.certificates"
    lower.write_bytes((ROOT / certificates).read_bytes().replace(b"3080", b"3079"))
    told = f"{lower}:8:7: block 1: from table 2 in order 2 for 3079 a merge by conjunct 1 with SORTED SEG 1 leads to ".encode()
    yield Case("certificate", ["check", join, certificates], 0, b"block 1 pass\n")
    yield Case("certificate on a script from standard input", ["check", "-", certificates], 0, b"block 1 pass\n", typed=(ROOT / join).read_bytes())
    yield Case("refused certificate", ["check", join, str(lower)], 3, b"block 1 refused K2\n", told)
    yield Case("certificate from standard input", ["check", join, "-"], 0, b"block 1 pass\n", typed=(ROOT / certificates).read_bytes())
    twice = b"sqlr: only one of script and certificates can be standard input\n"
    yield Case("all from standard input", ["check", "-", "-"], 2, complaint=twice)
    yield Case("nothing to check", ["check", "-", certificates], 1, b"nothing to check\n")
    yield Case("no certificates", ["check", join], 2, complaint=b"error: the following required arguments were not provided:\n  <CERTIFICATES>\n")
    absent = b"sqlr: examples/missing.certificates: No such file or directory\n"
    yield Case("missing certificates", ["check", join, "examples/missing.certificates"], 2, complaint=absent)
    no_script = b"sqlr: examples/missing.sql: No such file or directory\n"
    yield Case("missing script and certificates", ["check", missing, "examples/missing.certificates"], 2, complaint=no_script)
    yield Case("full output for a check", ["check", join, certificates], 2, complaint=b"sqlr: standard output: No space left on device\n", output=full)
    yield Case("help", ["--help"], 0, HELP)
    yield Case("version", ["--version"], 0, b"sqlr 0.2.0\n")
    yield Case("no words", [], 2, complaint=b"error: 'sqlr' requires a subcommand but one was not provided\n")
    yield Case("wrong subcommand", ["walk", parts], 2, complaint=b"error: unrecognized subcommand 'walk'\n")
    tip = b"error: unrecognized subcommand 'first.sql'\n\n  tip: to run this script, use 'sqlr run first.sql'\n"
    yield Case("script without a subcommand", ["first.sql"], 2, complaint=tip)
    tip = b"error: unrecognized subcommand 'explain'\n\n  tip: EXPLAIN is a statement, which stands before a SELECT in a script\n"
    yield Case("explain as a subcommand", ["explain", parts], 2, complaint=tip)
    tip = b"error: unrecognized subcommand 'version'\n\n  tip: the version is told by 'sqlr --version'\n"
    yield Case("version as a subcommand", ["version"], 2, complaint=tip)
    tip = b"error: unrecognized subcommand 'RUN'\n\n  tip: subcommands are written in small letters\n"
    yield Case("subcommand in capital letters", ["RUN", parts], 2, complaint=tip)
    yield Case("no such option", ["run", "--times", parts], 2, complaint=b"error: there is no option '--times'\n")
    tip = b"error: a script is missing\n\n  tip: 'sqlr run -' reads it from standard input\n"
    yield Case("no script", ["run"], 2, complaint=tip)
    yield Case("no script behind options", ["run", "--stop", "--as", "csv"], 2, complaint=tip)
    tip = b"error: a run takes one script\n\n  tip: 'cat examples/parts.sql examples/parts.sql | sqlr run -' runs one behind the other\n"
    yield Case("two scripts", ["run", parts, parts], 2, complaint=tip)
    yield Case("two scripts among options", ["run", "--as", "csv", parts, "--stop", parts], 2, complaint=tip)
    yield from option_cases(folder, full)
    yield Case("missing script", ["run", missing], 2, complaint=b"sqlr: examples/missing.sql: No such file or directory\n")
    statement = b"sqlr: SELECT 1;: No such file or directory\nsqlr: statements are read from a file, by `sqlr run -` from standard input, or behind `-c`\n"
    yield Case("statement as a script's name", ["run", "SELECT 1;"], 2, complaint=statement)
    alone = folder / "alone.sql"
    alone.write_bytes(b"CREATE TABLE T (A INTEGER); -- x\rSELECT A FROM T;\r")
    no_end = f"sqlr: {alone}: its lines end in CR alone, so that a remark goes on to the end of the script\n".encode()
    yield Case("lines that end in CR alone", ["run", str(alone)], 0, b"OK\n", no_end)
    beside = folder / "beside.sql"
    beside.write_text("CREATE TABLE T (A INTEGER);\nLOAD T FROM 'rows.csv';\n")
    (folder / "rows.csv").write_text("1\n")
    there = f"{beside}:2:13: error E22 42000: there is no file 'rows.csv'\nLOAD T FROM 'rows.csv';\n            ^\nhint: {folder}/rows.csv is there: "
    yield Case("file beside the script", ["run", str(beside)], 1, b"OK\nerror E22 42000\n", there.encode())
    yield Case("script that is a folder", ["run", "examples"], 2, complaint=b"sqlr: examples: Is a directory\n")
    no_text = f"sqlr: {not_text}:2:15: byte FF is not UTF-8: save the script in UTF-8\n".encode()
    yield Case("script that is no text", ["run", str(not_text)], 2, complaint=no_text)
    wide = f"sqlr: {utf16}: this is UTF-16: save it in UTF-8\n".encode()
    yield Case("script in UTF-16", ["run", str(utf16)], 2, complaint=wide)
    no_file = f"sqlr: {device}:2:13: examples: Is a directory\n".encode()
    yield Case("file that is a folder", ["run", str(device)], 2, b"OK\n", no_file)
    no_room = b"sqlr: standard output: No space left on device\n"
    yield Case("full output", ["run", parts], 2, complaint=no_room, output=full)
    yield Case("full output for help", ["--help"], 2, complaint=no_room, output=full)
    yield Case("output that no one reads", ["run", parts], 2, output=closed)
    no_output = b"sqlr: standard output: Bad file descriptor\n"
    yield Case("output that is closed", ["run", parts], 2, complaint=no_output, first=without_output)
    no_wait = b"sqlr: standard output: Resource temporarily unavailable\n"
    yield Case("output that would wait", ["run", parts], 2, complaint=no_wait, output=waiting)
    secret = folder / "secret.sql"
    secret.write_text("SELECT A FROM T;\n")
    secret.chmod(0)
    yield Case("unreadable script", ["run", str(secret)], 2, complaint=f"sqlr: {secret}: Permission denied\n".encode(), first=as_nobody)


def differences(program, case):
    # Help names the program as it is called.
    run = subprocess.run(
        ["sqlr", *case.words],
        executable=program,
        cwd=ROOT,
        input=case.typed,
        stdout=case.output,
        stderr=case.errors,
        preexec_fn=case.first,
    )
    printed, complained = run.stdout or b"", run.stderr or b""
    if run.returncode != case.status:
        yield f"status {run.returncode}, not {case.status}"
    if printed != case.printed:
        yield f"printed {printed}"
    if isinstance(case.complaint, re.Pattern):
        as_expected = case.complaint.fullmatch(complained)
    else:
        as_expected = complained.startswith(case.complaint) if case.complaint else not complained
    if not as_expected:
        yield f"complained {complained}"


def main():
    listed = {it.stem for it in (ROOT / "examples/faulty").glob("*.sql")}
    if listed != set(FAULTY):
        sys.exit(f"examples/faulty has {sorted(listed)}")
    program = pathlib.Path(sys.argv[1]) if len(sys.argv) > 1 else ROOT / "sqlr"
    # The first call of ./sqlr builds the program where it has to be, and says so.
    subprocess.run([program, "--help"], stdout=subprocess.DEVNULL)
    failed = 0
    reader, writer = os.pipe()
    os.close(reader)
    _, waiting = full_pipe()
    with tempfile.TemporaryDirectory() as folder, open("/dev/full", "wb") as full, open(writer, "wb") as closed:
        # Where others may go, and a program that they may call.
        os.chmod(folder, 0o755)
        for case in cases(pathlib.Path(folder), full, closed, waiting):
            own = shutil.copy(program, pathlib.Path(folder, "program")) if case.first is as_nobody else program
            found = list(differences(own, case))
            failed += bool(found)
            print(f"{case.name}: {'; '.join(found) if found else f'as expected, status {case.status}'}", flush=True)
    sys.exit(1 if failed else 0)


if __name__ == "__main__":
    main()
