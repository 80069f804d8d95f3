#!/usr/bin/env python3
"""Looks for hints that lead astray: breaks scripts and files that are right, and judges each hint by its remedy.

usage: mutated_hints.py PROGRAM [SCRIPTS [FILES]]

Breaks SCRIPTS statements and FILES files (20,000 and 2,000, unless said), always the same ones. In a statement a letter is changed, a token is left
out, doubled or moved, a sign or a word of another dialect is put in, or a reserved word stands for a name; in a file a field or the whole is written
as another program would. Then it does what the hint says: the fault has to go or to move on. A hint whose remedy no program can apply is passed
where `READ` says why it is right; what else leaves the fault where it was is printed, with its script. The last line counts; the status is 1 where a
hint is to be looked at.
"""
import collections
import concurrent.futures
import csv
import io
import os
import random
import re
import subprocess
import sys
import tempfile

SEED = 1979

TABLES = """CREATE TABLE PUPILS (NUMBER SMALLINT NOT NULL PRIMARY KEY, NAME CHAR(10), MARK NUMERIC(3,1), CLUB SMALLINT);
CREATE TABLE CLUBS (CLUB SMALLINT NOT NULL, TITLE CHAR(12), FEE NUMERIC(5,2));
CREATE INDEX ON PUPILS (CLUB);
"""

STATEMENTS = """
SELECT NAME, MARK FROM PUPILS WHERE MARK >= 8.5 AND CLUB = 2;
SELECT NAME, MARK * 2 AS TWICE FROM PUPILS WHERE NAME LIKE 'A%' OR MARK IS NULL;
SELECT PUPILS.NAME, TITLE FROM PUPILS, CLUBS WHERE PUPILS.CLUB = CLUBS.CLUB ORDER BY NAME;
SELECT P.NAME, C.TITLE FROM PUPILS P, CLUBS C WHERE P.CLUB = C.CLUB AND FEE < 10;
SELECT CLUB, COUNT(*) AS MEMBERS, AVG(MARK) FROM PUPILS GROUP BY CLUB HAVING COUNT(*) > 1;
SELECT DISTINCT CLUB FROM PUPILS WHERE MARK BETWEEN 5 AND 9 ORDER BY CLUB DESC;
SELECT NAME FROM PUPILS WHERE CLUB IN (1, 2, 3) AND NOT NAME = 'Ben';
SELECT NAME FROM PUPILS WHERE CLUB NOT IN (SELECT CLUB FROM CLUBS WHERE FEE > 5.00);
SELECT TITLE FROM CLUBS C WHERE EXISTS (SELECT * FROM PUPILS P WHERE P.CLUB = C.CLUB);
SELECT NAME FROM PUPILS WHERE MARK > (SELECT AVG(MARK) FROM PUPILS);
SELECT NAME FROM PUPILS WHERE MARK >= ALL (SELECT MARK FROM PUPILS WHERE MARK IS NOT NULL);
EXPLAIN SELECT NAME, TITLE FROM PUPILS, CLUBS WHERE PUPILS.CLUB = CLUBS.CLUB;
CREATE TABLE MARKS (NUMBER INTEGER NOT NULL UNIQUE, SUBJECT CHAR(20), MARK NUMERIC(4,1));
CREATE UNIQUE INDEX ON CLUBS (TITLE);
SET STATISTICS PUPILS ROWS 1000 PAGES 10;
SET STATISTICS PUPILS (CLUB) KEYS 50 PAGES 4 CLUSTERED LOW 1 HIGH 50;
SELECT * FROM CLUBS ORDER BY FEE, TITLE;
SELECT SUM(MARK), MAX(NAME) FROM PUPILS WHERE NUMBER <> 4;
SELECT CLUB, COUNT(*) FROM PUPILS GROUP BY CLUB ORDER BY 2 DESC;
LOAD PUPILS FROM 'pupils.csv';
""".strip().splitlines()

TOKEN = re.compile(r"'[^']*'|[A-Za-z]\w*|\d+(?:\.\d+)?|[<>]=|<>|\S")
WORD = re.compile(r"[A-Za-z]\w*")

RESERVED = "ALL AND ANY AS AVG BY COUNT DISTINCT FROM GROUP HAVING IN INDEX KEY LIKE NOT NULL ON OR ORDER SELECT SET SUM TABLE UNIQUE WHERE".split()
SIGNS = list(",();.=%*+-/|") + ["'", '"', "/* x */", "=="]
OTHERS = "JOIN LEFT INNER LIMIT UNION TOP CASE WITH DEFAULT OFFSET INTO ESCAPE VARCHAR NULLS MINUS".split()

# A broken text, and what was done to it.
Broken = collections.namedtuple("Broken", "text change")

# A fault as it is told: its label, the byte of its line (of a file its record and field), its words and its hint.
Fault = collections.namedtuple("Fault", "label place words hint")


# ---- broken statements


def with_letter(dice, tokens):
    place = dice.choice([i for i, token in enumerate(tokens) if WORD.fullmatch(token) and len(token) > 1])
    word = tokens[place]
    at = dice.randrange(len(word))
    letter = dice.choice("ABCDEFGHIJKLMNOPQRSTUVWXYZ")
    new = dice.choice([word[:at] + letter + word[at + 1 :], word[:at] + word[at] + word[at:], word[:at] + word[at + 1 :]])
    return [*tokens[:place], new, *tokens[place + 1 :]], f"{word} is {new}"


def without_token(dice, tokens):
    place = dice.randrange(len(tokens))
    return [*tokens[:place], *tokens[place + 1 :]], f"{tokens[place]} is left out"


def with_double(dice, tokens):
    place = dice.randrange(len(tokens))
    return [*tokens[:place], tokens[place], *tokens[place:]], f"{tokens[place]} is doubled"


def with_move(dice, tokens):
    place, to = dice.randrange(len(tokens) - 1), dice.randrange(len(tokens) - 1)
    rest = [*tokens[:place], *tokens[place + 1 :]]
    return [*rest[:to], tokens[place], *rest[to:]], f"{tokens[place]} is moved"


def with_put_in(dice, tokens):
    new, place = dice.choice(SIGNS + OTHERS), dice.randrange(len(tokens))
    return [*tokens[:place], new, *tokens[place:]], f"{new} is put in"


def with_reserved(dice, tokens):
    place = dice.choice([i for i, token in enumerate(tokens) if WORD.fullmatch(token) and token not in RESERVED])
    new = dice.choice(RESERVED)
    return [*tokens[:place], new, *tokens[place + 1 :]], f"{tokens[place]} is {new}"


def spelled(tokens):
    """Tokens as people write them: no space around a point, before a comma or within parentheses."""
    text = " ".join(tokens)
    return re.sub(r" ?\. ?(?=[A-Z*])", ".", re.sub(r" (?=[,;)])|(?<=\() ", "", re.sub(r"(?<=\w) \((?=\S)", " (", text)))


def broken_statements(count):
    dice = random.Random(SEED)
    how = [with_letter, with_letter, without_token, without_token, with_double, with_move, with_put_in, with_put_in, with_reserved, with_reserved]
    for _ in range(count):
        tokens, change = dice.choice(how)(dice, TOKEN.findall(dice.choice(STATEMENTS)))
        yield Broken(spelled(tokens), change)


MESSAGE = re.compile(r"<stdin>:4:(\d+): error (E\d\d) \d{5}: (.*)")


def fault_of_statement(program, text):
    """The fault of a statement behind those that make the tables, if it has one."""
    run = subprocess.run([program, "run", "-"], input=(TABLES + text + "\n").encode(), capture_output=True)
    said = run.stderr.decode().splitlines()
    for number, line in enumerate(said):
        told = MESSAGE.match(line)
        if told:
            hint = next((it.removeprefix("hint: ") for it in said[number + 1 : number + 4] if it.startswith("hint: ")), None)
            return Fault(told[2], int(told[1]) - 1, told[3], hint)
    return None


# ---- remedies: the texts that a hint may mean, where a token stands from `at` to `end`


def instead(*words):
    return lambda text, at, end, told: [text[:at] + word + text[end:] for word in words]


def before(*words):
    return lambda text, at, end, told: [f"{text[:at]}{word} {text[at:]}" for word in words]


def meant(text, at, end, told):
    """The word in place of the one that stands there, or of the one before it."""
    earlier = list(WORD.finditer(text[:at]))[-1:]
    return [text[:at] + told[1] + text[end:], *(text[: it.start()] + told[1] + text[it.end() :] for it in earlier)]


def columns_written(text, at, end, told):
    """Each of the columns that a hint says to write, in place of the one that stands there, with or without a table before it."""
    column = re.match(r"[\w.]*", text[at:]).end() + at
    return [text[:at] + it + text[column:] for it in re.split(r", | or ", told[1])]


def without_comma(text, at, end, told):
    place = text.rindex(",", 0, at)
    return [text[:place] + " " + text[place + 1 :]]


def left_out(text, at, end, told):
    """Without the token that stands there."""
    return [text[:at] + text[end:]]


def other_key(text, at, end, told):
    """A number in place of the keys of the last ORDER BY before."""
    begin = text.upper().rindex("BY", 0, at) + 2
    return [text[:begin] + " 1" + text[text.find(";", at) if ";" in text[at:] else len(text) :]]


def other_group(text, at, end, told):
    begin = text.upper().rindex("BY", 0, at) + 2
    behind = re.search(r"HAVING|ORDER|;|$", text[at:]).start() + at
    return [f"{text[:begin]} CLUB {text[behind:]}"]


def without_order(text, at, end, told):
    behind = re.search(r"\)|$", text[at:]).start() + at
    return [text[:at] + text[behind:]]


def written_list(text, at, end, told):
    """An asterisk alone, or without it."""
    star = text.rindex("*", 0, at)
    until = text.upper().find("FROM", at)
    return [text[: star + 1] + " " + text[max(until, at) :], text[:star] + text[end:]]


def without_table(text, at, end, told):
    return [re.sub(r"\w+ ?\. ?\*", "*", text)]


def is_null(text, at, end, told):
    return [re.sub(r"(=|<>|[<>]=?) ?$", "IS ", text[:at]) + text[at:]]


def added(text, at, end, told):
    return [re.sub(r"SELECT( ALL)?", rf"SELECT {told[1]},", text, count=1)]


def numbered(text, at, end, told):
    return [text[:at] + told[1] + text[end:]]


def without_remark(text, at, end, told):
    return [re.sub(r"/ ?\*.*?(\* ?/|$)", " ", text), re.sub(r"#.*", "", text)]


def doubled_quote(text, at, end, told):
    return [re.sub(r"(?<=\w)'(?=[A-Za-z])", "''", text)]


REMEDIES = {
    r"did you mean (\S+)\?": meant,
    r"write ([\w., ]+)": columns_written,
    r"write its number: (\d+) or \d+": numbered,
    r"ORDER BY takes result columns: put (\w+) into the list of SELECT": added,
    r"\w+ is a reserved word and can't be a name": instead("ZZZ"),
    r"the comma before it is one too many": without_comma,
    r'a ";" is missing before it.*': before(";"),
    r'a ";" ends each statement': lambda text, at, end, told: [text + ";"],
    r"a single ; ends a statement": left_out,
    r"a comma stands between two columns.*": before(",", "AS"),
    r"the name of a table is missing before it": before("PUPILS"),
    r"the name of the table is missing.*": before("PUPILS"),
    r"an index has no name of its own.*": left_out,
    r"a column that is a key has NOT NULL before it": before("NOT NULL"),
    r"equal is a single =": left_out,
    r"ORDER BY takes the name of a result column or its number.*": other_key,
    r"GROUP BY takes the names of columns": other_group,
    r"a subquery has no ORDER BY": without_order,
    r"DISTINCT stands right behind SELECT.*": left_out,
    r"DISTINCT leaves out rows that come again": instead("DISTINCT"),
    r"\* stands alone.*": written_list,
    r"there is no \.\* here.*": without_table,
    r"IS NULL asks whether.*": is_null,
    r"a remark begins with --.*": without_remark,
    r"a quote within a text is written twice.*": doubled_quote,
    r"names stand without quotes.*|strings stand in straight.*": lambda text, at, end, told: [text.replace('"', ""), text.replace('"', "'")],
    r"values may be missing where NOT NULL doesn't stand.*": left_out,
    r"LOAD name FROM 'file' names its table without \w+": lambda text, at, end, told: [re.sub(r"LOAD (TABLE|INTO) ", "LOAD ", text)],
    r"the operators are \+ - \* and /": instead("*", "/"),
    r"LIKE takes a pattern in quotes.*": instead("'A%'"),
    r"a pattern stands in quotes.*": lambda text, at, end, told: [re.sub(r"LIKE +(\w*%\w*)", r"LIKE '\1'", text)],
    r"the other name of a table stands behind it without AS": left_out,
    r"INTEGER and SMALLINT take no number of digits": lambda text, at, end, told: [text[:at] + re.sub(r"^\([^)]*\)", "", text[at:])],
}

# Hints that say what there is not, or name no one remedy: why they are right where they are told.
READ = {
    "there is no": "the word or the sign of the other dialect stands at the place",
    "to join tables write a comma between them": "JOIN stands there, and the condition has to move",
    "the functions here are": "a parenthesis stands right behind a name that is none",
    "its digits belong to the type": "NUMERIC stands there without a parenthesis",
    "a SELECT has FROM": "a query ends before its FROM",
    "a key of several columns is made by": "PRIMARY KEY or UNIQUE stands for a column, before KEY or a parenthesis",
    "LOAD has no options": "a name stands behind the file",
    "rows come from LOAD": "INSERT or another such word begins the statement",
    "tables last until": "DROP or another such word begins the statement",
    "texts are CHAR": "VARCHAR or another such word stands for a type",
    "commands that begin with": "a point or a backslash begins the statement",
    "nulls come before": "NULLS stands behind a key",
    "keys have no names": "CONSTRAINT stands for a column",
}


def is_read(hint):
    return any(hint.startswith(it) for it in READ)


def is_cured(fault, text, cured, again):
    """Whether a fault has gone, or moved on: nearer to the end, or one of another kind."""
    return again is None or again.label != fault.label or len(cured) - again.place < len(text) - fault.place


def judge_statement(program, broken):
    """The fault of a broken statement, and whether its hint's remedy helps; none where it has no hint, or none that a program can apply."""
    fault = fault_of_statement(program, broken.text)
    if not fault or not fault.hint:
        return fault, None
    for form, remedy in REMEDIES.items():
        told = re.fullmatch(form, fault.hint)
        if told:
            token = TOKEN.match(broken.text, fault.place)
            end = token.end() if token else fault.place
            try:
                texts = remedy(broken.text, fault.place, end, told)
            except ValueError:
                return fault, False
            return fault, any(is_cured(fault, broken.text, it, fault_of_statement(program, it)) for it in texts)
    return fault, None if is_read(fault.hint) else False


# ---- broken files

FILE_TABLE = "CREATE TABLE T (A INTEGER NOT NULL, B NUMERIC(7,2), C CHAR(12));\nLOAD T FROM 't.csv';\n"
FIELDS = {
    "with a comma": lambda it: f"1,{it}",
    "with spaces": lambda it: f" {it}",
    "with a currency": lambda it: f"{it} €",
    "with a percent sign": lambda it: f"{it}%",
    "with an exponent": lambda it: f"{it}e1",
    "empty": lambda it: "",
    "missing": lambda it: "NULL",
    "with a unit": lambda it: f"{it} EUR",
    "with a word": lambda it: f"Ref {it}",
    "with another minus": lambda it: f"\u2212{it}",
    "with another space": lambda it: f"1\u00a0{it}",
    "a word": lambda it: "three",
    "a date": lambda it: "2026-01-05",
    "in parentheses": lambda it: f"({it})",
    "with an apostrophe": lambda it: f"5'{it}",
}
WHOLE = {
    "with headings": lambda text: "A,B,C\n" + text,
    "with semicolons": lambda text: text.replace(",", ";"),
    "with tabs": lambda text: text.replace(",", "\t"),
    "with an open quote": lambda text: text.replace("\n", '\n"', 1),
    "with an accent": lambda text: text.replace("text", "tëxt", 1),
}


def broken_files(count):
    dice = random.Random(SEED)
    for _ in range(count):
        rows = [[str(dice.randrange(1, 900)), f"{dice.randrange(1, 900)}.{dice.randrange(10)}", f"text {i}"] for i in range(3)]
        if dice.random() < 0.3:
            name = dice.choice(sorted(WHOLE))
            yield Broken(WHOLE[name](as_file(rows)), name)
        else:
            name, row, column = dice.choice(sorted(FIELDS)), dice.randrange(3), dice.randrange(2)
            rows[row][column] = FIELDS[name](rows[row][column])
            yield Broken(as_file(rows), f"record {row + 1}, field {column + 1} {name}")


def as_file(rows):
    out = io.StringIO()
    csv.writer(out, lineterminator="\n").writerows(rows)
    return out.getvalue()


RECORD = re.compile(r"t\.csv:\d+: error (E\d\d) \d{5}: record (\d+)(?:, field (\d+))?(.*)")


def fault_of_file(program, text):
    with tempfile.TemporaryDirectory() as room:
        with open(os.path.join(room, "t.csv"), "w", encoding="utf-8", newline="") as file:
            file.write(text)
        run = subprocess.run([program, "run", "-"], input=FILE_TABLE.encode(), capture_output=True, cwd=room)
    said = run.stderr.decode().splitlines()
    told = next(filter(None, map(RECORD.match, said)), None)
    hint = next((it.removeprefix("hint: ") for it in said if it.startswith("hint: ")), None)
    return told and Fault(told[1], (int(told[2]), int(told[3] or 0)), told[4], hint)


def on_field(change):
    """A remedy of the field that a fault is of."""

    def remedy(text, place):
        rows = list(csv.reader(io.StringIO(text)))
        row, column = place
        rows[row - 1][column - 1] = change(rows[row - 1][column - 1])
        return as_file(rows)

    return remedy


FILE_REMEDIES = {
    r"a number is written without commas.*": on_field(lambda it: it.replace(",", "")),
    r"no space stands before or behind a number": on_field(str.strip),
    r"a number stands alone.*": on_field(lambda it: re.sub(r" ?[€$£¥%] ?", "", it)),
    r"a number has no exponent.*": on_field(lambda it: f"{float(it):f}".rstrip("0").rstrip(".")),
    r"write \\N for null": on_field(lambda it: r"\N"),
    r"character \d+ is .*": on_field(lambda it: re.sub(r"[^ -~]", "", it)),
    r"this looks like a line of headings.*": lambda text, place: text.split("\n", 1)[1],
    r"fields are parted by commas, and here semicolons stand": lambda text, place: text.replace(";", ","),
    r"fields are parted by commas, and here tabs stand": lambda text, place: text.replace("\t", ","),
    r"a quote in this record is not closed.*": lambda text, place: text.replace('"', ""),
}


def judge_file(program, broken):
    fault = fault_of_file(program, broken.text)
    if not fault or not fault.hint:
        return fault, None
    for form, remedy in FILE_REMEDIES.items():
        if re.fullmatch(form, fault.hint):
            try:
                again = fault_of_file(program, remedy(broken.text, fault.place))
            except (ValueError, IndexError):
                return fault, False
            return fault, again is None or again.place > fault.place or again.label != fault.label
    return fault, False


# ---- all of them


def tell(what, broken, judged):
    """Tells of the hints that don't help, the most frequent first, and gives how many there are."""
    hints = sum(bool(fault and fault.hint) for fault, _ in judged)
    applied = sum(helps is not None for _, helps in judged)
    astray = collections.defaultdict(list)
    for text, (fault, helps) in zip(broken, judged):
        if helps is False:
            astray[re.sub(r"\b[A-Z]\w*\b", "X", fault.hint)].append((text, fault))
    for those in sorted(astray.values(), key=len, reverse=True):
        print(f"{len(those)} times, as: {those[0][1].hint}")
        for text, fault in those[:4]:
            print(f"    {text.text!r}    -- {text.change}\n        {fault.label} at {fault.place}: {fault.words}   [{fault.hint}]")
    count = sum(map(len, astray.values()))
    print(f"{len(broken)} {what}, {sum(fault is not None for fault, _ in judged)} with a fault, {hints} hints, {applied} judged by their remedy, {count} to be looked at")
    return count


def main():
    program = os.path.abspath(sys.argv[1])
    scripts, files = (int(it) for it in (*sys.argv[2:4], *["20000", "2000"][len(sys.argv[2:4]) :]))
    with concurrent.futures.ThreadPoolExecutor(os.cpu_count()) as pool:
        statements = list(broken_statements(scripts))
        astray = tell("statements", statements, list(pool.map(lambda it: judge_statement(program, it), statements)))
        texts = list(broken_files(files))
        astray += tell("files", texts, list(pool.map(lambda it: judge_file(program, it), texts)))
    sys.exit(1 if astray else 0)


if __name__ == "__main__":
    main()
