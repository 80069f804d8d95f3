#!/usr/bin/env python3
"""Compares docs/FIRST_STEPS.md, docs/GUIDE.md and docs/REFUSALS.md with the cases of cases/first_steps, byte for byte.

usage: check_guide.py

The three pages are read as one. On it a csv block is a file, whose name stands in the line before it, as "the file `NAME`:". A sql
block is a script, and the text block that comes next is the screen of its run. An sh block with
"run NAME.sql" names the scripts of the screens behind it. Each script of the page has to be that of a case,
with the page's files and this screen, which is the case's output with each message directly before its error
line, and with the case's notes on plans somewhere between, in their order; and each case that isn't of forms named in words has to be on the page. A line tells of each
difference, and then the exit status is 1.
"""
import pathlib
import re
import sys

from cases import parse

ROOT = pathlib.Path(__file__).resolve().parent.parent
PAGES = [ROOT / "docs/FIRST_STEPS.md", ROOT / "docs/GUIDE.md", ROOT / "docs/REFUSALS.md"]
CASES = ROOT / "cases/first_steps"

# Where a message begins, as "script.sql:3:15: error E14 42000: ..", and where a line of output does that
# says that something is refused or raises an exception; both with the label, which is the same in both.
MESSAGE = re.compile(r"^(?=.+?:\d+: (error E\d\d \d{5}|exception \d{5}): )", re.MULTILINE)
REFUSED = re.compile(r"^(?=(error E\d\d \d{5}|exception \d{5})\b)", re.MULTILINE)


# A note on the plans of a statement, which stands before what the statement prints.
NOTE = re.compile(r"^.+?:\d+:\d+: note: .*\n", re.MULTILINE)


def blocks(text, faults):
    """The fenced blocks: line, language, body, and the last line of words before."""
    lines = text.splitlines(keepends=True)
    found, before, start = [], "", None
    for number, line in enumerate(lines, 1):
        if start is None and line.startswith("```"):
            start, language = number, line[3:].strip()
        elif start is None:
            before = line.strip() or before
        elif line.rstrip() == "```":
            found.append((start, language, "".join(lines[start : number - 1]), before))
            start = None
    if start is not None:
        faults.append(f"line {start}: the block is not closed")
    return found


def page(text, faults):
    """The files of the page with their lines, and its scripts: name, line of the screen, screen."""
    files, scripts, open_script, script_name = {}, {}, None, "script.sql"
    for line, language, body, before in blocks(text, faults):
        if language == "sh":
            run = re.search(r"\brun (\S+\.sql)", body)
            script_name = run[1] if run else script_name
            continue
        if open_script and language != "text":
            faults.append(f"line {open_script[0]}: no text block follows the script")
            open_script = None
        if language == "csv":
            name = re.search(r"file `([^`]+)`:$", before)
            if not name:
                faults.append(f"line {line}: no name of a file stands before the block")
            elif name[1] in files:
                faults.append(f"line {line}: the file {name[1]} stands twice")
            else:
                files[name[1]] = (line, body)
        elif language == "sql":
            open_script = (line, body)
        elif language == "text":
            if not open_script:
                faults.append(f"line {line}: no script stands before the screen")
            elif open_script[1] in scripts:
                faults.append(f"line {open_script[0]}: the script stands twice")
            else:
                scripts[open_script[1]] = (script_name, line, body)
            open_script = None
        else:
            faults.append(f"line {line}: a block is csv, sql, text or sh, and this one is '{language}'")
    if open_script:
        faults.append(f"line {open_script[0]}: no text block follows the script")
    return files, scripts


def screen(case, output, messages, faults):
    """What the run of a case shows: its output, with each message directly before its error line."""
    before, *told = MESSAGE.split(messages)
    shown, *refused = REFUSED.split(output)
    if before:
        faults.append(f"{case}: {before!r} stands before its messages")
    if told[::2] != refused[::2]:
        faults.append(f"{case}: its messages are on {told[::2]}, and its output has {refused[::2]}")
    for message, text in zip(told[1::2], refused[1::2]):
        shown += message + text
    return shown


def tested(faults):
    """The files of the cases, and their scripts, each with its case, its screen and its notes."""
    files, scripts = {}, {}
    for path in sorted(CASES.glob("*.case")):
        case = parse(path.read_bytes().decode())
        for name, body in case.files.items():
            if files.setdefault(name, body.decode()) != body.decode():
                faults.append(f"{path.name}: another case has another file {name}")
        for script in case.scripts:
            output, messages = script.output.decode(), (script.messages or b"").decode()
            shown = screen(path.name, output, NOTE.sub("", messages), faults)
            scripts[script.text.decode()] = (path.name, shown, NOTE.findall(messages))
    return files, scripts


def difference(line, shown, case, expected):
    """The first line that differs of a screen, whose block begins at a line of the page."""
    pairs = zip(f"{shown}```".split("\n"), f"{expected}```".split("\n"))
    number, (found, wanted) = next(it for it in enumerate(pairs, line + 1) if it[1][0] != it[1][1])
    return f"line {number}: the page has {found!r}, and {case} {wanted!r}"


def placed(fault):
    """A fault with the page that its line is on."""
    told = re.match(r"line (\d+): ", fault)
    if not told:
        return fault
    number = int(told[1])
    for path in PAGES:
        count = len(path.read_text(encoding="utf-8").splitlines())
        if number <= count:
            break
        number -= count
    return f"{path.name}:{number}: {fault[told.end():]}"


def main():
    if len(sys.argv) > 1:
        sys.exit(__doc__)
    faults = []
    files, scripts = page("".join(it.read_text(encoding="utf-8") for it in PAGES), faults)
    tested_files, tested_scripts = tested(faults)
    for name, (line, body) in files.items():
        if tested_files.get(name) != body:
            faults.append(f"line {line}: the file {name} is none of the cases'")
    for script, (name, line, shown) in scripts.items():
        case, *wanted = tested_scripts.get(script, (None, "", []))
        expected, notes = (re.sub(r"^script\.sql:", f"{name}:", it, flags=re.MULTILINE) for it in [wanted[0], "".join(wanted[1])])
        if case is None:
            faults.append(f"line {line}: the script before this screen is that of no case")
        elif NOTE.sub("", shown) != expected:
            faults.append(difference(line, NOTE.sub("", shown), case, expected))
        elif "".join(NOTE.findall(shown)) != notes:
            faults.append(f"line {line}: the page has other notes than {case}")
    for name in tested_files:
        if name not in files:
            faults.append(f"the cases' file {name} is on neither page")
    for script, (case, *_) in tested_scripts.items():
        if script not in scripts and not case.endswith("_in_words.case"):
            faults.append(f"{case}: a script of it is on neither page")
    for fault in faults:
        print(placed(fault))
    print(f"{len(files)} files and {len(scripts)} scripts with their screens on the pages, {len(faults)} faults")
    sys.exit(1 if faults else 0)


if __name__ == "__main__":
    main()
