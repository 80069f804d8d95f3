#!/usr/bin/env python3
"""Checks that docs/ARCHITECTURE.md names files and crates that are there.

usage: check_architecture.py

Each path on the page has to be that of a file or a folder: `CRATE/src/NAME.rt` stands in crates, `{a,b}` for each of its words, and a name
without a crate, as `certificate.rt`, for a file of the crate that stands before it. In the tables of terms and of changes, a name in capitals
is a file of definitions. In the table of crates each crate of crates.txt has a row, and no other one. In the table of terms a type or a call has to
stand in its row's files. In the table of changes, the words of the second column are looked for in the code: a file of src that names one and
isn't in the row's list is told. A line tells of each fault, and then the status is 1.
"""
import pathlib
import re
import sys

ROOT = pathlib.Path(__file__).resolve().parent.parent
CRATES = ROOT / "crates"
PAGE = ROOT / "docs/ARCHITECTURE.md"
FOLDERS = {it.name for it in ROOT.iterdir() if it.is_dir()} - {"crates", "cases"}
DEFINITIONS = [CRATES / it / "specs" for it in ("definitions", "definitions_execution", "definitions_answers")]

# What looks like a path: words with a slash, or with the ending of a file.
PATH = re.compile(r"[\w{},/.*-]*(?:/[\w{},./*-]+|\.(?:rt|antt|py|md|txt))")
DEFINITION = re.compile(r"[A-Z]\w*(?:/[\w{},]+)*")


def with_each(text):
    """A text with one word of each pair of braces, in all ways."""
    found = re.search(r"\{([^{}]*)\}", text)
    if not found:
        return [text]
    return [it for word in found[1].split(",") for it in with_each(text[: found.start()] + word.strip() + text[found.end() :])]


def ticked(text):
    return re.findall(r"`([^`]+)`", text)


def crate_names():
    lines = (ROOT / "crates.txt").read_text().splitlines()
    return [it.partition(":")[0] for it in lines if it and not it.startswith("#")]


def file_of(name, crate):
    """The file or folder that a name means, behind the name of a crate; none where it isn't there."""
    head = name.partition("/")[0]
    if head in FOLDERS:
        tried = [ROOT / name]
    elif "/" in name:
        tried = [CRATES / name, CRATES / f"{name}.antt", CRATES / crate / name, CRATES / crate / "src" / name, ROOT / name]
    else:
        tried = [*(CRATES / crate).glob(f"src/**/{name}"), ROOT / name, ROOT / "docs" / name]
    return next((it for it in tried if it.exists()), None)


def definition_of(name):
    return next((it / f"{name}.antt" for it in DEFINITIONS if (it / f"{name}.antt").exists() or (it / name).is_dir()), None)


def files_in(text, takes_definitions, faults):
    """The files that a text names; one that isn't there is a fault."""
    found, crate = [], ""
    for word in ticked(text):
        if "NAME" in word or "*" in word or "::" in word or not (PATH.fullmatch(word) or takes_definitions and DEFINITION.fullmatch(word)):
            continue
        for name in with_each(word):
            head = name.partition("/")[0]
            crate = head if (CRATES / head).is_dir() and "/" in name else crate
            is_definition = takes_definitions and name[0].isupper() and "." not in name
            path = definition_of(name) if is_definition else file_of(name, crate)
            faults += [] if path else [f"no file {name}"]
            found += [path] if path else []
    return found


def rows(text):
    """The rows of tables: the words of the head's first cell, and the cells."""
    head = None
    for number, line in enumerate(text.splitlines(), 1):
        cells = [it.strip() for it in line.strip("|").split("|")] if line.startswith("|") else None
        if cells is None:
            head = None
        elif head is None:
            head = cells[0]
        elif not line.startswith("| ---"):
            yield number, head, cells


def term_faults(cells):
    """What is wrong with a row of the table of terms."""
    faults = []
    text = "\n".join(it.read_text() for it in files_in(cells[2], True, faults) if it.is_file())
    names = [word.rpartition("::")[2] for words in ticked(cells[1]) for word in with_each(words)]
    return faults + [f"{it} doesn't stand in its row's files" for it in names if not re.search(rf"\b{re.escape(it)}\b", text)]


def pattern(word):
    """What stands in code for a word of the second column: `Type::` with a variant, `const MAX_` with a name."""
    front = r"\b" if word[0].isalnum() else ""
    return front + re.escape(word) + (r"\b" if word[-1].isalnum() else "[A-Z]" if word[-1] in ":_" else "")


def change_faults(cells, code):
    """What is wrong with a row of the table of changes."""
    faults = []
    named = set(files_in(cells[2], True, faults))
    for word in ticked(cells[1]):
        used = [path for path, text in code.items() if re.search(pattern(word), text)]
        faults += [f"{it.relative_to(CRATES)} names {word}" for it in used if it not in named]
        faults += [] if used else [f"no file names {word}"]
    return faults


def main():
    if len(sys.argv) > 1:
        sys.exit(__doc__)
    page, faults = PAGE.read_text(), []
    code = {it: it.read_text() for crate in crate_names() if not crate.startswith(("tests_", "cases_")) for it in (CRATES / crate / "src").rglob("*.rt")}
    listed = []
    for number, head, cells in rows(page):
        told = []
        if head == "crate":
            listed += [it for it in ticked(cells[0]) if "*" not in it]
        elif head == "term":
            told = term_faults(cells)
        elif head == "change":
            told = change_faults(cells, code)
        faults += [f"line {number}: {it}" for it in told]
    for number, line in enumerate(page.splitlines(), 1):
        if not line.startswith("|"):
            told = []
            files_in(line, False, told)
            faults += [f"line {number}: {it}" for it in told]
    faults += [f"{it} has no row" for it in crate_names() if it not in listed]
    faults += [f"{it} has a row and isn't in crates.txt" for it in listed if it not in crate_names()]
    for fault in faults:
        print(fault)
    print(f"{len(listed)} crates and their files in {PAGE.name}, {len(faults)} faults")
    sys.exit(1 if faults else 0)


if __name__ == "__main__":
    main()
