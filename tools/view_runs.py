#!/usr/bin/env python3
"""Runs the commands of the stored runs of sqlr-plan and of the pages that show plans, and compares what they print.

usage: view_runs.py SQLR SQLR_PLAN [--count COUNT] [--write]

A stored run of views/*.runs is a line "$ COMMAND" and the lines that it prints, standard error behind standard output, with "[status N]" last
where that isn't 0. On docs/PLANS.md and docs/TEACHING.md an sh block is a command, if ./sqlr or ./sqlr-plan stands in it, and the text block that
comes next what it prints; a line ".." there stands for lines that are left out, as many as there are. Commands are run in the repository's folder.
A command whose output differs is told, with the first line that does; the status is 1 then, and where others than COUNT were run. With --write the
files of stored runs get what is printed now.
"""
import argparse
import pathlib
import re
import subprocess
import sys

ROOT = pathlib.Path(__file__).resolve().parent.parent
RUNS = ROOT / "views"
PAGES = [ROOT / "docs/PLANS.md", ROOT / "docs/TEACHING.md"]
BLOCK = re.compile(r"^```(\w*)\n(.*?)^```\n", re.MULTILINE | re.DOTALL)


def printed(command, programs):
    """What a command prints, by lines."""
    for name, program in programs.items():
        command = re.sub(rf"(?<![\w/.]){re.escape(name)}(?= )", program, command)
    ran = subprocess.run(["bash", "-c", command], cwd=ROOT, capture_output=True, text=True, stdin=subprocess.DEVNULL, timeout=60)
    lines = (ran.stdout + ran.stderr).splitlines()
    return lines + ([f"[status {ran.returncode}]"] if ran.returncode else [])


def stored(path):
    """The runs of a file: each command, and the lines that stand below it. Lines before the first are remarks."""
    runs = []
    for line in path.read_text().splitlines():
        if line.startswith("$ "):
            runs.append((line[2:], []))
        elif runs:
            runs[-1][1].append(line)
    return runs


def shown(path):
    """The commands of a page that call the programs, and the lines shown of what each prints."""
    command = None
    for language, body in BLOCK.findall(path.read_text()):
        if language == "sh":
            lines = [line for line in body.splitlines() if "./sqlr" in line]
            command = lines[0] if len(lines) == 1 else None
        elif language == "text" and command:
            yield command, body.splitlines()
            command = None


def difference(wanted, found):
    """The first line that isn't as wanted, if any; ".." is wanted of any lines up to the next that fits."""
    place, is_open = 0, False
    for line in wanted:
        if line == "..":
            is_open = True
            continue
        if is_open:
            while place < len(found) and found[place] != line:
                place += 1
        if place >= len(found) or found[place] != line:
            return f"wanted {line!r}, found {found[place] if place < len(found) else 'the end'!r}"
        place, is_open = place + 1, False
    return None if is_open or place == len(found) else f"more is printed: {found[place]!r}"


def main():
    asked = argparse.ArgumentParser()
    asked.add_argument("sqlr")
    asked.add_argument("viewer")
    asked.add_argument("--count", type=int)
    asked.add_argument("--write", action="store_true")
    words = asked.parse_args()
    programs = {"./sqlr-plan": str(pathlib.Path(words.viewer).resolve()), "./sqlr": str(pathlib.Path(words.sqlr).resolve())}
    count = failed = 0
    for path in sorted(RUNS.glob("*.runs")) + [page for page in PAGES if page.is_file()]:
        is_page = path in PAGES
        runs = list(shown(path) if is_page else stored(path))
        for command, wanted in runs:
            count += 1
            found = printed(command, programs)
            # a stored line never begins with "$ ", and a free line at its end is the file's
            fault = difference(wanted, found) if is_page else (None if "\n".join(wanted).rstrip() == "\n".join(found).rstrip() else difference([line for line in wanted], found))
            if fault and not (words.write and not is_page):
                failed += 1
                print(f"{path.relative_to(ROOT)}: {command}: {fault}")
        if words.write and not is_page:
            remarks = path.read_text().split("$ ", 1)[0]
            path.write_text(remarks + "".join(f"$ {command}\n" + "".join(f"{line}\n" for line in printed(command, programs)) + "\n" for command, _ in runs))
    if words.count is not None and count != words.count:
        failed += 1
        print(f"{count} commands were run, not {words.count}")
    print(f"{count} commands of stored runs and pages, {failed} differ")
    sys.exit(1 if failed else 0)


if __name__ == "__main__":
    main()
