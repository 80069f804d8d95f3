#!/usr/bin/env python3
"""Breaks files of rows, and looks whether those who ask rows tell it.

usage: broken_rows.py PROGRAM TESTS_ENGINE

tools/rows.py asks PROGRAM the rows of cases/rows, tools/plan_rows.py those of cases/plans, and TESTS_ENGINE, which is
crates/tests_engine/out/tests_engine, those of its data. Each is given a file with a row left out, one that says something else or is none, and no
file. The status of the tools has to be 1 then. The gate compares what TESTS_ENGINE prints with crates/tests_engine/stdout, so that has to differ.
"""
import functools
import pathlib
import re
import shutil
import subprocess
import sys
import tempfile

ROOT = pathlib.Path(__file__).resolve().parent.parent
# Each tool that asks rows, and its folder of them.
TOOLS = {"tools/rows.py": ROOT / "cases/rows", "tools/plan_rows.py": ROOT / "cases/plans"}
ENGINE = ROOT / "crates/tests_engine"


# ---- breaks of a file, as its lines


def is_row(line):
    return bool(line) and not line.startswith(("--", "tables ", "load ", "query ", "version "))


def without_a_row(lines):
    at = next(place for place, line in enumerate(lines) if is_row(line))
    return lines[:at] + lines[at + 1 :]


def with_another_answer(lines):
    at = next(place for place, line in enumerate(lines) if is_row(line))
    # an answer stands behind the question, or before the script
    changed = re.sub(r" = .*| \S+ \| ", lambda found: " = 17" if "=" in found[0] else " 17 | ", lines[at], count=1)
    return [*lines[:at], changed, *lines[at + 1 :]]


def with_no_row(lines):
    return [*lines, "stray"]


BREAKS = {
    "a row is left out": without_a_row,
    "a row says something else": with_another_answer,
    "a line is no row": with_no_row,
    "a file isn't there": None,
}


# ---- those who ask rows: whether they find the files of a folder as they have to be


def tool_is_content(tool, program, folder):
    # the rows that have to be asked
    count = sum(is_row(line) for file in TOOLS[tool].glob("*.rows") for line in file.read_text(encoding="utf-8").split("\n"))
    words = [sys.executable, ROOT / tool, program, "--folder", folder, "--count", str(count)]
    ran = subprocess.run(words, capture_output=True, text=True)
    if ran.returncode not in (0, 1) or ran.stderr:
        sys.exit(f"{tool} ended with status {ran.returncode}: {ran.stderr}")
    return ran.returncode == 0


def engine_is_content(program, folder):
    words = (ENGINE / "args").read_text().splitlines()
    printed = subprocess.run([program, *words], cwd=folder, capture_output=True, text=True).stdout
    return printed == (ENGINE / "stdout").read_text()


def count_untold(is_content, file):
    """How many broken files are not told, where this one of its folder is broken."""
    untold = 0
    with tempfile.TemporaryDirectory() as room:
        folder = pathlib.Path(room) / "data"
        shutil.copytree(file.parent, folder)
        if not is_content(folder):
            print(f"{file} is told to be wrong as it stands")
            untold += 1
        for what, broken in BREAKS.items():
            if broken:
                (folder / file.name).write_text("\n".join(broken(file.read_text(encoding="utf-8").splitlines())) + "\n", encoding="utf-8")
            else:
                (folder / file.name).unlink()
            if is_content(folder):
                print(f"of {file.relative_to(ROOT)} it isn't told that {what}")
                untold += 1
    print(f"{file.relative_to(ROOT)}: {len(BREAKS)} times broken, {untold} not told")
    return untold


def main():
    program, engine = (pathlib.Path(it).resolve() for it in sys.argv[1:])
    untold = 0
    for tool, folder in TOOLS.items():
        untold += count_untold(functools.partial(tool_is_content, tool, program), min(folder.glob("*.rows")))
    untold += count_untold(functools.partial(engine_is_content, engine), min((ENGINE / "data").glob("*.rows")))
    sys.exit(1 if untold else 0)


if __name__ == "__main__":
    main()
