#!/usr/bin/env python3
"""Asks the program what the rows of the folder `cases/plans` say of plans, costs and certificates.

usage: plan_rows.py PROGRAM [--folder FOLDER] [--count COUNT]

A file has groups of lines with an empty line between: `tables` and statements that make them, `query` and a query, `version` and the version of
the plan space (3 where none is named), and below these rows `QUESTION = ANSWER`. A line that begins with `--` is a comment. Plans and texts are
spelled as in docs/PLANS.md, but that the lines of a text end with `;`. The questions, and what answers them:

    plan PLAN             its cost, and `as required` where it gives the required order; `not in the space`, or `no such text`
    state of PLAN         the number of its set of tables, and that of its order
    paths                 the paths of the query's one table, of at most two conjuncts: each with the number of its order and its cost
    least                 in version 3 the target that EXPLAIN tells, and its states; and whether its text passes
    check TEXT            what is printed of the text
    read TEXT             `read`; or `too many conjuncts`, `no form`, `not there` or `no such states`
    beginnings of TEXT    how many of its proper beginnings have no form, and how many there are

A line tells of each file, and one of each row that is wrong. The last counts the rows; the status is 1 where one is wrong, or there are
others than COUNT.
"""
import itertools
import pathlib
import re
import tempfile

from plan_asking import TOO_LONG, Planner
from rows import ask_folder

ROWS = pathlib.Path(__file__).resolve().parent.parent / "cases/plans"
FAULTS = {"C1": "no form", "C2": "not there", "C3": "no such states"}


# ---- questions: each has its answer from the program, the version of the plan space, and what stands behind the question's words


def plan(planner, version, spelled):
    told = planner.plan(version, spelled)
    match told.what:
        case "costs":
            return f"{told.number} as required"
        case "in order":
            return cost_below_sorts(planner, version, spelled)
        case "partial" | "outside":
            return "not in the space"
        case "no text":
            return "no such text"


def cost_below_sorts(planner, version, spelled):
    """What a plan costs that isn't as required, and so is told no cost: that of a sort on top, less what a second sort adds."""
    once, twice = (planner.plan(version, it) for it in (f"SORT({spelled},1)", f"SORT(SORT({spelled},1),1)"))
    return str(2 * once.number - twice.number) if once.what == twice.what == "costs" else None


def state_of(planner, version, spelled):
    tables = re.findall(r"(?:SEG|IDX|MATCH) (\d+)", spelled)[:1]
    found = tables and planner.state(version, spelled, map(int, tables))
    return f"{found[0]} {found[1]}" if found else None


def paths(planner, version):
    told = []
    for path in spelled_paths(planner, version):
        cost = plan(planner, version, f"ACCESS({path})")
        if cost and cost[0].isdigit():
            _, order = state_of(planner, version, f"ACCESS({path})").split()
            told.append(f"{order} {path} {cost.removesuffix(' as required')};")
    return " ".join(told)


def spelled_paths(planner, version):
    """Texts of paths of the first table: of each of its indexes, and with at most two of the conjuncts that there are."""
    yield "SEG 1"
    conjuncts = list(those_there(planner, version, "MATCH 1.1/{}"))
    matches = ["".join(f"/{it}" for it in numbers) for length in (1, 2) for numbers in itertools.product(conjuncts, repeat=length)]
    for index in those_there(planner, version, "IDX 1.{}"):
        for back in ("", " BACK"):
            yield f"IDX 1.{index}{back}"
            yield from (f"MATCH 1.{index}{match}{back}" for match in matches)


def those_there(planner, version, path):
    """The numbers from 1 that a path may have at a place."""
    told = ((number, plan(planner, version, f"ACCESS({path.format(number)})")) for number in itertools.count(1))
    return (number for number, _ in itertools.takewhile(lambda it: it[1] not in (None, "no such text"), told))


def least(planner, version):
    _, first, lines = planner.explain().partition(f"CERTIFICATE {version}\n")
    told = re.findall(r"^(?:TARGET|STATE) (.*)", lines, re.MULTILINE)
    is_passed = planner.check(first + lines).printed == "block 1 pass\n"
    return f"{'; '.join(told)}: {'pass' if is_passed else 'refused'}"


def check(planner, _, text):
    return planner.check(text.replace(";", "\n")).printed.strip()


def read(planner, _, text):
    checked = planner.check(text.replace(";", "\n"))
    if fault := re.search(r"refused (C[123])", checked.printed):
        return FAULTS[fault[1]]
    return "too many conjuncts" if TOO_LONG.fullmatch(checked.words) else "read"


def beginnings_of(planner, version, text):
    without = sum(read(planner, version, text[:length]) == "no form" for length in range(len(text)))
    return f"{without} of {len(text)} without form"


ALONE = {it.__name__: it for it in (paths, least)}
QUESTIONS = {it.__name__.replace("_", " "): it for it in (plan, state_of, check, read, beginnings_of)}


def answer(planner, version, question):
    """What the program answers; None where it is no question."""
    if question in ALONE:
        return ALONE[question](planner, version)
    for words, ask_of in QUESTIONS.items():
        if question.startswith(f"{words} "):
            return ask_of(planner, version, question[len(words) + 1 :])
    return None


# ---- rows


class Group:
    """What rows are asked of."""

    def __init__(self):
        self.tables, self.query, self.version = [], None, "3"

    def takes(self, line):
        """Takes a line, or says that it is a row."""
        word, _, rest = line.partition(" ")
        match word:
            case "tables":
                self.tables.append(rest)
            case "query":
                self.query = rest
            case "version":
                self.version = rest
            case _:
                return False
        return True

    def script(self):
        return "\n".join([*self.tables, f"EXPLAIN {self.query}"]) + "\n"


def rows(text):
    """The rows of a file: the line of each, the script and the version that it is asked of, and the row."""
    group = Group()
    for number, line in enumerate(text.split("\n"), 1):
        if not line:
            group = Group()
        elif not line.startswith("--") and not group.takes(line):
            yield number, group.script(), group.version, line


def row_fault(program, script, version, row):
    """What is wrong with a row; None where nothing is."""
    question, _, wanted = row.partition(" = ")
    with tempfile.NamedTemporaryFile("w", suffix=".sql") as file:
        file.write(script)
        file.flush()
        found = answer(Planner(program, file.name), version, question)
    return None if found == wanted else f"{question} = {found}, and not {wanted}"


if __name__ == "__main__":
    ask_folder(__doc__, ROWS, rows, row_fault)
