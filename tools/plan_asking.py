"""Asks the program of single plans: by texts of certificates, for `check` says what is wrong with each.

A text with the target 0 and no state passes the first three rules, since nothing costs less. So it is refused by the fourth, and standard error
says what the plan costs, or why it isn't in the plan space, or that its rows come in another order than the required one.
"""
import pathlib
import re
import subprocess
from collections import namedtuple

# What is told of a plan: `costs` and what, as required; `in order` and in which, in the space and not as required; `partial`, a plan on some of the
# tables; `outside`, no plan; `no text`, which a part of a text is that refers to nothing or has no form; or `otherwise`, none of these.
Told = namedtuple("Told", "what number", defaults=(None,))
# What is printed of a file of texts, and the words of the first message, behind its place and `block 1: `.
Checked = namedtuple("Checked", "printed words")

OUTSIDE = "this is no plan of the block's plan space"
TOO_LONG = re.compile(r"an index has at most \d+ columns, and this plan matches one by more conjuncts")
ANSWERS = (
    ("costs", re.compile(r"the plan costs (\d+), and the target is 0")),
    ("in order", re.compile(r"the plan gives its rows in order (\d+), which isn't the order asked for")),
    ("partial", re.compile(r"the plan has tables? [\d, and]+ alone, and the block has \d+ tables?")),
    ("outside", re.compile(rf"{OUTSIDE}: .*|{OUTSIDE}|{TOO_LONG.pattern}")),
)
CANNOT_STAND = re.compile(rf"{OUTSIDE}: .* can't stand on tables? ([\d, and]+) in order (\d+)")
ORDERS = re.compile(r"there is no order \d+: the block has (?:order|the orders 0 to) (\d+)(?: alone)?")


def set_of(tables):
    """The number of a set of tables: the sum of 2^(t-1)."""
    return sum(2 ** (table - 1) for table in tables)


class Planner:
    """The program, asked of the last query of a script."""

    def __init__(self, program, script):
        self.program = pathlib.Path(program).resolve()
        self.script = script

    def check(self, texts):
        words = [self.program, "check", self.script, "-"]
        ran = subprocess.run(words, input=texts, capture_output=True, text=True)
        line = ran.stderr.partition("\n")[0]
        return Checked(ran.stdout, line.partition(": block 1: ")[2])

    def explain(self):
        """What is printed, where the last statement is an EXPLAIN."""
        ran = subprocess.run([self.program, "run", self.script], stdin=subprocess.DEVNULL, capture_output=True, text=True)
        return ran.stdout

    def check_plan(self, version, plan):
        return self.check(f"CERTIFICATE {version}\nBLOCK 1\nPLAN {plan}\nTARGET 0\nEND\n")

    def plan(self, version, plan):
        """What is told of a plan."""
        checked = self.check_plan(version, plan)
        if re.match(r"block 1 refused C[12]\b", checked.printed):
            return Told("no text")
        if not checked.printed.startswith("block 1 refused K4"):
            return Told("otherwise", checked)
        for what, words in ANSWERS:
            if found := words.fullmatch(checked.words):
                return Told(what, int(found[1]) if found.groups() else None)
        return Told("otherwise", checked)

    def state(self, version, plan, tables):
        """The tables of a plan, as the number of their set, and the number of its order: a loop over a table that is there already can't stand
        on it, and the message names both."""
        checked = self.check_plan(version, f"LOOP({plan},SEG {min(tables)})")
        found = CANNOT_STAND.fullmatch(checked.words)
        return found and (set_of(map(int, re.findall(r"\d+", found[1]))), int(found[2]))

    def greatest_order(self, version):
        """The last number of an order, which is told where a plan has one that isn't there."""
        found = ORDERS.fullmatch(self.check_plan(version, "SORT(ACCESS(SEG 1),999)").words)
        return found and int(found[1])
