#!/usr/bin/env python3
"""Compares what `sqlr check` tells of texts of certificates with what their definition says, written out plainly here.

    tools/check_texts.py PROGRAM bytes     each change of one byte, each byte left out and each put in, of two texts
    tools/check_texts.py PROGRAM blocks    texts of 200 made blocks as EXPLAIN prints them, each also with one value changed

A line counts what was told of how many texts; the status is 1 where the program tells another thing of one of them. The figures of plans
are those of tools/plan_rules.py. The first takes three processor minutes.

A text is cut from the file up to and with its line END, and read by the version that its first line names. It is refused C1 where it
hasn't the form, C2 where a number isn't there, C3 where states don't rise or aren't below the target, and K1 to K4 by the first rule that
fails: accesses, joins, sorts, target (docs/PLANS.md).
"""
import collections
import concurrent.futures
import itertools
import os
import pathlib
import random
import re
import subprocess
import sys
import tempfile
from dataclasses import dataclass

from plan_rules import LIMIT, Above, Block, Column, Equals, Equation, Index, Key, Loop, Measured, Merge, Path, Sort, Space, Table, Version, script_of

MOST_PLAN_WORDS = 64
NUMBER = rb"(0|[1-9][0-9]{0,18})"
TEXT = re.compile(
    rb"CERTIFICATE (?P<version>[123])\nBLOCK " + NUMBER + rb"\nPLAN (?P<plan>[^\n]*)\nTARGET " + NUMBER + rb"\n(?P<states>(STATE [^\n]*\n)*)END\n"
)
STATE = re.compile(rb"STATE " + NUMBER + rb" " + NUMBER + rb" " + NUMBER)
SEGMENT = re.compile(rb"SEG " + NUMBER)
INDEX = re.compile(rb"(IDX|MATCH) " + NUMBER + rb"\." + NUMBER + rb"((?:/(?:0|[1-9][0-9]*))*)( BACK)?")


class BadForm(Exception):
    """The bytes haven't the form of a text."""


class NotThere(Exception):
    """A number isn't there."""


# ---- reading


def number(digits):
    if int(digits) > LIMIT:
        raise BadForm
    return int(digits)


@dataclass(frozen=True)
class Written:
    """What a text says: the block's number, the steps of its plan from the innermost on, its target and its states."""

    version: Version
    block: int
    path: Path
    steps: tuple
    target: int
    states: tuple[tuple[int, int, int], ...]


class PlanReader:
    """Reads the line of a plan from the left."""

    def __init__(self, version, line):
        self.version = version
        self.line = line
        self.at = 0

    def has(self, word):
        if not self.line.startswith(word, self.at):
            return False
        self.at += len(word)
        return True

    def take(self, pattern):
        if not (met := re.compile(pattern).match(self.line, self.at)):
            raise BadForm
        self.at = met.end()
        return met

    def path(self):
        if met := SEGMENT.match(self.line, self.at):
            self.at = met.end()
            return Path(number(met[1]))
        met = self.take(INDEX)
        conjuncts = tuple(number(digits) for digits in met[4].split(b"/")[1:])
        first_form = self.version == Version.ONE
        if (met[1] == b"MATCH") != bool(conjuncts) or first_form and (len(conjuncts) > 1 or met[5]):
            raise BadForm
        return Path(number(met[2]), number(met[3]), conjuncts, bool(met[5]))

    def plan(self):
        """The innermost path, and the steps on top of it. The words of a plan stand before what it is on, and the rest behind it."""
        words = []
        while met := re.compile(rb"(LOOP|MERGE|SORT)\(").match(self.line, self.at):
            self.at = met.end()
            words.append(met[1])
        self.take(rb"ACCESS\(")
        if len(words) >= MOST_PLAN_WORDS:
            raise BadForm
        innermost = self.path()
        self.take(rb"\)")
        steps = tuple(self.step(word) for word in reversed(words))
        if self.at != len(self.line):
            raise BadForm
        return innermost, steps

    def step(self, word):
        self.take(rb",")
        if word == b"LOOP":
            step = Loop(self.path())
        elif word == b"SORT":
            step = Sort(number(self.take(NUMBER)[1]))
        else:
            conjunct = number(self.take(NUMBER)[1])
            self.take(rb",")
            is_sorted = self.has(b"SORTED ")
            step = Merge(conjunct, self.path(), is_sorted)
        self.take(rb"\)")
        return step


def written(text):
    if not (met := TEXT.fullmatch(text)):
        raise BadForm
    version = Version(int(met["version"]))
    path, steps = PlanReader(version, met["plan"]).plan()
    states = []
    for line in met["states"].split(b"\n")[:-1]:
        if not (state := STATE.fullmatch(line)):
            raise BadForm
        states.append(tuple(map(number, state.groups())))
    return Written(version, number(met[2]), path, steps, number(met[4]), tuple(states))


# ---- judging


class Judge:
    """Judges what a text says of the block of a number."""

    def __init__(self, block, block_number, version):
        self.space = Space(block, version)
        self.block_number = block_number
        self.numbers = sorted(self.space.all_tables)

    # -- what is there

    def own_index(self, path):
        """The number of the index of a path. In the first version it goes by its column."""
        indexes = self.space.table(path.table).indexes
        if self.space.version > Version.ONE:
            return path.index if path.index in self.space.indexes_of(path.table) else None
        alone = [place for place, index in enumerate(indexes, 1) if index.columns == (path.index,)]
        return alone[0] if alone else None

    def own_path(self, path):
        if path.table not in self.space.all_tables:
            raise NotThere
        if any(not 1 <= conjunct <= len(self.space.block.conjuncts) for conjunct in path.conjuncts):
            raise NotThere
        if path.index is None:
            return path
        if not (index := self.own_index(path)):
            raise NotThere
        return Path(path.table, index, path.conjuncts, path.backward)

    def own_step(self, step):
        match step:
            case Sort(order=order):
                if order >= len(self.space.orders):
                    raise NotThere
                return step
            case Merge(conjunct=conjunct):
                if not 1 <= conjunct <= len(self.space.block.conjuncts):
                    raise NotThere
                return Merge(conjunct, self.own_path(step.path), step.is_sorted)
            case Loop():
                return Loop(self.own_path(step.path))

    def tables_of(self, place):
        """The tables of a state's set, a sum of 2^(t-1)."""
        tables = frozenset(table for table in self.numbers if place >> (table - 1) & 1)
        if not tables or place >= 2 ** len(self.numbers):
            raise NotThere
        return tables

    def state_of(self, tables, order, cost):
        tables = self.tables_of(tables)
        if order >= len(self.space.orders) or any(key.column.table not in tables for key in self.space.orders[order]):
            raise NotThere
        return tables, order, cost

    # -- bounds

    def fold(self, tables, order):
        """The order itself where it is still of use, else none."""
        keys, block = self.space.orders[order], self.space.block
        if block.required and self.space.gives_required(order):
            return order
        for conjunct in filter(self.space.is_merge_conjunct, block.conjuncts):
            for outer, inner in (conjunct.columns, conjunct.columns[::-1]):
                first = keys[0] if keys else None
                if first and inner.table not in tables and not first.descending and self.space.are_one(self.space.all_tables, first.column, outer):
                    return order
        return 0

    def paths(self, known, table):
        yield Path(table)
        directions = (False,) if self.space.version == Version.ONE else (False, True)
        for index in self.space.indexes_of(table):
            columns = self.space.table(table).indexes[index - 1].columns
            for length in range(len(columns) + 1):
                for conjuncts in itertools.product(range(1, len(self.space.block.conjuncts) + 1), repeat=length):
                    for backward in directions:
                        path = Path(table, index, conjuncts, backward)
                        if self.space.is_path(known, path):
                            yield path

    def joins(self, tables):
        for table in self.numbers:
            if self.space.may_follow(tables, table):
                yield from map(Loop, self.paths(tables, table))
                for conjunct in range(1, len(self.space.block.conjuncts) + 1):
                    for path in self.paths(frozenset(), table):
                        yield from (Merge(conjunct, path, is_sorted) for is_sorted in (False, True))

    def verdict(self, path, steps, target, states):
        listed = {(tables, order): cost for tables, order, cost in states}

        def is_below(found):
            return found.cost < listed.get((found.tables, self.fold(found.tables, found.order)), target)

        if any(is_below(self.space.access(access)) for table in self.numbers for access in self.paths(frozenset(), table)):
            return "refused K1"
        plans = [Measured(*state) for state in states]
        for rule, steps_from in (("K2", self.joins), ("K3", lambda tables: map(Sort, range(1, len(self.space.orders))))):
            for plan in plans:
                found = (self.space.on_top(plan, step) for step in steps_from(plan.tables))
                if any(reached and is_below(reached) for reached in found):
                    return f"refused {rule}"
        return "pass" if self.meets_target(path, steps, target, listed) else "refused K4"

    def meets_target(self, path, steps, target, listed):
        if any(tables == self.space.all_tables and self.space.gives_required(order) for tables, order in listed):
            return False
        found = self.space.access(path)
        for step in steps:
            found = found and self.space.on_top(found, step)
        return bool(found) and found.tables == self.space.all_tables and self.space.gives_required(found.order) and found.cost == target

    def told(self, said):
        try:
            if said.block != self.block_number:
                raise NotThere
            path = self.own_path(said.path)
            steps = [self.own_step(step) for step in said.steps]
            states = [self.state_of(*state) for state in said.states]
        except NotThere:
            return "refused C2"
        places = [state[:2] for state in said.states]
        if places != sorted(set(places)) or any(cost >= said.target for *_, cost in said.states):
            return "refused C3"
        return self.verdict(path, steps, said.target, states)


def told_of(block, file):
    """What is printed of a file for a query of one block, and the status."""
    lines = re.findall(rb"[^\n]*\n|[^\n]+", file)
    ends = [place for place, line in enumerate(lines) if line == b"END\n"]
    end = ends[0] + 1 if ends else len(lines)
    text, rest = b"".join(lines[:end]), lines[end:]
    first = lines[0] if lines else b""
    version = {b"CERTIFICATE 1\n": Version.ONE, b"CERTIFICATE 2\n": Version.TWO}.get(first, Version.THREE)
    try:
        told = Judge(block, 1, version).told(written(text))
    except BadForm:
        told = "refused C1"
    space = "" if version == Version.THREE else f" space {int(version)}"
    printed = f"block 1 {told}{space}\n" + ("rest refused C1\n" if rest else "")
    return printed, 0 if told == "pass" and not rest else 3


# ---- comparing


class Runs:
    """Runs the program on scripts and texts in a folder of its own."""

    def __init__(self, program, folder):
        self.program = program
        self.folder = pathlib.Path(folder)

    def explained(self, name, block):
        """The text that EXPLAIN prints, behind a line for each statement before."""
        script = self.folder / f"{name}.sql"
        script.write_text(script_of(block))
        ran = subprocess.run([self.program, "run", script], capture_output=True, check=True)
        return ran.stdout[ran.stdout.index(b"CERTIFICATE") :]

    def differs(self, job):
        """What the definition says of a file, and what the program tells where that is something else."""
        name, block, file = job
        held = self.folder / f"{os.getpid()}-{random.getrandbits(60):x}"
        held.write_bytes(file)
        ran = subprocess.run([self.program, "check", self.folder / f"{name}.sql", held], capture_output=True)
        held.unlink()
        printed, status = told_of(block, file)
        same = (ran.stdout.decode(), ran.returncode) == (printed, status)
        return printed, None if same else (file, printed, status, ran.stdout.decode(), ran.returncode)


def compared(runs, jobs):
    """Compares all, counts what is told, and shows what differs."""
    counts, wrong = collections.Counter(), 0
    with concurrent.futures.ProcessPoolExecutor(os.cpu_count()) as pool:
        for printed, difference in pool.map(runs.differs, jobs, chunksize=50):
            counts[printed.replace("\n", "; ").rstrip("; ")] += 1
            if difference:
                wrong += 1
                print("differs:", *difference)
    for told, count in sorted(counts.items()):
        print(f"{count:7} {told}")
    print(f"{sum(counts.values())} texts, {wrong} told otherwise")
    return wrong


# ---- changes of one byte

T1 = Table(2, 100, 10)
JOIN = (Equation(Column(1, 1), Column(2, 1)),)
SORTED = Block((T1, Table(2, 1000, 100)), JOIN, ())
INDEXED = Block((T1, Table(2, 1000, 100, (Index((1,), 1000, 10, unique=True),))), JOIN, ())


def changed(text):
    """The text with one byte changed, left out or put in, each once."""
    seen = {text}
    for at in range(len(text) + 1):
        for byte in range(256):
            one = bytes([byte])
            for other in (text[:at] + one + text[at:], text[:at] + one + text[at + 1 :], text[:at] + text[at + 1 :]):
                if other not in seen:
                    seen.add(other)
                    yield other


def changes_of_bytes(runs):
    return [(name, block, text) for name, block in (("sorted", SORTED), ("indexed", INDEXED)) for text in changed(runs.explained(name, block))]


# ---- made blocks


def made_table(choice):
    columns = choice.randint(1, 3)
    lists = [(number,) for number in range(1, columns + 1)] + list(itertools.permutations(range(1, columns + 1), 2))
    indexes = []
    for numbers in choice.sample(lists, min(len(lists), choice.randint(0, 2))):
        low = choice.choice((None, 0))
        high = None if low is None else choice.randint(1, 1000)
        unique, clustered = choice.random() < 0.3, choice.random() < 0.3
        indexes.append(Index(numbers, choice.randint(0, 900), choice.randint(1, 9), unique, clustered, low, high))
    return Table(columns, choice.randint(0, 5000), choice.randint(1, 200), tuple(indexes))


def made_conjunct(choice, columns):
    kind = choice.choice((Equation, Equation, Equals, Above))
    column = choice.choice(columns)
    return Equation(column, choice.choice(columns)) if kind is Equation else kind(column, choice.randint(0, 900))


def made_block(choice):
    tables = tuple(made_table(choice) for _ in range(choice.randint(1, 4)))
    columns = [Column(place, number) for place, table in enumerate(tables, 1) for number in range(1, table.columns + 1)]
    conjuncts = tuple(made_conjunct(choice, columns) for _ in range(choice.randint(0, 4)))
    keys = choice.sample(columns, min(len(columns), choice.choice((0, 0, 1, 2))))
    return Block(tables, conjuncts, tuple(Key(column, choice.random() < 0.3) for column in keys))


def with_value_changed(choice, text):
    """The text with one of its costs, the target among them, one higher or one lower."""
    lines = text.split(b"\n")
    place = choice.choice([at for at, line in enumerate(lines) if line.startswith((b"STATE", b"TARGET"))])
    front, _, value = lines[place].rpartition(b" ")
    lines[place] = b"%s %d" % (front, max(0, int(value) + choice.choice((-1, 1))))
    return b"\n".join(lines)


def changes_of_blocks(runs):
    choice = random.Random(1979)
    jobs = []
    for place in range(200):
        block = made_block(choice)
        text = runs.explained(f"made{place}", block)
        jobs += [(f"made{place}", block, text), (f"made{place}", block, with_value_changed(choice, text))]
    return jobs


def main():
    program, kind = sys.argv[1:]
    with tempfile.TemporaryDirectory() as folder:
        runs = Runs(pathlib.Path(program).resolve(), folder)
        jobs = {"bytes": changes_of_bytes, "blocks": changes_of_blocks}[kind](runs)
        sys.exit(1 if compared(runs, jobs) else 0)


if __name__ == "__main__":
    main()
