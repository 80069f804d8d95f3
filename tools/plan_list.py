#!/usr/bin/env python3
"""Lists small plans of small query blocks and what each of them comes to by the rules of tools/plan_rules.py, and asks the program for the same.

    tools/plan_list.py                    prints the list
    tools/plan_list.py --check PROGRAM    asks the program; the status is 1 where it tells another thing

Of each block every plan of so many steps is tried whose parts are among some paths, conjuncts and orders, a few of which aren't there. A
line tells of each that is a plan its tables (the sum of 2^(t-1) over their numbers t), the number of its order and its cost. Then
it tells of each kind of plan how many were tried.

The program is asked of each plan of the list whether it is in the space and as required, its tables and order, and its cost. What is partial
or not as required is told no cost: then it is asked with scans of the further tables and a sort on top. The program is asked too of some
thousands of those that are none: on plans of the list steps that can't stand there, and on these some more.
"""
import concurrent.futures
import os
import pathlib
import random
import sys
import tempfile
from dataclasses import dataclass

from plan_asking import Planner, Told, set_of
from plan_rules import Above, Block, Column, Equals, Equation, Index, Key, Loop, Measured, Merge, Path, Sort, Space, Table, Version, script_of

# Of each block so many are asked that are no plans.
SEED, LEFT_OUT = 1979, 1000


# ---- the list


@dataclass(frozen=True)
class Case:
    """A block, and what its plans are made of: how many steps, which paths, conjuncts up to a number and orders up to one. Indexes that the first
    version knows are on the column of their own number, by which it calls them."""

    name: str
    block: Block
    version: Version
    steps: int
    paths: tuple[Path, ...]
    conjuncts: int
    orders: int


@dataclass(frozen=True)
class Listed:
    """A plan, and what it comes to."""

    plan: str
    steps: int
    found: Measured


def steps_of(case):
    """The steps of each kind."""
    return {
        "LOOP": [Loop(path) for path in case.paths],
        "MERGE": [
            Merge(conjunct, path, is_sorted)
            for conjunct in range(1, case.conjuncts + 1)
            for path in case.paths
            for is_sorted in (False, True)
        ],
        "SORT": [Sort(order) for order in range(case.orders + 1)],
    }


def measured_plans(space, case, shape):
    """The plans of a kind, with what they come to."""
    if len(shape) == 1:
        for path in case.paths:
            if found := space.access(path):
                yield Listed(f"ACCESS({path})", 1, found)
        return
    for below in measured_plans(space, case, shape[:-1]):
        for step in steps_of(case)[shape[-1]]:
            if found := space.on_top(below.found, step):
                yield Listed(step.on(below.plan), len(shape), found)


def line_of(space, listed):
    found = listed.found
    in_space = " in the space" if found.tables == space.all_tables else ""
    required = " as required" if in_space and space.gives_required(found.order) else ""
    return f"{listed.plan}: {set_of(found.tables)} {found.order} {found.cost}{in_space}{required}"


def shape_lines(space, case, shape):
    """The plans of a kind, and how many were tried. What stands on no plan is none."""
    told = [line_of(space, listed) for listed in measured_plans(space, case, shape)]
    tried = len(case.paths)
    for kind in shape[1:]:
        tried *= len(steps_of(case)[kind])
    return [*told, f"{' '.join(shape)}: {len(told)} of {tried}"]


def shapes(steps):
    """The kinds of plans of so many steps, the innermost first."""
    if steps == 1:
        return [["ACCESS"]]
    return [[*below, kind] for below in shapes(steps - 1) for kind in ("LOOP", "MERGE", "SORT")]


def shapes_of(case):
    return [shape for steps in range(1, case.steps + 1) for shape in shapes(steps)]


def case_lines(case):
    space = Space(case.block, case.version)
    lines = [f"{case.name}, version {case.version}, {len(space.orders)} orders"]
    for shape in shapes_of(case):
        lines += shape_lines(space, case, shape)
    return lines


# ---- the blocks

# T1 (X, P) and T2 (Y, Q): SELECT X FROM T1, T2 WHERE X = Y AND P = 7 AND Y > 1500 ORDER BY P
JOINED = Block(
    tables=(
        Table(2, 1000, 70, (Index((2, 1), 900, 6, unique=True),)),
        Table(2, 4000, 120, (Index((1,), 500, 9, clustered=True, low=0, high=2000),)),
    ),
    conjuncts=(
        Equation(Column(1, 1), Column(2, 1)),
        Equals(Column(1, 2), 7),
        Above(Column(2, 1), 1500),
    ),
    required=(Key(Column(1, 2)),),
)

# every path of T1 and T2; a conjunct on the second column alone, one used twice, one over another column, an index and a table
# that aren't there
JOINED_PATHS = (
    Path(1),
    Path(1, 1),
    Path(1, 1, backward=True),
    Path(1, 1, (2,)),
    Path(1, 1, (2,), backward=True),
    Path(1, 1, (2, 1)),
    Path(1, 1, (2, 1), backward=True),
    Path(1, 1, (1,)),
    Path(1, 1, (2, 2)),
    Path(2),
    Path(2, 1),
    Path(2, 1, backward=True),
    Path(2, 1, (1,)),
    Path(2, 1, (1,), backward=True),
    Path(2, 1, (3,)),
    Path(2, 1, (3,), backward=True),
    Path(2, 1, (2,)),
    Path(2, 2),
    Path(3),
)

# A (X), B (Y) and C (Z): SELECT X FROM A, B, C WHERE X = Y AND Y = Z ORDER BY Z
CHAIN = Block(
    tables=(Table(1, 20, 2), Table(1, 300, 3), Table(1, 4000, 8)),
    conjuncts=(Equation(Column(1, 1), Column(2, 1)), Equation(Column(2, 1), Column(3, 1))),
    required=(Key(Column(3, 1)),),
)

# T1 (A, B) with an index on A, and T2 (Y): SELECT A FROM T1, T2 WHERE A = B AND B = Y ORDER BY A DESC
ONE_CLASS = Block(
    tables=(Table(2, 500, 40, (Index((1,), 80, 4),)), Table(1, 60, 5)),
    conjuncts=(Equation(Column(1, 1), Column(1, 2)), Equation(Column(1, 2), Column(2, 1))),
    required=(Key(Column(1, 1), True),),
)

# every path; a conjunct of the table's own columns, and one over another column than the index's
ONE_CLASS_PATHS = (Path(1), Path(1, 1), Path(1, 1, backward=True), Path(1, 1, (1,)), Path(1, 1, (2,)), Path(2))

CASES = [
    *(Case("two tables", JOINED, version, 3, JOINED_PATHS, 4, 7) for version in Version),
    *(Case("three tables", CHAIN, version, 4, tuple(map(Path, range(1, 5))), 3, 4) for version in (Version.TWO, Version.THREE)),
    Case("two columns of a table in one class", ONE_CLASS, Version.THREE, 3, ONE_CLASS_PATHS, 3, 5),
]


# ---- asking the program


def completed(space, listed):
    """The plan with scans of the tables that aren't there, and with a sort where its order isn't the required one."""
    plan, found = listed.plan, listed.found
    while found.tables != space.all_tables:
        step = Loop(Path(next(table for table in sorted(space.all_tables) if space.may_follow(found.tables, table))))
        plan, found = step.on(plan), space.on_top(found, step)
    if not space.gives_required(found.order):
        step = Sort(space.orders.index(space.block.required))
        plan, found = step.on(plan), space.on_top(found, step)
    return Listed(plan, listed.steps, found)


def expected(space, found):
    """What is told of a plan of the list."""
    if found.tables != space.all_tables:
        return Told("partial")
    return Told("costs", found.cost) if space.gives_required(found.order) else Told("in order", found.order)


def plan_fault(planner, space, listed):
    """What is told otherwise of a plan of the list; None where nothing is."""
    whole = completed(space, listed)
    for plan, found in {listed.plan: listed.found, whole.plan: whole.found}.items():
        if (told := planner.plan(space.version, plan)) != expected(space, found):
            return f"{plan}: {told}, and not {expected(space, found)}"
    state = (set_of(listed.found.tables), listed.found.order)
    if (told := planner.state(space.version, listed.plan, listed.found.tables)) != state:
        return f"{listed.plan}: tables and order {told}, and not {state}"
    return None


def left_out(space, case, plans):
    """What is no plan: an access that is none, or a step that can't stand on a plan of the list; and how many steps it has."""
    steps = [step for kind in steps_of(case).values() for step in kind]
    accesses = [(f"ACCESS({path})", 1) for path in case.paths if not space.access(path)]
    below = [listed for listed in plans if listed.steps < case.steps]
    return accesses + [(step.on(it.plan), it.steps + 1) for it in below for step in steps if not space.on_top(it.found, step)]


def sample(case, out):
    """Some of those that are none, some with further steps on top."""
    choice = random.Random(SEED)
    steps = [step for kind in steps_of(case).values() for step in kind]
    for plan, length in choice.sample(out, min(LEFT_OUT, len(out))):
        for step in choice.choices(steps, k=choice.randint(0, case.steps - length)):
            plan = step.on(plan)
        yield plan


def out_fault(planner, space, plan):
    told = planner.plan(space.version, plan)
    return None if told in (Told("outside"), Told("no text")) else f"{plan}: {told}, and it is no plan"


def order_fault(planner, space):
    """What is told otherwise of how many orders there are."""
    told, count = planner.greatest_order(space.version), len(space.orders)
    return None if told == count - 1 else f"the orders go to {told}, and there are {count} with order 0"


def count_wrong(program, folder, pool, case):
    """Asks the program of a case, tells what it tells otherwise, and gives how many that is."""
    space = Space(case.block, case.version)
    script = pathlib.Path(folder) / "script.sql"
    script.write_text(script_of(case.block))
    planner = Planner(program, script)
    plans = [listed for shape in shapes_of(case) for listed in measured_plans(space, case, shape)]
    outside = list(sample(case, left_out(space, case, plans)))
    told = [*pool.map(lambda listed: plan_fault(planner, space, listed), plans), *pool.map(lambda plan: out_fault(planner, space, plan), outside)]
    wrong = [fault for fault in [order_fault(planner, space), *told] if fault]
    for fault in wrong:
        print(f"{case.name}, version {case.version}: {fault}")
    print(f"{case.name}, version {case.version}: {len(plans)} plans and {len(outside)} that are none, {len(wrong)} told otherwise")
    return len(wrong)


def main():
    if not sys.argv[1:]:
        print(*(line for case in CASES for line in case_lines(case)), sep="\n")
        return
    _, program = sys.argv[1:]
    with tempfile.TemporaryDirectory() as folder, concurrent.futures.ThreadPoolExecutor(os.cpu_count()) as pool:
        wrong = sum(count_wrong(program, folder, pool, case) for case in CASES)
    sys.exit(1 if wrong else 0)


if __name__ == "__main__":
    main()
