#!/usr/bin/env python3
"""Compares the program's search, which goes by rising cost, with one that solves every set of tables, written out plainly here.

usage: dense_search.py PROGRAM

Of 200 blocks made as tools/check_texts.py makes them and of the blocks of tools/plan_list.py the target and the states of the certificate that
EXPLAIN prints have to be the ones that the dense search finds: the cost of a least plan of all tables in the required order, and each state,
a set of tables and a folded order, that costs less (Selinger et al. 1979, section 5; docs/PLANS.md). And no plan of that list may cost less than
the state that it is of. A line counts what was compared; the status is 1 where anything differs. The rules are those of tools/plan_rules.py.
"""
import pathlib
import random
import sys
import tempfile

import plan_list
from check_texts import Judge, Runs, made_block, written
from plan_rules import Measured, Sort, Version

BLOCKS, SEED = 200, 1979


class DenseSearch:
    """The least cost of each state of a block, set after set, by how many tables a set has."""

    def __init__(self, block, version):
        self.rules = Judge(block, 1, version)
        self.space = self.rules.space
        self.costs = {}
        sets = sorted(range(1, 2 ** len(self.rules.numbers)), key=lambda place: bin(place).count("1"))
        for tables in map(self.rules.tables_of, sets):
            self.solve(tables)

    def state(self, found):
        return found.tables, self.rules.fold(found.tables, found.order)

    def keep(self, found):
        state = self.state(found)
        self.costs[state] = min(found.cost, self.costs.get(state, found.cost))

    def of(self, tables):
        """The states of a set, as plans."""
        return [Measured(*state, cost) for state, cost in self.costs.items() if state[0] == tables]

    def solve(self, tables):
        """Of one table its accesses, of more each join with the last one; and then the sorts of the cheapest."""
        if len(tables) == 1:
            for path in self.rules.paths(frozenset(), *tables):
                self.keep(self.space.access(path))
        for last in tables:
            outer = self.of(tables - {last})
            steps = [step for step in self.rules.joins(tables - {last}) if step.path.table == last] if outer else []
            for found in (self.space.on_top(plan, step) for plan in outer for step in steps):
                if found:
                    self.keep(found)
        for plan in self.of(tables):
            for order in range(1, len(self.space.orders)):
                if found := self.space.on_top(plan, Sort(order)):
                    self.keep(found)

    def target(self):
        return min(plan.cost for plan in self.of(self.space.all_tables) if self.space.gives_required(plan.order))

    def certificate(self):
        """The target, and the states that cost less, as a text lists them."""
        target = self.target()
        below = [(plan_list.set_of(tables), order, cost) for (tables, order), cost in self.costs.items() if cost < target]
        return target, sorted(below)


def explained_fault(runs, name, block):
    """What EXPLAIN tells otherwise of a block than the dense search; None where nothing is."""
    said = written(runs.explained(name, block))
    told, wanted = (said.target, list(said.states)), DenseSearch(block, Version.THREE).certificate()
    return None if told == wanted else f"{name}: {block}: target and states {told}, and not {wanted}"


def listed_faults(case):
    """The plans of the list that cost less than the state that they are of, and how many there are in all."""
    search = DenseSearch(case.block, case.version)
    plans = [listed for shape in plan_list.shapes_of(case) for listed in plan_list.measured_plans(search.space, case, shape)]
    dearer = [it for it in plans if it.found.cost < search.costs[search.state(it.found)]]
    return [f"{case.name}, version {case.version}: {it.plan} costs {it.found.cost}" for it in dearer], len(plans)


def main():
    (program,) = sys.argv[1:]
    choice = random.Random(SEED)
    blocks = [(f"made{place}", made_block(choice)) for place in range(BLOCKS)]
    blocks += [(f"small{place}", case.block) for place, case in enumerate(plan_list.CASES) if case.version == Version.THREE]
    with tempfile.TemporaryDirectory() as folder:
        runs = Runs(pathlib.Path(program).resolve(), folder)
        faults = [fault for name, block in blocks if (fault := explained_fault(runs, name, block))]
    counts = 0
    for case in plan_list.CASES:
        found, count = listed_faults(case)
        faults, counts = faults + found, counts + count
    print(*faults, sep="\n", end="\n" if faults else "")
    print(f"{len(blocks)} blocks and {counts} plans, {len(faults)} otherwise than the dense search has them")
    sys.exit(1 if faults else 0)


if __name__ == "__main__":
    main()
