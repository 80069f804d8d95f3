"""What statements answer: rows, or the exceptions that may be told."""
from dataclasses import dataclass
from typing import Optional

from expressions.evaluation import Evaluation, Raised, Trace, Truth
from expressions.sizes import conjuncts, is_late
from expressions.tree import Column, all_parts, value_text


@dataclass(frozen=True)
class Statement:
    """SELECT items FROM T [WHERE condition]."""

    items: tuple
    condition: Optional[object] = None

    def all_parts(self):
        """All that the result columns and the condition hold."""
        roots = self.items if self.condition is None else (*self.items, self.condition)
        return [part for root in roots for part in all_parts(root)]


class Outcome:
    """What a statement answers: rows, or the states of the exceptions that may be told."""

    def __init__(self, statement, rows):
        self.trace, self.causes = Trace(), {}
        parts = conjuncts(statement.condition)
        early = [part for part in parts if not is_late(part)]
        late = [part for part in parts if is_late(part)]
        passing = [row for row in rows if self.holds(early, row)]
        kept = [row for row in passing if self.holds_late(late, row)]
        if late and not self.causes:
            self.look_past([row for row in rows if row not in passing], late)
        is_raised_by_where = bool(self.causes)
        self.rows = [] if is_raised_by_where else [self.results(statement.items, row) for row in kept]
        self.states = set(self.causes.values())
        if is_raised_by_where:
            self.trace.marks.add("raised by WHERE")

    def holds(self, parts, row):
        """Whether all conditions are true of a row; none can raise."""
        truths = [Evaluation(row, self.trace).truth(part) for part in parts]
        return all(truth == Truth.TRUE for truth in truths)

    def holds_late(self, parts, row):
        """Whether all conditions are true of a row; those that raise are told."""
        truths = [self.attempt(Evaluation(row, self.trace).truth, part) for part in parts]
        if any(isinstance(it, Raised) for it in truths) and any(it == Truth.FALSE for it in truths):
            self.trace.marks.add("raise beside a false late conjunct")
        return all(truth == Truth.TRUE for truth in truths)

    def results(self, items, row):
        """The result row of a row."""
        return tuple(self.attempt(Evaluation(row, self.trace).value, item) for item in items)

    def attempt(self, evaluate, node):
        """A result, or what is raised, which is told."""
        try:
            return evaluate(node)
        except Raised as raised:
            self.causes[raised.cause] = raised.state
            return raised

    def look_past(self, rows, late):
        """Marks where an early conjunct keeps a late one from raising."""
        for row in rows:
            for part in late:
                try:
                    Evaluation(row, Trace()).truth(part)
                except Raised:
                    self.trace.marks.add("raise that an early conjunct prevents")


def header(items):
    """The names of the result columns."""
    return [item.name if isinstance(item, Column) else f"COL{k}" for k, item in enumerate(items, 1)]


def printed(statement, outcome):
    """The lines that a statement prints."""
    if outcome.states:
        (state,) = outcome.states
        return [f"exception {state}"]
    lines = ["|".join(value_text(value) for value in row) for row in outcome.rows]
    return ["|".join(header(statement.items)), *lines, f"{len(lines)} rows"]
