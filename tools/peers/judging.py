"""Judges what our program answers: by the peers, by its own answers under another design, and by `check`."""
import dataclasses
from collections import Counter
from dataclasses import dataclass, field
from functools import cached_property

from peers.engines import Answer, Reader, key_fields, setup
from peers.model import Query, blocks, depth, is_grouped, result_names

OTHER_DESIGN, CHECK = "our program by other indexes and statistics", "check"
LEVELS = ("no subquery", "subqueries of one level", "subqueries of two", "subqueries of three")
MARKS = ("joins", "five or six tables", "groups", "DISTINCT", "ORDER BY", *LEVELS[1:])


@dataclass(frozen=True)
class Asked:
    """A query, and how it is written for our program."""

    query: Query
    text: str

    @cached_property
    def blocks(self):
        """The blocks of the query."""
        return blocks(self.query.block)

    @cached_property
    def tables(self):
        """The names of the tables of the query."""
        return {source.table.name for block in self.blocks for source in block.sources}


@dataclass(frozen=True)
class Batch:
    """Tables, two designs of them, and queries."""

    tables: tuple
    designs: tuple
    asked: tuple


def alone(batch, place):
    """A batch of one query, and its tables."""
    asked = batch.asked[place]
    tables = tuple(table for table in batch.tables if table.name in asked.tables)
    return dataclasses.replace(batch, tables=tables, asked=(asked,))


@dataclass(frozen=True)
class Difference:
    """A query of a batch that is answered differently: what differs, our answer, and all those that differ from it."""

    place: int
    what: str
    ours: Answer
    others: tuple

    @property
    def kind(self):
        """What has to stay where the batch is made smaller."""
        theirs = [(name, getattr(answer, "error", "")) for name, answer in self.others]
        return self.what, self.ours.error, theirs


@dataclass
class Counts:
    """What was compared."""

    marks: Counter = field(default_factory=Counter)
    compared: Counter = field(default_factory=Counter)


def what_differs(query, ours, theirs):
    """In what two answers to a query differ; nothing where they don't."""
    if ours.error:
        return "our program refuses the query"
    if theirs.error:
        return "the other refuses the query"
    if ours.state != theirs.state:
        return "exceptions"
    if not ours.state and ours.header != "|".join(result_names(query.block)):
        return "names of columns"
    if sorted(ours.rows) != sorted(theirs.rows):
        return "rows"
    if query.keys and key_fields(ours.rows, query.keys) != key_fields(theirs.rows, query.keys):
        return "order"
    return ""


def marks_of(query):
    """What a query has."""
    block = query.block
    there = {
        "joins": len(block.sources) > 1,
        "five or six tables": len(block.sources) > 4,
        "groups": is_grouped(block),
        "DISTINCT": block.is_distinct,
        "ORDER BY": query.keys,
        LEVELS[depth(block)]: True,
    }
    return [mark for mark, is_there in there.items() if is_there]


class Judge:
    """Asks all engines of batches, and counts what was compared."""

    def __init__(self, program, peers, spoil=None):
        self.program = program
        self.peers = peers
        self.spoil = spoil
        self.counts = Counts()

    def judged(self, seed, batch):
        """The differences of a batch, at most one for each query."""
        self.program.write_files(seed, batch.tables)
        queries = [asked.query for asked in batch.asked]
        selects = [asked.text for asked in batch.asked]
        printed = self.ran(batch, 0, [*selects, *(f"EXPLAIN {text}" for text in selects)])
        ours = [printed.answer() for _ in queries]
        certificates = [printed.certificates(len(asked.blocks)) for asked in batch.asked]
        self.count(queries, ours)
        others = [(OTHER_DESIGN, self.other_design(batch, selects))]
        others += [(peer.name, peer.ask(batch.tables, queries)) for peer in self.peers]
        found = []
        for place, query in enumerate(queries):
            given = [(name, answers[place]) for name, answers in others if answers[place] is not None]
            found += self.difference(place, query, ours[place], given)
            verdict = self.verdict(batch, place, certificates[place])
            found += [Difference(place, "certificates", ours[place], ((CHECK, verdict),))] if verdict else []
        return found

    def difference(self, place, query, ours, given):
        """The difference of a query, if there is one; the answers that are alike are counted."""
        told = [what_differs(query, ours, answer) for _, answer in given]
        self.counts.compared.update(name for what, (name, _) in zip(told, given) if not what)
        differing = tuple(it for what, it in zip(told, given) if what)
        return [Difference(place, next(filter(None, told)), ours, differing)] if differing else []

    def ran(self, batch, number, statements):
        """What our program prints of statements by a design, read up to them."""
        design = batch.designs[number]
        text = self.program.run("\n".join([*setup(batch.tables, design), *statements, ""]))
        if self.spoil and not number:
            text = self.spoil(text)
        reader = Reader(text)
        if fault := reader.fault_of_setup(batch.tables, design):
            raise RuntimeError(fault)
        return reader

    def other_design(self, batch, selects):
        """The answers by the second design."""
        reader = self.ran(batch, 1, selects)
        return [reader.answer() for _ in selects]

    def verdict(self, batch, place, certificates):
        """What `check` says of the certificates of a query; nothing where all pass."""
        asked = batch.asked[place]
        statements = setup(alone(batch, place).tables, batch.designs[0])
        printed = self.program.check("\n".join([*statements, f"EXPLAIN {asked.text}", ""]), certificates)
        count = len(asked.blocks)
        if printed != "".join(f"block {number} pass\n" for number in range(1, count + 1)):
            return printed or "nothing"
        self.counts.marks["certificates"] += count
        return ""

    def count(self, queries, ours):
        """Counts what queries have, and their rows."""
        for query, answer in zip(queries, ours):
            self.counts.marks.update(marks_of(query))
            self.counts.marks["queries"] += 1
            self.counts.marks["rows"] += len(answer.rows)
            self.counts.marks["exceptions"] += bool(answer.state)
            self.counts.marks["no row"] += not answer.rows and not answer.state
