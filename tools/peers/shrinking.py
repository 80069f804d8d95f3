"""Makes a batch with a difference smaller while the difference stays."""
import dataclasses
import time

from expressions.tables import Dice
from expressions.tree import And, Chain, Not, Or, Signed

from peers.judging import Asked, alone
from peers.model import Block, Design, Query, SetFunction, Source
from peers.writing import OurWriter

SECONDS = 60


def without(things, place, count=1):
    """A tuple without some of its things."""
    return (*things[:place], *things[place + count :])


def own_variants(node):
    """What a node may be replaced by, with one part less."""
    match node:
        case Query():
            if node.keys:
                yield dataclasses.replace(node, keys=())
        case Block():
            for name in ("where", "sources", "items", "groups"):
                things = getattr(node, name)
                least = 1 if name in ("sources", "items") else 0
                for place in range(len(things) if len(things) > least else 0):
                    yield dataclasses.replace(node, is_star=False, **{name: without(things, place)})
            if node.having is not None:
                yield dataclasses.replace(node, having=None)
            if node.is_distinct:
                yield dataclasses.replace(node, is_distinct=False)
        case Not() | Signed():
            yield node.operand
        case And() | Or():
            yield from node.parts
        case Chain():
            yield node.first
            yield from (operand for _, operand in node.others)
        case SetFunction():
            if node.is_distinct:
                yield dataclasses.replace(node, is_distinct=False)


def variants(node):
    """A node with one thing less, in it or in a part of it."""
    if isinstance(node, tuple):
        for place, part in enumerate(node):
            yield from ((*node[:place], variant, *node[place + 1 :]) for variant in variants(part))
    elif dataclasses.is_dataclass(node) and not isinstance(node, Source):
        yield from own_variants(node)
        for field in dataclasses.fields(node):
            for variant in variants(getattr(node, field.name)):
                yield dataclasses.replace(node, **{field.name: variant})


def asked_of(query):
    """A query as it is written without more parentheses than needed."""
    return Asked(query, OurWriter(Dice(0), 0).query(query))


def smaller_queries(batch):
    """Batches with a smaller query."""
    for query in variants(batch.asked[0].query):
        yield dataclasses.replace(batch, asked=(asked_of(query),))


def smaller_tables(batch):
    """Batches with fewer rows: without halves first, then without smaller parts."""
    for place, table in enumerate(batch.tables):
        count = len(table.rows)
        while count:
            for begin in range(0, len(table.rows), count):
                less = dataclasses.replace(table, rows=without(table.rows, begin, count))
                yield dataclasses.replace(batch, tables=(*batch.tables[:place], less, *batch.tables[place + 1 :]))
            count //= 2


def smaller_designs(batch):
    """Batches with fewer indexes and statistics, in one design or both."""
    bare = Design((), frozenset(), ())
    for place, design in enumerate(batch.designs):
        found = [bare, dataclasses.replace(design, statistics=())] if design != bare else []
        found += [dataclasses.replace(design, statistics=without(design.statistics, number))
                  for number in range(len(design.statistics))]
        if not design.statistics:
            found += [Design(without(design.indexes, number), frozenset(), ()) for number in range(len(design.indexes))]
        for less in found:
            if less != design:
                yield dataclasses.replace(batch, designs=(*batch.designs[:place], less, *batch.designs[place + 1 :]))


def shrunk(batch, difference, differences):
    """The smallest batch of one query that is found in a minute; none where the difference doesn't come of it alone."""
    end = time.monotonic() + SECONDS

    def stays(tried):
        """Whether a smaller batch has the difference; where its tables are refused it hasn't."""
        try:
            return any(it.kind == difference.kind for it in differences(tried))
        except RuntimeError:
            return False

    found = alone(batch, difference.place)
    if not stays(found):
        return None
    is_smaller = True
    while is_smaller and time.monotonic() < end:
        is_smaller = False
        for smaller in (smaller_tables, smaller_queries, smaller_designs):
            tried = next((it for it in smaller(found) if time.monotonic() < end and stays(it)), None)
            while tried is not None:
                found, is_smaller = tried, True
                tried = next((it for it in smaller(found) if time.monotonic() < end and stays(it)), None)
    return alone(found, 0)
