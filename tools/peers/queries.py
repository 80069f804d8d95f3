"""Made queries over the tables of a database."""
from expressions.tree import And, Chain, Compare, Not, Numeral, Or, String

from peers.model import (
    Block, Exists, InBlock, Item, Key, Quantified, Query, Reference, Scalar, SetFunction, Source, is_text, parts,
    result_names,
)
from peers.values import OPERATORS, ValueMaker, fits, sizes

MOST_BLOCKS = 9
MOST_LEVELS = 3


class QueryMaker(ValueMaker):
    """Makes one query: its sources are numbered, and its blocks are counted."""

    def __init__(self, dice, tables):
        super().__init__(dice, tables)
        self.tables = tables
        self.plain = set()
        self.sources = 0
        self.blocks = 0

    # ---- sources

    def source(self, budget):
        """A source whose table has no more rows than a budget; none where there is no such table."""
        least = 0 if self.dice.chance(3) else 1
        fitting = [table for table in self.tables if least <= len(table.rows) <= budget]
        if not fitting:
            return None
        table = self.dice.one_of(fitting)
        self.sources += 1
        if table.name not in self.plain and self.dice.chance(20):
            self.plain.add(table.name)
            return Source(table, table.name)
        return Source(table, f"{self.dice.one_of('PQRX')}{self.sources}")

    def from_list(self, count, budget):
        """Sources, and the budget that is left for what is done for each combination of their rows."""
        found = []
        for left in range(count, 0, -1):
            share = budget if count < 4 else max(2, int(2 * budget ** (1 / left)))
            source = self.source(min(share, budget))
            if source:
                found.append(source)
                budget //= max(1, len(source.table.rows))
        if not found:
            self.sources += 1
            least = min(self.tables, key=lambda table: len(table.rows))
            found, budget = [Source(least, f"Y{self.sources}")], 1
        return tuple(found), budget

    # ---- conditions

    def condition(self, scopes, levels, budget):
        """A condition; subqueries stand in some."""
        kind = self.dice.below(10)
        if levels > 0 and kind < 2:
            return Or(tuple(self.condition(scopes, levels - 1, budget) for _ in range(self.dice.one_of([2, 2, 3]))))
        if levels > 0 and kind == 2:
            return Not(self.condition(scopes, levels - 1, budget))
        if levels > 0 and kind == 3:
            return And(tuple(self.condition(scopes, levels - 1, budget) for _ in range(2)))
        if self.may_nest(scopes) and self.dice.chance(25):
            return self.nested(scopes, budget)
        return self.test(scopes)

    def may_nest(self, scopes):
        """Whether another block may stand within those of the scopes."""
        return len(scopes) <= MOST_LEVELS and self.blocks < MOST_BLOCKS

    def nested(self, scopes, budget):
        """A test with a subquery."""
        kind = self.dice.below(10)
        if kind < 3:
            return Exists(self.block(scopes, budget, None))
        wants_text = self.wants_text(scopes)
        value = self.value(scopes, wants_text)
        if kind == 9:
            return Compare(self.dice.one_of(OPERATORS), value, Scalar(self.block(scopes, budget, wants_text, True)))
        block = self.block(scopes, budget, wants_text)
        if kind < 6:
            return InBlock(self.dice.chance(40), value, block)
        quantifier = self.dice.one_of(["ALL", "ALL", "ANY", "SOME"])
        return Quantified(self.dice.one_of(OPERATORS), quantifier, value, block)

    def links(self, scopes):
        """Conjuncts that link most sources to those before them, or an inner block to one around it."""
        here, found = scopes[-1], []
        for place, source in enumerate(here):
            before = here[:place] or (self.dice.one_of(scopes[:-1]) if len(scopes) > 1 else ())
            if before and self.dice.chance(85 if len(here) < 4 else 65):
                one = self.reference([(source,)], self.wants_text([(source,)]))
                other = one and self.reference([before], is_text(one))
                if other:
                    pair = self.dice.mixed([one, other])
                    found.append(Compare(self.dice.one_of(["="] * 9 + ["<", ">=", "<>"]), *pair))
        return found

    # ---- blocks

    def block(self, around, budget, wants_text, is_single=False):
        """A block within those around it: for EXISTS where no kind of values is wanted, of one row if it is single."""
        self.blocks += 1
        dice = self.dice
        is_outermost = not around
        count = dice.one_of([1, 1, 1, 2, 2, 3, 3, 4, 5, 6]) if is_outermost else dice.one_of([1, 1, 1, 1, 2, 2, 3])
        sources, left = self.from_list(count, budget)
        scopes = [*around, sources]
        where = self.links(scopes)
        for _ in range(dice.one_of([0, 0, 1, 1, 1, 2] if len(sources) < 3 else [0, 0, 0, 1, 1])):
            where.append(self.condition(scopes, 2, left))
        if self.may_nest(scopes) and dice.chance(40 if is_outermost else 35):
            where.append(self.nested(scopes, left))
        return self.finished(scopes, tuple(dice.mixed(where)), wants_text, is_single)

    def finished(self, scopes, where, wants_text, is_single):
        """A block of sources and a condition: its items, groups and what groups have to meet."""
        dice, sources = self.dice, scopes[-1]
        is_outermost = len(scopes) == 1
        is_grouped = is_single or dice.chance(35 if is_outermost else 20)
        if is_grouped:
            return self.grouped(scopes, where, wants_text, is_single)
        is_distinct = dice.chance(20)
        if (is_outermost or wants_text is None) and dice.chance(20):
            items = [Item(Reference(source, field)) for source in sources for field in source.table.fields]
            if len(items) <= 64:
                return Block(is_distinct, True, tuple(items), sources, where, (), None)
        count = dice.between(1, 5) if is_outermost else 1
        kinds = [wants_text if wants_text is not None else self.wants_text(scopes) for _ in range(count)]
        items = tuple(self.item(self.value(scopes, kind, 2 if is_outermost else 1), is_outermost, number)
                      for number, kind in enumerate(kinds))
        return Block(is_distinct, False, items, sources, where, (), None)

    def item(self, value, may_be_named, number):
        """A result column; some have names."""
        return Item(value, f"N{number + 1}" if may_be_named and self.dice.chance(30) else "")

    def grouped(self, scopes, where, wants_text, is_single):
        """A block of groups."""
        dice, sources = self.dice, scopes[-1]
        columns = [Reference(source, field) for source in sources for field in source.table.fields]
        groups = () if is_single else tuple(dice.mixed(columns)[: dice.one_of([0, 1, 1, 1, 2, 2, 3])])
        is_outermost = len(scopes) == 1
        count = dice.between(1, 4) if is_outermost else 1
        kinds = [wants_text if wants_text is not None else self.wants_text(scopes) for _ in range(count)]
        values = [self.group_value(scopes, groups, kind, 2 if is_outermost else 1) for kind in kinds]
        if not groups and not any(isinstance(part, SetFunction) for value in values for part in parts(value)):
            values[0] = self.of_texts(sources) if kinds[0] else SetFunction("COUNT", False, None)
        items = tuple(self.item(value, is_outermost, number) for number, value in enumerate(values))
        having = None
        if dice.chance(30) and (not is_single or dice.chance(10)):
            having = self.tested(lambda kind, levels: self.group_value(scopes, groups, kind, levels), False, None)
            if dice.chance(20):
                having = Not(having)
        return Block(dice.chance(10), False, items, sources, where, groups, having)

    def of_texts(self, sources):
        """MIN or MAX of texts of the sources, which have none perhaps."""
        column = self.reference([sources], True)
        return SetFunction(self.dice.one_of(["MIN", "MAX"]), False, column or String(self.dice.one_of(self.texts)))

    def group_value(self, scopes, groups, wants_text, levels):
        """A value of a group; now and then a column of a block around it, of which each group has one value."""
        dice, sources = self.dice, scopes[-1]
        around = self.reference(scopes[:-1], wants_text) if len(scopes) > 1 and dice.chance(15) else None
        if around:
            return around
        named = [group for group in groups if is_text(group) == wants_text]
        if wants_text:
            return dice.one_of(named) if named and dice.chance(50) else self.of_texts(sources)
        kind = dice.below(10)
        if kind < 3 and named:
            return dice.one_of(named)
        if kind < 5 and levels > 0:
            pair = [self.group_value(scopes, groups, False, levels - 1) for _ in range(2)]
            found = Chain(pair[0], ((dice.one_of("+-*"), pair[1]),))
            if fits(found):
                return found
        if kind == 5:
            return self.numeral()
        return self.set_function(sources)

    def set_function(self, sources):
        """A set function of numbers."""
        dice = self.dice
        word = dice.one_of(["COUNT", "COUNT", "SUM", "SUM", "AVG", "MIN", "MAX"])
        if word == "COUNT" and dice.chance(50):
            return SetFunction(word, False, None)
        argument = self.text([sources], False) if word == "COUNT" and dice.chance(30) else None
        if argument is None:
            argument = self.number([sources], 1)
            if max(it.digits for it in sizes(argument)) > 20:
                argument = self.any_number([sources], 0)
        return SetFunction(word, dice.chance(30), argument)

    # ---- queries

    def query(self):
        """A query; of some an exception may come."""
        if self.dice.chance(6):
            return self.raising()
        budget = self.dice.one_of([100, 300, 300, 1000, 1000, 1000, 3000, 3000, 10000])
        block = self.block([], budget, None)
        return Query(block, self.keys(block))

    def keys(self, block):
        """Keys of ORDER BY, or none."""
        if not self.dice.chance(45):
            return ()
        names = result_names(block)
        places = self.dice.mixed(range(len(names)))[: self.dice.one_of([1, 1, 2, 3])]
        return tuple(self.key(block, names, place) for place in places)

    def key(self, block, names, place):
        """A key: its position or its name, where it has one that no other result column has."""
        item = block.items[place]
        is_named = names.count(names[place]) == 1 and (item.name or isinstance(item.value, Reference))
        name = names[place] if is_named and self.dice.chance(50) else ""
        return Key(place + 1, name, self.dice.chance(50))

    def raising(self):
        """A query of which an exception may come, in one place alone."""
        block = self.divided() if self.dice.chance(60) else self.several()
        return Query(block, self.keys(block), True)

    def divided(self):
        """A block with a quotient of columns as a result column; WHERE raises nothing."""
        self.blocks = MOST_BLOCKS
        while True:
            sources, _ = self.from_list(self.dice.one_of([1, 1, 2]), 500)
            one, other = (self.reference([sources], False) for _ in range(2))
            if one is None:
                one, other = (SetFunction("COUNT", False, Reference(sources[0], sources[0].table.fields[0]))
                              for _ in range(2))
            quotient = Chain(one, (("/", other),))
            if fits(quotient):
                break
        where = [*self.links([sources]), *(self.condition([sources], 1, 1) for _ in range(self.dice.below(3)))]
        if isinstance(other, Reference) and self.dice.chance(50):
            where.append(Compare("<>", other, Numeral("0")))
        items = [Item(quotient)]
        if isinstance(one, Reference):
            items.append(Item(self.number([sources], 1)))
        return Block(self.dice.chance(20), False, tuple(items), sources, tuple(where), (), None)

    def several(self):
        """A block with a subquery as a value that may have several rows.

        PostgreSQL has to try it last, as we do: so the other conjuncts have columns and no operators, for we try one
        without a column, or that can raise, no earlier.
        """
        self.blocks = MOST_BLOCKS
        outer, _ = self.from_list(1, 60)
        inner, _ = self.from_list(1, 60)
        wants_text = self.wants_text([outer])
        item = Item(self.value([inner], wants_text))
        column = self.reference([outer], False) or self.reference([outer], True)
        other = self.reference([inner], is_text(column))
        where, before = [self.test([inner]) for _ in range(self.dice.below(2))], []
        if other:
            where.append(Compare("=", column, other))
            tests = [self.plain_test([outer]) for _ in range(self.dice.below(3))]
            before = [test for test in tests if any(isinstance(part, Reference) for part in parts(test))]
        scalar = Scalar(Block(self.dice.chance(30), False, (item,), inner, tuple(where), (), None))
        test = Compare(self.dice.one_of(OPERATORS), self.value([outer], wants_text), scalar)
        items = tuple(Item(Reference(outer[0], field)) for field in outer[0].table.fields)
        return Block(False, True, items, outer, (*before, test), (), None)
