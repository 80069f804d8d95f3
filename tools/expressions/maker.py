"""Made expressions and conditions over a table."""
from dataclasses import dataclass

from expressions.answers import Statement
from expressions.evaluation import HOLDS, Evaluation, Raised, Trace, Truth, compared
from expressions.sizes import binds
from expressions.tables import made_text
from expressions.tree import (
    BOUND, And, Between, Chain, Compare, InList, IsNull, Like, Not, Number, Numeral, Or, Signed, String, number_text,
)


@dataclass(frozen=True)
class Pool:
    """What expressions are made of: columns of numbers, and operators of the level of products."""

    columns: tuple
    products: str
    has_points: bool


class Maker:
    """Makes expressions and conditions over a table."""

    def __init__(self, dice, table):
        self.dice, self.table = dice, table
        numbers = table.numbers()
        whole = tuple(column for column in numbers if column.type.scale == 0 and column.type.digits <= 10)
        self.whole = Pool(whole, "*", False)
        self.exact = Pool(numbers, "*", True)
        self.full = Pool(numbers, "*/", True)

    def values_of(self, node):
        """The values that a node has on the rows of the table, without nulls and where it doesn't raise."""
        found = []
        for row in self.table.rows:
            try:
                found.append(Evaluation(row, Trace()).value(node))
            except Raised:
                pass
        return [value for value in found if value is not None]

    def greatest(self, node):
        """The greatest size of a node's units on the rows."""
        return max((abs(value.units) for value in self.values_of(node)), default=0)

    # -- values

    def literal(self, pool):
        """A numeral."""
        dice = self.dice
        if not pool.has_points or dice.chance(40):
            return Numeral(str(dice.below(10) if dice.chance(80) else dice.below(10 ** dice.between(2, 5))))
        scale = dice.between(1, 4)
        return self.numeral(Number(dice.below(10 ** dice.between(1, scale + 2)), scale), pool)

    def numeral(self, number, pool):
        """A numeral of a value that isn't negative; some with other zeros than are needed."""
        plain = number_text(number)
        others = ["0" + plain, plain.removeprefix("0")]
        others += [plain.rstrip("0"), plain + "0"] if number.scale else [plain + "."]
        chosen = self.dice.one_of(others) if pool.has_points and self.dice.chance(25) else plain
        is_well = any(it.isdigit() for it in chosen) and binds(Numeral(chosen))
        return Numeral(chosen if is_well else plain)

    def literal_of(self, number, pool):
        """A literal of a value, with a minus where it is negative."""
        numeral = self.numeral(Number(abs(number.units), number.scale), pool)
        return Signed("-", numeral) if number.units < 0 else numeral

    def leaf(self, pool):
        """A column or a literal."""
        return self.dice.one_of(pool.columns) if self.dice.chance(75) else self.literal(pool)

    def number(self, depth, pool):
        """An expression of numbers that binds, of some depth at most."""
        while True:
            made = self.leaf(pool) if depth == 0 or self.dice.chance(15) else self.inner_number(depth - 1, pool)
            if binds(made):
                return made

    def inner_number(self, depth, pool):
        """A sign or a chain."""
        kind = self.dice.below(20)
        if kind < 3:
            return Signed("+" if kind == 0 else "-", self.number(depth, pool))
        operators = "+-" if kind < 12 else pool.products
        count = self.dice.one_of([1, 1, 1, 2, 2, 3])
        others = tuple((self.dice.one_of(operators), self.number(depth, pool)) for _ in range(count))
        return Chain(self.number(depth, pool), others)

    def pair(self, operator, a, b):
        """Two operands; of a sum or a product in any order."""
        a, b = (b, a) if operator in "+*" and self.dice.chance(40) else (a, b)
        return Chain(a, ((operator, b),))

    def near(self, node, pool):
        """What a node may be compared with: most often a literal of one of its values, or one beside it."""
        values = self.values_of(node)
        if not values or self.dice.chance(20):
            return self.number(self.dice.below(2), pool)
        value = self.dice.one_of(values)
        beside = value.units + (self.dice.between(-1, 1) if self.dice.chance(40) else 0)
        return self.literal_of(Number(beside, value.scale), pool) if abs(beside) < BOUND else self.literal(pool)

    def text(self):
        """A column of texts, or now and then a literal."""
        return self.dice.one_of(self.table.texts()) if self.dice.chance(90) else String(self.known_text().rstrip())

    def known_text(self):
        """A text of the table, or another one."""
        texts = [text for column in self.table.texts() for text in self.values_of(column)]
        return self.dice.one_of(texts) if texts and self.dice.chance(85) else made_text(self.dice, 6)

    def near_text(self):
        """A literal of a text of the table, with other blanks at its end, or cut short."""
        text = self.known_text()
        kind = self.dice.below(4)
        if kind == 0:
            return String(text)
        if kind == 1:
            return String(text[: self.dice.between(0, len(text))])
        return String(text.rstrip() + " " * self.dice.below(4))

    # -- conditions

    def operator(self):
        """An operator of comparison."""
        return self.dice.one_of(list(HOLDS))

    def comparison(self, pool):
        """A comparison of numbers."""
        left = self.number(self.dice.below(3), pool)
        sides = (left, self.near(left, pool))
        return Compare(self.operator(), *(sides if self.dice.chance(75) else sides[::-1]))

    def text_comparison(self):
        """A comparison of texts."""
        left = self.text()
        is_column = isinstance(left, String) or self.dice.chance(35)
        right = self.dice.one_of(self.table.texts()) if is_column else self.near_text()
        return Compare(self.operator(), *((left, right) if self.dice.chance(75) else (right, left)))

    def pattern(self, text, runs):
        """A pattern that a text fits: as many runs of it as % as is said, and some characters as _."""
        signs = list(text if self.dice.chance(70) else text.rstrip())
        signs = ["_" if self.dice.chance(20) else sign for sign in signs]
        for _ in range(runs):
            start = self.dice.between(0, len(signs))
            end = min(start + self.dice.below(4), len(signs))
            while "%" in signs[start:end]:
                end -= 1
            signs[start:end] = ["%"]
        if self.dice.chance(15):
            signs.insert(self.dice.between(0, len(signs)), self.dice.one_of("abA"))
        return "".join(signs)

    def like(self, runs):
        """LIKE with a number of %."""
        value = self.text()
        texts = self.values_of(value)
        known = self.dice.one_of(texts) if texts else ""
        return Like(self.dice.chance(35), value, self.pattern(known, runs))

    def between(self, pool):
        """BETWEEN of numbers, now and then of texts; most often the lower bound comes first."""
        if self.dice.chance(20):
            low, high = sorted([self.near_text(), self.near_text()], key=lambda it: it.text.ljust(254))
            return Between(self.dice.chance(35), self.text(), low, high)
        value = self.number(self.dice.below(2), pool)
        bounds = [self.near(value, pool), self.near(value, pool)]
        first = [self.values_of(bound)[:1] for bound in bounds]
        if all(first) and compared(">", first[0][0], first[1][0]) == Truth.TRUE and self.dice.chance(90):
            bounds.reverse()
        return Between(self.dice.chance(35), value, *bounds)

    def in_list(self, pool, negated, has_null):
        """IN of numbers, or of texts."""
        count = self.dice.one_of([1, 2, 2, 3, 3, 4, 5])
        if self.dice.chance(35):
            value = self.text()
            members = [self.near_text() if self.dice.chance(85) else self.text() for _ in range(count)]
        else:
            value = self.number(self.dice.below(2), pool)
            members = [self.near(value, pool) for _ in range(count)]
        if has_null:
            members.insert(self.dice.between(0, len(members)), None)
        return InList(negated, value, tuple(members))

    def null_test(self, pool):
        """IS NULL of an expression."""
        value = self.text() if self.dice.chance(20) else self.number(self.dice.below(3), pool)
        return IsNull(self.dice.chance(50), value)

    def test(self, pool):
        """Some predicate."""
        kind = self.dice.below(12)
        if kind < 4:
            return self.comparison(pool)
        if kind < 6:
            return self.text_comparison()
        if kind == 6:
            return self.like(self.dice.below(3))
        if kind < 9:
            return self.between(pool)
        if kind < 11:
            return self.in_list(pool, self.dice.chance(40), self.dice.chance(25))
        return self.null_test(pool)

    def logic(self, depth, pool):
        """A condition of tests with NOT, AND and OR."""
        if depth == 0:
            return self.test(pool)
        kind = self.dice.below(9)
        if kind < 2:
            return Not(self.logic(depth - 1, pool))
        parts = tuple(self.logic(self.dice.below(depth), pool) for _ in range(self.dice.one_of([2, 2, 2, 3])))
        return And(parts) if kind < 5 else Or(parts)

    def without_column(self):
        """A condition that names no column; most often it is true."""
        one, half = Numeral("1"), Chain(Numeral("7"), (("/", Numeral("2")),))
        unknown, equal = InList(True, Numeral("5"), (one, None)), Compare("=", one, Numeral("1.00"))
        return self.dice.one_of([
            equal, unknown, Or((unknown, equal)), InList(False, one, (None, Numeral("1.0"))),
            Compare("<", Signed("-", Numeral(".5")), Numeral("0")), Compare("=", String("ab"), String("ab  ")),
            Like(False, String("abc"), "a_%"), Like(True, String("ab"), "ab "), Compare("=", half, Numeral("3.5")),
            Between(True, half, Numeral("4"), Numeral("5")), IsNull(True, half),
        ])

    # -- statements

    def items(self, pool, *given):
        """One to three result columns, those that are given among them."""
        count = max(self.dice.between(1, 3) - len(given), 0 if given else 1)
        return tuple(self.dice.mixed([*given, *(self.item(pool) for _ in range(count))]))

    def item(self, pool):
        """A result column."""
        if self.dice.chance(30):
            return self.dice.one_of(pool.columns + self.table.texts())
        if self.dice.chance(4):
            return self.near_text()
        return self.number(self.dice.between(1, 2), pool)

    def chosen_by(self, pool, condition):
        """A statement with a condition and some result columns."""
        return Statement(self.items(pool), condition)
