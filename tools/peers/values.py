"""Made values and tests, without subqueries."""
from expressions.tree import (
    Between, Chain, Compare, InList, IsNull, Like, Number, Numeral, Signed, String, number_text,
)

from peers.model import Reference, SetFunction, is_text, parts, size

OPERATORS = ["=", "=", "<>", "<", ">", "<=", ">="]
MOST_DIGITS = 30
MOST_SCALE = 18


class ValueMaker:
    """Makes values and tests of the sources of some blocks, those of the innermost block last."""

    def __init__(self, dice, tables):
        self.dice = dice
        values = {value for table in tables for row in table.rows for value in row}
        self.texts = sorted({value.rstrip() for value in values if isinstance(value, str)}) or ["a", "b"]
        numbers = {number_text(value).lstrip("-") for value in values
                   if isinstance(value, Number) and abs(value.units) < 10**5}
        self.numerals = sorted(numbers) or ["1"]

    # ---- values

    def reference(self, scopes, wants_text):
        """A column of a kind: most often of the block itself, else of one around it; none where there is none."""
        here = scopes[-1] if len(scopes) == 1 or self.dice.chance(70) else self.dice.one_of(scopes[:-1])
        for sources in (here, *reversed(scopes)):
            found = [Reference(source, field) for source in sources for field in source.table.fields
                     if (field.type.length > 0) == wants_text]
            if found:
                return self.dice.one_of(found)
        return None

    def numeral(self):
        """A literal: most often one that rows have."""
        if self.dice.chance(60):
            return Numeral(self.dice.one_of(self.numerals))
        whole = str(self.dice.between(0, 8))
        return Numeral(self.dice.one_of([whole] * 6 + [f"{whole}.5", f"{whole}.25", f"{whole}.0", ".5", f"{whole}.",
                                                       str(self.dice.below(10**6))]))

    def text(self, scopes, allows_literal=True):
        """A text: a column or a literal."""
        column = self.reference(scopes, True)
        if column is None or allows_literal and self.dice.chance(35):
            return String(self.dice.one_of(self.texts) + self.dice.one_of(["", "", "", "  "]))
        return column

    def number(self, scopes, levels):
        """A number of some levels of operators, of digits in bounds."""
        while True:
            found = self.any_number(scopes, levels)
            if fits(found):
                return found
            levels -= 1

    def any_number(self, scopes, levels):
        """A number."""
        if levels <= 0 or self.dice.chance(40):
            column = self.reference(scopes, False)
            return self.numeral() if column is None or self.dice.chance(20) else column
        kind = self.dice.below(10)
        if kind == 0:
            return Signed(self.dice.one_of("+--"), self.any_number(scopes, levels - 1))
        if kind < 4:
            others = [("*", self.any_number(scopes, levels - 1))]
            if self.dice.chance(30):
                others.append(("/", self.divisor()))
            return Chain(self.any_number(scopes, levels - 1), tuple(others))
        others = [(self.dice.one_of("+-"), self.any_number(scopes, levels - 1))
                  for _ in range(self.dice.one_of([1, 1, 2]))]
        return Chain(self.any_number(scopes, levels - 1), tuple(others))

    def divisor(self):
        """A literal that isn't zero."""
        return Numeral(self.dice.one_of(["2", "3", "7", "0.5", "1.5", "10", "4"]))

    def value(self, scopes, wants_text, levels=1):
        """A value of a kind."""
        return self.text(scopes) if wants_text else self.number(scopes, levels)

    # ---- tests

    def wants_text(self, scopes):
        """Whether a test is to be of texts."""
        return any(field.type.length for source in scopes[-1] for field in source.table.fields) and self.dice.chance(30)

    def test(self, scopes):
        """A test without a subquery."""
        return self.tested(lambda is_text_wanted, levels: self.value(scopes, is_text_wanted, levels),
                           self.wants_text(scopes), self.reference(scopes, True))

    def plain_test(self, scopes):
        """A test of columns and literals alone."""
        return self.tested(lambda is_text_wanted, _: self.value(scopes, is_text_wanted, 0), self.wants_text(scopes),
                           self.reference(scopes, True))

    def tested(self, value, wants_text, text_column):
        """A test of values that are made; LIKE is of a column of texts."""
        dice = self.dice
        kind, negated = dice.below(12), dice.chance(30)
        if wants_text and text_column is not None and kind < 4:
            return Like(negated, text_column, self.pattern())
        left = value(wants_text, dice.one_of([0, 0, 1, 2]))
        if isinstance(left, (String, Numeral)) and dice.chance(80):
            left = value(wants_text, 1)
        if kind < 8:
            return Compare(dice.one_of(OPERATORS), left, value(wants_text, dice.one_of([0, 0, 1])))
        if kind == 8:
            return IsNull(negated, left)
        if kind == 9:
            return Between(negated, left, value(wants_text, 1), value(wants_text, 0))
        members = [value(wants_text, 0) for _ in range(dice.between(1, 5))]
        if dice.chance(15):
            members.append(None)
        return InList(negated, left, tuple(dice.mixed(members)))

    def pattern(self):
        """A pattern of LIKE: a text of which some parts are `%` or `_`."""
        text = self.dice.one_of(self.texts).replace("\\", "")
        marks = [self.dice.one_of([letter, letter, letter, "_", "%"]) for letter in text]
        return "".join(marks) + self.dice.one_of(["%", "%", "%", " ", "", "_"])


def sizes(node):
    """The sizes of all numbers in a value."""
    found = []
    for part in parts(node):
        if isinstance(part, Chain):
            for count in range(len(part.others) + 1):
                found.append(size(Chain(part.first, part.others[:count])))
        elif not is_text(part) and isinstance(part, (Reference, Numeral, Signed, SetFunction)):
            found.append(size(part))
    return found


def fits(node):
    """Whether all numbers in a value have digits in bounds."""
    return all(it.digits <= MOST_DIGITS and it.scale <= MOST_SCALE for it in sizes(node))
