"""Made tables: their columns, their rows, and the fields of their files."""
import random
from dataclasses import dataclass

from expressions.tree import Column, Number, Type, number_text, numeric


class Dice:
    """Choices that are the same in each run."""

    def __init__(self, seed):
        self.source = random.Random(seed)

    def below(self, count):
        """A whole number from 0, below a count."""
        return self.source.getrandbits(192) % count

    def between(self, least, greatest):
        """A whole number from a least to a greatest."""
        return least + self.below(greatest - least + 1)

    def chance(self, percent):
        """Whether a thing of so many percent comes about."""
        return self.below(100) < percent

    def one_of(self, things):
        """One of the things."""
        return things[self.below(len(things))]

    def mixed(self, things):
        """The things in some order."""
        rest = list(things)
        return [rest.pop(self.below(len(rest))) for _ in things]


@dataclass(frozen=True)
class Table:
    """The table of a case."""

    columns: tuple
    rows: list

    def numbers(self):
        """The columns of numbers."""
        return tuple(column for column in self.columns if column.type.digits)

    def texts(self):
        """The columns of texts."""
        return tuple(column for column in self.columns if column.type.length)


LETTERS = "aaaabbbbcAB _%'-1"


def made_types(dice):
    """The types of a table: whole numbers, wide and fine numbers, and texts of two lengths."""
    small, integer = Type("SMALLINT", 5, 0, -(2**15), 2**15 - 1), Type("INTEGER", 10, 0, -(2**31), 2**31 - 1)
    middle = dice.one_of([(9, 2), (5, 1), (7, 3), (12, 4), (4, 2), (6, 6), (8, 5)])
    fine = dice.one_of([(18, 18), (18, 12), (12, 12), (18, 9), (15, 14), (18, 17)])
    words = ["NUMERIC", "DECIMAL", "NUMERIC", "DEC"]
    types = [small, integer, numeric(dice.one_of(words), dice.one_of([18, 18, 17, 15]), 0)]
    types += [numeric(dice.one_of(words), *middle), numeric(dice.one_of(words), *fine)]
    types += [dice.one_of([small, integer, numeric("NUMERIC", 3, 0)])]
    lengths = dice.mixed([2, 3, 4, 5, 6, 7])[:2]
    types += [Type(f"CHAR({length})", length=length) for length in lengths]
    return dice.mixed(types)


def made_text(dice, length):
    """A text without blanks at its end."""
    return "".join(dice.one_of(LETTERS) for _ in range(dice.between(0, length))).rstrip()


def made_value(dice, type):
    """A value of a type: nulls, zeros and extremes among them."""
    if dice.chance(14):
        return None
    if type.length:
        return made_text(dice, type.length).ljust(type.length)
    kind = dice.below(10)
    if kind < 2:
        units = 0
    elif kind == 2:
        units = dice.one_of([type.least, type.greatest])
    elif kind < 7:
        units = dice.between(-9, 9) * 10 ** dice.between(0, type.scale)
    else:
        units = dice.between(-1, 1) * dice.below(10 ** dice.between(1, type.digits))
    return Number(min(max(units, type.least), type.greatest), type.scale)


def made_table(dice):
    """A table of 6 to 12 rows; some texts are equal."""
    types = made_types(dice)
    columns = tuple(Column("ABCDEFGH"[place], place, type) for place, type in enumerate(types))
    rows = [[made_value(dice, column.type) for column in columns] for _ in range(dice.between(6, 12))]
    texts = [column for column in columns if column.type.length]
    for row in rows:
        for column, other in (texts, texts[::-1]):
            text = dice.one_of(rows)[other.place]
            if dice.chance(25) and text and len(text.rstrip()) <= column.type.length:
                row[column.place] = text.rstrip().ljust(column.type.length)
    return Table(columns, [tuple(row) for row in rows])


def field_text(dice, value):
    """A value as a field of a file; some texts have blanks at their end."""
    if value is None:
        return "\\N"
    if isinstance(value, Number):
        return number_text(value)
    text = value.rstrip().ljust(dice.between(0, len(value)))
    return f'"{text}"' if dice.chance(20) or text.startswith("-") else text
