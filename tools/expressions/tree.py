"""Values, types of columns, and the trees of expressions and conditions."""
from dataclasses import dataclass

MOST_DIGITS = 38
BOUND = 10**MOST_DIGITS
GREATEST_SCALE = 18
QUOTIENT_SCALE = 6


@dataclass(frozen=True)
class Number:
    """A number of units, each of which is 10 to the power of minus the scale."""

    units: int
    scale: int


# A value is a Number, a text (str) or null (None).


@dataclass(frozen=True)
class Type:
    """A type of columns, as it is written; of numbers if it has digits, else of texts of a length."""

    name: str
    digits: int = 0
    scale: int = 0
    least: int = 0
    greatest: int = 0
    length: int = 0


def numeric(name, precision, scale):
    """A type of numbers of a precision and a scale."""
    greatest = 10**precision - 1
    parameters = f"{precision},{scale}" if scale else f"{precision}"
    return Type(f"{name}({parameters})", precision, scale, -greatest, greatest)


def number_text(number):
    """A number with as many digits behind the point as its scale says."""
    sign = "-" if number.units < 0 else ""
    whole, behind = divmod(abs(number.units), 10**number.scale)
    return f"{sign}{whole}.{behind:0{number.scale}}" if number.scale else f"{sign}{whole}"


def quoted(text):
    """A text between quotes, those inside doubled."""
    return "'" + text.replace("'", "''") + "'"


def value_text(value):
    """A value as it is printed."""
    if value is None:
        return "NULL"
    return quoted(value) if isinstance(value, str) else number_text(value)


@dataclass(frozen=True)
class Column:
    """A column of the table, at a place of its rows."""

    name: str
    place: int
    type: Type


@dataclass(frozen=True)
class Numeral:
    """A numeric literal, as it is written."""

    text: str

    @property
    def units(self):
        return int(self.text.replace(".", ""))

    @property
    def digits(self):
        return len(self.text.replace(".", ""))

    @property
    def scale(self):
        return len(self.text.partition(".")[2])


@dataclass(frozen=True)
class String:
    """A text literal."""

    text: str


@dataclass(frozen=True)
class Signed:
    """A value under a sign."""

    sign: str
    operand: object


@dataclass(frozen=True)
class Chain:
    """Operands of one level: sums and differences, or products and quotients."""

    first: object
    others: tuple


@dataclass(frozen=True)
class Compare:
    """A comparison of two values."""

    operator: str
    left: object
    right: object


@dataclass(frozen=True)
class IsNull:
    """IS [NOT] NULL."""

    negated: bool
    value: object


@dataclass(frozen=True)
class Between:
    """[NOT] BETWEEN."""

    negated: bool
    value: object
    low: object
    high: object


@dataclass(frozen=True)
class Like:
    """[NOT] LIKE."""

    negated: bool
    value: object
    pattern: str


@dataclass(frozen=True)
class InList:
    """[NOT] IN; the member NULL is None."""

    negated: bool
    value: object
    members: tuple


@dataclass(frozen=True)
class Not:
    """NOT of a condition."""

    operand: object


@dataclass(frozen=True)
class And:
    """Conditions that are joined by AND."""

    parts: tuple


@dataclass(frozen=True)
class Or:
    """Conditions that are joined by OR."""

    parts: tuple


def children(node):
    """What a node holds itself, in text order."""
    match node:
        case Signed() | Not():
            return (node.operand,)
        case Chain():
            return (node.first, *(operand for _, operand in node.others))
        case Compare():
            return (node.left, node.right)
        case IsNull() | Like():
            return (node.value,)
        case Between():
            return (node.value, node.low, node.high)
        case InList():
            return (node.value, *(member for member in node.members if member is not None))
        case And() | Or():
            return node.parts
        case _:
            return ()


def all_parts(node):
    """A node and all that it holds, in text order."""
    yield node
    for child in children(node):
        yield from all_parts(child)
