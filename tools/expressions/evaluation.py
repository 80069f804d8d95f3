"""What expressions and conditions mean on a row, calculated with whole numbers."""
import enum
import re

from expressions.tree import (
    BOUND, QUOTIENT_SCALE, And, Between, Chain, Column, Compare, InList, IsNull, Like, Not, Number, Numeral, Or, Signed,
    String,
)


class Raised(Exception):
    """An exception of a query: its SQLSTATE, and what brought it about."""

    def __init__(self, state, cause):
        super().__init__(state, cause)
        self.state, self.cause = state, cause


def judged(units, scale, cause):
    """A number, if it has at most 38 digits."""
    if abs(units) >= BOUND:
        raise Raised("22003", cause)
    return Number(units, scale)


def total(a, b, sign):
    """A sum or difference, at the greater scale, to which both operands must come in bounds."""
    scale = max(a.scale, b.scale)
    left, right = (number.units * 10 ** (scale - number.scale) for number in (a, b))
    if max(abs(left), abs(right)) >= BOUND:
        is_small = abs(left + sign * right) < BOUND
        raise Raised("22003", "operand of a sum that would be in bounds" if is_small else "operand of a sum")
    return judged(left + sign * right, scale, "sum")


def product(a, b):
    """A product; its scale is the sum of the scales."""
    return judged(a.units * b.units, a.scale + b.scale, "product")


def quotient(a, b, marks):
    """A quotient of at least 6 digits behind the point, cut towards zero; a zero divisor comes first."""
    if b.units == 0:
        raise Raised("22012", "division by zero")
    scale = max(a.scale, QUOTIENT_SCALE)
    numerator = judged(a.units * 10 ** (scale + b.scale - a.scale), scale, "numerator").units
    size, rest = divmod(abs(numerator), abs(b.units))
    is_negative = (numerator < 0) != (b.units < 0)
    if rest:
        marks.add("quotient cut upwards" if is_negative else "quotient cut downwards")
    return Number(-size if is_negative else size, scale)


class Truth(enum.IntEnum):
    """Three truth values; AND is the least of its parts, and OR the greatest."""

    FALSE = 0
    UNKNOWN = 1
    TRUE = 2


# The orders (less -1, equal 0, greater 1) that an operator holds of.
HOLDS = {"=": (0,), "<>": (-1, 1), "<": (-1,), ">": (1,), "<=": (-1, 0), ">=": (0, 1)}


def known(holds):
    """The truth value of what is known."""
    return Truth.TRUE if holds else Truth.FALSE


def opposite(truth):
    """NOT of a truth value."""
    return Truth(Truth.TRUE - truth)


def compared(operator, a, b):
    """A comparison: unknown with a null, numbers by value, texts as if padded with blanks."""
    if a is None or b is None:
        return Truth.UNKNOWN
    if isinstance(a, str):
        length = max(len(a), len(b))
        left, right = a.ljust(length), b.ljust(length)
    else:
        left, right = a.units * 10**b.scale, b.units * 10**a.scale
    return known((left > right) - (left < right) in HOLDS[operator])


def like(text, pattern):
    """Whether all of a text fits a pattern, in which % is any run of characters and _ is any one."""
    wild = {"%": ".*", "_": "."}
    return re.fullmatch("".join(wild.get(it, re.escape(it)) for it in pattern), text, re.DOTALL) is not None


class Trace:
    """What came up in evaluations: remarkable steps, and the greatest size of units."""

    def __init__(self):
        self.marks, self.greatest = set(), 0


class Evaluation:
    """Evaluates expressions on a row. All operands are evaluated, in text order, and the first raise stands."""

    def __init__(self, row, trace):
        self.row, self.trace = row, trace

    def value(self, node):
        """The value of an expression."""
        match node:
            case Column():
                value = self.row[node.place]
            case Numeral():
                value = Number(node.units, node.scale)
            case String():
                value = node.text
            case Signed():
                value = self.value(node.operand)
                if value is not None and node.sign == "-":
                    value = Number(-value.units, value.scale)
            case Chain():
                value = self.value(node.first)
                for operator, operand in node.others:
                    value = self.operation(operator, value, self.value(operand))
        if isinstance(value, Number):
            self.trace.greatest = max(self.trace.greatest, abs(value.units))
        return value

    def operation(self, operator, a, b):
        """An arithmetic operation; of a null it is null."""
        if a is None or b is None:
            if operator == "/" and b is not None and b.units == 0:
                self.trace.marks.add("null divided by zero")
            return None
        match operator:
            case "*":
                result = product(a, b)
            case "/":
                result = quotient(a, b, self.trace.marks)
            case _:
                result = total(a, b, -1 if operator == "-" else 1)
        self.trace.greatest = max(self.trace.greatest, abs(result.units))
        return result

    def truth(self, node):
        """The truth value of a condition."""
        match node:
            case Compare():
                truth = compared(node.operator, self.value(node.left), self.value(node.right))
            case Not():
                truth = opposite(self.truth(node.operand))
            case And():
                truth = min([self.truth(part) for part in node.parts])
            case Or():
                truth = max([self.truth(part) for part in node.parts])
            case _:
                truth = self.predicate(node)
                truth = opposite(truth) if node.negated else truth
        if truth == Truth.UNKNOWN:
            self.trace.marks.add("unknown")
        return truth

    def predicate(self, node):
        """The truth value of a predicate with a value and perhaps a NOT, which is passed over."""
        value = self.value(node.value)
        match node:
            case IsNull():
                return known(value is None)
            case Between():
                low, high = self.value(node.low), self.value(node.high)
                return min(compared(">=", value, low), compared("<=", value, high))
            case Like():
                return Truth.UNKNOWN if value is None else known(like(value, node.pattern))
            case InList():
                members = [None if member is None else self.value(member) for member in node.members]
                return max(compared("=", value, member) for member in members)
