"""Expressions as SQL, with parentheses by precedence."""
import enum
from typing import Callable

from expressions.tree import (
    And, Between, Chain, Column, Compare, InList, IsNull, Like, Not, Numeral, Or, Signed, String, quoted,
)


class Level(enum.IntEnum):
    """How tightly what is written holds together."""

    OR = 0
    AND = 1
    NOT = 2
    TEST = 3
    SUM = 4
    PRODUCT = 5
    SIGN = 6
    PRIMARY = 7


def is_sum(chain):
    """Whether a chain is one of sums and differences."""
    return chain.others[0][0] in "+-"


def level(node):
    """The level of a node."""
    match node:
        case Or():
            return Level.OR
        case And():
            return Level.AND
        case Not():
            return Level.NOT
        case Chain():
            return Level.SUM if is_sum(node) else Level.PRODUCT
        case Signed():
            return Level.SIGN
        case Column() | Numeral() | String():
            return Level.PRIMARY
        case _:
            return Level.TEST


class Printer:
    """Writes expressions as SQL, with the parentheses that precedence asks and now and then some more."""

    def __init__(self, wants_more: Callable[[], bool]):
        self.wants_more = wants_more

    def at(self, least, node):
        """A node where what holds together less tightly than a level has to stand in parentheses."""
        text = self.text(node)
        return f"({text})" if level(node) < least or self.wants_more() else text

    def text(self, node):
        """A node without parentheses around it."""
        match node:
            case Column():
                return node.name
            case Numeral():
                return node.text
            case String():
                return quoted(node.text)
            case Signed():
                operand = self.at(Level.SIGN, node.operand)
                return f"{node.sign} {operand}" if operand[0] in "+-" else f"{node.sign}{operand}"
            case Chain():
                operand_level = Level.PRODUCT if is_sum(node) else Level.SIGN
                words = [self.at(operand_level, node.first)]
                for operator, operand in node.others:
                    words += [operator, self.at(operand_level, operand)]
                return " ".join(words)
            case Not():
                return f"NOT {self.at(Level.NOT, node.operand)}"
            case And():
                return " AND ".join(self.at(Level.NOT, part) for part in node.parts)
            case Or():
                return " OR ".join(self.at(Level.AND, part) for part in node.parts)
            case _:
                return self.test(node)

    def test(self, node):
        """A predicate."""
        word = "NOT " if getattr(node, "negated", False) else ""
        if isinstance(node, Compare):
            return f"{self.at(Level.SUM, node.left)} {node.operator} {self.at(Level.SUM, node.right)}"
        value = self.at(Level.SUM, node.value)
        match node:
            case IsNull():
                return f"{value} IS {word}NULL"
            case Between():
                return f"{value} {word}BETWEEN {self.at(Level.SUM, node.low)} AND {self.at(Level.SUM, node.high)}"
            case Like():
                return f"{value} {word}LIKE {quoted(node.pattern)}"
            case InList():
                members = ("NULL" if it is None else self.at(Level.SUM, it) for it in node.members)
                return f"{value} {word}IN ({', '.join(members)})"
