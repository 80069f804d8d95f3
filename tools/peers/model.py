"""Databases and queries: the trees that are made, written for each engine, and made smaller."""
import dataclasses
from dataclasses import dataclass
from typing import Optional

from expressions.tree import (
    And, Between, Chain, Compare, InList, IsNull, Like, Not, Numeral, Or, Signed, String, Type,
)

QUOTIENT_SCALE = 6
# How many digits a sum can have more than what it adds: no query has 100,000 rows.
DIGITS_OF_COUNT = 5


# ---- databases


@dataclass(frozen=True)
class Field:
    """A column of a table, and how many digits its numbers have at most."""

    name: str
    type: Type
    is_not_null: bool
    digits: int


@dataclass(frozen=True)
class Table:
    """A table and its rows."""

    name: str
    fields: tuple
    rows: tuple


@dataclass(frozen=True)
class Index:
    """An index, by the places of its columns; as a key it is written behind its one column."""

    table: str
    places: tuple
    is_unique: bool
    key: str = ""


@dataclass(frozen=True)
class Design:
    """What can't change rows: indexes, those that are made before the rows are loaded, and statistics."""

    indexes: tuple
    before: frozenset
    statistics: tuple


# ---- queries


@dataclass(frozen=True)
class Source:
    """A table of a FROM, by a name that no other source of the query has."""

    table: Table
    alias: str


@dataclass(frozen=True)
class Reference:
    """A column of a source."""

    source: Source
    field: Field


@dataclass(frozen=True)
class SetFunction:
    """A set function; COUNT(*) has no argument."""

    word: str
    is_distinct: bool
    argument: Optional[object]


@dataclass(frozen=True)
class Item:
    """A result column, and its name, if it is given one."""

    value: object
    name: str = ""


@dataclass(frozen=True)
class Block:
    """A SELECT; all columns are wanted where `is_star`, and the items are then those."""

    is_distinct: bool
    is_star: bool
    items: tuple
    sources: tuple
    where: tuple
    groups: tuple
    having: Optional[object]


@dataclass(frozen=True)
class Exists:
    """EXISTS."""

    block: Block


@dataclass(frozen=True)
class InBlock:
    """[NOT] IN with a subquery."""

    negated: bool
    value: object
    block: Block


@dataclass(frozen=True)
class Quantified:
    """A comparison with ALL, ANY or SOME."""

    operator: str
    quantifier: str
    value: object
    block: Block


@dataclass(frozen=True)
class Scalar:
    """A subquery as a value."""

    block: Block


@dataclass(frozen=True)
class Key:
    """A key of ORDER BY: a position from 1, and the name to write in its place, if any."""

    position: int
    name: str
    is_descending: bool


@dataclass(frozen=True)
class Query:
    """A whole query; whether an exception may come of it, and every engine has to tell it alike."""

    block: Block
    keys: tuple
    may_raise: bool = False


# ---- what is known of them


@dataclass(frozen=True)
class Size:
    """How many digits a number has at most, and how many of them behind the point."""

    digits: int
    scale: int


def quotient_size(a, b):
    """The size of a quotient: the divisor may be as small as its last digit."""
    scale = max(a.scale, QUOTIENT_SCALE)
    return Size(max(a.digits - a.scale, 0) + b.scale + scale, scale)


def operated_size(operator, a, b):
    """The size of an operation's result."""
    if operator == "*":
        return Size(a.digits + b.digits, a.scale + b.scale)
    if operator == "/":
        return quotient_size(a, b)
    scale = max(a.scale, b.scale)
    return Size(max(a.digits - a.scale, b.digits - b.scale) + 1 + scale, scale)


def set_function_size(node):
    """The size of what a set function of numbers gives."""
    if node.word == "COUNT":
        return Size(DIGITS_OF_COUNT, 0)
    argument = size(node.argument)
    if node.word == "SUM":
        return Size(argument.digits + DIGITS_OF_COUNT, argument.scale)
    if node.word == "AVG":
        scale = max(argument.scale, QUOTIENT_SCALE)
        return Size(argument.digits - argument.scale + scale, scale)
    return argument


def size(node):
    """The size of an expression of numbers."""
    match node:
        case Reference():
            return Size(node.field.digits, node.field.type.scale)
        case Numeral():
            return Size(node.digits, node.scale)
        case Signed():
            return size(node.operand)
        case Chain():
            found = size(node.first)
            for operator, operand in node.others:
                found = operated_size(operator, found, size(operand))
            return found
        case SetFunction():
            return set_function_size(node)
        case Scalar():
            return size(node.block.items[0].value)


def is_text(node):
    """Whether a value is a text."""
    match node:
        case Reference():
            return node.field.type.length > 0
        case String():
            return True
        case SetFunction():
            return node.word in ("MIN", "MAX") and is_text(node.argument)
        case Scalar():
            return is_text(node.block.items[0].value)
        case _:
            return False


def children(node):
    """What a node holds itself, blocks among it."""
    match node:
        case Reference() | Numeral() | String():
            return ()
        case Signed() | Not():
            return (node.operand,)
        case Chain():
            return (node.first, *(operand for _, operand in node.others))
        case Compare():
            return (node.left, node.right)
        case IsNull() | Like():
            return (node.value,)
        case Between():
            return (node.value, node.low, node.high)
        case InList():
            return (node.value, *(member for member in node.members if member is not None))
        case And() | Or():
            return node.parts
        case SetFunction():
            return () if node.argument is None else (node.argument,)
        case Exists() | Scalar():
            return (node.block,)
        case InBlock() | Quantified():
            return (node.value, node.block)
        case Block():
            having = () if node.having is None else (node.having,)
            return (*(item.value for item in node.items), *node.where, *node.groups, *having)
        case _:
            return ()


def parts(node):
    """A node and all that it holds, its blocks' parts too."""
    left = [node]
    while left:
        node = left.pop()
        yield node
        left += children(node)


def blocks(node):
    """The blocks of a node."""
    return [part for part in parts(node) if isinstance(part, Block)]


def depth(node):
    """How many levels of subqueries a node has, its own block not counted."""
    inner = [depth(child) + isinstance(child, Block) for child in children(node)]
    return max(inner, default=0)


def is_grouped(block):
    """Whether a block has a row for each group."""
    found = any(isinstance(part, SetFunction) for item in block.items for part in parts(item.value))
    return bool(block.groups) or block.having is not None or found


def result_names(block):
    """The names of a block's result columns."""
    def name(number, item):
        return item.name or (item.value.field.name if isinstance(item.value, Reference) else f"COL{number}")
    return [name(number, item) for number, item in enumerate(block.items, 1)]
