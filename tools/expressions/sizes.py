"""What is known of expressions before any row is read: digits, scales, and whether they can raise."""
from dataclasses import dataclass

from expressions.tree import GREATEST_SCALE, MOST_DIGITS, QUOTIENT_SCALE, And, Chain, Column, Numeral, Signed, all_parts


@dataclass(frozen=True)
class Size:
    """How many digits an expression's numbers have at most, and how many of them behind the point."""

    digits: int
    scale: int


def joined_size(operator, a, b):
    """The size of an operation's results."""
    if operator == "*":
        return Size(a.digits + b.digits, a.scale + b.scale)
    if operator == "/":
        return Size(MOST_DIGITS, max(a.scale, QUOTIENT_SCALE))
    scale = max(a.scale, b.scale)
    return Size(max(a.digits - a.scale, b.digits - b.scale) + 1 + scale, scale)


def beginnings(chain):
    """For each operand of a chain but the first, what joins it, and the size of the chain up to it."""
    found = size(chain.first)
    for operator, operand in chain.others:
        found = joined_size(operator, found, size(operand))
        yield operator, found


def size(node):
    """The size of an expression of numbers."""
    match node:
        case Column():
            return Size(node.type.digits, node.type.scale)
        case Numeral():
            return Size(node.digits, node.scale)
        case Signed():
            return size(node.operand)
        case Chain():
            *_, (_, last) = beginnings(node)
            return last


def can_raise(node):
    """Whether a node holds a division, or a part of more than 38 digits."""
    chains = [part for part in all_parts(node) if isinstance(part, Chain)]
    steps = [step for chain in chains for step in beginnings(chain)]
    return any(operator == "/" or found.digits > MOST_DIGITS for operator, found in steps)


def is_late(conjunct):
    """Whether a conjunct is evaluated only on the rows on which the early ones are true."""
    return can_raise(conjunct) or not any(isinstance(part, Column) for part in all_parts(conjunct))


def conjuncts(condition):
    """The parts of a condition under AND, and their parts under AND."""
    if isinstance(condition, And):
        return [conjunct for part in condition.parts for conjunct in conjuncts(part)]
    return [] if condition is None else [condition]


def binds(node):
    """Whether no number of a node has too many digits or too great a scale."""
    for part in all_parts(node):
        if isinstance(part, Numeral) and (part.digits > MOST_DIGITS or part.scale > GREATEST_SCALE):
            return False
        if isinstance(part, Chain) and any(found.scale > GREATEST_SCALE for _, found in beginnings(part)):
            return False
    return True
