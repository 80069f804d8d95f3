"""What a statement and its answer have that a case should cover."""
from expressions.sizes import can_raise, conjuncts, is_late
from expressions.tree import (
    BOUND, GREATEST_SCALE, And, Between, Chain, Column, Compare, InList, IsNull, Like, Not, Number, Or, Signed, String,
)

PREDICATES = {IsNull: "IS NULL", Between: "BETWEEN", Like: "LIKE", InList: "IN"}


def predicate_marks(part):
    """The marks of a predicate with a value."""
    name = PREDICATES[type(part)]
    word = ("IS NOT NULL" if isinstance(part, IsNull) else f"NOT {name}") if part.negated else name
    marks = {word}
    if isinstance(part, Like):
        marks |= {"LIKE with several %"} if part.pattern.count("%") > 1 else set()
        marks |= {"LIKE with _"} if "_" in part.pattern else set()
    elif isinstance(part, InList) and None in part.members:
        marks.add(f"{word} with NULL")
    return marks


def node_marks(part):
    """The marks of one node of a statement."""
    match part:
        case Signed():
            return {f"sign {part.sign}"}
        case Chain():
            many = {"chain of three or more"} if len(part.others) > 1 else set()
            return {f"operator {operator}" for operator, _ in part.others} | many
        case Compare():
            is_text = isinstance(part.left, String) or (isinstance(part.left, Column) and part.left.type.length)
            return {f"comparison {part.operator}"} | ({"comparison of texts"} if is_text else set())
        case Not() | And() | Or():
            return {type(part).__name__.upper()}
        case IsNull() | Between() | Like() | InList():
            return predicate_marks(part)
        case _:
            return set()


def statement_marks(statement):
    """What a statement holds."""
    marks = set().union(*(node_marks(part) for part in statement.all_parts()))
    parts = conjuncts(statement.condition)
    late = [part for part in parts if is_late(part)]
    marks.add(f"{len(statement.items)} result columns")
    marks |= {"WHERE"} if parts else {"no WHERE"}
    marks |= {"several conjuncts"} if len(parts) > 1 else set()
    marks |= {"late conjunct"} if late else set()
    marks |= {"late and early conjuncts"} if 0 < len(late) < len(parts) else set()
    marks |= {"late conjunct without a column"} if any(not can_raise(part) for part in late) else set()
    return marks


def answer_marks(outcome, row_count):
    """What a statement's answer is."""
    marks = set(outcome.trace.marks)
    for cause, state in outcome.causes.items():
        marks |= {f"exception {state}", cause, "operand of a sum" if cause.startswith("operand") else cause}
    if outcome.states:
        return marks
    found = [value for row in outcome.rows for value in row]
    numbers = [value for value in found if isinstance(value, Number)]
    marks |= {"result of 38 digits"} if any(abs(it.units) >= BOUND // 10 for it in numbers) else set()
    marks |= {"result of scale 18"} if any(it.scale == GREATEST_SCALE for it in numbers) else set()
    marks |= {"result NULL"} if None in found else set()
    count = len(outcome.rows)
    marks.add("no rows" if count == 0 else "all rows" if count == row_count else "some of the rows")
    return marks
