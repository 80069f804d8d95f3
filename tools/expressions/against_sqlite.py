"""Made statements that sqlite3 has to answer alike."""
import sqlite3

from expressions.tree import Between, Chain, Column, Compare, InList, Number, Numeral, String

INTEGER_BOUND = 2**63


def is_text_of_its_own(node):
    """Whether sqlite3 would compare a literal by its own rule for texts, which counts blanks at the end."""
    match node:
        case Compare():
            return isinstance(node.left, String) and isinstance(node.right, String)
        case InList() | Between():
            return isinstance(node.value, String)
        case _:
            return False


def means_the_same(made):
    """Whether sqlite3 has to answer a statement alike: whole numbers of 64 bits, no division, no exception."""
    for part in made.statement.all_parts():
        is_scaled = isinstance(part, Column) and part.type.scale > 0
        is_divided = isinstance(part, Chain) and any(operator == "/" for operator, _ in part.others)
        has_point = isinstance(part, Numeral) and "." in part.text
        if is_scaled or is_divided or has_point or is_text_of_its_own(part):
            return False
    return not made.outcome.states and made.outcome.trace.greatest < INTEGER_BOUND


def plain_row(row):
    """A row of numbers of scale 0, texts and nulls, as sqlite3 has it."""
    return tuple(value.units if isinstance(value, Number) else value for value in row)


def sqlite_table(table):
    """A connection to a table of the same rows; the columns of texts ignore blanks at the end in comparisons."""
    connection = sqlite3.connect(":memory:")
    connection.execute("PRAGMA case_sensitive_like = ON")
    names = [f"{column.name} {'TEXT COLLATE RTRIM' if column.type.length else 'INTEGER'}" for column in table.columns]
    connection.execute(f"CREATE TABLE T ({', '.join(names)})")
    for row in table.rows:
        connection.execute(f"INSERT INTO T VALUES ({', '.join('?' * len(row))})", plain_row(row))
    return connection
