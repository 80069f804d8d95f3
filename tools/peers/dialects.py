"""Queries as the SQL of the peers, where they mean the same: in parentheses throughout, each column behind its source.

PostgreSQL has each number as NUMERIC, so that sums and products are exact and have our scales. A quotient is cut there
by `div`, which gives a whole number towards zero, and then brought to its scale; AVG is such a quotient of SUM and
COUNT. Texts are of type bpchar, which compares as if the shorter one went on with spaces, by the codes of ASCII with
the locale C, and LIKE looks at the full length of a column.

SQLite has no exact numbers but integers of 64 bits. So each number is an integer there, of units of its scale, and what
is compared or added is first brought to one scale. Where a number could have more than 18 digits, SQLite isn't asked.
Columns of texts hold their full length, and what is compared is cut by `rtrim` first: the collation RTRIM would do,
but a join by an automatic index of SQLite 3.40 misses rows by it. There is no ALL and no ANY: EXISTS is asked in their
place.
"""
from expressions.tree import (
    And, Between, Chain, Compare, InList, IsNull, Like, Not, Numeral, Or, Signed, String, quoted,
)

from peers.model import (
    QUOTIENT_SCALE, Exists, InBlock, Quantified, Reference, Scalar, SetFunction, Size, is_text, operated_size, size,
)

SQLITE_DIGITS = 18


class Unsuited(Exception):
    """SQLite can't be asked: a number could have too many digits."""


class Peer:
    """What both peers are told alike."""

    def block(self, block, scale=0, name="", is_compared=False):
        """A block; the item of a subquery is wanted in a scale, under a name, and perhaps as it is compared."""
        items = ", ".join(self.item(item.value, scale, is_compared) for item in block.items) + name
        words = ["SELECT", "DISTINCT", items] if block.is_distinct else ["SELECT", items]
        words += ["FROM", ", ".join(f"{source.table.name} {source.alias}" for source in block.sources)]
        if block.where:
            words += ["WHERE", " AND ".join(self.condition(conjunct) for conjunct in block.where)]
        if block.groups:
            words += ["GROUP BY", ", ".join(self.reference(group) for group in block.groups)]
        if block.having is not None:
            words += ["HAVING", self.condition(block.having)]
        return " ".join(words)

    def query(self, query):
        """A whole query."""
        keys = ", ".join(self.key(key) for key in query.keys)
        return f"{self.block(query.block)}{' ORDER BY ' + keys if keys else ''};"

    def reference(self, node):
        """A column behind its source."""
        return f"{node.source.alias}.{node.field.name}"

    def value(self, node):
        """A value in parentheses; for SQLite a number in units of its own scale."""
        match node:
            case Reference():
                return self.reference(node)
            case Numeral():
                return self.numeral(node)
            case String():
                return self.string(node)
            case Signed():
                return f"({node.sign} {self.value(node.operand)})"
            case Chain():
                return self.chain(node)
            case SetFunction():
                return self.set_function(node)
            case Scalar():
                return f"({self.block(node.block)})"

    def condition(self, node):
        """A condition in parentheses."""
        match node:
            case Not():
                return f"(NOT {self.condition(node.operand)})"
            case And():
                return "(" + " AND ".join(self.condition(part) for part in node.parts) + ")"
            case Or():
                return "(" + " OR ".join(self.condition(part) for part in node.parts) + ")"
            case Exists():
                return f"(EXISTS ({self.block(node.block)}))"
            case Quantified():
                return self.quantified(node)
            case _:
                return f"({self.test(node)})"

    def test(self, node):
        """A predicate."""
        word = "NOT " if getattr(node, "negated", False) else ""
        match node:
            case Compare():
                left, right = self.alike(node.left, node.right)
                return f"{left} {node.operator} {right}"
            case IsNull():
                return f"{self.alike(node.value)[0]} IS {word}NULL"
            case Between():
                value, low, high = self.alike(node.value, node.low, node.high)
                return f"{value} {word}BETWEEN {low} AND {high}"
            case Like():
                return f"{self.pattern_operand(node.value)} {word}LIKE {quoted(node.pattern)}{self.no_escape}"
            case InList():
                there = [member for member in node.members if member is not None]
                value, *members = self.alike(node.value, *there)
                nulls = ["NULL"] * (len(node.members) - len(there))
                return f"{value} {word}IN ({', '.join(members + nulls)})"
            case InBlock():
                value, scale = self.beside(node)
                return f"{value} {word}IN ({self.block(node.block, scale, is_compared=True)})"

    def distinct(self, node):
        """DISTINCT of a set function, or nothing."""
        return "DISTINCT " if node.is_distinct else ""


class Postgres(Peer):
    """Writes queries for PostgreSQL."""

    no_escape = " ESCAPE ''"

    def __init__(self, may_raise):
        self.may_raise = may_raise

    def key(self, key):
        """A key of ORDER BY, with the nulls where we have them."""
        return f"{key.position} {'DESC NULLS LAST' if key.is_descending else 'ASC NULLS FIRST'}"

    def item(self, node, scale, is_compared):
        """A result column."""
        return self.value(node)

    def alike(self, *nodes):
        """Values that are compared."""
        return [self.value(node) for node in nodes]

    def beside(self, node):
        """The value beside a subquery; no scale is wanted."""
        return self.value(node.value), 0

    def pattern_operand(self, node):
        """What LIKE looks at."""
        return self.value(node)

    def quantified(self, node):
        """A comparison with ALL, ANY or SOME."""
        return f"({self.value(node.value)} {node.operator} {node.quantifier} ({self.block(node.block)}))"

    def numeral(self, node):
        """A number of the query."""
        return f"'{node.text}'::numeric"

    def string(self, node):
        """A text of the query."""
        return f"{quoted(node.text)}::bpchar"

    def chain(self, node):
        """Operands from left to right."""
        text, found = self.value(node.first), size(node.first)
        for operator, operand in node.others:
            right = self.value(operand)
            if operator == "/":
                text = self.quotient(text, right, max(found.scale, QUOTIENT_SCALE), self.may_raise)
            else:
                text = f"({text} {operator} {right})"
            found = operated_size(operator, found, size(operand))
        return text

    def quotient(self, dividend, divisor, scale, may_raise):
        """A quotient cut to a scale; where none may raise, a zero gives null: a condition tried later leaves it out."""
        unit = f"'0.{'0' * (scale - 1)}1'::numeric"
        safe = divisor if may_raise else f"nullif({divisor}, 0)"
        return f"(div({dividend} * '1{'0' * scale}'::numeric, {safe}) * {unit})"

    def set_function(self, node):
        """A set function; a count is a number as others are."""
        if node.argument is None:
            return "count(*)::numeric"
        argument = f"({self.distinct(node)}{self.value(node.argument)})"
        if node.word == "COUNT":
            return f"count{argument}::numeric"
        if node.word == "AVG":
            return self.quotient(f"sum{argument}", f"count{argument}::numeric", size(node).scale, False)
        return f"{node.word}{argument}"


class Sqlite(Peer):
    """Writes queries for SQLite, where each number is an integer of units of its scale."""

    no_escape = ""

    def __init__(self):
        self.derived = 0

    def key(self, key):
        """A key of ORDER BY."""
        return f"{key.position}{' DESC' if key.is_descending else ''}"

    def item(self, node, scale, is_compared):
        """A result column; a number at least in a scale."""
        if is_text(node):
            return self.text(node) if is_compared else self.value(node)
        return self.scaled(node, max(scale, size(node).scale))

    def text(self, node):
        """A text as it is compared: without spaces at its end."""
        return f"rtrim({self.value(node)})"

    def alike(self, *nodes):
        """Values that are compared: numbers in one scale, or texts."""
        if is_text(nodes[0]):
            return [self.text(node) for node in nodes]
        scale = max(size(node).scale for node in nodes)
        return [self.scaled(node, scale) for node in nodes]

    def beside(self, node):
        """The value beside a subquery, and the scale of both."""
        item = node.block.items[0].value
        if is_text(node.value):
            return self.text(node.value), 0
        scale = max(size(node.value).scale, size(item).scale)
        return self.scaled(node.value, scale), scale

    def pattern_operand(self, node):
        """What LIKE looks at: a column of full length."""
        return self.value(node)

    def quantified(self, node):
        """ALL and ANY by EXISTS: false or true by one row, else unknown by one, else as of no row."""
        value, scale = self.beside(node)
        self.derived += 1
        given = f"({self.block(node.block, scale, ' AS X', True)}) D{self.derived}"
        compared = f"({value} {node.operator} D{self.derived}.X)"
        is_all = node.quantifier == "ALL"
        decides = f"NOT {compared}" if is_all else compared
        decided, otherwise = ("0", "1") if is_all else ("1", "0")
        return (
            f"(CASE WHEN EXISTS (SELECT 1 FROM {given} WHERE {decides}) THEN {decided}"
            f" WHEN EXISTS (SELECT 1 FROM {given} WHERE {compared} IS NULL) THEN NULL ELSE {otherwise} END)"
        )

    def scaled(self, node, scale):
        """A number in units of a scale."""
        found = size(node)
        return self.times(self.value(node), found, scale - found.scale)

    def times(self, text, found, places):
        """A number of a size times a power of ten."""
        self.judge(Size(found.digits + places, found.scale))
        return f"({text} * 1{'0' * places})" if places else text

    def judge(self, found):
        """Gives up where a number could have too many digits."""
        if found.digits > SQLITE_DIGITS:
            raise Unsuited

    def numeral(self, node):
        """A number of the query, in units of its own scale."""
        self.judge(size(node))
        return str(node.units)

    def string(self, node):
        """A text of the query."""
        return quoted(node.text)

    def chain(self, node):
        """Operands from left to right."""
        text, found = self.value(node.first), size(node.first)
        self.judge(found)
        for operator, operand in node.others:
            right, right_size = self.value(operand), size(operand)
            self.judge(right_size)
            result = operated_size(operator, found, right_size)
            self.judge(result)
            if operator == "/":
                text = f"({self.times(text, found, result.scale + right_size.scale - found.scale)} / {right})"
            elif operator == "*":
                text = f"({text} * {right})"
            else:
                left = self.times(text, found, result.scale - found.scale)
                text = f"({left} {operator} {self.times(right, right_size, result.scale - right_size.scale)})"
            found = result
        return text

    def set_function(self, node):
        """A set function; AVG is a quotient of the sum and the count."""
        if node.argument is None:
            return "COUNT(*)"
        argument = f"({self.distinct(node)}{self.value(node.argument)})"
        if node.word != "AVG":
            if node.word != "COUNT" and not is_text(node.argument):
                self.judge(size(node))
            return f"{node.word}{argument}"
        total = size(SetFunction("SUM", False, node.argument))
        return f"({self.times(f'SUM{argument}', total, size(node).scale - total.scale)} / COUNT{argument})"
