"""Queries as our SQL: with few parentheses, and columns by their own name alone where that says which is meant."""
from expressions.printing import Level, Printer

from peers.model import Block, Exists, InBlock, Quantified, Reference, Scalar, SetFunction


class OurWriter(Printer):
    """Writes queries for our program."""

    def __init__(self, dice, percent):
        super().__init__(lambda: dice.chance(percent))
        self.dice = dice
        self.scopes = []

    def at(self, least, node):
        """A node, in parentheses where it needs some."""
        if isinstance(node, (Reference, SetFunction, Scalar)):
            return self.text(node)
        return super().at(least, node)

    def text(self, node):
        """A node without parentheses around it."""
        match node:
            case Reference():
                return self.reference(node)
            case SetFunction():
                word = "DISTINCT " if node.is_distinct else ""
                return f"{node.word}({word}{'*' if node.argument is None else self.at(Level.SUM, node.argument)})"
            case Scalar():
                return self.subquery(node.block)
            case _:
                return super().text(node)

    def test(self, node):
        """A predicate."""
        match node:
            case Exists():
                return f"EXISTS {self.subquery(node.block)}"
            case InBlock():
                word = "NOT IN" if node.negated else "IN"
                return f"{self.at(Level.SUM, node.value)} {word} {self.subquery(node.block)}"
            case Quantified():
                value = self.at(Level.SUM, node.value)
                return f"{value} {node.operator} {node.quantifier} {self.subquery(node.block)}"
            case _:
                return super().test(node)

    def reference(self, node):
        """A column: now and then without its source, where the innermost block with one of its name has no other."""
        for sources in reversed(self.scopes):
            named = [source for source in sources for field in source.table.fields if field.name == node.field.name]
            if named:
                is_plain = len(named) == 1 and named[0] == node.source
                return node.field.name if is_plain and self.dice.chance(50) else self.full_name(node)
        return self.full_name(node)

    def full_name(self, node):
        """A column behind its source."""
        return f"{node.source.alias}.{node.field.name}"

    def subquery(self, block):
        """A block in parentheses."""
        return f"({self.block(block)})"

    def item(self, item):
        """A result column, and its name."""
        value = self.at(Level.SUM, item.value)
        return f"{value} AS {item.name}" if item.name else value

    def block(self, block: Block):
        """A block's text."""
        self.scopes.append(block.sources)
        words = ["SELECT", "DISTINCT"] if block.is_distinct else ["SELECT"]
        words.append("*" if block.is_star else ", ".join(self.item(item) for item in block.items))
        words += ["FROM", ", ".join(self.source(source) for source in block.sources)]
        if block.where:
            words += ["WHERE", " AND ".join(self.at(Level.NOT, conjunct) for conjunct in block.where)]
        if block.groups:
            words += ["GROUP BY", ", ".join(self.reference(group) for group in block.groups)]
        if block.having is not None:
            words += ["HAVING", self.at(Level.OR, block.having)]
        self.scopes.pop()
        return " ".join(words)

    def source(self, source):
        """A table, and its other name."""
        return source.table.name if source.alias == source.table.name else f"{source.table.name} {source.alias}"

    def query(self, query):
        """A query's text."""
        keys = ", ".join(f"{key.name or key.position}{' DESC' if key.is_descending else ''}" for key in query.keys)
        return f"{self.block(query.block)}{' ORDER BY ' + keys if keys else ''};"

