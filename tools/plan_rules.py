"""The rules of plans, written out plainly: of a query block which plans there are, the order of their rows and what they cost.

The tools plan_list.py and check_texts.py compare the program with them. It shares no code with the program: a plan is built in steps, the
rows of one table (ACCESS), and on top of a plan a nested-loop join (LOOP), a merge join (MERGE) or a sort (SORT) (Selinger et al. 1979,
sections 4 and 5; figures and versions of the plan space are own, docs/PLANS.md).

Tables, columns, indexes and conjuncts count from 1, orders from 0, which is no order.
"""
from dataclasses import dataclass
from enum import IntEnum

LIMIT = 10**18
MILLION = 10**6
PAGE_BYTES = 4096
BUFFER_PAGES = 64


# ---- what a block is made of


class Version(IntEnum):
    """The first knows indexes on one column, read forward, and forms products of tables last; the second knows all indexes, read
    backward too; the third also forms products at any point."""

    ONE = 1
    TWO = 2
    THREE = 3


@dataclass(frozen=True)
class Column:
    table: int
    number: int


@dataclass(frozen=True)
class Index:
    columns: tuple[int, ...]
    keys: int
    pages: int
    unique: bool = False
    clustered: bool = False
    low: int | None = None
    high: int | None = None


@dataclass(frozen=True)
class Table:
    columns: int
    rows: int
    pages: int
    indexes: tuple[Index, ...] = ()

    @property
    def width(self):
        """The bytes of a row: 8, and 4 for each of its columns, which are all INTEGER here."""
        return 8 + 4 * self.columns


@dataclass(frozen=True)
class Equation:
    """column = column"""

    left: Column
    right: Column

    @property
    def columns(self):
        return (self.left, self.right)


@dataclass(frozen=True)
class Equals:
    """column = number"""

    column: Column
    number: int

    @property
    def columns(self):
        return (self.column,)


@dataclass(frozen=True)
class Above:
    """column > number"""

    column: Column
    number: int

    @property
    def columns(self):
        return (self.column,)


@dataclass(frozen=True)
class Key:
    column: Column
    descending: bool = False


@dataclass(frozen=True)
class Block:
    """The tables of FROM, the conjuncts of WHERE, and the columns of ORDER BY."""

    tables: tuple[Table, ...]
    conjuncts: tuple[Equation | Equals | Above, ...]
    required: tuple[Key, ...]


# ---- plans, whether there are such or not


@dataclass(frozen=True)
class Path:
    """The whole table, an index of it, or what conjuncts match of the index, one on each of its first columns."""

    table: int
    index: int | None = None
    conjuncts: tuple[int, ...] = ()
    backward: bool = False

    def __str__(self):
        if self.index is None:
            return f"SEG {self.table}"
        word = "MATCH" if self.conjuncts else "IDX"
        matched = "".join(f"/{conjunct}" for conjunct in self.conjuncts)
        return f"{word} {self.table}.{self.index}{matched}{' BACK' if self.backward else ''}"


@dataclass(frozen=True)
class Loop:
    path: Path

    kind = "LOOP"

    def on(self, outer):
        return f"LOOP({outer},{self.path})"


@dataclass(frozen=True)
class Merge:
    conjunct: int
    path: Path
    is_sorted: bool

    kind = "MERGE"

    def on(self, outer):
        return f"MERGE({outer},{self.conjunct},{'SORTED ' if self.is_sorted else ''}{self.path})"


@dataclass(frozen=True)
class Sort:
    order: int

    kind = "SORT"

    def on(self, plan):
        return f"SORT({plan},{self.order})"


@dataclass(frozen=True)
class Measured:
    """What a plan comes to: its tables, the number of its order, its cost."""

    tables: frozenset[int]
    order: int
    cost: int


# ---- arithmetic


def saturated(number):
    return min(LIMIT, number)


def rounded_up(dividend, divisor):
    return -(-dividend // divisor)


def fraction(part, whole):
    """A part in millionths, rounded up, from 1 to all of them."""
    return min(MILLION, max(1, rounded_up(part * MILLION, whole)))


def share(number, millionths):
    return rounded_up(number * millionths, MILLION)


# ---- the rules


class Space:
    """The plans of a block in a version of the plan space."""

    def __init__(self, block, version):
        self.block = block
        self.version = version
        self.all_tables = frozenset(range(1, len(block.tables) + 1))
        self.orders = self.numbered_orders()

    def table(self, number):
        return self.block.tables[number - 1]

    def conjunct(self, number):
        return self.block.conjuncts[number - 1]

    def tables_of(self, conjunct):
        return frozenset(column.table for column in conjunct.columns)

    # -- shares of rows

    def own_index(self, column):
        """The index on a column alone, if there is one."""
        on_it = [index for index in self.table(column.table).indexes if index.columns == (column.number,)]
        return on_it[0] if on_it else None

    def selectivity(self, conjunct):
        """In millionths. An equation keeps one key of an index on a column alone: of that with the most keys where both columns
        have one, and a tenth where neither has. A comparison with a number by > keeps the part of the index's range above it, and
        a third where no range is known."""
        indexes = [index for index in map(self.own_index, conjunct.columns) if index]
        match conjunct:
            case Equation() | Equals():
                return fraction(1, max(max(1, index.keys) for index in indexes)) if indexes else 100_000
            case Above(number=number):
                if not indexes or indexes[0].low is None or indexes[0].low >= indexes[0].high:
                    return 333_334
                low, high = indexes[0].low, indexes[0].high
                return fraction(high - min(high, max(low, number)), high - low)

    def cardinality(self, tables):
        """Each table in the order of FROM multiplies the rows, and then each conjunct is applied whose tables are all there now."""
        rows, taken = 1, frozenset()
        for table in sorted(tables):
            rows = saturated(rows * self.table(table).rows)
            before, taken = taken, taken | {table}
            for conjunct in self.block.conjuncts:
                if self.tables_of(conjunct) <= taken and not self.tables_of(conjunct) <= before:
                    rows = share(rows, self.selectivity(conjunct))
        return rows

    def scanned_rows(self, known, table):
        """The rows that a scan of a table hands on, where the rows of some tables are known."""
        rows = self.table(table).rows
        for conjunct in self.block.conjuncts:
            tables = self.tables_of(conjunct)
            if table in tables and tables <= known | {table}:
                rows = share(rows, self.selectivity(conjunct))
        return rows

    def sort_cost(self, tables):
        width = sum(self.table(table).width for table in tables)
        pages = saturated(rounded_up(self.cardinality(tables) * width, PAGE_BYTES))
        return saturated(20 * pages + self.cardinality(tables))

    # -- orders

    def indexes_of(self, table):
        """The numbers of the indexes that the version knows, in the order in which theirs are numbered: those on one column by
        the number of the column, or all by their own."""
        numbers = range(1, len(self.table(table).indexes) + 1)
        if self.version > Version.ONE:
            return list(numbers)
        return sorted(
            (number for number in numbers if len(self.table(table).indexes[number - 1].columns) == 1),
            key=lambda number: self.table(table).indexes[number - 1].columns,
        )

    def index_order(self, table, index, backward):
        columns = self.table(table).indexes[index - 1].columns
        return tuple(Key(Column(table, column), backward) for column in columns)

    def is_merge_conjunct(self, conjunct):
        """column = column, of two tables"""
        return isinstance(conjunct, Equation) and len(self.tables_of(conjunct)) == 2

    def numbered_orders(self):
        """No order; the required one; the columns of merge conjuncts, ascending; and those of indexes, forward and, if the version
        reads them so, backward: each where it stands first."""
        orders = [(), self.block.required]
        for conjunct in filter(self.is_merge_conjunct, self.block.conjuncts):
            orders += [(Key(conjunct.left),), (Key(conjunct.right),)]
        for table in sorted(self.all_tables):
            for index in self.indexes_of(table):
                orders.append(self.index_order(table, index, False))
                if self.version > Version.ONE:
                    orders.append(self.index_order(table, index, True))
        return list(dict.fromkeys(orders))

    def are_one(self, tables, a, b):
        """Whether two columns are of one class: the same, or joined by a chain of equations whose tables are all there."""
        reached, grown = set(), {a}
        while grown != reached:
            reached = set(grown)
            for conjunct in self.block.conjuncts:
                if isinstance(conjunct, Equation) and self.tables_of(conjunct) <= tables and reached & set(conjunct.columns):
                    grown |= set(conjunct.columns)
        return b in reached

    def satisfies(self, tables, order, wanted):
        return len(wanted) <= len(order) and all(
            has.descending == asked.descending and self.are_one(tables, has.column, asked.column)
            for has, asked in zip(order, wanted)
        )

    def gives_required(self, order):
        return self.satisfies(self.all_tables, self.orders[order], self.block.required)

    # -- paths

    def compares_with_known(self, known, column, conjunct):
        """Whether a conjunct compares a column with what is known: a number, or a column of the known tables and not of its own."""
        match conjunct:
            case Equation(left=left, right=right):
                others = [b for a, b in ((left, right), (right, left)) if a == column]
                return any(other.table in known and other.table != column.table for other in others)
            case Equals(column=compared) | Above(column=compared):
                return compared == column

    def match_index(self, known, path):
        """Whether conjuncts match the first columns of an index in turn, all but the last by =."""
        columns = self.table(path.table).indexes[path.index - 1].columns
        if len(path.conjuncts) > len(columns) or not all(1 <= c <= len(self.block.conjuncts) for c in path.conjuncts):
            return False
        conjuncts = [self.conjunct(number) for number in path.conjuncts]
        return all(
            self.compares_with_known(known, Column(path.table, number), conjunct) for number, conjunct in zip(columns, conjuncts)
        ) and not any(isinstance(conjunct, Above) for conjunct in conjuncts[:-1])

    def is_path(self, known, path):
        if path.table not in self.all_tables:
            return False
        if path.index is None:
            return True
        if path.index not in self.indexes_of(path.table) or path.backward and self.version == Version.ONE:
            return False
        return not path.conjuncts or self.match_index(known, path)

    def order_of(self, path):
        order = () if path.index is None else self.index_order(path.table, path.index, path.backward)
        return self.orders.index(order)

    def matched_share(self, index, conjuncts, pages):
        """The share of some pages that conjuncts leave: one key of an index on several columns that are all equated, else what they
        leave one after another."""
        equated = not any(isinstance(conjunct, Above) for conjunct in conjuncts)
        if len(index.columns) > 1 and len(conjuncts) == len(index.columns) and equated:
            return share(pages, fraction(1, max(1, index.keys)))
        for conjunct in conjuncts:
            pages = share(pages, self.selectivity(conjunct))
        return pages

    def pages_read(self, path):
        """The pages of the table; or those of the index, or of the matched part of it, and with them those of the table, or a page
        for each row where rows of near keys don't lie near each other and the buffer doesn't hold all that."""
        table = self.table(path.table)
        if path.index is None:
            return table.pages
        index = table.indexes[path.index - 1]
        conjuncts = [self.conjunct(number) for number in path.conjuncts]
        pages = self.matched_share(index, conjuncts, saturated(index.pages + table.pages))
        if index.clustered or pages <= BUFFER_PAGES:
            return pages
        return self.matched_share(index, conjuncts, saturated(index.pages + table.rows))

    def is_one_row(self, path):
        """Whether a path gives at most one row: a unique index whose columns are all equated."""
        if path.index is None:
            return False
        index = self.table(path.table).indexes[path.index - 1]
        equated = not any(isinstance(self.conjunct(number), Above) for number in path.conjuncts)
        return index.unique and len(path.conjuncts) == len(index.columns) and equated

    def path_cost(self, known, path):
        """Ten for a page and one for a row."""
        if self.is_one_row(path):
            return 10 + 10 + 1
        return saturated(saturated(10 * self.pages_read(path)) + self.scanned_rows(known, path.table))

    # -- steps

    def is_linked(self, tables, table):
        """Whether a conjunct names a table and some of a set, and no other."""
        return any(
            table in named and named & tables and named <= tables | {table}
            for named in map(self.tables_of, self.block.conjuncts)
        )

    def may_follow(self, tables, table):
        """Whether a table may come next: a linked one, or any where none is linked or products are formed at any point."""
        outside = self.all_tables - tables
        if table not in outside:
            return False
        if self.version == Version.THREE or self.is_linked(tables, table):
            return True
        return not any(self.is_linked(tables, other) for other in outside)

    def access(self, path):
        if not self.is_path(frozenset(), path):
            return None
        return Measured(frozenset([path.table]), self.order_of(path), self.path_cost(frozenset(), path))

    def loop(self, outer, step):
        """A scan of the path for each row."""
        if not self.may_follow(outer.tables, step.path.table) or not self.is_path(outer.tables, step.path):
            return None
        scans = saturated(self.cardinality(outer.tables) * self.path_cost(outer.tables, step.path))
        return Measured(outer.tables | {step.path.table}, outer.order, saturated(outer.cost + scans))

    def merge_columns(self, tables, number, table):
        """The columns of a merge conjunct in some tables and in the next one."""
        if not 1 <= number <= len(self.block.conjuncts) or not self.is_merge_conjunct(self.conjunct(number)):
            return None
        for outer, inner in (self.conjunct(number).columns, self.conjunct(number).columns[::-1]):
            if outer.table in tables and inner.table == table:
                return outer, inner
        return None

    def merge(self, outer, step):
        """One scan of the path, its sort if there is one, and the pairs of rows that the conjunct leaves."""
        table = step.path.table
        columns = self.merge_columns(outer.tables, step.conjunct, table)
        if not columns or not self.may_follow(outer.tables, table) or not self.is_path(frozenset(), step.path):
            return None
        if not self.satisfies(outer.tables, self.orders[outer.order], (Key(columns[0]),)):
            return None
        alone = frozenset([table])
        if not step.is_sorted and not self.satisfies(alone, self.orders[self.order_of(step.path)], (Key(columns[1]),)):
            return None
        sort = self.sort_cost(alone) if step.is_sorted else 0
        pairs = saturated(self.cardinality(outer.tables) * self.cardinality(alone))
        kept = share(pairs, self.selectivity(self.conjunct(step.conjunct)))
        inner = saturated(self.path_cost(frozenset(), step.path) + sort)
        return Measured(outer.tables | alone, outer.order, saturated(outer.cost + saturated(inner + kept)))

    def sort(self, plan, step):
        """Into an order that has a number and is over the tables that are there."""
        if not 0 < step.order < len(self.orders) or not all(key.column.table in plan.tables for key in self.orders[step.order]):
            return None
        return Measured(plan.tables, step.order, saturated(plan.cost + self.sort_cost(plan.tables)))

    def on_top(self, plan, step):
        """What a step on top of a plan comes to, if it is a plan."""
        match step:
            case Loop():
                return self.loop(plan, step)
            case Merge():
                return self.merge(plan, step)
            case Sort():
                return self.sort(plan, step)


# ---- scripts


def column_name(column):
    return f"T{column.table}.C{column.number}"


def conjunct_text(conjunct):
    match conjunct:
        case Equation(left=left, right=right):
            return f"{column_name(left)} = {column_name(right)}"
        case Equals(column=column, number=value):
            return f"{column_name(column)} = {value}"
        case Above(column=column, number=value):
            return f"{column_name(column)} > {value}"


def script_of(block):
    """A script whose last statement explains the block's query."""
    lines = []
    for place, table in enumerate(block.tables, 1):
        columns = ", ".join(f"C{number} INTEGER" for number in range(1, table.columns + 1))
        lines.append(f"CREATE TABLE T{place} ({columns});")
        lines.append(f"SET STATISTICS T{place} ROWS {table.rows} PAGES {table.pages};")
        for index in table.indexes:
            names = ", ".join(f"C{number}" for number in index.columns)
            lines.append(f"CREATE {'UNIQUE ' if index.unique else ''}INDEX ON T{place} ({names});")
            clustered = " CLUSTERED" if index.clustered else ""
            limits = "" if index.low is None else f" LOW {index.low} HIGH {index.high}"
            lines.append(f"SET STATISTICS T{place} ({names}) KEYS {index.keys} PAGES {index.pages}{clustered}{limits};")
    wanted = [column_name(key.column) for key in block.required] or ["T1.C1"]
    query = f"SELECT {', '.join(wanted)} FROM {', '.join(f'T{place}' for place in range(1, len(block.tables) + 1))}"
    if block.conjuncts:
        query += f" WHERE {' AND '.join(map(conjunct_text, block.conjuncts))}"
    if block.required:
        query += " ORDER BY " + ", ".join(f"{place}{' DESC' if key.descending else ''}" for place, key in enumerate(block.required, 1))
    return "\n".join([*lines, f"EXPLAIN {query};"]) + "\n"
