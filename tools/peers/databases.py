"""Made databases: tables with rows whose values meet, and indexes, keys and statistics at random."""
from dataclasses import dataclass

from expressions.tables import field_text, made_text, made_value
from expressions.tree import Number, Type, number_text, numeric, value_text

from peers.model import Design, Field, Index, Table

SMALLINT = Type("SMALLINT", 5, 0, -(2**15), 2**15 - 1)
INTEGER = Type("INTEGER", 10, 0, -(2**31), 2**31 - 1)
COUNTS = [0, 1, 2, 3, 7, 10, 64, 1000, 54321, 10**6, 10**9, 10**12, 10**17, 10**18]
ROWS = [0, 1, 2, 3, 4, 5, 5, 6, 6, 7, 7, 8, 9, 12, 15, 20, 30, 40, 50, 60]
MOST_ROWS = 300


def made_type(dice):
    """A type of a column."""
    kind = dice.below(10)
    if kind < 3:
        return SMALLINT
    if kind < 5:
        return INTEGER
    if kind < 8:
        precision, scale = dice.one_of([2, 3, 4, 5, 6, 7, 9, 12, 15, 18]), dice.one_of([0, 1, 1, 2, 2, 2, 3, 4, 6, 9])
        return numeric(dice.one_of(["NUMERIC", "DECIMAL", "DEC"]), precision, min(scale, precision))
    length = dice.one_of([1, 2, 3, 3, 4, 5, 8])
    return Type(f"{dice.one_of(['CHAR', 'CHARACTER'])}({length})", length=length)


@dataclass(frozen=True)
class Few:
    """The few values that most columns of a database have, so that rows of its tables meet."""

    texts: tuple
    least: int
    greatest: int


@dataclass(frozen=True)
class Kind:
    """How the values of a column are made."""

    type: Type
    is_not_null: bool
    nulls: int
    is_wide: bool
    is_fine: bool


def value_of(dice, kind, few):
    """A value of a column."""
    type = kind.type
    if not kind.is_not_null and dice.chance(kind.nulls):
        return None
    if kind.is_wide and dice.chance(20):
        found = made_value(dice, type)
        if found is not None:
            return found
    if type.length:
        return dice.one_of(few.texts)[: type.length].ljust(type.length)
    units = dice.between(few.least, few.greatest) * 10**type.scale
    if type.scale and kind.is_fine and dice.chance(50):
        units += dice.one_of([1, 5, -5, 25]) * 10 ** dice.below(type.scale)
    return Number(min(max(units, type.least), type.greatest), type.scale)


def made_kind(dice):
    """A kind of columns."""
    return Kind(made_type(dice), dice.chance(25), dice.one_of([5, 10, 30]), dice.chance(25), dice.chance(40))


def made_table(dice, name, few):
    """A table; some columns have values of their whole range among others."""
    kinds = [made_kind(dice) for _ in range(dice.between(1, 6))]
    count = dice.between(100, MOST_ROWS) if dice.chance(4) else dice.one_of(ROWS)
    rows = [tuple(value_of(dice, kind, few) for kind in kinds) for _ in range(count)]
    first = kinds[0].type
    if first.digits > 3 + first.scale and dice.chance(30):
        rows = [(Number(place * 10**first.scale, first.scale), *row[1:]) for place, row in enumerate(rows)]
    fields = tuple(
        Field("ABCDEFGH"[place], kind.type, kind.is_not_null, digits_of(rows, place, kind.type))
        for place, kind in enumerate(kinds)
    )
    return Table(name, fields, tuple(rows))


def digits_of(rows, place, type):
    """How many digits the numbers of a column have at most."""
    units = [abs(row[place].units) for row in rows if isinstance(row[place], Number)]
    return max([len(str(it)) for it in units] + [type.scale, 1])


def made_database(dice):
    """Tables."""
    texts = tuple(made_text(dice, 5) for _ in range(dice.one_of([3, 5, 8])))
    few = Few(texts, *dice.one_of([(0, 1), (0, 2), (-1, 2), (0, 4), (-3, 8)]))
    return tuple(made_table(dice, f"T{number}", few) for number in range(1, dice.between(1, 6) + 1))


def comes_once(table, places):
    """Whether no key of some columns comes twice; one with a null never does."""
    keys = [key for row in table.rows if None not in (key := tuple(row[place] for place in places))]
    return len(set(keys)) == len(keys)


def made_indexes(dice, table):
    """Keys and indexes of a table."""
    found = {}
    for place, field in enumerate(table.fields):
        if field.is_not_null and comes_once(table, (place,)) and dice.chance(50):
            is_first = not any(index.key == "PRIMARY KEY" for index in found.values())
            key = dice.one_of(["UNIQUE", "PRIMARY KEY"]) if is_first else "UNIQUE"
            found[(place,)] = Index(table.name, (place,), True, key)
    for _ in range(dice.one_of([0, 0, 1, 1, 2, 3, 5])):
        count = min(dice.one_of([1, 1, 1, 2, 2, 3, 4]), len(table.fields))
        places = tuple(dice.mixed(range(len(table.fields)))[:count])
        is_unique = comes_once(table, places) and dice.chance(60)
        found.setdefault(places, Index(table.name, places, is_unique))
    return list(found.values())


def key_statistics(dice, table, index):
    """Statistics of an index."""
    names = ", ".join(table.fields[place].name for place in index.places)
    text = f"SET STATISTICS {table.name} ({names}) KEYS {dice.one_of(COUNTS)} PAGES {dice.one_of(COUNTS[1:])}"
    if dice.chance(40):
        text += " CLUSTERED"
    type = table.fields[index.places[0]].type
    if type.digits and dice.chance(50):
        wanted = sorted(dice.one_of([-(10**6), -10, 0, 3, 4, 100, 10**9]) for _ in range(2))
        units = [min(max(number * 10**type.scale, type.least), type.greatest) for number in wanted]
        low, high = (number_text(Number(number, type.scale)) for number in units)
        text += f" LOW {low} HIGH {high}"
    return f"{text};"


def made_design(dice, tables):
    """Indexes, and statistics of some tables and indexes, most often wild ones."""
    indexes = [index for table in tables for index in made_indexes(dice, table)]
    statistics = []
    by_name = {table.name: table for table in tables}
    if dice.chance(75):
        for table in tables:
            if dice.chance(70):
                rows, pages = dice.one_of(COUNTS), dice.one_of(COUNTS[1:])
                statistics.append((table.name, f"SET STATISTICS {table.name} ROWS {rows} PAGES {pages};"))
        for index in indexes:
            if dice.chance(70):
                statistics.append((index.table, key_statistics(dice, by_name[index.table], index)))
    before = frozenset(number for number, _ in enumerate(indexes) if dice.chance(50))
    return Design(tuple(indexes), before, tuple(statistics))


# ---- as scripts and files


def created(table, design):
    """The statements that make a table and load it."""
    keys = {index.places: f" {index.key}" for index in design.indexes if index.key and index.table == table.name}
    columns = ", ".join(
        f"{field.name} {field.type.name}{' NOT NULL' if field.is_not_null else ''}{keys.get((place,), '')}"
        for place, field in enumerate(table.fields)
    )
    before, behind = [], []
    for number, index in enumerate(design.indexes):
        if index.table == table.name and not index.key:
            (before if number in design.before else behind).append(index_text(table, index))
    statistics = [text for name, text in design.statistics if name == table.name]
    load = f"LOAD {table.name} FROM '{file_name(table)}';"
    return [f"CREATE TABLE {table.name} ({columns});", *before, load, *behind, *statistics]


def index_text(table, index):
    """CREATE INDEX."""
    names = ", ".join(table.fields[place].name for place in index.places)
    return f"CREATE {'UNIQUE ' if index.is_unique else ''}INDEX ON {table.name} ({names});"


def file_name(table):
    """The file that a table is loaded from."""
    return f"{table.name.lower()}.csv"


def file_text(dice, table):
    """The file's text; an empty line would be no record."""
    return "".join((",".join(field_text(dice, value) for value in row) or '""') + "\n" for row in table.rows)


def peer_table(table, kind, types, value_text):
    """A table for a peer, with what it calls types and how it writes values."""
    columns = ", ".join(f"{field.name} {types(field.type)}" for field in table.fields)
    rows = ", ".join("(" + ", ".join(value_text(value) for value in row) + ")" for row in table.rows)
    text = f"CREATE {kind} {table.name} ({columns});\n"
    return text + (f"INSERT INTO {table.name} VALUES {rows};\n" if rows else "")


def postgres_table(table):
    """A table for PostgreSQL: each number is exact, of its precision and scale, and each text of bpchar."""
    return peer_table(table, "TEMP TABLE", postgres_type, value_text)


def sqlite_table(table):
    """A table for SQLite: each number is an integer of units of its scale."""
    return peer_table(table, "TABLE", lambda type: "TEXT" if type.length else "INTEGER", sqlite_value)


def sqlite_value(value):
    """A value there."""
    return str(value.units) if isinstance(value, Number) else value_text(value)


def postgres_type(type):
    """The type of a column there."""
    return f"char({type.length})" if type.length else f"numeric({type.digits},{type.scale})"
