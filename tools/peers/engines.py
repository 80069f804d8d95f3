"""The engines: each is asked of queries over tables, and gives an answer for each."""
import os
import pathlib
import pwd
import re
import shutil
import signal
import sqlite3
import subprocess
import tempfile
import time
from dataclasses import dataclass

from expressions.tables import Dice
from expressions.tree import Number, number_text, quoted

from peers.databases import created, file_name, file_text, postgres_table, sqlite_table
from peers.dialects import Postgres, Sqlite, Unsuited
from peers.model import is_text, size

# Where small files are written without waiting for a disk, if it is there.
MEMORY = pathlib.Path("/dev/shm")
FIELD = re.compile(r"'(?:[^']|'')*'|[^|]+")
COUNT = re.compile(r"\d+ rows")


@dataclass(frozen=True)
class Answer:
    """Rows as our program prints them, or the SQLSTATE of an exception, or an error; of ours also the header."""

    rows: tuple = ()
    state: str = ""
    error: str = ""
    header: str = ""


def key_fields(rows, keys):
    """The fields by which rows are in order."""
    return [tuple(fields[key.position - 1] for key in keys) for fields in map(FIELD.findall, rows)]


def made_folder():
    """A temporary folder, in memory where that can be."""
    return pathlib.Path(tempfile.mkdtemp(prefix="peers", dir=MEMORY if os.access(MEMORY, os.W_OK) else None))


# ---- our program


class Program:
    """Our program, run in a folder with the files of the tables."""

    def __init__(self, program):
        self.program = program
        self.folder = made_folder()

    def end(self):
        """Takes the folder away."""
        shutil.rmtree(self.folder, ignore_errors=True)

    def write_files(self, seed, tables):
        """The files from which the tables are loaded."""
        for table in tables:
            (self.folder / file_name(table)).write_text(file_text(Dice(seed), table), encoding="ascii")

    def run(self, script):
        """What a script prints."""
        words = [self.program, "run", "-"]
        ran = subprocess.run(words, input=script, capture_output=True, text=True, cwd=self.folder)
        if ran.returncode not in (0, 1):
            raise RuntimeError(f"status {ran.returncode}: {ran.stderr[-300:]}")
        return ran.stdout

    def check(self, script, certificates):
        """What is printed of the certificates of a script's last query."""
        (self.folder / "checked.certificates").write_text(certificates, encoding="ascii")
        words = [self.program, "check", "-", "checked.certificates"]
        return subprocess.run(words, input=script, capture_output=True, text=True, cwd=self.folder).stdout


def setup(tables, design):
    """The statements that make the tables of a design."""
    return [line for table in tables for line in created(table, design)]


class Reader:
    """Reads what a script prints, statement by statement."""

    def __init__(self, text):
        self.lines = text.splitlines()
        self.place = 0

    def line(self):
        """The next line; an empty one where nothing is left."""
        self.place += 1
        return self.lines[self.place - 1] if self.place <= len(self.lines) else ""

    def answer(self):
        """The answer of a SELECT."""
        first = self.line()
        if first.startswith("exception "):
            return Answer(state=first.removeprefix("exception "))
        if not first or first.startswith("error "):
            return Answer(error=first or "nothing")
        begin = self.place
        while self.place < len(self.lines) and not COUNT.fullmatch(self.lines[self.place]):
            self.place += 1
        rows = tuple(self.lines[begin : self.place])
        count = self.line()
        if count != f"{len(rows)} rows":
            return Answer(error=f"{len(rows)} lines, and `{count}`")
        return Answer(rows, header=first)

    def certificates(self, count):
        """The texts of an EXPLAIN of so many blocks."""
        begin = self.place
        while count and self.place < len(self.lines):
            count -= self.lines[self.place] == "END"
            self.place += 1
        return "".join(f"{line}\n" for line in self.lines[begin : self.place])

    def fault_of_setup(self, tables, design):
        """The first statement before the queries that doesn't go well, and what it prints; nothing where all do."""
        rows = {f"LOAD {table.name} ": len(table.rows) for table in tables}
        for statement in setup(tables, design):
            loaded = [count for start, count in rows.items() if statement.startswith(start)]
            line = self.line()
            if line != (f"{loaded[0]} rows loaded" if loaded else "OK"):
                return f"{statement} prints `{line}`"
        return ""


# ---- SQLite


class SqlitePeer:
    """SQLite, asked through Python."""

    name = f"SQLite {sqlite3.sqlite_version}"
    steps_at_most = 20_000_000

    def ask(self, tables, queries):
        """An answer for each query; none where SQLite doesn't mean the same, or takes too long."""
        connection = sqlite3.connect(":memory:")
        connection.execute("PRAGMA case_sensitive_like = ON")
        connection.executescript(self.tables(tables))
        answers = [self.answer(connection, query) for query in queries]
        connection.close()
        return answers

    def tables(self, tables):
        """How tables are made there."""
        return "".join(sqlite_table(table) for table in tables)

    def answer(self, connection, query):
        """The answer of one query."""
        if query.may_raise:
            return None
        try:
            text = Sqlite().query(query)
        except Unsuited:
            return None
        calls = iter(range(self.steps_at_most // 100_000))
        connection.set_progress_handler(lambda: next(calls, None) is None, 100_000)
        try:
            rows = connection.execute(text).fetchall()
        except sqlite3.OperationalError as error:
            return None if str(error) == "interrupted" else Answer(error=str(error))
        except sqlite3.Error as error:
            return Answer(error=str(error))
        values = [item.value for item in query.block.items]
        scales = [-1 if is_text(value) else size(value).scale for value in values]
        return Answer(tuple("|".join(map(sqlite_field, row, scales)) for row in rows))

    def text(self, query):
        """How a query is written for it."""
        try:
            return Sqlite().query(query)
        except Unsuited:
            return "-- not asked: a number could have too many digits there"


def sqlite_field(value, scale):
    """A field as our program prints it."""
    if value is None:
        return "NULL"
    return quoted(value) if scale < 0 else number_text(Number(value, scale)) if isinstance(value, int) else str(value)


# ---- PostgreSQL


PLACES = ["/usr/lib/postgresql/*/bin", "/usr/local/pgsql/bin", "/usr/pgsql-*/bin"]
SEPARATOR, NULL, END = "\x1f", "\x02", "\x03"
SETTINGS = [
    "fsync=off", "full_page_writes=off", "synchronous_commit=off", "autovacuum=off", "jit=off", "listen_addresses=",
    "max_parallel_workers_per_gather=0", "max_connections=5", "wal_level=minimal", "max_wal_senders=0",
]
TAKES_TOO_LONG = "57014"


def postgres_folder():
    """The folder of PostgreSQL's programs, or none."""
    root = pathlib.Path("/")
    folders = [folder for place in PLACES for folder in root.glob(place[1:])]
    there = shutil.which("postgres")
    folders += [pathlib.Path(there).resolve().parent] if there else []
    return next((it for it in folders if all((it / name).exists() for name in ("postgres", "initdb", "psql"))), None)


class PostgresPeer:
    """A PostgreSQL of its own, in a temporary folder, reached by a socket there."""

    def __init__(self):
        self.programs = postgres_folder()
        self.folder = made_folder()
        self.user = self.other_user()
        shutil.chown(self.folder, *([self.user.pw_uid, self.user.pw_gid] if self.user else [os.getuid()]))
        data = str(self.folder / "data")
        words = [self.programs / "initdb", "-D", data, "--locale=C", "-E", "SQL_ASCII", "-A", "trust", "-U", "peer"]
        subprocess.run([*words, "-N"], check=True, capture_output=True, **self.as_user())
        settings = [word for setting in SETTINGS for word in ("-c", setting)]
        self.log = open(self.folder / "log", "w")
        words = [self.programs / "postgres", "-D", data, "-k", str(self.folder), *settings]
        self.server = subprocess.Popen(words, stdout=self.log, stderr=self.log, **self.as_user())
        self.name = f"PostgreSQL {self.waited_for()}"

    def other_user(self):
        """Who runs the server, which refuses the superuser."""
        return pwd.getpwnam("nobody") if os.getuid() == 0 else None

    def as_user(self):
        """How a process is started as that user, in the folder."""
        if not self.user:
            return {"cwd": self.folder}
        return {"cwd": self.folder, "user": self.user.pw_uid, "group": self.user.pw_gid, "extra_groups": []}

    def psql(self, text):
        """What psql prints of a script."""
        words = [self.programs / "psql", "-X", "-q", "-A", "-t", "-F", SEPARATOR, "-P", f"null={NULL}"]
        words += ["-h", self.folder, "-U", "peer", "-d", "postgres", "-f", "-"]
        return subprocess.run(words, input=text, capture_output=True, text=True, cwd=self.folder)

    def waited_for(self):
        """The server's version, once it answers."""
        for _ in range(100):
            ran = self.psql("SHOW server_version;\n")
            if ran.returncode == 0:
                return ran.stdout.split()[0]
            if self.server.poll() is not None:
                break
            time.sleep(0.1)
        raise RuntimeError(f"PostgreSQL doesn't start: {(self.folder / 'log').read_text()[-500:]}")

    def end(self):
        """Ends the server, and takes its folder away."""
        self.server.send_signal(signal.SIGINT)
        self.server.wait()
        self.log.close()
        shutil.rmtree(self.folder, ignore_errors=True)

    def ask(self, tables, queries):
        """An answer for each query; none where it takes too long."""
        script = "SET statement_timeout = 10000;\n" + self.tables(tables)
        for query in queries:
            script += f"{self.text(query)}\n\\echo {END}:SQLSTATE\n"
        ran = self.psql(script)
        pieces = re.split(rf"^{END}(\w+)\n", ran.stdout, flags=re.MULTILINE)
        return [self.answer(query, *pieces[2 * place : 2 * place + 2]) for place, query in enumerate(queries)]

    def tables(self, tables):
        """How tables are made there."""
        return "".join(postgres_table(table) for table in tables)

    def answer(self, query, printed="", state="nothing"):
        """The answer of one query, by what is printed and the state behind it."""
        if state == TAKES_TOO_LONG:
            return None
        if state != "00000":
            return Answer(state=state) if state in ("22012", "21000") else Answer(error=state)
        marks = [is_text(item.value) for item in query.block.items]
        lines = printed.splitlines()
        return Answer(tuple("|".join(map(postgres_field, line.split(SEPARATOR), marks)) for line in lines))

    def text(self, query):
        """How a query is written for it."""
        return Postgres(query.may_raise).query(query)


def postgres_field(field, is_text_field):
    """A field as our program prints it."""
    return "NULL" if field == NULL else quoted(field) if is_text_field else field
