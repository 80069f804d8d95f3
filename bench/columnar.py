"""Peers that keep columns, for all.py: ClickHouse, a server of its own under a temporary folder with one thread and tables in memory, and R's
data.table with one thread. Both are Debian's packages (clickhouse-server, clickhouse-client, r-cran-data.table), and one that isn't there is left out.

Processor seconds are counted: of the server's threads, and where many rows are written, of the client that writes them, without what one takes that
asks for nothing; of R those of the expression and of writing its rows. What can't be asked of a peer, such as a subquery that names a row of the query
around in ClickHouse, isn't.
"""
import os
import pathlib
import re
import shutil
import socket
import subprocess
import time

SERVER, CLIENT, RSCRIPT = (shutil.which(it) for it in ("clickhouse-server", "clickhouse-client", "Rscript"))
ROUNDS = 3
TYPES = {"INTEGER": "Int32", "NUMERIC(9,2)": "Decimal(9,2)", "CHAR(10)": "String"}
CONFIG = """<yandex><logger><level>error</level><console>1</console></logger><tcp_port>{port}</tcp_port><listen_host>127.0.0.1</listen_host>
<path>{folder}/data/</path><tmp_path>{folder}/tmp/</tmp_path><users_config>users.xml</users_config><default_profile>default</default_profile>
<default_database>default</default_database><mark_cache_size>1073741824</mark_cache_size></yandex>
"""
# An output is of many rows from so many bytes on.
MANY_BYTES = 100_000
# The kernel counts ticks of a hundredth of a second, so a short query is asked until so many are used, and no more than so many times.
TICKS, MANY_TICKS, MOST_TIMES = os.sysconf("SC_CLK_TCK"), 30, 40
USERS = """<yandex><profiles><default><max_threads>1</max_threads><max_memory_usage>10000000000</max_memory_usage></default></profiles>
<users><default><password></password><networks><ip>127.0.0.1</ip></networks><profile>default</profile><quota>default</quota></default></users>
<quotas><default></default></quotas></yandex>
"""


def processor_seconds(process):
    """What all threads of a process have used so far, also those that have ended, in ticks of the kernel's clock."""
    told = pathlib.Path(f"/proc/{process}/stat").read_text().rpartition(")")[2].split()
    return (int(told[11]) + int(told[12])) / TICKS


class ClickHouse:
    """A server with tables in memory, which ends with its `with`."""

    def __init__(self, folder, tables):
        self.folder, self.tables, self.room = folder, tables, folder / "clickhouse"

    def __enter__(self):
        self.room.mkdir()
        with socket.socket() as free:
            free.bind(("127.0.0.1", 0))
            self.port = str(free.getsockname()[1])
        (self.room / "config.xml").write_text(CONFIG.format(port=self.port, folder=self.room))
        (self.room / "users.xml").write_text(USERS)
        with open(self.room / "server.log", "wb") as log:
            self.server = subprocess.Popen([SERVER, "--config-file=config.xml"], cwd=self.room, stdout=log, stderr=log)
        for _ in range(100):
            if subprocess.run(self.words("SELECT 1"), capture_output=True).returncode == 0:
                break
            time.sleep(0.2)
        self.nothing = min(self.client_seconds("SELECT 1", os.devnull) for _ in range(ROUNDS))
        for name, columns in self.tables.items():
            self.create(name, columns)
            with open(self.folder / f"{name}.csv", "rb") as records:
                subprocess.run(self.words(f"INSERT INTO {name} FORMAT CSV"), stdin=records, check=True)
        return self

    def __exit__(self, *_):
        self.server.terminate()
        self.server.wait()

    def words(self, query):
        return [CLIENT, "--port", self.port, "--query", query]

    def create(self, name, columns):
        typed = [re.match(r"(\w+) (\w+(?:\([\d,]+\))?)", it).groups() for it in re.split(r", (?=[A-Z])", columns)]
        listed = ", ".join(f"{column} {TYPES[kind]}" for column, kind in typed)
        subprocess.run(self.words(f"CREATE TABLE {name} ({listed}) ENGINE = Memory"), check=True)

    def client_seconds(self, query, out, given=os.devnull):
        """The processor seconds of a client that asks a query."""
        with open(out, "wb") as rows, open(given, "rb") as records:
            client = subprocess.Popen(self.words(query), stdin=records, stdout=rows)
            _, status, usage = os.wait4(client.pid, 0)
        client.returncode = os.waitstatus_to_exitcode(status)
        if client.returncode:
            raise RuntimeError(f"ClickHouse: {query}")
        return usage.ru_utime + usage.ru_stime

    def took(self, query, out, given=os.devnull):
        """The processor seconds of one query, which is asked again until it has used many ticks."""
        before, client, count, used = processor_seconds(self.server.pid), 0, 0, 0
        while count == 0 or used < MANY_TICKS / TICKS and count < MOST_TIMES and given == os.devnull:
            client += self.client_seconds(query, out, given) - self.nothing
            used, count = processor_seconds(self.server.pid) - before, count + 1
        is_long = given != os.devnull or os.path.getsize(out) > MANY_BYTES
        return max((used + (client if is_long else 0)) / count, 1e-4)

    def asked(self, query):
        """The processor seconds of a query, best of the rounds; its rows stay in a file."""
        path = self.folder / "clickhouse.txt"
        best = min(self.took(query, path) for _ in range(ROUNDS))
        path.write_text(path.read_text("ascii").replace("\t", "|"))
        return best, path

    def loaded(self, table):
        """The processor seconds of loading a file, best of the rounds."""
        times = []
        for _ in range(ROUNDS):
            self.create("LOADED", self.tables[table])
            times.append(self.took("INSERT INTO LOADED FORMAT CSV", os.devnull, self.folder / f"{table}.csv"))
            subprocess.run(self.words("DROP TABLE LOADED"), check=True)
        return min(times)


def data_table_asked(folder, tables, expression, times):
    """The processor seconds of a data.table expression and of writing its rows, best of the rounds; its rows stay in a file."""
    path = folder / "data_table.txt"
    names = {it: ", ".join(f'"{column.split()[0]}"' for column in re.split(r", (?=[A-Z])", columns)) for it, columns in tables.items()}
    loads = "".join(f'{it} <- fread("{folder}/{it}.csv", col.names = c({columns}))\n' for it, columns in names.items())
    script = f"""suppressMessages(library(data.table)); setDTthreads(1)
{loads}used <- function() {{ told <- proc.time(); told[["user.self"]] + told[["sys.self"]] }}
best <- Inf
for (round in 1:{ROUNDS}) {{
  gc(); before <- used()
  for (turn in 1:{times}) {{ rows <- {expression}; fwrite(if (is.data.table(rows)) rows else data.table(rows), "{path}", sep = "|", col.names = FALSE) }}
  best <- min(best, (used() - before) / {times})
}}
cat(best)
"""
    ran = subprocess.run([RSCRIPT, "-e", script], capture_output=True, text=True, check=True)
    return max(float(ran.stdout), 1e-4), path


def data_table_loaded(folder, table):
    script = f"""suppressMessages(library(data.table)); setDTthreads(1)
best <- Inf
for (round in 1:{ROUNDS}) {{ told <- system.time(fread("{folder}/{table}.csv")); best <- min(best, told[["user.self"]] + told[["sys.self"]]) }}
cat(best)
"""
    return float(subprocess.run([RSCRIPT, "-e", script], capture_output=True, text=True, check=True).stdout)


def has_data_table():
    return bool(RSCRIPT) and subprocess.run([RSCRIPT, "-e", "library(data.table)"], capture_output=True).returncode == 0
