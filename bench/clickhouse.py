"""ClickHouse: by itself where it can be, and else a server of the benchmark's own, which its client asks."""

import functools
import os
import shutil
import socket
import subprocess
import tempfile
import time

from quiet import quietly
from tables import WITHOUT_NULLS

# What each method makes of a column, by group.
METHODS = {
    "sum": "sum(toInt64OrZero({0}))",
    "min": "min(toInt64OrNull({0}))",
    "max": "max(toInt64OrNull({0}))",
    "count": "count()",
    "valid": "countIf({0} != '')",
    "n_unique": "uniqExact({0})",
}
TICKS = os.sysconf("SC_CLK_TCK")
SECONDS_TO_START = 20
CONFIGURATION = """<yandex>
<logger><level>warning</level><log>{folder}/log</log><errorlog>{folder}/errors</errorlog></logger>
<listen_host>127.0.0.1</listen_host><tcp_port>{port}</tcp_port><http_port>{other_port}</http_port>
<path>{folder}/data/</path><tmp_path>{folder}/temporary/</tmp_path><user_files_path>{tables}/</user_files_path>
<users_config>{folder}/users.xml</users_config>
<default_profile>default</default_profile><default_database>default</default_database>
<mark_cache_size>10000000</mark_cache_size>
</yandex>
"""
USERS = """<yandex><profiles><default/></profiles><quotas><default/></quotas><users><default>
<password></password><networks><ip>127.0.0.1</ip></networks><profile>default</profile><quota>default</quota>
</default></users></yandex>
"""


@functools.cache
def local():
    """The words that begin a ClickHouse without a server."""
    choices = [["clickhouse", "local"], ["clickhouse-local"]]
    return next((words for words in choices if quietly([*words, "--query", "select 1"]) is not None), None)


def is_installed():
    return bool(local() or shutil.which("clickhouse-server") and shutil.which("clickhouse-client"))


def version():
    return [*local(), "--query", "select version()"] if local() else ["clickhouse-client", "--version"]


@functools.cache
def local_by_place():
    return by_place(local())


def by_place(words):
    """The option by which columns are not sought by the names of the header; old versions never do so."""
    option = ["--input_format_with_names_use_header", "0"]
    return option if quietly([*words, *option, "--query", "select 1"]) is not None else []


def structure(case):
    """The columns. Those that hold nulls are read as texts."""
    return ", ".join(f"{name} {'Int64' if name in WITHOUT_NULLS else 'String'}" for name in case.columns)


def query(case, source):
    """The columns of the groups have other names than those of the table."""
    keys = [f"toInt64OrNull({key.name})" if key.is_whole else key.name for key in case.keys]
    keys = {f"k{place}": key for place, key in enumerate(keys)}
    folds = {f"f{place}": METHODS[method].format(column) for place, (method, column) in enumerate(case.folds)}
    columns = ", ".join(f"{value} as {name}" for name, value in (keys | folds).items())
    groups = f"select {columns} from {source} group by {', '.join(keys)}"
    answer = ", ".join(f"ifNull(toString({name}), '')" for name in keys | folds)
    return f"select {answer} from ({groups}) format CSVWithNames"


def local_command(table, threads):
    case = table.case
    files = ["--file", table.path, "--input-format", "CSVWithNames", "--table", "sales", "--structure", structure(case)]
    return [*local(), *local_by_place(), *files, "--max_threads", str(threads), "--query", query(case, "sales")]


def free_port():
    with socket.socket() as listener:
        listener.bind(("127.0.0.1", 0))
        return listener.getsockname()[1]


class Server:
    """A server on this machine that reads the tables of one folder, for as long as the context lasts."""

    def __init__(self, tables):
        self.tables = tables
        self.port = free_port()

    def __enter__(self):
        self.folder = tempfile.TemporaryDirectory(prefix="gb_clickhouse_")
        places = dict(folder=self.folder.name, tables=self.tables, port=self.port, other_port=free_port())
        for name, text in (("config.xml", CONFIGURATION.format(**places)), ("users.xml", USERS)):
            with open(os.path.join(self.folder.name, name), "w", encoding="utf-8") as file:
                file.write(text)
        command = ["clickhouse-server", f"--config-file={self.folder.name}/config.xml"]
        self.process = subprocess.Popen(command, stdout=subprocess.DEVNULL, stderr=subprocess.DEVNULL)
        end = time.monotonic() + SECONDS_TO_START
        while quietly([*self.client(), "--query", "select 1"]) is None and time.monotonic() < end:
            time.sleep(0.2)
        self.by_place = by_place(self.client())
        return self

    def __exit__(self, *_):
        self.process.terminate()
        self.process.wait()
        self.folder.cleanup()

    def client(self):
        return ["clickhouse-client", "--host", "127.0.0.1", "--port", str(self.port)]

    def command(self, table, threads):
        source = f"file('{os.path.basename(table.path)}', 'CSVWithNames', '{structure(table.case)}')"
        return [*self.client(), *self.by_place, "--max_threads", str(threads), "--query", query(table.case, source)]

    def forget_peak(self):
        with open(f"/proc/{self.process.pid}/clear_refs", "w", encoding="ascii") as file:
            file.write("5")

    def peak(self):
        with open(f"/proc/{self.process.pid}/status", encoding="ascii") as lines:
            return next(int(line.split()[1]) * 1024 for line in lines if line.startswith("VmHWM:"))

    def seconds(self):
        """What the server has worked."""
        with open(f"/proc/{self.process.pid}/stat", encoding="ascii") as file:
            words = file.read().rpartition(")")[2].split()
        return (int(words[11]) + int(words[12])) / TICKS
