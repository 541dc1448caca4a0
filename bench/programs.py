"""The programs that group the tables, and what each is told."""

import os
import shutil
import subprocess
import sys
from collections.abc import Callable, Collection
from dataclasses import dataclass

import clickhouse
import peers
import r_packages
from clickhouse import Server
from tables import METHODS, NULL_MARK, Table

FOLDER = os.path.dirname(os.path.abspath(__file__))
BASELINE = "baseline"
RUST = ["-C", "opt-level=3", "-C", "lto=fat", "-C", "codegen-units=1", "-C", "panic=abort"]


@dataclass(frozen=True)
class Program:
    """A program that reads a table on its standard input, or from its path, and writes the groups. It knows some
    methods, and writes null as one of some words or as nothing."""

    name: str
    command: Callable[[Table], list[str]]
    methods: Collection[str] = METHODS
    threads: int = 1
    own: bool = False
    header: bool = True
    marked: bool = False
    quotes: bool = True
    nulls: Collection[str] = ()
    server: Server | None = None

    def can_do(self, case):
        """Whether it knows all that is asked, and quotes where there are some."""
        return case.methods <= set(self.methods) and (self.quotes or not case.quotes)


def build_rust(name, folder):
    """Builds a program of a folder beside this file outside the repository: the path of what was built."""
    source = os.path.join(FOLDER, name)
    if shutil.which("cargo"):
        manifest = os.path.join(source, "Cargo.toml")
        command = ["cargo", "build", "--release", "--offline", "--locked", "--quiet", "--manifest-path", manifest]
        subprocess.run([*command, "--target-dir", folder], check=True)
        return os.path.join(folder, "release", name)
    program = os.path.join(folder, name)
    main = os.path.join(source, "src", "main.rs")
    subprocess.run(["rustc", "--edition", "2021", *RUST, "-o", program, main], check=True)
    return program


def words(case, threads):
    """What gb_tool and the plain program are told."""
    keys = [word for name in case.key_names for word in ("--by", name)]
    folds = [word for method, column in case.folds for word in ("--agg", f"{method}:{column}")]
    return ["group", *keys, *folds, "--workers", str(threads)]


def own_program(name, path, threads):
    name = with_threads(name, threads)
    return Program(name, lambda table: [path, *words(table.case, threads)], threads=threads, own=True)


def own_programs(tool, baseline, workers):
    """The plain program, and gb_tool if there is one, at each number of workers."""
    paths = {BASELINE: baseline, "gb_tool": tool}
    return [own_program(name, path, threads) for name, path in paths.items() if path for threads in workers]


def with_threads(name, threads):
    return f"{name} -w{threads}"


def awk(name):
    return Program(name, lambda table: peers.awk(name, table), peers.AWK_METHODS, header=False, quotes=False)


PLAIN = {
    "mawk": awk("mawk"),
    "gawk": awk("gawk"),
    "datamash": Program(
        "datamash",
        peers.datamash,
        peers.DATAMASH_METHODS,
        header=False,
        marked=True,
        quotes=False,
        nulls=[NULL_MARK, "-inf", "inf"],
    ),
    "mlr": Program("mlr", peers.mlr, peers.MLR_METHODS),
    "sqlite3": Program("sqlite3", peers.sqlite3, peers.SQLITE3_METHODS, header=False),
    "pandas": Program("pandas", peers.pandas, peers.PANDAS_METHODS),
}
# What makes the command, the methods that are known, and the words for null.
THREADED = {
    "data.table": (r_packages.data_table, r_packages.DATA_TABLE_METHODS, ["Inf", "-Inf"]),
    "collapse": (r_packages.collapse, r_packages.COLLAPSE_METHODS, []),
    "clickhouse": (clickhouse.local_command, clickhouse.METHODS, []),
}
PEERS = [*PLAIN, *THREADED]


def installed_peers(names, workers, folder, stack):
    """The other programs that are asked for and installed, those with threads at the least and the most workers.

    A server among them reads the tables of the folder, and is stopped with the stack.
    """
    missing = [name for name in names if not peers.is_installed(name)]
    if missing:
        print(f"not installed: {', '.join(missing)}", file=sys.stderr)
    found = []
    for name in names:
        if name in missing:
            continue
        if name in PLAIN:
            found.append(PLAIN[name])
        else:
            needs_server = name == "clickhouse" and not clickhouse.local()
            server = stack.enter_context(Server(folder)) if needs_server else None
            found += [threaded(name, threads, server) for threads in sorted({min(workers), max(workers)})]
    return found


def threaded(name, threads, server):
    local_command, methods, nulls = THREADED[name]
    command = server.command if server else local_command
    return Program(
        with_threads(name, threads),
        lambda table: command(table, threads),
        methods,
        threads,
        nulls=nulls,
        server=server,
    )
