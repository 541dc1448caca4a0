#!/usr/bin/env python3
"""Time and memory of gb_tool beside a plain Rust program and other programs, on the same tables in one run.

    bench/bench.py                 all tables, five rounds
    bench/bench.py --quick         tables of 100,000 rows, one round
    bench/bench.py --write         puts what it found into docs/PERFORMANCE.md and docs/performance.svg,
                                   if gb_tool was there and all was right

The exit status is 1 where a program fails, or where an answer is not that of the plain program, and 3 where
something was to be written and other work took more of the processors than it may.
"""

import argparse
import os
import sys
import tempfile
from contextlib import ExitStack

from chart import chart
from others import NotAtRest, Others
from programs import BASELINE, FOLDER, PEERS, build_rust, installed_peers, own_programs
from report import put_between_marks, report
from samples import measure
from tables import CASES, make_table, remove_table

REPOSITORY = os.path.dirname(FOLDER)
SIZES = ["100000", "1000000", "max"]


def words_of(text):
    return [word for word in text.split(",") if word]


def numbers_of(text):
    return [int(word) for word in words_of(text)]


def read_options():
    names = [case.name for case in CASES]
    memory = "/dev/shm" if os.access("/dev/shm", os.W_OK) else None
    parser = argparse.ArgumentParser(description=__doc__, formatter_class=argparse.RawDescriptionHelpFormatter)
    add = parser.add_argument
    add("--tool", default=os.path.join(REPOSITORY, "crates/gb_tool/out/gb_tool"), help="the gb_tool to measure")
    add("--sizes", type=words_of, default=SIZES, help="numbers of rows, and max for the largest input; by commas")
    add("--cases", type=words_of, default=names, help=f"of {', '.join(names)}; by commas")
    add("--workers", type=numbers_of, default=[1, 2, 4], help="the numbers of workers; by commas")
    add("--peers", type=words_of, default=PEERS, help=f"of {', '.join(PEERS)}; by commas, or none")
    add("--rounds", type=int, default=5)
    add("--patience", type=float, default=10, help="a peer that takes more seconds than this is run once")
    add("--out", default=memory, help="the folder in which a temporary folder of tables is made")
    add("--quick", action="store_true", help="tables of 100,000 rows and one round")
    add("--write", action="store_true", help="write docs/PERFORMANCE.md and docs/performance.svg")
    options = parser.parse_args()
    if unknown := set(options.cases) - set(names) | set(options.peers) - set(PEERS):
        parser.error(f"no case or peer is called {', '.join(sorted(unknown))}")
    if options.rounds < 1 or not options.workers:
        parser.error("at least one round is run, with at least one number of workers")
    if options.quick:
        options.sizes, options.rounds = SIZES[:1], 1
    return options


def tool_of(options):
    """The path of gb_tool, or nothing where it is not built: then only the others are run."""
    if os.access(options.tool, os.X_OK):
        return os.path.abspath(options.tool)
    print(f"no program at {options.tool}: gb_tool is left out", file=sys.stderr)
    return None


def measure_all(options, programs, others, folder):
    """The results on all tables, which stand in the folder one at a time."""
    results = []
    for size in options.sizes:
        for case in (case for case in CASES if case.name in options.cases):
            table = make_table(case, size, folder)
            others.begin()
            result = measure(table, size, programs, options.rounds, options.patience, folder)
            others.end(f"{case.name}, {table.rows} rows")
            remove_table(table)
            medians = ", ".join(f"{name} {found.median:.3f} s" for name, found in result.measured.items())
            print(f"{case.name}, {table.rows} rows: {medians}", file=sys.stderr)
            results.append(result)
    return results


def run(options, tool, others):
    """Builds and starts what is needed, and measures all."""
    with ExitStack() as stack:
        build = stack.enter_context(tempfile.TemporaryDirectory(prefix="gb_bench_build_"))
        folder = stack.enter_context(tempfile.TemporaryDirectory(prefix="gb_bench_", dir=options.out))
        programs = own_programs(tool, build_rust(BASELINE, build), options.workers)
        programs += installed_peers(options.peers, options.workers, folder, stack)
        others.servers = list({program.server for program in programs if program.server})
        return measure_all(options, programs, others, folder)


def write(found, results):
    """Puts the figures and their picture among the documents."""
    picture_link = "![Millions of rows that each program groups in a second](performance.svg)"
    put_between_marks(os.path.join(REPOSITORY, "docs/PERFORMANCE.md"), f"{found}\n\n{picture_link}")
    with open(os.path.join(REPOSITORY, "docs/performance.svg"), "w", encoding="utf-8") as picture:
        picture.write(chart(results))


def main():
    options = read_options()
    tool = tool_of(options)
    others = Others(must_rest=options.write)
    try:
        others.look()
        results = run(options, tool, others)
    except NotAtRest as found:
        print(f"{found}: nothing is written", file=sys.stderr)
        return 3
    found = report(results, options.rounds, options.patience)
    print(found)
    faults = [fault for result in results for fault in result.faults]
    for fault in faults:
        print(f"WRONG: {fault}", file=sys.stderr)
    if options.write and tool and not faults:
        write(found, results)
    return 1 if faults else 0


if __name__ == "__main__":
    sys.exit(main())
