"""The tables of figures, for the terminal and for docs/PERFORMANCE.md."""

import os
import platform
import subprocess

from peers import version
from programs import BASELINE, PEERS, with_threads

BEGIN = "<!-- bench: begin -->"
END = "<!-- bench: end -->"


def names_of(results):
    """The programs of all results, in the order in which they came."""
    return list(dict.fromkeys(name for result in results for name in result.measured))


def markdown_table(head, rows, text_columns):
    """A table in Markdown, its first columns texts and the others numbers."""
    rule = ["---"] * text_columns + ["---:"] * (len(head) - text_columns)
    lines = [" | ".join(head), "|".join(rule), *(" | ".join(row) for row in rows)]
    return "\n".join(f"| {line} |" if number != 1 else f"|{line}|" for number, line in enumerate(lines))


def seconds_cell(result, name):
    """The median of a program, and how many times that of the plain program with as many threads it is."""
    if name not in result.measured:
        return "-"
    measured = result.measured[name]
    same = result.measured.get(with_threads(BASELINE, measured.threads))
    if same is None or same is measured:
        return f"{measured.median:.3f}"
    return f"{measured.median:.3f} ({measured.median / same.median:.2f})"


def peak_cell(result, name):
    return f"{result.measured[name].peak / 1e6:.0f}" if name in result.measured else "-"


def figures(results, cell):
    """A table of one figure for each result and program."""
    names = names_of(results)
    head = ["case", "rows", "groups", "input MB", *names]
    rows = []
    for result in results:
        table = result.table
        about = [table.case.title, f"{table.rows:,}", f"{result.groups:,}", f"{table.size / 1e6:.1f}"]
        rows.append(about + [cell(result, name) for name in names])
    return markdown_table(head, rows, 1)


def processor():
    """The name of the processor, as Linux tells it."""
    try:
        with open("/proc/cpuinfo", encoding="utf-8") as lines:
            return next(line.split(":", 1)[1].strip() for line in lines if line.startswith("model name"))
    except (OSError, StopIteration):
        return platform.machine()


def versions(results):
    names = dict.fromkeys(name.split(" -w")[0] for name in names_of(results))
    told = [" ".join(subprocess.run(["rustc", "--version"], capture_output=True, text=True).stdout.split()[:2])]
    return ", ".join(told + [f"{name} {version(name)}" for name in names if name in PEERS])


def report(results, rounds, patience):
    """What the benchmark found, as a text in Markdown."""
    times = "one round" if rounds == 1 else f"{rounds} rounds"
    where = f"{os.cpu_count()} processors ({processor()})"
    parts = [
        f"Medians of {times} on {where}; {versions(results)}. A peer that took over {patience:g} s was run once.",
        "Seconds, and in brackets how many times those of `baseline` with as many threads:",
        figures(results, seconds_cell),
        "Peak memory in MB:",
        figures(results, peak_cell),
    ]
    return "\n\n".join(parts)


def put_between_marks(path, text):
    """Replaces what stands between the two marks of a document."""
    with open(path, encoding="utf-8") as document:
        before, rest = document.read().split(BEGIN)
    _, after = rest.split(END)
    with open(path, "w", encoding="utf-8") as document:
        document.write(f"{before}{BEGIN}\n\n{text}\n\n{END}{after}")
