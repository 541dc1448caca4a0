"""Running programs on a table, and comparing what they answer."""

import hashlib
import os
import statistics
import subprocess
import sys
from dataclasses import dataclass, field

from programs import BASELINE, FOLDER, Program
from tables import Table


@dataclass
class Measured:
    """What the runs of one program on one table took."""

    threads: int
    seconds: list[float] = field(default_factory=list)
    peak: int = 0
    groups: int = 0
    text_digest: str = ""
    rows_digest: str = ""

    @property
    def median(self):
        return statistics.median(self.seconds)


@dataclass
class Result:
    """One table with what was measured on it, by the names of the programs whose answers were right."""

    table: Table
    size: str
    measured: dict[str, Measured]
    faults: list[str] = field(default_factory=list)

    @property
    def groups(self):
        return max((measured.groups for measured in self.measured.values()), default=0)


class Fault(Exception):
    """A program failed or answered wrongly."""


def run_once(program, table, answer):
    """Runs a program once: its seconds and its peak memory in bytes."""
    source = table.marked_path if program.marked else table.path
    launch = [sys.executable, "-I", "-S", os.path.join(FOLDER, "launch.py"), source, answer]
    environment = dict(os.environ, LC_ALL="C")
    if program.server:
        program.server.forget_peak()
    done = subprocess.run([*launch, *program.command(table)], env=environment, stdout=subprocess.PIPE, text=True)
    if done.returncode != 0:
        raise Fault("could not be started")
    status, seconds, peak = done.stdout.split()
    if status != "0":
        raise Fault(f"failed with status {status}")
    peak = int(peak) if program.server is None else max(int(peak), program.server.peak())
    return float(seconds), peak


def normal_rows(program, text):
    """The rows of an answer in order of their bytes, without header and quotes, null spelled as nothing."""
    rows = text.replace(b'"', b"").replace(b"\r", b"").splitlines()
    rows = rows[1:] if program.header else rows
    if program.nulls:
        nulls = {word.encode() for word in program.nulls}
        rows = [without_nulls(row, nulls) for row in rows]
    return sorted(rows)


def without_nulls(row, nulls):
    return b",".join(b"" if field in nulls else field for field in row.split(b","))


def sample(program, table, answer, measured):
    """Runs a program once more, and sees that it answers as it did before."""
    seconds, peak = run_once(program, table, answer)
    with open(answer, "rb") as file:
        text = file.read()
    digest = hashlib.sha256(text).hexdigest()
    if not measured.seconds:
        rows = normal_rows(program, text)
        measured.groups = len(rows)
        measured.text_digest = digest
        measured.rows_digest = hashlib.sha256(b"\n".join(rows)).hexdigest()
    elif digest != measured.text_digest:
        raise Fault("answers otherwise than before")
    measured.seconds.append(seconds)
    measured.peak = max(measured.peak, peak)


def disagreement(program, measured, baseline):
    """Why an answer is not that of the plain program, or nothing. gb_tool gives the same bytes."""
    if measured.rows_digest != baseline.rows_digest:
        return "answers other rows than the baseline"
    if program.own and measured.text_digest != baseline.text_digest:
        return "writes other bytes than the baseline"
    return None


def measure(table, size, programs: list[Program], rounds, patience, folder):
    """Runs round by round all programs that can do what is asked. A peer that takes longer than the patience is run
    once."""
    programs = [program for program in programs if program.can_do(table.case)]
    answer = os.path.join(folder, "answer")
    result = Result(table, size, {program.name: Measured(program.threads) for program in programs})
    for number in range(rounds):
        turn = number % len(programs)
        for program in programs[turn:] + programs[:turn]:
            measured = result.measured.get(program.name)
            if measured is None or not program.own and measured.seconds and measured.seconds[0] > patience:
                continue
            try:
                sample(program, table, answer, measured)
            except Fault as fault:
                leave_out(result, program, fault)
    compare(result, programs)
    os.remove(answer)
    return result


def leave_out(result, program, why):
    del result.measured[program.name]
    result.faults.append(f"{result.table.case.name} {result.size}: {program.name} {why}")


def compare(result, programs):
    """Leaves out the programs whose answers are not those of the plain program with the first number of workers."""
    measured = (result.measured.get(program.name) for program in programs if program.name.startswith(BASELINE))
    baseline = next(filter(None, measured), None)
    for program in programs:
        measured = result.measured.get(program.name)
        why = measured and baseline and disagreement(program, measured, baseline)
        if why:
            leave_out(result, program, why)
