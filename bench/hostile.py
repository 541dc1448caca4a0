"""Tables that a stranger writes to keep the program busy, and limits and devices that fail it.

The hashes of the program are known, and can be turned round: `crafted` makes keys that share bits of their hashes
under the seed 0, and as many by chance. Both are grouped (keys). Then come tables that are large in one way, each
beside one half as large (shapes), a table of 20 MB within limits of address space (memory), and streams that are
full, closed, no files, or left early (devices). What is written are tables in Markdown. Where a status or an answer
is not the one that is right, the script says so and stops; no time is judged. It wants a Rust compiler.

    python3 bench/hostile.py --tool crates/gb_tool/out/gb_tool --rows 100000,1000000 --workers 1,4
"""

import argparse
import functools
import os
import random
import resource
import subprocess
import tempfile
import time

from programs import build_rust

# A run that takes longer, in seconds, is ended.
PATIENCE = 60
# Twenty limits of address space from 16 MB to 1 GB, each as many times the one before.
LIMITS = [int(2 ** (24 + 6 * place / 19)) for place in range(20)]

# What keys are, and what `crafted` calls them.
KEYS = (
    ("numbers, low bits shared", "low"),
    ("numbers, high bits shared", "high"),
    ("numbers, other than middle bits shared", "ends"),
    ("texts of 8 bytes", "text1"),
    ("texts of 16 bytes", "text2"),
    ("texts of 24 bytes", "text3"),
    ("two keys of numbers", "pairs"),
    ("categories of 16 bytes", "categories"),
    ("categories with one hash of a map with a fixed seed", "folded"),
)


def write_keys(crafted, path, kind, count, *chance):
    """Writes a table of keys that are crafted, or are by chance."""
    with open(path, "wb") as table:
        subprocess.run([crafted, kind, str(count), *chance], stdout=table, check=True)


def seconds(tool, words, table, code=0):
    """The least of three runs over a table, or PATIENCE where one takes longer."""
    least = PATIENCE
    for _ in range(3):
        with open(table, "rb") as source:
            streams = {"stdin": source, "stdout": subprocess.DEVNULL, "stderr": subprocess.PIPE}
            begin = time.perf_counter()
            try:
                ended = subprocess.run([tool, *words], **streams, timeout=PATIENCE)
            except subprocess.TimeoutExpired:
                return PATIENCE
            least = min(least, time.perf_counter() - begin)
        if ended.returncode != code:
            raise SystemExit(f"{words[:8]}: status {ended.returncode}, {ended.stderr[:200]}")
    return least


def said(took, amount):
    """An amount with a word before it where the run that it is of was ended."""
    return f"over {amount}" if took >= PATIENCE else amount


def keys_table(tool, rows, workers, folder):
    """Crafted keys beside keys by chance, and each beside a tenth of as many."""
    print("| keys | rows | workers | crafted, s | by chance, s | ratio | crafted over a tenth | chance over a tenth |")
    print("|---|---:|---:|---:|---:|---:|---:|---:|")
    crafted = build_rust("crafted", folder)
    table, other_table = os.path.join(folder, "crafted.csv"), os.path.join(folder, "chance.csv")
    earlier = {}
    for count in rows:
        for name, kind in KEYS:
            write_keys(crafted, table, kind, count)
            write_keys(crafted, other_table, kind, count, "chance")
            by = ["--by", "k", *(["--by", "j"] if kind == "pairs" else [])]
            for threads in workers:
                words = ["group", *by, "--agg", "sum:v", "--agg", "n_unique:k", "--workers", str(threads)]
                took, other = seconds(tool, words, table), seconds(tool, words, other_table)
                tenth, other_tenth = earlier.get((name, threads, count // 10), (None, None))
                growth = f"{said(took, f'{took / tenth:.1f}')} | {other / other_tenth:.1f}" if tenth else " | "
                earlier[name, threads, count] = took, other
                ratio = f"{said(took, f'{took:.3f}')} | {other:.3f} | {said(took, f'{took / other:.2f}')}"
                print(f"| {name} | {count:,} | {threads} | {ratio} | {growth} |", flush=True)


def wide(count):
    names = b",".join(b"c%d" % place for place in range(count))
    return ["group", "--by", "c7"], names + b"\n" + b",".join([b"1"] * count) + b"\n"


def aggregates(count):
    names = [f"c{place}" for place in range(count)]
    header = ",".join(["k", *(f"{name}:i64" for name in names)])
    words = [word for name in names for word in ("--agg", f"sum:{name}")]
    return ["group", "--by", "k", *words], f"{header}\nx{',1' * count}\n".encode()


def by_key(table, *options):
    return ["group", "--by", "k", *options], table


def random_bytes(count):
    return random.Random(1).randbytes(count)


# What is many, how many, the words and the table by that, and the status.
SHAPES = (
    ("columns", 50_000, wide, 0),
    ("aggregates", 5_000, aggregates, 0),
    ("bytes in one cell", 200_000_000, lambda count: by_key(b"k\n" + b"x" * count + b"\n"), 0),
    ("empty lines", 1_000_000, lambda count: by_key(b"k\n" + b"\n" * count), 0),
    ("zero bytes", 10_000_000, lambda count: by_key(b"\0" * count), 4),
    ("random bytes", 10_000_000, lambda count: by_key(random_bytes(count)), 3),
    ("quotes", 10_000_000, lambda count: by_key(b'"' * count), 4),
    ("rows for 64 workers and 1,024 partitions", 2,
     lambda count: by_key(b"k\n" + b"x\n" * count, "--workers", "64", "--partitions", "1024"), 0),
)


def shapes_table(tool, folder):
    """Tables that are large in one way, beside ones half as large."""
    print("| table | bytes | status | s | half as large, s | over half as large, from 0.1 s on |")
    print("|---|---:|---:|---:|---:|---:|")
    path = os.path.join(folder, "shape.csv")
    for name, count, shape, code in SHAPES:
        took = []
        for size in (count // 2, count):
            words, table = shape(size)
            with open(path, "wb") as file:
                file.write(table)
            took.append(seconds(tool, words, path, code))
        half, whole = took
        ratio = said(whole, f"{whole / half:.2f}") if whole > 0.1 else ""
        cells = f"{len(table):,} | {code} | {said(whole, f'{whole:.3f}')} | {half:.3f} | {ratio}"
        print(f"| {count:,} {name} | {cells} |", flush=True)


def ended_run(tool, words, path, before=None, stdout=subprocess.PIPE):
    """The status of a run over a file or a folder, and what it wrote; something may be done in it before."""
    source = os.open(path, os.O_RDONLY)
    try:
        streams = {"stdin": source, "stdout": stdout, "stderr": subprocess.DEVNULL}
        ended = subprocess.run([tool, *words], **streams, preexec_fn=before, timeout=PATIENCE)
    finally:
        os.close(source)
    return ended.returncode, ended.stdout


def write_limited(path):
    """Writes a table of 20 MB: 100,000 texts of 30 bytes as keys, five rows each, and numbers of eight digits."""
    draw = random.Random(1)
    keys = [draw.randbytes(15).hex() for _ in range(100_000)]
    with open(path, "w", encoding="ascii") as table:
        table.write("k,v:i64\n")
        table.writelines(f"{draw.choice(keys)},{draw.randrange(10**7, 10**8)}\n" for _ in range(500_000))


def memory_table(tool, workers, folder):
    """One table within limits of address space: the right answer, or status 9 and nothing written."""
    path = os.path.join(folder, "limited.csv")
    write_limited(path)
    print("| workers | bytes | limits with the answer | limits with status 9 | least limit with the answer, bytes |")
    print("|---:|---:|---:|---:|---:|")
    words = ["group", "--by", "k", "--agg", "sum:v", "--agg", "n_unique:v"]
    status, answer = ended_run(tool, words, path)
    if status != 0:
        raise SystemExit(f"memory, no limit: status {status}")
    for threads in workers:
        good = []
        for limit in LIMITS:
            bound = functools.partial(resource.setrlimit, resource.RLIMIT_AS, (limit, limit))
            status, written = ended_run(tool, [*words, "--workers", str(threads)], path, bound)
            if (status, written) not in ((0, answer), (9, b"")):
                raise SystemExit(f"{limit} bytes, {threads} workers: status {status}, {len(written)} bytes written")
            good += [limit] if status == 0 else []
        least = f"{min(good):,}" if good else "none"
        lacking = len(LIMITS) - len(good)
        print(f"| {threads} | {os.path.getsize(path):,} | {len(good)} | {lacking} | {least} |", flush=True)


def closing(stream):
    return functools.partial(os.close, stream)


def device_cases(folder, full):
    """Names, the status that is right, the input, and what is different about the run."""
    every_row, faulty, empty = (os.path.join(folder, name) for name in ("every_row.csv", "faulty.csv", "empty.csv"))
    rows = b"".join(b"row %d,1\n" % place for place in range(400_000))
    for path, table in ((every_row, b"k,v:i64\n" + rows), (faulty, b"k,v:i64\na,cell,too,many\n"), (empty, b"")):
        with open(path, "wb") as file:
            file.write(table)
    yield "a full device as output", 6, every_row, {"stdout": full}
    yield "output closed", 6, every_row, {"before": closing(1)}
    yield "input closed", 5, every_row, {"before": closing(0)}
    yield "a folder as input", 5, folder, {}
    yield "notes closed, the table at fault", 3, faulty, {"before": closing(2)}
    yield "an empty input", 3, empty, {}


def left_early(tool, words, path, restore_signals):
    """The status of a run whose reader takes ten bytes and closes."""
    with open(path, "rb") as source:
        streams = {"stdin": source, "stdout": subprocess.PIPE, "stderr": subprocess.DEVNULL}
        run = subprocess.Popen([tool, *words], **streams, bufsize=0, restore_signals=restore_signals)
        try:
            run.stdout.read(10)
            run.stdout.close()
            return run.wait(PATIENCE)
        finally:
            run.kill()


def devices_table(tool, workers, folder):
    """Streams that fail: the status that is right, and nothing written but at status 6."""
    print("| device | workers | status |")
    print("|---|---:|---:|")
    for threads in workers:
        words = ["group", "--by", "k", "--workers", str(threads)]
        with open("/dev/full", "wb") as full:
            for name, right, path, how in device_cases(folder, full):
                status, written = ended_run(tool, words, path, **how)
                if status != right or (status != 6 and written):
                    raise SystemExit(f"{name}, {threads} workers: status {status}, written {(written or b'')[:200]}")
                print(f"| {name} | {threads} | {status} |", flush=True)
        for name, restored in (("the signal of a broken pipe as it comes", True), ("that signal ignored", False)):
            status = left_early(tool, words, os.path.join(folder, "every_row.csv"), restored)
            if status != 6:
                raise SystemExit(f"a reader that leaves early, {name}, {threads} workers: status {status}")
            print(f"| a reader that leaves early, {name} | {threads} | {status} |", flush=True)


def main():
    parser = argparse.ArgumentParser(description=__doc__.splitlines()[0])
    parser.add_argument("--tool", required=True)
    parser.add_argument("--rows", default="100000")
    parser.add_argument("--workers", default="1,4")
    parser.add_argument("--only", default="keys,shapes,memory,devices")
    options = parser.parse_args()
    rows = sorted(int(count) for count in options.rows.split(","))
    workers = [int(count) for count in options.workers.split(",")]
    parts = {
        "keys": lambda folder: keys_table(options.tool, rows, workers, folder),
        "shapes": lambda folder: shapes_table(options.tool, folder),
        "memory": lambda folder: memory_table(options.tool, workers, folder),
        "devices": lambda folder: devices_table(options.tool, workers, folder),
    }
    chosen = options.only.split(",")
    if not set(chosen) <= set(parts):
        parser.error(f"--only takes some of {','.join(parts)}")
    with tempfile.TemporaryDirectory() as folder:
        for place, part in enumerate(chosen):
            print(end="\n" if place else "")
            parts[part](folder)


if __name__ == "__main__":
    main()
