"""The tables that are grouped, and what is asked of them: one for each case and size, the same bytes at each run."""

import itertools
import os
import random
from dataclasses import dataclass

LARGEST_INPUT = 268_435_456
CHUNK = 50_000
FEW_VALUES = 100
ROWS_PER_GROUP = 10
WHOLE = ("i64", "date")
WITHOUT_NULLS = ("sale", "quantity")
NULL_MARK = "NA"
IN_EACH, IN_LAST = "each", "last"
# What an aggregate makes of a column, by gb_tool's words: a least or greatest of no cell is null, and null is one
# of the values that n_unique counts.
METHODS = ("sum", "min", "max", "count", "valid", "n_unique")

DAYS = [f"2024-{month:02d}-{day:02d}" for month in range(1, 13) for day in range(1, 29)]
CITIES = ["Aarhus", "Bern", "Gdańsk", "Köln", "León", "Lyon", "Oulu", "Porto", "Riga", "Turin", "Utrecht", "Zadar"]
QUOTED_CITIES = [f'"{city}, centre"' for city in CITIES]
AMOUNTS = [str(amount) for amount in range(-20_000, 80_000)] + [""] * 3_000
QUANTITIES = [str(quantity) for quantity in range(1, 25)]


SPELLINGS = {
    "str": lambda number: f"C{number:06d}",
    "cat": lambda number: f"C{number:06d}",
    "i64": lambda number: str(number * 7919 - 100_000),
    "date": lambda number: str(number - 20_000),
    "dec2": lambda number: f"{number * 7919 - 100_000}.{number % 100:02d}",
    "bool": lambda number: "true" if number % 2 else "false",
}


@dataclass(frozen=True)
class Key:
    """A key column, or another made like one. Its values are a hundred, or one for each so many rows."""

    type: str
    rows_per_value: int = 0
    name: str = "key"

    @property
    def is_whole(self):
        return self.type in WHOLE

    def spell(self, number):
        """One of the values."""
        return SPELLINGS[self.type](number)

    def values(self, rows):
        return rows // self.rows_per_value if self.rows_per_value else FEW_VALUES


@dataclass(frozen=True)
class Case:
    """A kind of table, and what is asked of it by its keys: pairs of a method and a column. Quoted fields stand in
    each row, or in the last one, or in none."""

    name: str
    title: str
    keys: list[Key]
    folds: tuple[tuple[str, str], ...] = (("sum", "amount"), ("count", "quantity"))
    others: tuple[Key, ...] = ()
    in_order: bool = False
    quotes: str = ""
    line_end: str = "\n"

    @property
    def cities(self):
        return QUOTED_CITIES if self.quotes == IN_EACH else CITIES

    @property
    def made(self):
        """The columns that differ from case to case: the keys, and behind them others made like them."""
        return [*self.keys, *self.others]

    @property
    def last_rows(self):
        """A row with a quoted field, where only the last has one."""
        made = ",".join(key.spell(0) for key in self.made)
        return [f"0,{DAYS[0]},{made},{QUOTED_CITIES[0]},1,1"] if self.quotes == IN_LAST else []

    @property
    def header(self):
        made = ",".join(f"{key.name}:{key.type}" for key in self.made)
        return f"sale:i64,day:str,{made},city:str,amount:i64,quantity:i64"

    @property
    def types(self):
        """The types of all columns, by their names."""
        return dict(field.split(":") for field in self.header.split(","))

    @property
    def columns(self):
        return list(self.types)

    def field(self, column):
        """The field of the header that tells of a column."""
        return f"{column}:{self.types[column]}"

    @property
    def key_names(self):
        return [key.name for key in self.keys]

    @property
    def asked(self):
        """The columns that an answer is made of."""
        return [*self.key_names, *dict.fromkeys(column for _, column in self.folds)]

    @property
    def methods(self):
        return {method for method, _ in self.folds}

    def number(self, column):
        """The number of a column, from 1 on."""
        return self.columns.index(column) + 1


FEW_TEXTS = [Key("str")]
HUNDRED_ROWS_A_TEXT = [Key("str", 100)]
ITEM = Key("str", 100, "item")
THREE_FOLDS = (("sum", "amount"), ("min", "amount"), ("max", "amount"))
SIX_KEYS = [
    Key("str", name="id1"),
    Key("str", name="id2"),
    Key("str", 100, "id3"),
    Key("i64", name="id4"),
    Key("i64", name="id5"),
    Key("i64", 100, "id6"),
]

CASES = [
    Case("text-few", "texts, few groups", FEW_TEXTS),
    Case("text-many", "texts, many groups", [Key("str", ROWS_PER_GROUP)]),
    Case("int-few", "numbers, few groups", [Key("i64")]),
    Case("int-many", "numbers, many groups", [Key("i64", ROWS_PER_GROUP)]),
    Case("sorted", "sorted numbers", [Key("i64", ROWS_PER_GROUP)], in_order=True),
    Case("decimals", "decimals, many groups", [Key("dec2", ROWS_PER_GROUP)]),
    Case("dates", "dates, many groups", [Key("date", ROWS_PER_GROUP)]),
    Case("flags", "booleans", [Key("bool")]),
    Case("categories", "categories, few groups", [Key("cat")]),
    Case("quoted", "texts, a quote in each row", FEW_TEXTS, quotes=IN_EACH),
    Case("quoted-last", "texts, a quote in the last row", FEW_TEXTS, quotes=IN_LAST),
    Case("two-byte-ends", "texts, lines end in \\r\\n", FEW_TEXTS, line_end="\r\n"),
    Case("two-keys", "two keys of texts", SIX_KEYS[:2], (("sum", "amount"),)),
    Case("six-keys", "six keys, a group a row", SIX_KEYS),
    Case("three-folds", "three aggregates by a text key", HUNDRED_ROWS_A_TEXT, THREE_FOLDS),
    Case("distinct-texts", "distinct texts of a column", FEW_TEXTS, (("n_unique", ITEM.name),), others=(ITEM,)),
    Case("keys-alone", "a text key, no aggregate", HUNDRED_ROWS_A_TEXT, folds=()),
    Case("valid-counts", "sum and valid count by a number key", [Key("i64")], (("sum", "amount"), ("valid", "amount"))),
]


@dataclass(frozen=True)
class Table:
    """A table in a file, and beside it one with its nulls marked, for programs that read no empty number."""

    case: Case
    rows: int
    size: int
    path: str
    marked_path: str


def drawn_keys(key, draw, rows):
    """Endless values of a key drawn by chance, one in a hundred null."""
    count = key.values(rows)
    values = [key.spell(number) for number in range(count)] + [""] * (count // 100)
    while True:
        yield from draw.choices(values, k=CHUNK)


def ascending_keys(key, draw, rows):
    """Endless values that never fall, after nulls on one row in a hundred; each has its rows on average."""
    yield from itertools.repeat("", rows // 100)
    number = 0
    while True:
        for step in draw.choices(range(key.rows_per_value), k=CHUNK):
            number += step == 0
            yield key.spell(number)


def lines(case, rows):
    return "".join(f"{row}{case.line_end}" for row in rows)


def chunks(case, rows):
    """The rows of a table as texts of up to CHUNK rows."""
    draw = random.Random(f"{case.name} {rows}")
    made = [(ascending_keys if case.in_order else drawn_keys)(key, draw, rows) for key in case.made]
    for begin in range(0, rows, CHUNK):
        count = min(CHUNK, rows - begin)
        fields = zip(
            map(str, range(begin + 1, begin + count + 1)),
            draw.choices(DAYS, k=count),
            *(itertools.islice(values, count) for values in made),
            draw.choices(case.cities, k=count),
            draw.choices(AMOUNTS, k=count),
            draw.choices(QUANTITIES, k=count),
        )
        yield lines(case, map(",".join, fields))


def most_rows(case):
    """A few rows more than the largest input has room for: rows grow with their numbers."""
    sample = next(chunks(case, 1_000_000)).encode()
    return LARGEST_INPUT * CHUNK // len(sample)


def row_chunks(case, rows, room):
    """The rows of a table as bytes, up to so many."""
    last = lines(case, case.last_rows).encode()
    room -= len(last)
    for text in chunks(case, rows - len(case.last_rows)):
        data = text.encode()
        if len(data) > room:
            data = data[: data.rfind(b"\n", 0, room) + 1]
        room -= len(data)
        yield data
    yield last


def marked_nulls(data):
    """Rows with their nulls marked, of which none stands first or last. Of nulls side by side the first look
    finds each second one."""
    for _ in range(2):
        data = data.replace(b",,", f",{NULL_MARK},".encode())
    return data


def make_table(case, size, folder):
    """Writes the table of so many rows, or of as many as the largest input has, where the size is "max"."""
    rows = most_rows(case) if size == "max" else int(size)
    path = os.path.join(folder, f"{case.name}-{size}.csv")
    marked_path = os.path.join(folder, f"{case.name}-{size}-marked.csv")
    header = lines(case, [case.header]).encode()
    length, made = len(header), 0
    with open(path, "wb") as plain, open(marked_path, "wb") as marked:
        plain.write(header)
        marked.write(header)
        for data in row_chunks(case, rows, LARGEST_INPUT - length):
            length += plain.write(data)
            made += data.count(b"\n")
            marked.write(marked_nulls(data))
    return Table(case, made, length, path, marked_path)


def remove_table(table):
    os.remove(table.path)
    os.remove(table.marked_path)
