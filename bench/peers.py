"""The words of other programs for the same job, and where they are installed."""

import functools
import shutil
import sys

import clickhouse
from quiet import quietly
from r_packages import PACKAGES, has_packages
from tables import WHOLE, WITHOUT_NULLS

PYTHONS = [sys.executable, "/usr/bin/python3"]
MLR = ["mlr", "--icsv", "--ocsv"]

# What each method of an aggregate is to a program. To awk it is what a row does to the total of its group, which
# has one from then on, and the form in which that is printed.
AWK_METHODS = {
    "sum": ("{total} += ${column}", "%.0f"),
    "min": ('if (({total} == "" || ${column} < {total}) && ${column} != "") {total} = ${column} + 0', "%s"),
    "max": ('if (({total} == "" || ${column} > {total}) && ${column} != "") {total} = ${column} + 0', "%s"),
    "count": ("{total}++", "%d"),
    "valid": ('{total} += ${column} != ""', "%d"),
    "n_unique": ("{total} += !seen{column}[key, ${column}]++", "%d"),
}
DATAMASH_METHODS = {
    "sum": "sum",
    "min": "min",
    "max": "max",
    "count": "count",
    "valid": "count",
    "n_unique": "countunique",
}
# mlr passes nulls over, and counts them apart.
MLR_METHODS = {
    "sum": ["sum"],
    "min": ["min"],
    "max": ["max"],
    "count": ["count"],
    "valid": ["count"],
    "n_unique": ["distinct_count", "null_count"],
}
SQLITE3_METHODS = {
    "sum": "coalesce(sum(nullif({0}, '')), 0)",
    "min": "min(nullif({0}, ''))",
    "max": "max(nullif({0}, ''))",
    "count": "count(*)",
    "valid": "count(nullif({0}, ''))",
    "n_unique": "count(distinct {0})",
}
# With the type of the answer, since what may be null is floating.
PANDAS_METHODS = {
    "sum": ("groups['{0}'].sum()", "int64"),
    "min": ("groups['{0}'].min()", "Int64"),
    "max": ("groups['{0}'].max()", "Int64"),
    "count": ("groups.size()", "int64"),
    "valid": ("groups['{0}'].count()", "int64"),
    "n_unique": ("groups['{0}'].nunique(dropna=False)", "int64"),
}


@functools.cache
def python_with_pandas():
    return next((path for path in PYTHONS if quietly([path, "-c", "import pandas"]) is not None), None)


def is_installed(name):
    if name in PACKAGES:
        return has_packages(name)
    if name == "clickhouse":
        return clickhouse.is_installed()
    return bool(python_with_pandas() if name == "pandas" else shutil.which(name))


def version(name):
    """What a program says of its version, from the first digit on."""
    commands = {
        "mawk": ["mawk", "-W", "version"],
        "pandas": [python_with_pandas(), "-c", "import pandas; print(pandas.__version__)"],
        "clickhouse": clickhouse.version(),
    }
    for package in PACKAGES:
        commands[package] = ["Rscript", "--vanilla", "-e", f"cat(format(packageVersion('{package}')))"]
    words = (quietly(commands.get(name, [name, "--version"])) or "").replace(",", " ").split()
    return next((word.rstrip(".") for word in words if word[0].isdigit()), "of unknown version")


def awk(name, table):
    case = table.case
    key = ' "," '.join(f"${case.number(key)}" for key in case.key_names)
    updates, forms, totals = [], ["%s"], ["key"]
    for place, (method, column) in enumerate(case.folds):
        update, form = AWK_METHODS[method]
        totals.append(f"totals{place}[key]")
        updates.append(update.format(total=totals[-1], column=case.number(column)))
        forms.append(form)
    row = f"NR > 1 {{ key = {key}; {'; '.join(updates or ['totals0[key]'])} }}"
    end = f'END {{ for (key in totals0) printf "{",".join(forms)}\\n", {", ".join(totals)} }}'
    return [name, "-F,", f"{row} {end}"]


def datamash(table):
    """Nulls are passed over where numbers are asked, and are values like others where none are, so that no case
    may ask both. Keys alone are one field to it, which has no tab."""
    case = table.case
    keys = ",".join(str(case.number(name)) for name in case.key_names)
    if not case.folds:
        return ["sh", "-c", f"cut -d, -f{keys} | datamash --header-in rmdup 1"]
    sort = [] if case.in_order else ["--sort"]
    nulls = [] if case.methods <= {"count", "n_unique"} else ["--narm"]
    group = ["--group", keys]
    for method, column in case.folds:
        group += [DATAMASH_METHODS[method], str(case.number(column))]
    return ["datamash", "--field-separator=,", "--header-in", *nulls, *sort, *group]


def mlr(table):
    case = table.case
    keys = ",".join(map(case.field, case.key_names))
    if not case.folds:
        return [*MLR, "count-distinct", "-f", keys, "then", "cut", "-o", "-f", keys]
    folds = [(method, case.field(column)) for method, column in case.folds]
    methods = ",".join(dict.fromkeys(word for method, _ in folds for word in MLR_METHODS[method]))
    fields = ",".join(dict.fromkeys(field for _, field in folds))
    with_null = [
        f"${{{field}_distinct_count}} += ${{{field}_null_count}} > 0 ? 1 : 0"
        for method, field in folds
        if method == "n_unique"
    ]
    put = ["put", "; ".join(with_null), "then"] if with_null else []
    answer = ",".join([keys, *(f"{field}_{MLR_METHODS[method][0]}" for method, field in folds)])
    return [*MLR, "stats1", "-a", methods, "-f", fields, "-g", keys, "then", *put, "cut", "-o", "-f", answer]


def sqlite3(table):
    case = table.case
    types = case.types.items()
    columns = ", ".join(f"{name} {'integer' if word in WHOLE else 'text'}" for name, word in types)
    answer = [*case.key_names, *(SQLITE3_METHODS[method].format(column) for method, column in case.folds)]
    query = f"select {', '.join(answer)} from sales group by {', '.join(case.key_names)}"
    load = [f"create table sales({columns})", f".import --csv --skip 1 '{table.path}' sales"]
    return ["sqlite3", "-batch", ":memory:", *load, ".mode csv", query]


def pandas(table):
    """Whole numbers are floating while they are read, where a column of them has nulls."""
    case = table.case
    types = {name: "float64" if word in WHOLE else "str" for name, word in case.types.items()}
    types |= dict.fromkeys(WITHOUT_NULLS, "int64")
    types = {name: types[name] for name in case.asked}
    answer_types = {key.name: "Int64" for key in case.keys if key.is_whole}
    made = []
    for method, column in case.folds:
        value, answer_type = PANDAS_METHODS[method]
        made.append(f"'{column}_{method}': {value.format(column)}")
        answer_types[f"{column}_{method}"] = answer_type
    groups = f"groups = sales.groupby({case.key_names}, sort=False, dropna=False)"
    grouped = [groups, f"answer = pandas.DataFrame({{{', '.join(made)}}}).reset_index()"]
    lines = [
        "import pandas, sys",
        f"options = dict(header=0, names={case.columns}, usecols={list(types)}, dtype={types})",
        f"sales = pandas.read_csv({table.path!r}, keep_default_na=False, na_values=[''], **options)",
        *(grouped if case.folds else [f"answer = sales[{case.key_names}].drop_duplicates()"]),
        f"answer.astype({answer_types}).to_csv(sys.stdout, index=False)",
    ]
    return [python_with_pandas(), "-c", "\n".join(lines)]
