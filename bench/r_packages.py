"""The words of R's packages for the same job, and whether they are installed."""

import functools

from quiet import quietly

PACKAGES = {"data.table": ["data.table"], "collapse": ["data.table", "collapse"]}

# What each method makes of a column, by group.
DATA_TABLE_METHODS = {
    "sum": "sum({0}, na.rm = TRUE)",
    "min": "min({0}, na.rm = TRUE)",
    "max": "max({0}, na.rm = TRUE)",
    "count": ".N",
    "valid": "sum(!is.na({0}))",
    "n_unique": "uniqueN({0})",
}
COLLAPSE_METHODS = {
    "sum": "fcoalesce(fsum(sales${0}, groups), 0)",
    "min": "fmin(sales${0}, groups)",
    "max": "fmax(sales${0}, groups)",
    "count": "groups$group.sizes",
    "valid": "fnobs(sales${0}, groups)",
    "n_unique": "fndistinct(sales${0}, groups, na.rm = FALSE)",
}


@functools.cache
def has_packages(name):
    loads = "; ".join(f"library({package})" for package in PACKAGES[name])
    return quietly(["Rscript", "--vanilla", "-e", loads]) is not None


def r_vector(names):
    return f"c({', '.join(map(repr, names))})"


def r_folds(case, made):
    """What is asked, with the names of the answer's columns."""
    return ", ".join(f"{column}_{method} = {made[method].format(column)}" for method, column in case.folds)


def r_script(table, threads, amount_type, libraries, lines):
    """A script of R that reads the columns that are asked for and writes what the lines leave in `answer`.

    R's integers have 32 bits, so that larger keys are floating; without the option, those and large sums would
    be written with exponents.
    """
    case = table.case
    types = {name: {"i64": "numeric", "date": "integer"}.get(word, "character") for name, word in case.types.items()}
    types |= {"amount": amount_type, "quantity": "integer"}
    columns = ", ".join(f'"{case.field(name)}" = "{types[name]}"' for name in case.asked)
    names = f"col.names = {r_vector(case.asked)}"
    options = 'sep = ",", header = TRUE, na.strings = "", showProgress = FALSE'
    reading = [f"suppressMessages(library({library}))" for library in libraries] + [
        "options(scipen = 100)",
        f"setDTthreads({threads})",
        f'sales <- fread("{table.path}", select = c({columns}), {names}, {options})',
    ]
    writing = 'fwrite(answer, "/dev/stdout", quote = FALSE, showProgress = FALSE)'
    return ["Rscript", "--vanilla", "-e", "; ".join([*reading, *lines, writing])]


def data_table(table, threads):
    """A least or greatest of no number is infinite, and so floating."""
    case = table.case
    amount_type = "numeric" if case.methods & {"min", "max"} else "integer"
    groups = f"sales[, .({r_folds(case, DATA_TABLE_METHODS)}), by = {r_vector(case.key_names)}]"
    answer = groups if case.folds else "unique(sales)"
    return r_script(table, threads, amount_type, PACKAGES["data.table"], [f"answer <- {answer}"])


def collapse(table, threads):
    """The amounts are floating, since a sum of integers must be one of 32 bits here."""
    case = table.case
    lines = [
        f"groups <- GRP(sales, {r_vector(case.key_names)}, sort = FALSE)",
        f"answer <- setDT(c(as.list(groups$groups), list({r_folds(case, COLLAPSE_METHODS)})))",
    ]
    lines = lines if case.folds else ["answer <- funique(sales)"]
    return r_script(table, threads, "numeric", PACKAGES["collapse"], lines)
