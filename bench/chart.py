"""A bar chart of the rows that each program groups in a second, as an SVG picture."""

import math
from html import escape

from programs import BASELINE
from report import names_of

WIDTH = 860
LEFT = 250
RIGHT = 70
LEGEND_TOP = 56
LEGEND_LINE = 20
BAR = 12
GAP = 20
FAMILIES = {
    BASELINE: ["#bdbdbd", "#888888", "#444444"],
    "gb_tool": ["#9ecae1", "#4292c6", "#08519c"],
    "": ["#fdae6b", "#e6550d", "#a1d99b", "#31a354", "#c994c7", "#dd1c77", "#bcbddc", "#756bb1", "#d8b365"],
}


def text(x, y, words, anchor="start", size=12, weight="normal", colour="#222222"):
    return (
        f'<text x="{x:.1f}" y="{y:.1f}" text-anchor="{anchor}" font-size="{size}" '
        f'font-weight="{weight}" fill="{colour}">{escape(words)}</text>'
    )


def rectangle(x, y, width, height, colour):
    return f'<rect x="{x:.1f}" y="{y:.1f}" width="{width:.1f}" height="{height:.1f}" fill="{colour}"/>'


def rates(result):
    """Millions of rows a second, by program."""
    return {name: result.table.rows / measured.median / 1e6 for name, measured in result.measured.items()}


def colours_of(names):
    """A colour for each program: one of its family's."""
    used = dict.fromkeys(FAMILIES, 0)
    colours = {}
    for name in names:
        family = next(family for family in FAMILIES if name.startswith(family))
        choices = FAMILIES[family]
        colours[name] = choices[used[family] % len(choices)]
        used[family] += 1
    return colours


def step_of(most):
    """The distance of the marks on an axis up to a number: 1, 2 or 5 times a power of ten."""
    power = 10 ** math.floor(math.log10(most / 5))
    return next(power * times for times in (1, 2, 5, 10) if power * times >= most / 6)


def axis(most, top, height):
    """The axis with its marks, and the line of each mark over the picture."""
    step = step_of(most)
    parts = []
    for number in range(math.floor(most / step) + 1):
        x = LEFT + (WIDTH - LEFT - RIGHT) * number * step / most
        parts.append(f'<line x1="{x:.1f}" y1="{top - 8}" x2="{x:.1f}" y2="{height - 44}" stroke="#dddddd"/>')
        parts.append(text(x, height - 28, f"{number * step:g}", "middle"))
    parts.append(text(LEFT, height - 10, "million rows a second; a longer bar is faster"))
    return parts


def legend(colours):
    """The names with their colours, and the height at which the bars begin."""
    parts, x, y = [], 20, LEGEND_TOP
    for name, colour in colours.items():
        width = 34 + 7.2 * len(name)
        if x + width > WIDTH:
            x, y = 20, y + LEGEND_LINE
        parts.append(rectangle(x, y, 12, 12, colour))
        parts.append(text(x + 17, y + 10, name))
        x += width
    return parts, y + 2 * LEGEND_LINE


def bars(result, colours, most, top):
    """The bars of one table, each with its number behind it."""
    found = rates(result)
    middle = top + BAR * len(found) / 2
    parts = [
        text(LEFT - 10, middle, result.table.case.title, "end", weight="bold"),
        text(LEFT - 10, middle + 15, f"{result.groups:,} groups", "end", 11, colour="#666666"),
    ]
    for number, (name, rate) in enumerate(found.items()):
        y = top + number * BAR
        width = (WIDTH - LEFT - RIGHT) * rate / most
        parts.append(rectangle(LEFT, y, width, BAR - 2, colours[name]))
        parts.append(text(LEFT + width + 5, y + BAR - 3, f"{rate:.2f}", size=10))
    return parts


def chart(results):
    """The picture of the results on the tables of the last size."""
    results = [result for result in results if result.size == results[-1].size and result.measured]
    colours = colours_of(names_of(results))
    names, top = legend(colours)
    most = max(rate for result in results for rate in rates(result).values())
    height = top + sum(BAR * len(result.measured) + GAP for result in results) + 44
    rows = max(result.table.rows for result in results)
    parts = [
        "<title>Millions of rows that each program groups in a second</title>",
        rectangle(0, 0, WIDTH, height, "#ffffff"),
        text(20, 30, "Grouping a typed CSV table by one key or several", size=17, weight="bold"),
        text(20, 47, f"tables of up to {rows:,} rows", colour="#666666"),
        *names,
        *axis(most, top, height),
    ]
    for result in results:
        parts += bars(result, colours, most, top)
        top += BAR * len(result.measured) + GAP
    size = f'width="{WIDTH}" height="{height}" viewBox="0 0 {WIDTH} {height}"'
    head = f'<svg xmlns="http://www.w3.org/2000/svg" {size} font-family="sans-serif">'
    return "\n".join([head, *parts, "</svg>"]) + "\n"
