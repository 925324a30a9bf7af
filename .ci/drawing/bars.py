"""Charts of what was measured, with the numbers of the tables in bench/README.md: a row an engine, and beside one another panels of bars on one scale. The
program has one strong colour, and the plain C++ tree and the peers have muted ones."""
import dataclasses
import re

from drawing import svg

WIDTH, PAD, LEFT, ROW, BAR, LINE = 960, 10, 200, 24, 15, 15
OURS, PLAIN, PEER = "#c2410c", "#7f95ad", "#b4bac3"
UNITS = {"": 1.0, "k": 1e3, "M": 1e6, "kB": 1.0}
CELL = re.compile(r"([\d.,]+) (k|M|kB)\b")


@dataclasses.dataclass
class Chart:
    """A chart: the heading of its table, its title, the columns with a panel each, the unit on the axes, whether the number in brackets is the best round,
    and what stands below."""

    heading: str
    title: str
    columns: tuple
    unit: str
    has_best: bool
    notes: str


SOURCE = "From the table in bench/README.md, which says how and on what it was measured: a measurement and no promise."
DEBUGGED = "RocksDB and LevelDB as Debian 12 builds them have assertions in them, RocksDB also other aids for debugging, and so are slower than builds without."
CHARTS = {
    "bench-resident": Chart(
        "All pages in memory",
        "churn of 100,000 pairs, all pages in memory: calls a second in the workers' phase",
        ("1 worker", "4 workers"),
        "calls a second",
        True,
        f"The plain C++ tree is of the program's design, with no buffer manager below it. {DEBUGGED}",
    ),
    "bench-tenth": Chart(
        "Frames for a tenth of the pages",
        "churn of 100,000 pairs, frames for a tenth of the pages: calls a second in the workers' phase",
        ("1 worker", "4 workers"),
        "calls a second",
        True,
        f"Only engines whose memory can be bounded. {DEBUGGED}",
    ),
    "bench-space": Chart(
        "Space",
        "Bytes of the pages that hold 100,000 pairs, and behind calls of four kinds",
        ("filled", "half out, in no order", "half out, in runs", "nine tenths out, in no order", "turned over"),
        "kB",
        False,
        "The plain C++ tree neither merges leaves nor uses pages again. Free pages are not counted.",
    ),
}


def tables_of(text, heading):
    """The tables that are the first behind a heading of these words: the columns of each, and its rows by engine."""
    lines = text.splitlines()
    for at, line in enumerate(lines):
        if line.lstrip("#") != f" {heading}":
            continue
        rows = []
        for below in lines[at + 1 :]:
            if below.startswith("#") or (rows and not below.startswith("|")):
                break
            if below.startswith("|"):
                rows.append([cell.strip().replace("**", "") for cell in below.strip("|").split("|")])
        if rows:
            yield rows[0], {row[0]: row[1:] for row in rows[2:]}


def numbers_of(cell):
    """The numbers of a cell that have a unit: the first, and what stands in brackets, if it has one."""
    return [float(number.replace(",", "")) * UNITS[unit] for number, unit in CELL.findall(cell)]


def values_of(chart, text):
    """The engines, and by column and engine the numbers of the table that has the chart's columns."""
    head, rows = next(((head, rows) for head, rows in tables_of(text, chart.heading) if set(chart.columns) <= set(head)), (None, None))
    if not rows:
        raise ValueError(f"bench/README.md has no table with the columns {', '.join(chart.columns)} behind the heading {chart.heading!r}")
    found = {(column, engine): numbers_of(cells[head.index(column) - 1]) for column in chart.columns for engine, cells in rows.items()}
    return list(rows), {place: numbers for place, numbers in found.items() if numbers}


def step_of(most, marks):
    """A round distance between marks, so that there are at most so many."""
    steps = (factor * 10**power for power in range(12) for factor in (1, 2, 5))
    return next(step for step in steps if most / step <= marks)


def written(value, unit):
    """A number as the tables write it."""
    if unit == "kB":
        return f"{value:,.0f}"
    return f"{value / 1e6:.2f} M" if value >= 1e6 else f"{value / 1e3:.0f} k"


def mark_written(value, unit):
    """A number on an axis."""
    if unit == "kB" or not value:
        return f"{value:,.0f}"
    return f"{value / 1e6:g} M" if value >= 1e6 else f"{value / 1e3:g} k"


def colour_of(engine):
    return OURS if engine.startswith("vmcache") else PLAIN if "plain C++" in engine else PEER


def axis(chart, most, left, room, top, bottom):
    """Marks below the bars, with faint lines up through them, and the unit."""
    marks, step = [svg.text(left, bottom + 32, chart.unit, 11, fill=svg.GREY)], step_of(most, max(2, room // 55))
    for k in range(int(most / step) + 1):
        x = left + room * k * step / most
        words = mark_written(k * step, chart.unit)
        marks += [svg.line(x, top - 2, x, bottom + 3, svg.FAINT), svg.text(x, bottom + 16, words, 11, "middle" if k else "start", fill=svg.GREY)]
    return marks


def panel(chart, column, engines, values, left, width, top):
    """The bars of one column, below its name and above an axis."""
    room, most = width - 58, max(max(numbers) for numbers in values.values())
    name = svg.wrapped(column, width - 8, 12)
    marks = [svg.text(left, top - 10 - LINE * (len(name) - 1 - k), it, 12, weight="bold") for k, it in enumerate(name)]
    marks += axis(chart, most, left, room, top, top + ROW * len(engines))
    for k, engine in enumerate(engines):
        numbers, y = values.get((column, engine)), top + ROW * k + (ROW - BAR) / 2
        if not numbers:
            marks.append(svg.text(left + 4, y + 12, "no result", 11, fill=svg.GREY))
            continue
        bar, end = (left + room * value / most for value in (numbers[0], max(numbers)))
        marks.append(svg.rect(left, y, bar - left, BAR, colour_of(engine)))
        if chart.has_best and len(numbers) > 1:
            marks += [svg.line(bar, y + BAR / 2, end, y + BAR / 2, svg.INK, 0.8), svg.line(end, y + 2, end, y + BAR - 2, svg.INK, 1.5)]
        marks.append(svg.text(end + 5, y + 12, written(numbers[0], chart.unit), 11, weight="bold" if colour_of(engine) == OURS else "normal"))
    return marks


def picture(name, text):
    """A chart of the table in bench/README.md."""
    chart = CHARTS[name]
    engines, values = values_of(chart, text)
    top, width = 78, (WIDTH - PAD - LEFT) / len(chart.columns)
    marks = [svg.text(PAD, 24, chart.title, 14, weight="bold")]
    for k, engine in enumerate(engines):
        weight = "bold" if colour_of(engine) == OURS else "normal"
        marks.append(svg.text(LEFT - 10, top + ROW * k + ROW / 2 + 4, engine, 12, "end", weight))
    for k, column in enumerate(chart.columns):
        marks += panel(chart, column, engines, values, LEFT + width * k, width, top)
    best = "Bars are medians, lines reach to the best rounds; two runs of the same table differ by a tenth to a half. " if chart.has_best else ""
    foot = top + ROW * len(engines) + 54
    words, lines = svg.paragraph(PAD, foot, f"{best}{chart.notes} {SOURCE}", WIDTH - 2 * PAD, 11, fill=svg.GREY)
    return svg.document(WIDTH, foot + LINE * lines - 4, chart.title, [*marks, *words])
