"""The crates as a graph by floors: boxes in rows, bands for floors, and a line from each crate to the nearest ones that it stands on."""
import collections
import dataclasses

from drawing import placing, svg, wiring

TITLE = "The crates by floors: arrows lead from each crate to the nearest ones that it stands on"
LEFT, WIDTH, BOX, PAD, LINE = 128, 960, 24, 10, 16
BANDS = ("#f3f5f8", "#e8ecf2")
MOST_IN_ROW = 6
NOTE = "They stand on what they use or test, and nothing of the other floors stands on them; their lines are left out."


def floors_of(text):
    """The floors of crates.txt from the bottom, each with its title and crates; and what each crate names of these."""
    floors, names = [], {}
    for line in text.splitlines():
        if line.startswith("# "):
            floors.append((line[2:], []))
        elif ":" in line:
            head, named = line.split(":")
            floors[-1][1].append(head.split()[0])
            names[head.split()[0]] = named.split()
    return [floor for floor in floors if floor[1]], {name: [it for it in named if it in names] for name, named in names.items()}


def nearest(names):
    """Of what each crate names, that on which nothing else that it names stands."""
    below = {}
    for name, named in names.items():
        below[name] = set(named).union(*(below[it] for it in named))
    return {name: [it for it in named if not any(it in below[other] for other in named)] for name, named in names.items()}


def rows_of(crates, near):
    """The rows of a floor from the bottom, and who is right of whom. A crate stands right of the one that it stands on where no other crate of the floor
    stands on that, else above."""
    inside = {name: [it for it in near[name] if it in crates] for name in crates}
    users = collections.Counter(it for below in inside.values() for it in below)
    rows, row_of, beside = [], {}, {}
    for name in crates:
        below = inside[name]
        row = max((row_of[it] + 1 for it in below), default=0)
        if len(below) == 1 and users[below[0]] == 1 and rows[row - 1][-1] == below[0] and len(rows[row - 1]) < MOST_IN_ROW:
            row -= 1
            beside[name] = below[0]
        while row < len(rows) and len(rows[row]) >= MOST_IN_ROW:
            row += 1
        if row == len(rows):
            rows.append([])
        rows[row].append(name)
        row_of[name] = row
    return rows, beside


def box(name, x, y):
    """A crate's box, its middle at x and its top at y."""
    width = placing.width_of(name)
    return [
        svg.rect(x - width / 2, y, width, BOX, svg.PAPER, "#7d8794", 4),
        svg.text(x, y + 16.5, name, 12, "middle"),
    ]


def band(title, index, top, bottom, width):
    """A floor's band, with its title on the left."""
    lines = svg.wrapped(title, LEFT - 2 * PAD, 12)
    first = (top + bottom) / 2 - LINE * (len(lines) - 1) / 2 + 4
    words = [svg.text(PAD, first + LINE * k, it, 12, weight="bold", fill=svg.GREY) for k, it in enumerate(lines)]
    return [svg.rect(0, top, width, bottom - top, BANDS[index % 2]), *words]


def plain_band(title, index, crates, top, width):
    """A floor of crates without lines, its crates in rows as wide as there is room, and a note. Also where it ends."""
    rows, x = [[]], LEFT
    for name in crates:
        if x + placing.width_of(name) > width - PAD:
            rows.append([])
            x = LEFT
        rows[-1].append((name, x + placing.width_of(name) / 2))
        x += placing.width_of(name) + PAD
    foot = top + PAD + (BOX + PAD) * len(rows)
    note, lines = svg.paragraph(LEFT, foot + 11, NOTE, width - LEFT - PAD, 11, fill=svg.GREY)
    bottom = foot + LINE * lines + 4
    boxes = [mark for k, row in enumerate(rows) for name, x in row for mark in box(name, x, top + PAD + (BOX + PAD) * k)]
    return [*band(title, index, top, bottom, width), *boxes, *note], bottom


@dataclasses.dataclass
class Floors:
    """The floors with lines: their titles; the rows of all of them from the bottom, and the first and last row of each; who stands right of whom; and by
    crate who stands on it from a row above."""

    titles: list
    rows: list
    rows_of: list
    beside: dict
    nets: dict


def drawn_floors(floors, near):
    """The rows and lines of the floors."""
    drawn = Floors([], [], [], {}, {})
    for title, crates in floors:
        rows, beside = rows_of(crates, near)
        drawn.titles.append(title)
        drawn.rows_of.append((len(drawn.rows), len(drawn.rows) + len(rows) - 1))
        drawn.rows += rows
        drawn.beside |= beside
    for name in (name for row in drawn.rows for name in row):
        for it in near[name]:
            if not any(it in row for row in drawn.rows):
                raise ValueError(f"{name} stands on {it}, which is drawn without lines")
            if drawn.beside.get(name) != it:
                drawn.nets.setdefault(it, []).append(name)
    return drawn


def levels(channels, count, top):
    """The tops of the rows' boxes, where the highest row stands below `top`."""
    tops, y = [0.0] * count, top + PAD
    for row in range(count - 1, -1, -1):
        tops[row] = y
        y += BOX + (wiring.height_of(channels[row - 1]) if row else 0)
    return tops


def boxes_of(table, tops):
    """The boxes of the crates, over the lines."""
    return [mark for row, items in enumerate(table.rows) for item in items if not item.is_pass for mark in box(item.name, LEFT + item.x, tops[row])]


def picture(text):
    """The whole picture of what crates.txt says. Floors of tests have no lines and stand on top."""
    floors, names = floors_of(text)
    drawn = drawn_floors([floor for floor in floors if "tests" not in floor[0]], nearest(names))
    table = placing.place(drawn.rows, drawn.nets, drawn.beside, WIDTH - LEFT - PAD)
    channels, width = wiring.channels_of(table), LEFT + table.width + PAD
    marks, y = [svg.text(PAD, 22, TITLE, 14, weight="bold")], 34.0
    for index, (title, crates) in enumerate((floor for floor in floors if "tests" in floor[0]), len(drawn.titles)):
        more, y = plain_band(title, index, crates, y, width)
        marks += more
    tops = levels(channels, len(drawn.rows), y)
    bottom = tops[0] + BOX + PAD
    for index, (title, (first, last)) in enumerate(zip(drawn.titles, drawn.rows_of)):
        upper = tops[last] - PAD / 2 if last + 1 < len(drawn.rows) else y
        lower = tops[first - 1] - PAD / 2 if first else bottom
        marks += band(title, index, upper, lower, width)
    return svg.document(width, bottom, TITLE, [*marks, *wiring.lines(table, channels, tops, BOX, LEFT), *boxes_of(table, tops)])
