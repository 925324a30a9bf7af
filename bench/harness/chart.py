"""A bar chart of the speeds of engines, as SVG: a group of bars an engine, the fastest first, and a bar for each number of workers."""
import html

from harness import tables

WIDTH, MARGIN, LEFT, RIGHT = 880, 12, 210, 110
TOP, BAR, GAP, BOTTOM = 76, 16, 18, 46
OURS_SHADES = ("#f4b183", "#e07b39", "#a84300")
PEER_SHADES = ("#b7c9dd", "#6f94bd", "#2f5f94")
INK, FAINT = "#222222", "#d9d9d9"


def nice_step(most):
    """A round distance of marks, so that there are four to nine up to `most`."""
    step = 1.0
    while step * 10 <= most:
        step *= 10
    while most / step < 4:
        step /= 2 if most / step >= 2 else 5
    return step


def text(x, y, words, size=13, anchor="start", weight="normal"):
    return (
        f'<text x="{x:.1f}" y="{y:.1f}" font-size="{size}" text-anchor="{anchor}" font-weight="{weight}" fill="{INK}">'
        f"{html.escape(words)}</text>"
    )


def shade(engine, index, count):
    """The darker the more workers."""
    shades = OURS_SHADES if engine == tables.OURS else PEER_SHADES
    return shades[len(shades) - count + index]


def legend(workers):
    """What the shades say, in one line above the bars."""
    marks, x = [], LEFT
    for index, count in enumerate(workers):
        for engine in (tables.OURS, ""):
            marks.append(f'<rect x="{x}" y="48" width="12" height="12" fill="{shade(engine, index, len(workers))}"/>')
            x += 14
        marks.append(text(x + 4, 58, f"{count} worker{'s' if count > 1 else ''}", 12))
        x += 96
    marks.append(f'<line x1="{x}" y1="47" x2="{x}" y2="61" stroke="{INK}" stroke-width="2"/>')
    marks.append(text(x + 8, 58, "best round (bars: median)", 12))
    return marks


def axis(most, scale, bottom):
    """Marks of calls a second, with faint lines up through the bars."""
    marks, step = [], nice_step(most)
    for index in range(int(most / step) + 1):
        x = LEFT + index * step * scale
        marks.append(f'<line x1="{x:.1f}" y1="{TOP - 6}" x2="{x:.1f}" y2="{bottom}" stroke="{FAINT}"/>')
        marks.append(text(x, bottom + 16, tables.short(index * step) if index else "0", 11, "middle"))
    marks.append(text(LEFT, bottom + 34, "calls a second in the workers' phase", 12))
    return marks


def group(engine, title, workers, speeds, scale, y):
    """The bars of one engine."""
    middle = y + BAR * len(workers) / 2 + 4
    marks = [text(LEFT - 10, middle, title, 13, "end", "bold" if engine == tables.OURS else "normal")]
    for index, count in enumerate(workers):
        top = y + BAR * index
        speed = speeds.get((engine, count))
        if speed is None:
            marks.append(text(LEFT + 6, top + 12, "no result", 11))
            continue
        width, best = speed.median * scale, LEFT + speed.best * scale
        marks.append(f'<rect x="{LEFT}" y="{top}" width="{width:.1f}" height="{BAR - 2}" fill="{shade(engine, index, len(workers))}"/>')
        marks.append(f'<line x1="{best:.1f}" y1="{top}" x2="{best:.1f}" y2="{top + BAR - 2}" stroke="{INK}" stroke-width="2"/>')
        marks.append(text(best + 6, top + 12, tables.short(speed.median), 11))
    return marks


def bar_chart(part, speeds, titles, footnote):
    """The whole picture."""
    engines = tables.engines_by_speed(speeds)
    most = max(speed.best for speed in speeds.values())
    scale = (WIDTH - LEFT - RIGHT) / most
    pitch = BAR * len(part.workers) + GAP
    bottom = TOP + pitch * len(engines) - GAP + 6
    height = bottom + BOTTOM + 20
    marks = axis(most, scale, bottom)
    for index, engine in enumerate(engines):
        marks += group(engine, titles[engine], part.workers, speeds, scale, TOP + pitch * index)
    lines = [
        f'<svg xmlns="http://www.w3.org/2000/svg" width="{WIDTH}" height="{height}" viewBox="0 0 {WIDTH} {height}" font-family="sans-serif" role="img">',
        f"<title>{html.escape(part.title)}: calls a second</title>",
        f'<rect width="{WIDTH}" height="{height}" fill="#ffffff"/>',
        text(LEFT, 28, part.heading, 17, weight="bold"),
        *legend(part.workers),
        *marks,
        text(MARGIN, bottom + 54, footnote, 11),
        "</svg>",
    ]
    return "\n".join(lines) + "\n"
