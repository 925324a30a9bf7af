"""The elements of an SVG file, as text: sans-serif words, boxes, lines, heads of arrows. The same input gives the same bytes."""
import html

INK, GREY, FAINT, PAPER = "#222222", "#5b6470", "#d5d9df", "#ffffff"
# The width of a letter by the size of its font, in a wide font: in names, and in sentences.
LETTER, IN_SENTENCES = 0.61, 0.57


def rounded(value):
    """A length in tenths. What is half a tenth goes up, also where the sum that gave it is a little less."""
    return round(value + 1e-6, 1)


def short(value):
    """A length with one digit behind the point, if any."""
    return f"{rounded(value):.1f}".removesuffix(".0")


def width_of(words, size):
    """How wide the words are at most, about."""
    return LETTER * size * len(words)


def text(x, y, words, size=12, anchor="start", weight="normal", fill=INK):
    more = f' text-anchor="{anchor}"' if anchor != "start" else ""
    more += f' font-weight="{weight}"' if weight != "normal" else ""
    return f'<text x="{short(x)}" y="{short(y)}" font-size="{size}" fill="{fill}"{more}>{html.escape(words, quote=False)}</text>'


def rect(x, y, width, height, fill, stroke="none", radius=0):
    more = f' rx="{radius}"' if radius else ""
    return f'<rect x="{short(x)}" y="{short(y)}" width="{short(width)}" height="{short(height)}" fill="{fill}" stroke="{stroke}"{more}/>'


def line(x1, y1, x2, y2, stroke, width=1.0, dash=""):
    more = f' stroke-dasharray="{dash}"' if dash else ""
    return f'<line x1="{short(x1)}" y1="{short(y1)}" x2="{short(x2)}" y2="{short(y2)}" stroke="{stroke}" stroke-width="{short(width)}"{more}/>'


def dot(x, y, radius, fill):
    return f'<circle cx="{short(x)}" cy="{short(y)}" r="{short(radius)}" fill="{fill}"/>'


def head(x, y, towards, fill, length=7, half=3.2):
    """The head of an arrow whose point is here; it points up, down, left or right."""
    dx, dy = {"up": (0, 1), "down": (0, -1), "left": (1, 0), "right": (-1, 0)}[towards]
    corners = [(x, y), (x + length * dx + half * dy, y + length * dy + half * dx), (x + length * dx - half * dy, y + length * dy - half * dx)]
    return f'<polygon points="{" ".join(f"{short(a)},{short(b)}" for a, b in corners)}" fill="{fill}"/>'


def wrapped(words, width, size):
    """The words in lines that are no wider."""
    lines = [""]
    for word in words.split():
        longer = f"{lines[-1]} {word}".strip()
        if lines[-1] and IN_SENTENCES * size * len(longer) > width:
            lines.append(word)
        else:
            lines[-1] = longer
    return lines


def paragraph(x, y, words, width, size=12, weight="normal", fill=INK, anchor="start"):
    """The words in lines one below another, the first one's foot at y; and how many lines they are."""
    lines = wrapped(words, width, size)
    return [text(x, y + 1.3 * size * k, it, size, anchor, weight, fill) for k, it in enumerate(lines)], len(lines)


def document(width, height, title, marks):
    """The whole file."""
    size = f'width="{short(width)}" height="{short(height)}" viewBox="0 0 {short(width)} {short(height)}"'
    start = f'<svg xmlns="http://www.w3.org/2000/svg" {size} font-family="sans-serif" role="img">'
    return "\n".join([start, f"<title>{html.escape(title, quote=False)}</title>", rect(0, 0, width, height, PAPER), *marks, "</svg>"]) + "\n"
