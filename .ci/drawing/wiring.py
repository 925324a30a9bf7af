"""How the lines of the crates' graph run between two rows: up from a crate, along a track, and up to the crates that stand on it. The tracks are so chosen
that lines to two crates do not lie on one another, where that can be had, and that few cross."""
import dataclasses

from drawing import svg
from drawing.placing import PIN

TRACK, FOOT, HEAD, NEAR = 7, 12, 9, 3
COLOURS = ("#1f6f8b", "#a3541a", "#4b6b2f", "#7a3b83", "#96303d", "#2f4f9e", "#6b5a1e", "#3c6e63")


@dataclasses.dataclass(eq=False)
class Wire:
    """The line to a crate in one channel: where it comes from below, and where it goes to above."""

    name: str
    low: float
    high: list
    starts: bool
    track: int = 0

    @property
    def span(self):
        return min(self.low, *self.high), max(self.low, *self.high)

    @property
    def is_straight(self):
        return self.span[1] - self.span[0] < 0.5


def channels_of(table):
    """The wires between each row and the one above it, with their tracks."""
    return [with_tracks(wires_of(table, row)) for row in range(len(table.rows) - 1)]


def within(item, x):
    """The place on a box's edge that is nearest to x."""
    room = 0 if item.is_pass else item.width / 2 - PIN
    return min(max(x, item.x - room), item.x + room)


def wires_of(table, row):
    """The wires of a channel. Where a line can go straight up it does."""
    groups = {}
    for name, lower, upper in table.links[row]:
        groups.setdefault(name, (lower, []))[1].append(upper)
    lows = {name: within(lower, sum(it.x for it in uppers) / len(uppers)) for name, (lower, uppers) in groups.items()}
    pins = {}
    for upper in table.rows[row + 1]:
        names = [name for name, (_, uppers) in groups.items() if upper in uppers]
        pins |= pins_of(upper, sorted(names, key=lambda name: (lows[name], name)), lows)
    return [
        Wire(name, svg.rounded(lows[name]), [svg.rounded(pins[name, id(upper)]) for upper in uppers], not lower.is_pass)
        for name, (lower, uppers) in sorted(groups.items(), key=lambda it: lows[it[0]])
    ]


def pins_of(upper, names, lows):
    """Where on the lower edge of a box the lines arrive, from left to right."""
    room = 0 if upper.is_pass else upper.width / 2 - PIN
    step = min(PIN, 2 * room / max(1, len(names) - 1))
    places = []
    for at, name in enumerate(names):
        least = places[-1] + step if places else upper.x - room
        most = upper.x + room - step * (len(names) - 1 - at)
        place = min(max(lows[name], least), most)
        places.append(lows[name] if not upper.is_pass and abs(place - lows[name]) < NEAR else place)
    return {(name, id(upper)): place for name, place in zip(names, places)}


def price(below, above):
    """What it costs that one wire runs below another: crossings, and much where the two would lie on one another."""
    least, most = above.span
    cost = sum(least < x < most for x in below.high)
    least, most = below.span
    cost += least < above.low < most
    return cost + 1000 * sum(abs(x - above.low) < 4 for x in below.high)


def with_tracks(wires):
    """The wires with tracks, the lowest is 0: from one track for each, they change and share tracks while that costs less."""
    bent = [wire for wire in wires if not wire.is_straight]
    prices = {(a, b): price(a, b) for a in bent for b in bent}

    def together(a, b):
        """What a wire's track costs beside another one's."""
        if a.track == b.track:
            return 1000 if a.span[0] - 6 < b.span[1] and b.span[0] - 6 < a.span[1] else prices[a, b] // 1000 + prices[b, a] // 1000
        return prices[a, b] if a.track < b.track else prices[b, a]

    def cost():
        return sum(together(a, b) for k, a in enumerate(bent) for b in bent[:k]) + 0.01 * sum(wire.track for wire in bent)

    for track, wire in enumerate(bent):
        wire.track = track
    best = cost()
    for _ in range(len(bent)):
        before = best
        for wire in bent:
            best = moved(wire, bent, cost, best)
        if best == before:
            break
    used = sorted({wire.track for wire in bent})
    for wire in bent:
        wire.track = used.index(wire.track)
    return wires


def moved(wire, bent, cost, best):
    """Tries each track for the wire, also in exchange with a wire that has it. Gives the least cost, and leaves it there."""
    for track in range(len(bent)):
        for other in [None, *(it for it in bent if it.track == track and it is not wire)]:
            own = wire.track
            wire.track = track
            if other:
                other.track = own
            found = cost()
            if found < best:
                best = found
            else:
                wire.track = own
                if other:
                    other.track = track
    return best


def height_of(wires):
    """How high a channel is."""
    return FOOT + HEAD + TRACK * max((wire.track for wire in wires if not wire.is_straight), default=0)


def lines(table, channels, tops, box, left):
    """All lines, each with the colour of the crate that it leads to."""
    names = [item.name for row in table.rows for item in row if not item.is_pass]
    colour = {name: COLOURS[k % len(COLOURS)] for k, name in enumerate(names)}
    marks = []
    for row, items in enumerate(table.rows):
        marks += [svg.line(left + it.x, tops[row], left + it.x, tops[row] + box, colour[it.name], 1.2) for it in items if it.is_pass]
        by_name = {it.name: it for it in items if not it.is_pass}
        for name, other in table.beside.items():
            if name in by_name:
                marks += arrow_beside(by_name[other], by_name[name], tops[row] + box / 2, colour[other], left)
    for row, wires in enumerate(channels):
        for wire in wires:
            marks += wire_marks(wire, tops[row], tops[row + 1] + box, colour[wire.name], left)
    return marks


def arrow_beside(lower, upper, y, colour, left):
    """From a crate to the one on its left."""
    start, end = left + upper.x - upper.width / 2, left + lower.x + lower.width / 2
    return [svg.line(end + 4, y, start, y, colour, 1.2), svg.head(end, y, "left", colour)]


def wire_marks(wire, low, high, colour, left):
    """One wire from its lower end at `low` to its upper ends at `high`; a dot where it parts."""
    marks = [svg.head(left + wire.low, low, "down", colour)] if wire.starts else []
    start = low - 4 if wire.starts else low
    if wire.is_straight:
        return [*marks, svg.line(left + wire.low, start, left + wire.low, high, colour, 1.2)]
    y = low - FOOT - TRACK * wire.track
    least, most = wire.span
    marks += [svg.line(left + wire.low, start, left + wire.low, y, colour, 1.2), svg.line(left + least - 0.6, y, left + most + 0.6, y, colour, 1.2)]
    marks += [svg.line(left + x, y, left + x, high, colour, 1.2) for x in wire.high]
    parts = [x for x in (wire.low, *wire.high) if least < x < most or (x == wire.low and x in wire.high)]
    return [*marks, *(svg.dot(left + x, y, 2.2, colour) for x in parts if len(wire.high) > 1)]
