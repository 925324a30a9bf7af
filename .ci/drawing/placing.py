"""Where the boxes of the crates' graph stand. A line that goes from one row to one further up passes each row between as a narrow item of that row, so no line
runs through a box. First the order in each row, with few crossings; then the places, near to what each item is linked with."""
import dataclasses

from drawing import svg

PASS, GAP, ARROW, PIN = 4, 14, 20, 9


def width_of(name):
    return svg.width_of(name, 12) + 14


@dataclasses.dataclass(eq=False)
class Item:
    """A crate's box in its row, or where the line to a crate passes the row; x is its middle."""

    name: str
    row: int
    is_pass: bool
    x: float = 0.0

    @property
    def width(self):
        return PASS if self.is_pass else width_of(self.name)


@dataclasses.dataclass
class Table:
    """The rows of items from the bottom; who stands right of whom; by row, the items that are linked with ones in the row above, each link as the crate
    that its line leads to and the two items; and how wide the rows may be."""

    rows: list
    beside: dict
    links: list
    width: float

    def of(self, item, step):
        """The items that this one is linked with in the row above (1) or below (-1)."""
        if step == 1:
            return [upper for _, lower, upper in self.links[item.row] if lower is item]
        return [lower for _, lower, upper in self.links[item.row - 1] if upper is item] if item.row else []


def place(names, nets, beside, width):
    """The table with all items in their places, between 0 and the width, which grows where a row needs more."""
    rows = [[Item(name, row, False) for name in line] for row, line in enumerate(names)]
    table = Table(rows, beside, [[] for _ in rows], width)
    crates = {item.name: item for items in rows for item in items}
    spread(table)
    for name, users in nets.items():
        link(table, crates[name], [crates[it] for it in users])
    for _ in range(12):
        for items in rows:
            sort_row(table, items)
    table.width = max(width, *(needed(table, items) for items in rows))
    spread(table)
    for turn in range(60):
        for items in rows:
            settle(table, items)
        if turn >= 40:
            straighten(table)
    return table


def needed(table, items):
    """How wide a row is at the least."""
    return items[0].width / 2 + sum(room_between(table, left, right) for left, right in zip(items, items[1:])) + items[-1].width / 2


def spread(table):
    """Each row in its order, about the middle."""
    for items in table.rows:
        x = (table.width - sum(item.width + GAP for item in items)) / 2
        for item in items:
            item.x = x + item.width / 2
            x += item.width + GAP


def link(table, crate, users):
    """The line to a crate: its links from row to row, with an item in each row that it passes."""
    lower, top = crate, max(user.row for user in users)
    for row in range(crate.row, top):
        above = [user for user in users if user.row == row + 1]
        rest = [user for user in users if user.row > row + 1]
        if rest:
            goal = sum(user.x for user in rest) / len(rest)
            passing = Item(crate.name, row + 1, True, lower.x + (goal - lower.x) / (top - row))
            table.rows[row + 1].append(passing)
            table.rows[row + 1].sort(key=lambda item: item.x)
            above.append(passing)
        table.links[row] += [(crate.name, lower, upper) for upper in above]
        if rest:
            lower = passing


def may_swap(table, left, right):
    """Two crates of which one stands beside another crate keep their order."""
    chained = {*table.beside, *table.beside.values()}
    return left.is_pass or right.is_pass or not {left.name, right.name} & chained


def crossings(left, right):
    """How often lines from the one item cross those from the other, by the places of what they go to, where the left one stands left."""
    return sum(a > b for a in left for b in right)


def sort_row(table, items):
    """Neighbours change places where fewer lines cross then. A line that would cross the arrow between two crates side by side counts as a crossing."""
    order = [{id(item): place for place, item in enumerate(row)} for row in table.rows]

    def ends(item):
        return [(step, [order[other.row][id(other)] for other in table.of(item, step)]) for step in (1, -1)]

    def is_between(at):
        return 0 < at < len(items) - 1 and table.beside.get(items[at + 1].name) == items[at - 1].name

    for at in range(len(items) - 1):
        left, right = items[at], items[at + 1]
        if not may_swap(table, left, right):
            continue
        before = after = 0
        for (_, of_left), (_, of_right) in zip(ends(left), ends(right)):
            before += crossings(of_left, of_right)
            after += crossings(of_right, of_left)
        before += is_between(at) + is_between(at + 1)
        items[at], items[at + 1] = right, left
        after += is_between(at) + is_between(at + 1)
        if after >= before:
            items[at], items[at + 1] = left, right


def room_between(table, left, right):
    """How far apart the middles of two neighbours are at least."""
    gap = ARROW if table.beside.get(right.name) == left.name else GAP if not (left.is_pass or right.is_pass) else 8
    return (left.width + right.width) / 2 + gap


def wish(table, item):
    """Where an item would stand, and how much that weighs: near what it is linked with; a passing line straight on."""
    linked = table.of(item, 1) + table.of(item, -1)
    if item.is_pass:
        run = [other for row in table.rows for other in row if other.is_pass and other.name == item.name]
        straight = sum(other.x for other in run) / len(run)
        return (sum(other.x for other in linked) + 4 * straight) / (len(linked) + 4), 3.0
    beside = [other for other in table.rows[item.row] if other.name in (table.beside.get(item.name),) or table.beside.get(other.name) == item.name]
    places = [other.x for other in linked] + [other.x for other in beside if not other.is_pass] + [table.width / 2] * (not linked)
    return sum(places) / len(places), 1.0


def settle(table, items):
    """The items of a row as near to their wishes as their order and the room between them allow. Neighbours that would overlap stand together at their mean
    wish."""
    shift = [0.0]
    for left, right in zip(items, items[1:]):
        shift.append(shift[-1] + room_between(table, left, right))
    blocks = []
    for item, off in zip(items, shift):
        place, weight = wish(table, item)
        blocks.append([(place - off) * weight, weight, 1])
        while len(blocks) > 1 and blocks[-2][0] / blocks[-2][1] > blocks[-1][0] / blocks[-1][1]:
            last = blocks.pop()
            blocks[-1] = [a + b for a, b in zip(blocks[-1], last)]
    least, most = items[0].width / 2, table.width - items[-1].width / 2 - shift[-1]
    places = [min(max(total / weight, least), most) for total, weight, count in blocks for _ in range(count)]
    for item, place, off in zip(items, places, shift):
        item.x = place + off


def free(table, item):
    """From where to where an item's middle may go, its neighbours staying; for a box, from where to where a line may meet its edge."""
    if not item.is_pass:
        return item.x - item.width / 2 + PIN, item.x + item.width / 2 - PIN
    items = table.rows[item.row]
    at = items.index(item)
    least = items[at - 1].x + room_between(table, items[at - 1], item) if at else item.width / 2
    most = items[at + 1].x - room_between(table, item, items[at + 1]) if at + 1 < len(items) else table.width - item.width / 2
    return least, most


def straighten(table):
    """Each line goes straight through as many rows as it can, from its lower end on."""
    crates = {item.name: item for items in table.rows for item in items if not item.is_pass}
    passing = {}
    for items in table.rows:
        for item in items:
            if item.is_pass:
                passing.setdefault(item.name, []).append(item)
    for name, run in passing.items():
        part, least, most = [], 0.0, table.width
        for item in [crates[name], *run, *table.of(run[-1], 1)[:1]]:
            low, high = free(table, item)
            if part and max(least, low) > min(most, high) + 1e-6:
                line_up(part, least, most)
                part, least, most = [], 0.0, table.width
            part.append(item)
            least, most = max(least, low), min(most, high)
        line_up(part, least, most)


def line_up(part, least, most):
    """Puts the passing items of a straight part at one place."""
    moved = [item for item in part if item.is_pass]
    place = min(max(sum(item.x for item in part) / len(part), least), most)
    for item in moved:
        item.x = place
