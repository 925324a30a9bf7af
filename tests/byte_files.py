"""Page files with byte keys: their bytes, what `check` says of any bytes, and random trees.

Written from the definitions of the walk (crates/vm_tree_model/specs/Walk.antt and Reason.antt) and of nodes with byte keys (crates/vm_bytes_form/specs), and from no
answer of a program.
"""
import struct

from byte_nodes import INNER, LEAF, SHAPES, WORDS, Node, bytes_of, key_text, node_in, random_key

# The bytes of a page, the pages of a file at most, its first word, and the greatest word
PAGE, PAGES, MAGIC, LAST = 8 * WORDS, 8192, int.from_bytes(b"VMCBYTE1", "big"), 2**64 - 1


def row_lines(rows):
    """The lines of these pairs."""
    return [f"row {key_text(key)} {value}\n" for key, value in rows]


def told(rows, height, used):
    """What `check` says of a tree with these pairs."""
    return "".join(row_lines(rows)) + f"tree height {height} used {used} rows {len(rows)}\n"


def refused(page, why):
    """What `check` says of a page at fault."""
    return f"image page {page} why {why}\n"


def file_of(count, root, height, nodes, edits=()):
    """The bytes of a file of so many pages: page 0, the nodes by their numbers, zeros; each edit is of a page, the place of a word and the new word."""
    data = bytearray(PAGE * count)
    data[:PAGE] = bytes_of([MAGIC, root, height] + [0] * (WORDS - 3))
    for number, node in nodes.items():
        data[PAGE * number : PAGE * (number + 1)] = bytes_of(node.words())
    for number, place, word in edits:
        struct.pack_into(">Q", data, PAGE * number + 8 * place, word)
    return bytes(data)


def why_not(page, count, visited, level, low, high):
    """The first reason why a page's bytes are not the node of this place, in a file of so many pages; None where they are."""
    node = node_in(page)
    keys = [key for key, _ in node.pairs]
    if visited:
        return 3
    if node.tag != (INNER if level else LEAF):
        return 4
    if (node.low, node.high) != (low, high):
        return 5
    if not node.fits() or page != bytes_of(node.words()) or node.level != level or (level and not keys):
        return 6
    rising = all(key < after for key, after in zip(keys, keys[1:]))
    inside = all(low <= key and (high is None or key < high) for key in keys)
    if not rising or not inside or (level and keys[0] != low):
        return 7
    if level and not all(0 < child < count for _, child in node.pairs):
        return 8
    return None


def checked(data):
    """What `check` says of these bytes; None where they begin as a page file of words as keys."""
    if data[:8] in (b"VMCACHE1", b"VMCACHE2"):
        return None
    known = data[:8] == b"VMCBYTE1"
    count, rest = divmod(len(data), PAGE if known else 512)
    if rest or not 2 <= count <= (PAGES if known else 65536):
        return f"image length {min(len(data), PAGE * PAGES + 1)}\n"
    if not known:
        return refused(0, 1)
    _, root, height, *others = struct.unpack(f">{WORDS}Q", data[:PAGE])
    if not 0 < root < count or height > count - 2 or any(others):
        return refused(0, 2)
    places, visited, rows = [(root, height, b"", None)], set(), []
    while places:
        number, level, low, high = places.pop()
        page = data[PAGE * number : PAGE * (number + 1)]
        why = why_not(page, count, number in visited, level, low, high)
        if why:
            return refused(number, why)
        visited.add(number)
        pairs = node_in(page).pairs
        if level == 0:
            rows += pairs
        else:
            ends = [key for key, _ in pairs[1:]] + [high]
            places += [(child, level - 1, key, end) for (key, child), end in reversed(list(zip(pairs, ends)))]
    for number in range(1, count):
        if number not in visited and any(data[PAGE * number : PAGE * (number + 1)]):
            return refused(number, 9)
    return told(rows, height, len(visited) + 1)


def nodes_over(rnd, level, items, often):
    """The nodes of a level over these items, cut so often at random and where one more does not fit. An item without a value is a fence at most."""
    nodes = [Node(INNER if level else LEAF, level, b"", None, [])]
    for number, (key, value) in enumerate(items):
        pairs = [] if value is None else [(key, value)]
        after = items[number + 1][0] if number + 1 < len(items) else b""
        grown = Node(0, 0, nodes[-1].low, after, nodes[-1].pairs + pairs)
        if number and (rnd.random() < often or not grown.fits()):
            nodes[-1].high = key
            nodes.append(Node(INNER if level else LEAF, level, key, None, []))
        nodes[-1].pairs += pairs
    return nodes


def random_tree(rnd, height):
    """A random tree at least so high, on pages in any order with free ones between: the file's bytes, the numbers of its nodes, and what `check` says of it."""
    shape, often = rnd.choice(SHAPES), rnd.choice((0, 0.1, 0.3)) if height else 0
    keys = {random_key(rnd, shape) for _ in range(rnd.choice((30, 100, 300) if height else (0, 1, 2, 5, 30)))}
    items = [(key, None if rnd.random() < 0.2 else rnd.choice((0, LAST, rnd.randrange(2**64)))) for key in sorted(keys)]
    rows = [item for item in items if item[1] is not None]
    level, nodes = 0, nodes_over(rnd, 0, items, often)
    placed = list(nodes)
    while len(nodes) > 1 or level < height:
        level += 1
        items = [(node.low, len(placed) - len(nodes) + number) for number, node in enumerate(nodes)]
        nodes = nodes_over(rnd, level, items, often if level < height else 0)
        placed += nodes
    count = len(placed) + 1 + rnd.choice((0, 1, 5))
    numbers = rnd.sample(range(1, count), len(placed))
    for node in placed:
        if node.level:
            node.pairs = [(key, numbers[child]) for key, child in node.pairs]
    data = file_of(count + rnd.choice((0, 2)), numbers[-1], level, dict(zip(numbers, placed)))
    return data, numbers, told(rows, level, len(placed) + 1)
