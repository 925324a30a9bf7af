"""Page files, the checker, the builder, and the calls of one worker on a tree.

A page is a list of 64 numbers, or of 512, a page file a list of pages of one size. Written from docs/ and the READMEs of the crates, and from no answer of the program.
"""

import bisect
import itertools
from dataclasses import dataclass, replace

SMALL, LARGE = 64, 512
MAGIC = {SMALL: 0x564D434143484531, LARGE: 0x564D434143484532}
# how many pages a file has at most, how many pairs a node, and how many a node that is built
PAGES, MOST, BUILT = {SMALL: 65536, LARGE: 8192}, {SMALL: 28, LARGE: 252}, {SMALL: 20, LARGE: 180}
LEAF, INNER = 2, 3
TOP, LAST = 2**64, 2**56 - 1
# how many pairs a leaf keeps at most that becomes one with its neighbour, and how many both have then
SPARSE, JOINED = {SMALL: 7, LARGE: 63}, {SMALL: 20, LARGE: 180}
# how many leaves a range may have
LEAVES = 16
# how many page numbers a free-number word has
BITS = 64


def blank(size):
    return [0] * size


def spell(pages):
    """The bytes of a page file."""
    return b"".join(word.to_bytes(8, "big") for page in pages for word in page)


def read(data):
    """The pages that the bytes spell, whose size the first eight tell, or None where the length is no page file's."""
    size = LARGE if data[:8] == b"VMCACHE2" else SMALL
    count = len(data) // (8 * size)
    if len(data) % (8 * size) or not 2 <= count <= PAGES[size]:
        return None
    words = [int.from_bytes(data[i : i + 8], "big") for i in range(0, len(data), 8)]
    return [words[size * p : size * (p + 1)] for p in range(count)]


@dataclass
class Node:
    level: int
    low: int
    high: int | None
    pairs: list  # of key and value, or of a child's lowest key and its page

    def page(self, size):
        words = [LEAF if self.level == 0 else INNER, len(self.pairs), self.low, self.high or 0, int(self.high is None), self.level, 0, 0]
        for key, value in self.pairs:
            words += [key, value]
        return words + [0] * (size - len(words))

    def place(self, key):
        """The place of the child that covers the key."""
        return bisect.bisect_right(self.pairs, key, key=lambda pair: pair[0]) - 1


def node_of(page):
    high = None if page[4] == 1 else page[3]
    return Node(page[5], page[2], high, [(page[8 + 2 * i], page[9 + 2 * i]) for i in range(page[1])])


def meta(size, root, height):
    return [MAGIC[size], root, height] + [0] * (size - 3)


def fault_of(pages, pid, level, low, high, seen):
    """Why the page can't be the node of this level and these fences, by the first reason of the nine; None where it can."""
    page = pages[pid]
    if pid in seen:
        return 3
    if page[0] != (LEAF if level == 0 else INNER):
        return 4
    if page[2:5] != [low, high or 0, int(high is None)]:
        return 5
    count = page[1]
    if count > MOST[len(page)] or (level > 0 and count == 0) or page[5] != level or page[6] or page[7] or any(page[8 + 2 * count :]):
        return 6
    keys = [page[8 + 2 * i] for i in range(count)]
    rises = all(a < b for a, b in zip(keys, keys[1:]))
    inside = all(low <= k and (high is None or k < high) for k in keys)
    if not rises or not inside or (level > 0 and keys[0] != low):
        return 7
    if level > 0 and not all(1 <= page[9 + 2 * i] < len(pages) for i in range(count)):
        return 8
    return None


def check(pages):
    """The rows, the height and the number of used pages; or the page and the reason of the first fault on the walk."""
    if pages[0][0] != MAGIC[len(pages[0])]:
        return ("bad", 0, 1)
    root, height = pages[0][1], pages[0][2]
    if not 1 <= root < len(pages) or height > len(pages) - 2 or any(pages[0][3:]):
        return ("bad", 0, 2)
    rows, seen, todo = [], set(), [(root, height, 0, None)]
    while todo:
        pid, level, low, high = todo.pop()
        why = fault_of(pages, pid, level, low, high, seen)
        if why:
            return ("bad", pid, why)
        seen.add(pid)
        node = node_of(pages[pid])
        if level == 0:
            rows += node.pairs
            continue
        ends = [key for key, _ in node.pairs[1:]] + [high]
        todo += [(child, level - 1, key, end) for (key, child), end in reversed(list(zip(node.pairs, ends)))]
    for pid in range(1, len(pages)):
        if pid not in seen and any(pages[pid]):
            return ("bad", pid, 9)
    return ("tree", rows, height, sum(any(page) for page in pages))


def numbers(seed, count):
    """The numbers that follow from a seed."""
    found, x = [], seed
    for _ in range(count):
        found.append(x)
        x = (6364136223846793005 * x + 1442695040888963407) % TOP
    return found


def needed(count, size=SMALL):
    """How many pages of this size the builder needs."""
    level = max(1, -(-count // BUILT[size]))
    pages = 1 + level
    while level > 1:
        level = -(-level // BUILT[size])
        pages += level
    return pages


def build(count, pairs, size=SMALL):
    """The page file that the builder makes of the pairs, of this many pages of this size; there must be enough."""
    pages = [blank(size) for _ in range(count)]
    items, level, free, each = sorted(pairs), 0, 1, BUILT[size]
    while True:
        groups = [items[i : i + each] for i in range(0, len(items), each)] or [[]]
        lows = [0] + [group[0][0] for group in groups[1:]]
        highs = lows[1:] + [None]
        if level:
            groups[0][0] = (0, groups[0][0][1])
        for group, low, high in zip(groups, lows, highs):
            pages[free] = Node(level, low, high, group).page(size)
            free += 1
        if len(groups) == 1:
            pages[0] = meta(size, free - 1, level)
            return pages
        items, level = list(zip(lows, range(free - len(groups), free))), level + 1


class Fault(Exception):
    """A call without a reply, with what is printed for it."""

    def __init__(self, text):
        super().__init__(text)
        self.text = text


class Store:
    """The pages under one worker, where every page finds a frame: versions, the calls on each page's device, and what was changed; the page numbers that are
    free, and those of worn pages, which stay out of use."""

    def __init__(self, pages, plan=(), version=0):
        self.pages = [list(page) for page in pages]
        self.size = len(pages[0])
        self.versions = [version] * len(pages)
        self.plan, self.calls = set(plan), [0] * len(pages)
        self.resident, self.dirty, self.locked = set(), set(), set()
        self.reads = self.faults = 0
        self.known = {}  # what the pages are as nodes, since each was written last
        used = [p for p, page in enumerate(pages) if any(page)]
        self.next = used[-1] + 1 if used else 0
        self.free = {p for p in range(1, self.next) if not any(pages[p])}
        self.unused = set()
        self.splits = self.merges = self.reused = 0

    def device(self, pid):
        self.calls[pid] += 1
        if (pid, self.calls[pid]) in self.plan:
            self.faults += 1
            return False
        return True

    def raise_version(self, pid):
        if self.versions[pid] == LAST:
            raise Fault(f"worn {pid}")
        self.versions[pid] += 1

    def bring(self, pid):
        if pid in self.resident:
            return
        self.raise_version(pid)
        if not self.device(pid):
            raise Fault(f"fault {pid}")
        self.reads += 1
        self.resident.add(pid)

    def node(self, pid):
        """The node of a page, which is brought; it is not to be changed."""
        self.bring(pid)
        if pid not in self.known:
            self.known[pid] = node_of(self.pages[pid])
        return self.known[pid]

    def write(self, pid, page):
        self.known.pop(pid, None)
        if self.pages[pid] != page:
            self.dirty.add(pid)
        self.locked.add(pid)
        self.pages[pid] = page

    def way(self, key):
        """The pages from the root to the leaf that covers the key."""
        self.bring(0)
        pids, pid = [], self.pages[0][1]
        while True:
            pids.append(pid)
            node = self.node(pid)
            if node.level == 0:
                return pids
            pid = node.pairs[node.place(key)][1]

    def free_numbers(self, n):
        """The n lowest free page numbers of the first free-number word that has as many; None where none has."""
        for _, word in itertools.groupby(sorted(self.free), lambda p: p // BITS):
            numbers = list(word)
            if len(numbers) >= n:
                return numbers[:n]
        return None

    def fresh(self, above, n):
        """n pages for a split, once both pages above them are locked: those whose numbers are free, or else the next ones. Where there are neither the call is
        `full`, and no version was raised."""
        found = self.free_numbers(n)
        if found is None and self.next + n > len(self.pages):
            raise Fault("full")
        # the pages are locked in this order, and those before a worn one are released again
        for page in above:
            self.raise_version(page)
        numbers = found or range(self.next, self.next + n)
        for page in numbers:
            try:
                self.raise_version(page)
            except Fault:
                if found:
                    # the number of a worn page is not given back
                    self.free.remove(page)
                    self.unused.add(page)
                raise
        if found:
            self.free -= set(found)
            self.reused += n
        else:
            self.next += n
        self.resident |= set(numbers)
        return list(numbers)

    def split(self, way):
        """Splits the first full node of the way."""
        at = next(i for i, pid in enumerate(way) if len(self.node(pid).pairs) == MOST[self.size])
        pid, root = way[at], at == 0
        node, half = self.node(pid), MOST[self.size] // 2
        key = node.pairs[half][0]
        halves = Node(node.level, node.low, key, node.pairs[:half]), Node(node.level, key, node.high, node.pairs[half:])
        right, *top = self.fresh([0 if root else way[at - 1], pid], 2 if root else 1)
        self.splits += 1
        self.write(pid, halves[0].page(self.size))
        self.write(right, halves[1].page(self.size))
        if root:
            self.write(top[0], Node(node.level + 1, 0, None, [(0, pid), (key, right)]).page(self.size))
            self.write(0, meta(self.size, top[0], node.level + 1))
        else:
            parent = self.node(way[at - 1])
            self.write(way[at - 1], replace(parent, pairs=sorted(parent.pairs + [(key, right)])).page(self.size))

    def merge(self, way, rest):
        """Makes one leaf of the last one of the way, which keeps this of its pairs, and its neighbour, where the conditions for that hold. Says whether it did."""
        if len(way) == 1 or len(rest.pairs) > SPARSE[self.size]:
            return False
        up, pid = way[-2:]
        parent = self.node(up)
        # a page at the last version is not locked; the leaf's own is told by the del
        if len(parent.pairs) == 1 or LAST in (self.versions[pid], self.versions[up]):
            return False
        at = next(i for i, (_, child) in enumerate(parent.pairs) if child == pid)
        behind = at + 1 < len(parent.pairs)
        beside = parent.pairs[at + 1 if behind else at - 1][1]
        other = self.node(beside)
        # the root goes with its last two leaves
        last = len(way) == 2 and len(parent.pairs) == 2
        (one, left), (two, right) = [(pid, rest), (beside, other)] if behind else [(beside, other), (pid, rest)]
        locks = ([0] if last else []) + [up, one, two]
        if len(left.pairs) + len(right.pairs) > JOINED[self.size] or any(self.versions[page] == LAST for page in locks):
            return False
        for page in locks:
            self.raise_version(page)
        self.merges += 1
        self.write(one, Node(0, left.low, right.high, left.pairs + right.pairs).page(self.size))
        if last:
            self.write(0, meta(self.size, one, 0))
        else:
            self.write(up, replace(parent, pairs=[pair for pair in parent.pairs if pair[1] != two]).page(self.size))
        for page in [up, two] if last else [two]:
            self.write(page, blank(self.size))
            self.free.add(page)
        return True

    def get(self, key):
        return dict(self.node(self.way(key)[-1]).pairs).get(key)

    def put(self, key, value):
        while True:
            way = self.way(key)
            leaf = self.node(way[-1])
            pairs = dict(leaf.pairs)
            if key in pairs or len(pairs) < MOST[self.size]:
                break
            self.split(way)
        self.raise_version(way[-1])
        old = pairs.get(key)
        self.write(way[-1], replace(leaf, pairs=sorted({**pairs, key: value}.items())).page(self.size))
        return old

    def delete(self, key):
        way = self.way(key)
        leaf = self.node(way[-1])
        old = dict(leaf.pairs).get(key)
        if old is not None:
            rest = replace(leaf, pairs=[pair for pair in leaf.pairs if pair[0] != key])
            if not self.merge(way, rest):
                self.raise_version(way[-1])
                self.write(way[-1], rest.page(self.size))
        return old

    def swap(self, key, want, value):
        """The value that the key had. The leaf is locked where it is the one that is wanted, also where the new value is the same."""
        pid = self.way(key)[-1]
        leaf = self.node(pid)
        old = dict(leaf.pairs).get(key)
        if old is not None and old == want:
            self.raise_version(pid)
            self.write(pid, replace(leaf, pairs=[(k, value if k == key else v) for k, v in leaf.pairs]).page(self.size))
        return old

    def window(self, start, most):
        leaf = self.node(self.way(start)[-1])
        pairs = [pair for pair in leaf.pairs if pair[0] >= start]
        bound = pairs[most][0] if len(pairs) > most else leaf.high
        return bound, pairs[:most]

    def range(self, low, bound):
        """All pairs from a key on and below a bound (None: to the last), and None; or None, and the key that as many leaves reach as may be held, where that is below the bound."""
        pairs, start = [], low
        for _ in range(LEAVES):
            leaf = self.node(self.way(start)[-1])
            pairs += [pair for pair in leaf.pairs if low <= pair[0] and (bound is None or pair[0] < bound)]
            if leaf.high is None or (bound is not None and bound <= leaf.high):
                return pairs, None
            start = leaf.high
        return None, start

    def flush(self):
        """The pages whose write failed, each written page's device called once."""
        return [pid for pid in sorted(self.locked) if not self.device(pid)]
