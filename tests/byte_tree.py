"""The tree of a page file with byte keys under the calls of one worker: what each is answered, and the pages that it leaves.

Written from the documents, over the model of a node in `byte_nodes.py`, and from no answer of a program.
"""
from byte_files import file_of
from byte_nodes import HEADER, INNER, LEAF, WORDS, Node, key_text

# A node of which fewer words are free is split on the way to a full leaf: so many take the greatest pair.
GROWTH = 10


def child_of(node, key):
    """The child of an inner node that covers the key."""
    return max(pair for pair in node.pairs if pair[0] <= key)[1]


class Tree:
    """A tree: the number of the file's pages, the root's page and height, the nodes by their pages, which are the first ones, and the pages that were changed."""

    def __init__(self, count):
        """The empty tree in a file of so many pages."""
        self.count, self.root, self.height, self.nodes, self.changed = count, 1, 0, {1: Node(LEAF, 0, b"", None, [])}, set()

    def used(self):
        """How many pages are used: page 0 and the nodes."""
        return 1 + len(self.nodes)

    def data(self):
        """The bytes of the file."""
        return file_of(self.count, self.root, self.height, self.nodes)

    def rows(self):
        """The pairs by rising key."""
        return sorted(pair for node in self.nodes.values() if node.level == 0 for pair in node.pairs)

    def way(self, key):
        """The pages from the root to the leaf that covers the key."""
        pages = [self.root]
        while self.nodes[pages[-1]].level:
            pages.append(child_of(self.nodes[pages[-1]], key))
        return pages

    def leaf(self, key):
        """The leaf that covers the key."""
        return self.nodes[self.way(key)[-1]]

    def split(self, way):
        """Splits the first full node of the way; False where the pages don't suffice."""
        at = next(i for i, page in enumerate(way) if HEADER + self.nodes[page].size() > WORDS - GROWTH)
        page, right, top = way[at], self.used(), self.used() + 1
        if (right if at else top) >= self.count:
            return False
        separator, low, high = self.nodes[page].halves()
        self.nodes[page], self.nodes[right] = low, high
        if at:
            self.nodes[way[at - 1]] = self.nodes[way[at - 1]].put(separator, right)
            self.changed |= {page, right, way[at - 1]}
        else:
            self.root, self.height = top, self.height + 1
            self.nodes[top] = Node(INNER, self.height, b"", None, [(b"", page), (separator, right)])
            self.changed |= {page, right, top, 0}
        return True

    def get(self, key):
        """The reply to a get."""
        found = dict(self.leaf(key).pairs).get(key)
        return "none" if found is None else f"some {found}"

    def put(self, key, value):
        """Puts a pair, and gives the reply."""
        while True:
            way = self.way(key)
            old, after = dict(self.nodes[way[-1]].pairs).get(key), self.nodes[way[-1]].put(key, value)
            if after.fits():
                self.nodes[way[-1]] = after
                self.changed.add(way[-1])
                return "new" if old is None else f"was {old}"
            if not self.split(way):
                return "full"

    def delete(self, key):
        """Takes a pair out, and gives the reply. A leaf stays, though it has no pair left."""
        page = self.way(key)[-1]
        leaf = self.nodes[page]
        old = dict(leaf.pairs).get(key)
        if old is not None:
            leaf.pairs = [pair for pair in leaf.pairs if pair[0] != key]
            self.changed.add(page)
        return "none" if old is None else f"gone {old}"

    def scan(self, key, most):
        """The reply to a scan: of the leaf that covers the key, so many pairs at most, and the key below which these are all."""
        leaf = self.leaf(key)
        pairs = [pair for pair in leaf.pairs if pair[0] >= key]
        bound = pairs[most][0] if len(pairs) > most else leaf.high
        return " ".join(["window", key_text(key), "end" if bound is None else key_text(bound)] + [f"{key_text(k)}={v}" for k, v in pairs[:most]])

    def reply(self, call, key, *rest):
        """Makes a call, and gives the reply."""
        return {"get": self.get, "put": self.put, "del": self.delete, "scan": self.scan}[call](key, *rest)
