"""Nodes with byte keys, and their words; what any words are read as.

Written from the format of a node, as `crates/vm_bytes_node/src/lib.rt` has it, and from no answer of a program.
"""
import struct

WORDS, HEADER, MOST = 512, 8, 64
LEAF, INNER = 4, 5
SHAPES = ("short", "long", "any", "zeros")


def words_of(key):
    """The words of a key: eight bytes each, the greatest first, with zeros behind the end."""
    padded = key + bytes(-len(key) % 8)
    return [int.from_bytes(padded[i : i + 8], "big") for i in range(0, len(padded), 8)]


def pair_size(key):
    """What a pair takes of a node's room."""
    return 2 + len(words_of(key))


def key_text(key):
    """A key as programs tell it."""
    return key.hex() or "-"


def random_key(rnd, shape):
    """A key: short ones, long ones, any, or such that differ in their zeros behind alone."""
    most = {"short": 3, "long": MOST, "any": MOST, "zeros": 12}[shape]
    length = rnd.randint(56, MOST) if shape == "long" else rnd.randint(0, most)
    if shape == "zeros":
        return bytes(rnd.choice((0, 0, 0, 1)) for _ in range(length))
    return bytes(rnd.choice((0, 1, 127, 128, 255, rnd.randrange(256))) for _ in range(length))


class Node:
    """A node: tag, level, fences (no high one is None) and pairs by rising key."""

    def __init__(self, tag, level, low, high, pairs):
        """A node of these; whether it fits is asked later."""
        self.tag, self.level, self.low, self.high, self.pairs = tag, level, low, high, pairs

    def size(self):
        """What fences and pairs take of the room of 504 words."""
        fences = len(words_of(self.low)) + len(words_of(self.high or b""))
        return fences + sum(pair_size(key) for key, _ in self.pairs)

    def fits(self):
        """Whether a page has room for it."""
        return HEADER + self.size() <= WORDS

    def words(self):
        """The words of the page."""
        page = [0] * WORDS
        page[0], page[1], page[2] = self.tag, len(self.pairs), self.level
        end = WORDS

        def stand(block):
            """Puts a block below the last one, and gives its place."""
            nonlocal end
            end -= len(block)
            page[end : end + len(block)] = block
            return end

        if self.low:
            page[3] = stand(words_of(self.low)) * 256 + len(self.low)
        if self.high is not None:
            page[4] = stand(words_of(self.high)) * 256 + len(self.high)
        for i, (key, value) in enumerate(self.pairs):
            page[HEADER + i] = stand(words_of(key) + [value]) * 256 + len(key)
        assert HEADER + len(self.pairs) <= end
        return page

    def put(self, key, value):
        """The node with the pair."""
        return Node(self.tag, self.level, self.low, self.high, sorted({**dict(self.pairs), key: value}.items()))

    def halves(self):
        """The separator and both halves: the least number of pairs that have at least half of the sizes' sum stays."""
        whole, got, kept = sum(pair_size(key) for key, _ in self.pairs), 0, 0
        while 2 * got < whole:
            got += pair_size(self.pairs[kept][0])
            kept += 1
        separator = self.pairs[kept][0]
        left = Node(self.tag, self.level, self.low, separator, self.pairs[:kept])
        return separator, left, Node(self.tag, self.level, separator, self.high, self.pairs[kept:])


def bytes_of(words):
    """The bytes of a page's words."""
    return struct.pack(f">{WORDS}Q", *words)


def string_at(page, slot):
    """The string that a slot names in a page's bytes: at most 64 of them, and none behind the page's end."""
    place, length = divmod(slot, 256)
    return page[8 * place : 8 * place + min(length, MOST)]


def node_in(page):
    """What a page's bytes are read as, whatever they are: a count above the places for slots as those, a value behind the page's end as 0."""
    words = struct.unpack(f">{WORDS}Q", page)

    def pair(slot):
        """A key, and the word behind the words of as many bytes as the slot says, though they be more than 64."""
        place = slot // 256 + (slot % 256 + 7) // 8
        return string_at(page, slot), words[place] if place < WORDS else 0

    high = string_at(page, words[4]) if words[4] else None
    return Node(words[0], words[2], string_at(page, words[3]), high, [pair(slot) for slot in words[HEADER : HEADER + min(words[1], WORDS)]])
