"""The machine of the events: what each atomic event may do, does and sees. Written from docs/ and the READMEs of the crates."""

from dataclasses import dataclass, field

UNLOCKED, LOCKED, MARKED, EVICTED = 0, 253, 254, 255
LAST = 2**56 - 1
NAMES = {UNLOCKED: "u", LOCKED: "x", MARKED: "m", EVICTED: "e"}


class Illegal(Exception):
    """The event may not happen now."""


def may(*conditions):
    if not all(conditions):
        raise Illegal


def shown(word):
    return f"{NAMES.get(word[0], word[0])}:{word[1]}"


@dataclass
class Page:
    block: list
    state: int = EVICTED
    version: int = 0
    frame: int | None = None
    dirty: bool = False
    fault: int = 0
    count: int = 0


@dataclass
class Seat:
    """What one actor has of one page."""

    exclusive: bool = False
    shares: int = 0
    writing: bool = False
    read: list | None = None  # the version of its open read, and the frame


@dataclass
class Machine:
    size: int
    frame_count: int
    actors: int
    next: int
    hand: int = 0
    pages: list = field(init=False)

    def __post_init__(self):
        self.pages = [Page([64 * p + i if p < self.next else 0 for i in range(64)]) for p in range(self.size)]
        self.frames = [[0] * 64 for _ in range(self.frame_count)]
        self.owners = [0] * self.frame_count  # a frame's owner word: 0, or a page and 1
        self.free = set(range(self.frame_count))
        self.held = [set() for _ in range(self.actors)]
        self.spare = set()  # the page numbers whose bits are set in the free-number words
        self.numbers = [set() for _ in range(self.actors)]  # the page numbers that each actor holds
        self.seats = [[Seat() for _ in range(self.size)] for _ in range(self.actors)]

    def line(self, verb, numbers):
        """What is printed of a line, and how many events it stands for."""
        if verb == "fill":
            actor, page, frame = numbers
            for i in range(64):
                self.store(actor, frame, i, self.pages[page].block[i])
            return "done", 64
        if verb == "loads":
            words = [self.word(*numbers, i) for i in range(64)]
            return f"words {words[0]} {words[63]}", 64
        call = {"raise": self.rise, "hand": self.draw}.get(verb) or getattr(self, verb)
        return call(*numbers), 1

    # ---- a page's state word

    def look(self, a, p):
        page, seat = self.pages[p], self.seats[a][p]
        before, word = seat.read, shown((page.state, page.version))
        if page.state in (LOCKED, EVICTED):
            seat.read = None
            return f"{word} closed"
        if before and before[0] == page.version:
            return f"{word} same"
        seat.read = [page.version, None]
        return f"{word} {'moved' if before else 'opened'}"

    def exchange(self, p, expects, state, taken=None):
        """One compare-exchange on the state word; what is to be done where it is taken."""
        page = self.pages[p]
        if (page.state, page.version) != expects:
            return f"lost {shown((page.state, page.version))}"
        page.state = state
        if taken:
            taken()
        return "taken"

    def lock(self, a, p, expects, state, **seat):
        def taken():
            here = self.seats[a][p]
            here.read = None
            for name, value in seat.items():
                setattr(here, name, value)

        return self.exchange(p, expects, state, taken)

    def lockx(self, a, p, word):
        may(word[0] in (UNLOCKED, MARKED, EVICTED), word[1] < LAST)
        return self.lock(a, p, word, LOCKED, exclusive=True)

    def locks(self, a, p, word):
        may(word[0] in (UNLOCKED, MARKED) or 1 <= word[0] <= 251)
        return self.lock(a, p, word, 1 if word[0] == MARKED else word[0] + 1, shares=self.seats[a][p].shares + 1)

    def unlocks(self, a, p):
        page, seat = self.pages[p], self.seats[a][p]
        may(seat.shares > 0, not (seat.writing and seat.shares == 1) or page.fault == page.count)
        before = shown((page.state, page.version))
        page.state -= 1
        seat.shares -= 1
        seat.writing = seat.writing and seat.shares > 0
        return before

    def mark(self, a, p, word):
        may(word[0] == UNLOCKED)
        return self.exchange(p, word, MARKED)

    def unmark(self, a, p, word):
        may(word[0] == MARKED)
        return self.exchange(p, word, UNLOCKED)

    def lockw(self, a, p, word):
        may(word[0] == MARKED)
        return self.lock(a, p, word, 1, shares=self.seats[a][p].shares + 1, writing=True)

    def upgrade(self, a, p, word):
        seat = self.seats[a][p]
        may(word[0] == 1, word[1] < LAST, seat.writing, seat.shares == 1)
        return self.lock(a, p, word, LOCKED, exclusive=True, shares=0, writing=False)

    def leave(self, a, p, resident, state, shares=0):
        page, seat = self.pages[p], self.seats[a][p]
        may(seat.exclusive, (page.frame is not None) == resident, page.fault == page.count)
        may(not resident or self.owners[page.frame] == p + 1)
        page.state, page.version = state, page.version + 1
        seat.exclusive, seat.shares = False, shares
        if resident and any(self.frames[page.frame]):
            self.numbers[a].discard(p)  # a page with words that are not all 0 is in use
        return "done"

    def release(self, a, p):
        return self.leave(a, p, True, UNLOCKED)

    def releasee(self, a, p):
        return self.leave(a, p, False, EVICTED)

    def downgrade(self, a, p):
        return self.leave(a, p, True, 1, 1)

    # ---- a page's translation

    def tload(self, a, p):
        page, seat = self.pages[p], self.seats[a][p]
        if page.frame is None:
            return "empty"
        if seat.read and seat.read[1] is None:
            seat.read[1] = page.frame
        return f"frame {page.frame} {'dirty' if page.dirty else 'clean'}"

    def install(self, a, p, f):
        page = self.pages[p]
        may(self.seats[a][p].exclusive, f in self.held[a], page.frame is None, self.frames[f] == page.block)
        page.frame, page.dirty = f, False
        self.held[a].remove(f)
        return "done"

    def clear(self, a, p):
        page = self.pages[p]
        may(self.seats[a][p].exclusive, page.frame is not None, not page.dirty)
        may(self.owners[page.frame] == 0)
        self.held[a].add(page.frame)
        page.frame = None
        return "done"

    def dirty(self, a, p):
        may(self.seats[a][p].exclusive, self.pages[p].frame is not None)
        self.pages[p].dirty = True
        return "done"

    def clean(self, a, p):
        page = self.pages[p]
        may(self.seats[a][p].writing, page.frame is not None and self.frames[page.frame] == page.block)
        page.dirty = False
        return "done"

    # ---- words of frames, bundles, the next word and the hand

    def word(self, a, p, i):
        page, seat = self.pages[p], self.seats[a][p]
        if (seat.exclusive or seat.shares) and page.frame is not None:
            return self.frames[page.frame][i]
        may(seat.read and seat.read[1] is not None)
        return self.frames[seat.read[1]][i]

    def load(self, a, p, i):
        return f"word {self.word(a, p, i)}"

    def store(self, a, f, i, word):
        may(f in self.held[a] or any(seat.exclusive and page.frame == f and page.dirty for seat, page in zip(self.seats[a], self.pages)))
        self.frames[f][i] = word
        return "done"

    def bits(self, g, free):
        return sum(1 << (k - 64 * g) for k in free if k // 64 == g)

    def of_mask(self, g, mask):
        return {64 * g + i for i in range(64) if mask >> i & 1}

    def take_from(self, free, held, g, expects, mask):
        """One exchange of a word of `free`: the bits of the mask, among those expected, go to `held`."""
        may(mask != 0, mask & expects == mask)
        if self.bits(g, free) != expects:
            return f"lost {self.bits(g, free)}"
        free -= self.of_mask(g, mask)
        held |= self.of_mask(g, mask)
        return "taken"

    def bload(self, a, g):
        return f"bits {self.bits(g, self.free)}"

    def take(self, a, g, expects, mask):
        return self.take_from(self.free, self.held[a], g, expects, mask)

    def give(self, a, g, mask):
        frames, before = self.of_mask(g, mask), self.bits(g, self.free)
        may(mask != 0, frames <= self.held[a])
        self.held[a] -= frames
        self.free |= frames
        return f"bits {before}"

    def nload(self, a):
        return f"next {self.next}"

    def claim(self, a, x, n):
        may(n in (1, 2), x + n <= self.size)
        may(*(self.seats[a][p].exclusive and self.pages[p].frame is not None for p in range(x, x + n)))
        if self.next != x:
            return f"lost {self.next}"
        self.next = x + n
        return "taken"

    def draw(self, a):
        before, self.hand = self.hand, (self.hand + 64) % 2**64
        return f"place {before}"

    # ---- a frame's owner word

    def give_owner(self, a, p, word):
        page = self.pages[p]
        may(self.seats[a][p].exclusive, page.frame is not None)
        self.owners[page.frame] = word
        return "done"

    def own(self, a, p):
        return self.give_owner(a, p, p + 1)

    def disown(self, a, p):
        return self.give_owner(a, p, 0)

    def oload(self, a, f):
        word = self.owners[f]
        return f"owner {word - 1}" if word else "owner none"

    # ---- free-number words

    def pbload(self, a, g):
        return f"bits {self.bits(g, self.spare)}"

    def ptake(self, a, g, expects, mask):
        return self.take_from(self.spare, self.numbers[a], g, expects, mask)

    def pgive(self, a, g, mask):
        pages, before = self.of_mask(g, mask), self.bits(g, self.spare)
        may(mask != 0, all(p < self.size for p in pages), not pages & self.spare)
        may(not any(pages & held for b, held in enumerate(self.numbers) if b != a))
        self.numbers[a] -= pages
        self.spare |= pages
        return f"bits {before}"

    # ---- a page's device and fault word

    def has(self, a, p):
        return self.seats[a][p].exclusive or self.seats[a][p].writing

    def read(self, a, p):
        may(self.seats[a][p].exclusive)
        return "done"

    def failed(self, p):
        self.pages[p].count = min(self.pages[p].count + 1, 2**64 - 1)
        return f"failed {self.pages[p].count}"

    def rfail(self, a, p):
        may(self.seats[a][p].exclusive)
        return self.failed(p)

    def write(self, a, p):
        page = self.pages[p]
        may(self.has(a, p), page.frame is not None)
        page.block = list(self.frames[page.frame])
        return "done"

    def wfail(self, a, p):
        may(self.has(a, p), self.pages[p].frame is not None)
        return self.failed(p)

    def rise(self, a, p):
        may(self.has(a, p))
        self.pages[p].fault = self.pages[p].count
        return "done"
