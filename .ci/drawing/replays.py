"""A replay as lanes: a list of events of the buffer manager's machine, with what `replay` prints of it. Time goes down; each event is a row with its words,
what it saw, and an arrow between its actor and the word that it loads, stores or exchanges; the lanes of the words have their values. The values come
from the model in tests/model, which has to see what was printed."""
import dataclasses

from model import machine as machines, texts

from drawing import svg

WIDTH, ROW, LINE, PAD = 960, 20, 16, 10
NUMBER, EVENT, SAW, ACTORS, ACTOR = 34, 44, 150, 272, 52
COLOURS = ("#1d4f91", "#a3470f", "#4b6b2f", "#7a3b83")
LANES = {"state": 74, "translation": 104, "owner": 78, "bundle": 70, "frame": 108, "block": 108}
TITLES = {
    "state": "state word of page {}",
    "translation": "translation word of page {}",
    "owner": "owner word of frame {}",
    "bundle": "word of bundle {}",
    "frame": "words of frame {}",
    "block": "block of page {}",
}
GREEN, RED, YELLOW, BLUE, ORANGE, DARK, PALE = "#d6ecd2", "#f4cfcb", "#fbeec0", "#d3e2f5", "#f9dcc0", "#dfe3e8", "#eceff3"
TINTS = {"e": DARK, "u": GREEN, "x": RED, "m": YELLOW, "shares": BLUE, "empty": DARK, "clean": GREEN, "dirty": ORANGE, "": PALE}
LOAD, STORE, EXCHANGE = "load", "store", "exchange"
# By lane and by what is done to it, the verbs that do so.
VERBS = {
    ("state", LOAD): "look",
    ("state", EXCHANGE): "lockx locks mark unmark lockw upgrade",
    ("state", STORE): "unlocks release releasee downgrade",
    ("translation", LOAD): "tload",
    ("translation", STORE): "install clear dirty clean",
    ("owner", LOAD): "oload",
    ("owner", STORE): "own disown",
    ("bundle", LOAD): "bload",
    ("bundle", EXCHANGE): "take",
    ("bundle", STORE): "give",
    ("frame", LOAD): "load loads",
    ("frame", STORE): "store fill",
    ("block", LOAD): "read",
    ("block", STORE): "write",
}
TOUCHES = {verb: touch for touch, verbs in VERBS.items() for verb in verbs.split()}
FOOT = (
    "State words: u unlocked, x locked exclusively, m marked by the clock, e Evicted, or how many shares; behind the colon the version. A full bar is an "
    "actor's exclusive lock, a pale one its share, an open one its read without a lock. Arrows to a word are stores, arrows to an actor loads, arrows "
    "with two heads exchanges. Events: actor, page (of oload and store the frame, of bload, take and give the bundle), and what else the event is about."
)


@dataclasses.dataclass
class Story:
    """What a picture tells: its title, the line that it begins with, and words before some of the lines."""

    title: str
    first: int
    words: dict


STORIES = {
    "get": Story(
        "The way of a get: a page is read without a lock, and a change between is noticed",
        9,
        {
            9: "Actor 1 begins to read: the state word, where the page stands, and the state word once more.",
            12: "It takes no lock, and loads word 5. Meanwhile actor 0 locks the page, stores words 5 and 6, and releases it at the next version; "
            "actor 1 loads word 6 behind that store.",
            21: "Actor 1 looks once more and finds another version: what it loaded does not count. Word 5 was of the old version, word 6 of the new one.",
            22: "It tries again. The last look finds the version of the first one, so both words are of that version.",
        },
    ),
    "page": Story(
        "The way of a page into memory and out",
        2,
        {
            2: "A frame is taken: its bit leaves the word of its bundle.",
            4: "The Evicted page is locked. Its block goes out of its slot, is read and comes home (read); its words go into the frame (fill), the frame "
            "under the page (install), and the page's number into the frame's owner word (own); it is released at the next version.",
            11: "It is read without a lock.",
            16: "It is changed under the exclusive lock: it is made dirty, and a word is stored. With the release the frame's words are the next version.",
            21: "The clock of actor 1 finds the page by the frame's owner word and marks it. When it comes round the mark is still there: the page is chosen.",
            26: "It is dirty, so it is written back: under a share (lockw) its words are loaded and written to its block, and it is made clean.",
            33: "No other share has come: the share becomes the exclusive lock, the page is taken out of its frame, and is Evicted at the next version. "
            "The frame is free again.",
        },
    ),
}


@dataclasses.dataclass
class Step:
    """One event: its line, its words, what it saw, its actor, the lane that it touches and how; and what stands in the lanes and with the actors afterwards."""

    number: int
    event: str
    saw: str
    actor: int
    lane: tuple
    mode: str
    values: dict
    holds: list


def frame_of(machine, verb, numbers):
    """The frame that an event stores into or loads from."""
    if verb in ("store", "oload"):
        return numbers[1]
    if verb == "fill":
        return numbers[2]
    page, seat = machine.pages[numbers[1]], machine.seats[numbers[0]][numbers[1]]
    return page.frame if verb in ("own", "disown") or seat.exclusive or seat.shares else seat.read[1]


def values_of(machine):
    """What stands in each word; of frames and blocks all words."""
    values = {}
    for p, page in enumerate(machine.pages):
        values["state", p] = machines.shown((page.state, page.version))
        values["translation", p] = "empty" if page.frame is None else f"frame {page.frame}, {'dirty' if page.dirty else 'clean'}"
        values["block", p] = tuple(page.block)
    for f, words in enumerate(machine.frames):
        values["frame", f] = tuple(words)
        values["owner", f] = f"page {machine.owners[f] - 1}" if machine.owners[f] else "no page"
    return values | {("bundle", g): f"bits {machine.bits(g, machine.free)}" for g in range(-(-machine.frame_count // 64))}


def holds_of(machine):
    """What each actor has of a page: an exclusive lock, a share, or a read under way at a version; of several pages, what comes first."""

    def of_seat(seat):
        return ("exclusive",) if seat.exclusive else ("share",) if seat.shares else ("read", seat.read[0]) if seat.read else ()

    return [min(filter(None, map(of_seat, seats)), default=()) for seats in machine.seats]


def steps_of(name, events, expected):
    """The steps of a list, where the model sees what was printed."""
    text, status = texts.play(events.encode())
    if status or text != expected:
        raise ValueError(f"examples/{name}.expected is not what the events of {name}.events see: {first_other(text, expected)}")
    shape, lines = texts.read_events(events.encode())
    machine, steps = machines.Machine(*shape), []
    for (verb, numbers), words, said in zip(lines, events.splitlines()[1:], expected.splitlines()):
        if verb not in TOUCHES:
            raise ValueError(f"no lane is known for {verb}")
        kind, mode = TOUCHES[verb]
        place = frame_of(machine, verb, numbers) if kind in ("frame", "owner") else numbers[1]
        machine.line(verb, numbers)
        number, saw = said.split(" ", 1)
        steps.append(Step(int(number), words, saw, numbers[0], (kind, place), mode, values_of(machine), holds_of(machine)))
    return shape, steps


def first_other(text, expected):
    """The first line that differs."""
    pairs = zip([*text.splitlines(), ""], [*expected.splitlines(), ""])
    return next((f"{other!r} stands where {line!r} is seen" for line, other in pairs if line != other), "the lengths differ")


def told(step, lane, value):
    """A value in words; of a frame or a block what was done to it."""
    if isinstance(value, str):
        return value
    if step is None:
        return "zeros" if not any(value) else f"{value[0]}, {value[1]}, .. {value[-1]}"
    verb, *numbers = step.event.split()
    return f"word {numbers[2]}: {numbers[3]}" if verb == "store" else "the block's" if verb == "fill" else "the frame's"


def tint(lane, value):
    """The colour of a value."""
    if lane[0] == "state":
        return TINTS[value[0] if value[0] in "euxm" else "shares"]
    return TINTS[value.split()[-1] if lane[0] == "translation" else ""]


class Drawing:
    """The picture as it grows downwards: where the lanes are, and where the values that stand now began."""

    def __init__(self, story, actors, lanes, values, holds):
        self.story, self.actors, self.y = story, actors, 0.0
        self.under, self.over = [], []
        self.left, x = {}, ACTORS + ACTOR * actors + PAD
        room = (WIDTH - PAD - x - sum(LANES[kind] for kind, _ in lanes)) / max(1, len(lanes) - 1)
        for lane in lanes:
            self.left[lane] = x
            x += LANES[lane[0]] + room
        self.since, self.values, self.holds, self.held_since = {}, {lane: values[lane] for lane in lanes}, holds, {}

    def actor_x(self, actor):
        return ACTORS + ACTOR * actor + ACTOR / 2

    def begin(self):
        """The title and the heads of the lanes, and the values before the first event."""
        self.over.append(svg.text(PAD, 24, self.story.title, 14, weight="bold"))
        heads = [(self.left[lane] + LANES[lane[0]] / 2, LANES[lane[0]], TITLES[lane[0]].format(lane[1])) for lane in self.left]
        heads += [(self.actor_x(actor), ACTOR, f"actor {actor}") for actor in range(self.actors)]
        count = 1
        for x, width, words in heads:
            marks, lines = svg.paragraph(x, 52, words, width, 11, "bold", svg.GREY, "middle")
            self.over, count = self.over + marks, max(count, lines)
        for x, words in ((NUMBER - 18, "line"), (EVENT, "event"), (SAW, "saw")):
            self.over.append(svg.text(x, 52, words, 11, weight="bold", fill=svg.GREY))
        self.y = 52 + 1.3 * 11 * (count - 1) + 8
        for lane, value in self.values.items():
            self.name(lane, told(None, lane, value), self.y + 14)
            self.since[lane] = self.y
        self.held_since = {actor: self.y for actor in range(self.actors)}
        self.y += ROW

    def name(self, lane, words, y):
        self.over.append(svg.text(self.left[lane] + LANES[lane[0]] / 2, y, words, 11, "middle"))

    def caption(self, words):
        lines = svg.wrapped(words, WIDTH - 2 * PAD, 12)
        height = LINE * len(lines) + 8
        self.over += [svg.rect(0, self.y + 2, WIDTH, height, "#fff8dd"), svg.line(0, self.y + 2, WIDTH, self.y + 2, "#e6d9a2")]
        self.over += [svg.text(PAD, self.y + 17 + LINE * k, it, 12) for k, it in enumerate(lines)]
        self.y += height + 4

    def step(self, step):
        """One event's row."""
        middle, colour = self.y + ROW / 2, COLOURS[step.actor % len(COLOURS)]
        self.over += [svg.text(NUMBER, middle + 4, str(step.number), 11, "end", fill=svg.GREY)]
        self.over += [svg.text(EVENT, middle + 4, step.event, 12, fill=colour), svg.text(SAW, middle + 4, step.saw, 12)]
        for lane, value in self.values.items():
            if step.values[lane] != value:
                self.end_value(lane, self.y + 2)
                self.values[lane] = step.values[lane]
                self.name(lane, told(step, lane, step.values[lane]), middle + 4)
        for actor, held in enumerate(step.holds):
            if held != self.holds[actor]:
                self.end_hold(actor, middle)
        self.holds = step.holds
        self.arrow(step, middle, colour)
        self.y += ROW

    def arrow(self, step, y, colour):
        """Between the actor and the word. An exchange that was lost has loaded."""
        start, end = self.actor_x(step.actor), self.left[step.lane] - 1
        stores = step.mode != LOAD and not step.saw.startswith("lost")
        loads = step.mode != STORE
        self.over.append(svg.line(start + 8 if loads else start, y, end - 4 if stores else end, y, colour, 1.3))
        self.over.append(svg.dot(start, y, 2.6, colour))
        if stores:
            self.over.append(svg.head(end, y, "right", colour))
        if loads:
            self.over.append(svg.head(start + 5, y, "left", colour))

    def end_value(self, lane, y):
        """The cell of a value that stood up to here."""
        fill = tint(lane, self.values[lane])
        self.under.append(svg.rect(self.left[lane], self.since[lane], LANES[lane[0]], y - self.since[lane] - 1, fill, radius=2))
        self.since[lane] = y

    def end_hold(self, actor, y):
        """The bar of what an actor had up to here."""
        top, x, colour, held = self.held_since[actor], self.actor_x(actor), COLOURS[actor % len(COLOURS)], self.holds[actor]
        self.under.append(svg.line(x, top, x, y, colour, 1))
        if held:
            fill = {"exclusive": colour, "share": "#f0c9a8", "read": svg.PAPER}[held[0]]
            self.under.append(svg.rect(x - 5, top, 10, y - top, fill, colour, 2))
        self.held_since[actor] = y

    def finish(self):
        """The whole file."""
        for lane in self.values:
            self.end_value(lane, self.y + 4)
        for actor in range(self.actors):
            self.end_hold(actor, self.y + 4)
        words, lines = svg.paragraph(PAD, self.y + 24, FOOT, WIDTH - 2 * PAD, 11, fill=svg.GREY)
        return svg.document(WIDTH, self.y + 24 + 15 * lines, self.story.title, [*self.under, *self.over, *words])


def picture(name, events, expected):
    """The picture of one list and of what is printed of it."""
    story, (shape, steps) = STORIES[name], steps_of(name, events, expected)
    drawn = [step for step in steps if step.number >= story.first]
    lanes = sorted({step.lane for step in drawn}, key=lambda lane: (list(LANES).index(lane[0]), lane[1]))
    before = steps[story.first - 3] if story.first > 2 else None
    start = machines.Machine(*shape)
    values, holds = (before.values, before.holds) if before else (values_of(start), holds_of(start))
    drawing = Drawing(story, shape[2], lanes, values, holds)
    drawing.begin()
    for step in drawn:
        if step.number in story.words:
            drawing.caption(story.words[step.number])
        drawing.step(step)
    return drawing.finish()
