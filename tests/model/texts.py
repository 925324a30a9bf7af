"""Scripts and event lists as texts: which lines are taken, and what is printed."""

import re

from .machine import Illegal, Machine

NUMBER = r"(0|[1-9][0-9]*)"
BOUND = r"(end|0|[1-9][0-9]*)"
CALLS = {
    kind: re.compile(f"{NUMBER} {kind} {rest}")
    for kind, rest in {"get": NUMBER, "put": f"{NUMBER} {NUMBER}", "del": NUMBER, "scan": f"{NUMBER} {NUMBER}", "swap": f"{NUMBER} {NUMBER} {NUMBER}", "range": f"{NUMBER} {BOUND}"}.items()
}
LONG, LINES, RANGES, EVENT_LINES = 2**24, 10**6, 1000, 10**5


def lines_of(data):
    """The lines of a text; the last line feed may be missing."""
    lines = data.split(b"\n")
    return lines[:-1] if lines[-1] == b"" else lines


def order(line, workers):
    """A script's line as worker, kind and numbers, the bound `end` as None; None where it is refused."""
    try:
        text = line.decode("ascii")
    except UnicodeDecodeError:
        return None
    for kind, form in CALLS.items():
        found = form.fullmatch(text)
        if found:
            worker, *rest = (None if word == "end" else int(word) for word in found.groups())
            if worker >= workers or any(n is not None and n >= 2**64 for n in rest) or (kind == "scan" and not 1 <= rest[1] <= 28):
                return None
            if kind == "range" and rest[1] is not None and rest[1] <= rest[0]:
                return None
            return worker, kind, rest
    return None


def read_script(data, workers):
    """The orders of a script, or the line that is printed where it is refused."""
    if len(data) > LONG:
        return "script long"
    orders, ranges = [], 0
    for number, line in enumerate(lines_of(data), 1):
        found = order(line, workers) if number <= LINES else None
        ranges += found is not None and found[1] == "range"
        if found is None or ranges > RANGES:
            return f"script line {number}"
        orders.append(found)
    return orders


def reply(store, kind, rest):
    """What a call is answered, as text without worker and number."""
    if kind == "get":
        found = store.get(*rest)
        return "none" if found is None else f"some {found}"
    if kind == "put":
        found = store.put(*rest)
        return "new" if found is None else f"was {found}"
    if kind == "del":
        found = store.delete(*rest)
        return "none" if found is None else f"gone {found}"
    if kind == "swap":
        found = store.swap(*rest)
        return "none" if found is None else "swapped" if found == rest[1] else f"kept {found}"
    if kind == "range":
        pairs, reach = store.range(*rest)
        return f"wide {reach}" if pairs is None else f"range {len(pairs)}" + "".join(f" {k}={v}" for k, v in pairs)
    bound, pairs = store.window(*rest)
    return f"window {rest[0]} {'end' if bound is None else bound}" + "".join(f" {k}={v}" for k, v in pairs)


# ---- event lists: a verb, and the kind of each of its numbers

ACTOR, PAGE, FRAME, WORD, BUNDLE, NUMBERS, STATE, ANY, COUNT = "a", "p", "f", "i", "g", "b", "S", "n", "c"
VERBS = {
    "look": "ap", "lockx": "apS", "locks": "apS", "unlocks": "ap", "mark": "apS", "unmark": "apS", "lockw": "apS", "upgrade": "apS",
    "release": "ap", "releasee": "ap", "downgrade": "ap", "tload": "ap", "install": "apf", "clear": "ap", "dirty": "ap", "clean": "ap",
    "load": "api", "store": "afin", "bload": "ag", "take": "agnn", "give": "agn", "read": "ap", "rfail": "ap", "write": "ap", "wfail": "ap",
    "raise": "ap", "nload": "a", "claim": "anc", "hand": "a", "own": "ap", "disown": "ap", "oload": "af",
    "pbload": "ab", "ptake": "abnn", "pgive": "abn", "fill": "apf", "loads": "ap",
}


def decimal(text):
    return int(text) if re.fullmatch(NUMBER, text) and int(text) < 2**64 else None


def state_word(text):
    """A state word `S:V` as state and version; None for another spelling."""
    found = re.fullmatch(rf"(u|x|m|e|{NUMBER}):{NUMBER}", text)
    if not found:
        return None
    state = {"u": 0, "x": 253, "m": 254, "e": 255}.get(found[1])
    if state is None:
        state = int(found[1])
        if not 1 <= state <= 252:
            return None
    version = int(found[3])
    return (state, version) if version < 2**56 else None


def event(line, shape):
    """An event's line as its verb and numbers; None where it is refused."""
    try:
        verb, *words = line.decode("ascii").split(" ")
    except UnicodeDecodeError:
        return None
    kinds = VERBS.get(verb)
    if kinds is None or len(kinds) != len(words):
        return None
    pages, frames, actors, _ = shape
    limits = {ACTOR: actors, PAGE: pages, FRAME: frames, WORD: 64, BUNDLE: -(-frames // 64), NUMBERS: -(-pages // 64), ANY: 2**64, COUNT: 2**32}
    numbers = []
    for kind, word in zip(kinds, words):
        number = state_word(word) if kind == STATE else decimal(word)
        if number is None or (kind != STATE and number >= limits[kind]):
            return None
        numbers.append(number)
    return verb, numbers


def read_events(data):
    """The shape and the events of a list, or the line that is printed where it is refused."""
    if len(data) > LONG:
        return "events long"
    lines = lines_of(data)
    first = lines[0].decode("latin-1").split(" ") if lines else []
    shape = [decimal(word) for word in first[1:]]
    if len(first) != 5 or first[0] != "shape" or None in shape:
        return "events line 1"
    pages, frames, actors, following = shape
    if not (1 <= pages <= 64 and 1 <= frames <= 256 and 1 <= actors <= 64 and 1 <= following <= pages):
        return "events line 1"
    events = []
    for number, line in enumerate(lines[1:], 2):
        found = event(line, shape) if number <= EVENT_LINES else None
        if found is None:
            return f"events line {number}"
        events.append(found)
    return shape, events


def play(data):
    """What `replay` prints of an event list, and its status."""
    found = read_events(data)
    if isinstance(found, str):
        return found + "\n", 5
    shape, events = found
    machine, out, count = Machine(*shape), [], 0
    for number, (verb, numbers) in enumerate(events, 2):
        try:
            saw, steps = machine.line(verb, numbers)
        except Illegal:
            return "".join(out) + f"illegal {number}\n", 5
        count += steps
        out.append(f"{number} {saw}\n")
    return "".join(out) + f"end {count}\n", 0
