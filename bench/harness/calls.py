"""Scripts of gets, puts and dels: their lines, the right replies, and the last map. No two workers share a key, so each reply and the last map are fixed."""
import dataclasses
import functools
import re

from harness import ranges
from harness.console import Failure

# In the place of a value: the call is a get.
GET = object()


@dataclasses.dataclass(frozen=True, eq=False)
class Script:
    """The rows of the map before, and of each worker its calls: pairs of a key and the value that is put there, or None for a del, or GET."""

    before: list
    lists: list

    @property
    def lines(self):
        return [f"{worker} {call_text(key, value)}\n" for worker, calls in enumerate(self.lists) for key, value in calls]

    @functools.cached_property
    def outcome(self):
        """The replies to each worker, and the rows at the end. The workers are taken one behind another: how they meet makes no difference."""
        pairs = dict(self.before)
        replies = [[reply_to(pairs, key, value) for key, value in calls] for calls in self.lists]
        return replies, sorted(pairs.items())

    @property
    def rows(self):
        return self.outcome[1]

    @property
    def replies(self):
        """The lines of the replies as the program prints them."""
        return [f"{worker} {place} {reply}" for worker, replies in enumerate(self.outcome[0]) for place, reply in enumerate(replies, 1)]

    def require_replies(self, engine, lines):
        """Each reply, then each row, then one line of counters."""
        require_with_counters(engine, lines, [*self.replies, *rows_text(self.rows)])

    def require_replies_alone(self, engine, lines):
        """Each reply, then one line of counters, as a serve prints them."""
        require_with_counters(engine, lines, self.replies)

    def pages_in_use(self, engine, lines):
        """What `check` tells of the file that was kept, whose rows must be the right ones."""
        require_lines(engine, lines[:-1], rows_text(self.rows))
        size = re.fullmatch(rf"tree height \d+ used (\d+) rows {len(self.rows)}", lines[-1])
        if not size:
            raise Failure(f"{engine} says of a tree of {len(self.rows)} rows '{lines[-1]}'")
        return int(size[1])

    @property
    def summary_of_calls(self):
        """The line that a peer must print of the calls: how many found a value, and the sum of these, how many put a new key, and how many took one out."""
        replies = [reply for by_worker in self.outcome[0] for reply in by_worker]
        read = [int(reply.removeprefix("some ")) for reply in replies if reply.startswith("some ")]
        gone = sum(reply.startswith("gone ") for reply in replies)
        return f"calls {len(replies)} some {len(read)} read {sum(read) % ranges.NUMBERS} new {replies.count('new')} gone {gone}"

    @property
    def summary_of_rows(self):
        """The line that it must print of the last map."""
        keys, values = (sum(numbers) % ranges.NUMBERS for numbers in zip(*self.rows)) if self.rows else (0, 0)
        return f"rows {len(self.rows)} keys {keys} sum {values}"

    def require_summary_of_peer(self, engine, lines):
        """Both lines."""
        require_lines(engine, lines, [self.summary_of_calls, self.summary_of_rows])


def call_text(key, value):
    if value is GET:
        return f"get {key}"
    return f"del {key}" if value is None else f"put {key} {value}"


def reply_to(pairs, key, value):
    """What the call does to the map, and its reply."""
    if value is GET:
        return f"some {pairs[key]}" if key in pairs else "none"
    old = pairs.pop(key, None)
    if value is None:
        return "none" if old is None else f"gone {old}"
    pairs[key] = value
    return "new" if old is None else f"was {old}"


def rows_text(rows):
    return [f"row {key} {value}" for key, value in rows]


def require_with_counters(engine, lines, right):
    """The right lines, then one of counters."""
    require_lines(engine, lines[:-1], right)
    if not lines or not lines[-1].startswith("counters "):
        raise Failure(f"{engine} ends with '{lines[-1] if lines else ''}', and not with its counters")


def require_lines(engine, lines, right):
    """The first line that is another one is told."""
    if lines != right:
        place = next((place for place, pair in enumerate(zip(lines, right)) if pair[0] != pair[1]), min(len(lines), len(right)))
        found, wanted = (f"'{all_lines[place]}'" if place < len(all_lines) else "no line" for all_lines in (lines, right))
        raise Failure(f"{engine} answers {found} as line {place + 1}, where {wanted} is right")
