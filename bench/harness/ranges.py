"""What the ranges workload is: the lines of its script, their right replies, and how its part is set.

The map is that of `make` before any call: of each place its key, and its number as the value. Each range begins at one of its keys, and has so many pairs."""
import functools
import itertools

from harness import workload
from harness.console import Failure

RANGES = 1_000  # the most that a script may have
PAIRS_A_RANGE = 100
# A thousand ranges of a peer are over in the time that its threads take to wake up, so it makes them so many times over.
TIMES_OF_PEERS = 10
MULTIPLIER, INCREMENT, NUMBERS = 6_364_136_223_846_793_005, 1_442_695_040_888_963_407, 2**64


def numbers_from(seed):
    """The generator of keys: it meets each 64-bit number once before it comes round."""
    number = seed
    while True:
        yield number
        number = (MULTIPLIER * number + INCREMENT) % NUMBERS


@functools.lru_cache(maxsize=1)
def rows_of(pairs):
    """The pairs of the map by rising key."""
    return sorted(zip(itertools.islice(numbers_from(workload.SEED), pairs), range(1, pairs + 1)))


@functools.lru_cache(maxsize=1)
def spans_of(pairs):
    """Where each range begins and ends among the rows: evenly spread and in no order, the same in every run."""
    length = min(PAIRS_A_RANGE, pairs)
    places = pairs - length + 1
    starts = (number * places // NUMBERS for number in numbers_from(workload.SEED + 1))
    return [(start, start + length) for start in itertools.islice(starts, RANGES)]


def in_turn(calls, workers):
    """A line for each call, of the workers in turn."""
    return [f"{place % workers} {call}\n" for place, call in enumerate(calls)]


def range_lines(job):
    """The ranges."""
    rows = rows_of(job.pairs)
    bounds = [str(key) for key, _ in rows[1:]] + ["end"]
    return in_turn((f"range {rows[start][0]} {bounds[end - 1]}" for start, end in spans_of(job.pairs)), job.workers)


def get_lines(job):
    """A get in each leaf of the page file, which brings all of its tree's pages into memory."""
    keys = (key for key, _ in rows_of(job.pairs)[:: workload.PAIRS_A_LEAF[job.words]])
    return in_turn((f"get {key}" for key in keys), job.workers)


def require_replies(engine, lines, job):
    """Of each worker each range must have its very pairs. What a reply has before its pairs' number is the worker and the number of the call."""
    rows = rows_of(job.pairs)
    replies = [line.split(" range ") for line in lines if " range " in line]
    found = [[words for head, words in replies if head.startswith(f"{worker} ")] for worker in range(job.workers)]
    right = [[] for _ in range(job.workers)]
    for place, (start, end) in enumerate(spans_of(job.pairs)):
        right[place % job.workers].append(" ".join([str(end - start), *(f"{key}={value}" for key, value in rows[start:end])]))
    if found != right:
        raise Failure(f"{engine} answers {len(replies)} ranges, and not each of {RANGES} with its pairs")


def summary_of_peer(pairs):
    """The line that a peer must print for the ranges of all workers."""
    rows, spans = rows_of(pairs), spans_of(pairs)
    found = [row for start, end in spans for row in rows[start:end]]
    count, keys, values = (TIMES_OF_PEERS * number for number in (len(found), sum(key for key, _ in found), sum(value for _, value in found)))
    return f"ranges {TIMES_OF_PEERS * len(spans)} pairs {count} keys {keys % NUMBERS} sum {values % NUMBERS}"


def require_summary_of_peer(engine, summary, pairs):
    if summary != summary_of_peer(pairs):
        raise Failure(f"{engine} answers '{summary}', which is not '{summary_of_peer(pairs)}'")
