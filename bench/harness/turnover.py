"""What the turnover workload is: which pairs are taken out and which put in, and the pages that it gets.

The map is that of `make`, in runs of neighbouring keys. Each run begins a chain, and the chains stand in no order. In each turn the keys of a chain are taken out
by rising key; for each of them, at once, a new one is put, into another place: the new keys are the numbers that follow the last key of the chain half of all
chains on, put in no order. They are what the chain has in the next turn. So the pairs stay as many, but leaves get empty in one place and are split in another.
"""
import functools
import itertools

from harness import calls, ranges, workload
from harness.console import Failure

TURNS = 2  # twice as many pairs are taken out, and put in, as the map has
MOST_PAIRS_A_RUN = 1_000
FEWEST_RUNS = 10


def calls_of(pairs):
    """A del and a put for each pair, in each turn."""
    return 2 * TURNS * pairs


def pages_of(pairs, words):
    """Those of the file that is made, and two fifths more. A large map has about three times the file's behind the calls where no leaves are merged."""
    return workload.pages_needed(pairs, words) * 7 // 5 + 16


def job(pairs, workers, words):
    """A run whose pages all have a frame."""
    return workload.Job(pairs, workers, workload.frames_near(pages_of(pairs, words), workers), bounded=False, words=words)


def runs_of(pairs):
    """The keys of the map by rising key, in runs."""
    keys = [key for key, _ in ranges.rows_of(pairs)]
    length = min(MOST_PAIRS_A_RUN, max(1, pairs // FEWEST_RUNS))
    return [keys[start : start + length] for start in range(0, pairs, length)]


def in_no_order(items, numbers):
    """The items, in the order of as many numbers."""
    return [item for item, _ in sorted(zip(items, numbers), key=lambda pair: pair[1])]


def numbers_behind(key, count):
    return [key + place for place in range(1, count + 1)]


def turns_of(pairs, numbers):
    """Of each turn, of each chain its calls: pairs of a key and the value that is put there, or None for a del."""
    held, values = in_no_order(runs_of(pairs), numbers), itertools.count(pairs + 1)
    used = set(itertools.chain.from_iterable(held))
    for _ in range(TURNS):
        behind = held[len(held) // 2 :] + held[: len(held) // 2]
        new = [in_no_order(numbers_behind(other[-1], len(keys)), numbers) for keys, other in zip(held, behind)]
        require_new(new, used)
        yield [[call for old, key in zip(*runs) for call in ((old, None), (key, next(values)))] for runs in zip(held, new)]
        held = [sorted(keys) for keys in new]


def require_new(runs, used):
    """No key comes twice in all the turns, or two workers might share it."""
    for key in itertools.chain.from_iterable(runs):
        if key in used or key >= ranges.NUMBERS:
            raise Failure(f"the turnover has the key {key} twice, or it is too large: another number of pairs is needed")
        used.add(key)


@functools.lru_cache(maxsize=2)
def script_of(pairs, workers):
    """The chains go to the workers in turn; each makes the first turn of all its chains, then the second."""
    turns = list(turns_of(pairs, ranges.numbers_from(workload.SEED + 1)))
    lists = [[call for turn in turns for calls_of_chain in turn[worker::workers] for call in calls_of_chain] for worker in range(workers)]
    return calls.Script(ranges.rows_of(pairs), lists)
