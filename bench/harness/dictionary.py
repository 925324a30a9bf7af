"""What the words workload is: byte strings as keys, a script of them for the program and a file for a peer, and what both must answer.

The keys are words of Debian's list in a fixed order, the values their numbers from 1 on; the map is empty at first. Words are dealt to the workers by twos.
Each worker puts its words, then gets each, and then deletes every second one: half of all words, and the same ones by any number of workers.
"""
import functools
import pathlib

from harness import calls, packages, ranges, turnover, workload
from harness.console import Failure

NAME = "words"
PACKAGE = "wamerican"
LIST = pathlib.Path("/usr/share/dict/american-english")
# What the words of a pair take on a page of 512, besides those of its key.
WORDS_OF_A_PAIR = 2
# A leaf is split when fewer than 10 of its 504 words are free, and at most 254 stay in a half: so many come to a leaf before it is split.
WORDS_A_SPLIT = 230


def prepare(may_install):
    """Installs the list."""
    if not LIST.exists():
        packages.install(PACKAGE, may_install)
        if not LIST.exists():
            raise Failure(f"{PACKAGE} was installed, but there is no {LIST}")


@functools.lru_cache(maxsize=1)
def words_of(count):
    """So many words, as bytes."""
    words = LIST.read_bytes().splitlines()
    if len(words) < count:
        raise Failure(f"{LIST} has {len(words)} words, and not {count}")
    return turnover.in_no_order(words, ranges.numbers_from(workload.SEED + 1))[:count]


def bytes_a_word(count):
    """Their mean length."""
    return sum(map(len, words_of(count))) / count


def text_of(count):
    """The file for a peer."""
    return b"".join(word + b"\n" for word in words_of(count))


def pages_of(count):
    """Page 0, the leaves that so many words make at most, and the nodes above these, whose children are 40 at least."""
    leaves = 1 + sum(WORDS_OF_A_PAIR + -(-len(word) // workload.BYTES_A_WORD) for word in words_of(count)) // WORDS_A_SPLIT
    return 1 + leaves + leaves // 20 + 2


def job(pairs, workers, _):
    """A run whose pages all have a frame. A file with byte keys has large pages."""
    return workload.Job(pairs, workers, workload.frames_near(pages_of(pairs), workers), bounded=False, words=workload.LARGE_PAGE)


def script_from(words, workers):
    """The calls on these words. The program takes a key as hexadecimal digits, whose order is that of the bytes."""
    dealt = [[] for _ in range(workers)]
    for place, word in enumerate(words):
        dealt[place // 2 % workers].append((word.hex(), place + 1))
    return calls.Script((), [[*own, *((key, calls.GET) for key, _ in own), *((key, None) for key, _ in own[1::2])] for own in dealt])


@functools.lru_cache(maxsize=2)
def script_of(count, workers):
    return script_from(words_of(count), workers)


def summary_of_peer(script, answers_writes):
    """The lines that a peer must print: of the calls and the last map, and, where its writes are answered, how many words were new and how many were gone."""
    told, _, writes = script.summary_of_calls.partition(" new ")
    lines = [f"{told} rows {len(script.rows)} sum {sum(value for _, value in script.rows)}"]
    return [*lines, f"new {writes}"] if answers_writes else lines
