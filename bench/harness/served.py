"""What the served workload is: random gets and puts on a file that is there, made by a process that opens it, and leaves in it what was put.

The file has as many pages as `serve` takes, and half of the keys. The others come with the calls. A leaf that is split leaves 14 pairs to each half, so the
pages are enough: 228 leaves, and 18 pages above them. Of all calls exactly half are puts, in no order; none of a worker's keys is another one's."""
import dataclasses
import functools
import itertools

from harness import calls, compiler, machine, process, ranges, turnover, workload
from harness.console import Failure

NAME = "served"
TITLE = "Served from a file"
WORKERS = (1, 4)
PAGES = 256  # the most that a served file may have
PAIRS = 1_600
KEYS = 2 * PAIRS
CALLS = 100_000
MOST_LINES, MOST_BYTES = 1_000_000, 16_777_216  # of a script
EACH, LAST, NEVER = "each", "last", "never"
SYNCS = {EACH: "each transaction", LAST: "once, at the end", NEVER: "none"}


@dataclasses.dataclass(frozen=True)
class Mode:
    """A row of the table: what is said of it behind the engine's title, when what was put is made to last, and the numbers of workers; of a peer the word for
    its transactions, and of the program its frames."""

    title: str
    sync: str
    workers: tuple = WORKERS
    transactions: str = ""
    frames: int = 0

    @property
    def word(self):
        """The word by which a peer is told."""
        return f"{self.transactions}-{self.sync}"


PROGRAM = tuple(
    Mode(f"{frames} frames", sync, frames=frames) for sync in (LAST, NEVER) for frames in (workload.FEWEST_FRAMES, PAGES)
)
TRANSACTION_A_CALL = tuple(Mode("a transaction a call", sync, transactions="call") for sync in SYNCS)
# Its transactions would stand one behind another.
ONE_TRANSACTION = tuple(Mode("one transaction", sync, workers=(1,), transactions="all") for sync in (LAST, NEVER))


@dataclasses.dataclass(frozen=True)
class Job:
    """One run: so many calls."""

    calls: int
    workers: int
    frames: int
    words: int = workload.SMALL_PAGE


@dataclasses.dataclass(frozen=True)
class Run:
    """One run of an engine: seconds by the wall's clock and of processor, the peak in kibibytes, and the bytes of the files behind it."""

    round: int
    engine: str
    mode: Mode
    workers: int
    wall: float
    processor: float
    peak: int
    bytes: int


def modes_of(engines, workers):
    """The engines that serve files, each with each of its modes for so many workers."""
    return [(engine, mode) for engine in engines for mode in engine.modes if workers in mode.workers]


def folder():
    """A folder on the file system of the repository. Those of other parts lie in memory, where a sync costs nothing."""
    compiler.OUT.mkdir(exist_ok=True)
    return process.scratch_folder(compiler.OUT)


def note_of(count):
    """What a reader of the table has to know."""
    place = f"on {machine.file_system(compiler.OUT)}, where a write and its sync take {machine.milliseconds_of_sync(compiler.OUT):.2f} ms"
    return f"Served: {count:,} gets and puts on a file of {PAGES} pages with {PAIRS:,} pairs at first, {place}."


def keys_of(worker, workers):
    """Those keys that are a worker's."""
    return list(itertools.islice(ranges.numbers_from(workload.SEED), worker, KEYS, workers))


@functools.lru_cache(maxsize=len(WORKERS))
def script_of(count, workers):
    """So many calls, dealt to the workers in turn. No value is put twice."""
    numbers = ranges.numbers_from(workload.SEED + 1)
    are_puts = turnover.in_no_order([place % 2 == 1 for place in range(count)], numbers)
    keys, lists = [keys_of(worker, workers) for worker in range(workers)], [[] for _ in range(workers)]
    for place, (is_put, number) in enumerate(zip(are_puts, numbers)):
        worker = place % workers
        key = keys[worker][number * len(keys[worker]) // ranges.NUMBERS]
        lists[worker].append((key, KEYS + place + 1 if is_put else calls.GET))
    return calls.Script(ranges.rows_of(PAIRS), lists)


def write_script(place, script):
    """The file of the script, which must not be too long for `serve`."""
    size = sum(map(len, script.lines))
    if len(script.lines) > MOST_LINES or size > MOST_BYTES:
        raise Failure(f"a script of {len(script.lines)} lines and {size} bytes is too long: at most {MOST_LINES} and {MOST_BYTES}")
    place.write_text("".join(script.lines), encoding="ascii")
    return place
