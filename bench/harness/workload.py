"""What the churn workload is: its summary, the size of its page file, and how the parts of a measurement set it."""
import dataclasses

from harness.console import Failure

SEED = 1
SMALL_PAGE, LARGE_PAGE = 64, 512  # words
BYTES_A_WORD = 8
PAIRS_A_LEAF = {SMALL_PAGE: 20, LARGE_PAGE: 180}  # as a page file is built; also the children of an inner node
FEWEST_FRAMES, MOST_FRAMES, FRAMES_A_WORKER = 64, 65_536, 8
MOST_PAIRS = 100_000


@dataclasses.dataclass(frozen=True)
class Job:
    """One run. Where it is bounded, a peer may keep no more bytes of pages in memory than the program's frames have."""

    pairs: int
    workers: int
    frames: int
    bounded: bool
    words: int = SMALL_PAGE

    @property
    def cache_bytes(self):
        return self.frames * self.words * BYTES_A_WORD if self.bounded else 0


def calls_of(pairs):
    """A get and a put for each pair, and a del for every second one."""
    return 2 * pairs + pairs // 2


def summary_of(pairs):
    """The line that churn of so many pairs must print: no two workers share a key, so each reply and the last map are fixed."""
    odd_places = pairs - pairs // 2
    rows = odd_places + pairs
    total = odd_places * odd_places + pairs * (pairs + 1) // 2
    return f"churn {pairs} calls {calls_of(pairs)} some {pairs} new {pairs} gone {pairs // 2} rows {rows} sum {total}"


def require_summary(engine, summary, pairs):
    if summary != summary_of(pairs):
        raise Failure(f"{engine} answers '{summary}', which is not '{summary_of(pairs)}'")


def pages_needed(pairs, words):
    """The first page, and the nodes of all levels of the tree as it is built."""
    pairs_a_node = PAIRS_A_LEAF[words]
    nodes = max(1, -(-pairs // pairs_a_node))
    pages = 1 + nodes
    while nodes > 1:
        nodes = -(-nodes // pairs_a_node)
        pages += nodes
    return pages


def image_pages(pairs, words):
    """How many pages churn gives its image, so that no split wants for one."""
    return 4 * pages_needed(pairs, words) + 64


def resident_job(pairs, workers, words):
    """A run whose pages all have a frame: of churn, of ranges, which write nothing, or of what space is measured by."""
    return Job(pairs, workers, frames_near(image_pages(pairs, words), workers), bounded=False, words=words)


def tenth_job(pairs, workers, words):
    """A run with frames for a tenth of its pages, as far as so few are allowed."""
    return Job(pairs, workers, frames_near(image_pages(pairs, words) // 10, workers), bounded=True, words=words)


def frames_near(wish, workers):
    return min(MOST_FRAMES, max(FEWEST_FRAMES, FRAMES_A_WORKER * workers, wish))
