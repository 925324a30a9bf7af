"""The other engines, and this repository's own library, which is linked and run as they are: their packages, their programs, and how one is run."""
import contextlib
import dataclasses
import os
import pathlib

from harness import calls, compiler, dictionary, packages, process, ranges, served, space, turnover, workload
from harness.console import Failure

SOURCES = compiler.BENCH / "peers"
SHARED_SOURCES = ("main.cc", "calls.cc", "churn.cc", "ranges.cc", "served.cc", "words.cc", "workers.cc")


@dataclasses.dataclass(frozen=True)
class Peer:
    """An engine: its name on the command line, its name in tables, its own source files, what it needs of Debian, whether its memory can be bounded, whether it
    has ranges of one moment, whether its writes look and so are answered, whether it counts its pages, whether it is given words as keys, whether it makes other
    calls than those on a file that stays, in which modes it makes these, and what a reader of its numbers has to know."""

    name: str
    title: str
    sources: tuple
    package: str = ""
    header: str = ""
    library: str = ""
    can_be_bounded: bool = False
    has_ranges: bool = True
    answers_writes: bool = True
    tells_bytes: bool = False
    has_words: bool = False
    churns: bool = True
    modes: tuple = ()
    remark: str = ""
    # A library of the repository's own that it is linked with, which a run of the gate leaves.
    archive: pathlib.Path | None = None
    # Its memory is bounded to the bytes of the program's frames of this size.
    words: int = workload.SMALL_PAGE

    def run(self, job, limit, environment=None):
        """Seconds of the workers by the peer's own clock, and what the run cost. Its summary is right, else it has failed."""
        with process.scratch_folder() as folder:
            summary, seconds, ran = self.ended(self.words_for(job, folder), limit, environment or {})
        workload.require_summary(self.name, summary, job.pairs)
        return seconds, ran

    def run_ranges(self, job, limit):
        """Seconds of the workers by the peer's own clock for the ranges once, nothing that is to be taken off, and what the run cost. Its summary is right, else it
        has failed."""
        summary, seconds, ran = self.run_script(ranges.range_lines(job), job, limit, ranges.TIMES_OF_PEERS)
        ranges.require_summary_of_peer(self.name, summary, job.pairs)
        return seconds / ranges.TIMES_OF_PEERS, 0.0, ran

    def run_turnover(self, job, limit):
        """Seconds of the workers by the peer's own clock, nothing that is to be taken off, and what the run cost. Its summary is right, else it has failed."""
        _, seconds, ran = self.run_calls(turnover.script_of(job.pairs, job.workers), job, limit)
        return seconds, 0.0, ran

    def run_words(self, job, limit):
        """Seconds of the workers by the peer's own clock, nothing that is to be taken off, and what the run cost. Its summary is right, else it has failed."""
        with folder_beside(dictionary.text_of(job.pairs)) as (folder, file):
            summary, seconds, ran = self.ended([program_of(self), dictionary.NAME, job.workers, folder, file], limit, {})
        right = dictionary.summary_of_peer(dictionary.script_of(job.pairs, job.workers), self.answers_writes)
        calls.require_lines(self.name, summary.split("\n"), right)
        return seconds, 0.0, ran

    def run_space(self, kind, job, limit):
        """The bytes of the pages that hold the map once it is filled, and once the calls are made. Its summary is right, else it has failed."""
        told, _, _ = self.run_calls(space.script_of(kind, job.pairs), job, limit)
        if len(told) != 1 or not told[0].startswith("bytes "):
            raise Failure(f"{self.name} tells of its pages {told}")
        return tuple(map(int, told[0].split()[1:]))

    def run_calls(self, script, job, limit):
        """The lines that it tells of its pages, its seconds, and what the run cost."""
        summary, seconds, ran = self.run_script(script.lines, job, limit)
        lines = summary.split("\n")
        script.require_summary_of_peer(self.name, lines[:2])
        return lines[2:], seconds, ran

    def run_script(self, lines, job, limit, *more):
        """What it printed as its summary and its seconds, and what the run cost."""
        with folder_beside("".join(lines).encode("ascii")) as (folder, script):
            return self.ended([*self.words_for(job, folder), script, *more], limit, {})

    def run_served(self, mode, job, limit):
        """What the run cost, and the bytes of its files. Its summary is right, and so is that of the rows that it leaves, else it has failed."""
        script = served.script_of(job.calls, job.workers)
        with served.folder() as folder:
            own_folder = pathlib.Path(folder) / "store"
            own_folder.mkdir()
            words = [served.PAIRS, workload.SEED, job.workers, own_folder, served.write_script(pathlib.Path(folder) / "script", script), mode.word]
            self.step("fill", words, limit)
            os.sync()
            ran = self.step("serve", words, limit)
            size = sum(file.stat().st_size for file in own_folder.iterdir())
            script.require_summary_of_peer(self.name, [ran.output.strip(), self.step("rows", words, limit).output.strip()])
            return ran, size

    def step(self, step, words, limit):
        return process.run([str(word) for word in (program_of(self), step, *words)], limit, {})

    def words_for(self, job, folder):
        return [program_of(self), job.pairs, workload.SEED, job.workers, folder, job.cache_bytes]

    def ended(self, words, limit, environment):
        """What it printed as its summary and its seconds, and what the run cost."""
        ran = process.run([str(word) for word in words], limit, environment)
        summary, _, seconds = ran.output.strip().partition("\nseconds ")
        return summary, float(seconds), ran


# Seen in a profile of Debian 12's library: sync points, assertions and counters at each comparison of keys.
DEBUG_BUILD = "RocksDB as Debian 12 builds it has its aids for debugging in it, which cost it much: these numbers say little of a build without them."
LIBRARY = compiler.BENCH.parent / "crates" / "vm_c" / "out" / "libburnetroof.a"
PEERS = (
    Peer("library", "this repository's C library", ("burnetroof.cc",), can_be_bounded=True, archive=LIBRARY),
    Peer("olc", "B+-tree, plain C++", ("olc.cc", "olc_tree.cc"), has_ranges=False, tells_bytes=True),
    Peer("map", "std::map, one mutex", ("map.cc",)),
    Peer("lmdb", "LMDB", ("lmdb.cc",), "liblmdb-dev", "lmdb.h", "lmdb", tells_bytes=True, has_words=True, modes=served.TRANSACTION_A_CALL),
    Peer(
        "sqlite", "SQLite", ("sqlite.cc",), "libsqlite3-dev", "sqlite3.h", "sqlite3", churns=False, modes=served.TRANSACTION_A_CALL + served.ONE_TRANSACTION
    ),
    Peer("wiredtiger", "WiredTiger", ("wiredtiger.cc",), "libwiredtiger-dev", "wiredtiger.h", "wiredtiger", can_be_bounded=True, has_words=True),
    Peer(
        "rocksdb", "RocksDB", ("rocksdb.cc",), "librocksdb-dev", "rocksdb/db.h", "rocksdb", can_be_bounded=True, answers_writes=False, remark=DEBUG_BUILD
    ),
    Peer(
        "leveldb", "LevelDB", ("leveldb.cc",), "libleveldb-dev", "leveldb/db.h", "leveldb", can_be_bounded=True, answers_writes=False, has_words=True
    ),
    Peer("berkeleydb", "Berkeley DB", ("berkeleydb.cc",), "libdb-dev", "db.h", "db", can_be_bounded=True, tells_bytes=True),
)


@contextlib.contextmanager
def folder_beside(content):
    """An empty folder for an engine, and beside it a file with this content."""
    with process.scratch_folder() as scratch:
        folder, file = pathlib.Path(scratch) / "store", pathlib.Path(scratch) / "calls"
        file.write_bytes(content)
        folder.mkdir()
        yield folder, file


def program_of(peer):
    return compiler.OUT / "peers" / peer.name


def prepare(peer, may_install):
    """Makes the peer's program."""
    if peer.header and not compiler.has_header(peer.header):
        packages.install(peer.package, may_install)
        if not compiler.has_header(peer.header):
            raise Failure(f"{peer.package} was installed, but the compiler finds no {peer.header}")
    if peer.archive and not peer.archive.exists():
        raise Failure(f"{peer.archive.name} is not there: .ci/library builds it after a run of the gate")
    libraries = [f"-l{peer.library}"] if peer.library else [peer.archive] if peer.archive else []
    sources = [SOURCES / source for source in (*SHARED_SOURCES, *peer.sources)]
    compiler.compile_to(program_of(peer), sources, libraries, [*sorted(SOURCES.glob("*.h")), *([peer.archive] if peer.archive else [])])
