"""What is loaded before the program: a watch that measures the workers' phase of one that has no clock, from the making of its first thread to the end of its
last join; and a library whose syncs wait for nothing."""
import pathlib
import tempfile

from harness import compiler

LIBRARY, UNSYNCED = compiler.OUT / "watch.so", compiler.OUT / "unsynced.so"
WITHOUT_SYNC = {"LD_PRELOAD": str(UNSYNCED)}


def prepare():
    for library in (LIBRARY, UNSYNCED):
        compiler.compile_to(library, [compiler.BENCH / "watch" / f"{library.stem}.cc"], ["-shared", "-fPIC", "-ldl"])


class Watch:
    """A watch on one run, which has to be given its environment."""

    def __enter__(self):
        self.folder = tempfile.TemporaryDirectory(prefix="vmcache-watch-")
        self.file = pathlib.Path(self.folder.name) / "seconds"
        self.environment = {"LD_PRELOAD": str(LIBRARY), "BENCH_WATCH": str(self.file)}
        return self

    def __exit__(self, *_):
        self.folder.cleanup()

    def seconds(self):
        """What it saw; None where no thread was joined."""
        return float(self.file.read_text(encoding="ascii")) if self.file.exists() else None
