"""Runs one process under a limit of time, and tells what it printed and what it cost."""
import dataclasses
import os
import pathlib
import resource
import shutil
import signal
import subprocess
import tempfile
import time

from harness.console import Failure


@dataclasses.dataclass(frozen=True)
class Ran:
    """What a run printed and cost: seconds by the wall's clock, seconds of processor, and the most kibibytes that it held at once."""

    output: str
    wall: float
    processor: float
    peak: int


def scratch_folder(place=None):
    """A folder at this place; else in memory where the machine has one, so that no engine waits for a disk that the others do not use."""
    memory = pathlib.Path("/dev/shm")
    if place is None and memory.is_dir() and os.access(memory, os.W_OK):
        place = memory
    return tempfile.TemporaryDirectory(prefix="vmcache-bench-", dir=place)


def run(words, limit, environment):
    """Runs the words for at most `limit` seconds. The peak comes from the tool `time`, since a child of this script would be given the script's own size as
    its least."""
    with tempfile.NamedTemporaryFile("r") as peak:
        before, start = processor_of_children(), time.perf_counter()
        child = started([shutil.which("time"), "--quiet", "--format=%M", f"--output={peak.name}", *words], environment)
        output, errors = ended(child, name_of(words), limit)
        wall, processor = time.perf_counter() - start, processor_of_children() - before
        if child.returncode != 0:
            said = (errors or output).strip().splitlines()
            raise Failure(f"{name_of(words)} ended with {child.returncode}: {said[0] if said else 'it said nothing'}")
        return Ran(output, wall, processor, int(peak.read()))


def started(words, environment):
    """A child in a group of its own, so that it can be ended with all that it starts."""
    pipe = subprocess.PIPE
    return subprocess.Popen(
        words, stdin=subprocess.DEVNULL, stdout=pipe, stderr=pipe, env={**os.environ, **environment}, text=True, start_new_session=True
    )


def ended(child, name, limit):
    """What the child printed by its end."""
    try:
        return child.communicate(timeout=limit)
    except subprocess.TimeoutExpired:
        raise Failure(f"{name} did not end within {limit} s") from None
    finally:
        if child.returncode is None:
            os.killpg(child.pid, signal.SIGKILL)
            child.communicate()


def processor_of_children():
    """The seconds of processor of all children that have ended."""
    usage = resource.getrusage(resource.RUSAGE_CHILDREN)
    return usage.ru_utime + usage.ru_stime


def name_of(words):
    return pathlib.Path(words[0]).name
