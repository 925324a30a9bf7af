"""What a measurement was made on: numbers mean nothing without it."""
import datetime
import os
import pathlib
import platform
import subprocess
import tempfile
import time

from harness import compiler

LOAD_OF_AN_IDLE_MACHINE = 0.5
SYNCS = 100


def first_line(*words):
    """What a command says first, or nothing where it can't be run."""
    try:
        return subprocess.run(words, capture_output=True, text=True, timeout=30, cwd=compiler.BENCH).stdout.strip().split("\n")[0]
    except (OSError, subprocess.TimeoutExpired):
        return ""


def value_in(path, key):
    """The value of the first line `key : value` of a file of the kernel."""
    try:
        for line in pathlib.Path(path).read_text(encoding="utf-8").splitlines():
            name, colon, value = line.partition(":")
            if colon and name.strip() == key:
                return value.strip()
    except OSError:
        pass
    return "unknown"


def load():
    """The mean number of running threads in the last minute."""
    return os.getloadavg()[0]


def warning():
    """What to say where the machine has other work; else nothing."""
    if load() > LOAD_OF_AN_IDLE_MACHINE:
        return f"the machine is not idle (load {load():.1f}): the numbers will say little"
    return ""


def in_short():
    """Processors, day and state, for the foot of a picture."""
    return f"{os.cpu_count()} x {value_in('/proc/cpuinfo', 'model name')}, commit {commit()}, {datetime.date.today()}"


def in_full():
    """The same with memory, system and compiler."""
    memory = value_in("/proc/meminfo", "MemTotal").split()[0]
    gibibytes = f"{int(memory) / 2**20:.0f} GiB" if memory.isdigit() else "memory unknown"
    return f"{in_short()}, {gibibytes}, {platform.system()} {platform.release()}, {first_line('g++', '--version')}"


def file_system(place):
    return first_line("findmnt", "--noheadings", "--output", "FSTYPE", "--target", place) or "an unknown file system"


def milliseconds_of_sync(place):
    """How long a write of 512 bytes and its sync take in a file of this folder: the mean of a hundred."""
    with tempfile.TemporaryFile(dir=place, buffering=0) as file:
        start = time.perf_counter()
        for _ in range(SYNCS):
            file.write(bytes(512))
            os.fdatasync(file.fileno())
        return (time.perf_counter() - start) / SYNCS * 1000


def commit():
    """The commit that is checked out, and whether a file of it is changed."""
    changed = " with changes" if first_line("git", "status", "--porcelain", "--untracked-files=no") else ""
    return (first_line("git", "rev-parse", "--short", "HEAD") or "unknown") + changed


def version_of(package):
    return first_line("dpkg-query", "--show", "--showformat=${Version}", package) or "of unknown version"
