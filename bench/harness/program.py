"""The repository's own program, as one of the engines: how it is built, and how its workers' phase is measured though it has no clock."""
import os
import pathlib
import subprocess

from harness import compiler, dictionary, process, ranges, served, space, turnover, watch, workload
from harness.console import Failure

TOP = compiler.BENCH.parent
BUILD_SECONDS = 3 * 60 * 60
PROBE_PAIRS = 10
# With one worker the program makes no thread that could be seen. A second one without a call changes nothing else.
LEAST_WORKERS_SEEN = 2


class Program:
    """With a path the program there is measured, and else the repository's own; on pages of so many words."""

    name = "vmcache"
    title = "vmcache (this repository)"
    can_be_bounded = True
    has_ranges = True
    answers_writes = True
    tells_bytes = True
    has_words = True
    churns = True
    modes = served.PROGRAM
    words = workload.SMALL_PAGE

    def __init__(self, path=None):
        self.path = pathlib.Path(path).resolve() if path else TOP / "crates" / "vmcache" / "out" / "vmcache"
        # The repository's launcher builds the program where it is missing or older than its sources.
        self.launcher = self.path if path else TOP / "vmcache"

    def prepare(self):
        """Builds the program and the watch, and looks at the answer of a small run."""
        watch.prepare()
        words = [self.launcher, *words_of(workload.resident_job(PROBE_PAIRS, 2, self.words))]
        try:
            probe = subprocess.run(words, stdout=subprocess.PIPE, text=True, timeout=BUILD_SECONDS)
        except (OSError, subprocess.TimeoutExpired) as refusal:
            raise Failure(f"the program could not be built or run: {refusal}") from None
        if probe.returncode != 0:
            raise Failure(f"{self.launcher.name} ends a small churn with status {probe.returncode} and '{probe.stdout.strip()}'")
        workload.require_summary(self.name, probe.stdout.strip(), PROBE_PAIRS)

    def run(self, job, limit):
        """Seconds of the workers, or None with one worker, which makes no thread; and what the run cost. Its summary is right, else it has failed."""
        with watch.Watch() as seen:
            ran = self.ran(*words_of(job), limit=limit, environment=seen.environment)
            seconds = seen.seconds()
        workload.require_summary(self.name, ran.output.strip(), job.pairs)
        if job.workers > 1 and seconds is None:
            raise Failure(f"{self.name} made no thread that could be seen, so its workers' phase is not known")
        return seconds, ran

    def run_ranges(self, job, limit):
        """Seconds of the workers that first bring all pages into memory and then make the ranges, seconds of the same without the ranges, and what the run of
        both cost. Each reply is right, else it has failed."""
        with process.scratch_folder() as folder:
            image, gets = pathlib.Path(folder) / "image", ranges.get_lines(job)
            self.make(image, workload.pages_needed(job.pairs, job.words), job.pairs, job, limit)
            before, _ = self.run_script(image, gets, job, limit)
            seconds, ran = self.run_script(image, gets + ranges.range_lines(job), job, limit)
        ranges.require_replies(self.name, ran.output.splitlines(), job)
        return seconds, before, ran

    def run_turnover(self, job, limit):
        """Seconds of the workers, nothing that is to be taken off, and what the run cost. Each reply is right and so is each row, else it has failed."""
        script = turnover.script_of(job.pairs, job.workers)
        with process.scratch_folder() as folder:
            image = pathlib.Path(folder) / "image"
            self.make(image, turnover.pages_of(job.pairs, job.words), job.pairs, job, limit)
            seconds, ran = self.run_script(image, script.lines, job, limit)
        script.require_replies(self.name, ran.output.splitlines())
        return seconds, 0.0, ran

    def run_words(self, job, limit):
        """Seconds of the workers, nothing that is to be taken off, and what the run cost. Each reply is right and so is each row, else it has failed."""
        script = dictionary.script_of(job.pairs, job.workers)
        with process.scratch_folder() as folder:
            image = pathlib.Path(folder) / "image"
            self.ran("make-bytes", image, dictionary.pages_of(job.pairs), limit=limit)
            seconds, ran = self.run_script(image, script.lines, job, limit)
        script.require_replies(self.name, ran.output.splitlines())
        return seconds, 0.0, ran

    def run_space(self, kind, job, limit):
        """The bytes of the pages in use once the map is filled, and once the calls are made. Each reply is right and so is each row, else it has failed."""
        with process.scratch_folder() as folder:
            image = pathlib.Path(folder) / "image"
            self.make(image, workload.image_pages(job.pairs, job.words), 0, job, limit)
            scripts = space.filling(job.pairs), space.script_of(kind, job.pairs)
            return tuple(self.pages_behind(image, script, job, limit) * job.words * workload.BYTES_A_WORD for script in scripts)

    def pages_behind(self, image, script, job, limit):
        """How many pages of the file are in use once the calls of the script are made and kept there."""
        _, ran = self.run_script(image, script.lines, job, limit, "--keep", image)
        script.require_replies(self.name, ran.output.splitlines())
        return script.pages_in_use(self.name, self.ran("check", image, limit=limit).output.splitlines())

    def run_served(self, mode, job, limit):
        """What the run cost, and the bytes of the file. Each reply is right, and so is each row of the file behind it, else it has failed."""
        script = served.script_of(job.calls, job.workers)
        with served.folder() as folder:
            image, calls = (pathlib.Path(folder) / name for name in ("image", "script"))
            self.make(image, served.PAGES, served.PAIRS, job, limit)
            words = ["serve", image, served.write_script(calls, script), "--workers", job.workers, "--frames", job.frames]
            os.sync()
            ran = self.ran(*words, limit=limit, environment=watch.WITHOUT_SYNC if mode.sync == served.NEVER else {})
            script.require_replies_alone(self.name, ran.output.splitlines())
            script.pages_in_use(self.name, self.ran("check", image, limit=limit).output.splitlines())
            return ran, image.stat().st_size

    def make(self, image, pages, pairs, job, limit):
        self.ran("make", image, pages, pairs, workload.SEED, *size_of(job), limit=limit)

    def ran(self, *words, limit, environment=None):
        return process.run([str(self.path), *map(str, words)], limit, environment or {})

    def run_script(self, image, lines, job, limit, *more):
        """Seconds of the workers, and what the run cost."""
        script = image.with_name("script")
        script.write_text("".join(lines), encoding="ascii")
        workers = max(job.workers, LEAST_WORKERS_SEEN)
        with watch.Watch() as seen:
            ran = self.ran("run", image, script, "--workers", workers, "--frames", job.frames, *more, limit=limit, environment=seen.environment)
            seconds = seen.seconds()
        if seconds is None:
            raise Failure(f"{self.name} made no thread that could be seen, so its workers' phase is not known")
        return seconds, ran


class LargePages(Program):
    """The program on pages of 4 KiB."""

    name = "vmcache512"
    title = "vmcache, pages of 4 KiB"
    # A file with byte keys has these pages anyway.
    has_words = False
    modes = ()
    words = workload.LARGE_PAGE


def words_of(job):
    return ["churn", str(job.pairs), str(workload.SEED), "--workers", str(job.workers), "--frames", str(job.frames), *size_of(job)]


def size_of(job):
    """The words that say the size of a page. Programs of before know pages of one size alone."""
    return [] if job.words == workload.SMALL_PAGE else ["--words", str(job.words)]


def phase_of_one_worker(wall, others):
    """The workers' phase of a run with one worker, by its wall time and the (wall, phase) of runs with more workers on the same input: what is not the phase
    (building, writing back, counting) is the same work in all of them, done by one thread. The least that it took is taken off, so that the phase is never
    made too short. None where nothing can be said: the others are none, or all runs are so short that they differ by chance."""
    rests = [other_wall - phase for other_wall, phase in others]
    if not rests or wall <= min(rests):
        return None
    return wall - min(rests)
