"""The runs of a measurement, in turn: round 1 of all engines, then round 2 of all, so that what the machine does meanwhile meets them alike."""
import dataclasses
import functools
import typing

from harness import dictionary, machine, program, ranges, served, space, turnover, workload
from harness.console import Failure, say


@dataclasses.dataclass(frozen=True)
class Part:
    """One table of churn: its name, what it shows, the numbers of workers, how a run is set by pairs and workers, and whether it wants engines whose memory can
    be bounded."""

    name: str
    title: str
    workers: tuple
    job: typing.Callable
    is_bounded: bool
    runs_a_round = 1

    @property
    def heading(self):
        return f"churn: {self.title.lower()}"

    def engines_of(self, engines):
        """Those of the engines that can take part."""
        return [engine for engine in engines if engine.churns and self.takes(engine)]

    def takes(self, engine):
        return engine.can_be_bounded or not self.is_bounded

    def calls_of(self, pairs):
        return workload.calls_of(pairs)

    def note_of(self, pairs):
        """What a reader of the table has to know that churn does not tell."""
        return ""

    def run(self, engine, job, limit):
        """Seconds of the workers' phase, or None where it was not seen; of these, the seconds that are not the calls'; and what the run cost."""
        seconds, ran = engine.run(job, limit)
        return seconds, 0.0, ran


class RangesPart(Part):
    """The table of ranges. Its runs are short, so each round has more of them."""

    runs_a_round = 5

    @property
    def heading(self):
        return self.title

    def takes(self, engine):
        return engine.has_ranges

    def calls_of(self, pairs):
        return ranges.RANGES

    def note_of(self, pairs):
        return f"Ranges: {ranges.RANGES:,} a run on a map of {pairs:,} pairs, {self.runs_a_round} runs a round. "

    def run(self, engine, job, limit):
        return engine.run_ranges(job, limit)


class TurnoverPart(Part):
    """The table of the turnover: of engines that answer their writes, or it would not be known that the calls were made."""

    @property
    def heading(self):
        return self.title

    def takes(self, engine):
        return engine.answers_writes

    def calls_of(self, pairs):
        return turnover.calls_of(pairs)

    def note_of(self, pairs):
        return f"Turnover: {turnover.calls_of(pairs):,} puts and dels on a map of {pairs:,} pairs. "

    def run(self, engine, job, limit):
        return engine.run_turnover(job, limit)


class WordsPart(Part):
    """The table of words as keys."""

    @property
    def heading(self):
        return f"{self.title}, all pages in memory"

    def takes(self, engine):
        return engine.has_words

    def note_of(self, pairs):
        version, mean = machine.version_of(dictionary.PACKAGE), dictionary.bytes_a_word(pairs)
        return f"Words: the first {pairs:,} of {dictionary.PACKAGE} {version} in a fixed order, of {mean:.1f} bytes in the mean. "

    def run(self, engine, job, limit):
        return engine.run_words(job, limit)


PARTS = (
    Part("resident", "All pages in memory", (1, 2, 4), workload.resident_job, is_bounded=False),
    Part("tenth", "Frames for a tenth of the pages", (1, 4), workload.tenth_job, is_bounded=True),
    RangesPart("ranges", f"Ranges of {ranges.PAIRS_A_RANGE} pairs, all pages in memory", (1, 4), workload.resident_job, is_bounded=False),
    TurnoverPart("turnover", "A file near full whose pairs are turned over, all pages in memory", (1, 4), turnover.job, is_bounded=False),
    WordsPart(dictionary.NAME, "Words as keys", (1, 4), dictionary.job, is_bounded=False),
)
SPACE = "space"
COST = "cost"
COST_WORKERS = 4
COST_FRAMES = (workload.FEWEST_FRAMES, workload.MOST_FRAMES)


@dataclasses.dataclass(frozen=True)
class Sample:
    """One run of an engine: seconds of the workers' phase (None until it is worked out), of these the seconds that are not the calls', seconds of the whole run and
    of processor, and the peak in kibibytes."""

    part: str
    round: int
    engine: str
    workers: int
    frames: int
    phase: float | None
    before: float
    wall: float
    processor: float
    peak: int


class Rounds:
    """The samples and bytes so far, and the settings that an engine failed at, each with the cause: these are not tried again."""

    def __init__(self, pairs, limit):
        self.pairs, self.limit = pairs, limit
        self.samples, self.spaces, self.served, self.failures, self.was_ended_by_hand = [], {}, [], {}, False

    def measure(self, part, engine, job, number, run=PARTS[0].run):
        """One run, unless it failed before."""
        ended = self.tried(part, engine, job, f"round {number}, {part}", lambda: run(engine, job, self.limit))
        if ended:
            phase, before, ran = ended
            self.samples.append(Sample(part, number, engine.name, job.workers, job.frames, phase, before, ran.wall, ran.processor, ran.peak))

    def tried(self, part, engine, job, title, run):
        """What the run gives; None where it failed, now or before."""
        setting = (part, engine.name, job.workers, job.frames)
        if setting in self.failures:
            return None
        say(f"{title}: {engine.name}, workers {job.workers}, frames {job.frames}")
        try:
            return run()
        except Failure as failure:
            say(f"left out from here on: {failure}")
            self.failures[setting] = str(failure)
            return None

    def run_part(self, part, engines, number):
        """One round of a part."""
        for workers in part.runs_a_round * part.workers:
            for engine in part.engines_of(engines):
                self.measure(part.name, engine, part.job(self.pairs, workers, engine.words), number, part.run)

    def run_cost(self, engine, number):
        """One round of the program alone, with the fewest frames and with the most."""
        for frames in COST_FRAMES:
            self.measure(COST, engine, workload.Job(self.pairs, COST_WORKERS, frames, bounded=False, words=engine.words), number)

    def run_served(self, engines, calls, number):
        """One round of the engines that serve files."""
        for workers in served.WORKERS:
            for engine, mode in served.modes_of(engines, workers):
                job = served.Job(calls, workers, mode.frames)
                title = f"{served.NAME}, {mode.title}, sync {mode.sync}"
                run = functools.partial(engine.run_served, mode, job, self.limit)
                told = self.tried(title, engine, job, f"round {number}, {title}", run)
                if told:
                    ran, size = told
                    self.served.append(served.Run(number, engine.name, mode, workers, ran.wall, ran.processor, ran.peak, size))

    def run_space(self, engines):
        """The bytes of each engine that tells them, before and behind the calls of each kind: once, since neither time nor another worker has a part in them."""
        for engine in space.engines_of(engines):
            job = space.job(self.pairs, engine.words)
            for kind in space.KINDS:
                told = self.tried(SPACE, engine, job, f"{SPACE}, {kind.name}", lambda kind=kind: engine.run_space(kind, job, self.limit))
                if told:
                    self.spaces[engine.name, kind.name] = told

    def completed(self):
        """The samples, with the phase worked out where it was not seen, and without those of which it cannot be."""
        phases = (self.phase_of(sample) for sample in self.samples)
        return [dataclasses.replace(sample, phase=phase) for sample, phase in zip(self.samples, phases) if phase is not None]

    def phase_of(self, sample):
        """What was seen, or what the runs of the same engine with more workers tell; or None."""
        if sample.phase is not None:
            return sample.phase
        others = [
            (other.wall, other.phase)
            for other in self.samples
            if (other.part, other.engine) == (sample.part, sample.engine) and other.phase is not None
        ]
        return program.phase_of_one_worker(sample.wall, others)
