"""What is measured of space: the bytes of the pages that hold a map filled by puts, and of those that hold what is left behind dels.

A map is filled by puts of its places in turn, whose keys come in no order, by one worker. Of each kind its calls are made on such a map, by one worker too."""
import dataclasses
import functools
import typing

from harness import calls, ranges, turnover, workload


@dataclasses.dataclass(frozen=True)
class Kind:
    """One column: its name, its title, and its calls by the number of pairs."""

    name: str
    title: str
    calls_of: typing.Callable


def dels_in_no_order(pairs, count):
    keys = [key for key, _ in ranges.rows_of(pairs)]
    return [(key, None) for key in turnover.in_no_order(keys, ranges.numbers_from(workload.SEED + 1))[:count]]


def half_of_all(pairs):
    return dels_in_no_order(pairs, pairs // 2)


def nine_tenths_of_all(pairs):
    return dels_in_no_order(pairs, pairs * 9 // 10)


def every_second_run(pairs):
    return [(key, None) for keys in turnover.runs_of(pairs)[::2] for key in keys]


def turnover_by_one(pairs):
    return turnover.script_of(pairs, 1).lists[0]


KINDS = (
    Kind("half", "half out, in no order", half_of_all),
    Kind("runs", "half out, in runs", every_second_run),
    Kind("most", "nine tenths out, in no order", nine_tenths_of_all),
    Kind("turnover", "turned over", turnover_by_one),
)


def engines_of(engines):
    """Those of the engines that count their pages."""
    return [engine for engine in engines if engine.tells_bytes]


def job(pairs, words):
    """The one worker's run, whose pages all have a frame."""
    return workload.resident_job(pairs, 1, words)


@functools.lru_cache(maxsize=1)
def filling(pairs):
    """The puts that fill the map."""
    return calls.Script((), [sorted(ranges.rows_of(pairs), key=lambda row: row[1])])


@functools.lru_cache(maxsize=len(KINDS))
def script_of(kind, pairs):
    return calls.Script(ranges.rows_of(pairs), [kind.calls_of(pairs)])
