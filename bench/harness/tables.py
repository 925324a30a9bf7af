"""The tables of a measurement, in Markdown and as comma-separated values."""
import collections
import csv
import statistics

from harness import program, rounds, served, space

OURS = program.Program.name
NONE = "-"

Speed = collections.namedtuple("Speed", "best median")
Cost = collections.namedtuple("Cost", "wall processor peak")


def speeds_of(samples, part, calls):
    """Calls a second of the workers' phase, by engine and number of workers. What of the phase is not the calls' is taken off by its own least or median."""
    found = collections.defaultdict(list)
    for sample in samples:
        if sample.part == part:
            found[sample.engine, sample.workers].append(sample)
    seconds = {setting: [seconds_by(middle, runs) for middle in (min, statistics.median)] for setting, runs in found.items()}
    return {setting: Speed(calls / least, calls / median) for setting, (least, median) in seconds.items() if least > 0 and median > 0}


def seconds_by(middle, samples):
    """The seconds of the calls: the least, or the median, of all runs."""
    return middle(sample.phase for sample in samples) - middle(sample.before for sample in samples)


def engines_by_speed(speeds):
    """The engines, the fastest with the most workers first."""
    workers = {engine: max(count for name, count in speeds if name == engine) for engine, _ in speeds}
    return sorted(workers, key=lambda engine: (-workers[engine], -speeds[engine, workers[engine]].median))


def ratio(speeds, engine, workers):
    """An engine's speed by the program's at as many workers, by their medians."""
    if (engine, workers) not in speeds or (OURS, workers) not in speeds:
        return None
    return speeds[engine, workers].median / speeds[OURS, workers].median


def short(calls_a_second):
    if calls_a_second >= 1e6:
        return f"{calls_a_second / 1e6:.2f} M"
    return f"{calls_a_second / 1e3:.0f} k"


def speed_table(part, speeds, titles):
    """A row an engine: calls a second, the median and in brackets the best, and the ratio to the program, for each number of workers."""
    head = ["engine"]
    for workers in part.workers:
        head += [f"{workers} worker{'s' if workers > 1 else ''}", "by ours"]
    rows = []
    for engine in engines_by_speed(speeds):
        row = [f"**{titles[engine]}**" if engine == OURS else titles[engine]]
        for workers in part.workers:
            speed, by_ours = speeds.get((engine, workers)), ratio(speeds, engine, workers)
            row += [f"{short(speed.median)} ({short(speed.best)})" if speed else NONE, f"{by_ours:.2f}" if by_ours else NONE]
        rows.append(row)
    return markdown(head, rows)


def costs_of(samples):
    """What whole runs with four workers cost, by engine and frames: medians of the times, and the largest peak."""
    found = collections.defaultdict(list)
    for sample in samples:
        is_cost = sample.part == rounds.COST
        if is_cost or (sample.part == rounds.PARTS[0].name and sample.engine != OURS and sample.workers == rounds.COST_WORKERS):
            found[sample.engine, sample.frames if is_cost else None].append(sample)
    return {
        setting: Cost(statistics.median(s.wall for s in runs), statistics.median(s.processor for s in runs), max(s.peak for s in runs))
        for setting, runs in found.items()
    }


def cost_table(costs, titles):
    """A row an engine, ours by frames first and then the peers by their processor time."""
    rows = []
    for engine, frames in sorted(costs, key=lambda it: (it[0] != OURS, it[1] or 0, costs[it].processor)):
        cost = costs[engine, frames]
        title = f"**{titles[engine]}**, {frames:,} frames" if frames else titles[engine]
        rows.append([title, f"{cost.wall:.2f} s", f"{cost.processor:.2f} s", f"{cost.peak / 1024:.0f} MiB"])
    return markdown(["engine, 4 workers", "whole run", "user and system", "peak resident"], rows)


def space_table(spaces, titles):
    """A row an engine: the bytes of the filled map's pages, and those behind each kind of calls, with the ratio of the two."""
    head = ["engine", "filled", *(kind.title for kind in space.KINDS)]
    rows = []
    for engine in dict.fromkeys(engine for engine, _ in spaces):
        told = [spaces.get((engine, kind.name)) for kind in space.KINDS]
        filled = next(before for before, _ in filter(None, told))
        cells = [f"{kilobytes(cell[1])} ({cell[1] / cell[0]:.2f})" if cell else NONE for cell in told]
        rows.append([f"**{titles[engine]}**" if engine == OURS else titles[engine], kilobytes(filled), *cells])
    return markdown(head, rows)


def served_table(runs, titles):
    """A row an engine and mode: seconds of a whole run, the median and in brackets the best, for each number of workers, and what else one worker's run cost."""
    workers_heads = (f"{workers} worker{'s' if workers > 1 else ''}" for workers in served.WORKERS)
    head = ["engine", "sync", *workers_heads, "user and system", "peak resident", "files"]
    rows = []
    for engine, mode in dict.fromkeys((run.engine, run.mode) for run in runs):
        of_row = [run for run in runs if (run.engine, run.mode) == (engine, mode)]
        cells = [seconds_cell([run.wall for run in of_row if run.workers == workers]) for workers in served.WORKERS]
        title = f"**{titles[engine]}**" if engine == OURS else titles[engine]
        rows.append([f"{title}, {mode.title}", served.SYNCS[mode.sync], *cells, *costs_of_served([run for run in of_row if run.workers == 1])])
    return markdown(head, rows)


def costs_of_served(runs):
    """The processor's time, the largest peak and the bytes of the files."""
    if not runs:
        return [NONE] * 3
    peak, size = max(run.peak for run in runs), max(run.bytes for run in runs)
    return [f"{statistics.median(run.processor for run in runs):.2f} s", f"{peak / 1024:.0f} MiB", kilobytes(size)]


def seconds_cell(seconds):
    return f"{statistics.median(seconds):.2f} s ({min(seconds):.2f} s)" if seconds else NONE


def kilobytes(count):
    return f"{count / 1000:,.0f} kB"


def markdown(head, rows):
    lines = [head, ["---"] * len(head), *rows]
    return "\n".join(f"| {' | '.join(line)} |" for line in lines) + "\n"


def write_runs(path, samples):
    """Each run, as it was measured."""
    with open(path, "w", newline="", encoding="utf-8") as file:
        writer = csv.writer(file)
        writer.writerow(["part", "round", "engine", "workers", "frames", "workers_seconds", "before_seconds", "run_seconds", "processor_seconds", "peak_kibibytes"])
        for sample in samples:
            times = [f"{seconds:.6f}" if seconds is not None else "" for seconds in (sample.phase, sample.before, sample.wall, sample.processor)]
            writer.writerow([sample.part, sample.round, sample.engine, sample.workers, sample.frames, *times, sample.peak])


def write_speeds(path, speeds_by_part):
    """Each cell of the tables of speeds."""
    with open(path, "w", newline="", encoding="utf-8") as file:
        writer = csv.writer(file)
        writer.writerow(["part", "engine", "workers", "best_calls_a_second", "median_calls_a_second", "median_by_ours"])
        for part, speeds in speeds_by_part.items():
            for engine, workers in sorted(speeds):
                speed, by_ours = speeds[engine, workers], ratio(speeds, engine, workers)
                writer.writerow([part, engine, workers, f"{speed.best:.0f}", f"{speed.median:.0f}", f"{by_ours:.3f}" if by_ours else ""])


def write_spaces(path, spaces):
    """Each cell of the table of space."""
    with open(path, "w", newline="", encoding="utf-8") as file:
        writer = csv.writer(file)
        writer.writerow(["engine", "calls", "bytes_before", "bytes_behind"])
        writer.writerows([engine, kind, *told] for (engine, kind), told in spaces.items())


def write_served(path, runs):
    """Each run on a file, as it was measured."""
    with open(path, "w", newline="", encoding="utf-8") as file:
        writer = csv.writer(file)
        writer.writerow(["round", "engine", "mode", "sync", "workers", "run_seconds", "processor_seconds", "peak_kibibytes", "bytes_of_files"])
        for run in runs:
            writer.writerow([run.round, run.engine, run.mode.title, run.mode.sync, run.workers, f"{run.wall:.6f}", f"{run.processor:.6f}", run.peak, run.bytes])
