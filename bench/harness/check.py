"""The test of the harness: small runs of all engines, whose summaries must be right, and the two clocks beside each other."""
from harness import calls, dictionary, program, ranges, rounds, served, space, turnover, watch, workload
from harness.console import Failure, say

PAIRS = 1_000
PAIRS_OF_THE_CLOCKS = 100_000
CALLS = 1_000  # on the served file
# Between the watch and a peer's own clock lie the start and the end of threads: on a busy machine some turns of its scheduler.
APART = 0.1


def check(engines, parts, limit):
    """0 where all is right, else 1; says each step that is wrong."""
    faults = [*faults_of_sizes(), *faults_of_lines(), *faults_of_turnover(), *faults_of_kinds(), *faults_of_gets(), *faults_of_words()]
    for part in rounds.PARTS:
        if part.name not in parts:
            continue
        taking_part = part.engines_of(engines)
        faults += faults_of_part(part, taking_part, limit)
        say(f"{part.name} with {', '.join(map(str, part.workers))} workers: {', '.join(engine.name for engine in taking_part)}")
    if rounds.SPACE in parts:
        faults += faults_of_space(space.engines_of(engines), limit)
    if served.NAME in parts:
        faults += faults_of_served(engines, limit)
    faults += faults_of_watch(engines, limit)
    for fault in faults:
        say(f"wrong: {fault}")
    say("all is right" if not faults else f"{len(faults)} wrong")
    return 1 if faults else 0


def faults_of_part(part, engines, limit):
    """Runs that did not end well, or with another summary."""
    for engine in engines:
        for workers in part.workers:
            try:
                part.run(engine, part.job(PAIRS, workers, engine.words), limit)
            except Failure as failure:
                yield f"{part.name} with {workers} workers: {failure}"


def faults_of_space(engines, limit):
    """Runs that did not end well, or with another map; and a program that does not give pages back where most pairs are taken out."""
    for engine in engines:
        for kind in space.KINDS:
            try:
                before, behind = engine.run_space(kind, space.job(PAIRS, engine.words), limit)
            except Failure as failure:
                yield f"{rounds.SPACE}, {kind.name}: {failure}"
                continue
            if isinstance(engine, program.Program) and kind.name == "most" and behind >= before:
                yield f"{rounds.SPACE}, {kind.name}: {engine.name} has {before} bytes before, and {behind} behind"
    say(f"{rounds.SPACE}: {', '.join(engine.name for engine in engines)}")


def faults_of_served(engines, limit):
    """Runs that did not end well, or with another summary or other rows in the file."""
    for workers in served.WORKERS:
        for engine, mode in served.modes_of(engines, workers):
            try:
                engine.run_served(mode, served.Job(CALLS, workers, mode.frames), limit)
            except Failure as failure:
                yield f"{served.NAME} with {workers} workers, {mode.title}, sync {mode.sync}: {failure}"
    say(f"{served.NAME}: {', '.join(engine.name for engine in engines if engine.modes)}")


def faults_of_sizes():
    """Values worked out by hand: a summary, and pages of page files."""
    if workload.summary_of(10) != "churn 10 calls 25 some 10 new 10 gone 5 rows 15 sum 80":
        yield f"the summary of ten pairs is '{workload.summary_of(10)}'"
    small, large = workload.SMALL_PAGE, workload.LARGE_PAGE
    for pairs, words, pages in (
        (0, small, 2), (20, small, 2), (29, small, 4), (1_500, small, 81), (100_000, small, 5_265),
        (0, large, 2), (180, large, 2), (1_500, large, 11), (100_000, large, 562),
    ):  # fmt: skip
        if workload.pages_needed(pairs, words) != pages:
            yield f"{pairs} pairs are said to need {workload.pages_needed(pairs, words)} pages of {words} words, and need {pages}"


def faults_of_lines():
    """Lines of ranges worked out by hand, of a map that is shorter than a range."""
    rows = [(1, 1), (7_806_831_264_735_756_412, 2), (9_396_908_728_118_811_419, 3)]
    if ranges.rows_of(3) != rows:
        yield f"the rows of three pairs are {ranges.rows_of(3)}"
    job = workload.resident_job(3, 2, workload.SMALL_PAGE)
    lines = ranges.range_lines(job)
    if len(lines) != ranges.RANGES or lines[:2] != ["0 range 1 end\n", "1 range 1 end\n"]:
        yield f"{len(lines)} ranges of three pairs begin with {lines[:2]}"
    right = [f"{worker} {number} range 3 1=1 {rows[1][0]}=2 {rows[2][0]}=3" for worker in range(2) for number in range(ranges.RANGES // 2)]
    for wrong in (right[:-1], [*right[:-1], right[-1].removesuffix("3") + "4"]):
        if is_taken(wrong, job):
            yield f"{len(wrong)} replies to ranges are taken, the last as '{wrong[-1]}'"
    if not is_taken(right, job):
        yield "the right replies to ranges are not taken"


def is_taken(lines, job):
    try:
        ranges.require_replies("", lines, job)
    except Failure:
        return False
    return True


def faults_of_turnover():
    """The turnover of three pairs by two workers, worked out by hand: a run and a chain of each pair, the new key behind that of the next chain."""
    _, (middle, _), (last, _) = ranges.rows_of(3)
    first = [(1, None), (middle + 1, 4), (last, None), (2, 6), (middle + 1, None), (last + 2, 7), (2, None), (middle + 2, 9)]
    second = [(middle, None), (last + 1, 5), (last + 1, None), (3, 8)]
    script = turnover.script_of(3, 2)
    if script.lists != [first, second]:
        yield f"the turnover of three pairs is {script.lists}"
    if script.lines[:2] != ["0 del 1\n", f"0 put {middle + 1} 4\n"]:
        yield f"the lines of a turnover begin with {script.lines[:2]}"
    summary = ["calls 12 some 0 read 0 new 6 gone 6", f"rows 3 keys {(3 + middle + 2 + last + 2) % ranges.NUMBERS} sum 24"]
    if [script.summary_of_calls, script.summary_of_rows] != summary:
        yield f"the summary of a turnover is '{script.summary_of_calls}', '{script.summary_of_rows}'"
    replies = [*(f"0 {place} {reply}" for place, reply in enumerate(("gone 1", "new", "gone 3", "new", "gone 4", "new", "gone 6", "new"), 1))]
    replies += [*(f"1 {place} {reply}" for place, reply in enumerate(("gone 2", "new", "gone 5", "new"), 1))]
    right = [*replies, "row 3 8", f"row {middle + 2} 9", f"row {last + 2} 7", "counters reads 5 writes 5 faults 0 evicted 0"]
    for wrong in ([*right[:7], "0 8 full", *right[8:]], [*right[:12], *right[13:]], right[:-1], [*right, right[-1]]):
        if are_taken(script.require_replies, wrong):
            yield f"replies to a turnover are taken where {right} are right: {wrong}"
    if not are_taken(script.require_replies, right):
        yield "the right replies to a turnover are not taken"


def are_taken(require, lines):
    try:
        require("", lines)
    except Failure:
        return False
    return True


def faults_of_gets():
    """Gets and puts of one worker on one pair, worked out by hand; and of the served calls how many are puts, and whose keys they have."""
    script = calls.Script([(1, 5)], [[(1, calls.GET), (2, calls.GET), (2, 7), (2, calls.GET), (1, 9)]])
    right = ["0 1 some 5", "0 2 none", "0 3 new", "0 4 some 7", "0 5 was 5", "counters reads 2 writes 1 faults 0 evicted 0"]
    for wrong in ([*right[:3], "0 4 some 5", *right[4:]], [*right[:4], right[5]], right[:5], [*right[:5], "row 1 9", right[5]]):
        if are_taken(script.require_replies_alone, wrong):
            yield f"replies to gets and puts are taken where {right} are right: {wrong}"
    if not are_taken(script.require_replies_alone, right):
        yield "the right replies to gets and puts are not taken"
    summary = ["calls 5 some 2 read 12 new 1 gone 0", "rows 2 keys 3 sum 16"]
    if not are_taken(script.require_summary_of_peer, summary) or are_taken(script.require_summary_of_peer, summary[:1]):
        yield "the right summary of gets and puts is not taken, or a half of it is"
    for workers in served.WORKERS:
        lists = served.script_of(CALLS, workers).lists
        if sum(value is not calls.GET for by_worker in lists for _, value in by_worker) != CALLS // 2:
            yield f"not half of {CALLS} served calls are puts"
        if any(key not in served.keys_of(worker, workers) for worker, by_worker in enumerate(lists) for key, _ in by_worker):
            yield f"one of {workers} workers has a key of another one"


def faults_of_words():
    """Five words, worked out by hand: the third and the fourth are the second worker's, and the second and the fourth are taken out."""
    words = [b"b", b"a", b"ab", b"c", "\u00e9".encode()]
    first = [("62", 1), ("61", 2), ("c3a9", 5), ("62", calls.GET), ("61", calls.GET), ("c3a9", calls.GET), ("61", None)]
    second = [("6162", 3), ("63", 4), ("6162", calls.GET), ("63", calls.GET), ("63", None)]
    script = dictionary.script_from(words, 2)
    if script.lists != [first, second]:
        yield f"the calls on five words are {script.lists}"
    replies = [*(f"0 {place} {reply}" for place, reply in enumerate(("new", "new", "new", "some 1", "some 2", "some 5", "gone 2"), 1))]
    replies += [*(f"1 {place} {reply}" for place, reply in enumerate(("new", "new", "some 3", "some 4", "gone 4"), 1))]
    right = [*replies, "row 6162 3", "row 62 1", "row c3a9 5", "counters reads 3 writes 3 faults 0 evicted 0"]
    for wrong in ([*right[:6], "0 7 none", *right[7:]], [*right[:12], right[13], right[12], *right[14:]], [*right[:14], right[15]], right[:-1]):
        if are_taken(script.require_replies, wrong):
            yield f"replies to calls on words are taken where {right} are right: {wrong}"
    if not are_taken(script.require_replies, right):
        yield "the right replies to calls on words are not taken"
    for workers in (1, 2, 4):
        summary = dictionary.summary_of_peer(dictionary.script_from(words, workers), True)
        if summary != ["calls 12 some 5 read 15 rows 3 sum 9", "new 5 gone 2"]:
            yield f"the summary of five words by {workers} workers is {summary}"


def faults_of_kinds():
    """What is taken out of ten pairs, by the number of the rows that are left, and whether a file's pages are told."""
    for kind, left in zip(space.KINDS, (5, 5, 1, 10)):
        if len(space.script_of(kind, 10).rows) != left:
            yield f"{kind.name} leaves {len(space.script_of(kind, 10).rows)} of ten rows, and not {left}"
    right = ["row 1 1", f"row {ranges.rows_of(3)[1][0]} 2", f"row {ranges.rows_of(3)[2][0]} 3", "tree height 0 used 2 rows 3"]
    if space.filling(3).pages_in_use("", right) != 2:
        yield f"the pages in use are not read in '{right[-1]}'"


def faults_of_watch(engines, limit):
    """The watch must see what a peer's own clock sees. Only a peer that starts no threads but its workers can show it."""
    for engine in engines:
        if engine.name != "olc":
            continue
        watch.prepare()
        with watch.Watch() as seen:
            own, _ = engine.run(workload.resident_job(PAIRS_OF_THE_CLOCKS, 4, engine.words), limit, seen.environment)
            seconds = seen.seconds()
        if seconds is None or not own <= seconds <= own + APART:
            yield f"the watch saw {seconds} seconds where the peer's own clock saw {own}"
