"""The table of what is tried: the log with which a run begins, what happens to the run, and how its caller sends lines."""

from __future__ import annotations

import copy
from collections.abc import Callable, Iterator
from concurrent.futures import Executor
from dataclasses import dataclass, replace
from functools import cache, partial
from itertools import islice
from random import Random

from log_trial.log_file import at_rest
from power_trial.checks import Opener, Trial, check_moments, moments_of
from power_trial.disk import Disk, Left, folder_of
from power_trial.journal import FOLDER_SYNC, SYNC, SYNCS
from power_trial.lines import BEFORE, CATALOGUE, FIRST, GROWN, LARGE, SMALL, night_of
from power_trial.runs import LOG, WAYS, Bench, Caller, Run
from power_trial.stories import QUESTIONS, Book, Night, Story, story_of
from program import DONE, LOG_FAILED, Ended, Wrong, side_by_side, tail_of, want

# A run that goes on after a failure, a kill or a power cut is told so many lines.
MORE = 3
# So many torn logs are repaired under another power cut.
REPAIRED = 10


@dataclass(frozen=True)
class Start:
    """A night, the files with which its run begins, those of its lines that the run is told, and further words of the run."""

    night: Night
    left: Left
    begin: int
    words: tuple[str, ...] = ()

    def lines(self) -> tuple[bytes, ...]:
        return self.night.lines[self.begin : self.begin + FIRST]

    def story(self) -> Story:
        before = self.night.history(self.begin)
        return story_of(self.night.book, before, self.lines(), len(before))

    def log(self) -> bytes:
        """The log, which is on the disk; nothing if there is none."""
        return dict(self.left).get(LOG, b"")


def night_over(bench: Bench, catalogue: bytes, sizes: tuple[int, int]) -> Night:
    return Night(Book(bench, catalogue), tuple(night_of(1, sizes)), tuple(night_of(2, sizes)))


def new_log(bench: Bench, sizes: tuple[int, int]) -> Start:
    return Start(night_over(bench, CATALOGUE, sizes), (), 0)


def old_log(bench: Bench, sizes: tuple[int, int], catalogue: bytes = CATALOGUE) -> Start:
    """A log of the first lines, over which a run is told the next ones."""
    (ended,), left = bench.opened((), CATALOGUE + b"".join(night_of(1, sizes)[:BEFORE]))
    want("a log that is made", (ended.status, ended.faults), (DONE, b""))
    return Start(night_over(bench, catalogue, sizes), left, BEFORE)


def log_at_rest(bench: Bench, sizes: tuple[int, int]) -> Start:
    """A log that isn't sealed, as a run leaves it that was killed between two calls."""
    start = old_log(bench, sizes)
    return replace(start, left=((LOG, at_rest(start.log())),))


def torn_log(bench: Bench, sizes: tuple[int, int]) -> Start:
    """A log that a power cut tore in a run over it: the longest with bytes behind its end that has the same operations."""
    start = old_log(bench, sizes)
    run, book = first_run(bench, start, "line by line"), start.night.book
    before = b"".join(book.replies(start.story().before, QUESTIONS))
    lefts = {left for moment in moments_of(run, Random(0)) for disk in moment.disks for left in disk.left(Random(0))}
    given = book.catalogue + b"".join(QUESTIONS)
    torn = [left for left in lefts if tail_of(dict(left)[LOG]) and bench.opened(left, given)[0] == [Ended(DONE, before)]]
    return replace(start, left=max(torn, key=lambda left: (len(dict(left)[LOG]), left)))


def compacted_log(bench: Bench, sizes: tuple[int, int]) -> Start:
    """A log that is compacted before a run is told lines."""
    return replace(old_log(bench, sizes), words=("--compact",))


def torn_compacted_log(bench: Bench, sizes: tuple[int, int]) -> Start:
    """A torn log that is compacted before a run is told lines."""
    return replace(torn_log(bench, sizes), words=("--compact",))


def log_with_a_base(bench: Bench, sizes: tuple[int, int]) -> Start:
    """A log that was compacted before."""
    start = old_log(bench, sizes)
    caller = Caller(start.night.book.catalogue, [], lambda _: [], ("--compact",))
    run = bench.noted(folder_of(start.left), WAYS["line by line"], caller)
    want("a log that is compacted", run.ended, Ended(DONE))
    return replace(start, left=run.files)


def old_draft(bench: Bench, sizes: tuple[int, int]) -> Start:
    """No log, and a draft that an earlier run left: it is longer than the new log."""
    ((_, file),) = old_log(bench, sizes).left
    return replace(new_log(bench, sizes), left=((f"{LOG}.new", file),))


STARTS: dict[str, Callable[[Bench, tuple[int, int]], Start]] = {
    "a new log": new_log,
    "a new log beside a draft": old_draft,
    "a log": old_log,
    "a log at rest": log_at_rest,
    "a torn log": torn_log,
    "a log whose catalogue grows": partial(old_log, catalogue=GROWN),
    "a log that is compacted": compacted_log,
    "a torn log that is compacted": torn_compacted_log,
    "a log with a base": log_with_a_base,
}


@cache
def start_of(bench: Bench, begin: str, sizes: tuple[int, int]) -> Start:
    return STARTS[begin](bench, sizes)


def first_run(bench: Bench, start: Start, way: str, fail_at: int = 0) -> Run:
    """A run of the row's lines. If a sync fails, it may end early; its replies are a beginning of the due ones then."""
    caller = Caller(start.night.book.catalogue, [], lambda _: list(start.lines()), start.words)
    run = bench.noted(folder_of(start.left), WAYS[way], caller, fail_at)
    told = start.story().told()
    if not fail_at:
        want("a run", run.ended, Ended(DONE, told))
    elif run.ended.status not in (DONE, LOG_FAILED) or not told.startswith(run.ended.output):
        raise Wrong(f"sync {fail_at} fails: {run.ended}")
    return run


def second_run(trial: Trial, start: Start, disk: Disk, way: str, least: int) -> tuple[Run, Story]:
    """A run that goes on on the second day, after the operations that the log has by its replies to the questions."""
    night, history = start.night, start.story().history
    counts, told_lines = night.book.counts(history, QUESTIONS), list[bytes]()

    def plan(told: list[bytes]) -> list[bytes]:
        count = counts.get(b"".join(told))
        told_lines.extend(night.rest(count)[:MORE] if count is not None else [])
        return told_lines

    run = trial.opener.bench.noted(disk, WAYS[way], Caller(night.book.catalogue, list(QUESTIONS), plan, start.words))
    answers = b"".join(run.ended.output.splitlines(keepends=True)[: len(QUESTIONS)])
    count = counts.get(answers)
    if count is None or count < least:
        raise Wrong(f"a second run has {count} accepted calls, and {least} were seen: {run.ended}")
    story = story_of(night.book, history[:count], [*QUESTIONS, *told_lines], least)
    want("a second run", run.ended, Ended(DONE, story.told()))
    return run, story


def check_second(trial: Trial, what: str, start: Start, disk: Disk, way: str, least: int) -> None:
    """A power cut at each moment of a second run, which begins with this disk."""
    try:
        run, story = second_run(trial, start, disk, way, least)
    except Wrong as wrong:
        raise Wrong(f"{what}: {wrong}") from wrong
    check_moments(trial, f"{what}, another run", story, run)


Task = Callable[[], None]


def a_run(trial: Trial, start: Start, way: str) -> Iterator[Task]:
    """A power cut at each moment of a run."""
    yield partial(check_moments, trial, "a run", start.story(), first_run(trial.opener.bench, start, way), start.log())


def repaired(trial: Trial, start: Start, way: str) -> Iterator[tuple[Left, int]]:
    """What power cuts leave that the program changes as it opens it, in any order, with the operations that were seen."""
    found, draws = dict[Left, int](), trial.draws("repaired")
    for moment in moments_of(first_run(trial.opener.bench, start, way), draws):
        for disk in moment.disks:
            found.update(dict.fromkeys(disk.left(draws), start.story().seen(moment.told)))
    for left in draws.sample(list(found), len(found)):
        if trial.opener.bench.opened(left, start.night.book.catalogue)[1] != left:
            yield left, found[left]


def a_power_cut_and_another_run(trial: Trial, start: Start, way: str) -> Iterator[Task]:
    """A power cut at each moment of a run that first repairs what an earlier power cut left."""
    for number, (left, least) in enumerate(islice(repaired(trial, start, way), REPAIRED)):
        yield partial(check_second, trial, f"torn log {number}", start, folder_of(left), way, least)


def failed_runs(trial: Trial, start: Start, way: str, kind: str) -> Iterator[tuple[str, Run]]:
    """A run in which a sync fails, for each sync of a kind."""
    bench = trial.opener.bench
    syncs = [event.kind for event in first_run(bench, start, way).events if event.kind in SYNCS]
    for number in [number for number, found in enumerate(syncs, 1) if found == kind]:
        yield f"sync {number} fails", first_run(bench, start, way, number)


def a_failed_sync(trial: Trial, start: Start, way: str, kind: str = SYNC) -> Iterator[Task]:
    """A power cut at each moment of a run in which a sync of the file fails."""
    for what, run in failed_runs(trial, start, way, kind):
        yield partial(check_moments, trial, what, start.story(), run, start.log())


def a_failed_sync_and_another_run(trial: Trial, start: Start, way: str, kind: str = SYNC) -> Iterator[Task]:
    """A power cut at each moment of a run that is started after one in which a sync of the file failed."""
    for what, run in failed_runs(trial, start, way, kind):
        *_, end = moments_of(run, trial.draws(what))
        for number, disk in enumerate(end.disks):
            least = start.story().seen(end.told)
            yield partial(check_second, trial, f"{what}, disk {number}", start, disk, way, least)


def a_failed_sync_of_the_folder(trial: Trial, start: Start, way: str) -> Iterator[Task]:
    """The same with a sync of the folder."""
    yield from a_failed_sync(trial, start, way, FOLDER_SYNC)


def a_failed_sync_of_the_folder_and_another_run(trial: Trial, start: Start, way: str) -> Iterator[Task]:
    """The same with a sync of the folder."""
    yield from a_failed_sync_and_another_run(trial, start, way, FOLDER_SYNC)


def a_kill_and_another_run(trial: Trial, start: Start, way: str) -> Iterator[Task]:
    """A power cut at each moment of a run that is started after one that was killed."""
    for moment in moments_of(first_run(trial.opener.bench, start, way), trial.draws("kills")):
        what, least = f"a kill after {moment.number} calls", start.story().seen(moment.told)
        yield partial(check_second, trial, what, start, copy.deepcopy(moment.disks[0]), way, least)


Event = Callable[[Trial, Start, str], Iterator[Task]]


@dataclass(frozen=True)
class Row:
    """The log with which a run begins, what happens to the run before the power cut, and how its caller sends lines."""

    begin: str
    event: Event
    way: str

    def name(self) -> str:
        return f"{self.begin}, {self.event.__name__.replace('_', ' ')}, {self.way}"

    def tasks(self, trial: Trial) -> Iterator[Task]:
        """The parts of the row, which may be tried side by side."""
        is_large = self.event is a_run and self.way == "at full speed"
        return self.event(trial, start_of(trial.opener.bench, self.begin, LARGE if is_large else SMALL), self.way)

    def tried(self, opener: Opener, seed: int, pool: Executor) -> Trial:
        """Tries all parts of the row side by side, and returns what it had."""
        trial = Trial(self.name(), opener, seed)
        try:
            side_by_side(pool, (partial(trial.run, task) for task in self.tasks(trial)))
        except Wrong as wrong:
            raise Wrong(f"seed {seed}: {self.name()}, {wrong}") from wrong
        return trial


# The logs with which a run begins, by what happens to it.
TABLE: dict[Event, list[str]] = {
    a_run: list(STARTS),
    a_power_cut_and_another_run: ["a new log", "a log", "a log whose catalogue grows", "a log that is compacted"],
    a_failed_sync: ["a new log", "a log", "a torn log", "a log that is compacted"],
    a_failed_sync_of_the_folder: ["a new log", "a torn log", "a log that is compacted"],
    a_kill_and_another_run: ["a new log", "a log", "a torn log", "a log that is compacted"],
    a_failed_sync_and_another_run: ["a new log", "a log", "a torn log"],
    a_failed_sync_of_the_folder_and_another_run: ["a new log"],
}


def rows() -> Iterator[Row]:
    yield from (Row(begin, event, way) for way in WAYS for event, begins in TABLE.items() for begin in begins)
