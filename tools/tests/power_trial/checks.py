"""Lays down what a power cut leaves at each moment of a run, opens it, and compares it with the history of the run."""

from __future__ import annotations

import copy
from collections.abc import Callable, Iterator
from concurrent.futures import Future
from dataclasses import dataclass, field
from hashlib import blake2b
from random import Random
from threading import Lock

from power_trial import journal
from power_trial.disk import Disk, Left
from power_trial.runs import LOG, Bench, Run
from power_trial.stories import PROBE, QUESTIONS, Story
from program import CUT, DONE, Ended, Wrong, shown, tail_of, want


def key_of(left: Left, catalogue: bytes) -> bytes:
    digest = blake2b(catalogue)
    for name, file in left:
        digest.update(b"%s %d " % (name.encode(), len(file)) + file)
    return digest.digest()


@dataclass
class Opener:
    """Opens what power cuts left, each folder once."""

    bench: Bench
    lock: Lock = field(default_factory=Lock)
    opened: dict[bytes, Future[list[Ended]]] = field(default_factory=dict)
    moments: int = 0

    def open(self, left: Left, catalogue: bytes) -> list[Ended]:
        """How a run ends that is told the probe, and one after it that is told the questions."""
        key, mine = key_of(left, catalogue), Future[list[Ended]]()
        with self.lock:
            found = self.opened.setdefault(key, mine)
        if found is mine:
            try:
                mine.set_result(self.bench.opened(left, *(catalogue + b"".join(lines) for lines in (PROBE, QUESTIONS)))[0])
            except BaseException as fault:
                mine.set_exception(fault)
        return found.result()


@dataclass
class Trial:
    """What is tried of a row: its moments, and the files that power cuts left. It is over if something is wrong."""

    row: str
    opener: Opener
    seed: int
    is_over: bool = False
    moments: set[tuple[str, int]] = field(default_factory=set)
    files: set[bytes] = field(default_factory=set)

    def draws(self, what: str) -> Random:
        return Random(f"{self.seed} {self.row} {what}")

    def run(self, task: Callable[[], None]) -> None:
        """Runs a part of the row. If it fails, the parts beside it are over too."""
        try:
            task()
        except BaseException:
            self.is_over = True
            raise


@dataclass(frozen=True)
class Moment:
    """The moment after so many calls, at which so many bytes were told. The disk is one of these."""

    number: int
    told: int
    disks: list[Disk]


def moments_of(run: Run, draws: Random) -> Iterator[Moment]:
    """The moments before each call of a file, and the one at the end: of all moments with one disk the one with most told."""
    disks, told = [copy.deepcopy(run.disk)], 0
    for number, event in enumerate(run.events):
        if event.kind == journal.TOLD:
            told += len(event.data)
            continue
        yield Moment(number, told, disks)
        if event.kind in journal.FAILED:
            disks = [after for before in disks for after in before.after_failure(event, draws)]
        for disk in disks:
            disk.apply(event)
    want("the journal: bytes that were told", told, len(run.ended.output))
    want("the journal: files", sorted((name, inode.memory) for name, inode in disks[0].names.items()), list(run.files))
    yield Moment(len(run.events), told, disks)


def check_left(trial: Trial, what: str, story: Story, left: Left, seen: int) -> None:
    """What was left opens with a beginning of the history, which has as many operations as somebody saw."""
    ended, again = trial.opener.open(left, story.book.catalogue)
    trial.files.add(key_of(left, story.book.catalogue))
    sizes = {name: len(file) for name, file in left}
    if (ended.status, ended.faults) != (DONE, b""):
        raise Wrong(f"{what} leaves {sizes}, and status {ended.status}: {shown(ended.output)}, {ended.faults!r}")
    count = story.book.counts(story.history, PROBE).get(ended.output)
    if count is None:
        raise Wrong(f"{what} leaves {sizes}, and no beginning of the accepted calls: {shown(ended.output)}")
    if count < seen:
        raise Wrong(f"{what} leaves {sizes} with {count} accepted calls, and {seen} were seen")
    last = ended.output.splitlines(keepends=True)[-len(QUESTIONS) :]
    want(f"{what} leaves {sizes}, opened and opened again", again, Ended(DONE, b"".join(last)))


def check_tail(what: str, before: bytes, left: Left) -> None:
    """The log with which a run began is there as it was, or the bytes behind its end are kept, if there were any."""
    files, tail = dict(left), tail_of(before)
    if tail and files.get(LOG) != before and files.get(LOG + CUT) != tail:
        sizes = {name: len(file) for name, file in left}
        raise Wrong(f"{what} leaves {sizes}, and lost the {len(tail)} bytes behind the end of the log")


def check_moments(trial: Trial, what: str, story: Story, run: Run, before: bytes = b"") -> None:
    """A power cut at each moment of a run leaves what it may. If a log was on the disk before the run, it is `before`."""
    draws = trial.draws(what)
    for moment in moments_of(run, draws):
        if trial.is_over:
            return
        trial.moments.add((what, moment.number))
        for disk in moment.disks:
            for left in disk.left(draws):
                place = f"{what}, a power cut after {moment.number} calls"
                check_tail(place, before, left)
                check_left(trial, place, story, left, story.seen(moment.told))
