"""Runs of the program: over a log with a journal of its calls, over what a power cut left, and without a log."""

from __future__ import annotations

import shutil
import tempfile
from collections.abc import Callable, Iterable, Iterator
from contextlib import contextmanager, suppress
from dataclasses import dataclass
from pathlib import Path

from power_trial.disk import Disk, Left
from power_trial.journal import Event, events_in
from program import DONE, Ended, Program, end_of, fed, over, tail_at, want, without_cut

LOG = "log"


@dataclass(frozen=True)
class Run:
    """The disk with which a run began, how it ended, the calls that it made, and the files that are in memory then."""

    disk: Disk
    ended: Ended
    events: list[Event]
    files: Left


# What the caller sends after it has the replies to its questions.
Plan = Callable[[list[bytes]], list[bytes]]


@dataclass(frozen=True)
class Caller:
    """What a caller sends: the catalogue, questions, and then lines that depend on the replies to these. The run has further
    words behind those of the log."""

    catalogue: bytes
    asked: list[bytes]
    plan: Plan
    words: tuple[str, ...] = ()

    def over(self, log: Path) -> list[str]:
        """The words of the run."""
        return [*over(log), *self.words]


def files_in(folder: Path) -> Left:
    return tuple((path.name, path.read_bytes()) for path in sorted(folder.iterdir()))


def by_lines(program: Program, log: Path, caller: Caller) -> Ended:
    """Sends each line after the reply to the line before."""
    running, told = program.start(caller.over(log)), list[bytes]()
    return end_of(running, fed(running, caller.catalogue, lines_after(caller, told), told))


def lines_after(caller: Caller, told: list[bytes]) -> Iterator[bytes]:
    """The questions, and then the lines that depend on what was told."""
    yield from caller.asked
    yield from caller.plan(list(told))


def at_full_speed(program: Program, log: Path, caller: Caller) -> Ended:
    """Sends all lines at once, after the replies to the questions if there are any."""
    if caller.asked:
        return after_questions(program, log, caller)
    lines = log.parent.parent / "lines"
    lines.write_bytes(caller.catalogue + b"".join(caller.plan([])))
    return program.run(caller.over(log), lines)


def after_questions(program: Program, log: Path, caller: Caller) -> Ended:
    """Sends the questions, waits for all replies, and sends the lines at once."""
    running, told = program.start(caller.over(log)), list[bytes]()
    assert running.stdin and running.stdout
    with suppress(BrokenPipeError):
        running.stdin.write(caller.catalogue + b"".join(caller.asked))
        running.stdin.flush()
        told = [running.stdout.readline() for _ in caller.asked]
        running.stdin.write(b"".join(caller.plan(told) if told[-1] else []))
    with suppress(BrokenPipeError):
        running.stdin.close()
    return end_of(running, b"".join(told) + running.stdout.read())


Way = Callable[[Program, Path, Caller], Ended]
WAYS: dict[str, Way] = {"line by line": by_lines, "at full speed": at_full_speed}


@dataclass(frozen=True, eq=False)
class Bench:
    """The program, the same under the library that notes its calls, and a folder for its files."""

    program: Program
    noting: Program
    folder: Path

    @contextmanager
    def place(self) -> Iterator[Path]:
        """An empty folder, for a moment."""
        place = Path(tempfile.mkdtemp(dir=self.folder))
        try:
            yield place
        finally:
            shutil.rmtree(place)

    def noted(self, disk: Disk, way: Way, caller: Caller, fail_at: int = 0) -> Run:
        """A run over the files that are in memory. The sync of this number fails, if it is not 0."""
        with self.place() as place:
            logs, on_disk, noted = place / "logs", place / "disk", place / "journal"
            logs.mkdir()
            on_disk.mkdir()
            disk.lay(logs, on_disk)
            noting = self.noting.under(CUT_JOURNAL=str(noted), CUT_FAIL_AT=str(fail_at), CUT_DISK=str(on_disk))
            tail = tail_at(logs / LOG)
            ended = without_cut(way(noting, logs / LOG, caller), logs / LOG, tail)
            return Run(disk, ended, list(events_in(noted.read_bytes())), files_in(logs))

    def opened(self, left: Left, *inputs: bytes) -> tuple[list[Ended], Left]:
        """How runs end over what a power cut left, one after another, each with an input, and the files after them."""
        with self.place() as place:
            for name, file in left:
                (place / name).write_bytes(file)
            return [self.program.over(place / LOG, given) for given in inputs], files_in(place)

    def replies(self, catalogue: bytes, lines: Iterable[bytes]) -> list[bytes]:
        """The replies without a log."""
        ended = self.program.script(catalogue + b"".join(lines))
        want("a script without a log", (ended.status, ended.faults), (DONE, b""))
        return ended.output.splitlines(keepends=True)
