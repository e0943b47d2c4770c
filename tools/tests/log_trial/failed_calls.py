"""Each call of a file, or of a standard stream, fails in turn: `batchctl script --log` loses nothing.

A library of our own (libraries/fail_a_call.c) counts the calls, and fails one of them in each run. Each line is given after the
reply to the one before. Then:

- The run ends with status 4 or 6 and its words on standard error, or the failure cost nothing and the run is as without it. If
  the call is a sync, the run ends with status 6.
- What was written is a beginning of the replies.
- The file has a beginning of the accepted lines, with each whose reply was written. It is opened again and goes on to the same
  end. Or there is no file, and nothing was written.
"""

from __future__ import annotations

import json
import struct
from collections.abc import Iterator, Sequence
from dataclasses import dataclass, replace
from pathlib import Path

from log_trial import log_file
from log_trial.script import accepted_of
from program import CRATE, DONE, FAILED, UNHEARD, UNREAD, Ended, Program, Wrong, cut_of, end_of, fed, over, says_cut, tail_at
from program import want

COMPACT = ("--compact",)


@dataclass(frozen=True)
class Calls:
    """How many calls a run made, and whether the one that failed was a sync."""

    count: int
    failed_sync: bool


@dataclass(frozen=True)
class Failer:
    """The program under libraries of which the last fails its calls, and a folder for its files."""

    program: Program
    folder: Path

    def run(self, lines: list[bytes], fail_at: int = 0, words: tuple[str, ...] = ()) -> tuple[Ended, Calls]:
        """A run over the log in which the call of this number fails (none, if it is 0), and its calls."""
        counted, tail = self.folder / "calls", tail_at(self.log())
        counted.unlink(missing_ok=True)
        running = self.program.under(FAIL_AT=str(fail_at), FAIL_COUNT=str(counted)).start([*over(self.log()), *words])
        told = fed(running, lines[0], lines[1:])
        ended = end_of(running, told)
        count, failed_sync = struct.unpack("=2Q", counted.read_bytes())
        return replace(ended, faults=self.without_cut(ended.faults, tail)), Calls(count, failed_sync == 1)

    def without_cut(self, faults: bytes, tail: bytes) -> bytes:
        """The words on standard error without those that the end of the log is kept, which are true. Their write may fail."""
        says = says_cut(self.log())
        if faults.startswith(says) and cut_of(self.log()).read_bytes() != tail:
            raise Wrong(f"the bytes behind the end of the log were {tail!r}, and {cut_of(self.log()).read_bytes()!r} are kept")
        return b"" if says.startswith(faults) else faults.removeprefix(says)

    def log(self) -> Path:
        return self.folder / "night.log"

    def lay(self, start: bytes | None) -> None:
        """Lays the log that a run begins with, or none."""
        for path in (self.log(), cut_of(self.log()), self.folder / "night.log.new"):
            path.unlink(missing_ok=True)
        if start is not None:
            self.log().write_bytes(start)

    def kept(self, before: Sequence[bytes] = ()) -> list[bytes] | None:
        """The lines of the log, if there is one. A base stands for the first ones of those that were there before."""
        if not self.log().exists():
            return None
        records = log_file.read(self.log().read_bytes()).records
        head = next((json.loads(record.line) for record in records if record.mark == log_file.BASE), {"base": {"count": 0}})
        lines = [record.line for record in records if record.mark == log_file.OPERATION]
        return [*before[: head["base"]["count"]], *lines]


@dataclass(frozen=True)
class Given:
    """A script, the log that it begins with, and further words of the command line."""

    name: str
    lines: list[bytes]
    start: bytes | None
    words: tuple[str, ...] = ()


@dataclass(frozen=True)
class Case:
    """A script over a log: how it ends without a failure, the lines that the log begins with, and those that are accepted."""

    given: Given
    whole: Ended
    before: list[bytes]
    accepted: list[bytes]

    @property
    def lines(self) -> list[bytes]:
        return self.given.lines

    def acknowledged(self, output: bytes) -> int:
        """How many accepted lines were replied to."""
        return len(list(accepted_of(self.lines[1:], output)))


def case_of(failer: Failer, given: Given) -> tuple[Case, int]:
    """A case, and how many calls it makes each time."""
    failer.lay(given.start)
    before = failer.kept() or []
    whole, calls = failer.run(given.lines, words=given.words)
    want(f"{given.name}, with no failure", without_output(whole), Ended(DONE))
    accepted = [line.rstrip(b"\n") for line, _ in accepted_of(given.lines[1:], whole.output)]
    want(f"{given.name}: the log", failer.kept(before), [*before, *accepted])
    return Case(given, whole, before, accepted), calls.count


def check_log(failer: Failer, case: Case, place: str, output: bytes) -> None:
    """The log has a beginning of the accepted lines, with those that were acknowledged, and goes on from there."""
    kept = failer.kept(case.before)
    if kept is None:
        if output:
            raise Wrong(f"{place}: there is no log, and {output!r} was written")
        return
    added, least = kept[len(case.before) :], case.acknowledged(output)
    if kept[: len(case.before)] != case.before or added != case.accepted[: len(added)] or len(added) < least:
        raise Wrong(f"{place}: the log has {kept!r}, and {output!r} was written")
    rest = [line + b"\n" for line in case.accepted[len(added) :]]
    again, _ = failer.run([case.lines[0], *rest])
    if without_output(again) != Ended(DONE) or failer.kept(case.before) != [*case.before, *case.accepted]:
        raise Wrong(f"{place}: the log goes on to {failer.kept(case.before)!r}, with status {again.status}")


def without_output(run: Ended) -> Ended:
    return replace(run, output=b"")


def ends_well(run: Ended, whole: Ended, calls: Calls) -> bool:
    """Whether a run may end so. If a sync failed, what was written may be lost, and nobody may go on."""
    if calls.failed_sync:
        return without_output(run) == FAILED
    return run == whole or without_output(run) in (FAILED, UNREAD, UNHEARD)


def check_call(failer: Failer, case: Case, number: int) -> None:
    """Fails the call of this number."""
    place = f"{case.given.name}, call {number}"
    failer.lay(case.given.start)
    run, calls = failer.run(case.lines, number, case.given.words)
    if not ends_well(run, case.whole, calls):
        what = "a sync failed, " if calls.failed_sync else ""
        raise Wrong(f"{place}: {what}status {run.status}, {run.faults!r}, {run.output!r}")
    if not case.whole.output.startswith(run.output):
        raise Wrong(f"{place}: {run.output!r} is no beginning of the replies")
    check_log(failer, case, place, run.output)


def cases_of(failer: Failer) -> Iterator[Given]:
    """Scripts over a new log, over a sealed one, one at rest and a torn one, and over one that is compacted, and then again."""
    catalogue, *lines = (CRATE / "stdin").read_bytes().splitlines(keepends=True)
    failer.lay(None)
    failer.run([catalogue, *lines[:2]])
    begun = failer.log().read_bytes()
    failer.run([catalogue], words=COMPACT)
    based = failer.log().read_bytes()
    # What a crash leaves before the gate of a batch is opened: it is cut off when the log is opened.
    torn = begun + b" o 00000001 00000001"
    yield Given("a script over a new log", [catalogue, *lines], None)
    yield Given("a script over a sealed log", [catalogue, *lines[2:]], begun)
    yield Given("a script over a log at rest", [catalogue, *lines[2:]], log_file.at_rest(begun))
    yield Given("a script over a torn log", [catalogue, *lines[2:]], torn)
    yield Given("a script over a log that is compacted", [catalogue, *lines[2:]], begun, COMPACT)
    yield Given("a script over a torn log that is compacted", [catalogue, *lines[2:]], torn, COMPACT)
    yield Given("a script over a log with a base", [catalogue, *lines[2:]], based)


def check(failer: Failer) -> Iterator[str]:
    """Fails each call of each case in turn, and tells how many there were."""
    for given in list(cases_of(failer)):
        case, calls = case_of(failer, given)
        for number in range(1, calls + 1):
            check_call(failer, case, number)
        yield f"{given.name}: {calls} calls failed in turn"
