"""Runs of `batchctl` in which a request for memory is refused: nothing is lost.

A library of our own (libraries/refuse_a_request.c) counts the program's requests, and refuses one of them. Each case runs twice
with no refusal, and must make as many requests both times. Then each of these requests is refused, one in each run:

- The run ends with status 5 and `batchctl: out of memory`, and it has written the replies to the lines before.
- Or it ends with status 2, if the request came while the command line was read, and it has written nothing.
- Or it writes all replies, since the program goes on with less.
- Or an artifact faults: all replies are written, and the line of one job execution says how far its step came.

A script over a log is such a case too. Then the file has its records, the catalogue that grew, and just the accepted lines
whose replies were written. If no reply was written, it may be as it was before. A file that is refused stays as it was. A log
that is compacted first has a base and those lines, or it goes on as it was, and standard error says so.

No later request may end the run at an earlier line, each line must be the one at which some request was refused, and each
fault must come of some request. A log must have been left both unopened and opened.
"""

from __future__ import annotations

import json
import sys
from concurrent.futures import ThreadPoolExecutor
from dataclasses import dataclass, field, replace
from pathlib import Path
from threading import get_ident

from log_trial.log_file import BASE, CATALOGUE, OPERATION, SHUT, Record, catalogue_record, log_of, operation_record, read
from log_trial.script import Script, accepted_of
from program import CRATE, DONE, FAULTY_CATALOGUE, LOG_REFUSED, Ended, Program, Wrong, cut_of, over, says_cut, tail_of
from repository import ROOT

STARTS, SCRIPT, CHECKED = (Path(__file__).with_name(f"growth.{ending}") for ending in ("run", "script", "check"))
# What is told of the catalogue of `CHECKED`.
FAULT = b'{"byte":71,"fault":"NoSuchTarget","job":0,"member":"jobs[0].elements[0].next"}\n'
# A script that goes on from a log with so many of its lines. Its replies were worked out by hand.
CONTINUED = ROOT / "cases" / "scripts" / "stopped_chunk.script"
BEGUN = 10
# A job that its catalogue does not have.
ANOTHER_JOB = b'{"id":"sums","elements":[{"kind":"step","id":"s","batchlet":{"ref":"ok"}}]}'

LACKS_MEMORY = (5, b"batchctl: out of memory\n")
NOT_COMPACTED = b"batchctl: the log is not compacted: out of memory\n"
REFUSED_COMMAND_LINE = (2, b"error: out of memory\n")


@dataclass(frozen=True)
class Log:
    """A log that a run begins with: its bytes, if there is a file, and the records that it has after it was opened. A log that
    is refused has none of them."""

    name: str
    before: bytes | None
    opened: tuple[Record, ...] = ()
    words: tuple[str, ...] = ()

    def has_all(self, files: set[bytes | None]) -> bool:
        """Whether these are the file before it is opened, and after that."""
        return files == {self.before, log_of(self.opened) if self.opened else self.before}

    def may_become(self, file: bytes | None, output: bytes, added: list[Record]) -> bool:
        """Whether a run may leave this file, if it wrote this output and accepted the lines of these records."""
        if self.opened and file == log_of([*self.opened, *added]):
            return True
        return file == self.before and not (self.opened and output)


def has_base(file: bytes | None, operations: int, added: list[Record]) -> bool:
    """Whether a file is a log with a base that stands for so many operations, and these records behind it."""
    records = read(file).records if file else []
    base = [record for record in records if record.mark == BASE]
    if not base or records[0].mark != CATALOGUE or [*base, *added] != records[1:]:
        return False
    return bool(json.loads(base[0].line)["base"]["count"] == operations)


@dataclass(frozen=True)
class CompactedLog(Log):
    """A log that is compacted before its lines are answered. If memory is refused then, it goes on as it was."""

    words: tuple[str, ...] = ("--compact",)

    def is_compacted(self, file: bytes | None, added: list[Record]) -> bool:
        return has_base(file, sum(record.mark == OPERATION for record in self.opened), added)

    def has_all(self, files: set[bytes | None]) -> bool:
        return self.before in files and any(self.is_compacted(file, []) for file in files)

    def may_become(self, file: bytes | None, output: bytes, added: list[Record]) -> bool:
        return super().may_become(file, output, added) or self.is_compacted(file, added)


@dataclass(frozen=True)
class Case:
    """Words of the command line with an input, over a log or not. A fault of an artifact may leave one of these lines. If a
    script goes on from a log, the input is a part of it, and this status and output are due."""

    words: tuple[str, ...]
    path: Path
    faulted: frozenset[bytes] = field(default=frozenset())
    log: Log | None = None
    part: bytes | None = None
    due: tuple[int, bytes | None] = (DONE, None)

    def name(self) -> str:
        return str(self.path.relative_to(ROOT)) + (f" over {self.log.name}" if self.log else "")

    def given(self) -> bytes:
        """The input."""
        return self.path.read_bytes() if self.part is None else self.part

    def accepted(self, output: bytes) -> list[Record]:
        """The records of the lines that are accepted, by their replies: calls that are neither refused nor answered with
        nothing."""
        lines = [line for line in self.given().splitlines()[1:] if line]
        return [operation_record(line, reply) for line, reply in accepted_of(lines, output)]

    def may_leave(self, run: Run) -> bool:
        """Whether the run may leave its log as it is."""
        if self.log is None:
            return True
        if run.ends_as(REFUSED_COMMAND_LINE):
            return run.log == self.log.before
        return self.log.may_become(run.log, run.output, self.accepted(run.output))

    def is_due(self, run: Run) -> bool:
        """Whether a run with all memory ends so."""
        status, output = self.due
        cut = tail_of(self.log.before) if self.log and self.log.before and self.log.opened else b""
        return run.ends_as((status, b"")) and output in (None, run.output) and run.cut == cut

    def may_fault_to(self, wanted: bytes, found: bytes) -> bool:
        """Whether this is what is written if an artifact of one job execution faulted."""
        lines, others = wanted.splitlines(keepends=True), found.splitlines(keepends=True)
        differ = [other for line, other in zip(lines, others) if line != other]
        return len(lines) == len(others) and len(differ) == 1 and differ[0] in self.faulted


@dataclass(frozen=True)
class Run(Ended):
    """A run of the program: how it ended, the bytes of its log, if it has one, and those that were cut off; and whether the log
    was compacted, if that was asked for."""

    log: bytes | None = None
    cut: bytes = b""
    is_compacted: bool = True

    def ends_as(self, ending: tuple[int, bytes]) -> bool:
        return (self.status, self.faults) == ending

    def replies(self) -> int:
        return self.output.count(b"\n")


@dataclass(frozen=True)
class Refuser:
    """The program under the library that counts and refuses its requests for memory, and a folder for its files."""

    program: Program
    folder: Path

    def run(self, case: Case, number: int = 0) -> tuple[Run, int]:
        """A run in which the request of this number is refused (none, if it is 0), and how many requests there were."""
        log, lines, counted = (self.folder / f"{name}-{get_ident()}" for name in ("log", "lines", "requests"))
        lines.write_bytes(case.given())
        for path in (log, cut_of(log)):
            path.unlink(missing_ok=True)
        if case.log and case.log.before is not None:
            log.write_bytes(case.log.before)
        words = [*over(log), *case.log.words] if case.log else case.words
        ended = self.program.under(REFUSE_AT=str(number), REFUSE_COUNT=str(counted)).run(words, lines)
        requests = int.from_bytes(counted.read_bytes() if counted.exists() else b"", sys.byteorder)
        left = log.read_bytes() if log.exists() else None
        cut = cut_of(log).read_bytes() if ended.faults.startswith(says_cut(log)) else b""
        faults = ended.faults.removeprefix(NOT_COMPACTED).removeprefix(says_cut(log))
        return Run(ended.status, ended.output, faults, left, cut, not ended.faults.startswith(NOT_COMPACTED)), requests

    def whole(self, case: Case) -> tuple[Run, int]:
        """A run with no refusal, and how many requests it makes each time."""
        (whole, requests), again = self.run(case), self.run(case)
        if not whole.output or not case.is_due(whole) or not case.may_leave(whole):
            raise Wrong(f"{case.name()}, with all memory: {whole}")
        if again != (whole, requests):
            raise Wrong(f"{case.name()}, with all memory: {requests} requests, then {again[1]}, or other replies")
        return whole, requests

    def refusing(self, case: Case, number: int) -> Run:
        """A run in which the request of this number is refused."""
        run, requests = self.run(case, number)
        if requests < number:
            raise Wrong(f"{case.name()}: {requests} requests, and no. {number} was to be refused")
        return run


def failed_line(execution: int, counts: dict[str, int]) -> bytes:
    """The line of a job execution whose first step failed, with its counts; those of 0 are left out."""
    failed = {"status": "FAILED", "exit": "FAILED"}
    step = {"step": "c", "metrics": {name: count for name, count in counts.items() if count}, **failed}
    told = {"execution": execution, "steps": [step], **failed}
    return json.dumps(told, separators=(",", ":"), sort_keys=True).encode() + b"\n"


def faulted_lines(execution: int) -> set[bytes]:
    """The lines of a job of `STARTS` in which an artifact was refused memory: in a chunk that keeps the odd ones of five
    items, in groups of two, behind so many reported groups (beginning and opening take no memory). The batchlet takes none:
    its exit status is shared."""
    names = ("COMMIT_COUNT", "READ_COUNT", "FILTER_COUNT", "WRITE_COUNT", "ROLLBACK_COUNT")
    groups = [dict(zip(names, counts)) for counts in [(0, 0, 0, 0, 1), (1, 2, 1, 1, 1), (2, 4, 2, 2, 1)]]
    return {failed_line(execution, counts) for counts in groups}


def over_new_log(path: Path) -> Case:
    """A script over a log that it makes."""
    catalogue = path.read_bytes().splitlines()[0]
    return Case(("script",), path, log=Log("a log", None, (catalogue_record(catalogue),)))


def continued() -> Script:
    """The script that goes on from a log, with its replies."""
    catalogue, *lines = CONTINUED.read_bytes().splitlines()
    replies = CONTINUED.with_suffix(".replies").read_bytes().splitlines(keepends=True)
    return Script(CONTINUED.name, catalogue, tuple(lines), tuple(replies))


def with_another_job(script: Script) -> Script:
    """The script after a catalogue with one more job."""
    return replace(script, catalogue=script.catalogue.removesuffix(b"]}") + b"," + ANOTHER_JOB + b"]}")


def over_log(log: Log, script: Script, status: int, output: bytes) -> Case:
    """The lines of the script that come after those of a log, with what is due to them."""
    return Case(("script",), CONTINUED, log=log, part=script.text(BEGUN), due=(status, output))


def over_opened_logs(script: Script) -> list[Case]:
    """The script goes on from a log that is whole, one with a torn end, and one with fewer jobs."""
    begun = tuple(script.records[: 1 + sum(number < BEGUN for number in script.kept)])
    before, after, due = log_of(begun), log_of(script.records), script.told(BEGUN)
    # A crash in the middle of a batch leaves this: the gate before the batch is still shut.
    torn = before + after[len(before) : (len(before) + len(after)) // 2]
    grown = with_another_job(script)
    with_catalogue = (*begun, catalogue_record(grown.catalogue))
    return [
        over_log(Log("a whole log", before, begun), script, DONE, due),
        over_log(Log("a torn log", torn, begun), script, DONE, due),
        over_log(CompactedLog("a log that is compacted", before, begun), script, DONE, due),
        over_log(Log("a log with fewer jobs", before, with_catalogue), grown, DONE, due),
    ]


def over_refused_logs(script: Script) -> list[Case]:
    """The script over files that are refused, each with its fault."""
    whole, (*others, last) = log_of(script.records), script.records
    # The last byte of the last line is another one.
    damaged = whole[:-5] + b"?" + whole[-4:]
    place = b'"byte":%d,"fault":"LogDamaged","record":%d' % (len(log_of(others)) - len(SHUT), len(others))
    files = [
        ("a log with more jobs", log_of(with_another_job(script).records), b'"fault":"LogOtherCatalogue","job":1'),
        (
            "a log with another reply",
            log_of([*others, replace(last, reply_check=0)]),
            b'"fault":"LogOtherReply","record":%d' % len(others),
        ),
        ("a damaged log", damaged, place),
        ("a file that is no log", script.text(), b'"fault":"LogForeign"'),
        ("an empty file", b"", b'"fault":"LogForeign"'),
    ]
    return [over_log(Log(name, file), script, LOG_REFUSED, b"{" + fault + b"}\n") for name, file, fault in files]


CASES = [
    Case(("script",), CRATE / "stdin"),
    Case(("script",), SCRIPT),
    over_new_log(CRATE / "stdin"),
    *over_opened_logs(continued()),
    *over_refused_logs(continued()),
    Case(("run", "--workers", "1"), STARTS, frozenset(faulted_lines(1) | faulted_lines(2))),
    Case(("check",), CHECKED, due=(FAULTY_CATALOGUE, FAULT)),
]


def judge(number: int, case: Case, run: Run, whole: Run, least: int) -> None:
    """Compares a run in which a request was refused with the whole run; at least so many replies have to stand."""
    if run == whole:
        return
    if run.ends_as((0, b"")) and case.may_fault_to(whole.output, run.output):
        return
    if not run.is_compacted and run.ends_as((0, b"")) and run.output == whole.output and case.may_leave(run):
        return
    if not (run.ends_as(LACKS_MEMORY) or run.ends_as(REFUSED_COMMAND_LINE)):
        raise Wrong(f"{case.name()}, request {number}: status {run.status}, {run.faults!r}, output {run.output!r}")
    if not whole.output.startswith(run.output) or not (b"\n" + run.output).endswith(b"\n"):
        raise Wrong(f"{case.name()}, request {number}: {run.output!r} is not the replies to the lines before")
    if run.ends_as(REFUSED_COMMAND_LINE) and run.output:
        raise Wrong(f"{case.name()}, request {number}: a command line was refused behind {run.output!r}")
    if not case.may_leave(run):
        raise Wrong(f"{case.name()}, request {number}: the log is {run.log!r}, and {run.output!r} was written")
    if run.replies() < least:
        raise Wrong(f"{case.name()}, request {number}: {run.replies()} replies, and {least} at an earlier request")


@dataclass
class Refused:
    """How many replies stood at each request that ended the run, the logs of runs without a reply, which faults came, and how
    many requests cost nothing."""

    stood: list[int] = field(default_factory=list)
    logs: set[bytes | None] = field(default_factory=set)
    faulted: list[bytes] = field(default_factory=list)
    harmless: int = 0
    uncompacted: int = 0

    def add(self, run: Run, whole: Run) -> None:
        if run == whole:
            self.harmless += 1
        elif not run.is_compacted:
            self.uncompacted += 1
        elif run.status == 0:
            lines = whole.output.splitlines(keepends=True)
            self.faulted += [line for line in run.output.splitlines(keepends=True) if line not in lines]
        else:
            self.stood.append(run.replies())
            self.logs |= set() if run.output else {run.log}

    def told(self) -> str:
        went_on = f", {self.uncompacted} left the log as it was" if self.uncompacted else ""
        return (
            f"{len(self.stood)} ended the run with the replies before, {len(self.faulted)} were faults of artifacts,"
            f" {self.harmless} cost nothing{went_on}"
        )


def check(program: Refuser, case: Case, pool: ThreadPoolExecutor) -> tuple[int, str]:
    """Refuses each request of a run. Gives their number, and tells what came of it."""
    whole, requests = program.whole(case)
    refused = Refused()
    numbers = range(1, requests + 1)
    for number, run in zip(numbers, pool.map(lambda number: program.refusing(case, number), numbers)):
        judge(number, case, run, whole, refused.stood[-1] if refused.stood else 0)
        refused.add(run, whole)
    missed = [line for line in range(whole.replies()) if line not in refused.stood]
    if missed:
        raise Wrong(f"{case.name()}: no request was refused behind {missed} replies")
    unseen = case.faulted.difference(refused.faulted)
    if unseen:
        raise Wrong(f"{case.name()}: no request that was refused led to {sorted(unseen)}")
    if isinstance(case.log, CompactedLog) and not refused.uncompacted:
        raise Wrong(f"{case.name()}: no request that was refused kept the log from being compacted")
    if case.log and not case.log.has_all(refused.logs):
        raise Wrong(f"{case.name()}: before the first reply the log was only {refused.logs}")
    return requests, f"{case.name()}: {whole.replies()} replies, {requests} requests refused in turn; {refused.told()}"
