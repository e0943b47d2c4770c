"""A log that is compacted over a catalogue without jobs that no job execution is of, or with other ones under their ids."""

from __future__ import annotations

import json
from collections.abc import Callable
from dataclasses import replace
from pathlib import Path
from random import Random

from log_trial.compactions import NOTHING, check_base, compacted, drawn_catalogue, drawn_line, questions
from log_trial.log_file import read
from log_trial.samples import CHUNK, JOB, OTHER_JOB, catalogue_of, path_of
from log_trial.script import Script, lines_of, script_of, want_log
from program import DONE, LOG_REFUSED, Ended, Program, want

CALL = {"by": 1, "at": 0}
# A job execution of each job, in the catalogue's order. That of the second one ends, and is purged.
BEFORE: list[dict[str, object]] = [
    {"do": "start", **CALL, "job": "a"},
    {"do": "start", **CALL, "job": "b"},
    {"do": "claim", **CALL},
    {"do": "claim", **CALL},
    {"do": "finish", **CALL, "work": 2, "outcome": "COMPLETED"},
    {"do": "purge", **CALL, "instance": 2},
]
# What is left fails, is restarted and completes. A further job execution comes, and all queries.
BEHIND: list[dict[str, object]] = [
    {"do": "finish", **CALL, "work": 1, "outcome": "FAILED", "exit": "later"},
    {"do": "restart", **CALL, "execution": 1},
    {"do": "claim", **CALL},
    {"do": "finish", **CALL, "work": 3, "outcome": "COMPLETED"},
    {"do": "start", **CALL, "job": "a"},
    {"do": "restart", **CALL, "execution": 2},
    {"do": "purge", **CALL, "instance": 2},
    {"do": "finish", **CALL, "work": 2, "outcome": "COMPLETED"},
    *questions(5),
]
# Another job under the id of the one that leaves.
ANOTHER = OTHER_JOB | {"elements": [CHUNK | {"id": "t"}]}
WITHOUT: list[tuple[str, bytes]] = [
    ("without the job", catalogue_of(JOB)),
    ("with another job under its id", catalogue_of(JOB, ANOTHER)),
    ("with another job under its id, ahead", catalogue_of(ANOTHER, JOB)),
    ("with a new job ahead", catalogue_of(JOB | {"id": "new"}, JOB)),
    ("with the same jobs in another order", catalogue_of(OTHER_JOB, JOB)),
]


def purged_script(program: Program) -> Script:
    """A script over two jobs, of whose second one no job execution is left."""
    text = catalogue_of(JOB, OTHER_JOB) + b"\n" + lines_of([*BEFORE, *BEHIND])
    return script_of(program, "a job that leaves", text)


def begin(program: Program, script: Script, log: Path, cut: int) -> bytes:
    """Runs the first lines over a new log, and returns the log."""
    want(f"{script.name}: the first lines", program.over(log, script.text(0, cut)), Ended(DONE, script.told(0, cut)))
    return log.read_bytes()


def check_left(program: Program, what: str, script: Script, given: bytes, cut: int, log: Path) -> None:
    """A log that is compacted over another catalogue has that one alone, and its rows: no reply tells the difference."""
    over = replace(script, catalogue=given)
    want(f"{what}: with no line", compacted(program, log, over.text(0, 0)), NOTHING)
    check_base(what, log, sum(number < cut for number in script.kept))
    want(f"{what}: the catalogue", read(log.read_bytes()).records[0].line, given)
    after = log.read_bytes()
    want(f"{what}: again", compacted(program, log, over.text(0, 0)), NOTHING)
    want_log(f"{what}: again", log, after)
    want(f"{what}: the rest", program.over(log, over.text(cut)), Ended(DONE, script.told(cut)))


def check_jobs_that_leave(program: Program, log: Path) -> None:
    """Each such catalogue, at a compaction alone, and at one with the rest of the lines."""
    script = purged_script(program)
    cut = len(BEFORE)
    before = begin(program, script, log, cut)
    for what, given in WITHOUT:
        check_left(program, what, script, given, cut, log)
        log.write_bytes(before)
        found = compacted(program, log, replace(script, catalogue=given).text(cut))
        want(f"{what}: with the rest", found, Ended(DONE, script.told(cut)))
        log.write_bytes(before)


def check_starts(program: Program, log: Path) -> None:
    """The job that left is not started any more, and the one under its id is another one. Numbers go on."""
    script = purged_script(program)
    before = begin(program, script, log, len(BEFORE))
    start: dict[str, object] = {"do": "start", **CALL, "job": "b"}
    claim: dict[str, object] = {"do": "claim", **CALL}
    found = compacted(program, log, catalogue_of(JOB) + b"\n" + lines_of([start]))
    want("a start of the job that left", found, Ended(DONE, b'{"refused":"JobStartException"}\n'))
    log.write_bytes(before)
    found = compacted(program, log, catalogue_of(JOB, ANOTHER) + b"\n" + lines_of([start, claim]))
    started, claimed = map(json.loads, found.output.splitlines())
    want("a start of the other job", started, {"execution": 3})
    work = claimed["work"]
    want("its first step", (work["work"], work["element"], work["kind"]), (3, "t", "chunk"))


def check_kept(program: Program, what: str, given: bytes, job: int, log: Path, *, first: int) -> None:
    """A catalogue lacks a job with a job execution: with a compaction that one is named, without one the first that differs."""
    file = log.read_bytes()
    for found, number in ((compacted(program, log, given + b"\n"), job), (program.over(log, given + b"\n"), first)):
        want(what, found, Ended(LOG_REFUSED, b'{"fault":"LogOtherCatalogue","job":%d}\n' % number))
        want_log(what, log, file)


def check_jobs_that_stay(program: Program, log: Path) -> None:
    """A job with a job execution left is named, also behind one that may leave, and also if that is another one now."""
    begin(program, purged_script(program), log, len(BEFORE))
    check_kept(program, "no job", catalogue_of(), 0, log, first=0)
    check_kept(program, "only the second job", catalogue_of(OTHER_JOB), 0, log, first=0)
    check_kept(program, "another first job", catalogue_of(JOB | {"restartable": False}, OTHER_JOB), 0, log, first=0)
    log.unlink()
    text = catalogue_of(OTHER_JOB, JOB) + b"\n" + lines_of([*BEFORE, *BEHIND])
    begin(program, script_of(program, "a job that leaves ahead", text), log, len(BEFORE))
    check_kept(program, "no job, and the first may leave", catalogue_of(), 1, log, first=0)
    check_kept(program, "another second job", catalogue_of(OTHER_JOB, JOB | {"restartable": False}), 1, log, first=1)
    both = catalogue_of(ANOTHER, JOB | {"restartable": False})
    check_kept(program, "two other jobs, and the first may leave", both, 1, log, first=0)


def check_unpurged(program: Program, log: Path) -> None:
    """A job that has never been started leaves, and one with a job execution that has ended doesn't before the purge."""
    script = purged_script(program)
    ended = len(BEFORE) - 1
    begin(program, script, log, ended)
    check_kept(program, "before the purge", catalogue_of(JOB), 1, log, first=1)
    never = catalogue_of(JOB, OTHER_JOB, JOB | {"id": "never"})
    want("a third job", program.over(log, never + b"\n"), NOTHING)
    check_kept(program, "before the purge, and the last may leave", catalogue_of(JOB), 1, log, first=1)
    check_left(program, "a job that was never started", script, script.catalogue, ended, log)


TRIALS: list[Callable[[Program, Path], None]] = [
    check_jobs_that_leave,
    check_starts,
    check_jobs_that_stay,
    check_unpurged,
]

# ---- Histories at random

GONE = JOB | {"id": "gone"}
# A job execution of that job, which ends and is purged.
PURGED: list[dict[str, object]] = [
    {"do": "start", **CALL, "job": "gone"},
    {"do": "claim", **CALL},
    {"do": "finish", **CALL, "work": 1, "outcome": "COMPLETED"},
    {"do": "purge", **CALL, "instance": 1},
]


def check_drawn(program: Program, seed: str, folder: Path) -> None:
    """A history at random loses a job behind any of its lines, and has another one under its id behind a later one."""
    random = Random(seed)
    jobs = json.loads(drawn_catalogue())["jobs"]
    drawn = [drawn_line(random, at, 3 + at // 6) for at in range(1, 61)]
    text = catalogue_of(GONE, *jobs) + b"\n" + lines_of([*PURGED, *drawn, *questions(15)])
    script = script_of(program, f"a script of the seed {seed}, with a job that leaves", text)
    log = path_of(folder)
    cut, later = sorted(random.sample(range(len(PURGED), len(script.lines) + 1), 2))
    begin(program, script, log, cut)
    for given, first, last in ((catalogue_of(*jobs), cut, later), (catalogue_of(*jobs, GONE), later, None)):
        over = replace(script, catalogue=given)
        found = compacted(program, log, over.text(first, last))
        want(f"{script.name}, from line {first}", found, Ended(DONE, script.told(first, last)))
