"""A log that is compacted: it has the rows that exist, and no reply tells the difference."""

from __future__ import annotations

import json
from collections.abc import Callable, Iterator
from dataclasses import dataclass, replace
from pathlib import Path
from random import Random

from log_trial.log_file import BASE, CATALOGUE, OPERATION, Record, base_record, log_of, operation_record, read
from log_trial.samples import MAX_LINE, path_of, sample_scripts
from log_trial.script import Script, lines_of, script_of, want_log
from log_trial.scripts import MOST_CUTS, cuts_of
from program import DONE, LOG_REFUSED, Ended, Program, over, want

NOTHING = Ended(DONE)


def compacted(program: Program, log: Path, text: bytes) -> Ended:
    """Runs a script over a log that is compacted first."""
    return program.run([*over(log), "--compact"], text)


def base_of(log: Path) -> list[Record]:
    """The records of the base of a log. They have to stand behind the first catalogue, and before all others."""
    records = read(log.read_bytes()).records
    marks = [record.mark for record in records]
    base = [record for record in records if record.mark == BASE]
    want("the marks of a log with a base", marks[: 1 + len(base)], [CATALOGUE] + [BASE] * len(base))
    return base


@dataclass(frozen=True)
class Head:
    """What the first line of a base counts."""

    count: int
    instance: int
    execution: int
    work: int
    rows: int


def head_of(base: list[Record]) -> Head:
    return Head(**json.loads(base[0].line)["base"])


def check_base(what: str, log: Path, operations: int) -> None:
    """A log that was just compacted has its catalogue and a base, which counts its operations and its rows."""
    base = base_of(log)
    want(f"{what}: records behind the base", len(read(log.read_bytes()).records), 1 + len(base))
    head = head_of(base)
    want(f"{what}: operations", head.count, operations)
    want(f"{what}: rows", head.rows, len(base) - 1)
    numbers = {"execution": head.execution, "work": head.work}
    for kind, last in numbers.items():
        found = [json.loads(record.line) for record in base[1:]]
        rows = [row[kind] for row in found if kind in row and (kind == "work") == ("work" in row)]
        want(f"{what}: numbers of {kind}", rows, sorted(set(rows)))
        want(f"{what}: the last {kind}", max(rows, default=0) <= last, True)


def check_cut(program: Program, script: Script, cut: int, log: Path) -> None:
    """The script in two runs over one log, with a compaction between, and with one at the begin of the second."""
    name = f"{script.name}, compacted behind {cut} lines"
    kept = sum(number < cut for number in script.kept)
    want(name, program.over(log, script.text(0, cut)), Ended(DONE, script.told(0, cut)))
    before = log.read_bytes()
    want(f"{name}: with no line", compacted(program, log, script.text(0, 0)), NOTHING)
    check_base(name, log, kept)
    after = log.read_bytes()
    want(f"{name}: again", compacted(program, log, script.text(0, 0)), NOTHING)
    want_log(f"{name}: again", log, after)
    want(f"{name}: the rest", program.over(log, script.text(cut)), Ended(DONE, script.told(cut)))
    log.write_bytes(before)
    want(f"{name}: with the rest", compacted(program, log, script.text(cut)), Ended(DONE, script.told(cut)))
    check_behind(name, script, cut, log)


def check_behind(what: str, script: Script, cut: int, log: Path) -> None:
    """Behind the base stand the operations since."""
    records = read(log.read_bytes()).records
    operations = [operation_record(script.lines[number], script.replies[number]) for number in script.kept if number >= cut]
    want(f"{what}: the records behind the base", [record for record in records if record.mark == OPERATION], operations)
    head_of(base_of(log))


def check_lines(program: Program, script: Script, log: Path) -> None:
    """The script over one log, a line a run, each behind a compaction."""
    for number in range(len(script.lines)):
        found = compacted(program, log, script.text(number, number + 1))
        want(f"{script.name}, line {number} behind a compaction", found, Ended(DONE, script.told(number, number + 1)))


def check_script(program: Program, name: str, text: bytes, folder: Path) -> None:
    """A script that is compacted behind each of its lines."""
    if program.script(text).status != DONE:
        return
    script = script_of(program, name, text)
    for cut in cuts_of(script):
        check_cut(program, script, cut, path_of(folder / f"cut-{cut}"))
    if len(script.lines) <= 2 * MOST_CUTS:
        check_lines(program, script, path_of(folder / "lines"))


def scripts_to_compact() -> list[tuple[str, bytes]]:
    return [(name, text) for name, text in sample_scripts() if len(text) < MAX_LINE]


# ---- Histories at random

IS_BAD = {"kind": "fail", "on": "BAD", "exit-status": "bad"}
STEPS: list[dict[str, object]] = [
    {"kind": "step", "id": "load", "batchlet": {"ref": "ok"}, "transitions": [IS_BAD]},
    {"kind": "step", "id": "split", "chunk": {"reader": {"ref": "count:5"}, "writer": {"ref": "sink"}}, "partitions": 3},
    {"kind": "step", "id": "end", "batchlet": {"ref": "ok"}},
]


def drawn_catalogue() -> bytes:
    """Jobs with steps in a row, one of them with partitions, and one that is restarted as a whole."""
    linked = [{**step, "next": after["id"]} for step, after in zip(STEPS, STEPS[1:])]
    jobs = [{"id": "nightly", "elements": [*linked, STEPS[-1]]}, {"id": "short", "elements": STEPS[-1:]}]
    return lines_of([{"jobs": jobs}]).removesuffix(b"\n")


def drawn_line(random: Random, at: int, last: int) -> dict[str, object]:
    """A call or a query that may be accepted, on what is likely to exist."""
    number = random.randint(1, last)
    call = {"by": random.randint(1, 4), "at": at}
    end = {"outcome": random.choice(["COMPLETED", "COMPLETED", "FAILED", "STOPPED"])}
    return random.choice(
        [
            {"do": "start", **call, "job": random.choice(["nightly", "short"]), "parameters": {"n": str(at)}},
            {"do": "restart", **call, "execution": number},
            {"do": "stop", **call, "execution": number},
            {"do": "abandon", **call, "execution": number},
            {"do": "purge", **call, "instance": number},
            {"do": "claim", **call},
            {"do": "claim", **call},
            {"do": "claim", **call},
            {"do": "checkpoint", **call, "work": number, "data": str(at), "metrics": {"READ_COUNT": at % 7}},
            {"do": "finish", **call, "work": number, **end, "exit": random.choice(["OK", "BAD", "x"])},
            {"do": "finish", **call, "work": number, **end, "metrics": {"WRITE_COUNT": 2}},
            {"do": "lose", **call, "work": number},
            {"ask": "step_executions", "execution": number},
        ]
    )


def questions(last: int) -> Iterator[dict[str, object]]:
    """All queries, on all that may exist."""
    yield {"ask": "job_names"}
    yield {"ask": "status_counts"}
    for job in ("nightly", "short", "none"):
        yield {"ask": "job_instance_count", "job": job}
        yield {"ask": "job_instances", "job": job, "start": 0, "count": 1000000}
        yield {"ask": "running_executions", "job": job}
    for number in range(1, last + 1):
        yield {"ask": "job_executions", "instance": number}
        for asked in ("job_execution", "step_executions", "parameters", "job_instance"):
            yield {"ask": asked, "execution": number}


def drawn_script(program: Program, seed: str, count: int = 60) -> Script:
    """A script of calls at random, and at its end all queries."""
    random = Random(seed)
    lines: list[object] = [drawn_line(random, at, 2 + at // 6) for at in range(1, count + 1)]
    text = drawn_catalogue() + b"\n" + lines_of([*lines, *questions(4 + count // 6)])
    return script_of(program, f"a script of the seed {seed}", text)


def check_drawn(program: Program, seed: str, folder: Path) -> None:
    """A history at random that is compacted at five places is answered as one that never is."""
    script = drawn_script(program, seed)
    log = path_of(folder)
    random = Random(f"cuts of {seed}")
    count = len(script.lines)
    cuts = sorted(random.sample(range(count + 1), 5))
    for begin, end in zip([0, *cuts], [*cuts, count]):
        found = compacted(program, log, script.text(begin, end))
        want(f"{script.name}, lines {begin} to {end}", found, Ended(DONE, script.told(begin, end)))


# ---- Bases that are none


def bad_base(record: int) -> Ended:
    return Ended(LOG_REFUSED, b'{"fault":"LogBadBase","record":%d}\n' % record)


def check_refused(program: Program, what: str, records: list[Record], given: bytes, log: Path, record: int) -> None:
    """A log of these records is refused, and stays as it is."""
    file = log_of(records)
    log.write_bytes(file)
    for found in (program.over(log, given), compacted(program, log, given)):
        want(what, found, bad_base(record))
        want_log(what, log, file)


def head_with(base: list[Record], **counts: int) -> Record:
    """The head with other counts."""
    given = json.loads(base[0].line)["base"]
    return base_record(json.dumps({"base": {**given, **counts}}, separators=(",", ":")).encode())


@dataclass(frozen=True)
class Compacted:
    """A log with a base, and a line more behind it."""

    given: bytes
    records: list[Record]

    @property
    def base(self) -> list[Record]:
        return [record for record in self.records if record.mark == BASE]

    def with_base(self, base: list[Record]) -> list[Record]:
        behind = [record for record in self.records[1:] if record.mark != BASE]
        return [self.records[0], *base, *behind]


def sample_of(program: Program, log: Path) -> Compacted:
    """A log of job executions in each state, with a further operation behind the base."""
    script = drawn_script(program, "a base", 200)
    want("the first run", program.over(log, script.text()), Ended(DONE, script.told()))
    more = lines_of([{"do": "start", "by": 1, "at": 1000, "job": "short"}])
    want("the second run", compacted(program, log, script.catalogue + b"\n" + more).status, DONE)
    return Compacted(script.catalogue + b"\n", read(log.read_bytes()).records)


def check_lines_of_bases(program: Program, log: Path) -> None:
    """Each line of a base is dropped, doubled, exchanged with the next one, and moved to the log's end."""
    sample = sample_of(program, log)
    base = sample.base
    for place in range(len(base)):
        number, what = place + 1, f"line {place} of a base"
        dropped = [*base[:place], *base[place + 1 :]]
        check_refused(program, f"{what}, dropped", sample.with_base(dropped), sample.given, log, 1)
        doubled = [*base[: place + 1], *base[place:]]
        check_refused(program, f"{what}, doubled", sample.with_base(doubled), sample.given, log, 1)
        whole = [head_with(base, rows=len(base)), *doubled[1:]]
        if place:
            check_refused(program, f"{what}, doubled and counted", sample.with_base(whole), sample.given, log, number + 1)
        moved = [*sample.with_base(dropped), base[place]]
        check_refused(program, f"{what}, moved behind the others", moved, sample.given, log, len(moved) - 1)


def check_heads(program: Program, log: Path) -> None:
    """A head whose counts can't be."""
    sample = sample_of(program, log)
    base, head = sample.base, head_of(sample.base)
    wrong: list[tuple[str, dict[str, int], int]] = [
        ("no operation", {"count": 0}, 1),
        ("more operations than a log holds", {"count": 4294967297}, 1),
        ("a row less", {"rows": head.rows - 1}, 1),
        ("a row more", {"rows": head.rows + 1}, 1),
    ]
    for what, counts, number in wrong:
        check_refused(program, what, sample.with_base([head_with(base, **counts), *base[1:]]), sample.given, log, number)
    for kind in ("execution", "work"):
        rows = [json.loads(record.line) for record in base[1:]]
        places = [place for place, row in enumerate(rows, 1) if kind in row and (kind == "work") == ("work" in row)]
        greatest = rows[places[-1] - 1][kind]
        lower = sample.with_base([head_with(base, **{kind: greatest - 1}), *base[1:]])
        check_refused(program, f"a last number of {kind} below the greatest", lower, sample.given, log, places[-1] + 1)


def check_unread_lines(program: Program, log: Path) -> None:
    """A line that is no row."""
    sample = sample_of(program, log)
    for place in range(1, len(sample.base)):
        for line in (b"", b"{}", b"[1]", sample.base[place].line[:-1], sample.base[0].line, sample.base[place].line + b"x"):
            base = [*sample.base[:place], base_record(line), *sample.base[place + 1 :]]
            check_refused(program, f"line {place}: {line!r}", sample.with_base(base), sample.given, log, place + 1)


def check_statuses(program: Program, log: Path) -> None:
    """A job execution that shows another status than its work items give it."""
    sample = sample_of(program, log)
    for place, record in enumerate(sample.base):
        row = json.loads(record.line)
        if row.get("status") in ("COMPLETED", "FAILED"):
            other = {**row, "status": "FAILED" if row["status"] == "COMPLETED" else "COMPLETED"}
            changed = base_record(json.dumps(other, separators=(",", ":")).encode())
            base = [*sample.base[:place], changed, *sample.base[place + 1 :]]
            check_refused(program, f"line {place}: another status", sample.with_base(base), sample.given, log, 1)


def check_bytes(program: Program, log: Path) -> None:
    """A byte of each line is changed: the log is refused as damaged, or, with true checks, read as another base or refused."""
    sample = sample_of(program, log)
    random = Random(1)
    for place, record in enumerate(sample.base):
        at = random.randrange(len(record.line))
        line = record.line[:at] + bytes([record.line[at] ^ 1]) + record.line[at + 1 :]
        base = [*sample.base[:place], replace(record, line=line), *sample.base[place + 1 :]]
        log.write_bytes(log_of(sample.with_base(base)))
        found = program.over(log, sample.given)
        want(f"line {place}, byte {at}", found.status in (DONE, LOG_REFUSED), True)
        damaged = log_of(sample.records).replace(record.line, line, 1)
        log.write_bytes(damaged)
        want(f"line {place}, byte {at}, damaged", b'"LogDamaged"' in program.over(log, sample.given).output, True)


TRIALS: list[Callable[[Program, Path], None]] = [
    check_lines_of_bases,
    check_heads,
    check_unread_lines,
    check_statuses,
    check_bytes,
]
