"""The base of a log: what is read of it, and what an engine makes of its rows and of those that are gone."""

from __future__ import annotations

from pathlib import Path
from typing import Any, cast

import pytest
from based import CATALOGUE, HEAD, ROWS, START, based_log, base_records, execution_row, over, work_row
from stand_in_batchctl import HEADER, record

from job_host.protocol.lines import LinesDigest, digest
from job_host.service.history import log_file
from job_host.service.history.answers import Answers
from job_host.service.history.base import LastEnded, read_base
from job_host.service.history.coprocess import CoProcess
from job_host.service.history.engine import Engine
from job_host.service.history.execution_index import ExecutionIndex, Wanted
from job_host.service.history.log_file import Entered, OtherLog, Search
from job_host.service.history.numbers import Numbers
from job_host.service.history.work_items import Ended, Held
from job_host.service.pages import Page
from job_host.service.retention.finished import FinishedIndex

ALL = Page(0, 100)


@pytest.fixture
def path(tmp_path: Path) -> Path:
    path = tmp_path / "history.log"
    path.write_bytes(based_log([START % 800, START % 900]))
    return path


async def engine_of(path: Path) -> Engine:
    engine, base = Engine(CoProcess()), read_base(path)
    assert base is not None
    engine.begin(base)
    return engine


def test_numbers_that_are_gone_have_no_place() -> None:
    numbers = Numbers()
    assert [numbers.place(one) for one in (0, 1, 5)] == [0, 1, 5]
    numbers.begin([2, 3, 7], 9)
    assert [numbers.place(one) for one in range(12)] == [0, 0, 1, 2, 0, 0, 0, 3, 0, 0, 4, 5]
    assert [numbers.number(place) for place in range(6)] == [0, 2, 3, 7, 10, 11]
    assert [numbers.count_until(one) for one in (1, 2, 6, 7, 9, 10, 11)] == [0, 1, 2, 3, 3, 4, 5]
    assert [numbers.last(count) for count in (3, 4)] == [9, 10]


def test_the_parts_of_a_log_with_a_base(path: Path, tmp_path: Path) -> None:
    assert [record.mark for record in log_file.records(path)] == [b"c", *[b"b"] * 10, b"o", b"c", b"o"]
    assert [line for lines in log_file.operations(path) for line in lines] == [START % 800, START % 900]
    known = log_file.known_base(path)
    assert known is not None and (known.head, known.made) == ((20, 8, 6, 9, 9), 700)
    beginning = log_file.beginning_of(path)
    assert (beginning.catalogue, beginning.first, beginning.base) == (digest(CATALOGUE), None, known)
    assert log_file.catalogue_of(path) == b'{"jobs":[{}]}'
    copy = tmp_path / "copy"
    log_file.copy_front(path, copy)
    assert copy.read_bytes() == HEADER + record(b"c", CATALOGUE) + base_records(ROWS, HEAD) + b"000"
    assert log_file.known_base(copy) == known


def test_the_first_operation_behind_a_base_names_the_identity(path: Path) -> None:
    path.write_bytes(based_log([b"one @abc\t" + START % 800, START % 900]))
    assert log_file.beginning_of(path).identity == "abc"


def test_a_log_without_a_base_has_none(path: Path, tmp_path: Path) -> None:
    path.write_bytes(HEADER + record(b"c", CATALOGUE) + record(b"o", START % 800) + b"000")
    assert (read_base(path), log_file.known_base(path)) == (None, None)
    assert log_file.beginning_of(path).first == digest(START % 800)
    path.write_bytes(HEADER + record(b"c", CATALOGUE) + b"000" + base_records(ROWS, HEAD))
    assert read_base(path) is None


def test_another_base_is_another_log(path: Path) -> None:
    base = log_file.known_base(path)
    search = Search(21, digest(START % 800))
    entered = LinesDigest()
    entered.add([START % 800])
    seen = log_file.compare(path, Entered(base, 21, entered.value()), search)
    assert (seen.is_begun_so, seen.behind) == (True, 1)
    assert not log_file.compare(path, Entered(None, 21, entered.value()), search).is_begun_so
    other = [{**ROWS[0], "create": 201}, *ROWS[1:]]
    path.write_bytes(based_log([START % 800, START % 900], other))
    assert not log_file.compare(path, Entered(base, 21, entered.value()), search).is_begun_so


def test_what_is_noted_is_looked_for_behind_the_base(path: Path) -> None:
    lines = [START % 800, START % 900]
    for noted, line in ((20, ""), (21, digest(lines[0])), (22, digest(lines[1]))):
        found = Search(noted, line).found(20, [b"one\t" + lines[0], lines[1]])
        assert found == [(21, b"one", lines[0]), (22, b"", lines[1])][noted - 20 :]
    for noted, line in ((21, digest(lines[1])), (22, digest(lines[0]))):
        with pytest.raises(OtherLog):
            Search(noted, line).found(20, lines)


async def test_an_engine_begins_with_a_base(path: Path) -> None:
    engine = await engine_of(path)
    assert (engine.entered, engine.based, engine.is_compact, engine.last_work) == (20, 20, True, 9)
    assert (engine.last_moment, engine.last_session) == (720, 8)
    assert engine.held == {6: Held(6, 5, "only", 2, 4, 510), 7: Held(7, 7, "only", None, 4, 710)}
    assert engine.busy == {5: 1, 7: 1}
    assert engine.ended_work.of(3) == [Ended(Held(4, 3, "only", None, 8, 310), 390, "COMPLETED", "COMPLETED")]
    assert [one.held.work for one in engine.failed_work.of(2)] == [1] and engine.failed_work.of(3) == []
    assert (engine.changes.between(19, 20), engine.changes.between(20, 20)) == (None, [])


async def test_job_executions_of_a_base(path: Path) -> None:
    executions = (await engine_of(path)).executions
    assert (executions.last, executions.count, executions.last_instance, executions.instance_count) == (8, 4, 6, 3)
    assert [one for one in range(-1, 10) if executions.has_instance(one)] == [2, 4, 5]
    assert [executions.instance_of(one) for one in range(10)] == [None, None, 2, 5, None, 2, None, 4, None, None]
    assert [one for one in range(9) if executions.is_there(one)] == [2, 3, 5, 7]
    assert executions.of_instance(2, ALL) == [5, 2]
    assert [executions.is_newest(one) for one in (2, 3, 5, 7)] == [False, True, True, True]
    assert [executions.is_most_recent(2, seen) for seen in (19, 20)] == [True, False]
    assert {executions.changed_at(one) for one in (2, 3, 5, 7)} == {20}


async def test_operations_behind_a_base(path: Path) -> None:
    """Numbers go on behind the last ones that were given, also if these are gone."""
    engine = await engine_of(path)
    lines = [START % 800, b'{"do":"restart","by":11,"at":810,"execution":3}', b'{"do":"purge","by":1,"at":820,"instance":4}']
    engine.enter(lines, [b'{"execution":9}', b'{"execution":10}', b'{"done":true}'])
    executions = engine.executions
    assert (executions.last, executions.last_instance, engine.entered) == (10, 7, 23)
    assert [executions.instance_of(one) for one in (7, 9, 10)] == [4, 7, 5]
    assert executions.of_instance(5, ALL) == [10, 3] and not executions.is_newest(3)
    assert [one for one in range(9) if executions.has_instance(one)] == [2, 5, 7]
    assert [action.name for action in engine.actions.of(7, 4, ALL)] == ["purge"]
    assert [(action.name, action.operation) for action in engine.actions.of(3, 5, ALL)] == [("restart", 22)]
    assert engine.actions.of(2, 2, ALL) == []
    assert [engine.actions.made_at(one) for one in (2, 3, 5, 7, 9, 10)] == [200, 300, 500, 700, 800, 810]
    assert engine.made_between(300, 701) == (3, 7)
    assert engine.made_between(701, 810) == (9, 9)
    assert engine.made_between(None, 100) == (1, 0)
    assert engine.made_between(900, None) == (11, None)
    assert engine.changes.between(20, 22) == [3, 9, 10]


async def test_the_work_items_of_a_base_are_reported(path: Path) -> None:
    engine = await engine_of(path)
    finish = b'{"do":"finish","by":4,"at":800,"work":6,"outcome":"COMPLETED"}'
    claim = b'{"do":"claim","by":12,"at":810}'
    claimed = b'{"work":{"element":"only","execution":5,"kind":"batchlet","ref":"only","work":10}}'
    engine.enter([finish, claim], [b'{"done":true}', claimed])
    assert (list(engine.held), engine.busy, engine.last_work) == ([7, 10], {7: 1, 5: 1}, 10)
    assert [one.held.work for one in engine.ended_work.of(5)] == [6]


async def test_another_base_takes_the_place_of_what_was_entered(path: Path) -> None:
    engine = await engine_of(path)
    engine.enter([START % 800], [b'{"execution":9}'])
    assert not engine.is_compact
    other = {**HEAD, "count": 21, "execution": 9, "instance": 7}
    path.write_bytes(based_log([], [*ROWS, execution_row(9, 7, 800)], {**other, "rows": 10}))
    base = log_file.known_base(path)
    assert base is not None
    engine.note_base(base)
    assert (engine.based, engine.is_compact) == (21, True)
    assert log_file.compare(path, engine.known, Search(21, "")).is_begun_so


def test_of_many_that_ended_the_last_are_known() -> None:
    ended = LastEnded(2)
    for operation in (5, 9, 7, 3):
        ended.add(operation, Ended(Held(operation, 1, "only", None, 2, 1), 2, "COMPLETED", None))
    assert [one.held.work for one in ended.in_order()] == [7, 9]


async def test_when_the_last_job_execution_was_made(path: Path) -> None:
    """Of those that are there. By it two ends of one history differ that have as much."""
    engine = await engine_of(path)
    known, base = log_file.known_base(path), read_base(path)
    assert known is not None and base is not None and base.known == known
    assert (engine.last_made, known.made) == (700, 700)
    engine.enter([START % 800], [b'{"execution":9}'])
    assert engine.last_made == 800
    purges = [b'{"do":"purge","by":1,"at":%d,"instance":%d}' % (900 + one, one) for one in (7, 4)]
    engine.enter(purges, [b'{"done":true}'] * 2)
    assert engine.last_made == 500
    path.write_bytes(based_log([], ROWS[4:], {**HEAD, "rows": 5}))
    known = log_file.known_base(path)
    assert known is not None and known.made == 0 and Engine(CoProcess()).last_made == 0


def test_a_base_whose_first_line_is_no_head(path: Path) -> None:
    path.write_bytes(HEADER + record(b"c", CATALOGUE) + record(b"b", b'{"work":1}'))
    with pytest.raises(ValueError, match="head"):
        read_base(path)


class Asked:
    """Answers for the job executions of the base, and notes which were asked for."""

    def __init__(self) -> None:
        self.entered = 20
        self.lines: list[bytes] = []

    async def ask(self, queries: Any) -> Answers:
        self.lines += queries
        return Answers([self.reply(int(line.rpartition(b":")[2][:-1])) for line in queries], self.entered)

    @staticmethod
    def reply(number: int) -> bytes:
        instance = {2: 2, 3: 5, 5: 2, 7: 4}[number]
        return b'{"job_execution":{"end":7,"exit":"","instance":%d,"job":"short","start":1,"status":"COMPLETED"}}' % instance

    @property
    def numbers(self) -> list[int]:
        return [int(line.rpartition(b":")[2][:-1]) for line in self.lines]


async def test_nobody_asks_for_what_is_gone(path: Path) -> None:
    """Else each start would cost as much as all that there ever was."""
    asked, base = Asked(), read_base(path)
    index = ExecutionIndex(cast(Engine, asked))
    assert base is not None
    index.begin(base)
    assert (await index.find(Wanted(), 0, 10, None))[0] == [7, 5, 3, 2] and sorted(asked.numbers) == [2, 3, 5, 7]
    assert (await index.find(Wanted(numbers=(3, 6)), 0, 10, None))[0] == [5, 3]
    assert (await index.find(Wanted(most_recent=True), 0, 10, None))[0] == [7, 5, 3]


async def test_open_items_and_finished_ones_of_a_base(path: Path) -> None:
    engine, asked = await engine_of(path), Asked()
    open_engine: Any = engine
    open_engine.ask = asked.ask
    open_engine.open._engine = asked
    await engine.open.settle()
    assert sorted(asked.numbers) == [2, 3, 5, 7]
    asked.lines.clear()
    index = FinishedIndex(engine)
    await index.look()
    assert sorted(asked.numbers) == [3, 5, 7]
    found, count = await index.due(7, None, 10)
    assert ([(one.instance, one.execution, one.operation) for one in found], count) == ([(2, 5, 20), (4, 7, 20), (5, 3, 20)], 3)
    assert all(one.is_so(engine) for one in found)
    engine.enter([b'{"do":"purge","by":1,"at":900,"instance":5}'], [b'{"done":true}'])
    await index.look()
    assert [one.instance for one in (await index.due(7, None, 10))[0]] == [2, 4]


def test_rows_that_are_over_have_their_moments(path: Path) -> None:
    rows = [execution_row(1, 1, 10), work_row(1, 1, 5, 20, **over("STOPPED", 9_000, 4))]
    path.write_bytes(based_log([], rows, {"count": 4, "execution": 1, "instance": 1, "work": 1, "rows": 2}))
    base = read_base(path)
    assert base is not None and (base.last_moment, base.last_session, base.held) == (9_000, 5, [])
