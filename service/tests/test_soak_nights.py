"""Nights that are pressed: a few of them, and histories and answers that were falsified, which the comparison has to refuse."""

from __future__ import annotations

import asyncio
import json
from collections.abc import Callable, Iterator, Sequence
from dataclasses import dataclass, replace
from pathlib import Path
from types import SimpleNamespace
from typing import Any, cast

import pytest
import soak
import soak_nights
import soak_nights_clients
from instances import Answer
from soak_check import Operation, Read, Seen, Wrong
from soak_nights import Nights, compare, gathered
from soak_nights_check import (
    LogPieces,
    Piece,
    State,
    Told,
    Walk,
    check_growth,
    check_history,
    check_resumed,
    check_told,
    joined,
)
from soak_nights_harm import KINDS, Plan
from soak_nights_parts import NightParts

from job_host.archive.moments import DAY
from job_host.catalogue.jobs import read_file
from job_host.service.history.log_file import LogRecord

# As many kills as there are kinds: each comes once. More job executions take the processor from the other tests.
NIGHTS, JOB_EXECUTIONS, KEPT, SLOWNESS = 3, 8, 1, 3.0


@dataclass(frozen=True)
class Soaked:
    parts: NightParts
    done: Nights
    operations: Sequence[Operation]

    def check(self, operations: Sequence[Operation] | None = None, seen: Seen | None = None, kept: int = KEPT) -> Walk:
        """Compares the history, or a falsified one."""
        history = gathered(self.parts, self.done, self.operations if operations is None else operations)
        history = history if seen is None else replace(history, seen=seen)
        return check_history(history, self.parts.batchctl, read_file(self.parts.catalogue), kept)[0]

    def acknowledged(self) -> int:
        """The place of the last start of a client."""
        numbers = [call.operations for call in self.done.seen.calls if call.do == "start" and call.status == 201]
        return max(numbers) - 1


def soaked(mode: str, folder: Path, batchctl: tuple[str, ...], turns: int) -> Soaked:
    folder.mkdir(exist_ok=True)
    parts = NightParts(mode, folder, SLOWNESS, 1, KEPT)
    parts.batchctl = batchctl
    try:
        done = Nights(parts, Plan(NIGHTS, JOB_EXECUTIONS, len(KINDS[mode]), KEPT, 7, hands=3, turns=turns))
        parts.prepare()
        asyncio.run(done.run())
        assert sorted(done.harm.faults.made.elements()) == sorted(KINDS[mode])
        compared = asyncio.run(compare(parts, done))
        check_growth(done.states, KEPT, SLOWNESS)
        assert compared["chunks of the first night that went on behind the last one"] > 0
        assert compared["starts that say once, asked again"] >= NIGHTS and compared["purges"] > JOB_EXECUTIONS
        return Soaked(parts, done, done.pieces.operations())
    finally:
        parts.stop()
        for server in parts.servers:
            server.remove()


@pytest.fixture(scope="module")
def nights(tmp_path_factory: pytest.TempPathFactory, one_compactor: tuple[str, ...]) -> Soaked:
    return soaked("embedded", tmp_path_factory.mktemp("nights"), one_compactor, 1)


def test_nights_over_a_log_lose_nothing(nights: Soaked) -> None:
    walk = nights.check()
    assert len(nights.done.states) == NIGHTS and walk.purged and walk.resumed


def renumbered(operations: Sequence[Operation]) -> list[Operation]:
    return [replace(one, number=number) for number, one in enumerate(operations, 1)]


def one_dropped(of: Soaked) -> Sequence[Operation]:
    """An acknowledged operation isn't there. Everything behind it is as if it had never been."""
    place = of.acknowledged()
    return renumbered([*of.operations[:place], *of.operations[place + 1 :]])


def one_doubled(of: Soaked) -> Sequence[Operation]:
    """An operation was made again by the same key, at the end."""
    found, last = of.operations[of.acknowledged()], json.loads(of.operations[-1].line)
    line = json.dumps({**json.loads(found.line), "at": last["at"] + 1}, separators=(",", ":")).encode()
    return renumbered([*of.operations, replace(found, line=line)])


def two_exchanged(of: Soaked) -> Sequence[Operation]:
    """Two operations have each other's places."""
    place = of.acknowledged()
    before, found = of.operations[place - 1 : place + 1]
    return renumbered([*of.operations[: place - 1], found, before, *of.operations[place + 1 :]])


def other_checkpoint(of: Soaked) -> Sequence[Operation]:
    """A base has another checkpoint than the one that was reported."""
    reported = {call.operations for call in of.done.seen.calls if call.do == "checkpoint" and call.status == 200}
    place = max(reported) - 1
    line = json.dumps({**json.loads(of.operations[place].line), "data": "77"}, separators=(",", ":")).encode()
    return [*of.operations[:place], replace(of.operations[place], line=line), *of.operations[place + 1 :]]


FALSIFIED = [
    (one_dropped, "was acknowledged, and isn't in the history|is in the history as"),
    (one_doubled, "were both made by the key"),
    (two_exchanged, "has the moment"),
    (other_checkpoint, "is in the history as"),
]


@pytest.mark.parametrize("falsify,told", FALSIFIED)
def test_a_falsified_history_is_refused(nights: Soaked, falsify: Callable[[Soaked], Sequence[Operation]], told: str) -> None:
    operations = falsify(nights)
    with pytest.raises(Wrong, match=told):
        nights.check(operations)


def test_a_claim_with_another_work_item_is_refused(nights: Soaked) -> None:
    calls = nights.done.seen.calls
    place = next(place for place, call in enumerate(calls) if call.do == "claim")
    work = {**calls[place].told["work"], "work": 77_777}
    other = replace(calls[place], told={**calls[place].told, "work": work})
    with pytest.raises(Wrong, match="was handed a work item"):
        nights.check(seen=Seen([*calls[:place], other, *calls[place + 1 :]], []))


def test_an_early_purge_is_refused(nights: Soaked) -> None:
    with pytest.raises(Wrong, match="purges job instance .* last changed at"):
        nights.check(kept=KEPT + 1)


@pytest.fixture
def begun(nights: Soaked) -> Iterator[Path]:
    """The file in which artifacts note that they begin. It is put back."""
    path = nights.parts.artifacts / "begun"
    kept = path.read_text()
    yield path
    path.write_text(kept)


def test_an_artifact_that_ran_twice_is_refused(nights: Soaked, begun: Path) -> None:
    begun.write_text(begun.read_text() + begun.read_text().split()[-1] + "\n")
    with pytest.raises(Wrong, match="ran twice"):
        nights.check()


def number_of(read: Read) -> int:
    return read.execution


def falsified(told: Told) -> list[tuple[Told, str]]:
    """What the service might tell at the end if its base had lost or changed rows."""
    there = [read for read in told.reads if read.status == 200][-1]
    others = [read for read in told.reads if read is not there]
    items = told.items[there.execution]

    def with_read(**more: Any) -> Told:
        return replace(told, reads=sorted([*others, replace(there, **more)], key=number_of))

    def with_items(found: Any) -> Told:
        return replace(told, items={**told.items, there.execution: found})

    return [
        (replace(told, reads=others), "were asked for at the end"),
        (with_read(status=404), "and it was purged: False"),
        (with_read(told={**there.told, "batchStatus": "FAILED"}), "isn't COMPLETED"),
        (replace(told, counts={"COMPLETED": 1}), "are told, and the job executions come to"),
        (with_items(items[1:]), "has the work items"),
        (with_items([{**items[0], "outcome": "FAILED"}, *items[1:]]), "has the work items"),
        (with_items([{**one, "client": "stranger"} for one in items]), "was handed it"),
    ]


@pytest.mark.parametrize("place", range(7))
def test_a_falsified_end_is_refused(nights: Soaked, place: int) -> None:
    told, why = falsified(nights.done.told)[place]
    with pytest.raises(Wrong, match=why):
        check_told(told, nights.check(), nights.done.seen)


def test_a_chunk_that_does_not_go_on_behind_the_last_base_is_refused(nights: Soaked) -> None:
    walk, bases = nights.check(), nights.done.bases
    assert check_resumed(walk, nights.done.waiting, bases[0], bases[-1]) > 0
    with pytest.raises(Wrong, match="didn't go on at one behind the last base"):
        check_resumed(replace(walk, resumed=[]), nights.done.waiting, bases[0], bases[-1])


class Instances:
    """Two instances, by their URLs: a follower that lags, and the leader, where what was restarted runs at the first look."""

    def __init__(self) -> None:
        self.asked: list[tuple[str, int]] = []

    async def ask(self, url: str, least: int) -> Answer:
        self.asked.append((url, least))
        if url == "follower":
            return Answer(503, {"title": "NotYetSeen"}, 8) if least > 8 else Answer(200, {"statusCounts": {"FAILED": 1}}, 8)
        unfinished = {} if self.asked.count((url, least)) > 1 else {"STARTED": 1}
        return Answer(200, {"statusCounts": {"FAILED": 1, **unfinished}}, 9 if unfinished else 12)


async def test_a_follower_that_lags_does_not_say_that_all_is_over(monkeypatch: pytest.MonkeyPatch) -> None:
    """It knows nothing of the restart that was the last operation which anybody was told of."""
    instances = Instances()

    def caller(url: str) -> Any:
        return SimpleNamespace(ask=lambda method, path: instances.ask(url, int(path.partition("atLeast=")[2] or 0)))

    monkeypatch.setattr(soak, "Caller", caller)
    services = [SimpleNamespace(url=url) for url in ("leader", "follower")]
    assert await soak.until_quiet(cast(Any, SimpleNamespace(services=services, slowness=1.0)), 9) == 12
    assert instances.asked == [("leader", 9), ("follower", 9), ("leader", 9)]


async def test_nobody_else_restarts_until_all_is_over(tmp_path: Path, monkeypatch: pytest.MonkeyPatch) -> None:
    """Else what was restarted between the two looks is at neither of them, and ends at noon or later."""
    done = Nights(NightParts("postgres", tmp_path, SLOWNESS, 1, KEPT), Plan(NIGHTS, JOB_EXECUTIONS, 0, KEPT, 7))
    looks: list[str] = []

    async def look(parts: NightParts, least: int) -> int:
        looks.append(f"whether all has ended, behind {least}")
        await asyncio.sleep(0.05)
        return 12

    async def mend() -> int:
        looks.append("what is FAILED")
        return 0

    monkeypatch.setattr(soak_nights, "until_quiet", look)
    monkeypatch.setattr(soak_nights_clients, "MEND_SECONDS", 0.001)
    monkeypatch.setattr(done._mender, "mend", mend)
    done.parts.note_told(9)
    mending = asyncio.create_task(done._mender.run())
    await asyncio.sleep(0.01)
    await done._until_over()
    mending.cancel()
    assert looks[-2:] == ["whether all has ended, behind 9", "what is FAILED"] and done.parts.told == 12


# A chunk fails behind its second checkpoint, and goes on.
CHUNK = {"element": "copy", "kind": "chunk", "checkpoint": None}
HISTORY: list[tuple[dict[str, Any], dict[str, Any]]] = [
    ({"do": "start", "at": 1, "job": "rows"}, {"execution": 1}),
    ({"do": "claim", "at": 2}, {"work": {**CHUNK, "work": 1, "execution": 1}}),
    ({"do": "checkpoint", "at": 3, "work": 1, "data": "1"}, {"go": True}),
    ({"do": "checkpoint", "at": 4, "work": 1, "data": "2"}, {"go": True}),
    ({"do": "lose", "at": 5, "work": 1}, {"done": True}),
    ({"do": "restart", "at": 6, "execution": 1}, {"execution": 2}),
    ({"do": "claim", "at": 7}, {"work": {**CHUNK, "work": 2, "execution": 2, "checkpoint": "2"}}),
    ({"do": "finish", "at": 8, "work": 2, "outcome": "COMPLETED"}, {"done": True}),
    ({"do": "purge", "at": 8 + DAY, "instance": 1}, {"done": True}),
]


def walked(place: int = 0, line: Any = None, reply: Any = None) -> Walk:
    """A walk over that history, of which an operation may be another one."""
    told = list(HISTORY)
    told[place] = (line or told[place][0], reply or told[place][1])
    return Walk(1).over(
        [Operation(at, json.dumps(a).encode(), json.dumps(b).encode(), None) for at, (a, b) in enumerate(told, 1)]
    )


def test_what_a_history_comes_to() -> None:
    walk = walked()
    assert (walk.instances, walk.purged, walk.outcomes) == ({1: 1, 2: 1}, {1}, {1: "FAILED", 2: "COMPLETED"})
    assert [(one.checkpoint, one.reported, one.claimed) for one in walk.resumed] == [("2", 4, 7)]


@pytest.mark.parametrize(
    "place,line,reply,told",
    [
        (5, None, {"execution": 3}, "1 job executions were made before"),
        (6, None, {"work": {**CHUNK, "work": 3, "execution": 2, "checkpoint": "2"}}, "1 work items were handed out before"),
        (6, None, {"work": {**CHUNK, "work": 2, "execution": 2}}, "its last checkpoint was 2"),
        (6, None, {"work": {**CHUNK, "work": 2, "execution": 2, "checkpoint": "1"}}, "its last checkpoint was 2"),
        (7, {"do": "finish", "at": 8, "work": 1, "outcome": "COMPLETED"}, None, "which was FAILED before"),
        (8, {"do": "purge", "at": 7 + DAY, "instance": 1}, None, "purges job instance 1 at"),
        (8, {"do": "stop", "at": 9, "execution": 2}, None, "nobody asked for that"),
    ],
)
def test_a_history_that_batchctl_must_not_make_is_refused(place: int, line: Any, reply: Any, told: str) -> None:
    with pytest.raises(Wrong, match=told):
        walked(place, line, reply)


def piece(based: int, *lines: str) -> Piece:
    return Piece(based, [LogRecord(b"o", line.encode()) for line in lines])


def test_pieces_of_a_log_are_joined() -> None:
    found = joined([piece(0, "a", "b"), piece(0, "a", "b", "c"), piece(3, "d")])
    assert [(one.number, one.line) for one in found] == [(1, b"a"), (2, b"b"), (3, b"c"), (4, b"d")]


@pytest.mark.parametrize(
    "pieces,told",
    [
        ([piece(0, "a", "b"), piece(3, "d")], "operations 3 to 3 stood in no log"),
        ([piece(0, "a", "b", "c"), piece(2, "d")], "operation 3 stood in the log as .* and later as"),
    ],
)
def test_pieces_that_do_not_fit_are_refused(pieces: list[Piece], told: str) -> None:
    with pytest.raises(Wrong, match=told):
        joined(pieces)


def test_each_file_that_was_the_log_is_kept(tmp_path: Path) -> None:
    log, pieces = tmp_path / "log", LogPieces(tmp_path / "log", tmp_path / "pieces")
    pieces.take()
    for text in ("one", "two"):
        new = tmp_path / "log.new"
        new.write_text(text)
        new.replace(log)
        pieces.take()
        pieces.take()
    assert sorted(path.read_text() for path in (tmp_path / "pieces").iterdir()) == ["one", "two"]


STATES = [State(1, 60, 40, 90_000, 200_000, 1.0), State(2, 120, 70, 100_000, 300_000, 1.0), State(3, 180, 70, 100_000, 9, 1.2)]


def test_a_base_and_a_start_that_grow_are_refused() -> None:
    assert "behind night 2: 1.00 s, 100000 bytes of base; behind night 3: 1.20 s" in check_growth(STATES, 2)
    assert "too few" in check_growth(STATES[:2], 2)
    with pytest.raises(Wrong, match="the base has grown from 100000 bytes of night 2 to 200000"):
        check_growth([*STATES[:2], replace(STATES[2], base_bytes=200_000)], 2)
    with pytest.raises(Wrong, match="a start took 1.00 seconds behind night 2, and takes 4.00"):
        check_growth([*STATES[:2], replace(STATES[2], seconds=4.0)], 2)
