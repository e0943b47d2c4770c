"""The soak itself: some faults of each mode, and histories that were falsified, which it has to refuse."""

from __future__ import annotations

import asyncio
import json
from collections.abc import Callable, Iterator, Sequence
from dataclasses import dataclass, replace
from pathlib import Path

import black_hole
import pytest
from soak import Parts, Plan, compare, compare_all, operations_of, soak
from soak_check import Lost, Operation, Seen, Wrong, check_calls, replay

from job_host.catalogue.jobs import read_file

NOT_SWALLOWED = black_hole.why_not_swallowed()
pytestmark = pytest.mark.skipif(NOT_SWALLOWED is not None, reason=str(NOT_SWALLOWED))
# A soak of its own makes all kinds. Here stand those that leave notes or take a store or a connection away.
EMBEDDED = ["black-hole", "store", "grandchild", "folder", "hung-batchctl", "late"]
QUEUED = ["store", "batchctl", "worker"]
POSTGRES = ["absent", "hung-postgres", "batchctl", "cut-off", "postgres"]
# Enough for calls in hand at each fault. More take the processor from the other tests.
CLIENTS, WORKERS = 3, 2


@dataclass(frozen=True)
class Soaked:
    """What a soak leaves: the history, and what clients were answered."""

    parts: Parts
    operations: Sequence[Operation]
    seen: Seen

    def compare(self, operations: Sequence[Operation], seen: Seen | None = None) -> None:
        compare(self.parts, operations, self.seen if seen is None else seen)

    def replayed(self, operations: Sequence[Operation]) -> list[Operation]:
        """These operations with their numbers and with the replies of a replay, as a service would have kept them."""
        catalogue = read_file(self.parts.catalogue)
        numbered = [replace(one, number=number) for number, one in enumerate(operations, 1)]
        replies = replay(self.parts.batchctl, catalogue, numbered, {})
        return [replace(one, reply=reply) for one, reply in zip(numbered, replies, strict=True)]

    def acknowledged(self) -> Operation:
        """The last start of a client."""
        numbers = [call.operations for call in self.seen.calls if call.do == "start" and call.status == 201]
        return self.operations[max(numbers) - 1]


def soaked(mode: str, folder: Path, names: Sequence[str], has_queues: bool = False) -> Soaked:
    folder.mkdir(exist_ok=True)
    parts = Parts(mode, folder, worker_count=WORKERS)
    parts.has_queues = has_queues
    try:
        parts.prepare()
        seen, made = asyncio.run(soak(parts, Plan(len(names), 1, clients=CLIENTS), names))
        assert sorted(made.elements()) == sorted(names)
        return Soaked(parts, asyncio.run(operations_of(parts)), seen)
    finally:
        parts.stop()
        for server in parts.servers:
            server.remove()


@pytest.fixture(scope="module")
def embedded_soak(tmp_path_factory: pytest.TempPathFactory, has_log: None) -> Soaked:
    return soaked("embedded", tmp_path_factory.mktemp("soak"), EMBEDDED)


def test_faults_of_one_instance_lose_nothing(embedded_soak: Soaked) -> None:
    embedded_soak.compare(embedded_soak.operations)
    assert embedded_soak.parts.stores_lost and (embedded_soak.parts.artifacts / "left").read_text()


def test_faults_lose_nothing_of_three_queues(tmp_path: Path, has_log: None) -> None:
    done = soaked("embedded", tmp_path / "soak", QUEUED, has_queues=True)
    told = compare_all(done.parts, done.seen)
    assert done.parts.stores_lost and told["operations"] > len(done.operations)
    # Each queue has something, and what one has isn't what another one has.
    assert {call.queue for call in done.seen.calls} == {0, 1, 2}
    with pytest.raises(Wrong):
        compare(done.parts, done.operations, done.seen, queue=1)


@pytest.mark.postgres
def test_faults_of_two_instances_lose_nothing(tmp_path: Path) -> None:
    done = soaked("postgres", tmp_path / "soak", POSTGRES)
    done.compare(done.operations)


def other_reply(done: Soaked) -> Sequence[Operation]:
    """The reply of an operation names another job execution."""
    place = done.acknowledged().number - 1
    reply = json.loads(done.operations[place].reply)
    other = replace(done.operations[place], reply=json.dumps({**reply, "execution": 1}, separators=(",", ":")).encode())
    return [*done.operations[:place], other, *done.operations[place + 1 :]]


def one_dropped(done: Soaked) -> Sequence[Operation]:
    """An acknowledged operation isn't there. Everything behind it is as if it had never been."""
    return done.replayed([one for one in done.operations if one is not done.acknowledged()])


def last_dropped(done: Soaked) -> Sequence[Operation]:
    """All from an acknowledged operation on are lost."""
    return done.operations[: done.acknowledged().number - 1]


def one_doubled(done: Soaked) -> Sequence[Operation]:
    """An operation was made again by the same key, at the end, with all that belongs to it."""
    found, last = done.acknowledged(), json.loads(done.operations[-1].line)
    line = json.dumps({**json.loads(found.line), "at": last["at"] + 1}, separators=(",", ":")).encode()
    return done.replayed([*done.operations, replace(found, line=line)])


def two_exchanged(done: Soaked) -> Sequence[Operation]:
    """Two operations have each other's places."""
    place = done.acknowledged().number - 1
    before, found = done.operations[place - 1 : place + 1]
    return done.replayed([*done.operations[: place - 1], found, before, *done.operations[place + 1 :]])


FALSIFIED = [
    (other_reply, "and its replay"),
    (one_dropped, "was acknowledged, and isn't in the history|is in the history as"),
    (last_dropped, "and the history has fewer|was acknowledged, and isn't in the history"),
    (one_doubled, "were both made by the key"),
    (two_exchanged, "has the moment"),
]


@pytest.mark.parametrize("falsify,told", FALSIFIED)
def test_a_falsified_history_is_refused(
    embedded_soak: Soaked, falsify: Callable[[Soaked], Sequence[Operation]], told: str
) -> None:
    operations = falsify(embedded_soak)
    with pytest.raises(Wrong, match=told):
        embedded_soak.compare(operations)


def test_a_read_that_goes_back_is_refused(embedded_soak: Soaked) -> None:
    seen = embedded_soak.seen
    place = next(place for place, read in enumerate(seen.reads) if read.status == 200)
    read = replace(seen.reads[place], least=seen.reads[place].operations + 1)
    with pytest.raises(Wrong, match="goes back"):
        embedded_soak.compare(embedded_soak.operations, Seen(seen.calls, [*seen.reads[:place], read]))


@pytest.fixture
def notes(embedded_soak: Soaked) -> Iterator[Path]:
    """The folder where artifacts note their runs, whose files are put back."""
    folder = embedded_soak.parts.artifacts
    kept = {name: (folder / name).read_text() for name in ("begun", "ended", "late")}
    yield folder
    for name, text in kept.items():
        (folder / name).write_text(text)


@pytest.mark.parametrize("name,told", [("begun", "ran twice"), ("ended", "to its end 2 times"), ("late", "left behind")])
def test_a_run_that_may_not_be_is_refused(embedded_soak: Soaked, notes: Path, name: str, told: str) -> None:
    (notes / name).write_text((notes / name).read_text() + (notes / "ended").read_text().split()[-1] + "\n")
    with pytest.raises(Wrong, match=told):
        embedded_soak.compare(embedded_soak.operations)


def test_a_refused_key_makes_an_operation_only_after_a_store_was_lost(embedded_soak: Soaked) -> None:
    seen, operations = embedded_soak.seen, embedded_soak.operations
    stores = [each[0] for each in embedded_soak.parts.stores_lost]
    call = next(call for call in seen.calls if call.status < 400)
    refused = replace(call, status=404, told={"title": "NoSuchJobExecutionException"}, operations=call.operations - 1)
    others = Seen([refused, *(one for one in seen.calls if one.key != call.key)], [])
    with pytest.raises(Wrong, match="was refused, and is in the history"):
        check_calls(operations, others, Lost([*stores, call.operations], 8))
    check_calls(operations, others, Lost([*stores, call.operations - 1], 8))
