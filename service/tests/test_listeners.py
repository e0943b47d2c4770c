"""Listeners of a step: which events they are told in which order, and what their faults come to.

The tables follow "Chunk with Listeners" and "Chunk with RetryListener" of Jakarta Batch 2.1, and what it says of each listener.
"""

from __future__ import annotations

from typing import Any, NamedTuple

import pytest
from chunk_parts import Bench, Faults

from job_host.worker.artifacts import Ended
from job_host.worker.listeners import EVENTS, Listeners

BAD, BUSY = "rows.Bad", "rows.Busy"
SKIP = {"skippable-exception-classes": {"include": [BAD]}}
RETRY = {"retryable-exception-classes": {"include": [BUSY]}}
KEEP = {**RETRY, "no-rollback-exception-classes": {"include": [BUSY]}}


class Table(NamedTuple):
    """A run of some items in groups of two, and the events of a listener that wants all."""

    items: int
    faults: Faults
    chunk: dict[str, Any]
    events: list[str]


def item(number: int, result: str | None = None) -> list[str]:
    """The events of an item that is read and processed."""
    text = result if result is not None else str(number)
    return ["beforeRead", f"afterRead {number}", f"beforeProcess {number}", f"afterProcess {number} {text}"]


def group(*events: str) -> list[str]:
    return ["beforeChunk", *events, "afterChunk"]


def write(*items: str) -> list[str]:
    return [f"beforeWrite {list(items)}", f"afterWrite {list(items)}"]


END = ["beforeRead", "afterRead True"]
DONE = "afterStep COMPLETED None"
TABLES = {
    # Two items and the end of a group that is full; then a group of one item, which the end cuts short.
    "no fault": Table(
        3,
        {},
        {},
        ["beforeStep", *group(*item(1), *item(2, "None"), *write("1")), *group(*item(3), *END, *write("3")), DONE],
    ),
    # No item is left for the last group: nothing is written.
    "last group without items": Table(
        2,
        {},
        {},
        ["beforeStep", *group(*item(1), *item(2, "None"), *write("1")), *group(*END), DONE],
    ),
    "nothing to read": Table(0, {}, {}, ["beforeStep", *group(*END), DONE]),
    "skips": Table(
        4,
        {"read 1": [BAD], "process 3": [BAD], "write 4": [BAD]},
        SKIP,
        [
            "beforeStep",
            *group(
                *("beforeRead", "onReadError", "onSkipReadItem"),
                *item(2, "None"),
                *("beforeRead", "afterRead 3", "beforeProcess 3", "onProcessError 3", "onSkipProcessItem 3"),
            ),
            *group(*item(4), *END, "beforeWrite ['4']", "onWriteError ['4']", "onSkipWriteItem ['4']"),
            DONE,
        ],
    ),
    "rollback": Table(
        1,
        {"process 1": [BUSY]},
        RETRY,
        [
            *("beforeStep", "beforeChunk", "beforeRead", "afterRead 1"),
            *("beforeProcess 1", "onProcessError 1", "onRetryProcessException 1", "onError"),
            *group(*item(1), *write("1")),
            *group(*END),
            DONE,
        ],
    ),
    "rollback of a write": Table(
        1,
        {"write 1": [BUSY]},
        RETRY,
        [
            *("beforeStep", "beforeChunk", *item(1), *END),
            *("beforeWrite ['1']", "onWriteError ['1']", "onRetryWriteException ['1']", "onError"),
            *group(*item(1), *write("1")),
            *group(*END),
            DONE,
        ],
    ),
    "rollback of a read": Table(
        1,
        {"busy 1": [BUSY]},
        RETRY,
        [
            *("beforeStep", "beforeChunk", "beforeRead", "onReadError", "onRetryReadException", "onError"),
            *group(*item(1), *write("1")),
            *group(*END),
            DONE,
        ],
    ),
    "no rollback": Table(
        1,
        {"busy 1": [BUSY], "process 1": [BUSY], "write 1": [BUSY]},
        KEEP,
        [
            "beforeStep",
            *group(
                *("beforeRead", "onReadError", "onRetryReadException", "beforeRead", "afterRead 1"),
                *("beforeProcess 1", "onProcessError 1", "onRetryProcessException 1", "beforeProcess 1", "afterProcess 1 1"),
                *END,
                *("beforeWrite ['1']", "onWriteError ['1']", "onRetryWriteException ['1']", *write("1")),
            ),
            DONE,
        ],
    ),
    "failed read": Table(
        1,
        {"read 1": [None]},
        SKIP,
        ["beforeStep", "beforeChunk", "beforeRead", "onReadError", "onError", "afterStep FAILED None"],
    ),
    "failed write": Table(
        1,
        {"write 1": [BUSY]},
        SKIP,
        [
            *("beforeStep", "beforeChunk", *item(1), *END),
            *("beforeWrite ['1']", "onWriteError ['1']", "onError", "afterStep FAILED None"),
        ],
    ),
}


def heard(bench: Bench, use: str = "listener-1") -> list[str]:
    """The events that a listener was told, behind its opening."""
    told = [line.removeprefix(f"{use} ") for line in bench.told(use)]
    assert (told[0], told[-1]) == ("open", "closed")
    return told[1:-1]


@pytest.mark.parametrize("name", TABLES)
async def test_a_listener_is_told_each_event_in_its_turn(name: str) -> None:
    table = TABLES[name]
    bench = Bench(table.items, table.faults, dropped=[2])
    ended = await bench.run_step({"chunk": table.chunk, "listeners": [bench.listens(*EVENTS)]}, item_count=2)
    assert heard(bench) == table.events
    assert ended.outcome == table.events[-1].split()[1]


def test_each_event_stands_in_a_table() -> None:
    assert {event.split()[0] for table in TABLES.values() for event in table.events} == set(EVENTS)


async def test_an_event_of_a_fault_tells_its_text_and_its_classes() -> None:
    bench = Bench(2, {"process 1": [[BAD, "java.lang.Exception"]], "process 2": [None]})
    ended = await bench.run_step(
        {"chunk": SKIP, "listeners": [bench.listens("onSkipProcessItem", "onProcessError", "onError")]}
    )
    assert ended == Ended("FAILED", None, {"ROLLBACK_COUNT": 1, "PROCESS_SKIP_COUNT": 1})
    told = [asked for use, asked in bench.lines if use == "listener-1" and asked["do"].startswith("on")]
    first: dict[str, Any] = {"fault": "process 1", "class": [BAD, "java.lang.Exception"], "item": 1}
    second: dict[str, Any] = {"fault": "process 2", "class": []}
    assert told == [
        {"do": "onProcessError", **first},
        {"do": "onSkipProcessItem", **first},
        {"do": "onProcessError", **second, "item": 2},
        {"do": "onError", **second},
    ]


async def test_an_event_tells_no_more_of_an_answer() -> None:
    """Whatever else a part answers, also by names that an event has."""
    bench = Bench(1)
    bench.stop_at = lambda: bench.reported != []
    answers: dict[str, dict[str, Any]] = {
        "read": {"item": 1, "do": "x", "event": "y"},
        "process": {"item": "2", "do": "x"},
        "checkpoint": {"checkpoint": "1"},
    }

    def answer(asked: dict[str, Any]) -> dict[str, Any]:
        return answers.get(asked["do"], {})

    bench.others |= {"reader": answer, "processor": answer}
    ended = await bench.run_step({"listeners": [bench.listens("afterRead", "afterProcess")]}, item_count=1)
    assert ended.outcome == "STOPPED" and bench.written == [["2"]]
    told = [asked for use, asked in bench.lines if use == "listener-1" and asked["do"].startswith("after")]
    assert told == [{"do": "afterRead", "item": 1}, {"do": "afterProcess", "item": 1, "result": "2"}]


async def test_each_listener_is_told_what_it_wants() -> None:
    """In written order. They are opened before the parts, and closed behind them."""
    bench = Bench(1)
    first = bench.listens("beforeStep", "afterWrite", "afterStep")
    second = bench.listens("afterStep", "afterWrite", use="listener-2")
    third = bench.listens(use="listener-3")
    assert await bench.run_step({"listeners": [first, second, third]}, partition=2) == Ended("COMPLETED")
    told = bench.told("listener-1", "listener-2", "listener-3", "reader", "writer")
    assert told == [
        *("listener-1 open", "listener-2 open", "listener-3 open", "listener-1 beforeStep"),
        *("writer open None", "reader open None", "reader read", "reader read", "reader checkpoint", "writer write ['1'] 1"),
        *("listener-1 afterWrite ['1']", "listener-2 afterWrite ['1']", *told[12:14]),
        *("listener-1 afterStep COMPLETED None", "listener-2 afterStep COMPLETED None"),
        *("listener-1 closed", "listener-2 closed", "listener-3 closed"),
    ]
    assert set(told[12:14]) == {"reader closed", "writer closed"}
    opened = next(asked for use, asked in bench.lines if use == "listener-1")
    assert opened == {"do": "open", "partition": 2, "work": 7}


# A run in which each event comes.
ALL: Faults = {"busy 1": [BUSY], "process 1": [BUSY], "write 1": [BUSY], "read 2": [BAD], "process 3": [BAD], "write 4": [BAD]}


@pytest.mark.parametrize("event", [event for event in EVENTS if event != "onError"])
async def test_a_fault_of_a_listener_fails_the_work_item(event: str) -> None:
    """Its class counts for nothing. It isn't told any more, and the others are told how the step ended."""
    bench = Bench(4, ALL)
    faulty = bench.listens(*EVENTS, faults={event: BAD})
    other = bench.listens("onError", "afterStep", use="listener-2")
    ended = await bench.run_step({"chunk": {**SKIP, **KEEP}, "listeners": [faulty, other]}, item_count=2)
    assert ended.outcome == "FAILED" and f"listener-1: {event}: {event}" in bench.tail.text()
    assert heard(bench)[-1].split()[0] == event
    is_in_group = event not in ("beforeStep", "afterStep")
    outcome = "COMPLETED" if event == "afterStep" else "FAILED"
    assert heard(bench, "listener-2") == [*(["onError"] if is_in_group else []), f"afterStep {outcome} None"]
    assert bench.sums(ended).get("ROLLBACK_COUNT", 0) == is_in_group


async def test_the_first_fault_of_several_listeners_counts() -> None:
    """Each of them is told all the same."""
    bench = Bench(1)
    given = [bench.listens("beforeStep", use=f"listener-{place}", faults={"beforeStep": None}) for place in (1, 2)]
    assert await bench.run_step({"listeners": given}) == Ended("FAILED")
    assert bench.tail.text() == "jobhost: listener-1: beforeStep: beforeStep\n"
    assert heard(bench, "listener-1") == heard(bench, "listener-2") == ["beforeStep"]


async def test_a_fault_at_onerror_fails_the_work_item() -> None:
    given: list[dict[str, Any]] = [RETRY, {}]
    for chunk in given:
        bench = Bench(1, {"process 1": [BUSY]})
        ended = await bench.run_step({"chunk": chunk, "listeners": [bench.listens("onError", faults={"onError": BAD})]})
        assert ended == Ended("FAILED", None, {"ROLLBACK_COUNT": 1})
        assert heard(bench) == ["onError"] and "listener-1: onError: onError" in bench.tail.text()


async def test_a_fault_between_groups_rolls_nothing_back() -> None:
    """One of the algorithm after a checkpoint was reported; and of a reader that can't be opened again."""
    bench = Bench(1)
    bench.others["checkpoint-algorithm"] = lambda asked: {"fault": "late"} if asked["do"] == "end" else {"ready": True}
    chunk = {"checkpoint-algorithm": {"ref": "hourly"}}
    ended = await bench.run_step({"chunk": chunk, "listeners": [bench.listens("onError", "afterChunk")]})
    assert (ended, heard(bench), bench.marks) == (Ended("FAILED"), ["afterChunk"], ["1"])
    bench = Bench(1, {"process 1": [BUSY]})
    plain, opened = bench._reader, list[str]()

    def reader(asked: dict[str, Any]) -> dict[str, Any]:
        opened.extend([asked["do"]] if asked["do"] == "open" else [])
        return {"fault": "locked", "class": BUSY} if len(opened) > 1 else plain(asked)

    bench.others["reader"] = reader
    ended = await bench.run_step({"chunk": RETRY, "listeners": [bench.listens("onError", "afterChunk")]})
    assert (ended, heard(bench)) == (Ended("FAILED", None, {"ROLLBACK_COUNT": 1}), ["onError"])


@pytest.mark.parametrize(
    ("answer", "told"),
    [
        ({}, 'listener-1: open is answered the list "events"'),
        ({"events": "beforeStep"}, 'listener-1: open is answered the list "events"'),
        ({"events": [1]}, 'listener-1: open is answered the list "events"'),
        ({"events": ["beforeStep", "beforeJob"]}, "listener-1: a listener of a step has no event 'beforeJob'"),
        ({"fault": "no file"}, "listener-1: open: no file"),
    ],
)
async def test_a_listener_that_says_no_events_fails_the_work_item(answer: dict[str, Any], told: str) -> None:
    """Nothing is run then, and those before it hear of the end."""
    bench = Bench(1)
    listeners = [bench.listens("beforeStep", "afterStep", use="listener-0"), bench.listens()]
    bench.others["listener-1"] = lambda _: answer
    assert await bench.run_step({"listeners": listeners}) == Ended("FAILED")
    assert told in bench.tail.text() and bench.told("reader", "writer") == []
    assert heard(bench, "listener-0") == ["afterStep FAILED None"]
    assert bench.lines[-1] == ("files", {"do": "removed"})


async def test_a_stopped_step_is_told_as_such() -> None:
    bench = Bench(9)
    bench.stop_at = lambda: len(bench.reported) == 2
    ended = await bench.run_step({"listeners": [bench.listens("afterStep", "afterChunk")]}, item_count=2)
    assert ended == Ended("STOPPED")
    assert heard(bench) == ["afterChunk", "afterChunk", "afterStep STOPPED None"]


async def test_without_listeners_nothing_is_told() -> None:
    """No listener is asked for an event that nobody wants."""
    listeners = Listeners()
    for event in EVENTS:
        await listeners.tell(event)
    await listeners.close()
