"""What makes following cheap: events that name job executions, and logs by work item, from an offset on."""

from __future__ import annotations

from collections.abc import Callable
from types import SimpleNamespace
from typing import Any

import aiohttp
import pytest
from instances import Caller, running
from test_lists import Stream, follow

from job_host.protocol.lines import digest
from job_host.service.history.changes import Changes
from job_host.service.pages import Page
from job_host.service.routes.console import Changed
from job_host.service.routes.logs import told_from
from job_host.service.settings import ServeSettings

Make = Callable[..., ServeSettings]


def noted(most: int, *rows: tuple[int, list[int]]) -> Changes:
    changes = Changes(most)
    for operation, executions in rows:
        changes.note(operation, executions)
    return changes


def test_changes_between_two_operations() -> None:
    changes = noted(10, (1, [1]), (2, [2]), (3, [1, 7]), (4, [2]), (5, [9]))
    assert changes.between(0, 5) == [1, 2, 7, 9]
    assert changes.between(2, 4) == [1, 2, 7]
    assert changes.between(4, 4) == changes.between(5, 9) == []


def test_changes_that_are_forgotten_or_too_many_are_not_named(monkeypatch: pytest.MonkeyPatch) -> None:
    changes = noted(4, (1, [1]), (2, [2]), (3, [3]), (4, [4, 5]))
    assert changes.between(1, 4) is None
    assert changes.between(2, 4) == [3, 4, 5]
    monkeypatch.setattr("job_host.service.history.changes.MOST_NAMED", 2)
    assert changes.between(2, 4) is None and changes.between(3, 4) == [4, 5]
    assert noted(10, (1, [1, 2, 3])).between(0, 1) is None


async def test_events_name_the_job_executions_that_have_changed(settings: Make, monkeypatch: pytest.MonkeyPatch) -> None:
    """The first one names none: before it nothing is known."""
    monkeypatch.setattr("job_host.service.routes.console.LOOK_SECONDS", 0.01)
    async with running(settings()) as instance, aiohttp.ClientSession() as session:
        caller = Caller(instance.url)
        for _ in range(3):
            await caller.start("short")
        stream = Stream(await follow(session, instance))
        assert "executions" not in await stream.next()

        async def named(change: Any) -> list[int]:
            """The job executions that events name until all of the operation is told."""
            seen, names = (await change).operations, set[int]()
            while True:
                event = await stream.next()
                names |= set(event["executions"])
                if event["operations"] >= seen:
                    return sorted(names)

        assert await named(caller.claim()) == [1]
        assert await named(caller.finish(1, "FAILED")) == [1]
        assert await named(caller.change(1, "restart")) == [1, 4]
        assert await named(caller.change(2, "stop")) == [2]
        await named(caller.change(4, "stop"))
        assert await named(caller.ask("DELETE", "/batch/jobinstances/1")) == [1, 4]
        monkeypatch.setattr("job_host.service.history.changes.MOST_NAMED", 1)
        monkeypatch.setattr("job_host.service.history.engine.PURGED", Page(0, 2))
        await caller.change(2, "restart")
        assert "executions" not in await stream.next()
        await caller.change(5, "stop")
        assert (await stream.next())["executions"] == [5]
        await caller.ask("DELETE", "/batch/jobinstances/2")
        assert "executions" not in await stream.next()


def test_an_event_names_what_is_kept_and_not_of_another_engine() -> None:
    def engine(*rows: tuple[int, list[int]]) -> Any:
        return SimpleNamespace(changes=noted(10, *rows))

    keeper: Any = SimpleNamespace(engine=engine((1, [1]), (2, [2]), (3, [3])))
    changed = Changed()
    assert changed.names(keeper, 1) == {}
    assert changed.names(keeper, 2) == {"executions": [2]}
    assert changed.names(keeper, 3) == {"executions": [3]}
    keeper.engine = engine((4, [4]))
    assert changed.names(keeper, 4) == {}
    keeper.engine.changes.note(5, [4])
    assert changed.names(keeper, 5) == {"executions": [4]}


@pytest.mark.parametrize(
    ("offset", "known", "start"),
    [(0, None, 0), (3, None, 3), (9, None, 5), (3, "abc", 3), (3, "abx", 0), (5, "abcde", 5), (7, "abcdefg", 0), (2, "", 0)],
)
def test_from_where_a_log_is_told(offset: int, known: str | None, start: int) -> None:
    assert told_from("abcde", offset, None if known is None else digest(known.encode())) == start


async def log_of(caller: Caller, work: int, words: str = "") -> Any:
    answer = await caller.ask("GET", f"/batch/work/{work}/log{words}")
    return answer.told if answer.status == 200 else (answer.status, answer.name)


async def test_a_log_is_read_by_its_work_item_from_an_offset_on(either: Make) -> None:
    async with running(either()) as instance:
        caller = Caller(instance.url)
        await caller.start("wide")
        for _ in range(2):
            await caller.claim()
        assert await log_of(caller, 2) == (404, "NoSuchWork")
        await caller.ask("PUT", "/batch/work/2?action=heartbeat", {"log": "\u00fcber "})
        first = await log_of(caller, 2)
        assert first == {
            **{"work": 2, "stepName": "print", "partition": 1, "executionId": 1, "offset": 0, "end": 5},
            **{"digest": digest("\u00fcber ".encode()), "log": "\u00fcber "},
        }
        words = f"?offset={first['end']}&digest={first['digest']}"
        assert (await log_of(caller, 2, words))["log"] == ""
        await caller.ask("PUT", "/batch/work/2?action=heartbeat", {"log": "\u00fcber alles"})
        told = await log_of(caller, 2, words)
        assert (told["offset"], told["end"], told["log"]) == (5, 10, "alles")
        await caller.finish(2, log="ber alles, and so on")
        told = await log_of(caller, 2, words)
        assert (told["offset"], told["log"]) == (0, "ber alles, and so on")
        assert (await caller.ask("GET", "/batch/work/2/log?type=text&offset=4")).told == "alles, and so on"
        sizes = (await caller.ask("GET", "/batch/jobexecutions/1/joblogs?sizes=true")).told
        assert sizes == [{"work": 2, "stepName": "print", "partition": 1, "size": 20}]
        whole = (await caller.ask("GET", "/batch/jobexecutions/1/joblogs")).told
        assert whole == [{"work": 2, "stepName": "print", "partition": 1, "log": "ber alles, and so on"}]


async def test_logs_that_are_not_there(either: Make) -> None:
    """As that of a work item whose job instance was purged, though its log may be kept for an hour."""
    async with running(either()) as instance:
        caller = Caller(instance.url)
        await caller.start("short")
        await caller.claim()
        await caller.finish(1, "FAILED", log="\u00fc")
        assert (await caller.ask("GET", "/batch/jobexecutions/1/joblogs?sizes=true")).told[0]["size"] == 2
        for words in ("?offset=x", "?type=zip", "?sizes=true"):
            assert await log_of(caller, 1, words) == (400, "BadRequest")
        assert (await caller.ask("GET", "/batch/jobexecutions/1/joblogs?sizes=true&type=text")).name == "BadRequest"
        for number in (0, 2, 2**63, 2**64 - 1):
            assert await log_of(caller, number) == (404, "NoSuchWork")
        await caller.ask("DELETE", "/batch/jobinstances/1")
        assert (await log_of(caller, 1))[0] == 404
