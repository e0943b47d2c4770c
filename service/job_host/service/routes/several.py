"""The answers of several queues to one request, joined, and pages of their lists."""

from __future__ import annotations

import heapq
import json
from collections.abc import Callable, Iterable, Iterator, Mapping, Sequence
from typing import Any, NamedTuple, TypeVar

from aiohttp import web

from job_host.protocol.headers import OPERATIONS
from job_host.protocol.seen import both, read_seen, written
from job_host.service.history.engine import Engine
from job_host.service.http.requests import Asked, Handler
from job_host.service.ids import told_outside
from job_host.service.pages import Page
from job_host.service.queues.queue import Queue

T = TypeVar("T")
Told = dict[str, Any]


class Answers:
    """The answers of queues to one request, and all that they saw."""

    def __init__(self, asked: Asked) -> None:
        self.asked = asked
        self.seen = asked.seen_before

    def about(self, queue: Queue, page: Page | None = None) -> Asked:
        """The request, about one queue."""
        return self.asked.of(queue, page=page)

    async def of(self, handler: Handler, queue: Queue, page: Page | None = None) -> Any:
        """What one queue answers."""
        response = await handler(self.about(queue, page))
        assert isinstance(response, web.Response)
        self.seen = both(self.seen, read_seen(response.headers[OPERATIONS]))
        return json.loads(response.text or "")

    async def of_each(self, handler: Handler, page: Page | None = None) -> list[Any]:
        return [await self.of(handler, one, page) for one in self.asked.host.queues]

    def saw(self, queue: Queue, operations: int) -> None:
        self.seen = self.asked.host.queues.seen_in(queue, operations, self.seen)

    def answer(self, told: Any) -> web.Response:
        return web.json_response(told, headers={OPERATIONS: written(self.seen)})


class Place(NamedTuple):
    """A row of a joined list: when it was made, and of which queue it is."""

    made: int
    queue: int


class Joined(NamedTuple):
    """A page of a joined list: of each list's rows those that are in it, and whose row is where."""

    pages: Sequence[Page]
    order: Sequence[int]


def newest_first(lists: Sequence[Sequence[int]], page: Page) -> Joined:
    """A page of lists, each of which has the moments of its rows, the newest first.

    Rows of one moment come in the order of the lists. Of each list as many rows are needed as the page ends at.
    """
    made: list[Iterator[tuple[int, int]]] = [with_list(moments, place) for place, moments in enumerate(lists)]
    order = [place for _, place in heapq.merge(*made)]
    before, shown = order[: page.start], order[page.start : page.start + page.size]
    return Joined([Page(before.count(one), shown.count(one)) for one in range(len(lists))], shown)


def with_list(moments: Iterable[int], place: int) -> Iterator[tuple[int, int]]:
    return ((-moment, place) for moment in moments)


def one_behind_another(counts: Sequence[int], page: Page) -> list[Page]:
    """The part of a page that each list has, if they stand one behind another."""
    pages, before = [], 0
    for count in counts:
        start = min(max(0, page.start - before), count)
        end = min(max(0, page.start + page.size - before), count)
        pages.append(Page(start, end - start))
        before += count
    return pages


def in_order(order: Sequence[int], lists: Sequence[Sequence[T]]) -> list[T]:
    """The rows of lists in the order of a page. A row that has gone meanwhile is left out."""
    rows = [iter(one) for one in lists]
    found = [next(rows[place], None) for place in order]
    return [one for one in found if one is not None]


def made_at(engine: Engine, executions: Iterable[int]) -> list[int]:
    """When job executions were made."""
    return [engine.actions.made_at(one) for one in executions]


def summed(counts: Iterable[Mapping[str, int | None]]) -> dict[str, int | None]:
    """Counts of all queues. One that isn't known of a queue isn't known."""
    total: dict[str, int | None] = {}
    for one in counts:
        for name, count in one.items():
            before = total.get(name, 0)
            total[name] = None if before is None or count is None else before + count
    return total


def outside_of(queue: Queue) -> Callable[[Any], Any]:
    """Tells a row of a queue with its numbers as they are outside."""
    return lambda told: told_outside(told, queue.number)
