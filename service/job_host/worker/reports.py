"""Reports of a worker: those that come at the same time go to the service in one request. None waits for another one."""

from __future__ import annotations

import asyncio
import json
import uuid
from collections.abc import Awaitable, Callable, Iterator, Sequence
from dataclasses import dataclass
from typing import Any

from job_host.protocol.bounds import MOST_REPORTS
from job_host.protocol.client import Refused
from job_host.protocol.problem_statuses import LASTING, PASSING

FOREVER = 10.0**9
PATH = "/batch/work/reports"
# The reports of one request have so many bytes together: the service takes a body of 1 MiB.
MOST_BYTES = 524_288
# What a service of an earlier version answers to a list.
NOT_KNOWN = ("NotFound", "MethodNotAllowed")

Operate = Callable[..., Awaitable[Any]]


@dataclass(eq=False)
class Waiting:
    """A report and its answer, which it hasn't yet. Its key makes it once, however often it is sent."""

    work: int
    action: str
    body: dict[str, Any]
    key: str
    answered: asyncio.Future[dict[str, Any]]

    def member(self) -> dict[str, Any]:
        """What it is in a list."""
        return {"work": self.work, "action": self.action, "key": self.key, **self.body}

    def refuse(self, fault: Exception) -> None:
        if not self.answered.done():
            self.answered.set_exception(fault)

    def answer(self, told: dict[str, Any]) -> None:
        if not self.answered.done():
            self.answered.set_result(told)


class Reports:
    """The reports of one worker. `operate` makes an operation of its client."""

    def __init__(self, operate: Operate) -> None:
        self._operate = operate
        self._waiting: list[Waiting] = []
        self._sending: set[asyncio.Future[None]] = set()
        self._takes_lists = True

    async def send(self, work: int, action: str, body: dict[str, Any]) -> dict[str, Any]:
        """Reports, for as long as it takes. Raises Refused."""
        loop = asyncio.get_running_loop()
        report = Waiting(work, action, body, uuid.uuid4().hex, loop.create_future())
        if not self._waiting:
            loop.call_soon(self._hand_over)
        self._waiting.append(report)
        return await report.answered

    def _hand_over(self) -> None:
        """Sends what came in this turn of the event loop, but for what isn't wanted any more."""
        waiting, self._waiting = [one for one in self._waiting if not one.answered.done()], []
        for some in lists_of(waiting) if self._takes_lists else [[one] for one in waiting]:
            sending = asyncio.ensure_future(self._send(some))
            self._sending.add(sending)
            sending.add_done_callback(self._sending.discard)

    async def _send(self, reports: Sequence[Waiting]) -> None:
        if len(reports) == 1:
            await self._send_alone(reports[0])
            return
        again = list(reports)
        try:
            told = await self._operate("POST", PATH, {"reports": [one.member() for one in reports]}, patience=FOREVER)
            again = [one for one, answer in zip(reports, told["reports"], strict=True) if not settle(one, answer)]
        except Refused as refused:
            self._takes_lists = self._takes_lists and refused.name not in NOT_KNOWN
        except Exception as fault:
            for one in again:
                one.refuse(fault)
            return
        await asyncio.gather(*(self._send_alone(one) for one in again))

    async def _send_alone(self, report: Waiting) -> None:
        path = f"/batch/work/{report.work}?action={report.action}"
        try:
            report.answer(dict(await self._operate("PUT", path, report.body, patience=FOREVER, key=report.key)))
        except Exception as fault:
            report.refuse(fault)


def lists_of(reports: Sequence[Waiting]) -> Iterator[list[Waiting]]:
    """Reports in lists that the service takes."""
    some: list[Waiting] = []
    room = MOST_BYTES
    for one in reports:
        size = len(json.dumps(one.member())) if len(reports) > 1 else 0
        if some and (len(some) == MOST_REPORTS or size > room):
            yield some
            some, room = [], MOST_BYTES
        some.append(one)
        room -= size
    if some:
        yield some


def settle(report: Waiting, answer: dict[str, Any]) -> bool:
    """Gives a report its answer. Returns whether it has one: a failure that passes is none."""
    status, body = answer["status"], answer["body"]
    if status < 400:
        report.answer(dict(body))
        return True
    refused = Refused(status, body)
    if status in PASSING and refused.name not in LASTING:
        return False
    report.refuse(refused)
    return True
