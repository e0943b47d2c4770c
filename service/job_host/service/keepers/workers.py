"""Which workers there are: what each holds, and when it was heard."""

from __future__ import annotations

from collections.abc import Sequence
from dataclasses import dataclass

from job_host.service.history.work_items import Held
from job_host.service.keepers.keeper import Keeper
from job_host.service.keepers.open_items import UNASKED_SECONDS
from job_host.service.pages import Page
from job_host.service.terms.workers import Heard

# Of what a worker holds, the first ones are told.
MOST_HELD = 20


@dataclass(frozen=True)
class Worker:
    """A client that holds work items, or was heard as a worker. Whether its claim waits is None if only the leader knows."""

    client: str
    held: Sequence[Held]
    count: int
    heard: Heard
    waits: bool | None
    is_draining: bool | None


@dataclass(frozen=True)
class WorkersPage:
    """Workers by name. For so many seconds none of them has asked for work: None if only the leader knows."""

    workers: Sequence[Worker]
    silence: float | None
    seen: int

    @property
    def none_asks(self) -> bool | None:
        return None if self.silence is None else self.silence >= UNASKED_SECONDS


def is_draining(keeper: Keeper, client: str | None) -> bool | None:
    """Whether a client ends what it has, and claims nothing more. Only the leader knows."""
    return None if keeper.term is None else keeper.term.workers.heard(client or "").is_draining


async def workers_page(keeper: Keeper, page: Page, at_least: int) -> WorkersPage:
    await keeper.reach(at_least)
    engine, term = keeper.reading(), keeper.term
    seen, held = engine.entered, list(engine.held.values())
    waiting = set() if term is None else term.desk.clients
    known = waiting if term is None else waiting | term.workers.clients()
    if term is not None:
        await term.until_committed(seen)
    names = await keeper.client_names(sorted({one.session for one in held}))
    holding: dict[str, list[Held]] = {}
    for one in held:
        holding.setdefault(names.get(one.session, ""), []).append(one)
    holding.pop("", None)

    def worker(client: str) -> Worker:
        of = holding.get(client, [])
        heard = Heard() if term is None else term.workers.heard(client)
        waits = None if term is None else client in waiting
        return Worker(client, of[:MOST_HELD], len(of), heard, waits, is_draining(keeper, client))

    told = [worker(client) for client in page.of(sorted(known | holding.keys()))]
    return WorkersPage(told, None if term is None else term.desk.silence, seen)
