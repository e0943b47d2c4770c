"""What the SQLite file beside a log doesn't know of it yet: it is noted as the log is read."""

from __future__ import annotations

import logging
import time
from collections.abc import Sequence
from itertools import islice

from job_host.protocol.lines import digest, read
from job_host.service.history.audited import NOBODY_KNOWN, Audited, Did, Origin
from job_host.service.history.coprocess import CoProcess
from job_host.service.history.tags import Tag, read_tag
from job_host.service.keepers.embedded_term import Beside
from job_host.service.keepers.replayed_log import Told
from job_host.service.stores.sqlite import Noted, Notes, OpenRequest, Request
from job_host.service.terms.calls import EVERYBODY_SESSION, REPLY_NOT_KEPT, SERVICE, SERVICE_SESSION, Kept
from job_host.service.terms.follow_ups import follow_ups

log = logging.getLogger(__name__)

DAY_SECONDS = 86_400.0


def origin_of(did: Did, tag: Tag | None) -> Origin:
    """Who made an operation. Without a tag its session says that, which an earlier line names."""
    if tag is not None:
        return Origin.of(tag.client, tag.address)
    return Origin(SERVICE) if did.session == SERVICE_SESSION else NOBODY_KNOWN


def request_of(one: Told, tag: Tag, kept: Kept) -> Request:
    """The request key of an operation that has one."""
    members = read(one.found.line)
    session = EVERYBODY_SESSION if tag.is_once else int(members["by"])
    return Request(session, str(tag.key), tag.fingerprint, members["at"], one.found.line, kept, members["at"] / 1000)


class Noting:
    """Notes operations. Request keys that are older than so many days aren't noted, but for those that say once.

    The keys of `open_requests` were handed over by an earlier version, and their operations have no tags.
    """

    def __init__(self, process: CoProcess, beside: Beside, open_requests: Sequence[OpenRequest], days: int) -> None:
        self._process = process
        self._beside = beside
        self._open = {request.line: request for request in open_requests}
        self._since = time.time() - days * DAY_SECONDS

    async def note(self, told: list[Told]) -> None:
        tags = [read_tag(one.found.tag) for one in told]
        tagged = [(one, tag) for one, tag in zip(told, tags, strict=True) if tag is not None]
        keyed = [(one, tag) for one, tag in tagged if self._is_keyed(one, tag)]
        kept = await self._kept([*(one for one, _ in keyed), *(one for one in told if one.found.line in self._open)])
        for one in told:
            untagged = self._open.pop(one.found.line, None)
            if untagged is not None:
                await self._settle(untagged, kept[one.found.number])
        last = told[-1].found
        notes = Notes(
            requests=[request_of(one, tag, kept[one.found.number]) for one, tag in keyed],
            clients={tag.client: int(read(one.found.line)["by"]) for one, tag in tagged if tag.client != SERVICE},
            operations=[
                Audited(one.found.number, one.did, origin_of(one.did, tag))
                for one, tag in zip(told, tags, strict=True)
                if one.did is not None
            ],
            last=Noted(last.number, digest(last.line)),
        )
        await self._beside.do(lambda store: store.note(notes))

    async def _kept(self, told: list[Told]) -> dict[int, Kept]:
        """The first replies to operations, by their numbers, with the answers that belong to them, which never change."""
        queries = [follow_ups(read(one.found.line)["do"], read(one.reply)) for one in told]
        answers = iter(await self._process.ask_all([query for these in queries for query in these]))
        return {
            one.found.number: Kept(one.reply, tuple(islice(answers, len(these))), one.found.number)
            for one, these in zip(told, queries, strict=True)
        }

    def _is_keyed(self, one: Told, tag: Tag) -> bool:
        """Whether an operation has a request key that is still kept."""
        return tag.key is not None and (tag.is_once or read(one.found.line)["at"] / 1000 >= self._since)

    async def _settle(self, request: OpenRequest, kept: Kept | None) -> None:
        await self._beside.do(lambda store: store.settle(request, kept))

    async def end(self, based: int) -> None:
        """Forgets the keys whose operations aren't in the log: nobody was told a reply.

        If so many operations are before its base, they may be among these: then their calls count as made.
        """
        kept = Kept(REPLY_NOT_KEPT, (), based) if based else None
        for request in self._open.values():
            await self._settle(request, kept)
        self._open.clear()
