"""What every request has: its caller, its client's name, its key, its query, its body, and what it wants to see at least."""

from __future__ import annotations

import asyncio
import ipaddress
import json
import re
from collections import Counter
from collections.abc import Awaitable, Callable, Iterable, Iterator, Mapping
from contextlib import contextmanager
from copy import copy
from dataclasses import dataclass
from functools import lru_cache
from typing import Any, NamedTuple

from aiohttp import web

from job_host.archive.folder import ArchiveFolder
from job_host.protocol.bounds import MOST_NUMBER
from job_host.protocol.headers import AT_LEAST, CLIENT, OPERATIONS, REQUEST_KEY
from job_host.protocol.lines import Members
from job_host.protocol.peers import is_unheard, notice_gone
from job_host.protocol.seen import NoNumbers, Seen, of_queue, read_seen, written
from job_host.service.http.access import NAME, Access, Caller
from job_host.service.ids import outside, told_outside
from job_host.service.keepers.keeper import Keeper
from job_host.service.pages import USUAL_SIZE, Page
from job_host.service.problems import Problem, bad_request, unavailable
from job_host.service.queues.queue import Queue
from job_host.service.queues.queues import Queues
from job_host.service.settings import Bounds, ServeSettings
from job_host.service.terms.calls import Call, Kept

KEY = re.compile(r"[\x21-\x7e]+")
NUMBER = re.compile(r"[0-9]{1,20}")
ANYBODY = "anybody"
JSON = "application/json"

# Words of a query that say which page of a list is meant.
PAGE_WORDS = ("page", "pageSize")
# The row of a list at which a page may begin at the farthest.
FARTHEST_ROW = 1_000_000
# Words of a query that may come several times.
SEVERAL = frozenset({"status", "instanceState"})
# Words of Open Liberty that say in which application a job is.
APPLICATION_WORDS = frozenset({"applicationName", "appName", "moduleName", "componentName"})


def number(text: str, what: str) -> int:
    """A number as a client writes it, within the numbers of a line."""
    if not NUMBER.fullmatch(text) or int(text) > MOST_NUMBER:
        raise bad_request(f"{what} is a whole number from 0 to {MOST_NUMBER}")
    return int(text)


def request_key(text: str, what: str, bounds: Bounds) -> str:
    """A request key as a client writes it."""
    if len(text) > bounds.key_bytes or not KEY.fullmatch(text):
        raise bad_request(f"{what} has 1 to {bounds.key_bytes} printable characters without spaces")
    return text


def process_ended() -> Problem:
    return unavailable("CoProcessEnded", "batchctl has ended, and is begun again")


def refuse_constant(text: str) -> Any:
    raise ValueError(f"{text} is no JSON")


# `json.loads` makes a decoder anew for each text that isn't read as usual.
DECODER = json.JSONDecoder(parse_constant=refuse_constant)


def address_of(request: web.Request) -> str:
    """The remote address of a request, as an address is written: none that a header names."""
    return written_address(request.remote or "")


@lru_cache(maxsize=1_024)
def written_address(remote: str) -> str:
    try:
        address = ipaddress.ip_address(remote.partition("%")[0])
    except ValueError:
        return ""
    return str(getattr(address, "ipv4_mapped", None) or address)


class Gate:
    """How many requests of one client are in hand."""

    def __init__(self, bounds: Bounds) -> None:
        self._bounds = bounds
        self._in_hand: Counter[str] = Counter()

    @contextmanager
    def enter(self, client: str) -> Iterator[None]:
        if self._in_hand[client] >= self._bounds.requests_at_once:
            raise Problem("TooManyRequests", 429, f"{self._bounds.requests_at_once} requests of this client are in hand")
        self._in_hand[client] += 1
        try:
            yield
        finally:
            self._in_hand[client] -= 1
            if not self._in_hand[client]:
                del self._in_hand[client]


class Places:
    """How many requests of one kind are in hand, which last."""

    def __init__(self, most: int, told: str) -> None:
        self._most = most
        self._told = told
        self.count = 0

    @contextmanager
    def enter(self) -> Iterator[None]:
        if self.count >= self._most:
            raise Problem("TooManyRequests", 429, f"{self._most} {self._told}")
        self.count += 1
        try:
            yield
        finally:
            self.count -= 1


Purge = Callable[[Call], Awaitable[Kept]]


@dataclass(frozen=True)
class Host:
    """The service, as routes see it. `purges` make a purge in a queue, after the job instance was archived if there is an
    archive.
    """

    settings: ServeSettings
    queues: Queues
    access: Access
    gate: Gate
    waits: Places
    ending: asyncio.Event
    purges: Mapping[int, Purge]
    archive: ArchiveFolder | None = None


class Asked:
    """One request, which is about one queue: the default one, unless another one is chosen."""

    def __init__(self, request: web.Request, host: Host, caller: Caller) -> None:
        self.request = request
        self.host = host
        self.queue = host.queues.default
        # The number in the path as its queue has it, and a page in place of the query's, if they are chosen.
        self._number: int | None = None
        self._page: Page | None = None
        self.caller = caller
        self.client = caller.prefix + self._client_name()
        self.address = address_of(request)

    @property
    def keeper(self) -> Keeper:
        return self.queue.keeper

    @property
    def purge(self) -> Purge:
        return self.host.purges[self.queue.number]

    def of(self, queue: Queue, number: int | None = None, page: Page | None = None) -> Asked:
        """The same request, about one queue."""
        asked = copy(self)
        asked.queue, asked._number, asked._page = queue, number, page
        return asked

    def by_path(self) -> Asked:
        """The same request, about the queue of the number in its path."""
        return self.of(*self.host.queues.of_number(self.path_number()))

    def _client_name(self) -> str:
        name = self.request.headers.get(CLIENT, ANYBODY)
        if len(name) > self.host.settings.bounds.name_bytes or not NAME.fullmatch(name):
            raise bad_request(
                f"{CLIENT} has letters, digits and ._:@- and at most {self.host.settings.bounds.name_bytes} of them"
            )
        return name

    def named_client(self) -> str:
        """The client of a worker's request, which has to have a name of its own."""
        if CLIENT not in self.request.headers:
            raise bad_request(f"the header {CLIENT} is needed: it says whose the work item is")
        return self.client

    def call(self, do: str, members: Members, print_of: bytes, **more: Any) -> Call:
        """A call of this request, by its key, with where it came from."""
        return self.keyed_call(self.key, do, members, print_of, **more)

    def keyed_call(self, key: str | None, do: str, members: Members, print_of: bytes, **more: Any) -> Call:
        """A call by a key, of which a request may have several."""
        return Call(self.client, do, members, key, print_of, address=self.address, **more)

    @property
    def key(self) -> str | None:
        key = self.request.headers.get(REQUEST_KEY)
        return None if key is None else request_key(key, REQUEST_KEY, self.host.settings.bounds)

    @property
    def at_least(self) -> int:
        """How many operations of its queue the answer has to have seen."""
        return self.host.queues.at_least_in(self.queue, self.seen_before)

    @property
    def seen_before(self) -> Seen:
        """What the client saw before."""
        given = self.request.headers.get(AT_LEAST, self.request.query.get("atLeast", "0"))
        if self.host.queues.are_plain:
            return of_queue(0, number(given, AT_LEAST))
        try:
            seen = read_seen(given)
        except NoNumbers as fault:
            told = f"{AT_LEAST} is a whole number from 0 to {MOST_NUMBER} for each queue, with commas between them"
            raise bad_request(told) from fault
        self.host.queues.check_known(seen)
        return seen

    def seen_text(self, seen: int) -> str:
        """What the client has seen with an answer that saw so many operations of its queue."""
        queues = self.host.queues
        return str(seen) if queues.are_plain else written(queues.seen_in(self.queue, seen, self.seen_before))

    def operations(self, seen: int) -> int | str:
        """The same as a member of an answer: with one queue it is a number."""
        return seen if self.host.queues.are_plain else self.seen_text(seen)

    def outside(self, inside: int) -> int:
        """A number of the queue, as clients are told it."""
        return outside(self.queue.number, inside)

    def expect_words(self, known: Iterable[str]) -> None:
        """Refuses a query with other words, or with one that comes twice: part of it would be left out otherwise."""
        if not self.request.rel_url.raw_query_string:
            return
        refuse_others("the query has words", self.request.query, known)
        counts = Counter(self.request.query.keys())
        twice = sorted(word for word, count in counts.items() if count > 1 and word not in SEVERAL)
        if twice:
            raise bad_request(f"{twice[0]} comes more than once")

    def path_number(self) -> int:
        if self._number is not None:
            return self._number
        return number(self.request.match_info["id"], "the number in the path")

    def query_number(self, name: str, default: int) -> int:
        return number(self.request.query.get(name, str(default)), name)

    def page(self, most: int) -> Page:
        """The page of a list that is meant, with so many rows at most. It doesn't begin farther than any page may."""
        if self._page is not None:
            return self._page
        page, size = self.query_number("page", 0), self.query_number("pageSize", USUAL_SIZE)
        if not 0 < size <= most or page * size > FARTHEST_ROW:
            raise bad_request(f"a page has 1 to {most} rows, and begins within the first {FARTHEST_ROW}")
        return Page(page * size, size)

    def page_of_large_rows(self) -> Page:
        """A page of a list whose rows hold lists or long texts."""
        return self.page(self.host.settings.bounds.page_of_large_rows)

    def query_flag(self, name: str) -> bool:
        given = self.request.query.get(name, "false")
        if given not in ("true", "false"):
            raise bad_request(f"{name} is true or false")
        return given == "true"

    async def body(self) -> dict[str, Any]:
        """The body, an object of JSON. Without a body it is the empty object."""
        text = await self.data()
        if not text:
            return {}
        # aiohttp reads a media type by what reads mail, and that of nearly all requests is so.
        if self.request.headers.get("Content-Type") != JSON and self.request.content_type != JSON:
            raise Problem("UnsupportedMediaType", 415, "the body is application/json")
        try:
            value = DECODER.decode(text.decode(json.detect_encoding(text), "surrogatepass"))
        except (ValueError, RecursionError) as fault:
            raise bad_request("the body is no JSON") from fault
        if not isinstance(value, dict):
            raise bad_request("the body is no object")
        return value

    async def data(self) -> bytes:
        """The body as it came. One that is here already isn't waited for."""
        if self.request.content.is_eof():
            return await self.request.read()
        try:
            return await asyncio.wait_for(self.request.read(), self.host.settings.bounds.slow_after)
        except asyncio.TimeoutError as fault:
            raise Problem("TooSlow", 408, "the body didn't come in time") from fault

    def is_gone(self) -> bool:
        """Whether nobody waits for the answer any more, or nobody who may have it."""
        transport = self.request.transport
        return transport is None or transport.is_closing() or not self.host.access.knows(self.request, self.caller)

    def is_unheard(self) -> bool:
        """Whether the client's machine was asked for a sign, and hasn't given one yet."""
        transport = self.request.transport
        return transport is not None and is_unheard(transport.get_extra_info("socket"))

    @contextmanager
    def waiting(self) -> Iterator[None]:
        """While a claim waits, its client is soon noticed to be gone. Raises a problem if too many claims wait."""
        bounds = self.host.settings.bounds
        with self.host.waits.enter():
            self._notice_gone(bounds.gone_after)
            try:
                yield
            finally:
                self._notice_gone(bounds.slow_after)

    def _notice_gone(self, seconds: float) -> None:
        transport = self.request.transport
        if transport is not None and not transport.is_closing():
            notice_gone(transport.get_extra_info("socket"), seconds)

    def answer(self, told: Any, seen: int, status: int = 200) -> web.Response:
        """An answer that says how many operations it saw."""
        return web.json_response(
            told_outside(told, self.queue.number), status=status, headers={OPERATIONS: self.seen_text(seen)}
        )


Handler = Callable[[Asked], Awaitable[web.StreamResponse]]


class Route(NamedTuple):
    """A route for callers with a right, and the words that its query may have."""

    method: str
    path: str
    right: str
    handler: Handler
    words: tuple[str, ...] = ()


def expect_members(body: dict[str, Any], *names: str) -> None:
    """Refuses a body with other members: a word that is misspelt would be left out otherwise."""
    refuse_others("the body has members", body, names)


def refuse_others(what: str, given: Iterable[str], known: Iterable[str]) -> None:
    """Raises a problem that names the words that aren't known."""
    others = sorted(set(given) - set(known))
    if not others:
        return
    told = f"{what} that aren't known here: {json.dumps(others)[:200]}"
    if not APPLICATION_WORDS.isdisjoint(others):
        told += "; there are no applications here, and jobName alone names a job"
    raise bad_request(told)
