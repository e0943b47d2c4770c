"""Connections: so many at once, and none that is slow to send a request or to take its answer.

A caller for whose connection there is no room is answered a refusal, so that it knows why. Strangers are dropped.
"""

from __future__ import annotations

import asyncio
import logging
import socket
from collections import deque
from collections.abc import Awaitable, Callable
from contextlib import suppress
from typing import Any, cast

from aiohttp import web
from aiohttp.web_protocol import RequestHandler

from job_host.protocol.seldom import seldom
from job_host.service.http.head_with_body import HeadWithBody
from job_host.service.http.room import Room
from job_host.service.settings import Bounds

IDLE_SECONDS = 75.0
LINGERING_SECONDS = 1.0
# So many requests of one connection wait for their turn, or twice as many: then no more is read of it.
WAITING_REQUESTS = 16
# What may have many requests is read in parts of so many bytes. Each request has this word.
PART_BYTES = 512
VERSION_WORD = b"HTTP/"
BAD_REQUEST = b"HTTP/1.1 400 Bad Request\r\nContent-Length: 0\r\nConnection: close\r\n\r\n"
log = logging.getLogger(__name__)
# aiohttp writes a trace for what is no HTTP, by which any client could fill the log. The service logs its own failures.
QUIET = logging.getLogger("job_host.http")
QUIET.setLevel(logging.CRITICAL)


Handle = Callable[[web.Request], Awaitable[web.StreamResponse]]


class GuardedHandler(RequestHandler):
    """A connection that is dropped if a request, or the taking of an answer, makes no way for some seconds."""

    __slots__ = (
        "_guard",
        "_bounds",
        "_begun",
        "_is_served",
        "_unsent",
        "_stuck_since",
        "_unread",
        "_is_held",
        "_room",
        "_is_admitted",
        "_socket",
        "has_begun",
        "is_refused",
    )

    def __init__(self, manager: GuardedServer, bounds: Bounds, **given: Any) -> None:
        super().__init__(manager, **given)
        self._bounds = bounds
        self._room = manager.room
        self._is_admitted = False
        self._socket: socket.socket | None = None
        self._guard: asyncio.TimerHandle | None = None
        self._begun: float | None = None
        self._is_served = False
        self._unsent = 0
        self._stuck_since: float | None = None
        self._unread: deque[bytes] = deque()
        self._is_held = False
        self.has_begun = False
        self.is_refused = False

    def begin(self, accepted: socket.socket, address: bytes) -> None:
        """Takes a place for a connection that was accepted, and will be handed over."""
        self._socket = accepted
        cast(GuardedServer, self._manager).enter(self, address)

    def end_beginning(self) -> None:
        """The connection was handed over, or never will be."""
        self._socket = None
        if not self.has_begun:
            self._room.leave(self)

    def connection_made(self, transport: asyncio.BaseTransport) -> None:
        super().connection_made(transport)
        self.has_begun = True
        self._begun = self._loop.time()
        self._watch()

    def connection_lost(self, exc: BaseException | None) -> None:
        if self._guard is not None:
            self._guard.cancel()
        self._room.leave(self)
        super().connection_lost(exc)

    def admit(self) -> bool:
        """A caller was accepted. Returns whether there is room for its connection, which is closed else."""
        self._is_admitted = cast(GuardedServer, self._manager).admit(self)
        self.is_refused = not self._is_admitted
        return self._is_admitted

    def make_way(self) -> None:
        """Ends the connection, since another one needs its place. What was answered to a caller is sent before that."""
        if self._is_admitted:
            self.close()
        elif self.transport is not None:
            self.transport.abort()
        elif self._socket is not None:
            # Its handshake ends by itself then: to cancel it would leave its descriptor with asyncio, which is given again.
            with suppress(OSError):
                self._socket.shutdown(socket.SHUT_RDWR)

    def data_received(self, data: bytes) -> None:
        if self._begun is None and not self._is_served:
            self._begun = self._loop.time()
        self._room.note_idle(self, False)
        if data.count(VERSION_WORD) <= WAITING_REQUESTS:
            self._unread.append(data)
        else:
            self._unread.extend(data[place : place + PART_BYTES] for place in range(0, len(data), PART_BYTES))
        self._read_on()

    def _read_on(self) -> None:
        """Reads what has come, as long as few requests wait. The rest waits unread, and no more is taken from the client."""
        while self._unread and self.transport is not None and len(self._messages) < WAITING_REQUESTS and not self._upgrade:
            try:
                super().data_received(self._unread.popleft())
            except ValueError:
                self._refuse()
        if self._unread:
            self._is_held = True
            self.pause_reading()
        elif self._is_held:
            self._is_held = False
            self.resume_reading()

    async def start(self) -> None:
        """Serves the connection. aiohttp raises at some targets only when their turn comes."""
        try:
            await super().start()
        except ValueError:
            self._refuse()

    def _refuse(self) -> None:
        """Ends a connection with a request that aiohttp can't read, as one whose target is no URL."""
        self._unread.clear()
        if self.transport is not None and self._current_request is None and not self._messages:
            self.transport.write(BAD_REQUEST)
        self.force_close()

    def resume_reading(self) -> None:
        """A body that was read makes room for more of it, but not for more requests."""
        if not self._is_held:
            super().resume_reading()

    async def finish_response(self, request: web.BaseRequest, resp: web.StreamResponse, start_time: float) -> bool:
        is_reset = await super().finish_response(request, resp, start_time)
        self._read_on()
        self._room.note_idle(self, self._begun is None and not self._messages)
        return is_reset

    def note_served(self, is_served: bool) -> None:
        """The service has a request in hand, or has answered it."""
        self._is_served = is_served
        self._begun = None

    def handle_error(
        self, request: web.BaseRequest, status: int = 500, exc: BaseException | None = None, message: str | None = None
    ) -> web.StreamResponse:
        """Answers what is no HTTP. Nothing of it stands in a log, which anybody could fill otherwise."""
        if request.writer.output_size > 0:
            raise ConnectionError("an answer was begun")
        response = web.Response(status=status)
        response.force_close()
        return response

    def _watch(self) -> None:
        """Looks twice in the time that a slow client has."""
        if self.transport is None:
            return
        now, transport = self._loop.time(), self.transport
        unsent = transport.get_write_buffer_size()
        if unsent == 0 or unsent < self._unsent or self._stuck_since is None:
            self._stuck_since = now
        self._unsent = unsent
        is_slow_to_ask = self._begun is not None and now - self._begun > self._bounds.slow_after
        is_slow_to_take = unsent > 0 and now - self._stuck_since > self._bounds.slow_after
        if is_slow_to_ask or is_slow_to_take:
            transport.abort()
            return
        self._guard = self._loop.call_later(self._bounds.slow_after / 2, self._watch)


class GuardedServer(web.Server):
    """aiohttp's server of an application, whose connections are guarded. `handle` answers a request."""

    def __init__(self, application: web.Application, handle: Handle, bounds: Bounds) -> None:
        def make_request(message: Any, payload: Any, protocol: Any, writer: Any, task: Any) -> web.Request:
            return application._make_request(message, payload, protocol, HeadWithBody(protocol, protocol._loop), task)

        super().__init__(
            cast(Any, handle),
            request_factory=cast(Any, make_request),
            access_log=None,
            keepalive_timeout=IDLE_SECONDS,
            lingering_time=LINGERING_SECONDS,
            auto_decompress=False,
            logger=QUIET,
        )
        self._bounds = bounds
        self._say = seldom(log.warning)
        self.room = Room(bounds.connections)

    def enter(self, handler: GuardedHandler, address: bytes) -> None:
        """Lets a connection in. That another one made way is said once a minute."""
        if self.room.enter(handler, address):
            self._say(f"{self.room.count} connections are open: those by which no caller was accepted make way for new ones")

    def admit(self, handler: GuardedHandler) -> bool:
        is_admitted = self.room.admit(handler)
        if not is_admitted:
            self._say(f"{self._bounds.connections} connections of callers are open: no more are served")
        return is_admitted

    def __call__(self) -> GuardedHandler:
        return GuardedHandler(self, self._bounds, loop=self._loop, **self._kwargs)
