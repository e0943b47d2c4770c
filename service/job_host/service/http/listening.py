"""Listening sockets: a connection has a place from its accept on, also during its TLS handshake, which has its time."""

from __future__ import annotations

import asyncio
import ipaddress
import logging
import socket
import ssl
from contextlib import suppress
from typing import cast

from aiohttp import web

from job_host.protocol.peers import notice_gone
from job_host.protocol.seldom import seldom
from job_host.service.http.connections import GuardedHandler, GuardedServer
from job_host.service.settings import Bounds

log = logging.getLogger(__name__)

BACKLOG = 1_024
# So many are accepted at a time, so that those before them come to show who they are.
ACCEPTED = 8
# The part of an address of IPv6 by which its network is known.
NETWORK_BYTES = 8
# After a failure, as without a free file descriptor, connections are accepted again after so long.
ACCEPT_AGAIN_SECONDS = 1.0


class Listener:
    """Accepts connections on one or several sockets."""

    def __init__(self, server: GuardedServer, tls: ssl.SSLContext | None, bounds: Bounds) -> None:
        self.sockets: list[socket.socket] = []
        self._server = server
        self._tls = tls
        self._bounds = bounds
        self._handshake_seconds = bounds.handshake if tls is not None else None
        self._loop = asyncio.get_running_loop()
        self._beginning: set[asyncio.Task[None]] = set()
        self._say = seldom(log.warning)

    async def listen(self, host: str, port: int) -> None:
        """Raises OSError if it can't listen on one of the host's addresses."""
        found = await self._loop.getaddrinfo(host, port, type=socket.SOCK_STREAM, flags=socket.AI_PASSIVE)
        try:
            for family, address in dict.fromkeys((one[0], one[4]) for one in found):
                self.sockets.append(listening_socket(family, address, self._bounds.slow_after))
        except OSError:
            self.close()
            raise
        for one in self.sockets:
            self._loop.add_reader(one, self._accept, one)

    def _accept(self, listening: socket.socket) -> None:
        """Takes the connections that have come."""
        for _ in range(ACCEPTED):
            try:
                connection, address = listening.accept()
            except (BlockingIOError, InterruptedError, ConnectionAbortedError):
                return
            except OSError as fault:
                self._say(f"can't accept connections: {fault}")
                self._loop.remove_reader(listening)
                self._loop.call_later(ACCEPT_AGAIN_SECONDS, self._accept_again, listening)
                return
            self._begin(connection, network_of(address[0]))

    def _accept_again(self, listening: socket.socket) -> None:
        if listening in self.sockets:
            self._loop.add_reader(listening, self._accept, listening)

    def _begin(self, connection: socket.socket, address: bytes) -> None:
        handler = self._server()
        handler.begin(connection, address)
        task = self._loop.create_task(self._hand_on(connection, handler))
        self._beginning.add(task)

        def end(task: asyncio.Task[None]) -> None:
            self._beginning.discard(task)
            handler.end_beginning()
            if task.cancelled():
                connection.close()

        task.add_done_callback(end)

    async def _hand_on(self, connection: socket.socket, handler: GuardedHandler) -> None:
        """Hands a connection to its handler, after its handshake. One without a handshake in time is dropped."""
        with suppress(OSError, asyncio.TimeoutError):
            await self._loop.connect_accepted_socket(
                lambda: handler, connection, ssl=self._tls, ssl_handshake_timeout=self._handshake_seconds
            )

    def close(self) -> None:
        while self.sockets:
            listening = self.sockets.pop()
            self._loop.remove_reader(listening)
            listening.close()

    async def wait_closed(self) -> None:
        """Ends the handshakes that are under way."""
        tasks = list(self._beginning)
        for task in tasks:
            task.cancel()
        await asyncio.gather(*tasks, return_exceptions=True)


def network_of(address: str) -> bytes:
    """An address of IPv4, or the network of one of IPv6, within which a client may have as many as it likes."""
    return ipaddress.ip_address(address.partition("%")[0]).packed[:NETWORK_BYTES]


def listening_socket(family: int, address: tuple[object, ...], slow_after: float) -> socket.socket:
    """Its connections have its options. Raises OSError if it can't listen."""
    made = socket.socket(family, socket.SOCK_STREAM)
    try:
        notice_gone(made, slow_after)
        made.setsockopt(socket.SOL_SOCKET, socket.SO_REUSEADDR, 1)
        if family == socket.AF_INET6:
            made.setsockopt(socket.IPPROTO_IPV6, socket.IPV6_V6ONLY, 1)
        made.bind(address)
        made.setblocking(False)
        made.listen(BACKLOG)
    except OSError as fault:
        made.close()
        raise OSError(fault.errno, f"can't listen on {address[0]}, port {address[1]}: {fault.strerror}") from fault
    return made


class GuardedSite(web.BaseSite):
    """A listener as a site of aiohttp, whose end lets the calls in hand end."""

    def __init__(self, runner: web.ServerRunner, listener: Listener, shutdown_timeout: float) -> None:
        super().__init__(runner, shutdown_timeout=shutdown_timeout)
        # A listener does of asyncio's server what a site needs.
        self._server = cast(asyncio.AbstractServer, listener)

    @property
    def name(self) -> str:
        return "jobhost"

    async def start(self) -> None:
        await super().start()
