"""The soak's proxies: what they lose is lost as long as a fault lasts, and nothing is lost after it."""

from __future__ import annotations

import asyncio
import errno
import socket
from collections.abc import AsyncIterator
from contextlib import ExitStack, asynccontextmanager

import black_hole
import pytest
from instances import until
from soak_proxy import Proxy

ANSWER = b"answer"
NOT_SWALLOWED = black_hole.why_not_swallowed()


@asynccontextmanager
async def proxy_to_a_server(may_close: asyncio.Event) -> AsyncIterator[Proxy]:
    """A proxy to a server that answers one request of a connection, and closes it after the event."""

    async def answer(reader: asyncio.StreamReader, writer: asyncio.StreamWriter) -> None:
        await reader.read(1)
        writer.write(ANSWER)
        await may_close.wait()
        writer.close()

    async with await asyncio.start_server(answer, "127.0.0.1", 0) as server:
        proxy = Proxy(server.sockets[0].getsockname()[1])
        passing = asyncio.create_task(proxy.run())
        try:
            yield proxy
        finally:
            passing.cancel()
            await asyncio.gather(passing, return_exceptions=True)


async def connected(proxy: Proxy, port: int = 0) -> socket.socket:
    """A connection from a port. The system gives a port again a second or two after its last use."""
    made = socket.socket()
    made.setblocking(False)
    made.setsockopt(socket.SOL_SOCKET, socket.SO_REUSEADDR, 1)
    made.bind(("127.0.0.1", port))

    async def is_connected() -> bool:
        try:
            await asyncio.wait_for(asyncio.get_running_loop().sock_connect(made, ("127.0.0.1", proxy.port)), 3.0)
        except OSError as fault:
            if fault.errno == errno.EADDRNOTAVAIL:
                return False
            raise
        return True

    await until(is_connected, 10.0)
    return made


async def ask(one: socket.socket) -> None:
    loop = asyncio.get_running_loop()
    await loop.sock_sendall(one, b"?")
    assert await asyncio.wait_for(loop.sock_recv(one, 100), 3.0) == ANSWER


@pytest.mark.skipif(NOT_SWALLOWED is not None, reason=str(NOT_SWALLOWED))
async def test_a_connection_that_ends_while_it_is_lost_leaves_its_port_free() -> None:
    """Both sides have ended it before, and the proxy passes their ends on later. Then a client has the same port again."""
    may_close = asyncio.Event()
    async with proxy_to_a_server(may_close) as proxy:
        with ExitStack() as late, await connected(proxy) as first:
            await ask(first)
            port = first.getsockname()[1]
            late.enter_context(proxy.holding_back())
            first.close()
            may_close.set()
            await asyncio.sleep(0.1)
            with proxy.losing(lambda: True, and_new_ones=False):
                late.close()
                await asyncio.sleep(0.1)
            assert not list(proxy.older_than(0.0))
        with await connected(proxy, port) as again:
            await ask(again)
