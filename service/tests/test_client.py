"""The client: which instance it asks next, on which connection, and how long an attempt lasts."""

from __future__ import annotations

import asyncio
import time
from collections.abc import AsyncIterator, Awaitable, Callable
from contextlib import asynccontextmanager

import pytest
from aiohttp import web
from aiohttp.test_utils import TestServer
from postgres_server import free_port

from job_host.protocol.client import Address, Client, Unreachable

Answer = Callable[[web.Request], Awaitable[web.StreamResponse]]


@asynccontextmanager
async def answering(answer: Answer) -> AsyncIterator[str]:
    """An instance that answers each request so."""
    app = web.Application()
    app.router.add_route("*", "/{path:.*}", answer)
    async with TestServer(app) as server:
        yield str(server.make_url("")).rstrip("/")


async def welcome(request: web.Request) -> web.StreamResponse:
    return web.json_response({"told": True})


def dead_url() -> str:
    """A URL at which nobody listens."""
    return f"http://127.0.0.1:{free_port()}"


@pytest.mark.parametrize("calls", [1, 2, 4, 8])
async def test_calls_that_fail_together_go_on_to_the_next_instance(calls: int) -> None:
    """The first instance is dead. Each call has failed once, and none comes back to it."""
    notes: list[str] = []
    async with answering(welcome) as url:
        async with Client(Address((dead_url(), url), "tester"), notes.append) as client:
            begun = time.monotonic()
            told = await asyncio.gather(*(client.operate("PUT", "/batch/work/1") for _ in range(calls)))
            assert told == [{"told": True}] * calls
            assert time.monotonic() - begun < 5.0
            assert len(notes) == calls


async def test_a_follower_names_the_leader() -> None:
    """Of four instances the last one leads. The client asks it next, and no other one before."""
    asked: list[str] = []
    async with answering(welcome) as leader:

        async def refer(request: web.Request) -> web.StreamResponse:
            asked.append(request.path)
            return web.json_response({"title": "NotLeader", "leader": leader + "/"}, status=503)

        async with answering(refer) as one, answering(refer) as two, answering(refer) as three:
            async with Client(Address((one, two, three, leader), "tester")) as client:
                assert await client.operate("POST", "/batch/jobinstances") == {"told": True}
    assert asked == ["/batch/jobinstances"]


async def test_a_leader_that_was_not_given_is_not_asked() -> None:
    """A token goes to no other place than the given ones."""
    strange: list[str] = []

    async def take(request: web.Request) -> web.StreamResponse:
        strange.append(request.path)
        return web.json_response({})

    async with answering(take) as other, answering(welcome) as leader:

        async def refer(request: web.Request) -> web.StreamResponse:
            return web.json_response({"title": "NotLeader", "leader": other}, status=503)

        async with answering(refer) as follower, Client(Address((follower, leader), "tester")) as client:
            assert await client.operate("POST", "/batch/jobinstances") == {"told": True}
    assert strange == []


async def test_a_swallowed_request_is_made_again_on_a_new_connection() -> None:
    """The first request on the second connection is never answered: an attempt ends, and the next has its own connection."""
    peers: list[object] = []
    ends = asyncio.Event()

    async def swallow_second(request: web.Request) -> web.StreamResponse:
        assert request.transport is not None
        peers.append(request.transport.get_extra_info("peername"))
        if len(peers) == 2:
            await ends.wait()
        return web.json_response({"told": len(peers)})

    async with answering(swallow_second) as url, Client(Address((url,), "tester")) as client:
        assert await client.operate("PUT", "/batch/work/1", attempt=0.5) == {"told": 1}
        begun = time.monotonic()
        assert await client.operate("PUT", "/batch/work/1", patience=5.0, attempt=0.5) == {"told": 3}
        assert time.monotonic() - begun < 3.0
        ends.set()
    assert peers[0] == peers[1] != peers[2]


async def test_an_attempt_that_is_never_answered_ends() -> None:
    ends = asyncio.Event()

    async def swallow(request: web.Request) -> web.StreamResponse:
        await ends.wait()
        return web.json_response({})

    async with answering(swallow) as url, Client(Address((url,), "tester")) as client:
        begun = time.monotonic()
        with pytest.raises(Unreachable):
            await client.operate("PUT", "/batch/work/1", patience=0.5, attempt=0.2)
        assert time.monotonic() - begun < 3.0
        ends.set()
