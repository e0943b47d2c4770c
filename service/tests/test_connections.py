"""What clients without a token may bring about: no memory without bound, no log without bound; and how a service ends."""

from __future__ import annotations

import asyncio
import json
import logging
import socket
import ssl
from collections.abc import Callable
from pathlib import Path
from typing import Any, cast

import pytest
from instances import listening, until
from test_probes import make_certificate

from job_host.protocol.seldom import seldom
from job_host.service import server
from job_host.service.http.requests import Asked, Route
from job_host.service.http.room import MOST_BESIDE
from job_host.service.server import Service
from job_host.service.settings import Bounds

REQUEST = b"GET /livez HTTP/1.1\r\nHost: localhost\r\n\r\n"
Idle = Callable[..., Service]


def connections(service: Service) -> list[Any]:
    return list(cast(Any, service._runner).server.connections)


async def answer_to(service: Service, text: bytes, seconds: float = 10) -> bytes:
    """What comes until the connection's end."""
    reader, writer = await asyncio.open_connection("127.0.0.1", service.port)
    try:
        writer.write(text)
        return await asyncio.wait_for(reader.read(), seconds)
    except ConnectionError:
        return b""
    finally:
        writer.close()


async def test_requests_of_one_connection_do_not_pile_up(idle: Idle) -> None:
    """A client sends as fast as it can, and reads the answers."""
    async with listening(idle()) as service:
        reader, writer = await asyncio.open_connection("127.0.0.1", service.port)

        async def send() -> None:
            while True:
                writer.write(REQUEST * 1_000)
                await writer.drain()

        async def receive() -> None:
            while await reader.read(65_536):
                pass

        tasks = [asyncio.create_task(send()), asyncio.create_task(receive())]
        most = 0
        for _ in range(100):
            await asyncio.sleep(0.01)
            most = max([most, *(len(one._messages) for one in connections(service))])
        for task in tasks:
            task.cancel()
        await asyncio.gather(*tasks, return_exceptions=True)
        writer.close()
    assert 1 < most <= 64


async def test_pipelined_requests_are_answered_in_their_order(idle: Idle) -> None:
    body = json.dumps({"HTTP/" * 30: 1}).encode()
    post = (
        b"POST /batch/jobinstances HTTP/1.1\r\nHost: localhost\r\nContent-Type: application/json\r\nContent-Length: %d\r\n\r\n"
    )
    texts = [REQUEST, post % len(body) + body, REQUEST.replace(b"livez", b"readyz")]
    last = REQUEST.replace(b"\r\n\r\n", b"\r\nConnection: close\r\n\r\n")
    async with listening(idle()) as service:
        told = await answer_to(service, b"".join(texts) * 300 + last, 60)
    statuses = [int(part[:3]) for part in told.split(b"HTTP/1.1 ")[1:]]
    assert statuses == [200, 400, 503] * 300 + [200]


async def test_a_large_body_is_read_whole(idle: Idle) -> None:
    body = json.dumps({"jobName": "HTTP/" * 100_000, "other": 1}).encode()
    head = b"POST /batch/jobinstances HTTP/1.1\r\nHost: localhost\r\nContent-Type: application/json\r\nConnection: close\r\n"
    async with listening(idle()) as service:
        told = await answer_to(service, head + b"Content-Length: %d\r\n\r\n" % len(body) + body, 30)
    assert told.startswith(b"HTTP/1.1 400 ") and b"other" in told


async def test_what_no_url_is_fills_no_log(idle: Idle, caplog: pytest.LogCaptureFixture) -> None:
    caplog.set_level(logging.WARNING)
    async with listening(idle()) as service:
        for target in [b"http://[::1", b"http://[x]/"] * 20:
            told = await answer_to(service, REQUEST.replace(b"/livez", target))
            assert told.startswith(b"HTTP/1.1 400 ")
        assert (await answer_to(service, b"CONNECT /\xff HTTP/1.1\r\nHost: localhost\r\n\r\n")).startswith(b"HTTP/1.1 400 ")
        told = await answer_to(service, REQUEST + REQUEST.replace(b"/livez", b"http://[x]/") + REQUEST)
        assert told.count(b"HTTP/1.1 200") <= 1
    assert len(caplog.messages) == 0


async def test_failures_beside_a_request_are_said_seldom(caplog: pytest.LogCaptureFixture) -> None:
    said: list[str] = []
    note = server.failures_note(seldom(said.append, 0.2))
    loop = asyncio.get_running_loop()
    for number in range(100):
        note(loop, {"message": "failed", "exception": ValueError("x" * 10_000)})
    await asyncio.sleep(0.25)
    note(loop, {"message": "failed again", "exception": None})
    assert len(said) == 2 and len(said[0]) == 500 and said[1] == "failed again: None (99 more were left out before)"


def raw(service: Service) -> socket.socket:
    made = socket.create_connection(("127.0.0.1", service.port))
    made.setblocking(False)
    return made


async def end_of(one: socket.socket, seconds: float) -> bool:
    """Whether a connection has ended after so long."""
    try:
        return await asyncio.wait_for(asyncio.get_running_loop().sock_recv(one, 1), seconds) == b""
    except ConnectionError:
        return True
    except asyncio.TimeoutError:
        return False


async def test_a_connection_without_a_handshake_counts_and_has_its_time(idle: Idle, tmp_path: Path) -> None:
    make_certificate(tmp_path)
    files = {"certificate": tmp_path / "certificate", "certificate_key": tmp_path / "key"}
    context = ssl.create_default_context()
    context.check_hostname, context.verify_mode = False, ssl.CERT_NONE
    async with listening(idle(Bounds(connections=4, handshake=1.5), **files)) as service:
        held = [raw(service) for _ in range(MOST_BESIDE)]
        await asyncio.sleep(0.2)
        reader, writer = await asyncio.open_connection("127.0.0.1", service.port, ssl=context)
        writer.write(REQUEST)
        assert (await asyncio.wait_for(reader.readline(), 5)).startswith(b"HTTP/1.1 200 ")
        writer.close()
        assert await asyncio.gather(*(end_of(one, 0.3) for one in held)) == [True] + [False] * (MOST_BESIDE - 1)
        more = [raw(service) for _ in range(MOST_BESIDE + 10)]
        assert await asyncio.gather(*(end_of(one, 0.3) for one in more)) == [True] * 10 + [False] * MOST_BESIDE
        assert all(await asyncio.gather(*(end_of(one, 5) for one in held + more)))
        reader, writer = await asyncio.open_connection("127.0.0.1", service.port, ssl=context)
        writer.write(REQUEST)
        assert (await asyncio.wait_for(reader.readline(), 5)).startswith(b"HTTP/1.1 200 ")
        writer.close()
        for one in held + more:
            one.close()


async def test_each_connection_of_tls_is_counted_no_longer_than_it_is_there(idle: Idle, tmp_path: Path) -> None:
    make_certificate(tmp_path)
    async with listening(idle(certificate=tmp_path / "certificate", certificate_key=tmp_path / "key")) as service:
        context = ssl.create_default_context()
        for kind in (context, None, context, None):
            try:
                _, writer = await asyncio.open_connection("127.0.0.1", service.port, ssl=kind)
                writer.write(REQUEST)
                writer.close()
            except ssl.SSLError:
                pass

        async def are_gone() -> bool:
            return int(cast(Any, service._runner).server.room.count) == 0

        await until(are_gone, 5)


class Slow(Service):
    """A service with a call that takes two seconds."""

    def _routes(self) -> list[Route]:
        return [*super()._routes(), Route("GET", "/slow", "read", self._answer_late)]

    async def _answer_late(self, asked: Asked) -> Any:
        await asyncio.sleep(2.0)
        return asked.answer({"late": True}, 0)


async def test_calls_in_hand_end_before_the_service(idle: Idle) -> None:
    service = Slow(idle().settings)
    await service.listen()
    asking = asyncio.create_task(answer_to(service, REQUEST.replace(b"livez", b"slow")))
    following = asyncio.create_task(answer_to(service, REQUEST.replace(b"livez", b"batch/events")))
    await asyncio.sleep(0.3)
    loop = asyncio.get_running_loop()
    begun = loop.time()
    await service.end_serving()
    assert 1 < loop.time() - begun < 5
    assert (await asking).endswith(b'{"late": true}')
    assert b"data: " in await following
    with pytest.raises(ConnectionError):
        await asyncio.open_connection("127.0.0.1", service.port)


async def test_an_address_in_use_is_named(idle: Idle) -> None:
    async with listening(idle()) as service:
        with pytest.raises(OSError, match=f"can't listen on 127.0.0.1, port {service.port}: Address already in use"):
            await idle(port=service.port).listen()
