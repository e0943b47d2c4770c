"""Routes are found by their paths as aiohttp finds them, and a head is sent with its body."""

from __future__ import annotations

import asyncio
from collections.abc import Callable
from typing import Any, cast

import pytest
from aiohttp import web
from aiohttp.base_protocol import BaseProtocol
from aiohttp.test_utils import make_mocked_request
from instances import listening
from multidict import CIMultiDict

from job_host.service.http.dispatch import Dispatch, Handler, prefixes_of
from job_host.service.http.head_with_body import MOST_BYTES, HeadWithBody
from job_host.service.server import Service

ROUTES = [
    ("GET", "/batch/work"),
    ("POST", "/batch/work"),
    ("POST", "/batch/work/reports"),
    ("PUT", "/batch/work/{id}"),
    ("GET", "/batch/work/{id}/log"),
    ("GET", "/batch/jobs/{name}"),
    ("GET", "/{other}"),
    ("GET", "/"),
]
ASKED = [
    *[("GET", "/batch/work", 0), ("POST", "/batch/work", 1), ("POST", "/batch/work/reports", 2), ("PUT", "/batch/work/7", 3)],
    *[("PUT", "/batch/work/reports", 3), ("GET", "/batch/work/7/log", 4), ("GET", "/batch/jobs/a%2Fb", 5)],
    *[("GET", "/x", 6), ("GET", "/", 7), ("HEAD", "/batch/work", 0)],
    *[
        ("DELETE", "/batch/work", 405),
        ("GET", "/batch/work/7", 405),
        ("GET", "/batch/none/7", 404),
        ("GET", "/batch/work/", 404),
    ],
]


async def which(request: web.Request, handler: Handler) -> web.StreamResponse:
    """Answers the number of the route, or the status of aiohttp's refusal."""
    try:
        return await handler(request)
    except web.HTTPException as refused:
        return web.Response(text=str(refused.status))


def application() -> web.Application:
    made = web.Application()
    for number, (method, path) in enumerate(ROUTES):

        async def handle(request: web.Request, number: int = number) -> web.StreamResponse:
            return web.Response(text=str(number))

        if method == "GET":
            made.router.add_get(path, handle)
        else:
            made.router.add_route(method, path, handle)
    made.freeze()
    return made


def test_the_beginnings_of_a_path() -> None:
    assert list(prefixes_of("/batch/work/7")) == ["/", "/batch/", "/batch/work/"]
    assert list(prefixes_of("*")) == []


@pytest.mark.parametrize(("method", "path", "expected"), ASKED)
async def test_a_route_is_found_as_aiohttp_finds_it(method: str, path: str, expected: int) -> None:
    made = application()
    answer = await Dispatch(made, which).handle(make_mocked_request(method, path))
    assert isinstance(answer, web.Response) and answer.text == str(expected)
    found = await made.router.resolve(make_mocked_request(method, path))
    assert cast(Any, await which(make_mocked_request(method, path), cast(Handler, found.handler))).text == str(expected)


async def test_parts_of_a_path_are_told_as_they_stand() -> None:
    asked = list[Any]()

    async def note(request: web.Request, handler: Handler) -> web.StreamResponse:
        asked.append((dict(request.match_info), request.match_info.route.resource.canonical))  # type: ignore[union-attr]
        return web.Response()

    await Dispatch(application(), note).handle(make_mocked_request("GET", "/batch/jobs/a%2Fb"))
    assert asked == [({"name": "a/b"}, "/batch/jobs/{name}")]


class Sent(asyncio.Transport):
    """Gathers what was sent, by the writes."""

    def __init__(self) -> None:
        super().__init__()
        self.writes: list[bytes] = []

    def write(self, data: Any) -> None:
        self.writes.append(bytes(data))

    def is_closing(self) -> bool:
        return False


@pytest.fixture
async def sent() -> Callable[[], tuple[HeadWithBody, Sent]]:
    def make() -> tuple[HeadWithBody, Sent]:
        loop, transport = asyncio.get_running_loop(), Sent()
        protocol = BaseProtocol(loop)
        protocol.connection_made(transport)
        return HeadWithBody(protocol, loop), transport

    return make


HEAD = b"HTTP/1.1 200 OK\r\nContent-Length: 2\r\n\r\n"


async def test_a_head_is_sent_with_its_body(sent: Callable[[], tuple[HeadWithBody, Sent]]) -> None:
    writer, transport = sent()
    await writer.write_headers("HTTP/1.1 200 OK", CIMultiDict({"Content-Length": "2"}))
    assert transport.writes == []
    await writer.write_eof(b"ab")
    assert transport.writes == [HEAD + b"ab"] and writer.output_size == len(HEAD) + 2


async def test_a_head_without_a_body_is_sent_at_the_end(sent: Callable[[], tuple[HeadWithBody, Sent]]) -> None:
    writer, transport = sent()
    await writer.write_headers("HTTP/1.1 200 OK", CIMultiDict({"Content-Length": "2"}))
    await writer.write_eof()
    assert transport.writes == [HEAD]


async def test_a_long_body_is_not_copied_and_one_without_a_length_is_not_waited_for(
    sent: Callable[[], tuple[HeadWithBody, Sent]]
) -> None:
    writer, transport = sent()
    await writer.write_headers("HTTP/1.1 200 OK", CIMultiDict({"Content-Length": "2"}))
    await writer.write_eof(b"a" * (MOST_BYTES + 1))
    assert transport.writes == [HEAD, b"a" * (MOST_BYTES + 1)]
    writer, transport = sent()
    await writer.write_headers("HTTP/1.1 200 OK", CIMultiDict({"Content-Type": "text/event-stream"}))
    assert transport.writes == [b"HTTP/1.1 200 OK\r\nContent-Type: text/event-stream\r\n\r\n"]


async def ask(port: int, head: str, body: bytes = b"") -> bytes:
    reader, writer = await asyncio.open_connection("127.0.0.1", port)
    writer.write(head.encode() + b"\r\nConnection: close\r\n\r\n" + body)
    told = await reader.read()
    writer.close()
    return told


async def test_what_is_answered_is_the_same_in_parts_or_at_once(idle: Callable[..., Service]) -> None:
    async with listening(idle()) as service:
        head = f"Host: 127.0.0.1:{service.port}"
        live = await ask(service.port, f"GET /livez HTTP/1.1\r\n{head}")
        assert live.startswith(
            b"HTTP/1.1 200 OK\r\nContent-Type: text/plain; charset=utf-8\r\nX-Content-Type-Options: nosniff\r\n"
        )
        assert live.endswith(b"\r\nConnection: close\r\n\r\nlive\n") and b"\r\nContent-Length: 5\r\n" in live
        asked_head = await ask(service.port, f"HEAD /livez HTTP/1.1\r\n{head}")
        assert asked_head.endswith(b"\r\nConnection: close\r\n\r\n") and b"\r\nContent-Length: 5\r\n" in asked_head
        none = await ask(service.port, f"GET /none HTTP/1.1\r\n{head}")
        assert none.startswith(b"HTTP/1.1 404 Not Found\r\n") and b'"title": "NotFound"' in none
        refused = await ask(service.port, f"DELETE /livez HTTP/1.1\r\n{head}")
        assert refused.startswith(b"HTTP/1.1 405 ") and b'"title": "MethodNotAllowed"' in refused
        expecting = await ask(service.port, f"POST /batch/work HTTP/1.1\r\n{head}\r\nExpect: 100-continue\r\nContent-Length: 0")
        assert expecting.startswith(b"HTTP/1.1 100 Continue\r\n\r\nHTTP/1.1 400 Bad Request\r\n")
        unknown = await ask(service.port, f"POST /batch/work HTTP/1.1\r\n{head}\r\nExpect: more\r\nContent-Length: 0")
        assert unknown.startswith(b"HTTP/1.1 417 ")
