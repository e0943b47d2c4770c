"""Room for connections: neither silent ones nor claims that wait keep callers out, and all are told of the bound."""

from __future__ import annotations

import asyncio
import socket
import ssl
from collections.abc import Callable
from pathlib import Path
from typing import Any, cast

import pytest
from instances import Caller, listening, running, until
from test_connections import REQUEST, answer_to, end_of, raw
from test_probes import make_certificate, write_tokens

from job_host.service.http.listening import network_of
from job_host.service.http.room import Room
from job_host.service.server import Service
from job_host.service.settings import Bounds, ServeSettings

Make = Callable[..., ServeSettings]
Idle = Callable[..., Service]
TOKEN = "t" * 20
EVENTS = REQUEST.replace(b"/livez", b"/batch/events")


def caller_of(service: Service, token: str | None = TOKEN) -> Caller:
    return Caller(f"http://127.0.0.1:{service.port}", token=token)


async def is_served(service: Service, token: str | None = TOKEN) -> bool:
    """Whether a caller is answered within a second."""
    told = await asyncio.wait_for(caller_of(service, token).ask("GET", "/batch/caller"), 1.0)
    return told.status == 200


def room_of(service: Service) -> Room:
    return cast(Room, cast(Any, service._runner).server.room)


async def until_count(service: Service, count: int) -> None:
    async def is_so() -> bool:
        return room_of(service).count == count

    await until(is_so, 5.0)


def from_address(service: Service, address: str) -> socket.socket:
    """A connection of another address. All addresses that begin by 127 are loopback's."""
    made = socket.create_connection(("127.0.0.1", service.port), source_address=(address, 0))
    made.setblocking(False)
    return made


@pytest.mark.parametrize("begun", [b"", REQUEST[:-4]])
async def test_silent_and_slow_connections_keep_no_caller_out(idle: Idle, tmp_path: Path, begun: bytes) -> None:
    async with listening(idle(Bounds(connections=100), tokens=write_tokens(tmp_path, TOKEN))) as service:
        for _ in range(5):
            held = [raw(service) for _ in range(200)]
            for one in held:
                await asyncio.get_running_loop().sock_sendall(one, begun)
            assert await is_served(service)
            for one in held:
                one.close()


async def left_of(held: dict[str, list[socket.socket]]) -> dict[str, list[int]]:
    """Which connections of each address are left, by the order in which they came."""
    left = {}
    for address, those in held.items():
        ended = await asyncio.gather(*(end_of(one, 0.3) for one in those))
        left[address] = [place for place, has_ended in enumerate(ended) if not has_ended]
    return left


async def test_an_address_without_an_accepted_call_has_no_more_than_its_part(idle: Idle, tmp_path: Path) -> None:
    """One address takes what it can get. When others come, each has its part, and its newest connections stay."""
    async with listening(idle(Bounds(connections=100), tokens=write_tokens(tmp_path, TOKEN))) as service:
        held = {"127.0.0.2": [from_address(service, "127.0.0.2")]}
        held["127.0.0.3"] = [from_address(service, "127.0.0.3") for _ in range(120)]
        held["127.0.0.4"] = [from_address(service, "127.0.0.4")]
        await until_count(service, 100)
        assert await left_of(held) == {"127.0.0.2": [0], "127.0.0.3": list(range(22, 120)), "127.0.0.4": [0]}
        held["127.0.0.5"] = [from_address(service, "127.0.0.5") for _ in range(120)]
        assert await is_served(service)
        left = await left_of(held)
        assert (left["127.0.0.2"], left["127.0.0.4"]) == ([0], [0])
        for address in ("127.0.0.3", "127.0.0.5"):
            assert left[address] == list(range(120 - len(left[address]), 120)) and 48 <= len(left[address]) <= 50
        for those in held.values():
            for one in those:
                one.close()


def test_a_network_of_ipv6_is_one_address() -> None:
    assert network_of("2001:db8::1") == network_of("2001:db8::ffff:1%eth0") != network_of("2001:db8:0:1::1")
    assert network_of("192.0.2.1") != network_of("192.0.2.2")


async def ask_on(reader: asyncio.StreamReader, writer: asyncio.StreamWriter) -> bytes:
    """Asks by a connection that is kept. Returns the status line, and reads the whole answer."""
    writer.write(b"GET /batch/caller HTTP/1.1\r\nHost: localhost\r\nAuthorization: Bearer %s\r\n\r\n" % TOKEN.encode())
    head = await asyncio.wait_for(reader.readuntil(b"\r\n\r\n"), 2.0)
    length = int(head.lower().split(b"content-length: ")[1].split(b"\r\n")[0])
    await reader.readexactly(length)
    return head.split(b"\r\n")[0]


async def test_a_caller_that_is_idle_makes_way_for_another_one_and_not_for_strangers(idle: Idle, tmp_path: Path) -> None:
    async with listening(idle(Bounds(connections=2), tokens=write_tokens(tmp_path, TOKEN))) as service:
        kept = []
        for _ in range(2):
            kept.append(await asyncio.open_connection("127.0.0.1", service.port))
            assert await ask_on(*kept[-1]) == b"HTTP/1.1 200 OK"
        held = [raw(service) for _ in range(20)]
        assert await is_served(service, "wrong" * 5) is False
        assert [await ask_on(*one) for one in reversed(kept)] == [b"HTTP/1.1 200 OK"] * 2
        assert await is_served(service)
        assert await asyncio.wait_for(kept[1][0].read(), 1.0) == b""
        assert await ask_on(*kept[0]) == b"HTTP/1.1 200 OK"
        for one in held:
            one.close()
        for _, writer in kept:
            writer.close()


async def test_callers_are_told_that_all_connections_have_requests_in_hand(idle: Idle) -> None:
    """A probe is answered all the same."""
    async with listening(idle(Bounds(connections=3))) as service:
        followers = [raw(service) for _ in range(3)]
        for one in followers:
            await asyncio.get_running_loop().sock_sendall(one, EVENTS)
            assert (await asyncio.get_running_loop().sock_recv(one, 1000)).startswith(b"HTTP/1.1 200")
        caller = caller_of(service, None)
        refused = await caller.ask("GET", "/batch/caller")
        assert (refused.status, refused.name) == (503, "TooManyConnections")
        assert "3 connections have requests in hand" in refused.told["detail"]
        assert b"\r\nConnection: close\r\n" in await answer_to(service, REQUEST.replace(b"/livez", b"/batch/caller"))
        assert (await caller.ask("GET", "/livez")).status == 200
        followers.pop().close()

        async def has_room() -> bool:
            return await is_served(service, None)

        await until(has_room, 5.0)
        for one in followers:
            one.close()


@pytest.mark.parametrize("with_tls", [False, True])
async def test_many_callers_that_come_at_once_are_all_served(idle: Idle, tmp_path: Path, with_tls: bool) -> None:
    more: dict[str, Any] = {"tokens": write_tokens(tmp_path, TOKEN)}
    if with_tls:
        make_certificate(tmp_path)
        more |= {"certificate": tmp_path / "certificate", "certificate_key": tmp_path / "key"}
    context = ssl.create_default_context()
    context.check_hostname, context.verify_mode = False, ssl.CERT_NONE
    async with listening(idle(**more)) as service:
        words: dict[str, Any] = {"host": "127.0.0.1", "port": service.port, "ssl": context if with_tls else None}
        kept = await asyncio.gather(*(asyncio.open_connection(**words) for _ in range(400)))
        assert set(await asyncio.gather(*(ask_on(*one) for one in kept))) == {b"HTTP/1.1 200 OK"}
        assert room_of(service).count == 400
        for _, writer in kept:
            writer.close()


async def test_claims_that_wait_leave_room_for_callers(either: Make) -> None:
    """More claims come than there are connections. What is started then is given to those who wait."""
    async with running(either(bounds=Bounds(connections=8))) as instance:
        claims = [asyncio.create_task(Caller(instance.url, f"worker{place}").claim(wait=30)) for place in range(20)]
        await instance.until_claims_wait(6)
        caller = Caller(instance.url)
        begun = [await asyncio.wait_for(caller.start("short"), 2.0) for _ in range(6)]
        assert [answer.status for answer in begun] == [201] * 6
        assert (await caller.ask("GET", "/batch/jobs")).status == 200
        answers = await asyncio.wait_for(asyncio.gather(*claims), 10.0)
        assert sorted(answer.told["work"]["work"] for answer in answers if answer.status == 200) == [1, 2, 3, 4, 5, 6]
        refused = {(answer.status, answer.name, answer.told["detail"]) for answer in answers if answer.status != 200}
        waits = (429, "TooManyRequests", "6 claims wait for work already: this one may be made again")
        assert waits in refused and {status for status, _, _ in refused} <= {429, 503}
