"""Machines that are gone without a word: they are noticed in seconds, and no work is given to them."""

from __future__ import annotations

import asyncio
import socket
import subprocess
import sys
import time
from collections.abc import Callable, Iterator
from contextlib import ExitStack
from pathlib import Path
from typing import Any, cast

import black_hole
import pytest
from instances import COMMAND, Caller, Instance, listening, running, until
from test_connections import REQUEST, connections, raw

from job_host.protocol import client
from job_host.protocol.client import Address, Client
from job_host.service.problems import Problem
from job_host.service.server import Service
from job_host.service.settings import Bounds, ServeSettings
from job_host.service.terms.calls import Call, Item
from job_host.service.terms.claims import ClaimDesk

Make = Callable[..., ServeSettings]
CLAIM = b"POST /batch/work HTTP/1.1\r\nHost: localhost\r\nContent-Type: application/json\r\nBatch-Client: dead%d\r\n"
WAITS = b'{"wait": 60}'
NOT_SWALLOWED = black_hole.why_not_swallowed()
swallowing = pytest.mark.skipif(NOT_SWALLOWED is not None, reason=str(NOT_SWALLOWED))
OPTIONS = [
    (socket.SOL_SOCKET, socket.SO_KEEPALIVE),
    (socket.IPPROTO_TCP, socket.TCP_KEEPIDLE),
    (socket.IPPROTO_TCP, socket.TCP_KEEPINTVL),
    (socket.IPPROTO_TCP, socket.TCP_KEEPCNT),
    (socket.IPPROTO_TCP, socket.TCP_USER_TIMEOUT),  # type: ignore[attr-defined]
]


def options_of(transport: Any) -> list[int]:
    one = transport.get_extra_info("socket")
    return [one.getsockopt(level, option) for level, option in OPTIONS]


async def until_connected(service: Service, count: int, seconds: float = 10.0) -> None:
    async def are_there() -> bool:
        return len(connections(service)) == count

    await until(are_there, seconds)


async def test_the_systems_options_of_a_connection(idle: Callable[..., Service]) -> None:
    async with listening(idle()) as service:
        reader, writer = await asyncio.open_connection("127.0.0.1", service.port)
        await until_connected(service, 1)
        assert options_of(connections(service)[0].transport) == [1, 2, 1, 8, 10_000]
        writer.close()


async def test_the_systems_options_of_a_workers_connection(idle: Callable[..., Service]) -> None:
    async with listening(idle()) as service, Client(Address((f"http://127.0.0.1:{service.port}",), "tester")) as worker:
        assert await worker.read("/livez") == "live\n"
        (kept,) = cast(Any, worker._sessions[0].connector)._conns.values()
        assert options_of(kept[0][0].transport) == [1, 2, 1, 8, 10_000]


@swallowing
async def test_a_connection_to_a_machine_that_is_gone_ends(idle: Callable[..., Service]) -> None:
    """One waits for the next request, and one hasn't acknowledged its answer."""
    async with listening(idle(Bounds(slow_after=3.0))) as service:
        both = [raw(service), raw(service)]
        loop = asyncio.get_running_loop()
        for one in both:
            await loop.sock_sendall(one, REQUEST)
            assert (await loop.sock_recv(one, 1000)).startswith(b"HTTP/1.1 200")
        await loop.sock_sendall(both[1], REQUEST[:-2])
        await until_connected(service, 2)
        await asyncio.sleep(0.2)
        for one in both:
            black_hole.swallow(one)
        await loop.sock_sendall(both[1], REQUEST[-2:])
        await until_connected(service, 0, 6.0)
        for one in both:
            one.close()


class Clients:
    """A desk's clients, some of whom are unheard or gone, and the work that they get."""

    def __init__(self, work: int) -> None:
        self.unheard: set[str] = set()
        self.gone: set[str] = set()
        self.given: list[str] = []
        self._work = work
        self.desk = ClaimDesk(self._begin)

    async def _begin(self, call: Call) -> Item:
        has_work = len(self.given) < self._work
        item = Item(call, 2, reply=b'{"work":{}}' if has_work else b'{"nothing":true}')
        if has_work:
            self.given.append(call.client)
        item.heard.set_result(item.reply)
        item.end()
        return item

    def claim(self, name: str, wait: float = 60.0) -> asyncio.Task[Any]:
        call = Call(name, "claim", {}, wait=wait, is_gone=lambda: name in self.gone, is_unheard=lambda: name in self.unheard)
        return asyncio.create_task(self.desk.claim(call))


async def test_no_work_is_given_to_a_client_that_is_unheard() -> None:
    clients = Clients(work=2)
    clients.unheard.add("first")
    claims = [clients.claim(name) for name in ("first", "second")]
    tasks = [asyncio.create_task(task) for task in (clients.desk.serve(), clients.desk.watch())]
    await asyncio.wait_for(claims[1], 1.0)
    await asyncio.sleep(0.7)
    assert clients.given == ["second"]
    clients.unheard.clear()
    await asyncio.wait_for(claims[0], 2.0)
    assert clients.given == ["second", "first"]
    for task in tasks:
        task.cancel()


async def test_a_claim_ends_soon_after_its_client_is_gone() -> None:
    """One waits in the desk; the other one's time was over when it was unheard."""
    clients = Clients(work=0)
    tasks = [asyncio.create_task(task) for task in (clients.desk.serve(), clients.desk.watch())]
    clients.unheard.update(("first", "second"))
    claims = [clients.claim("first"), clients.claim("second", 0.1)]
    await asyncio.sleep(0.3)
    assert not any(claim.done() for claim in claims) and clients.desk.waiting == 1
    clients.gone.update(("first", "second"))
    for claim in claims:
        with pytest.raises(Problem, match="the client that waited is gone"):
            await asyncio.wait_for(claim, 2.0)
    for task in tasks:
        task.cancel()


async def wait_and_die(instance: Instance, count: int) -> list[socket.socket]:
    """Clients that wait for work, and whose machines are gone then."""
    loop, dead = asyncio.get_running_loop(), [raw(instance.service) for _ in range(count)]
    for place, one in enumerate(dead):
        await loop.sock_sendall(one, CLAIM % place + b"Content-Length: %d\r\n\r\n" % len(WAITS) + WAITS)
    await instance.until_claims_wait(count)
    for one in dead:
        black_hole.swallow(one)
    return dead


@swallowing
@pytest.mark.parametrize("after", [3.0, 6.0])
async def test_work_goes_to_those_who_are_there(either: Make, after: float) -> None:
    """Four claims of a dead machine wait first: it is noticed that they are unheard, and then that they are gone."""
    async with running(either()) as instance:
        dead = await wait_and_die(instance, 4)
        claims = [asyncio.create_task(Caller(instance.url, f"alive{place}").claim(wait=30)) for place in range(4)]
        await asyncio.sleep(after)
        caller = Caller(instance.url)
        for _ in range(4):
            await caller.start("short")
        told = await asyncio.wait_for(asyncio.gather(*claims), 3.0)
        assert sorted(answer.told["work"]["work"] for answer in told) == [1, 2, 3, 4]
        holders = {one["client"] for one in (await caller.ask("GET", "/batch/work")).told}
        assert holders == {"alive0", "alive1", "alive2", "alive3"}
        await instance.until_claims_wait(0, 6.0)
        for one in dead:
            one.close()


@swallowing
async def test_a_client_leaves_an_instance_that_is_gone(idle: Callable[..., Service], monkeypatch: pytest.MonkeyPatch) -> None:
    """Its machine is gone while an answer is waited for. The next instance is asked within seconds."""
    monkeypatch.setattr(client, "GONE_SECONDS", 3.0)

    async def vanish(reader: asyncio.StreamReader, writer: asyncio.StreamWriter) -> None:
        black_hole.swallow(writer.get_extra_info("socket"))

    dead = await asyncio.start_server(vanish, "127.0.0.1", 0)
    async with listening(idle()) as service, dead:
        urls = [f"http://127.0.0.1:{port}" for port in (dead.sockets[0].getsockname()[1], service.port)]
        begun = time.monotonic()
        async with Client(Address(tuple(urls), "tester")) as caller:
            assert await caller.read("/livez") == "live\n"
        assert time.monotonic() - begun < 8.0


NO_NETWORKS = black_hole.why_not()


@pytest.fixture
def networks() -> Iterator[black_hole.Networks]:
    with black_hole.networks() as made:
        yield made


class Machines:
    """A service in its own network, with a worker beside it, and claims of a machine that is cut off."""

    def __init__(self, networks: black_hole.Networks, folder: Path, processes: ExitStack) -> None:
        self._networks = networks
        self._folder = folder
        self._processes = processes
        self._url = f"https://{black_hole.SERVICE_ADDRESS}:8570"

    def make_files(self) -> None:
        name = f"subjectAltName=IP:{black_hole.SERVICE_ADDRESS}"
        words = ["openssl", "req", "-x509", "-newkey", "ec", "-pkeyopt", "ec_paramgen_curve:prime256v1", "-nodes", "-days", "2"]
        words += ["-subj", "/CN=service", "-addext", name, "-keyout", "key", "-out", "certificate"]
        subprocess.run(words, check=True, capture_output=True, cwd=self._folder)
        tokens = {role: f"{role:-<20}" for role in ("operator", "worker")}
        (self._folder / "tokens").write_text("".join(f"{role} {role} {token}\n" for role, token in tokens.items()))
        for role, token in tokens.items():
            (self._folder / role).write_text(token)

    def start(self, words: list[str]) -> None:
        with open(self._folder / "log", "ab") as log:
            process = self._processes.enter_context(subprocess.Popen(words, stdout=log, stderr=log, cwd=self._folder))
        self._processes.callback(process.kill)

    def serve(self, *words: str) -> None:
        files = ["--tokens", "tokens", "--certificate", "certificate", "--certificate-key", "key"]
        given = ["serve", "--host", black_hole.SERVICE_ADDRESS, *words, *files]
        self.start(self._networks.of_service(sys.executable, str(COMMAND), *given))

    def call(self, role: str, *words: str) -> list[str]:
        """A command beside the service."""
        folder = self._folder
        files = ["--url", self._url, "--token", str(folder / role), "--authority", str(folder / "certificate")]
        return self._networks.of_service(sys.executable, str(COMMAND), *words, *files)

    def ask(self, path: str, role: str, *words: str) -> list[str]:
        """A request by curl."""
        token = (self._folder / role).read_text()
        return ["curl", "-sk", "-H", f"Authorization: Bearer {token}", *words, self._url + path]

    def claim(self, client: str) -> None:
        words = ["-H", f"Batch-Client: {client}", "--json", '{"wait":60}']
        self.start(self._networks.of_worker(*self.ask("/batch/work", "worker", *words)))

    def metrics(self) -> str:
        words = self._networks.of_service(*self.ask("/metrics", "operator"))
        return subprocess.run(words, check=False, capture_output=True, text=True).stdout


@pytest.mark.skipif(NO_NETWORKS is not None, reason=str(NO_NETWORKS))
def test_work_goes_past_a_machine_that_is_cut_off(
    networks: black_hole.Networks, embedded: Make, night: Path, artifacts: Path, tmp_path: Path
) -> None:
    """Four claims of curl wait over TLS when their machine's packets are dropped. Then a worker does all that is started."""
    with ExitStack() as processes:
        machines = Machines(networks, tmp_path, processes)
        machines.make_files()
        machines.serve("--catalogue", str(night), "--batchctl", embedded().batchctl[0], "--lease", "120")
        subprocess.run(machines.call("operator", "list"), check=True, capture_output=True)
        for place in range(4):
            machines.claim(f"dead{place}")
        until_told(machines, 4)
        networks.cut()
        time.sleep(6.0)
        machines.start(machines.call("worker", "worker", "--artifacts", str(artifacts), "--slots", "4"))
        for _ in range(4):
            subprocess.run(machines.call("operator", "start", "says", "--wait"), check=True, timeout=15)
        until_told(machines, 1)


def until_told(machines: Machines, count: int) -> None:
    """Returns after so many claims wait."""
    deadline = time.monotonic() + 15.0
    while f"jobhost_claims_waiting {count}.0" not in machines.metrics():
        assert time.monotonic() < deadline, machines.metrics()
        time.sleep(0.2)
