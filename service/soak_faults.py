"""The faults of a soak: each harms a part, waits until what has to hold meanwhile does, and brings the part back."""

from __future__ import annotations

import asyncio
import os
import random
import resource
import signal
import socket
import subprocess
import time
from collections import Counter
from collections.abc import AsyncIterator, Awaitable, Callable, Iterable, Iterator, Sequence
from contextlib import AbstractAsyncContextManager, ExitStack, asynccontextmanager, contextmanager, suppress
from dataclasses import dataclass
from typing import TYPE_CHECKING

import aiohttp
from instances import READY_SECONDS, Caller, Process, until
from postgres_server import PostgresServer, children_of
from soak_check import Wrong

if TYPE_CHECKING:
    from soak import Parts

Fault = Callable[["Parts", random.Random], AbstractAsyncContextManager[None]]
Function = Callable[["Parts", random.Random], AsyncIterator[None]]

EACH = ("embedded", "postgres", "standby")
TWO_INSTANCES = ("postgres", "standby")
# So long a service may need to answer a probe while others flood it.
PROBE_SECONDS = 10.0
# So long it may take until a start is accepted after a fault, or during one that lasts.
START_SECONDS = 60.0
# So long packets are lost at most. A call that isn't answered for a minute has another reason.
LONGEST_HOLE = 20.0
# More than the service serves at once, from two addresses.
SILENT_CONNECTIONS = 1_200
# The exit status of a worker that begins without a folder.
NO_FOLDER = 2
TLS_HELLO = b"\x16\x03\x01\x02\x00\x01\x00\x01\xfc\x03\x03" + b"h" * 32
PLAIN_REQUEST = b"GET /batch/jobexecutions/1 HTTP/1.1\r\nHost: localhost\r\nBatch-Client: flood\r\n\r\n"
BAD_START = b"POST /batch/jobinstances HTTP/1.1\r\nHost: localhost\r\nBatch-Client: flood\r\nContent-Type: application/json\r\n"
BODY = b'{"jobName":"none"}'
FLOOD = (PLAIN_REQUEST + BAD_START + b"Content-Length: %d\r\n\r\n" % len(BODY) + BODY) * 500


@dataclass(frozen=True)
class Kind:
    """A kind of fault. It is chosen by its weight in some modes, and lasts for some further faults."""

    begin: Fault
    weight: int
    modes: Sequence[str]
    lasts: tuple[int, int]


KINDS: dict[str, Kind] = {}


def kind(
    name: str, weight: int = 2, modes: Sequence[str] = EACH, lasts: tuple[int, int] = (0, 0)
) -> Callable[[Function], Function]:
    """Notes a function as a kind of fault: up to its `yield` it begins, and then it ends."""

    def note(function: Function) -> Function:
        KINDS[name] = Kind(asynccontextmanager(function), weight, modes, lasts)
        return function

    return note


@kind("service", weight=6)
async def kill_service(parts: Parts, chance: random.Random) -> AsyncIterator[None]:
    """Kills an instance, which leads or follows again after it was started."""
    service = chance.choice(parts.living)
    service.kill()
    await asyncio.sleep(chance.random() * 2)
    service.start()
    await parts.until_role(service, "leader", "follower")
    yield


@kind("batchctl", weight=4)
async def kill_batchctl(parts: Parts, chance: random.Random) -> AsyncIterator[None]:
    """Kills an instance's batchctl, which the instance starts again by itself."""
    signal_all(children_of(chance.choice(parts.living).number), signal.SIGKILL)
    yield


@kind("worker", weight=6)
async def kill_worker(parts: Parts, chance: random.Random) -> AsyncIterator[None]:
    """Kills a worker, whose work items are FAILED when their leases run out. Another one takes its place."""
    place = chance.randrange(len(parts.workers))
    parts.workers[place].stop()
    await asyncio.sleep(chance.random())
    parts.workers[place] = parts.new_worker(place)
    yield


@kind("postgres", weight=4, modes=("postgres",))
async def kill_postgres(parts: Parts, chance: random.Random) -> AsyncIterator[None]:
    """Kills the server, and starts it again: what was acknowledged is there."""
    (server,) = parts.servers
    await asyncio.to_thread(server.kill)
    await asyncio.sleep(chance.random())
    await asyncio.to_thread(server.start)
    yield


@kind("pause", modes=("postgres",))
async def pause_service(parts: Parts, chance: random.Random) -> AsyncIterator[None]:
    """Stops an instance for longer than another one needs to take over: it keeps nothing after it goes on."""
    service = chance.choice(parts.living)
    service.signal(signal.SIGSTOP)
    await asyncio.sleep(parts.takeover + chance.random() * 2)
    service.signal(signal.SIGCONT)
    yield


@kind("promote", weight=12, modes=("standby",))
async def promote_standby(parts: Parts, chance: random.Random) -> AsyncIterator[None]:
    """Kills the primary, promotes its standby, and makes a new standby at the place of the old primary."""
    primary, standby = parts.servers
    await asyncio.to_thread(primary.kill)
    await asyncio.to_thread(standby.promote)
    await asyncio.to_thread(primary.remove)
    fresh = await asyncio.to_thread(standby.make_standby, primary.port)
    await asyncio.to_thread(standby.replicate_by_one)
    parts.servers = [standby, fresh]
    yield


@kind("absent", modes=TWO_INSTANCES, lasts=(5, 10))
async def leave_dead(parts: Parts, chance: random.Random) -> AsyncIterator[None]:
    """Kills an instance, which stays dead during 5 to 10 further faults. The other one leads."""
    service = chance.choice(parts.living)
    service.kill()
    parts.dead.append(service)
    for other in parts.living:
        await parts.until_role(other, "leader")
    yield
    service.start()
    parts.dead.remove(service)
    await parts.until_role(service, "leader", "follower")


@kind("black-hole", lasts=(0, 2))
async def lose_packets(parts: Parts, chance: random.Random) -> AsyncIterator[None]:
    """The packets of half of all connections are lost without a word. Clients and workers go on by new ones."""
    with ExitStack() as holes:
        for proxy in parts.ways:
            holes.enter_context(proxy.losing(lambda: chance.random() < 0.5, and_new_ones=False))
        ending = asyncio.get_running_loop().call_later(LONGEST_HOLE, holes.close)
        await asyncio.sleep(chance.random() * 6)
        yield
        ending.cancel()


@kind("cut-off")
async def cut_off(parts: Parts, chance: random.Random) -> AsyncIterator[None]:
    """All packets to an instance, or from one to its PostgreSQL server, are lost for seconds, also of new connections."""
    with chance.choice(parts.ways).losing(lambda: True, and_new_ones=True):
        await asyncio.sleep(1 + chance.random() * 6)
    yield


@kind("late")
async def hold_back(parts: Parts, chance: random.Random) -> AsyncIterator[None]:
    """Requests, commits and answers come seconds late, some behind others that took their place. Nothing is made twice."""
    with chance.choice(parts.ways).holding_back():
        await asyncio.sleep(0.5 + chance.random() * 5)
    yield


@kind("grandchild", lasts=(1, 3))
async def leave_processes(parts: Parts, chance: random.Random) -> AsyncIterator[None]:
    """Artifacts leave processes behind that hold their output. Their work items end, and these processes with them."""
    leaves, left = parts.artifacts / "leaves", parts.artifacts / "left"
    before = left.stat().st_size
    leaves.touch()

    async def has_left() -> bool:
        return left.stat().st_size > before

    with suppress(TimeoutError):
        await until(has_left, 5.0)
    yield
    leaves.unlink(missing_ok=True)


@kind("folder")
async def lose_folder(parts: Parts, chance: random.Random) -> AsyncIterator[None]:
    """A worker's folder is gone for some seconds. The worker claims nothing meanwhile, but for the claim under way."""
    place = chance.randrange(len(parts.workers))
    folder = parts.folder_of(place)
    away = folder.rename(folder.with_name(f"away-{folder.name}"))
    parts.folders_lost += 1
    await asyncio.sleep(1 + chance.random() * 4)
    away.rename(folder)
    # A worker that was only beginning has no folder to begin with, and ends.
    if parts.workers[place].process.poll() == NO_FOLDER:
        parts.workers[place] = parts.new_worker(place)
    yield


@kind("store", modes=("embedded",))
async def lose_store(parts: Parts, chance: random.Random) -> AsyncIterator[None]:
    """The SQLite file is lost while the service is dead, which goes on over its log."""
    (service,) = parts.services
    service.kill()
    parts.lose_store()
    service.start()
    await parts.until_role(service, "leader")
    yield


@kind("connections", modes=TWO_INSTANCES)
async def end_connections(parts: Parts, chance: random.Random) -> AsyncIterator[None]:
    """PostgreSQL ends all connections of the instances, or half of them. The instances make new ones."""
    ours = "select pg_terminate_backend(pid) from pg_stat_activity where application_name = 'jobhost'"
    await asyncio.to_thread(parts.servers[0].sql, ours + chance.choice(["", " and random() < 0.5"]))
    yield


@kind("hung-postgres", modes=TWO_INSTANCES)
async def hang_server(parts: Parts, chance: random.Random) -> AsyncIterator[None]:
    """All processes of a server but the postmaster are stopped for some seconds: it takes connections, and answers nobody."""
    server, stopped = chance.choice(parts.servers), set[int]()
    ends = time.monotonic() + 1 + chance.random() * 6
    try:
        while time.monotonic() < ends:
            fresh = set(processes_of(server)) - stopped
            signal_all(fresh, signal.SIGSTOP)
            stopped |= fresh
            await asyncio.sleep(0.02)
    finally:
        signal_all(stopped, signal.SIGCONT)
    yield


@kind("pipelining", lasts=(0, 2))
async def pipeline(parts: Parts, chance: random.Random) -> AsyncIterator[None]:
    """Connections send as many requests as are taken, read no answer, and hold. The service answers others."""
    service = chance.choice(parts.living)
    held = await asyncio.to_thread(lambda: [connection_to(parts, service, "127.0.0.1") for _ in range(8)])
    sending = [asyncio.ensure_future(flood(one)) for one in held]
    await asyncio.wait(sending, timeout=1 + chance.random() * 2)
    await probe(parts, service)
    yield
    for task in sending:
        task.cancel()
    await asyncio.gather(*sending, return_exceptions=True)
    for one in held:
        one.close()


@kind("silent", lasts=(0, 2))
async def say_nothing(parts: Parts, chance: random.Random) -> AsyncIterator[None]:
    """More connections than there are places say nothing, half a TLS hello, or half a request. The service answers others."""
    service = chance.choice(parts.living)
    count = min(SILENT_CONNECTIONS, resource.getrlimit(resource.RLIMIT_NOFILE)[0] // 4)
    begun = [b"", TLS_HELLO, PLAIN_REQUEST[:-4]]

    def connect() -> list[socket.socket]:
        held = []
        for place in range(count):
            with suppress(OSError):
                held.append(connection_to(parts, service, f"127.0.0.{2 + place % 2}"))
                held[-1].send(begun[place % 3])
        return held

    held = await asyncio.to_thread(connect)
    await probe(parts, service)
    yield
    for one in held:
        one.close()


@kind("hung-batchctl")
async def hang_batchctl(parts: Parts, chance: random.Random) -> AsyncIterator[None]:
    """Stops an instance's batchctl. The instance isn't ready then, kills it, and goes on by another one."""
    service = chance.choice(parts.living)
    await parts.until_role(service, "leader", "follower")
    hung = set(children_of(service.number))
    signal_all(hung, signal.SIGSTOP)

    async def is_unready() -> bool:
        return (await Caller(service.url).ask("GET", "/readyz")).status == 503

    async def is_ready_again() -> bool:
        return hung.isdisjoint(children_of(service.number)) and not await is_unready()

    try:
        await until(is_unready, READY_SECONDS * parts.slowness)
        await until(is_ready_again, READY_SECONDS * parts.slowness)
    finally:
        signal_all(hung.intersection(children_of(service.number)), signal.SIGCONT)
    yield


def signal_all(processes: Iterable[int], number: int) -> None:
    for process in processes:
        with suppress(ProcessLookupError):
            os.kill(process, number)


def processes_of(server: PostgresServer) -> list[int]:
    """All processes of a server but its first one, which takes connections."""
    return children_of(int((server.folder / "data" / "postmaster.pid").read_text().split()[0]))


def connection_to(parts: Parts, service: Process, address: str) -> socket.socket:
    """A connection from an address of loopback. Raises TimeoutError if the service doesn't take it soon."""
    seconds = PROBE_SECONDS * parts.slowness
    made = socket.create_connection(("127.0.0.1", service.port), seconds, source_address=(address, 0))
    made.setblocking(False)
    return made


async def flood(one: socket.socket) -> None:
    """Sends requests as fast as they are taken, for ever, and reads no answer."""
    while True:
        await asyncio.get_running_loop().sock_sendall(one, FLOOD)


async def probe(parts: Parts, service: Process) -> None:
    """Raises Wrong if the service doesn't answer soon."""
    seconds = PROBE_SECONDS * parts.slowness
    try:
        answer = await asyncio.wait_for(Caller(service.url).ask("GET", "/livez"), seconds)
    except (aiohttp.ClientError, asyncio.TimeoutError, OSError) as fault:
        raise Wrong(f"a probe wasn't answered within {seconds:g} seconds: {fault!r}") from fault
    if answer.status != 200:
        raise Wrong(f"a probe was answered {answer}")


class Faults:
    """Makes one fault after the other. After each, nothing has ended that has to run, and a start is accepted."""

    def __init__(self, parts: Parts, chance: random.Random, start: Callable[[], Awaitable[None]]) -> None:
        self._parts = parts
        self._chance = chance
        self._start = start
        self._lasting: list[tuple[int, str, AbstractAsyncContextManager[None]]] = []
        self.made: Counter[str] = Counter()

    def names(self, only: Sequence[str]) -> Iterator[str]:
        """Kinds at random, for ever: of those that are named, or of all that the mode has."""
        found = [name for name in KINDS if self._parts.mode in KINDS[name].modes and (not only or name in only)]
        while True:
            yield self._chance.choices(found, [KINDS[name].weight for name in found])[0]

    async def make(self, name: str) -> None:
        """Makes a fault. One that needs two instances ends those that last, if an instance is dead."""
        if name == "absent" and self._parts.dead:
            await self.end()
        made = self.made.total() + 1
        self._note(f"{name} begins")
        with failing(name):
            fault = KINDS[name].begin(self._parts, self._chance)
            await fault.__aenter__()
            self._lasting.append((made + self._chance.randint(*KINDS[name].lasts), name, fault))
        self.made[name] += 1
        await self.end(made)
        with failing(name):
            self._check_processes()
            await asyncio.wait_for(self._start(), START_SECONDS * self._parts.slowness)

    async def end(self, made: int | None = None) -> None:
        """Ends the faults that last no longer than so many, or all."""
        for one in [one for one in self._lasting if made is None or one[0] <= made]:
            self._lasting.remove(one)
            with failing(one[1]):
                await one[2].__aexit__(None, None, None)
            self._note(f"{one[1]} is over")

    def _note(self, told: str) -> None:
        self._parts.faults.append(f"{time.strftime('%X')} {told}")

    def _check_processes(self) -> None:
        for service in self._parts.living:
            with suppress(subprocess.TimeoutExpired):
                raise Wrong(f"an instance ended by itself with status {service.wait(0)}: {service.log[-2_000:]}")
        for worker in self._parts.workers:
            if worker.process.poll() is not None:
                raise Wrong(f"a worker ended by itself with status {worker.process.poll()}: {worker.log.read_text()[-2_000:]}")


@contextmanager
def failing(name: str) -> Iterator[None]:
    """Says of which fault it is that something isn't as it has to be, or doesn't come in time."""
    try:
        yield
    except (TimeoutError, subprocess.TimeoutExpired) as fault:
        raise Wrong(f"fault {name}: what has to be then didn't come in time: {fault!r}") from fault
    except Wrong as wrong:
        raise Wrong(f"fault {name}: {wrong}") from wrong
