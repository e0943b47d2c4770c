"""The ways between the parts of a soak: TCP proxies of the soak's own, which lose packets or hold bytes back."""

from __future__ import annotations

import asyncio
import socket
import struct
import time
from collections.abc import Callable, Coroutine, Iterator
from contextlib import contextmanager, suppress
from dataclasses import dataclass, field
from typing import Any

import black_hole

BACKLOG = 1_024
READ_BYTES = 65_536
RESET_AT_CLOSE = struct.pack("ii", 1, 0)


@dataclass
class Carried:
    """A connection on its way, and how many bytes were passed on, for the service and from it."""

    near: socket.socket
    far: socket.socket = field(default_factory=socket.socket)
    begun: float = field(default_factory=time.monotonic)
    asked: int = 0
    answered: int = 0

    @property
    def sockets(self) -> tuple[socket.socket, socket.socket]:
        return self.near, self.far

    @property
    def age(self) -> float:
        return time.monotonic() - self.begun


class Proxy:
    """One way: it passes on what comes for a port of this machine, and what is answered."""

    def __init__(self, to: int) -> None:
        self._to = to
        self._listening = socket.create_server(("127.0.0.1", 0), backlog=BACKLOG)
        self._listening.setblocking(False)
        self.port = int(self._listening.getsockname()[1])
        self.url = f"http://127.0.0.1:{self.port}"
        self._carried: dict[asyncio.Task[None], Carried] = {}
        self._lost: set[asyncio.Task[None]] = set()
        self._loses_new = False
        self._may_pass = asyncio.Event()
        self._may_pass.set()

    async def run(self) -> None:
        """Takes connections, for ever."""
        loop = asyncio.get_running_loop()
        try:
            while True:
                near, _ = await loop.sock_accept(self._listening)
                self._carry(near)
        finally:
            tasks = list(self._carried)
            for task in tasks:
                task.cancel()
            await asyncio.gather(*tasks, return_exceptions=True)
            self._listening.close()

    def _carry(self, near: socket.socket) -> None:
        carried = Carried(near)
        for one in carried.sockets:
            one.setblocking(False)
        task = asyncio.get_running_loop().create_task(self._pass_both(carried))
        self._carried[task] = carried
        if self._loses_new:
            self._lose(task)

        def end(task: asyncio.Task[None]) -> None:
            del self._carried[task]
            for one in carried.sockets:
                if task in self._lost:
                    # It hears no acknowledgement of its end. The system would keep it for minutes, and then the next connection
                    # from the client's port would be lost, too.
                    reset(one)
                one.close()
            self._lost.discard(task)

        task.add_done_callback(end)

    async def _pass_both(self, carried: Carried) -> None:
        """Passes on until both sides have ended, or one is reset: then the other one is reset, too."""

        def note_asked(count: int) -> None:
            carried.asked += count

        def note_answered(count: int) -> None:
            carried.answered += count

        near, far = carried.sockets
        try:
            await asyncio.get_running_loop().sock_connect(far, ("127.0.0.1", self._to))
            await both(self._pass_on(near, far, note_asked), self._pass_on(far, near, note_answered))
        except OSError:
            reset(near)
            reset(far)

    async def _pass_on(self, source: socket.socket, target: socket.socket, note: Callable[[int], None]) -> None:
        """Passes on the bytes of one side, and its end."""
        loop = asyncio.get_running_loop()
        while data := await loop.sock_recv(source, READ_BYTES):
            await self._may_pass.wait()
            await loop.sock_sendall(target, data)
            note(len(data))
        await self._may_pass.wait()
        target.shutdown(socket.SHUT_WR)

    @contextmanager
    def losing(self, is_chosen: Callable[[], bool], and_new_ones: bool) -> Iterator[None]:
        """Within the block the packets of chosen connections are lost, both ways, and none of them is acknowledged.

        At its end these connections are reset, as by a router that has forgotten them.
        """
        self._loses_new = and_new_ones
        for task in list(self._carried):
            if is_chosen():
                self._lose(task)
        try:
            yield
        finally:
            self._loses_new = False
            for task in list(self._lost):
                for one in self._carried[task].sockets:
                    reset(one)
                task.cancel()

    def _lose(self, task: asyncio.Task[None]) -> None:
        self._lost.add(task)
        for one in self._carried[task].sockets:
            black_hole.swallow(one)

    def older_than(self, seconds: float) -> Iterator[str]:
        """What is known of each connection that is older."""
        holds = "" if self._may_pass.is_set() else ", the proxy holds back"
        for task, one in self._carried.items():
            if one.age > seconds:
                lost = ", its packets are lost" if task in self._lost else ""
                near, far = [name_of(side) for side in one.sockets]
                passed = f"{one.asked} bytes passed on, {one.answered} back"
                yield f"{one.age:.1f} s old: {near} and {far}: {passed}{lost}{holds}"

    @contextmanager
    def holding_back(self) -> Iterator[None]:
        """Within the block nothing is passed on, also no end. At its end all comes late, though nobody may wait for it then."""
        self._may_pass.clear()
        try:
            yield
        finally:
            self._may_pass.set()


async def both(*passing: Coroutine[Any, Any, None]) -> None:
    """Returns after both have ended. Raises what one of them has raised, after the other one was cancelled."""
    tasks = [asyncio.ensure_future(one) for one in passing]
    try:
        await asyncio.gather(*tasks)
    finally:
        for task in tasks:
            task.cancel()
        await asyncio.gather(*tasks, return_exceptions=True)


def name_of(one: socket.socket) -> str:
    """The ports of a connection, this side's first, and the number of its TCP state: 1 is established, 2 is begun."""
    ports = []
    for name in (one.getsockname, one.getpeername):
        with suppress(OSError):
            ports.append(str(name()[1]))
    state = one.getsockopt(socket.IPPROTO_TCP, socket.TCP_INFO)
    return f"{' to '.join(ports)} in state {state & 255}"


def reset(one: socket.socket) -> None:
    """Lets the other side hear of a reset when the socket is closed."""
    with suppress(OSError):
        one.setsockopt(socket.SOL_SOCKET, socket.SO_LINGER, RESET_AT_CLOSE)
