"""The co-process: one `batchctl script`, lines in and lines out, in one order."""

from __future__ import annotations

import asyncio
import logging
import os
import signal
import time
from collections import deque
from collections.abc import Callable, Sequence
from contextlib import suppress
from typing import cast

log = logging.getLogger(__name__)

Hearer = Callable[[bytes | None], None]


class CoProcessEnded(Exception):
    """The co-process has ended, so that a line has no reply. `status` is its exit status, if that is known."""

    def __init__(self, told: str, status: int | None = None) -> None:
        super().__init__(told)
        self.status = status


class CatalogueRefused(Exception):
    """The first line that the co-process wrote is a fault: of its catalogue, or of its log."""

    def __init__(self, fault: bytes) -> None:
        super().__init__(fault.decode("utf-8", "replace"))
        self.fault = fault


class CoProcess(asyncio.SubprocessProtocol):
    """Writes lines and hands each reply to its hearer, in the order of the lines.

    A hearer is called in the event loop's thread. It is given None if the co-process ends before its reply. While another one
    takes its place, lines wait. The lines of one turn of the event loop are written at once: so they are read together, and
    batchctl's log waits for the disk once for all of them.
    """

    def __init__(self) -> None:
        self._loop = asyncio.get_running_loop()
        self._hearers: deque[Hearer] = deque()
        self._rest = b""
        self._unwritten: list[bytes] = []
        self._transport: asyncio.SubprocessTransport | None = None
        self._stdin: asyncio.WriteTransport | None = None
        self._errors = b""
        self._heard_at = 0.0
        self.catalogue = b""
        self.has_ended = False
        self.ended: asyncio.Future[int | None] = self._loop.create_future()
        # It has ended, or another one has taken its place.
        self.gone: asyncio.Future[None] = self._loop.create_future()
        self._waiting: list[tuple[Sequence[bytes], Hearer]] | None = None

    @classmethod
    async def start(cls, words: Sequence[str], catalogue: bytes) -> CoProcess:
        """Starts the program, hands it the catalogue, and waits until it answers.

        Raises CatalogueRefused if its first line is a fault, and CoProcessEnded if it writes none.
        """
        loop = asyncio.get_running_loop()
        _, made = await loop.subprocess_exec(cls, *words, start_new_session=True)
        process = made
        process.catalogue = catalogue
        process._write(catalogue + b"\n")
        try:
            first = await process.ask(b'{"ask":"status_counts"}')
        except (CoProcessEnded, asyncio.CancelledError):
            await process.close()
            raise
        if not first.startswith(b'{"counts":'):
            await process.close()
            raise CatalogueRefused(first)
        return process

    def connection_made(self, transport: asyncio.BaseTransport) -> None:
        self._transport = cast(asyncio.SubprocessTransport, transport)
        self._stdin = cast(asyncio.WriteTransport, self._transport.get_pipe_transport(0))

    def pipe_data_received(self, fd: int, data: bytes | str) -> None:
        received = cast(bytes, data)
        self._heard_at = time.monotonic()
        if fd == 2:
            self._errors = (self._errors + received)[-4096:]
            return
        *lines, self._rest = (self._rest + received).split(b"\n") if self._rest else received.split(b"\n")
        for line in lines:
            if self._hearers:
                self._hearers.popleft()(line)
            else:
                log.error("batchctl wrote a line that nobody waits for: %r", line[:200])

    def connection_lost(self, exc: Exception | None) -> None:
        """It has ended, and all that it wrote was heard. No reply comes any more."""
        self.has_ended = True
        if not self.ended.done():
            self.ended.set_result(self.status)
        while self._hearers:
            self._hearers.popleft()(None)
        if self._waiting is None:
            self._go()

    def _go(self) -> None:
        if not self.gone.done():
            self.gone.set_result(None)

    def hold(self) -> None:
        """Lets lines wait from now on: another co-process is to take its place."""
        self._waiting = []

    def go_on_in(self, other: CoProcess) -> None:
        """Hands the lines that wait to the co-process that has taken its place."""
        waiting, self._waiting = self._waiting or [], None
        for lines, hearer in waiting:
            other.send_all(lines, hearer)
        self._go()

    def give_up(self) -> None:
        """No other one takes its place: no reply comes to the lines that wait."""
        waiting, self._waiting = self._waiting or [], None
        for hearer in [hearer for lines, hearer in waiting for _ in lines]:
            hearer(None)
        if self.has_ended:
            self._go()

    @property
    def is_held(self) -> bool:
        """Whether another one is taking its place, so that lines wait."""
        return self._waiting is not None

    @property
    def silence(self) -> float:
        """For how many seconds it has written nothing though a line waits for its reply."""
        return time.monotonic() - self._heard_at if self._hearers else 0.0

    @property
    def status(self) -> int | None:
        return self._transport.get_returncode() if self._transport else None

    @property
    def process_id(self) -> int:
        if self._transport is None:
            raise CoProcessEnded("not started")
        return self._transport.get_pid()

    @property
    def errors(self) -> str:
        """The last of what it wrote on standard error."""
        return self._errors.decode("utf-8", "replace").strip()

    def log_end(self) -> None:
        """Logs that it has ended, if it has, though nobody wanted it to."""
        if self.has_ended:
            log.error("batchctl ended with status %s: %s", self.status, self.errors.rpartition("\n")[2] or "it wrote no reason")

    def _write(self, data: bytes) -> None:
        """Writes it at the end of this turn of the event loop, with what comes until then."""
        if not self._unwritten:
            self._loop.call_soon(self._flush)
        self._unwritten.append(data)

    def _flush(self) -> None:
        data, self._unwritten = b"".join(self._unwritten), []
        if data and self._stdin is not None and not self._stdin.is_closing():
            self._stdin.write(data)

    def _begin_waiting(self) -> None:
        if not self._hearers:
            self._heard_at = time.monotonic()

    def send(self, line: bytes, hearer: Hearer) -> None:
        """Writes a line. Its reply goes to the hearer."""
        if self._waiting is not None:
            self._waiting.append(([line], hearer))
            return
        if self.has_ended:
            hearer(None)
            return
        self._begin_waiting()
        self._hearers.append(hearer)
        self._write(line + b"\n")

    def send_all(self, lines: Sequence[bytes], hearer: Hearer) -> None:
        """Writes lines one behind the other. Nothing comes between them, and the hearer is told each reply."""
        if self._waiting is not None:
            self._waiting.append((lines, hearer))
        elif self.has_ended:
            hearer(None)
        elif lines:
            self._begin_waiting()
            self._hearers.extend([hearer] * len(lines))
            self._write(b"\n".join(lines) + b"\n")

    def ask_all(self, lines: Sequence[bytes]) -> asyncio.Future[list[bytes]]:
        """Writes lines one behind the other, and gives their replies."""
        future: asyncio.Future[list[bytes]] = asyncio.get_running_loop().create_future()
        replies: list[bytes] = []

        def hear(reply: bytes | None) -> None:
            if future.done():
                return
            if reply is None:
                future.set_exception(CoProcessEnded(f"batchctl ended with status {self.status}: {self.errors}", self.status))
                return
            replies.append(reply)
            if len(replies) == len(lines):
                future.set_result(replies)

        if lines:
            self.send_all(lines, hear)
        else:
            future.set_result(replies)
        return future

    async def ask(self, line: bytes) -> bytes:
        return (await self.ask_all([line]))[0]

    def kill(self) -> None:
        """Ends it at once. What it knows is lost."""
        if self._transport is not None and self.status is None:
            # Not by the transport: it would look for the status itself, and take it from who waits for it.
            with suppress(ProcessLookupError):
                os.kill(self._transport.get_pid(), signal.SIGKILL)

    async def finish(self) -> int | None:
        """Closes its input, and waits for its end."""
        if self._stdin is not None:
            self._flush()
            self._stdin.close()
        return await self.wait()

    async def wait(self) -> int | None:
        """Returns its status after its end."""
        return await asyncio.shield(self.ended)

    async def close(self) -> None:
        self.kill()
        if self._transport is not None:
            await self.wait()
            self._transport.close()
