"""What an artifact writes: its log, and its exit status in a file of its own or as the first line of standard output."""

from __future__ import annotations

import asyncio
import os
import re
import tempfile
from contextlib import suppress
from pathlib import Path

from job_host.protocol.bounds import LOG_BYTES

LINE_BYTES = 65_536
EXIT_BYTES = 256
EXIT_FILE_BYTES = 65_536
EXIT_LINE = re.compile(rb"exit-status: ?(.*)", re.DOTALL)
EXIT_FILE_VARIABLE = "BATCH_EXIT_STATUS_FILE"


class NoExitStatus(Exception):
    """What was written isn't an exit status. The text says why."""


class Tail:
    """The last bytes of what artifacts wrote."""

    def __init__(self, most: int = LOG_BYTES) -> None:
        self._most = most
        self._kept = bytearray()
        self._streams: list[Stream] = []
        self._last: Stream | None = None

    def stream(self) -> Stream:
        """A stream that shares this log with others."""
        self._streams.append(Stream(self))
        return self._streams[-1]

    def add(self, data: bytes, source: Stream | None = None) -> None:
        """Adds what a stream wrote, or the worker. What another one than the last wrote begins a line."""
        if source is not self._last and self._kept and not self._kept.endswith(b"\n"):
            self._kept += b"\n"
        self._last = source
        self._kept += data
        if len(self._kept) > 2 * self._most:
            del self._kept[: -self._most]

    def say(self, text: str) -> None:
        """Adds a line of the worker's own."""
        self.add(f"jobhost: {text}\n".encode())

    def text(self) -> str:
        begun = b"".join(stream.begun for stream in self._streams)
        return (bytes(self._kept) + begun)[-self._most :].decode("utf-8", "replace")


class Stream:
    """Standard output or standard error. Its lines come whole into the log, and a line without an end stands last."""

    def __init__(self, tail: Tail) -> None:
        self._tail = tail
        self.begun = b""

    def hear(self, data: bytes) -> None:
        whole, feed, self.begun = (self.begun + data).rpartition(b"\n")
        if len(self.begun) > LINE_BYTES:
            whole, feed, self.begun = whole + feed + self.begun, b"", b""
        if whole or feed:
            self._tail.add(whole + feed, self)

    def end(self) -> None:
        if self.begun:
            self._tail.add(self.begun, self)
        self.begun = b""


def exit_text(line: bytes, what: str) -> str:
    """A line as an exit status. Raises NoExitStatus if it is too long, or not UTF-8."""
    if len(line) > EXIT_BYTES:
        raise NoExitStatus(f"{what} has more than {EXIT_BYTES} bytes, and is no exit status")
    try:
        return line.decode("utf-8")
    except UnicodeDecodeError as fault:
        raise NoExitStatus(f"{what} isn't UTF-8, and is no exit status") from fault


class FirstLine:
    """The first line of standard output. No more is kept than tells whether it is too long."""

    def __init__(self) -> None:
        self._kept = b""
        self._is_whole = False

    def hear(self, data: bytes) -> None:
        if not self._is_whole:
            line, feed, _ = data.partition(b"\n")
            self._kept += line[: EXIT_BYTES + 1]
            self._is_whole = bool(feed) or len(self._kept) > EXIT_BYTES

    @property
    def exit_status(self) -> str | None:
        """The exit status, or none without output."""
        if not self._kept and not self._is_whole:
            return None
        return exit_text(self._kept, "the first line of standard output")


async def drain(source: asyncio.StreamReader | None, log: Stream, first: FirstLine | None = None) -> None:
    """Reads to the end, or until it is cancelled."""
    try:
        while source is not None and (data := await source.read(65_536)):
            log.hear(data)
            if first is not None:
                first.hear(data)
    finally:
        log.end()


class ExitFile:
    """A file for the exit status of one process, which is told its path by its environment."""

    def __init__(self) -> None:
        """Makes an empty file. Raises OSError if it can't."""
        descriptor, path = tempfile.mkstemp(prefix="jobhost-exit-status-")
        os.close(descriptor)
        self.path = Path(path)

    def variables(self) -> dict[str, str]:
        return {EXIT_FILE_VARIABLE: str(self.path)}

    def read(self) -> bytes:
        """The last part of what was written. It is empty if the file isn't used. Raises NoExitStatus if it can't be read."""
        if not self.path.is_file():
            return b""
        try:
            with open(self.path, "rb") as file:
                file.seek(max(0, file.seek(0, os.SEEK_END) - EXIT_FILE_BYTES))
                return file.read()
        except OSError as fault:
            raise NoExitStatus(f"{EXIT_FILE_VARIABLE}: {fault}") from fault

    def remove(self) -> None:
        with suppress(OSError):
            self.path.unlink(missing_ok=True)


def exit_status(file: ExitFile, first: FirstLine | None) -> str | None:
    """The exit status of a process: in its file, else the first line if that counts. Raises NoExitStatus."""
    written = file.read()
    if not written:
        return first.exit_status if first is not None else None
    lines = [match[1] for line in written.split(b"\n") if (match := EXIT_LINE.fullmatch(line))]
    if not lines:
        raise NoExitStatus(f"{EXIT_FILE_VARIABLE} has no line `exit-status: TEXT`")
    return exit_text(lines[-1], f"the exit status in {EXIT_FILE_VARIABLE}")
