"""Machines that are gone without a word, for tests: their packets are dropped, and nobody is told."""

from __future__ import annotations

import ctypes
import socket
import struct
import subprocess
from collections.abc import Iterator
from contextlib import contextmanager

# Python has no name for Linux's option.
SO_ATTACH_FILTER = 26
# A filter of one instruction, "return 0": no packet comes in.
DROP_ALL = struct.pack("HBBI", 6, 0, 0, 0)
SERVICE_ADDRESS, WORKER_ADDRESS = "10.213.7.1", "10.213.7.2"
HOLDER = "echo; read line"


def swallow(connection: socket.socket) -> None:
    """From now on nothing comes in by this connection, and what comes isn't acknowledged."""
    code = ctypes.create_string_buffer(DROP_ALL)
    connection.setsockopt(socket.SOL_SOCKET, SO_ATTACH_FILTER, struct.pack("@HP", 1, ctypes.addressof(code)))


def why_not_swallowed() -> str | None:
    """Why no connection can be swallowed here, if none can: some systems let root alone give a filter to a socket."""
    with socket.socket() as one:
        try:
            swallow(one)
        except OSError as fault:
            return f"no filter can be given to a socket here: {fault}"
    return None


class Networks:
    """Two networks of the tests' own: the service's, and a worker's, whose machine can be cut off."""

    def __init__(self, service: int, worker: int) -> None:
        self._service, self._worker = service, worker

    @staticmethod
    def _within(process: int, words: list[str]) -> list[str]:
        return ["nsenter", "--preserve-credentials", "-U", "-n", "-t", str(process), "--", *words]

    def of_service(self, *words: str) -> list[str]:
        return self._within(self._service, list(words))

    def of_worker(self, *words: str) -> list[str]:
        return self._within(self._worker, list(words))

    def join(self) -> None:
        run(self.of_service("ip", "link", "set", "lo", "up"))
        run(self.of_service("ip", "link", "add", "near", "type", "veth", "peer", "name", "far", "netns", str(self._worker)))
        run(self.of_service("ip", "address", "add", f"{SERVICE_ADDRESS}/24", "dev", "near"))
        run(self.of_service("ip", "link", "set", "near", "up"))
        run(self.of_worker("ip", "address", "add", f"{WORKER_ADDRESS}/24", "dev", "far"))
        run(self.of_worker("ip", "link", "set", "far", "up"))

    def cut(self) -> None:
        """The worker's machine has its address no more: what comes for it is dropped there, and nothing goes out."""
        run(self.of_worker("ip", "address", "flush", "dev", "far"))


def run(words: list[str]) -> str:
    return subprocess.run(words, check=True, capture_output=True, text=True).stdout


def why_not() -> str | None:
    """Why no networks can be made here, if they can't."""
    try:
        with networks():
            return None
    except (OSError, subprocess.CalledProcessError) as fault:
        return f"no network of the tests' own can be made here: {fault}"


@contextmanager
def held(words: list[str]) -> Iterator[int]:
    """A process that holds a network as long as the block lasts."""
    process = subprocess.Popen(words, stdin=subprocess.PIPE, stdout=subprocess.PIPE)
    try:
        assert process.stdout is not None
        if not process.stdout.readline():
            raise subprocess.CalledProcessError(process.wait(), words)
        yield process.pid
    finally:
        process.communicate()


@contextmanager
def networks() -> Iterator[Networks]:
    """Raises if an ordinary user may have no network of its own, or if a program is missing."""
    with held(["unshare", "--user", "--map-root-user", "--net", "sh", "-c", HOLDER]) as service:
        inner = ["unshare", "--net", "sh", "-c", HOLDER]
        with held(["nsenter", "--preserve-credentials", "-U", "-n", "-t", str(service), "--", *inner]) as worker:
            made = Networks(service, worker)
            made.join()
            yield made
