"""Artifacts as processes: how an executable is started and ended, and what its end says of its work item."""

from __future__ import annotations

import asyncio
import os
import signal
import socket
import sys
from collections.abc import Mapping, Sequence
from contextlib import suppress
from dataclasses import dataclass
from pathlib import Path
from typing import Any

from job_host.worker.output import ExitFile, FirstLine, NoExitStatus, Tail, exit_status

KILL_SECONDS = 5.0
SUPERVISOR_SECONDS = 1.0
SUPERVISOR = Path(__file__).with_name("supervisor.py")
ANSWER_BYTES = 64


class Artifact:
    """An executable that runs under a supervisor (supervisor.py): what it has started ends with it, and with this process."""

    def __init__(self, supervisor: asyncio.subprocess.Process, control: socket.socket, process_id: int) -> None:
        self._supervisor = supervisor
        self._control = control
        self._process_id = process_id
        self._ending = asyncio.ensure_future(self._hear_end())
        self.stdin, self.stdout, self.stderr = supervisor.stdin, supervisor.stdout, supervisor.stderr

    async def _hear_end(self) -> int:
        """What the supervisor says at its end. One that was killed says nothing."""
        with self._control:
            word, code = await hear(self._control)
        if word != "ended":
            code = -int(signal.SIGKILL)
            kill_group(self._process_id)
        await end_of(self._supervisor)
        return code

    async def wait(self) -> int:
        """Waits until nothing is left of it. Returns its exit code, or the number of a signal with a minus in front."""
        return await asyncio.shield(self._ending)

    def terminate(self) -> None:
        """Sends SIGTERM to the artifact and what it has started."""
        if self._control.fileno() >= 0:
            # Not by the process: it would look for the status itself, and take it from who waits for it.
            with suppress(ProcessLookupError):
                os.kill(self._supervisor.pid, signal.SIGTERM)

    async def kill(self) -> None:
        """Ends it: by SIGTERM, and after some seconds by SIGKILL."""
        self.terminate()
        await asyncio.wait([self._ending], timeout=KILL_SECONDS)
        if not self._ending.done():
            with suppress(OSError):
                self._control.shutdown(socket.SHUT_WR)
            await self.wait()


async def hear(control: socket.socket) -> tuple[str, int]:
    """What a supervisor says next: a word and a number. It is no word after the supervisor's end."""
    word, _, number = (await asyncio.get_running_loop().sock_recv(control, ANSWER_BYTES)).decode().partition(" ")
    return word, int(number or "0")


def kill_group(process_id: int) -> None:
    with suppress(ProcessLookupError, PermissionError):
        os.killpg(process_id, signal.SIGKILL)


async def end_of(supervisor: asyncio.subprocess.Process) -> None:
    """Waits for its end, but not for long: a process that can't be killed may keep its outputs open."""
    with suppress(asyncio.TimeoutError):
        await asyncio.wait_for(supervisor.wait(), SUPERVISOR_SECONDS)


@dataclass(frozen=True)
class Program:
    """An executable, its working directory and its environment. Its files are removed after it, if their worker can't do so."""

    path: Path
    folder: Path
    variables: Mapping[str, str]
    files: Sequence[Path]
    has_input: bool = False


async def spawn(program: Program) -> Artifact:
    """Starts an executable in a session of its own, under a supervisor. Raises OSError if it can't be started.

    If it is cancelled, the executable is started all the same, and then killed: nothing of it is left behind.
    """
    starting = asyncio.ensure_future(start(program))
    try:
        return await asyncio.shield(starting)
    except asyncio.CancelledError:
        with suppress(OSError):
            await (await starting).kill()
        raise


async def start(program: Program) -> Artifact:
    ours, theirs = socket.socketpair(socket.AF_UNIX, socket.SOCK_SEQPACKET)
    ours.setblocking(False)
    try:
        with theirs:
            supervisor = await start_supervisor(theirs.fileno(), program)
        try:
            return Artifact(supervisor, ours, await hear_start(ours, program.path))
        except OSError:
            await end_of(supervisor)
            raise
    except OSError:
        ours.close()
        raise


async def hear_start(control: socket.socket, path: Path) -> int:
    """The process id of an executable that was started. Raises OSError if it wasn't."""
    _, process_id = await hear(control)
    word, number = await hear(control)
    if word == "started":
        return process_id
    if word == "fault":
        raise OSError(number, os.strerror(number), str(path))
    if process_id:
        kill_group(process_id)
    raise OSError(f"{path}: its supervisor has ended")


async def start_supervisor(control: int, program: Program) -> asyncio.subprocess.Process:
    pipe = asyncio.subprocess.PIPE
    words = ["-I", "-S", str(SUPERVISOR), str(control), str(program.path), *map(str, program.files)]
    return await asyncio.create_subprocess_exec(
        sys.executable,
        *words,
        stdin=pipe if program.has_input else asyncio.subprocess.DEVNULL,
        stdout=pipe,
        stderr=pipe,
        env=program.variables,
        cwd=str(program.folder),
        pass_fds=(control,),
        start_new_session=True,
        limit=2**24,
    )


@dataclass(frozen=True)
class Ended:
    """How a work item ended, as its finish says."""

    outcome: str
    exit: str | None = None
    metrics: Mapping[str, int] | None = None

    def members(self) -> dict[str, Any]:
        told: dict[str, Any] = {"outcome": self.outcome}
        if self.exit is not None:
            told["exit"] = self.exit
        if self.metrics:
            told["metrics"] = dict(self.metrics)
        return told


def ended_by(code: int, file: ExitFile, first: FirstLine, tail: Tail, was_stopped: bool) -> Ended:
    """The outcome of a batchlet or decision by how its process ended. The log says what is no exit status."""
    by_stop = was_stopped and code in (0, -signal.SIGTERM, 128 + signal.SIGTERM)
    if code < 0 and not by_stop:
        return Ended("FAILED", f"signal {-code}")
    is_failed = code > 0 and not by_stop
    try:
        text = exit_status(file, None if is_failed else first)
    except NoExitStatus as fault:
        tail.say(str(fault))
        text = None
    if is_failed:
        return failed_by(code, text, tail)
    return Ended("STOPPED" if by_stop else "COMPLETED", text)


def failed_by(code: int, text: str | None, tail: Tail) -> Ended:
    """A process that ended with a number. It may have said more of its failure in its file."""
    if text is None:
        return Ended("FAILED", str(code))
    tail.say(f"the process ended with exit {code}")
    return Ended("FAILED", text)
