"""Parts: processes that answer one line of JSON to each line of JSON, as readers, writers and listeners do."""

from __future__ import annotations

import asyncio
import json
from collections.abc import Mapping
from contextlib import suppress
from pathlib import Path
from typing import Any, Protocol

from job_host.protocol import executables
from job_host.worker import artifacts
from job_host.worker.artifacts import Artifact, Program
from job_host.worker.environment import WorkFiles, environment
from job_host.worker.output import Tail, drain

CLOSE_SECONDS = 10.0


class Fault(Exception):
    """A part said `fault`, ended, or answered what isn't its turn.

    `text` is what it said, and `classes` are those that it named, the nearest first.
    """

    def __init__(self, told: str, text: str | None = None, classes: tuple[str, ...] = ()) -> None:
        super().__init__(told)
        self.text = told if text is None else text
        self.classes = classes


class Asked(Protocol):
    """A part, as those see it who ask."""

    async def ask(self, do: str, **members: Any) -> dict[str, Any]:
        """Sends one line, and returns the answer. Raises Fault."""

    async def close(self, at_once: bool = False) -> None:
        """Ends it. With `at_once` nothing is waited for."""


class Starts(Protocol):
    """Starts the parts of a work item by their uses."""

    async def start(self, use: str) -> Asked:
        """Raises OSError if it can't be started."""

    def remove(self) -> None:
        """Removes the files of the parts."""


class Part:
    """One process."""

    def __init__(self, name: str, artifact: Artifact, tail: Tail) -> None:
        self._name = name
        self._artifact = artifact
        self._errors = asyncio.get_running_loop().create_task(drain(artifact.stderr, tail.stream()))
        self._owes = ""

    async def ask(self, do: str, **members: Any) -> dict[str, Any]:
        """Sends one line, and returns the answer. Who gave up waiting for an answer gets none from then on."""
        assert self._artifact.stdin is not None and self._artifact.stdout is not None
        if self._owes:
            raise Fault(f"{self._name}: it hasn't answered {self._owes}")
        self._owes = do
        try:
            self._artifact.stdin.write(json.dumps({"do": do, **members}, separators=(",", ":")).encode() + b"\n")
            await self._artifact.stdin.drain()
            line = await self._artifact.stdout.readline()
        except (OSError, ValueError) as fault:
            raise Fault(f"{self._name}: {do}: {fault}") from fault
        if not line:
            raise Fault(f"{self._name}: it ended before it answered {do}")
        self._owes = ""
        return read_answer(self._name, do, line)

    async def close(self, at_once: bool = False) -> None:
        """Ends its input. A part that doesn't end by itself is killed."""
        if self._artifact.stdin is not None:
            self._artifact.stdin.close()
        if not at_once:
            with suppress(asyncio.TimeoutError):
                await asyncio.wait_for(self._artifact.wait(), CLOSE_SECONDS)
        await self._artifact.kill()
        await self._errors


def read_answer(name: str, do: str, line: bytes) -> dict[str, Any]:
    """The object that a part answered. Raises Fault if it is none, or says one."""
    try:
        told = json.loads(line)
    except (ValueError, RecursionError) as fault:
        raise Fault(f"{name}: the answer to {do} is no JSON") from fault
    if not isinstance(told, dict):
        raise Fault(f"{name}: the answer to {do} is no object")
    if "fault" in told:
        text = str(told["fault"])
        raise Fault(f"{name}: {do}: {text}", text, classes_in(name, do, told))
    return told


def classes_in(name: str, do: str, told: Mapping[str, Any]) -> tuple[str, ...]:
    """The classes of a fault, the nearest first. Raises Fault, which has none, if they are no texts."""
    named = told.get("class")
    classes = named if isinstance(named, list) else [] if named is None else [named]
    if not all(isinstance(one, str) for one in classes):
        raise Fault(f"{name}: {do}: {told['fault']}: the class of a fault is a text or a list of texts")
    return tuple(classes)


class Starter:
    """Starts the artifacts of one work item, each as often as it is asked to."""

    def __init__(self, folder: Path, claimed: Mapping[str, Any], names: Mapping[str, str], tail: Tail) -> None:
        """Looks up all names before the first process is started. Raises NoArtifact and OSError."""
        self._folder, self._names, self._tail = folder, names, tail
        self._paths = {use: executables.find(folder, name) for use, name in names.items()}
        self._files = WorkFiles(claimed, names)
        told = list[str]()
        self._variables = {use: environment(claimed, use, self._files.variables(use), told.append) for use in names}
        for text in dict.fromkeys(told):
            tail.say(text)

    async def start(self, use: str) -> Part:
        program = Program(self._paths[use], self._folder, self._variables[use], self._files.paths, has_input=True)
        return Part(self._names[use], await artifacts.spawn(program), self._tail)

    def remove(self) -> None:
        self._files.remove()
