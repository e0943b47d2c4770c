"""Runs of the program `refused_calls` in which a request for memory is refused.

The program runs the script of a case, and marks where its call begins and ends. A library of our own
(libraries/refuse_a_request.c) counts the requests between the marks, and refuses one of them.
"""

from __future__ import annotations

import sys
from dataclasses import dataclass
from pathlib import Path
from threading import get_ident

from memory_trial.single_calls import Case, expected
from program import Program, Wrong

# A request of so many bytes is a mark.
MARK = 1_000_003

# How the program echoes a line.
ECHO = "> "

# What a call answers that was refused memory.
REFUSED = ('{"refused":"OutOfMemory"}', "Err(OutOfMemory)", "Err(Write)", "OutOfMemory, to standard error true")

# The lines of some cases, with what is written for them, worked out by hand.
EXPECTED = expected()


@dataclass(frozen=True)
class Part:
    """A line of a script, and what the program wrote for it. The line is empty for what it wrote ahead of the first one."""

    line: str
    said: tuple[str, ...]


def parts_of(output: str) -> list[Part]:
    parts: list[Part] = [Part("", ())]
    for line in output.replace("Err(AllocError)", "Err(OutOfMemory)").splitlines():
        if line.startswith(ECHO):
            parts.append(Part(line.removeprefix(ECHO).removeprefix("! "), ()))
        else:
            parts[-1] = Part(parts[-1].line, (*parts[-1].said, line))
    return parts


@dataclass(frozen=True)
class Run:
    """What a run of the program wrote, by the lines of the script, how it ended, and how many requests its call made."""

    status: int
    parts: tuple[Part, ...]
    faults: str
    requests: int

    def lines(self) -> list[str]:
        """All that it wrote."""
        return [line for part in self.parts for line in part.said]


@dataclass(frozen=True)
class Refuser:
    """The program under the library that counts and refuses its requests for memory, and a folder for scripts and counts."""

    program: Program
    folder: Path

    def run(self, script: str, number: int = 0) -> Run:
        """A run of a script in which the request of this number is refused (none, if it is 0)."""
        counted, written = (self.folder / f"{name}-{get_ident()}" for name in ("requests", "script"))
        written.write_text(script)
        settings = {"REFUSE_AT": str(number), "REFUSE_COUNT": str(counted), "REFUSE_MARK": str(MARK)}
        ended = self.program.under(**settings).run([written])
        requests = int.from_bytes(counted.read_bytes(), sys.byteorder)
        return Run(ended.status, tuple(parts_of(ended.output.decode())), ended.faults.decode(), requests)

    def whole(self, case: Case) -> Run:
        """A run with no refusal."""
        whole, again = self.run(case.script(False)), self.run(case.script(False))
        if whole.status != 0 or whole.faults or len(whole.parts) + len(whole.lines()) < 2:
            raise Wrong(f"{case.name}, with all memory: status {whole.status}, {whole.faults!r}")
        if again != whole:
            raise Wrong(f"{case.name}, with all memory: {whole.requests} requests, then {again.requests}, or other lines")
        if refused := [line for line in whole.lines() if line in REFUSED]:
            raise Wrong(f"{case.name}, with all memory: {refused[0]}")
        if wanted := EXPECTED.get(case.name):
            lines = {line for line, _ in wanted}
            found = [(part.line, part.said) for part in whole.parts if part.line in lines]
            if found != wanted:
                raise Wrong(f"{case.name}, with all memory: {found}, in place of {wanted}")
        return whole
