"""A copy of a log that is read from front to back while a program writes it is a log, with all that was acknowledged before."""

from __future__ import annotations

import random
from dataclasses import dataclass, field
from pathlib import Path
from threading import Event, Thread

from log_trial.log_file import read
from log_trial.samples import path_of
from log_trial.script import Script
from program import DONE, Ended, Program, end_of, over, want

# So many lines are told at once, at most.
BURST = 40
# So many copies are read again, and so many of these are opened by the program.
READ, OPENED = 200, 10


@dataclass
class Copier:
    """Copies a log again and again, and notes with each copy how many lines were answered before it began."""

    log: Path
    draws: random.Random
    answered: int = 0
    ended: Event = field(default_factory=Event)
    copies: list[tuple[int, bytes]] = field(default_factory=list)

    def copy(self) -> bytes:
        with self.log.open("rb", buffering=0) as file:
            return b"".join(iter(lambda: file.read(1 << self.draws.randrange(4, 14)), b""))

    def run(self) -> None:
        while not self.ended.is_set():
            answered = self.answered
            self.copies.append((answered, self.copy()))

    def chosen(self, count: int) -> list[tuple[int, bytes]]:
        """So many of the copies, evenly spaced."""
        return self.copies[:: len(self.copies) // count + 1]


def check_copy(what: str, script: Script, answered: int, copy: bytes) -> None:
    """A copy has a beginning of the records, and each line among them that was answered before it began."""
    records = read(copy).records
    want(f"{what}: records", records, script.records[: len(records)])
    acknowledged = [number for number in script.kept if number < answered]
    if len(records) - 1 < len(acknowledged):
        want(f"{what}: of {len(acknowledged)} acknowledged lines it has", len(records) - 1, len(acknowledged))


def feed(program: Program, script: Script, copier: Copier) -> None:
    """Tells a script to a program in bursts of lines, while its log is copied."""
    running = program.start(over(copier.log))
    assert running.stdin and running.stdout
    running.stdin.write(script.catalogue + b"\n")
    while copier.answered < len(script.lines):
        end = min(copier.answered + copier.draws.randint(1, BURST), len(script.lines))
        running.stdin.write(b"".join(line + b"\n" for line in script.lines[copier.answered : end]))
        running.stdin.flush()
        want(
            f"line {end}, copied",
            running.stdout.read(len(script.told(copier.answered, end))),
            script.told(copier.answered, end),
        )
        copier.answered = end
    running.stdin.close()
    want("a log that is copied", end_of(running), Ended(DONE))


def check_copies(program: Program, script: Script, seed: int, log: Path) -> None:
    """Copies a log while it is written, and opens copies."""
    want("a log that is copied, opened", program.over(log, script.text(0, 0)), Ended(DONE))
    copier = Copier(log, random.Random(seed))
    copying = Thread(target=copier.run)
    copying.start()
    try:
        feed(program, script, copier)
    finally:
        copier.ended.set()
        copying.join()
    for number, (answered, copy) in enumerate(copier.chosen(READ)):
        check_copy(f"seed {seed}, copy {number}", script, answered, copy)
    for number, (_, copy) in enumerate(copier.chosen(OPENED)):
        opened = path_of(log.parent.parent / f"copy-{number}")
        opened.write_bytes(copy)
        want(f"seed {seed}, copy {number} opened", program.over(opened, script.text(0, 0)), Ended(DONE))
