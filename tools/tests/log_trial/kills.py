"""A program that is killed at any moment loses no line whose reply was told, and another goes on from its log."""

from __future__ import annotations

import random
import subprocess
import time
from collections.abc import Callable
from contextlib import suppress
from dataclasses import dataclass
from pathlib import Path
from threading import Thread, Timer

from log_trial.log_file import Record, Refused, read
from log_trial.script import Script, want_log
from program import DONE, Ended, Program, Wrong, end_of, fed, over, want

# A run is killed up to so many times before one goes on to the end.
MOST_KILLS = 3
# Moments are drawn from so much of the time that a run takes by itself, every fourth one from its beginning.
STRETCH, BEGINNING = 1.2, 0.02


def feed_lines(running: subprocess.Popen[bytes], script: Script, begin: int = 0) -> bytes:
    """Hands on a line after the reply to the line before was told, and gives what was told."""
    return fed(running, script.catalogue + b"\n", (line + b"\n" for line in script.lines[begin:]))


def feed_pieces(running: subprocess.Popen[bytes], text: bytes, sizes: random.Random) -> None:
    """Hands on a text in pieces of random sizes, as long as the program takes them."""
    assert running.stdin
    place = 0
    with suppress(BrokenPipeError):
        while place < len(text):
            size = sizes.randrange(1, 3 << sizes.randrange(16))
            running.stdin.write(text[place : place + size])
            running.stdin.flush()
            place += size
    with suppress(BrokenPipeError):
        running.stdin.close()


@dataclass(frozen=True)
class Killed:
    """A script of which a part is told to a program that is killed after so many seconds."""

    program: Program
    script: Script
    log: Path
    begin: int
    seconds: float
    draws: random.Random

    def by_lines(self) -> bytes:
        """What a program told that was fed line by line."""
        running = self.program.start(over(self.log))
        timer = Timer(self.seconds, running.kill)
        timer.start()
        told = feed_lines(running, self.script, self.begin)
        timer.cancel()
        end_of(running)
        return told

    def by_pieces(self) -> bytes:
        """What a program told that was fed in pieces of any size."""
        running = self.program.start(over(self.log))
        assert running.stdout
        timer = Timer(self.seconds, running.kill)
        timer.start()
        sizes = random.Random(self.draws.random())
        feeder = Thread(target=feed_pieces, args=(running, self.script.text(self.begin), sizes))
        feeder.start()
        told = running.stdout.read()
        timer.cancel()
        feeder.join()
        end_of(running)
        return told

    def at_full_speed(self) -> bytes:
        """What a program told that reads its lines from a file."""
        given, told = self.log.parent.parent / "given", self.log.parent.parent / "told"
        given.write_bytes(self.script.text(self.begin))
        with given.open("rb") as source, told.open("wb") as sink:
            with self.program.start(over(self.log), source.fileno(), sink.fileno()) as running:
                with suppress(subprocess.TimeoutExpired):
                    running.wait(self.seconds)
                running.kill()
        return told.read_bytes()


Way = Callable[[Killed], bytes]
WAYS: list[Way] = [Killed.by_lines, Killed.by_pieces, Killed.at_full_speed]


def records_in(what: str, log: Path) -> list[Record]:
    """The records of a log; none, if it was not made."""
    try:
        return read(log.read_bytes()).records if log.exists() else []
    except Refused as refused:
        raise Wrong(f"{what}: the log is refused, {refused}") from refused


def check_kept(what: str, script: Script, log: Path, told: bytes, begin: int) -> int:
    """What a run left that began at this line. Gives the line at which the script goes on."""
    records = records_in(what, log)
    kept, touched = script.kept, script.touched(told, begin)
    want(f"{what}: records", records, script.records[: len(records)])
    want(f"{what}: replies", told, script.told(begin)[: len(told)])
    acknowledged = [number for number in kept if number < touched]
    count = max(len(records) - 1, 0)
    if count < len(acknowledged):
        want(f"{what}: of {len(acknowledged)} acknowledged lines the log has", count, len(acknowledged))
    return kept[count - 1] + 1 if count else 0


def check_end(what: str, program: Program, script: Script, begin: int, log: Path) -> None:
    """A run goes on at this line, and comes to the end to which a run comes that nobody stopped."""
    want(f"{what}: gone on at line {begin}", program.over(log, script.text(begin)), Ended(DONE, script.told(begin)))
    want_log(f"{what}: gone on at line {begin}", log, script.log)


def moment_of(draws: random.Random, seconds: float) -> float:
    """When a run is killed that takes so many seconds."""
    return draws.random() * seconds * draws.choice([STRETCH, STRETCH, STRETCH, BEGINNING])


def check_kill(program: Program, script: Script, way: Way, seconds: float, log: Path, seed: str) -> None:
    """Kills a run at a random moment, up to three times over one log, and goes on to the end."""
    draws = random.Random(seed)
    begin = 0
    for number in range(draws.randint(1, MOST_KILLS)):
        left = seconds * (len(script.lines) - begin) / len(script.lines)
        killed = Killed(program, script, log, begin, moment_of(draws, left), draws)
        told = way(killed)
        what = f"seed {seed!r}, kill {number} after {killed.seconds:.4f} s"
        begin = check_kept(what, script, log, told, begin)
    check_end(f"seed {seed!r}", program, script, begin, log)


def seconds_of(program: Program, script: Script, way: Way, log: Path) -> float:
    """How long a run takes that nobody kills."""
    start = time.monotonic()
    told = way(Killed(program, script, log, 0, 60.0, random.Random(0)))
    seconds = time.monotonic() - start
    want(f"{script.name}, {way.__name__}", told, script.told())
    want_log(f"{script.name}, {way.__name__}", log, script.log)
    return seconds
