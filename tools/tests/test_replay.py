"""A host survives a stop of `batchctl script` by a log of the lines that it handed on: the worked example of docs/REPLAY.md.

- A host keeps each line before it hands it on. It is stopped at each line of a night, once with half of the line in its log and
  once with the whole of it, which nobody answered. It replays its log into a new program, and goes on with the night.
- The log of the accepted lines alone comes to the same repository: each query of the night is answered alike behind it.
"""

from __future__ import annotations

import json
import os
from pathlib import Path

from log_trial.samples import NIGHT
from log_trial.script import is_kept
from program import DONE, Program, want

REPLIES = NIGHT.with_suffix(".replies")


class Host:
    """Keeps each line in its log before it hands it on to the program. The first line is the catalogue, which has no reply."""

    def __init__(self, program: Program, log: Path) -> None:
        self.log = log
        self.running = program.start(["script"])
        assert self.running.stdin and self.running.stdout
        self.to_program, self.from_program = self.running.stdin, self.running.stdout
        self.replies = b"".join(self.hand_on(line, number > 0) for number, line in enumerate(self.whole_lines()))

    def whole_lines(self) -> list[bytes]:
        """The lines of the log. What stands behind the last line feed was never handed on, and is cut off."""
        self.log.touch()
        lines = self.log.read_bytes().splitlines(keepends=True)
        if lines and not lines[-1].endswith(b"\n"):
            lines.pop()
        os.truncate(self.log, sum(map(len, lines)))
        return lines

    def keep(self, text: bytes) -> None:
        with self.log.open("ab") as log:
            log.write(text)
            log.flush()
            os.fsync(log.fileno())

    def hand_on(self, line: bytes, has_reply: bool = True) -> bytes:
        self.to_program.write(line)
        self.to_program.flush()
        return self.from_program.readline() if has_reply else b""

    def call(self, line: bytes, has_reply: bool = True) -> None:
        self.keep(line)
        self.replies += self.hand_on(line, has_reply)

    def stop(self) -> None:
        """Ends the program as a failing machine would: it is given no time to write anything."""
        with self.running:
            self.running.kill()


def run_night(program: Program, log: Path, lines: list[bytes], begun: int = 0) -> bytes:
    """Replays the log, goes on behind so many lines, and gives all replies. The host is stopped then."""
    host = Host(program, log)
    for number, line in enumerate(lines[begun:], begun):
        host.call(line, number > 0)
    host.stop()
    return host.replies


def stop_at(program: Program, log: Path, lines: list[bytes], number: int, kept: bytes) -> None:
    """Runs the night up to a line, of which so much is in the log when the host is stopped."""
    log.write_bytes(b"")
    run_night(program, log, lines[:number])
    with log.open("ab") as file:
        file.write(kept)


def test_a_night_is_stopped_at_each_line_and_replayed(program: Program, folder: Path) -> None:
    log, lines, wanted = folder / "lines.log", NIGHT.read_bytes().splitlines(keepends=True), REPLIES.read_bytes()
    for number, line in enumerate(lines):
        stop_at(program, log, lines, number, line[: len(line) // 2])
        want(f"stopped within line {number}", run_night(program, log, lines, number), wanted)
        stop_at(program, log, lines, number, line)
        want(f"stopped behind line {number}", run_night(program, log, lines, number + 1), wanted)


def test_the_accepted_lines_alone_come_to_the_same_repository(program: Program) -> None:
    catalogue, *others = NIGHT.read_bytes().splitlines(keepends=True)
    replies = REPLIES.read_bytes().splitlines(keepends=True)
    accepted = [line for line, reply in zip(others, replies, strict=True) if is_kept(line, reply)]
    assert 0 < len(accepted) < len(others), "the night has no line that is not entered in the history"
    queries = [line for line in others if "ask" in json.loads(line)]
    behind_all, behind_accepted = (program.script(b"".join([catalogue, *lines, *queries])) for lines in (others, accepted))
    want("the exit statuses", (behind_all.status, behind_accepted.status), (DONE, DONE))
    answers, wanted = (ended.output.splitlines()[-len(queries) :] for ended in (behind_accepted, behind_all))
    want("queries behind the accepted lines", answers, wanted)
    want("the number of answers", len(answers), len(queries))
