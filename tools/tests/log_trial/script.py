"""A script and its replies, and the log that it leaves."""

from __future__ import annotations

import json
from collections.abc import Iterable, Iterator
from dataclasses import dataclass
from functools import cached_property
from itertools import accumulate
from pathlib import Path

from log_trial.log_file import Record, catalogue_record, log_of, operation_record
from program import DONE, Program, cut_of, want


def is_kept(line: bytes, reply: bytes) -> bool:
    """Whether the line is a call that was accepted with another reply than Nothing."""
    return bool(reply) and not {"refused", "nothing"} & json.loads(reply).keys() and "do" in json.loads(line)


def accepted_of(lines: Iterable[bytes], output: bytes) -> Iterator[tuple[bytes, bytes]]:
    """Of lines that each have a reply those that were accepted, with their replies. The last one may be there in part."""
    for line, reply in zip(lines, output.splitlines(keepends=True)):
        if b'"do"' in line and not reply.startswith((b'{"refused"', b'{"nothing"')):
            yield line, reply


@dataclass(frozen=True)
class Script:
    """A catalogue's line, and the lines behind it with the reply to each. An empty line has none."""

    name: str
    catalogue: bytes
    lines: tuple[bytes, ...]
    replies: tuple[bytes, ...]

    def text(self, begin: int = 0, end: int | None = None, feed: bytes = b"\n") -> bytes:
        """The catalogue and some of the lines, with a line feed at the end or none."""
        return b"\n".join([self.catalogue, *self.lines[begin:end]]) + feed

    def told(self, begin: int = 0, end: int | None = None) -> bytes:
        return b"".join(self.replies[begin:end])

    @cached_property
    def kept(self) -> list[int]:
        """The numbers of the lines that a log keeps."""
        pairs = zip(self.lines, self.replies, strict=True)
        return [number for number, (line, reply) in enumerate(pairs) if is_kept(line, reply)]

    @cached_property
    def records(self) -> list[Record]:
        operations = [operation_record(self.lines[number], self.replies[number]) for number in self.kept]
        return [catalogue_record(self.catalogue), *operations]

    @cached_property
    def log(self) -> bytes:
        """The bytes of the log after all lines."""
        return log_of(self.records)

    def touched(self, told: bytes, begin: int) -> int:
        """Behind which line the replies end that were told, in whole or in part, to the lines from this one on."""
        ends = accumulate(map(len, self.replies[begin:]), initial=0)
        return begin + sum(end < len(told) for end in list(ends)[:-1])


def script_of(program: Program, name: str, text: bytes) -> Script:
    """A script with the replies that the program writes without a log."""
    catalogue, *lines = text.removesuffix(b"\n").split(b"\n")
    ended = program.script(text)
    want(f"{name}, without a log", (ended.status, ended.faults), (DONE, b""))
    replies = iter(ended.output.splitlines(keepends=True))
    due = tuple(next(replies) if line else b"" for line in lines)
    want(f"{name}: replies to no line", list(replies), [])
    return Script(name, catalogue, tuple(lines), due)


def lines_of(values: Iterable[object]) -> bytes:
    return b"".join(json.dumps(value, separators=(",", ":")).encode() + b"\n" for value in values)


def want_log(what: str, log: Path, wanted: bytes) -> None:
    """Demands that a log has these bytes, and that no draft stands beside it. Bytes that were cut off may."""
    files = {path.name for path in log.parent.iterdir()}
    want(f"{what}: files", files - {cut_of(log).name}, {log.name})
    want(f"{what}: the log", log.read_bytes(), wanted)
