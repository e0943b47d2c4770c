"""Reads the file of `batchctl script --log`: its catalogue, its base, and the lines that were accepted.

A header line is followed by records, a line each: the gate in three characters, a mark, lengths and checks, and the kept line
with its tag, if it has one. A gate is open if two of its three characters are `1`; the first that is shut is the end. Record 0
is a catalogue. A log that was compacted has its base behind that: the rows that existed then. The operations behind the base
are numbered from its count on. batchctl checks the file before it is read here.
"""

from __future__ import annotations

import json
from collections.abc import Iterator, Mapping, Sequence
from dataclasses import dataclass, field
from itertools import chain
from pathlib import Path
from typing import Any, NamedTuple

from job_host.protocol.lines import LinesDigest, digest
from job_host.service.history.tags import lines_of, parted, read_tag

HEADER_BYTES = 8
MARK = slice(4, 5)
LINE = slice(51, -1)
CATALOGUE, BASE, OPERATION = b"c", b"b", b"o"
# Only the row of a job execution has this. In a text the quotation marks are escaped.
EXECUTION = b'"plan":'
# A gate that is shut: at it a log ends.
SHUT = b"000"
# How much is read at a time.
READ_BYTES = 65_536


@dataclass(frozen=True)
class LogRecord:
    mark: bytes
    line: bytes
    tag: bytes = b""

    @property
    def is_catalogue(self) -> bool:
        return self.mark == CATALOGUE

    @property
    def is_operation(self) -> bool:
        return self.mark == OPERATION


class Head(NamedTuple):
    """The first line of a base: how many operations are before it, the last numbers that they gave, and the rows behind it."""

    operations: int
    execution: int
    instance: int
    work: int
    rows: int


class KnownBase(NamedTuple):
    """A base by its head, by a digest of all its lines, and by the moment at which its last job execution was made."""

    head: Head
    digest: str
    made: int


@dataclass(frozen=True)
class Beginning:
    """How a history begins: digests of the log's first record, a catalogue, and of its first operation if there is one; and the
    identity that this names. If the log has a base, its first operation isn't the history's."""

    catalogue: str
    first: str | None
    identity: str = field(default="", compare=False)
    base: KnownBase | None = field(default=None, compare=False)


@dataclass(frozen=True)
class Entered:
    """What was entered of a log: its base, how many operations with those before that, and a digest of the others' lines."""

    base: KnownBase | None
    operations: int
    digest: str


@dataclass(frozen=True)
class Search:
    """Which operations are looked for: those behind so many that are noted, and those with certain lines.

    `noted_line` is a digest of the line of the last one that is noted.
    """

    noted: int = 0
    noted_line: str = ""
    lines: frozenset[bytes] = frozenset()

    def found(self, before: int, kept: Sequence[bytes]) -> list[Found]:
        """Those that are looked for, of operations with so many before them. Raises OtherLog if the noted one isn't so."""
        if before < self.noted <= before + len(kept) and digest(parted(kept[self.noted - before - 1])[1]) != self.noted_line:
            raise OtherLog()
        if before + len(kept) <= self.noted and not self.lines:
            return []
        told = [Found(number, *parted(text)) for number, text in enumerate(kept, before + 1)]
        return [one for one in told if one.number > self.noted or one.line in self.lines]

    def check(self, operations: int) -> None:
        """Raises OtherLog if a log with so many operations lacks some that are noted."""
        if operations < self.noted:
            raise OtherLog()


class OtherLog(Exception):
    """The log isn't the one that was noted, or not as far."""


class Found(NamedTuple):
    """An operation that was looked for."""

    number: int
    tag: bytes
    line: bytes


@dataclass(frozen=True)
class Compared:
    """A file beside operations that were entered: whether it begins with those, how many are behind, and what was found."""

    is_begun_so: bool
    behind: int
    found: list[Found]


def _is_shut(text: bytes) -> bool:
    return not text.startswith(b"111") and text[:3].count(b"1") < 2


def texts(path: Path, offset: int = HEADER_BYTES) -> Iterator[list[bytes]]:
    """The texts of a file's records from an offset on, in their order, in lists of some hundreds."""
    with path.open("rb") as file:
        file.seek(offset)
        while some := file.readlines(READ_BYTES):
            count = next((place for place, text in enumerate(some) if _is_shut(text)), len(some))
            yield some[:count]
            if count < len(some):
                return


def records(path: Path) -> Iterator[LogRecord]:
    """The records of a file, in their order."""
    for text in chain.from_iterable(texts(path)):
        mark = text[MARK]
        tag, line = parted(text[LINE]) if mark == OPERATION else (b"", text[LINE])
        yield LogRecord(mark, line, tag)


def operations(path: Path) -> Iterator[list[bytes]]:
    """What a file has kept of its operations, each with its tag, in their order, some hundreds at a time."""
    for some in texts(path):
        yield [text[LINE] for text in some if text[MARK] == OPERATION]


def _fronts(path: Path) -> Iterator[list[bytes]]:
    """The texts of a file's records up to the end of its base."""
    number = 0
    for some in texts(path):
        count = next((place for place, text in enumerate(some) if number + place and text[MARK] != BASE), len(some))
        yield some[:count]
        if count < len(some):
            return
        number += count


def base_lines(path: Path) -> Iterator[list[bytes]]:
    """The lines of a file's base, if it has one, some hundreds at a time."""
    for some in _fronts(path):
        lines = [text[LINE] for text in some if text[MARK] == BASE]
        if lines:
            yield lines


def head_in(row: Mapping[str, Any]) -> Head:
    """The head of a base, by its line. Raises ValueError if it is none."""
    counts = row.get("base")
    if not isinstance(counts, dict):
        raise ValueError("the first line of the base isn't its head")
    return Head(counts["count"], counts["execution"], counts["instance"], counts["work"], counts["rows"])


def known_base(path: Path) -> KnownBase | None:
    """By what the base of a file is known, if it has one."""
    head: Head | None = None
    begun, last = LinesDigest(), b'{"create":0}'
    for lines in base_lines(path):
        head = head_in(json.loads(lines[0])) if head is None else head
        last = next((line for line in reversed(lines) if EXECUTION in line), last)
        begun.add(lines)
    return None if head is None else KnownBase(head, begun.value(), json.loads(last)["create"])


def copy_front(path: Path, copy: Path) -> None:
    """Copies a file up to the end of its base: the copy is a log that ends there."""
    with path.open("rb") as file, copy.open("wb") as made:
        made.write(file.read(HEADER_BYTES))
        for some in _fronts(path):
            made.writelines(some)
        made.write(SHUT)


def compare(path: Path, entered: Entered, search: Search) -> Compared:
    """Compares a file with what was entered. Looks for other operations, too."""
    base = known_base(path)
    begun, found = LinesDigest(), list[Found]()
    number = base.head.operations if base is not None else 0
    for kept in operations(path):
        begun.add(lines_of(kept[: max(0, entered.operations - number)]))
        found += search.found(number, kept)
        number += len(kept)
    search.check(number)
    is_begun_so = base == entered.base and number >= entered.operations and begun.value() == entered.digest
    return Compared(is_begun_so, number - entered.operations, found)


def beginning_of(path: Path) -> Beginning:
    """How the history of a file begins, which batchctl has opened."""
    catalogue, base = "", known_base(path)
    for record in records(path):
        if record.is_operation:
            tag = read_tag(record.tag)
            first = digest(record.line) if base is None else None
            return Beginning(catalogue, first, tag.history if tag else "", base)
        catalogue = catalogue or digest(record.line)
    return Beginning(catalogue, None, base=base)


def catalogue_of(path: Path) -> bytes | None:
    """The last catalogue of a file, if there is one."""
    if not path.exists():
        return None
    last = None
    for some in texts(path):
        last = next((text[LINE] for text in reversed(some) if text[MARK] == CATALOGUE), last)
    return last
