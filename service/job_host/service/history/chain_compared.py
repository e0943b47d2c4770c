"""A log beside its chain: the first operation that isn't as the chain has it, and what became of it."""

from __future__ import annotations

from collections.abc import Iterable, Iterator
from itertools import chain, islice
from pathlib import Path
from typing import NamedTuple

from job_host.service.history import log_file
from job_host.service.history.chain import COVERED, KeptChain, link, written


class Seen(NamedTuple):
    """What was seen of a log: its last operation with its hash, and where it differs from a chain: the first operation, and
    what became of it. `hash` is that of the log, until it differs."""

    number: int
    hash: bytes
    differs_at: int = 0
    told: str = ""


def covered_of(path: Path) -> Iterator[bytes]:
    """What the chain covers of each operation of a log, in their order."""
    for texts in log_file.texts(path):
        yield from (text[COVERED] for text in texts if text[log_file.MARK] == log_file.OPERATION)


def compare(path: Path, kept: KeptChain) -> Seen:
    """Compares a log with its chain. What the log has behind the end of the chain isn't covered, and is no difference."""
    number, hash = kept.start.number, kept.start.begun
    operations = covered_of(path)
    for covered in operations:
        next_hash = link(hash, covered)
        if number < kept.last and written(next_hash) != kept.line_at(number + 1):
            told = Difference(kept, number + 1, hash).told(chain([covered], operations), covered_of(path))
            return Seen(number, hash, number + 1, told)
        number, hash = number + 1, next_hash
    if number < kept.last:
        return Seen(number, hash, number + 1, f"{span(number + 1, kept.last)} dropped: the log ends before")
    return Seen(number, hash)


def hash_in(path: Path, kept: KeptChain, number: int) -> bytes | None:
    """The hash of an operation, by the log and where the chain begins."""
    hash = kept.start.begun
    count = number - kept.start.number
    if count == 0:
        return kept.start.hash
    found = 0
    for covered in islice(covered_of(path), count):
        hash, found = link(hash, covered), found + 1
    return hash if found == count else None


def span(first: int, last: int) -> str:
    return f"operation {first} was" if first == last else f"operations {first} to {last} were"


class Difference:
    """The first operation that isn't as a chain has it, behind one with the right hash."""

    def __init__(self, kept: KeptChain, number: int, before: bytes) -> None:
        self._kept = kept
        self._number = number
        self._before = before

    def _is(self, number: int, covered: bytes) -> bool:
        """Whether this was the operation of a number."""
        before = self._before if number == self._number else self._kept.hash_at(number - 1)
        return before is not None and written(link(before, covered)) == self._kept.line_at(number)

    def told(self, rest: Iterable[bytes], all_of_it: Iterable[bytes]) -> str:
        """What became of the operation. `rest` are those of the log from its place on."""
        number, found, stands = self._number, b"", 0
        for place, covered in enumerate(rest, number):
            found = found or covered
            if self._is(number, covered):
                stands = place
                break
        came = next((one for one in range(number + 1, self._kept.last + 1) if self._is(one, found)), 0)
        if came and not stands:
            return f"{span(number, came - 1)} dropped"
        if stands == number + 1 and came != number + 1:
            return self._added(found, came, all_of_it)
        return f"operation {number} was moved: it stands at place {stands}" if stands else f"operation {number} was changed"

    def _added(self, found: bytes, came: int, all_of_it: Iterable[bytes]) -> str:
        """What is told of the one before the operation of the place, and which one of the chain it is, or 0."""
        first, number = self._kept.start.number + 1, self._number
        places = [place for place, covered in enumerate(all_of_it, first) if covered == found and place != number]
        if places:
            return f"operation {min(places[0], came or places[0])} was doubled: it stands at place {number}, too"
        if came:
            return f"operation {came} was moved: it stands at place {number}"
        return f"an operation was added at place {number}, before operation {number}"
