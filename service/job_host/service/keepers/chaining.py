"""The chain beside the log of an embedded service: brought on before replies leave, and begun anew at each base of the log."""

from __future__ import annotations

import logging
import os
from contextlib import suppress
from itertools import chain
from pathlib import Path
from typing import NamedTuple

from job_host.service.history import log_file
from job_host.service.history.chain import (
    CHAIN_NAME,
    COVERED,
    NO_BASE,
    ZERO,
    ChainDamaged,
    KeptChain,
    Start,
    link,
    read_chain,
    rebased,
    write_chain,
    written,
)
from job_host.service.history.chain_compared import compare
from job_host.service.keepers.keeper import ChainHead, Fatal
from job_host.service.problems import unavailable

log = logging.getLogger(__name__)


class Followed(NamedTuple):
    """How far a log is chained: up to an operation, with its hash, and up to an offset of the log's file."""

    start: Start
    number: int
    hash: bytes
    offset: int


class Chaining:
    """The chain of one log, for one thread. Whoever has begun it may bring it on."""

    def __init__(self, path: Path) -> None:
        self._log = path
        self._path = path.with_name(CHAIN_NAME)
        self._followed: Followed | None = None

    @property
    def head(self) -> ChainHead | None:
        """The last operation that is chained, and its hash. A base changes nothing of the head at its operation."""
        at = self._followed
        if at is None:
            return None
        return ChainHead(at.number, (at.start.hash if at.number == at.start.number else at.hash).hex(), at.start.number)

    def begin(self) -> None:
        """Compares the log with its chain, and chains what it has behind that. Raises Fatal if the log isn't the chain's."""
        self._followed = None
        kept = self._fitting()
        seen = compare(self._log, kept)
        if seen.told:
            raise self._other(seen.told)
        if not self._is_so(kept):
            write_chain(self._path, kept)
        hash = kept.start.begun if kept.last == kept.start.number else kept.hash_at(kept.last)
        assert hash is not None
        self._followed = Followed(kept.start, kept.last, hash, offset_behind(self._log, kept.last - kept.start.number))
        if seen.number > kept.last:
            log.warning("%s takes %d operations as they stand in %s", self._path, seen.number - kept.last, self._log)
        self.follow(None)

    def _is_so(self, kept: KeptChain) -> bool:
        """Whether the file has this chain, and no torn line behind it."""
        with suppress(FileNotFoundError), self._path.open("rb") as file:
            first = kept.start.line()
            return file.read(len(first)) == first and os.fstat(file.fileno()).st_size == len(first) + len(kept.lines)
        return False

    def _other(self, told: str) -> Fatal:
        return Fatal(f"{self._log} isn't as {self._path} has it: {told}: `jobhost verify {self._log.parent}` tells it, too")

    def _fitting(self) -> KeptChain:
        """The chain of the file, from the base of the log on. A new one begins there."""
        base = log_file.known_base(self._log)
        number, digest = (0, NO_BASE) if base is None else (base.head.operations, base.digest)
        try:
            kept = read_chain(self._path)
        except ChainDamaged as fault:
            raise Fatal(str(fault)) from fault
        if kept is None:
            log.warning("%s begins behind operation %d", self._path, number)
            return KeptChain(Start(number, ZERO, digest), b"")
        fitting = rebased(kept, number, digest)
        if fitting is None:
            begins = f"begins behind operation {kept.start.number}, with other rows, or ends before"
            raise self._other(f"the log has a base behind operation {number}, and the chain {begins}")
        return fitting

    def follow(self, until: int | None) -> None:
        """Chains the operations that the log has behind the last one, up to one of them, or all.

        Raises a problem if the disk fails, or if the log lacks that one. Then the chain is to be begun again.
        """
        at = self._followed
        if at is None:
            raise unavailable("StoreLost", "the chain isn't begun")
        _, number, hash, offset = at
        lines: list[bytes] = []
        for text in chain.from_iterable(log_file.texts(self._log, offset)):
            if number == until:
                break
            offset += len(text)
            if text[log_file.MARK] == log_file.OPERATION:
                number, hash = number + 1, link(hash, text[COVERED])
                lines.append(written(hash))
        self._followed = None
        if until is not None and number < until:
            raise unavailable("StoreLost", f"{self._log} ends at operation {number}, and {until} was answered")
        self._append(b"".join(lines))
        self._followed = Followed(at.start, number, hash, offset)

    def _append(self, lines: bytes) -> None:
        try:
            with self._path.open("ab") as file:
                file.write(lines)
        except OSError as fault:
            raise unavailable("StoreLost", f"{type(fault).__name__}: {fault}") from fault


def offset_behind(path: Path, count: int) -> int:
    """Where the record behind so many operations of a log begins."""
    offset, number = log_file.HEADER_BYTES, 0
    for text in chain.from_iterable(log_file.texts(path)):
        number += text[log_file.MARK] == log_file.OPERATION
        if number > count:
            break
        offset += len(text)
    return offset
