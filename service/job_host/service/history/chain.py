"""A chain over the operations of a log: the hash of each covers that of the one before, so that no change stays unseen.

The file beside the log is text. Its first line has the form's version, the number of the operation behind which it begins, the
hash at that one, and a digest of the lines of the log's base, or a hyphen. A line for each operation behind has its hash.
"""

from __future__ import annotations

import hashlib
import os
import re
from pathlib import Path
from typing import NamedTuple

CHAIN_NAME = "history.chain"
# What a record has from here on is covered: the check of the reply, and the line with its tag.
COVERED = slice(42, -1)
# The hash before the first operation, and at a base that no chain came to.
ZERO = bytes(32)
LINE_BYTES = 65
NO_BASE = "-"
# Between the hash at a base and the digest of its lines.
BASE_WORD = b" base "
FIRST = re.compile(r"jobhost-chain 1 ([0-9]{1,20}) ([0-9a-f]{64}) ([0-9a-f]{64}|-)\n")
FIRST_CHARACTERS = 256


class ChainDamaged(Exception):
    """A file isn't a chain. The text says why."""


def link(before: bytes, covered: bytes) -> bytes:
    """The hash of an operation behind one with this hash."""
    return hashlib.sha256(before + covered).digest()


def written(hash: bytes) -> bytes:
    return hash.hex().encode("ascii") + b"\n"


class Start(NamedTuple):
    """Where a chain begins: behind so many operations, with the hash at the last of these, and a digest of the base's lines."""

    number: int
    hash: bytes
    digest: str = NO_BASE

    @property
    def begun(self) -> bytes:
        """What the first operation is linked to. It covers the base, if there is one."""
        return self.hash if self.digest == NO_BASE else link(self.hash, BASE_WORD + self.digest.encode("ascii"))

    def line(self) -> bytes:
        return f"jobhost-chain 1 {self.number} {self.hash.hex()} {self.digest}\n".encode("ascii")


class KeptChain(NamedTuple):
    """A chain as its file has it: where it begins, and the lines of the operations behind. A torn last line is left out."""

    start: Start
    lines: bytes

    @property
    def last(self) -> int:
        """The number of the last operation."""
        return self.start.number + len(self.lines) // LINE_BYTES

    def line_at(self, number: int) -> bytes | None:
        """The line of an operation, as it stands there, or None if it has none."""
        place = (number - self.start.number - 1) * LINE_BYTES
        return self.lines[place : place + LINE_BYTES] if 0 <= place < len(self.lines) else None

    def hash_at(self, number: int) -> bytes | None:
        """The hash of an operation, if it has one that can be read. At the start it is that."""
        if number == self.start.number:
            return self.start.hash
        try:
            return bytes.fromhex((self.line_at(number) or b"").decode("ascii")) or None
        except ValueError:
            return None

    def behind(self, number: int) -> bytes:
        """The lines behind an operation."""
        return self.lines[(number - self.start.number) * LINE_BYTES :]


def rebased(kept: KeptChain, number: int, digest: str) -> KeptChain | None:
    """A chain from a base of a log on. None if it begins with another one, or doesn't come to that operation."""
    if number == kept.start.number:
        return kept if digest == kept.start.digest else None
    hash = kept.hash_at(number) if number > kept.start.number else None
    return None if hash is None else KeptChain(Start(number, hash, digest), kept.behind(number))


def read_chain(path: Path) -> KeptChain | None:
    """The chain of a file, if there is one. Raises ChainDamaged if it is none."""
    try:
        data = path.read_bytes()
    except FileNotFoundError:
        return None
    end = data.find(b"\n", 0, FIRST_CHARACTERS) + 1
    first = FIRST.fullmatch(data[:end].decode("ascii", "replace"))
    if first is None:
        raise ChainDamaged(f"{path} doesn't begin as a chain of this version does")
    lines = data[end : len(data) - (len(data) - end) % LINE_BYTES]
    return KeptChain(Start(int(first[1]), bytes.fromhex(first[2]), first[3]), lines)


def write_chain(path: Path, chain: KeptChain) -> None:
    """Puts a file in the place of another one. After a crash one of the two is there, whole."""
    new = path.with_suffix(".chain-new")
    with new.open("wb") as file:
        os.fchmod(file.fileno(), 0o600)
        file.write(chain.start.line() + chain.lines)
        file.flush()
        os.fsync(file.fileno())
    new.replace(path)
    folder = os.open(path.parent, os.O_RDONLY)
    try:
        os.fsync(folder)
    finally:
        os.close(folder)
