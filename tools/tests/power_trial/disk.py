"""A folder as a program sees it, and what a power cut may leave of it."""

from __future__ import annotations

import copy
import os
from collections.abc import Iterator, Sequence
from dataclasses import dataclass, field
from itertools import islice, product
from math import prod
from pathlib import Path
from random import Random

from power_trial import journal
from power_trial.journal import Event

SECTOR = 512
# If there are no more ways than these, each is tried. Else so many are drawn.
MOST_WAYS, DRAWN = 64, 24
# So many ways are drawn in which sectors are torn.
TORN = 12
# So many states of the disk are followed up after a failed sync, beside the old and the new one.
LOST = 2


@dataclass(frozen=True)
class Piece:
    """Bytes that are written within one sector."""

    place: int
    data: bytes


@dataclass(frozen=True)
class Cut:
    """A new length of the file, shorter or longer."""

    size: int


Change = Piece | Cut


def pieces_of(place: int, data: bytes) -> list[Piece]:
    """Bytes that are written, by the sectors of the file."""
    end = place + len(data)
    ends = [*range(place - place % SECTOR + SECTOR, end, SECTOR), end]
    return [Piece(begin, data[begin - place : until - place]) for begin, until in zip([place, *ends], ends)]


def changed(file: bytes, changes: Sequence[Change | None]) -> bytes:
    """The bytes of a file after these changes. Bytes that nobody wrote are zeros."""
    now = bytearray(file)
    for change in changes:
        if isinstance(change, Cut):
            del now[change.size :]
            now.extend(bytes(change.size - len(now)))
        elif change is not None:
            now.extend(bytes(max(change.place - len(now), 0)))
            now[change.place : change.place + len(change.data)] = change.data
    return bytes(now)


@dataclass(eq=False)
class Inode:
    """A file: its bytes in memory, those on the disk, and the changes in memory that wait for a sync."""

    memory: bytes = b""
    disk: bytes = b""
    waiting: list[Change] = field(default_factory=list)
    has_lost: bool = False

    def change(self, *changes: Change) -> None:
        self.memory = changed(self.memory, changes)
        self.waiting += changes

    def sync(self) -> None:
        self.disk, self.waiting = changed(self.disk, self.waiting), []

    def lose(self, left: bytes) -> None:
        """A sync failed and left these bytes on the disk. Memory stays as it is, and no later sync writes what was lost."""
        self.disk, self.waiting, self.has_lost = left, [], True

    def drop_memory(self) -> None:
        """From now on a read returns the disk's bytes. The length is not dropped."""
        if self.has_lost:
            self.memory = changed(changed(self.disk, self.waiting), [Cut(len(self.memory))])

    def between(self, change: Change) -> list[Change]:
        """For a new length those between it and the old one: by one off, and in the middle."""
        if isinstance(change, Piece):
            return []
        low, high = sorted([change.size, max(len(self.disk), len(self.memory))])
        return [Cut(size) for size in sorted({low + 1, (low + high) // 2, high - 1}) if low < size < high]

    def torn(self, change: Change, draws: Random) -> Change | None:
        """What may become of a change if sectors are torn."""
        if isinstance(change, Cut):
            return draws.choice([None, change, *self.between(change)])
        old = self.disk[change.place : change.place + len(change.data)].ljust(len(change.data), b"\0")
        return draws.choice([None, change, *torn_pieces(change, old, draws)])

    def ways(self, draws: Random) -> Iterator[Sequence[Change | None]]:
        """What may become of all waiting changes: nothing, everything, each way or some, and some with torn sectors."""
        each: list[list[Change | None]] = [[None, change, *self.between(change)] for change in self.waiting]
        yield [None] * len(each)
        yield self.waiting
        if prod(map(len, each)) <= MOST_WAYS:
            yield from product(*each)
        else:
            yield from (drawn(each, draws) for _ in range(DRAWN))
        yield from ([self.torn(change, draws) for change in self.waiting] for _ in range(TORN))

    def left(self, draws: Random) -> list[bytes]:
        """What a power cut may leave of the file, each once. A new length may be on the disk before the bytes are."""
        found = dict[bytes, None]()
        for way in self.ways(draws) if self.waiting else [[]]:
            file = changed(self.disk, way)
            found[file] = None
            if self.waiting and len(file) < len(self.memory):
                found[changed(file, [Cut(len(self.memory))])] = None
        return list(found)

    def left_by_failure(self, draws: Random) -> list[bytes]:
        """What a failed sync may leave on the disk: nothing of what waited, all of it, and some."""
        left = self.left(draws)
        chosen = [self.disk, changed(self.disk, self.waiting), *draws.sample(left, min(LOST, len(left)))]
        return list(dict.fromkeys(chosen))


def torn_pieces(piece: Piece, old: bytes, draws: Random) -> list[Piece]:
    """A sector that is new up to a byte, or from it on, or here and there, or that has any bytes where it was written."""
    place, data, size = piece.place, piece.data, len(piece.data)
    at = draws.randrange(size + 1)
    mixed = bytes(draws.choice(pair) for pair in zip(old, data))
    any_bytes = draws.choice([draws.randbytes(size), b"1" * size, b"0" * size, b"\xff" * size])
    return [Piece(place, data[:at]), Piece(place + at, data[at:]), Piece(place, mixed), Piece(place, any_bytes)]


def drawn(each: list[list[Change | None]], draws: Random) -> list[Change | None]:
    """One way of each change: a few are made, half of them or most of them, or the first ones, or the last ones."""
    at, part, kind = draws.randrange(len(each) + 1), draws.choice([0.05, 0.5, 0.95]), draws.randrange(3)
    return [
        draws.choice(ways[1:]) if [draws.random() < part, number < at, number >= at][kind] else None
        for number, ways in enumerate(each)
    ]


# A name that is given to a file, or taken away.
Naming = tuple[str, Inode | None]
# The files of a folder, by their names.
Left = tuple[tuple[str, bytes], ...]


def named(names: dict[str, Inode], namings: Sequence[Naming]) -> dict[str, Inode]:
    """Names after some of them were given or taken away."""
    now = dict(names)
    for name, inode in namings:
        now.pop(name, None)
        if inode is not None:
            now[name] = inode
    return now


@dataclass(eq=False)
class Disk:
    """A folder: its names in memory, those on the disk, and the changes of names that wait for a sync of the folder."""

    names: dict[str, Inode] = field(default_factory=dict)
    kept: dict[str, Inode] = field(default_factory=dict)
    waiting: list[list[Naming]] = field(default_factory=list)
    # The files by the numbers that they have in a run, and the number of the folder.
    numbers: dict[int, Inode] = field(default_factory=dict)
    folder: int = 0

    def lay(self, folder: Path, on_disk: Path) -> None:
        """Lays the files in memory into an empty folder, in which a run begins, and the disk's bytes where a sync failed."""
        self.folder, self.numbers = folder.stat().st_ino, {}
        paths = dict[Inode, Path]()
        for name, inode in self.names.items():
            if inode in paths:
                os.link(paths[inode], folder / name)
                continue
            paths[inode] = folder / name
            paths[inode].write_bytes(inode.memory)
            self.numbers[paths[inode].stat().st_ino] = inode
            if inode.has_lost:
                (on_disk / name).write_bytes(changed(inode.disk, inode.waiting))

    def name(self, *namings: Naming) -> None:
        self.waiting.append(list(namings))
        self.names = named(self.names, namings)

    def apply(self, event: Event) -> None:
        """What a call does. A failed sync does nothing here: `after_failure` has the rest."""
        match event.kind:
            case journal.WRITE:
                self.numbers[event.number].change(*pieces_of(event.place, event.data))
            case journal.CUT:
                self.numbers[event.number].change(Cut(event.place))
            case journal.SYNC:
                self.numbers[event.number].sync()
            case journal.DROPPED:
                self.numbers[event.number].drop_memory()
            case journal.FOLDER_SYNC if event.number == self.folder:
                self.kept, self.waiting = dict(self.names), []
            case journal.MADE:
                self.numbers[event.number] = Inode()
                self.name((event.names()[0], self.numbers[event.number]))
            case journal.RENAME:
                old, new = event.names()
                self.name((new, self.names[old]), (old, None))
            case journal.LINK:
                old, new = event.names()
                self.name((new, self.names[old]))
            case journal.UNLINK:
                self.name((event.names()[0], None))

    def after_failure(self, event: Event, draws: Random) -> Iterator[Disk]:
        """What the disk may be after a sync failed. Names wait for the next sync of the folder."""
        if event.kind != journal.FAILED_SYNC:
            yield self
            return
        for left in self.numbers[event.number].left_by_failure(draws):
            disk = copy.deepcopy(self)
            disk.numbers[event.number].lose(left)
            yield disk

    def namings(self) -> list[dict[str, Inode]]:
        """Which names may be on the disk. Each change is there or not, and a renamed file may have both of its names."""
        ways = [[change[:size] for size in range(len(change) + 1)] for change in self.waiting]
        found = list[dict[str, Inode]]()
        for way in islice(product(*ways), MOST_WAYS):
            names = named(self.kept, [naming for change in way for naming in change])
            if names not in found:
                found.append(names)
        return found

    def left(self, draws: Random) -> Iterator[Left]:
        """What a power cut may leave of the folder."""
        for names in self.namings():
            files = {inode: inode.left(draws) for inode in names.values()}
            for turn in range(max(map(len, files.values()), default=1)):
                yield tuple(sorted((name, files[inode][turn % len(files[inode])]) for name, inode in names.items()))


def folder_of(left: Left) -> Disk:
    """The disk after a power cut left these files: all of their bytes are on it."""
    names = {name: Inode(file, file) for name, file in left}
    return Disk(names, dict(names))
