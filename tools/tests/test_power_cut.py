"""What a power cut leaves of a log, at each moment of a run (docs/TESTING.md, "Power cuts").

Each row of the table in power_trial/rows.py is tried, with a caller who waits for each reply and with one who sends all lines
at once. Other tests are of the disk (power_trial/disk.py) and of the library that notes the calls (libraries/power_cut.c), and
some make a wrong program of the right one, which has to be noticed.
"""

from __future__ import annotations

import sys
import tempfile
from collections.abc import Callable, Iterator
from concurrent.futures import ThreadPoolExecutor
from pathlib import Path
from random import Random

import pytest

from log_trial.log_file import catalogue_record, log_of
from power_trial.checks import Opener, check_tail
from power_trial.disk import SECTOR, Cut, Disk, Inode, Piece, folder_of, pieces_of
from power_trial.journal import FOLDER_SYNC, MADE, RENAME, Event, events_in
from power_trial.rows import Event as Happening
from power_trial.rows import Row, a_failed_sync, a_kill_and_another_run, a_run, rows
from power_trial.runs import WAYS, Bench
from program import Program, Wrong, tail_of

Library = Callable[[str], Path]


@pytest.fixture(scope="module")
def opener(program: Program, library: Library, tell: Callable[[str], None]) -> Iterator[Opener]:
    """Opens what is left in any row, each folder once."""
    with tempfile.TemporaryDirectory(prefix="power-cut-") as name:
        opener = Opener(Bench(program, program.under(library("power_cut")), Path(name)))
        yield opener
    tell(f"power cuts: {opener.moments} moments, {len(opener.opened)} different files")


@pytest.mark.parametrize("row", rows(), ids=Row.name)
def test_a_power_cut_loses_nothing(
    opener: Opener, row: Row, seed: int, pool: ThreadPoolExecutor, tell: Callable[[str], None]
) -> None:
    trial = row.tried(opener, seed, pool)
    opener.moments += len(trial.moments)
    tell(f"{row.name()}: {len(trial.moments)} moments, {len(trial.files)} files")


OLD = bytes(range(256)) * 6
FOLDER = 7


def lefts(inode: Inode) -> list[bytes]:
    return inode.left(Random(1))


def names_of(disk: Disk) -> set[tuple[str, ...]]:
    """The names that a power cut may leave."""
    return {tuple(name for name, _ in left) for left in disk.left(Random(1))}


# What a power cut leaves of one file.


def test_bytes_outside_of_a_write_stay() -> None:
    inode = Inode(OLD, OLD)
    inode.change(*pieces_of(500, b"x" * 600))
    for left in lefts(inode):
        assert (left[:500], left[1100:], len(left)) == (OLD[:500], OLD[1100:], len(OLD))


def test_each_sector_is_old_or_new() -> None:
    inode = Inode(OLD, OLD)
    inode.change(*pieces_of(500, b"x" * 600))
    ends = [500, SECTOR, 2 * SECTOR, 1100]
    found = {tuple(left[at:end] == b"x" * (end - at) for at, end in zip(ends, ends[1:])) for left in lefts(inode)}
    assert len(found) == 8


def test_a_write_behind_the_end_leaves_a_length_between() -> None:
    inode = Inode(b"old", b"old")
    inode.change(*pieces_of(3, b"n" * 1000))
    found = lefts(inode)
    assert b"old" in found
    assert b"old" + b"n" * 509 in found
    assert b"old" + bytes(1000) in found
    assert b"old" + bytes(509) + b"n" * 491 in found


def test_a_cut_leaves_a_length_between() -> None:
    inode = Inode(OLD, OLD)
    inode.change(Cut(1000))
    found = lefts(inode)
    assert {len(left) for left in found} == {1000, 1001, 1268, 1535, 1536}
    assert all(OLD.startswith(left) for left in found)


def test_a_sync_leaves_one_file() -> None:
    inode = Inode(OLD, OLD)
    inode.change(Cut(1000))
    inode.change(Piece(900, b"new"))
    inode.sync()
    assert lefts(inode) == [OLD[:900] + b"new" + OLD[903:1000]]


def test_a_long_write_is_drawn() -> None:
    inode = Inode(b"", b"")
    inode.change(*pieces_of(0, bytes([1]) * 100_000))
    found = lefts(inode)
    assert b"" in found
    assert inode.memory in found
    assert 20 < len(found) < 100


def test_lost_bytes_are_written_by_no_later_sync() -> None:
    inode = Inode(OLD, OLD)
    inode.change(Piece(10, b"lost"))
    inode.lose(OLD)
    inode.change(Piece(12, b"ab"))
    inode.sync()
    assert inode.memory[10:14] == b"loab"
    assert inode.disk == OLD[:12] + b"ab" + OLD[14:]
    inode.drop_memory()
    assert inode.memory == inode.disk


# Which names a power cut leaves.


def a_disk() -> Disk:
    disk = Disk(folder=FOLDER)
    disk.apply(Event(MADE, 1, 0, b"/logs/log.new"))
    return disk


def test_a_new_name_may_be_missing() -> None:
    assert names_of(a_disk()) == {(), ("log.new",)}


def test_a_renamed_file_has_one_of_its_names_or_both() -> None:
    disk = a_disk()
    disk.apply(Event(RENAME, 0, 0, b"/logs/log.new\0/logs/log"))
    assert names_of(disk) == {(), ("log.new",), ("log",), ("log", "log.new")}


def test_a_sync_of_the_folder_keeps_the_names() -> None:
    disk = a_disk()
    disk.apply(Event(RENAME, 0, 0, b"/logs/log.new\0/logs/log"))
    disk.apply(Event(FOLDER_SYNC, FOLDER + 1, 0, b""))
    assert len(names_of(disk)) == 4
    disk.apply(Event(FOLDER_SYNC, FOLDER, 0, b""))
    assert names_of(disk) == {("log",)}


def test_a_replaced_file_is_old_or_new() -> None:
    disk = folder_of((("log", b"old"), ("log.new", b"new")))
    disk.apply(Event(RENAME, 0, 0, b"/logs/log.new\0/logs/log"))
    found = {dict(left)["log"] for left in disk.left(Random(1))}
    assert found == {b"old", b"new"}


# The bytes behind the end of a log.

whole = log_of([catalogue_record(b"{}")])
torn = whole + b" c 0000"


def test_they_stay_or_are_kept() -> None:
    tail = tail_of(torn)
    assert tail.endswith(b" c 0000")
    check_tail("a run", torn, (("log", torn),))
    check_tail("a run", torn, (("log", whole), ("log.cut", tail)))
    check_tail("a run", whole, (("log", whole),))


def test_they_are_lost() -> None:
    for left in [(("log", whole),), (("log", whole), ("log.cut", b"")), (("log.cut", b" c 0000"),)]:
        with pytest.raises(Wrong):
            check_tail("a run", torn, left)


# A program that makes calls of files, and prints what it reads.
CALLS = """
import os
file = os.open("log", os.O_RDWR | os.O_CREAT)
read = lambda: os.write(1, os.pread(file, 99, 0) + b"\\n")
read()
os.pwrite(file, b"AB", 1)
os.ftruncate(file, 5)
try: os.fsync(file)
except OSError as error: os.write(1, b"%d\\n" % error.errno)
os.fdatasync(file)
os.posix_fadvise(file, 0, 0, os.POSIX_FADV_DONTNEED)
read()
os.rename("log", "other")
os.link("other", "log")
os.unlink("other")
os.fsync(os.open(".", os.O_RDONLY))
"""


# A program that reads a file past memory.
DIRECT = """
import os
os.write(1, os.pread(os.open("log", os.O_RDONLY | os.O_DIRECT), 99, 0))
"""


Journal = list[tuple[str, int, bytes]]


@pytest.fixture
def run_under(folder: Path, library: Library) -> Callable[..., tuple[bytes, Journal]]:
    """What a program of Python wrote, and its journal."""
    (folder / "logs").mkdir()
    noted = folder / "journal"

    def run(text: str = CALLS, **settings: str) -> tuple[bytes, Journal]:
        python = Program(Path(sys.executable)).under(library("power_cut"), CUT_JOURNAL=str(noted), **settings)
        ended = python.run(["-c", text], folder=folder / "logs")
        assert (ended.status, ended.faults) == (0, b"")
        return ended.output, [(event.kind, event.place, event.data) for event in events_in(noted.read_bytes())]

    return run


Run = Callable[..., tuple[bytes, Journal]]


def lay(folder: Path, memory: bytes, disk: bytes) -> str:
    """Lays a file of which the disk has other bytes, and returns the folder of these."""
    (folder / "disk").mkdir()
    (folder / "disk" / "log").write_bytes(disk)
    (folder / "logs" / "log").write_bytes(memory)
    return str(folder / "disk")


def test_calls_are_noted_in_order(run_under: Run) -> None:
    written, events = run_under()
    assert written == b"\n\0AB\0\0\n"
    head = [("m", 0, b"log"), ("t", 0, b"\n"), ("w", 1, b"AB"), ("c", 5, b""), ("s", 0, b""), ("s", 0, b""), ("a", 0, b"")]
    names = [("r", 0, b"log\0other"), ("l", 0, b"other\0log"), ("u", 0, b"other"), ("d", 0, b"")]
    assert events == [*head, ("t", 0, b"\0AB\0\0\n"), *names]


def test_a_sync_fails(run_under: Run) -> None:
    written, events = run_under(CUT_FAIL_AT="1")
    assert written == b"\n5\n\0AB\0\0\n"
    assert [kind for kind, _, _ in events] == list("mtwcftsatrlud")


def test_lost_bytes_are_read_until_they_are_dropped(run_under: Run, folder: Path) -> None:
    written, _ = run_under(CUT_DISK=lay(folder, b"memory", b"dis"))
    assert written == b"memory\ndAB\0\0\n"


def test_a_direct_read_is_of_the_disk(run_under: Run, folder: Path) -> None:
    written, events = run_under(DIRECT, CUT_DISK=lay(folder, b"memory", b"disk"))
    assert (written, [kind for kind, _, _ in events]) == (b"disk\0\0", ["a", "t"])


@pytest.mark.parametrize("caller", WAYS)
@pytest.mark.parametrize(
    "way, begin, event",
    [
        ("never", "a new log", a_run),
        ("never", "a log", a_run),
        ("late", "a new log", a_run),
        ("late", "a log", a_run),
        ("swallowed", "a new log", a_failed_sync),
        ("swallowed", "a log", a_failed_sync),
        ("no_folder", "a new log", a_run),
        # It makes the log before the bytes behind its end have a name.
        ("no_first_folder", "a torn log", a_run),
        # It reads a log that it did not sync.
        ("no_first", "a log", a_kill_and_another_run),
    ],
    ids=lambda value: value if isinstance(value, str) else value.__name__,
)
def test_a_program_with_wrong_syncs_is_found(
    program: Program,
    library: Library,
    folder: Path,
    way: str,
    begin: str,
    event: Happening,
    caller: str,
    pool: ThreadPoolExecutor,
) -> None:
    wrong = program.under(library("wrong_syncs"), library("power_cut"), WRONG_SYNCS=way)
    with pytest.raises(Wrong, match=r"a power cut after \d+ calls"):
        Row(begin, event, caller).tried(Opener(Bench(program, wrong, folder)), 1, pool)
