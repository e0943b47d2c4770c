"""A file, a reader of the replies or a writer of the lines that fails: what was told is in the log, which opens again."""

from __future__ import annotations

import os
import resource
import signal
import socket
import struct
import subprocess
from collections.abc import Callable, Iterator
from contextlib import contextmanager, suppress
from functools import partial
from pathlib import Path

from log_trial.kills import check_end, check_kept, feed_lines, records_in
from log_trial.log_file import log_of
from log_trial.samples import NIGHT, night_of, path_of
from log_trial.script import Script, script_of, want_log
from program import DEVICE_FAILED, DONE, FAILED, UNHEARD, UNREAD, Ended, Program, end_of, over, want

# A limit of the file's size is tried at each of so many bytes.
STRIDE = 61
SHELL = Path("/bin/sh")
SMALL_DISK, LARGE_DISK = 32_768, 1_048_576
HEARD = [0, 1, 1_000, 70_000]


def limit_of(size: int) -> Callable[[], None]:
    """Sets the most bytes that a file of the process may have. A write of more fails, and ends nothing."""

    def limit() -> None:
        signal.signal(signal.SIGXFSZ, signal.SIG_IGN)
        resource.setrlimit(resource.RLIMIT_FSIZE, (size, size))

    return limit


def sizes_of(script: Script) -> list[int]:
    """The size of the log after each of its records."""
    records = script.records
    return [len(log_of(records[:count])) for count in range(1, len(records) + 1)]


def fitting(script: Script, size: int) -> int:
    """How many records fit into a log of at most this size."""
    return sum(needed <= size for needed in sizes_of(script))


def told_before(script: Script, count: int) -> int:
    """At which line a script stops, if so many of its records fit."""
    kept = script.kept
    return kept[count - 1] if count <= len(kept) else len(script.lines)


def check_limit(program: Program, script: Script, size: int, log: Path) -> None:
    """A log that cannot grow, line by line: all that fits is there and was told, and no more."""
    running = program.start(over(log), limit=limit_of(size))
    told = feed_lines(running, script)
    count = fitting(script, size)
    what = f"at most {size} bytes, line by line"
    want(what, end_of(running), Ended(DONE) if count > len(script.kept) else FAILED)
    want(f"{what}: files", log.exists(), count > 0)
    want(f"{what}: records", records_in(what, log), script.records[:count])
    want(f"{what}: replies", told, script.told(0, told_before(script, count)) if count else b"")
    check_end(what, program, script, check_kept(what, script, log, told, 0), log)


def check_limit_at_once(program: Program, script: Script, size: int, log: Path) -> None:
    """A log that cannot grow, and all lines at once: it has all of them, or none, and nothing was told then."""
    ended = program.run(over(log), script.text(), limit=limit_of(size))
    what = f"at most {size} bytes, at once"
    if len(script.log) <= size:
        want(what, ended, Ended(DONE, script.told()))
        return
    want(what, ended, FAILED)
    want(f"{what}: records", records_in(what, log), script.records[: min(fitting(script, size), 1)])
    check_end(what, program, script, 0, log)


def limits_of(script: Script) -> list[int]:
    """Limits within records, at their ends, and by one off."""
    ends = [size + off for size in sizes_of(script)[:3] for off in (-1, 0, 1)]
    return sorted({0, 1, *ends, *range(0, len(script.log) + STRIDE, STRIDE)})


@contextmanager
def small_disk(folder: Path) -> Iterator[bool]:
    """A file system of its own in a folder, if the test may have one."""
    folder.mkdir()
    words = ["mount", "-t", "tmpfs", "-o", f"size={SMALL_DISK}", "none", str(folder)]
    mounts = os.geteuid() == 0 and subprocess.run(words, capture_output=True, check=False).returncode == 0
    try:
        yield mounts
    finally:
        if mounts:
            subprocess.run(["umount", "--lazy", str(folder)], check=True)


def fill(filler: Path) -> None:
    """Takes all room that a disk has."""
    with suppress(OSError), filler.open("wb", buffering=0) as file:
        while file.write(bytes(4096)):
            pass


def check_no_room(program: Program, script: Script, log: Path) -> None:
    """A disk that is full as the log is made."""
    filler = log.with_name("filler")
    fill(filler)
    want("a full disk", program.over(log, script.text()), FAILED)
    want("a full disk: the log", log.exists(), False)
    # A process that another trial begins may hold the file for a moment, and so its room.
    os.truncate(filler, 0)
    filler.unlink()


def check_full_disk(program: Program, log: Path) -> None:
    """A disk that is full as the log is made, and one that gets full as it grows. With more room a run goes on."""
    script, what = script_of(program, "a night", night_of(200)), "a disk that gets full"
    check_no_room(program, script, log)
    running = program.start(over(log))
    told = feed_lines(running, script)
    want(what, end_of(running), FAILED)
    begin = check_kept(what, script, log, told, 0)
    want(f"{what}: it has lines", begin > 0, True)
    records = records_in(what, log)
    want(f"{what}, without room for a new file", program.over(log, script.text(0, 0)), FAILED)
    want(f"{what}, without room for a new file: records", records_in(what, log), records)
    subprocess.run(["mount", "-o", f"remount,size={LARGE_DISK}", str(log.parent)], check=True)
    check_end("a disk with more room", program, script, begin, log)


def given_by(script: Script, folder: Path) -> Path:
    """A file with the text of a script, beside the folders of logs."""
    given = folder / "given"
    given.write_bytes(script.text())
    return given


def check_unheard(program: Program, script: Script, count: int, log: Path) -> None:
    """Whoever reads the replies goes away after so many bytes."""
    given = given_by(script, log.parent.parent)
    with given.open("rb") as source:
        running = program.start(over(log), source.fileno(), room=4096)
    assert running.stdout
    told = running.stdout.read(count)
    running.stdout.close()
    what = f"replies that are read up to byte {count}"
    want(what, end_of(running), UNHEARD)
    want(f"{what}: bytes", len(told), count)
    check_end(what, program, script, check_kept(what, script, log, told, 0), log)


def check_streams(program: Program, script: Script, ends: str, wanted: list[Ended], log: Path) -> None:
    """A program whose streams lead nowhere, as the words of a shell say. Its log is one, and a run goes on."""
    given = given_by(script, log.parent.parent)
    command = f'exec "$0" "$@" < {given} {ends}'
    ended, what = Program(SHELL).run(["-c", command, program.path, *over(log)]), f"streams {ends}"
    if ended not in wanted:
        want(what, ended, wanted[0])
    check_end(what, program, script, check_kept(what, script, log, b"", 0), log)


def reset_pair() -> tuple[socket.socket, socket.socket]:
    """Two ends of a connection. If the first is closed, a read of the second fails."""
    with socket.create_server(("127.0.0.1", 0)) as server:
        ours = socket.create_connection(server.getsockname())
        theirs, _ = server.accept()
    ours.setsockopt(socket.SOL_SOCKET, socket.SO_LINGER, struct.pack("ii", 1, 0))
    return ours, theirs


def check_lost_reader(program: Program, script: Script, log: Path) -> None:
    """The lines end with a read that fails: all of them were answered."""
    ours, theirs = reset_pair()
    with theirs:
        running = program.start(over(log), theirs.fileno())
    assert running.stdout
    with ours:
        ours.sendall(script.text())
        want("lines of a connection", running.stdout.read(len(script.told())), script.told())
    want("a read that fails", end_of(running), UNREAD)
    want_log("a read that fails", log, script.log)


def check_no_lines(program: Program, log: Path) -> None:
    """A read of the first line fails: there is no log."""
    source = os.open(log.parent, os.O_RDONLY)
    running = program.start(over(log), source)
    os.close(source)
    want("a folder in place of lines", end_of(running), UNREAD)
    want("a folder in place of lines: files", list(log.parent.iterdir()), [])


def failures(program: Program, folder: Path) -> Iterator[Callable[[], None]]:
    """All trials of this page but those of a full disk."""
    night = script_of(program, NIGHT.name, NIGHT.read_bytes())
    for size in limits_of(night):
        yield partial(check_limit, program, night, size, path_of(folder / f"lines-{size}"))
        yield partial(check_limit_at_once, program, night, size, path_of(folder / f"once-{size}"))
    yield partial(check_lost_reader, program, night, path_of(folder / "connection"))
    yield partial(check_no_lines, program, path_of(folder / "no-lines"))
    long_night, silent = script_of(program, "a night", night_of(300)), Ended(DEVICE_FAILED)
    for count in HEARD:
        yield partial(check_unheard, program, long_night, count, path_of(folder / f"heard-{count}" / "log"))
    for number, (ends, wanted) in enumerate(
        [
            ("> /dev/full", [UNHEARD]),
            ("> /dev/full 2>&-", [silent]),
            ("2>&-", [Ended(DONE, long_night.told())]),
            (">&-", [UNHEARD, Ended(DONE)]),
            (">&- 2>&-", [silent, Ended(DONE)]),
        ]
    ):
        yield partial(check_streams, program, long_night, ends, wanted, path_of(folder / f"streams-{number}" / "log"))
