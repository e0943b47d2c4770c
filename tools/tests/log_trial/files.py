"""The file of a log: who has it, how it is made, and what it is called."""

from __future__ import annotations

import fcntl
import os
from collections.abc import Iterator
from contextlib import contextmanager
from pathlib import Path

from log_trial.faults import CLAIM, CLAIMED, FIRST, FOREIGN, GIVEN, GOOD, NOT_JSON, START, STARTED, STARTING
from log_trial.log_file import at_rest, log_of
from log_trial.samples import catalogue_of, path_of
from log_trial.script import want_log
from program import DONE, FAILED, LOG_REFUSED, REFUSED_WORDS, Ended, Program, over, want

IN_USE = Ended(LOG_REFUSED, b'{"fault":"LogInUse"}\n')
SCRIPT = GIVEN + b"\n" + START + b"\n"
MADE = log_of([FIRST, STARTING])


def check_in_use(program: Program, log: Path) -> None:
    """A log that another program has is refused, whatever stands in it; a log that is let go is not."""
    holder = program.start(over(log))
    assert holder.stdin and holder.stdout
    with holder:
        holder.stdin.write(GIVEN + b"\n" + START + b"\n")
        holder.stdin.flush()
        want("the first of two programs", holder.stdout.readline(), STARTED)
        file = at_rest(log_of([FIRST, STARTING]))
        want("the second of two programs", program.over(log, GIVEN + b"\n" + CLAIM + b"\n"), IN_USE)
        want("the second, by another catalogue", program.over(log, catalogue_of() + b"\n"), IN_USE)
        want("the second, with no catalogue", program.over(log, b"\n"), NOT_JSON)
        want_log("two programs", log, file)
        holder.stdin.write(CLAIM + b"\n")
        holder.stdin.close()
        want("the first, after the second", (holder.stdout.read(), holder.wait()), (CLAIMED, DONE))
    want("a log that was let go", program.over(log, GIVEN + b"\n"), Ended(DONE))
    want_log("two programs", log, GOOD)


def check_locked(program: Program, log: Path) -> None:
    """A file that is no log is in use first, and foreign then."""
    log.write_bytes(b"")
    with log.open("rb+") as file:
        fcntl.flock(file, fcntl.LOCK_EX)
        want("an empty file that is in use", program.over(log, GIVEN + b"\n"), IN_USE)
        want_log("an empty file that is in use", log, b"")
    want("an empty file that was let go", program.over(log, GIVEN + b"\n"), Ended(LOG_REFUSED, FOREIGN))


def check_rivals(program: Program, log: Path) -> None:
    """Of four programs that make one log at once, one has it until it ends. An empty draft of another one may stay."""
    rivals = [program.start(over(log)) for _ in range(4)]
    replies = list[bytes]()
    for rival in rivals:
        assert rival.stdin
        rival.stdin.write(GIVEN + b"\n" + START + b"\n")
        rival.stdin.flush()
    for rival in rivals:
        assert rival.stdout
        replies.append(rival.stdout.readline())
    statuses = [rival.communicate() and rival.returncode for rival in rivals]
    want("four programs", sorted(replies), sorted([STARTED, *[IN_USE.output] * 3]))
    want("four programs: statuses", sorted(statuses), sorted([DONE, *[LOG_REFUSED] * 3]))
    want("four programs: the log", log.read_bytes(), MADE)


def check_draft(program: Program, log: Path) -> None:
    """A draft that a crash left is replaced; one that another program writes is left to it."""
    draft = log.with_name("log.new")
    draft.write_bytes(GOOD * 2)
    with draft.open("rb+") as file:
        fcntl.flock(file, fcntl.LOCK_EX)
        want("a draft that is in use", program.over(log, GIVEN + b"\n"), IN_USE)
        want("a draft that is in use: it", (draft.read_bytes(), log.exists()), (GOOD * 2, False))
    want("a draft that was left", program.over(log, GIVEN + b"\n"), Ended(DONE))
    want_log("a draft that was left", log, log_of([FIRST]))
    log.write_bytes(at_rest(log.read_bytes()))
    draft.write_bytes(b"old")
    want("a draft beside a log at rest", program.over(log, GIVEN + b"\n" + START + b"\n"), Ended(DONE, STARTED))
    want_log("a draft beside a log at rest", log, MADE)


def check_cut_by_another(program: Program, log: Path) -> None:
    """Another program cuts the file: the next call is not acknowledged."""
    running = program.start(over(log))
    assert running.stdin and running.stdout and running.stderr
    with running:
        running.stdin.write(GIVEN + b"\n" + START + b"\n")
        running.stdin.flush()
        want("a log before it is cut", running.stdout.readline(), STARTED)
        os.truncate(log, 0)
        running.stdin.write(CLAIM + b"\n")
        running.stdin.close()
        ended = Ended(running.wait(), running.stdout.read(), running.stderr.read())
    want("a log that another program cuts", ended, FAILED)


def check_links(program: Program, log: Path) -> None:
    """A link is followed, and stays one. If it leads nowhere, no file is made."""
    place = path_of(log.parent / "place")
    log.symlink_to(place)
    place.write_bytes(log_of([FIRST]))
    want("a link", program.over(log, GIVEN + b"\n" + START + b"\n"), Ended(DONE, STARTED))
    want_log("a link", place, log_of([FIRST, STARTING]))
    want("a link: it", os.readlink(log), str(place))
    want("a link: its folder", sorted(path.name for path in log.parent.iterdir()), ["log", "place"])
    place.unlink()
    want("a link that leads nowhere", program.over(log, SCRIPT), IN_USE)
    want("a link that leads nowhere: its folder", list(place.parent.iterdir()), [])


def check_names(program: Program, folder: Path) -> None:
    """Words of the command line that name a log."""
    for number, (words, name) in enumerate(
        [
            (["--log", "log"], "log"),
            (["--log=a=b"], "a=b"),
            (["--log", "./-log"], "-log"),
            (["--log=two words"], "two words"),
            (["--log", "log.new"], "log.new"),
            (["--log=\u043b\u043e\u0433"], "\u043b\u043e\u0433"),
        ]
    ):
        log = path_of(folder / str(number), name)
        want(f"script {words}", program.run(["script", *words], SCRIPT, log.parent), Ended(DONE, STARTED))
        want_log(f"script {words}", log, MADE)


def check_refused_words(program: Program, folder: Path) -> None:
    """Words of the command line that name no log. Nothing is made, and no line is answered."""
    place = path_of(folder).parent
    words: list[list[str | bytes]] = [
        ["script", "--log"],
        ["script", "--log="],
        ["script", "--log", ""],
        ["script", "--log", "-log"],
        ["script", "--log=-log"],
        ["script", "--log", "-"],
        ["script", "--log", "--log"],
        ["script", "--log", "a", "b"],
        ["script", "--log", "a", "--"],
        ["script", "--log", "a", "--log", "b"],
        ["script", "--compact"],
        ["script", "--tags", "--compact"],
        ["script", "--compact", "--log", "a", "--compact"],
        ["script", "--log", "a", "--compact", "--compact"],
        ["script", "--log", "a", "--compact=yes"],
        ["run", "--compact"],
        ["script", "log"],
        ["--log", "log", "script"],
        ["run", "--log", "log"],
        ["script", b"--log=\xff"],
    ]
    for these in words:
        ended = program.run(these, SCRIPT, place)
        want(f"{these}", (ended.status, ended.output, bool(ended.faults)), (REFUSED_WORDS, b"", True))
        want(f"{these}: files", list(place.iterdir()), [])


def unavailable(folder: Path) -> Iterator[tuple[str, Path]]:
    """Names of files that cannot be opened or made."""
    log = path_of(folder)
    log.write_bytes(b"a file")
    (folder / "taken.new").mkdir()
    os.mkfifo(folder / "pipe")
    yield "a folder", folder
    yield "a file in no folder", folder / "none" / "log"
    yield "a file in a file", log / "log"
    yield "a name that is too long", folder / ("x" * 300)
    yield "a name that is too long for its draft", folder / ("x" * 253)
    yield "a file whose draft is a folder", folder / "taken"
    yield "a pipe", folder / "pipe"


def check_unavailable(program: Program, folder: Path) -> None:
    """A file that cannot be opened or made. A fault of the catalogue comes first."""
    for name, log in unavailable(folder):
        before = sorted(folder.iterdir())
        want(name, program.over(log, SCRIPT), FAILED)
        want(f"{name}, with no catalogue", program.over(log, b"\n" + SCRIPT), NOT_JSON)
        want(f"{name}: files", sorted(folder.iterdir()), before)


@contextmanager
def permission(path: Path, mode: int) -> Iterator[None]:
    """A file or a folder with other permissions for a time."""
    before = path.stat().st_mode
    path.chmod(mode)
    try:
        yield
    finally:
        path.chmod(before)


def check_permissions(program: Program, folder: Path) -> None:
    """A file that may not be read or written, and a folder in which none may be made. Root may do all of it."""
    log = path_of(folder)
    log.write_bytes(GOOD)
    for mode in (0o000, 0o200, 0o400):
        with permission(log, mode):
            want(f"a log of mode {mode:o}", program.run(over(log), SCRIPT), FAILED)
        want_log(f"a log of mode {mode:o}", log, GOOD)
    with permission(folder, 0o500):
        want("a folder that is closed", program.over(folder / "other", SCRIPT), FAILED)
        want("a sealed log in a folder that is closed", program.over(log, GIVEN + b"\n"), Ended(DONE))
        log.write_bytes(at_rest(GOOD))
        want("a log at rest in a folder that is closed", program.over(log, GIVEN + b"\n"), FAILED)
    want_log("a folder that is closed", log, at_rest(GOOD))


# Trials of a log at a path in an empty folder, and those that make folders of their own.
def check_long_history(program: Program, log: Path) -> None:
    """A log takes more operations than the 1,000,000 of a script without one."""
    stops = b'{"do":"stop","by":1,"at":0,"execution":1}\n' * 999_999
    ended = program.over(log, SCRIPT + CLAIM + b"\n" + stops)
    want("operation 1,000,001 of a log", (ended.status, ended.output[-14:]), (DONE, b'{"done":true}\n'))


OF_A_LOG = [check_in_use, check_locked, check_rivals, check_draft, check_cut_by_another, check_links, check_long_history]
OF_FOLDERS = [check_names, check_refused_words, check_unavailable]
