"""The one way in which the tests run a program of the repository, and compare what it did."""

from __future__ import annotations

import os
import subprocess
from collections.abc import Callable, Iterable, Mapping, Sequence
from concurrent.futures import Executor, Future, wait
from contextlib import suppress
from dataclasses import dataclass, field, replace
from pathlib import Path
from subprocess import PIPE

from log_trial.log_file import SEAL, SHUT, Refused, read
from repository import ROOT

CRATE = ROOT / "crates" / "batchctl"
# The exit statuses.
DONE = 0
REFUSED_WORDS = 2
FAULTY_CATALOGUE = 3
DEVICE_FAILED = 4
LACKS_MEMORY = 5
LOG_FAILED = 6
LOG_REFUSED = 7
# The name of the file that keeps the bytes behind a log's end is the log's with this after it.
CUT = ".cut"
# How much of a value a message shows.
SHOWN = 300
# A program that never ends is ended after so many seconds.
MOST_SECONDS = 120


class Wrong(AssertionError):
    """What differed."""


@dataclass(frozen=True)
class Ended:
    """How a run ended, and what it wrote."""

    status: int
    output: bytes = b""
    faults: bytes = b""


# The file of the log failed, the lines could not be read, and the replies could not be written.
FAILED = Ended(LOG_FAILED, b"", b"batchctl: log fault\n")
UNREAD = Ended(DEVICE_FAILED, b"", b"batchctl: read fault\n")
UNHEARD = Ended(DEVICE_FAILED, b"", b"batchctl: write fault\n")


def shown(value: object) -> str:
    text = repr(value)
    return text if len(text) <= SHOWN else f"{text[:SHOWN]} .. ({len(text)} characters)"


def want(what: str, found: object, wanted: object) -> None:
    """Demands that two values are equal."""
    if found == wanted:
        return
    if isinstance(found, (bytes, list)) and isinstance(wanted, (bytes, list)):
        place = next((at for at, (one, other) in enumerate(zip(found, wanted)) if one != other), min(len(found), len(wanted)))
        raise Wrong(f"{what}: from place {place} on {shown(found[place:])} in place of {shown(wanted[place:])}")
    raise Wrong(f"{what}: {shown(found)} in place of {shown(wanted)}")


def cut_of(log: Path) -> Path:
    """The file in which bytes behind the end of a log are kept."""
    return log.with_name(log.name + CUT)


def tail_of(file: bytes) -> bytes:
    """The bytes behind the records of a log, if it is neither sealed nor at rest."""
    try:
        tail = file[read(file).end :]
    except Refused:
        return b""
    return b"" if tail in (SHUT, SEAL) else tail


def tail_at(log: Path) -> bytes:
    """The bytes behind the end of the log at this path, if there is one."""
    return tail_of(log.read_bytes()) if os.path.isfile(log) else b""


def says_cut(log: Path) -> bytes:
    """What standard error says if a log is opened whose end was cut off."""
    return b"batchctl: the bytes behind the end of the log are in %s\n" % str(cut_of(log)).encode()


def over(log: Path) -> list[str]:
    """The words of a script over this log."""
    return ["script", "--log", str(log)]


def without_cut(ended: Ended, log: Path, tail: bytes) -> Ended:
    """How a run ended over a log that had these bytes behind its end, without the words that they are kept, which are true."""
    if not ended.faults.startswith(says_cut(log)):
        want("bytes behind the end of an opened log", tail if ended.status == DONE else b"", b"")
        return ended
    want("the bytes that were kept", cut_of(log).read_bytes(), tail)
    return replace(ended, faults=ended.faults.removeprefix(says_cut(log)))


Words = Sequence[str | bytes | Path]
Limit = Callable[[], None]


@dataclass(frozen=True, eq=False)
class Program:
    """The program at a path, the libraries that are loaded ahead of it, and the variables that these read."""

    path: Path
    libraries: tuple[Path, ...] = ()
    settings: Mapping[str, str] = field(default_factory=dict)

    def under(self, *libraries: Path, **settings: str) -> Program:
        """The program with further libraries behind those that it has, and with these variables."""
        return replace(self, libraries=(*self.libraries, *libraries), settings={**self.settings, **settings})

    def variables(self) -> dict[str, str] | None:
        """Under a library a program has no other variables, so that each run asks for the same."""
        return {"LD_PRELOAD": " ".join(map(str, self.libraries)), **self.settings} if self.libraries else None

    def run(self, words: Words, given: bytes | Path = b"", folder: Path | None = None, limit: Limit | None = None) -> Ended:
        """Runs the program, in a folder, under a limit that is set as the process begins. A pipe gives bytes, as many as it has
        at the moment. A file is read in whole pieces."""
        source, text = (given, None) if isinstance(given, Path) else (Path(os.devnull), given)
        with source.open("rb") as file:
            ended = subprocess.run(
                [self.path, *words],
                stdin=file if text is None else None,
                input=text,
                capture_output=True,
                cwd=folder,
                env=self.variables(),
                preexec_fn=limit,
                timeout=MOST_SECONDS,
                check=False,
            )
        return Ended(ended.returncode, ended.stdout, ended.stderr)

    def script(self, given: bytes) -> Ended:
        return self.run(["script"], given)

    def over(self, log: Path, given: bytes) -> Ended:
        """Runs a script over a log. If its end is cut off, the bytes have to be kept, and standard error says so first."""
        tail = tail_at(log)
        return without_cut(self.run(over(log), given), log, tail)

    def start(
        self, words: Words, source: int = PIPE, sink: int = PIPE, limit: Limit | None = None, room: int = -1
    ) -> subprocess.Popen[bytes]:
        """A program that waits for its lines, by a pipe or from an open file, and tells so. Its pipes have so much room."""
        return subprocess.Popen(
            [self.path, *words], stdin=source, stdout=sink, stderr=PIPE, env=self.variables(), preexec_fn=limit, pipesize=room
        )


def fed(running: subprocess.Popen[bytes], catalogue: bytes, lines: Iterable[bytes], told: list[bytes] | None = None) -> bytes:
    """Sends a catalogue, and each line after the reply to the line before, as long as replies come. Returns all that the
    program told. `told` has each reply as soon as it came. An empty line has none."""
    assert running.stdin and running.stdout
    replies = [] if told is None else told
    with suppress(BrokenPipeError):
        running.stdin.write(catalogue)
        running.stdin.flush()
        for line in lines:
            running.stdin.write(line)
            running.stdin.flush()
            replies.append(b"" if line == b"\n" else running.stdout.readline())
            if line != b"\n" and not replies[-1].endswith(b"\n"):
                break
    with suppress(BrokenPipeError):
        running.stdin.close()
    return b"".join(replies) + running.stdout.read()


def end_of(running: subprocess.Popen[bytes], told: bytes = b"") -> Ended:
    """How a run ends that has told all."""
    assert running.stderr
    with running:
        return Ended(running.wait(), told, running.stderr.read())


def side_by_side(pool: Executor, tasks: Iterable[Callable[[], object]]) -> int:
    """Runs tasks side by side, and returns how many. After one has failed, no other is begun."""
    begun = list[Future[object]]()
    try:
        for task in tasks:
            begun.append(pool.submit(task))
        for done in begun:
            done.result()
    finally:
        for done in begun:
            done.cancel()
        wait(begun)
    return len(begun)


def made_up(folder: Path, text: str) -> Program:
    """A program that was made up for a test of the tests: this script of the shell."""
    path = folder / "program"
    path.write_text(text)
    path.chmod(0o755)
    return Program(path)
