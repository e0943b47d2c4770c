"""The file of a log that is compacted: who has it, what it is called, and when there is no room for it."""

from __future__ import annotations

import json
import os
from collections.abc import Iterator
from concurrent.futures import ThreadPoolExecutor
from itertools import chain, permutations
from pathlib import Path

from log_trial.compactions import base_of, compacted, head_of
from log_trial.failures import limit_of
from log_trial.faults import GIVEN, START, STARTED
from log_trial.files import IN_USE, SCRIPT
from log_trial.log_file import log_of, read
from log_trial.samples import path_of
from log_trial.script import want_log
from program import DONE, FAILED, Ended, Program, Wrong, over, want

CALLERS, CALLS = 4, 6
COUNT = GIVEN + b'\n{"ask":"job_instance_count","job":"a"}\n'


def job_of(started: bytes) -> int:
    return int(json.loads(started)["execution"])


def called(program: Program, log: Path) -> int:
    """Starts a job over a log that is compacted first. Whoever finds the log in use tries again."""
    while True:
        ended = compacted(program, log, SCRIPT)
        if ended != IN_USE:
            want("a start behind a compaction", (ended.status, ended.faults), (DONE, b""))
            return job_of(ended.output)


def check_callers(program: Program, log: Path) -> None:
    """Programs that compact one log at once, again and again: each start of each of them is there once."""
    want("a log", program.over(log, SCRIPT), Ended(DONE, STARTED))

    def call(_: int) -> list[int]:
        return [called(program, log) for _ in range(CALLS)]

    with ThreadPoolExecutor(CALLERS) as pool:
        found = [number for numbers in pool.map(call, range(CALLERS)) for number in numbers]
    want("the job executions of all callers", sorted(found), list(range(2, CALLERS * CALLS + 2)))
    head = head_of(base_of(log))
    want("the operations of all callers", head.count + 1, CALLERS * CALLS + 1)


def check_in_use(program: Program, log: Path) -> None:
    """A log that another program has isn't compacted."""
    holder = program.start(over(log))
    assert holder.stdin and holder.stdout
    with holder:
        holder.stdin.write(SCRIPT)
        holder.stdin.flush()
        want("the first of two programs", holder.stdout.readline(), STARTED)
        before = log.read_bytes()
        want("the second of two programs", compacted(program, log, GIVEN + b"\n"), IN_USE)
        want_log("two programs", log, before)
        holder.stdin.close()
        want("the first, after the second", holder.wait(), DONE)


def check_held(program: Program, log: Path) -> None:
    """A log that was compacted by a program that goes on is in use, by its new file."""
    want("a log", program.over(log, SCRIPT), Ended(DONE, STARTED))
    holder = program.start([*over(log), "--compact"])
    assert holder.stdin and holder.stdout
    with holder:
        holder.stdin.write(SCRIPT)
        holder.stdin.flush()
        want("a start behind a compaction", job_of(holder.stdout.readline()), 2)
        want("a log that was compacted", program.over(log, GIVEN + b"\n"), IN_USE)
        holder.stdin.close()
        want("the one that compacted it", holder.wait(), DONE)
    want("its log", program.over(log, COUNT).output, b'{"count":2}\n')


def check_link(program: Program, log: Path) -> None:
    """A link is followed, and stays one. A hard link keeps the file from before."""
    place = path_of(log.parent / "place")
    want("a log", program.over(place, SCRIPT), Ended(DONE, STARTED))
    before = place.read_bytes()
    os.link(place, place.with_name("kept"))
    log.symlink_to(place)
    want("a link", compacted(program, log, GIVEN + b"\n"), Ended(DONE))
    want("a link: it", os.readlink(log), str(place))
    want("a link: the log behind it", head_of(base_of(place)).count, 1)
    want("a hard link", place.with_name("kept").read_bytes(), before)
    want("a link: files", sorted(path.name for path in place.parent.iterdir()), ["kept", place.name])


def check_no_room(program: Program, log: Path) -> None:
    """Without room for the new file the log stays as it was, and nothing is answered."""
    want("a log", program.over(log, SCRIPT), Ended(DONE, STARTED))
    before = log.read_bytes()
    want("a compacted log", compacted(program, log, GIVEN + b"\n"), Ended(DONE))
    size = log.stat().st_size
    for most in range(0, size, 7):
        log.write_bytes(before)
        ended = program.run([*over(log), "--compact"], GIVEN + b"\n" + START + b"\n", limit=limit_of(most))
        want(f"at most {most} bytes", ended, FAILED)
        want(f"at most {most} bytes: the log", log.read_bytes(), before)
        log.with_name(f"{log.name}.new").unlink(missing_ok=True)


def check_no_operations(program: Program, log: Path) -> None:
    """A log without operations, and one that there wasn't: their bases count none."""
    for what in ("no log", "a log without operations"):
        want(what, compacted(program, log, GIVEN + b"\n"), Ended(DONE))
        records = read(log.read_bytes()).records
        want_log(what, log, log_of(records))
        if len(records) > 2:
            raise Wrong(f"{what}: {records}")
    want("the next run", program.over(log, SCRIPT), Ended(DONE, STARTED))


def words_of(log: Path) -> Iterator[list[str]]:
    """The words that ask for a compaction: of a log without tags, and of one with them."""
    for named in (["--log", str(log)], [f"--log={log}"]):
        yield ["script", *named, "--compact"]
        yield ["script", "--compact", *named]
        for order in permutations([named, ["--compact"], ["--tags"]]):
            yield ["script", *chain.from_iterable(order)]


def check_words(program: Program, log: Path) -> None:
    """Words of the command line that ask for a compaction. Tags behind the base stay, those before it go."""
    for words in words_of(log):
        tag = b"key\t" if "--tags" in words else b""
        log.unlink(missing_ok=True)
        given = GIVEN + b"\n" + tag + START + b"\n"
        want(f"{words}", program.run(words, given), Ended(DONE, STARTED))
        want(f"{words}, again", program.run(words, given), Ended(DONE, STARTED.replace(b"1", b"2")))
        want(f"{words}: the base", head_of(base_of(log)).count, 1)
        want(f"{words}: the tag", read(log.read_bytes()).records[-1].line, tag + START)


TRIALS = [check_words, check_callers, check_in_use, check_held, check_link, check_no_room, check_no_operations]
