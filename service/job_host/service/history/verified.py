"""Verifies a folder of `jobhost serve --chain`: batchctl replays a copy of its log, and the chain is computed anew."""

from __future__ import annotations

import json
import shutil
import subprocess
import time
from collections.abc import Sequence
from itertools import chain
from pathlib import Path
from typing import NamedTuple

from job_host.service.history import log_file
from job_host.service.history.chain import CHAIN_NAME, NO_BASE, ChainDamaged, KeptChain, read_chain, rebased
from job_host.service.history.chain_compared import Seen, compare, hash_in, span

# batchctl's exit status if it refuses the log.
REFUSED_LOG = 7
SHOWN_CHARACTERS = 500
# A service that runs has chained an operation so long after it is in the log.
CHAINED_SECONDS, PAUSE_SECONDS = 2.0, 0.05


class CannotVerify(Exception):
    """It can't be told whether the log is as it was. The text says why."""


class Head(NamedTuple):
    """The head of a chain that was kept elsewhere."""

    number: int
    hash: str


class Verified(NamedTuple):
    """What was found: differences, the first operation's first, and what can be told besides."""

    differences: list[str]
    told: list[str]


def verify(folder: Path, log_name: str, batchctl: Sequence[str], head: Head | None, scratch: Path) -> Verified:
    """Verifies a folder by a copy of its log, which is made in a scratch folder. Raises CannotVerify, or OSError."""
    kept = chain_of(folder)
    copy = scratch / log_name
    shutil.copyfile(folder / log_name, copy)
    later = chain_behind(folder, last_in(copy))
    if later.start != kept.start:
        raise CannotVerify("the log was compacted meanwhile: verify it again")
    # The program may cut off what a crash left behind the end. So the chain is compared before.
    differences, told = compared(copy, kept, later, head)
    refusal = replayed(copy, batchctl)
    found = [(number, text) for number, text in (*differences, *refusal) if text]
    return Verified([text for _, text in sorted(found, key=lambda one: one[0])], told)


def chain_of(folder: Path) -> KeptChain:
    try:
        kept = read_chain(folder / CHAIN_NAME)
    except ChainDamaged as fault:
        raise CannotVerify(str(fault)) from fault
    if kept is None:
        raise CannotVerify(f"{folder / CHAIN_NAME} isn't there: no chain was kept (--chain of `jobhost serve`)")
    return kept


def last_in(copy: Path) -> int:
    """The number of the last operation of a log."""
    base = log_file.known_base(copy)
    return (0 if base is None else base.head.operations) + sum(map(len, log_file.operations(copy)))


def chain_behind(folder: Path, number: int) -> KeptChain:
    """The chain of a folder after it has come to an operation, or after a service would have brought it there."""
    deadline = time.monotonic() + CHAINED_SECONDS
    while (kept := chain_of(folder)).last < number and time.monotonic() < deadline:
        time.sleep(PAUSE_SECONDS)
    return kept


Found = list[tuple[int, str]]


def compared(copy: Path, kept: KeptChain, later: KeptChain, head: Head | None) -> tuple[Found, list[str]]:
    """Where the log differs from its chain and from a head that was kept, each with the operation; and what is told besides.

    The copy was made between the two times at which the chain was read.
    """
    base = log_file.known_base(copy)
    number, digest = (0, NO_BASE) if base is None else (base.head.operations, base.digest)
    begun, kept_from = kept.start.number, rebased(kept, number, digest)
    if kept_from is None:
        told = f"the log has a base behind operation {number}, and the chain begins behind operation {begun}, with other rows,"
        return [(0, f"{told} or ends before")], []
    kept = kept_from
    seen = compare(copy, kept)
    if seen.told:
        return [(seen.differs_at, seen.told)], []
    found: Found = []
    if seen.number > later.last:
        found.append((later.last + 1, f"{stand(later.last + 1, seen.number)} behind the end of the chain"))
    if head is not None:
        found += at_head(copy, kept, seen.number, head)
    return found, told_of(kept, seen, number == begun)


def told_of(kept: KeptChain, seen: Seen, is_covered: bool) -> list[str]:
    """What is told of a log that is as its chain has it. A crash may have come before the chain covered the base."""
    count = seen.number - kept.start.number
    hash = seen.hash if count else kept.start.hash
    told = [f"{count} operations up to {seen.number} are as the chain has them: the head is {seen.number}:{hash.hex()}"]
    if kept.start.digest != NO_BASE:
        rows = "has the rows with which the chain goes on" if is_covered else "has rows that the chain doesn't cover yet"
        told.append(f"the base behind operation {kept.start.number} {rows}")
    return told


def stand(first: int, last: int) -> str:
    return f"operation {first} stands" if first == last else f"operations {first} to {last} stand"


def at_head(copy: Path, kept: KeptChain, last: int, head: Head) -> Found:
    """What differs from a head that was kept elsewhere. Raises CannotVerify if it is from before the base."""
    if head.number < kept.start.number:
        raise CannotVerify(
            f"the head is of operation {head.number}, and the log begins behind operation {kept.start.number}: "
            "a log from before that compaction is needed"
        )
    if head.number > last:
        return [(last + 1, f"{span(last + 1, head.number)} dropped: the log and its chain end before the head")]
    hash = hash_in(copy, kept, head.number)
    if hash is not None and hash.hex() == head.hash:
        return []
    return [(head.number, f"operation {head.number} has another hash than the head: one up to it was changed, with the chain")]


def replayed(copy: Path, batchctl: Sequence[str]) -> Found:
    """What the proved program refuses of a log, with the operation. It checks the records, and answers each operation anew."""
    record_of = log_file.catalogue_of(copy)
    if record_of is None:
        raise CannotVerify(f"{copy.name} has no catalogue")
    words = [*batchctl, "script", "--log", str(copy), "--tags"]
    texts = list(chain.from_iterable(log_file.texts(copy)))
    try:
        done = subprocess.run(words, input=record_of + b"\n", capture_output=True, check=False)
    except OSError as fault:
        raise CannotVerify(f"there is no program {batchctl[0]}: {fault}") from fault
    if done.returncode == 0:
        return []
    said = (done.stdout or done.stderr).decode("utf-8", "replace").strip()[:SHOWN_CHARACTERS]
    if done.returncode != REFUSED_LOG:
        raise CannotVerify(f"batchctl ended with status {done.returncode}: {said}")
    record = json.loads(done.stdout).get("record")
    if record is None:
        return [(0, f"batchctl refuses the log: {said}")]
    base = log_file.known_base(copy)
    before = sum(text[log_file.MARK] == log_file.OPERATION for text in texts[:record])
    number = (0 if base is None else base.head.operations) + before + 1
    return [(number, f"batchctl refuses the log at operation {number}: {said}")]
