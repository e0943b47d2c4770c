"""A log that was cut or damaged opens with records that it had, or is refused and stays as it was."""

from __future__ import annotations

import random
from collections.abc import Callable, Iterator
from dataclasses import dataclass
from pathlib import Path

from log_trial.log_file import CATALOGUE, HEADER, MAX_BATCH, OPEN, SEAL, Record, Refused, at_rest, is_open, log_of, opened, read
from log_trial.samples import JOB, NIGHTLY, catalogue_of, lines_of_one, path_of
from log_trial.script import lines_of, script_of, want_log
from program import DONE, LOG_REFUSED, Ended, Program, cut_of, want

# How many pairs of bits are flipped anywhere, and how many in one record's gate and columns.
PAIRS = 300
CLOSE = 64


@dataclass(frozen=True)
class Sample:
    """A log whose catalogue has grown between its records, and its last catalogue."""

    records: list[Record]
    given: bytes

    def file(self) -> bytes:
        return log_of(self.records)


def sample_of(program: Program) -> Sample:
    """A log of two job executions, between which the catalogue has grown."""
    first, second = catalogue_of(NIGHTLY), catalogue_of(NIGHTLY, JOB)
    small = script_of(program, "a job execution", first + b"\n" + lines_of(lines_of_one(1)))
    large = script_of(program, "two job executions", second + b"\n" + lines_of([*lines_of_one(1), *lines_of_one(2)]))
    others = large.records[len(small.records) :]
    return Sample([*small.records, Record(CATALOGUE, second), *others], second)


def outcome_of(file: bytes, given: bytes) -> tuple[Ended, bytes]:
    """How a run with no line ends over a file, and the file after it."""
    try:
        return Ended(DONE), opened(file, given)
    except Refused as refused:
        return Ended(LOG_REFUSED, refused.line), file


def check_file(program: Program, what: str, file: bytes, given: bytes, log: Path) -> None:
    """Opens a file, and compares what comes of it with what the format says."""
    log.write_bytes(file)
    wanted, after = outcome_of(file, given)
    want(what, program.over(log, given + b"\n"), wanted)
    want_log(what, log, after)


def check_opening(program: Program, sample: Sample, log: Path) -> None:
    """A sealed log goes on in its file. One at rest is made anew, with the same bytes and permissions. A new log is readable by
    its owner alone."""
    for what, file, goes_on in [("a sealed log", sample.file(), True), ("a log at rest", at_rest(sample.file()), False)]:
        log.write_bytes(file)
        log.chmod(0o640)
        before = log.stat()
        want(what, program.over(log, sample.given + b"\n"), Ended(DONE))
        want_log(what, log, sample.file())
        want(f"{what}: its permissions", log.stat().st_mode, before.st_mode)
        want(f"{what}: the same file", log.stat().st_ino == before.st_ino, goes_on)
    log.unlink()
    want("a new log", program.over(log, sample.given + b"\n"), Ended(DONE))
    want("a new log: its permissions", log.stat().st_mode & 0o777, 0o600)


def check_long_end(program: Program, sample: Sample, log: Path) -> None:
    """A log with more bytes behind its end than one batch can be is damaged, and one with as many is not."""
    file, place = sample.file(), len(sample.file()) - len(SEAL)
    for size, faulty in ((MAX_BATCH, False), (MAX_BATCH + 1, True)):
        log.write_bytes(file + bytes(size))
        damaged = Refused("LogDamaged", record=len(sample.records), byte=place)
        wanted, after = (Ended(LOG_REFUSED, damaged.line), file + bytes(size)) if faulty else (Ended(DONE), file)
        want(f"{size} bytes behind the end", program.over(log, sample.given + b"\n"), wanted)
        want_log(f"{size} bytes behind the end", log, after)
    log.unlink()
    cut_of(log).unlink()


def cuts_of(sample: Sample) -> Iterator[tuple[str, bytes]]:
    """The log, cut behind each of its bytes. It opens with its first records, or is refused."""
    file = sample.file()
    for cut in range(len(file)):
        yield f"cut behind {cut} bytes", file[:cut]


def check_law_of_cuts(sample: Sample, file: bytes) -> None:
    """What is left of a log has its first records, or is refused."""
    try:
        records = read(file).records
    except Refused:
        return
    want("a cut log: records", records, sample.records[: len(records)])


def flipped(file: bytes, *bits: int) -> bytes:
    """The file with these of its bits flipped."""
    changed = bytearray(file)
    for bit in bits:
        changed[bit // 8] ^= 1 << bit % 8
    return bytes(changed)


def single_flips(sample: Sample, draws: random.Random) -> Iterator[tuple[str, bytes]]:
    """The log, with one bit flipped in each of its bytes."""
    file = sample.file()
    for byte in range(len(file)):
        bit = 8 * byte + draws.randrange(8)
        yield f"bit {bit} flipped", flipped(file, bit)


def check_law_of_single_flips(sample: Sample, file: bytes) -> None:
    """A log in which one bit was flipped has the same records, or is refused."""
    try:
        want("one bit flipped: records", read(file).records, sample.records)
    except Refused:
        return


def gates_of(sample: Sample) -> list[int]:
    """The bytes at which the gates stand, that of the end among them."""
    places = [len(HEADER)]
    for record in sample.records:
        places.append(places[-1] + record.size())
    return places


def near_pair(sample: Sample, draws: random.Random) -> tuple[int, int]:
    """Two bits of one record's gate and columns, or of the gate at the end."""
    size = 8 * len(sample.file())
    begin = 8 * draws.choice(gates_of(sample))
    first = begin + draws.randrange(8 * len(OPEN))
    return first, min(begin + draws.randrange(CLOSE * 8), size - 1)


def double_flips(sample: Sample, draws: random.Random) -> Iterator[tuple[str, bytes]]:
    """The log, with two bits flipped: anywhere, and in one record's gate and columns."""
    file = sample.file()
    pairs = [(draws.randrange(8 * len(file)), draws.randrange(8 * len(file))) for _ in range(PAIRS)]
    pairs += [near_pair(sample, draws) for _ in range(PAIRS)]
    for first, second in pairs:
        yield f"bits {first} and {second} flipped", flipped(file, first, second)


def check_law_of_double_flips(sample: Sample, file: bytes) -> None:
    """A log in which two bits were flipped has the same records, or is refused, or ends early: at a gate that both shut."""
    try:
        records = read(file).records
    except Refused:
        return
    shut = [place for place in gates_of(sample)[:-1] if not is_open(file[place : place + 3])]
    count = gates_of(sample).index(shut[0]) if shut else len(sample.records)
    want("two bits flipped: records", records, sample.records[:count])


Law = Callable[[Sample, bytes], None]


def damages_of(sample: Sample, seed: int) -> Iterator[tuple[Law, str, bytes]]:
    """All damages, each with the law that the records of what is left follow."""
    draws = random.Random(seed)
    yield from ((check_law_of_cuts, what, file) for what, file in cuts_of(sample))
    yield from ((check_law_of_single_flips, what, file) for what, file in single_flips(sample, draws))
    yield from ((check_law_of_double_flips, what, file) for what, file in double_flips(sample, draws))


def check_damage(program: Program, sample: Sample, law: Law, what: str, file: bytes, folder: Path) -> None:
    """Opens a damaged log, and compares what comes of it with the format and with the law."""
    law(sample, file)
    check_file(program, what, file, sample.given, path_of(folder))
