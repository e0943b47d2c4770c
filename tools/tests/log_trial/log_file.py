"""The file of a log, as docs/DURABILITY.md describes it: what it has, and how it is written."""

from __future__ import annotations

import json
import re
from collections.abc import Iterable
from dataclasses import dataclass

HEADER = b"bctlog2\n"
OPEN, SHUT, SEAL = b"111", b"000", b"sss"
CATALOGUE, BASE, OPERATION = b"c", b"b", b"o"
# A crash leaves no more bytes than these after a gate that is not open.
MAX_BATCH = 2**25 + 128
# Behind the gate: the mark, the length twice, the number, the check of the record and the check of the reply.
COLUMNS = re.compile(rb" (.) " + 5 * rb"([0-9a-f]{8}) ", re.DOTALL)
# Castagnoli's polynomial, a bit a power, that of x^31 in the lowest bit.
POLYNOMIAL = 0x82F63B78
ALL_ONES = 0xFFFFFFFF


def shifted_out(state: int) -> int:
    """The state after its lowest eight bits were shifted out."""
    for _ in range(8):
        state = state >> 1 ^ (POLYNOMIAL if state & 1 else 0)
    return state


TABLE = [shifted_out(byte) for byte in range(256)]


def crc32c(data: bytes, check: int = 0) -> int:
    """The check CRC-32C of some bytes, begun from that of the bytes before them."""
    state = check ^ ALL_ONES
    for byte in data:
        state = state >> 8 ^ TABLE[(state ^ byte) & 0xFF]
    return state ^ ALL_ONES


class Refused(Exception):
    """A log that is refused, with the line of its fault."""

    def __init__(self, fault: str, **members: int) -> None:
        named: dict[str, object] = {"fault": fault, **members}
        self.line = json.dumps(named, separators=(",", ":"), sort_keys=True).encode() + b"\n"
        super().__init__(self.line.decode())


@dataclass(frozen=True)
class Link:
    """The link of a record to those before it: its number, modulo 2^32, and the check of the record before it."""

    number: int
    check: int


FIRST_LINK = Link(0, crc32c(HEADER))


@dataclass(frozen=True)
class Record:
    """A record: its mark, its line, and the check of the reply to that line."""

    mark: bytes
    line: bytes
    reply_check: int = 0

    def check(self, link: Link) -> int:
        return crc32c(self.mark + b"%08x" % self.reply_check + self.line, link.check)

    def link(self, link: Link) -> Link:
        """Its link to the next record."""
        return Link((link.number + 1) % 2**32, self.check(link))

    def block(self, link: Link) -> bytes:
        """The record behind an open gate."""
        numbers = (len(self.line), len(self.line), link.number, self.check(link), self.reply_check)
        return OPEN + b" " + self.mark + b"".join(b" %08x" % number for number in numbers) + b" " + self.line + b"\n"

    def size(self) -> int:
        """How many bytes it takes, with its gate."""
        return len(self.block(FIRST_LINK))


def catalogue_record(line: bytes) -> Record:
    return Record(CATALOGUE, line)


def base_record(line: bytes) -> Record:
    return Record(BASE, line)


def operation_record(line: bytes, reply: bytes) -> Record:
    return Record(OPERATION, line, crc32c(reply))


def link_behind(records: Iterable[Record], link: Link = FIRST_LINK) -> Link:
    """The link of these records to the next."""
    for record in records:
        link = record.link(link)
    return link


def blocks_of(records: Iterable[Record], link: Link = FIRST_LINK) -> bytes:
    """The bytes of records, which follow others with this link."""
    blocks = []
    for record in records:
        blocks.append(record.block(link))
        link = record.link(link)
    return b"".join(blocks)


def log_of(records: Iterable[Record]) -> bytes:
    """The bytes of a log with these records whose run ended well: it is sealed."""
    return HEADER + blocks_of(records) + SEAL


def at_rest(log: bytes) -> bytes:
    """The same log before its run ended, or after a crash."""
    return log.removesuffix(SEAL) + SHUT


@dataclass(frozen=True)
class Contents:
    """The records of a file, the byte at which they end, and the bytes that the file has after a run that ended well."""

    records: list[Record]
    end: int
    after: bytes


def is_open(gate: bytes) -> bool:
    return gate.count(b"1") >= 2


def record_at(file: bytes, place: int, link: Link) -> Record | None:
    """The record whose open gate stands at this byte, if it is whole, and follows others with this link."""
    columns = COLUMNS.match(file, place + len(OPEN))
    if columns is None:
        return None
    mark, (size, again, number, check, reply_check) = columns[1], (int(column, 16) for column in columns.groups()[1:])
    line, feed = file[columns.end() : columns.end() + size], file[columns.end() + size : columns.end() + size + 1]
    record = Record(mark, line, reply_check)
    return record if (size, number, feed, record.check(link)) == (again, link.number, b"\n", check) else None


def check_header(file: bytes) -> None:
    """Version 1 had no release, so its files are no logs."""
    header = file[: len(HEADER)]
    if header[:6] + header[7:] != b"bctlog\n" or header[6:7] == b"1":
        raise Refused("LogForeign")
    if header != HEADER:
        raise Refused("LogLater")


def read(file: bytes) -> Contents:
    """The records up to the first gate that is not open. An open gate with nothing behind it is none."""
    check_header(file)
    records, place, link = list[Record](), len(HEADER), FIRST_LINK
    while is_open(file[place : place + 3]) and place + 3 < len(file):
        record = record_at(file, place, link)
        if record is None:
            raise Refused("LogDamaged", record=len(records), byte=place)
        records.append(record)
        place += len(record.block(link))
        link = record.link(link)
    if len(file) > place + 3 + MAX_BATCH:
        raise Refused("LogDamaged", record=len(records), byte=place)
    return Contents(records, place, file[:place] + SEAL)


def jobs_of(line: bytes) -> list[object]:
    """The jobs of a catalogue's line."""
    jobs: list[object] = json.loads(line)["jobs"]
    return jobs


def with_given(contents: Contents, given: bytes) -> list[Record]:
    """The records after a log was opened with this catalogue: one more if the catalogue has grown."""
    if not contents.records or contents.records[0].mark != CATALOGUE:
        raise Refused("LogForeign")
    last = [record.line for record in contents.records if record.mark == CATALOGUE][-1]
    kept, jobs = jobs_of(last), jobs_of(given)
    others = [number for number, job in enumerate(kept) if jobs[number : number + 1] != [job]]
    if others:
        raise Refused("LogOtherCatalogue", job=others[0])
    return contents.records + [catalogue_record(given)] * (len(kept) < len(jobs))


def opened(file: bytes, given: bytes) -> bytes:
    """The bytes that a file has after a run with this catalogue and no line, if each of its own lines is answered as it was."""
    contents = read(file)
    added = with_given(contents, given)[len(contents.records) :]
    return contents.after[: contents.end] + blocks_of(added, link_behind(contents.records)) + SEAL
