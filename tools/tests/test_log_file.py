"""Tests of the reader of logs by which the tests of the program read a log."""

from __future__ import annotations

import pytest

from log_trial.log_file import HEADER, MAX_BATCH, Record, Refused, crc32c, log_of, opened, read
from page_blocks import blocks_in
from repository import ROOT

PAGE = ROOT / "docs" / "DURABILITY.md"


def example() -> bytes:
    """The log that the page shows."""
    (lines,) = [block.lines for block in blocks_in(PAGE.name, PAGE.read_text()) if block.lines[0] == "bctlog2"]
    return "\n".join(lines).encode()


def outcome(file: bytes) -> list[Record] | str:
    """The records of a file, or the name of its fault."""
    try:
        return read(file).records
    except Refused as refused:
        return refused.line.decode().split('"fault":"')[1].split('"')[0]


# CRC-32C, by the examples of RFC 3720 and the usual one.


def test_examples() -> None:
    assert crc32c(b"123456789") == 0xE3069283
    assert crc32c(bytes(32)) == 0x8A9136AA
    assert crc32c(b"\xff" * 32) == 0x62A8AB43
    assert crc32c(bytes(range(32))) == 0x46DD794E


def test_in_two_parts() -> None:
    assert crc32c(b"6789", crc32c(b"12345")) == 0xE3069283


# The log of docs/DURABILITY.md.


def test_its_records_make_its_bytes() -> None:
    contents = read(example())
    assert [record.mark for record in contents.records] == [b"c", b"o", b"o", b"c", b"o"]
    assert log_of(contents.records) == example()
    assert contents.after == example()


def test_one_flipped_bit_loses_nothing() -> None:
    records = read(example()).records
    for bit in range(8 * len(example())):
        changed = bytearray(example())
        changed[bit // 8] ^= 1 << bit % 8
        assert outcome(bytes(changed)) in [records, "LogForeign", "LogLater", "LogDamaged"], bit


def test_a_cut_leaves_a_beginning() -> None:
    records = read(example()).records
    beginnings = [records[:count] for count in range(len(records) + 1)]
    for cut in range(len(example())):
        assert outcome(example()[:cut]) in [*beginnings, "LogForeign", "LogDamaged"], cut


def test_a_record_out_of_place_is_found() -> None:
    blocks = example()[len(HEADER) : -3].splitlines(keepends=True)
    for place, block in enumerate(blocks):
        others = [*blocks[:place], *blocks[place + 1 :]]
        if place + 1 < len(blocks):
            assert outcome(HEADER + b"".join(others) + b"000") == "LogDamaged", place
        doubled = [*blocks[:place], block, *blocks[place:]]
        assert outcome(HEADER + b"".join(doubled) + b"000") == "LogDamaged", place
        for moved in range(len(blocks)):
            if moved != place:
                elsewhere = [*others[:moved], block, *others[moved:]]
                assert outcome(HEADER + b"".join(elsewhere) + b"000") == "LogDamaged", (place, moved)


def test_more_than_a_batch_behind_the_end() -> None:
    assert outcome(example() + bytes(MAX_BATCH)) == read(example()).records
    assert outcome(example() + bytes(MAX_BATCH + 1)) == "LogDamaged"


def test_two_digits_of_a_gate_end_the_log() -> None:
    assert outcome(example().replace(b"111 o", b"100 o", 1)) == read(example()).records[:1]
    assert outcome(example().replace(b"111 o", b"101 o", 1)) == read(example()).records


# A log of the catalogue with one job, and what comes of it.

ONE, TWO = b'{"jobs":[{"id":"a"}]}', b'{"jobs":[{"id":"a"},{"id":"b"}]}'
LOG = log_of([Record(b"c", ONE)])


def test_the_same_is_taken() -> None:
    assert opened(LOG, b' {"jobs": [{"id": "a"}]}') == LOG


def test_more_jobs_are_added() -> None:
    assert opened(LOG, TWO) == log_of([Record(b"c", ONE), Record(b"c", TWO)])


def test_others_are_refused() -> None:
    for given, line in [
        (b'{"jobs":[]}', b'{"fault":"LogOtherCatalogue","job":0}\n'),
        (b'{"jobs":[{"id":"b"},{"id":"a"}]}', b'{"fault":"LogOtherCatalogue","job":0}\n'),
    ]:
        with pytest.raises(Refused) as refused:
            opened(LOG, given)
        assert refused.value.line == line


def test_the_end_is_repaired() -> None:
    assert opened(LOG[:-3] + b"010 111", ONE) == LOG
