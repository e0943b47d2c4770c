"""The tags of a log's lines: what is written is read again, and a line that is kept is parted as it was put together."""

from __future__ import annotations

import base64

import pytest

from job_host.protocol.lines import fingerprint
from job_host.service.history.tags import MOST_BYTES, TAB, Tag, parted, read_tag
from job_host.service.http.access import NAME_BYTES, is_name
from job_host.service.settings import Bounds

DIGEST = fingerprint("a request")
LONGEST = ":".join(["ffff"] * 8)
HISTORY = "0123456789abcdef" * 2
LINE = b'{"do":"claim","by":2,"at":3}'
TAGS = [
    Tag("one"),
    Tag("token/one", history=HISTORY),
    Tag("one", "key", DIGEST),
    Tag("one", "@key", DIGEST, is_once=True),
    Tag("one", "{key\\", DIGEST, history=HISTORY),
    Tag("one", "once", DIGEST, True, HISTORY),
    Tag("", history=HISTORY),
    Tag("token/one", address="127.0.0.1"),
    Tag("one", history=HISTORY, address=LONGEST),
    Tag("one", "=key", DIGEST, address="::1"),
    Tag("one", "@key", DIGEST, True, HISTORY, "10.0.0.1"),
]


@pytest.mark.parametrize("tag", TAGS)
def test_a_tag_is_read_as_it_was_written(tag: Tag) -> None:
    text = tag.written() + TAB + LINE
    assert parted(text) == (tag.written(), LINE)
    assert read_tag(tag.written()) == tag


def test_the_longest_names_and_keys_fit() -> None:
    bounds = Bounds()
    name, key = "n" * NAME_BYTES + "/" + "c" * bounds.name_bytes, "k" * bounds.key_bytes
    assert is_name("n" * NAME_BYTES) and not is_name("n" * (NAME_BYTES + 1)) and not is_name("/")
    assert len(Tag(name, key, DIGEST, True, HISTORY, LONGEST).written()) <= MOST_BYTES


def test_tags_are_written_so() -> None:
    """As logs have them: a log of an earlier version, whose tags have no address, is read by the first form."""
    assert Tag("one", "key", DIGEST, True).written() == b"one key " + DIGEST.hex().encode() + b" once"
    letters = base64.urlsafe_b64encode(DIGEST).rstrip(b"=")
    second = b"one key %b once =::1 @%b" % (letters, HISTORY.encode())
    assert Tag("one", "key", DIGEST, True, HISTORY, "::1").written() == second


# A fingerprint of one form with or without the other's address, one that is too short, and one that isn't written so.
MIXED = [
    b"one key %b =::1" % DIGEST.hex().encode(),
    b"one key %b" % base64.urlsafe_b64encode(DIGEST).rstrip(b"="),
    b"one key QUJD =::1",
    b"one key %b =::1" % base64.urlsafe_b64encode(DIGEST),
]


NO_TAGS = [b"", b"one key", b"one key digest", b"one key 00 once more @1 2", b"\xff", b"one key 0", *MIXED]


@pytest.mark.parametrize("text", NO_TAGS)
def test_what_no_service_wrote_is_no_tag(text: bytes) -> None:
    assert read_tag(text) is None


def test_a_line_without_a_tag_is_whole() -> None:
    assert parted(LINE) == (b"", LINE)
    assert parted(b'{"do":\t"claim"}') == (b"", b'{"do":\t"claim"}')
