"""The lines of an archive: each is a JSON object, and its last member is a check of all before it."""

from __future__ import annotations

import hashlib
import json
from collections.abc import Mapping
from typing import Any

CHECK_CHARACTERS = 16
HEAD_OF_CHECK = b',"check":"'
TAIL_OF_CHECK = b'"}\n'
CHECK_BYTES = len(HEAD_OF_CHECK) + CHECK_CHARACTERS + len(TAIL_OF_CHECK)


def check_of(text: bytes) -> bytes:
    return hashlib.sha256(text).hexdigest()[:CHECK_CHARACTERS].encode()


def written(record: Mapping[str, Any]) -> bytes:
    """A record, which has a member at least, as a line with its check and its line feed."""
    text = json.dumps(record, ensure_ascii=True, allow_nan=False, separators=(",", ":")).encode("ascii")[:-1]
    return text + HEAD_OF_CHECK + check_of(text) + TAIL_OF_CHECK


def read_line(line: bytes) -> dict[str, Any] | None:
    """The record of a line. None if the line is cut off or damaged."""
    text, tail = line[:-CHECK_BYTES], line[-CHECK_BYTES:]
    if tail != HEAD_OF_CHECK + check_of(text) + TAIL_OF_CHECK:
        return None
    try:
        record = json.loads(line)
    except ValueError:
        return None
    return record if isinstance(record, dict) else None
