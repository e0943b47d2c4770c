"""The lines of `batchctl script`: how commands and queries are written, and what a reply says of itself."""

from __future__ import annotations

import hashlib
import json
from collections.abc import Mapping, Sequence
from typing import Any

Members = Mapping[str, Any]

# `json.dumps` makes an encoder anew for each text that isn't written as usual.
COMPACT = json.JSONEncoder(ensure_ascii=True, allow_nan=False, separators=(",", ":"))
SORTED = json.JSONEncoder(sort_keys=True)


def compact(members: Members) -> bytes:
    """One object as one line of ASCII, without its line feed. Raises ValueError if it holds NaN or an infinity."""
    return COMPACT.encode(members).encode("ascii")


def command_members(do: str, session: int, moment: int, members: Members) -> dict[str, Any]:
    """The members of a command of a session at a moment. Its own members can't replace those three."""
    head = {"do": do, "by": session, "at": moment}
    return {**head, **members, **head}


def command(do: str, session: int, moment: int, members: Members) -> bytes:
    """A command of a session at a moment, as a line."""
    return compact(command_members(do, session, moment, members))


def query(ask: str, **members: Any) -> bytes:
    return compact({"ask": ask, **members})


def fingerprint(*parts: Any) -> bytes:
    """A digest of a request, by which a request key that is used for another request is noticed."""
    return hashlib.sha256(SORTED.encode(parts).encode("ascii")).digest()


def digest(line: bytes) -> str:
    """A digest of a line that is kept, by which it is known again."""
    return hashlib.sha256(line).hexdigest()


def read(line: bytes | str) -> dict[str, Any]:
    """A reply, or a line that the service wrote."""
    value = json.loads(line)
    if not isinstance(value, dict):
        raise ValueError("no object")
    return value


class LinesDigest:
    """A digest of lines, one behind the other. However they are divided, it is the same."""

    def __init__(self) -> None:
        self._digest = hashlib.sha256()

    def add(self, lines: Sequence[bytes]) -> None:
        self._digest.update(b"".join(line + b"\n" for line in lines))

    def value(self) -> str:
        return self._digest.hexdigest()


def is_accepted(reply: bytes) -> bool:
    """Whether a command with this reply was entered in the history."""
    return not reply.startswith((b'{"refused":', b'{"nothing":', b'{"fault":'))


def refusal_of(reply: Mapping[str, Any]) -> str | None:
    name = reply.get("refused")
    return name if isinstance(name, str) else None
