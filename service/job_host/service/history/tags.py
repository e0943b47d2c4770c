"""The tags of a log's lines: whose a call is, from where it came, and by which request key it was made.

A tag is words with a space between: the client's name, which begins with that of its token; if there is a request key, that,
the request's fingerprint, and `once` if the key is for all clients; the remote address; and ahead of a history's first
operation its identity. A line has its tag and a tab ahead of it. One that begins with a brace has no tag.

There are two forms, and a log may have both. The first has no address, and its fingerprints are hexadecimal digits. The second
has one, and its fingerprints are in base64, so that the longest tag fits. The word of the address tells which form it is.
"""

from __future__ import annotations

import base64
from collections.abc import Sequence
from dataclasses import dataclass

TAB = b"\t"
BRACE = b"{"
ONCE = "once"
# Ahead of an identity.
AT = "@"
# Ahead of a remote address. No fingerprint begins so, in either form.
FROM = "="
# A fingerprint of the second form, without what would fill it up.
FINGERPRINT_LETTERS = 43
# batchctl takes no longer tag.
MOST_BYTES = 512


@dataclass(frozen=True)
class Tag:
    """Whose a call is, by which request key it was made, if it has one, which history it may begin, and from where it came."""

    client: str
    key: str | None = None
    fingerprint: bytes = b""
    is_once: bool = False
    history: str = ""
    address: str = ""

    def written(self) -> bytes:
        words = [self.client]
        if self.key is not None:
            digest = short(self.fingerprint) if self.address else self.fingerprint.hex()
            words += [self.key, digest, *([ONCE] if self.is_once else [])]
        if self.address:
            words.append(FROM + self.address)
        if self.history:
            words.append(AT + self.history)
        return " ".join(words).encode("ascii")


def short(fingerprint: bytes) -> str:
    """A fingerprint in the second form."""
    return base64.urlsafe_b64encode(fingerprint).decode("ascii").rstrip("=")


def fingerprint_of(digest: str, has_address: bool) -> bytes:
    """A fingerprint as it was written in one of the forms. Raises ValueError if it wasn't."""
    if not has_address:
        return bytes.fromhex(digest)
    found = base64.b64decode(digest + "=", altchars=b"-_", validate=True)
    if len(digest) != FINGERPRINT_LETTERS or short(found) != digest:
        raise ValueError("no fingerprint")
    return found


def taken(words: list[str], mark: str) -> str:
    """Takes the last word away if it has this mark, and gives what stands behind the mark. No fingerprint has one."""
    return words.pop()[len(mark) :] if words and words[-1].startswith(mark) else ""


def read_tag(text: bytes) -> Tag | None:
    """The tag of a line. None if it has none, or one that no service wrote."""
    try:
        client, *words = text.decode("ascii").split(" ")
        history, address = taken(words, AT), taken(words, FROM)
        if not words:
            return Tag(client, history=history, address=address) if client or history else None
        key, digest, *rest = words
        fingerprint = fingerprint_of(digest, bool(address))
        return Tag(client, key, fingerprint, rest == [ONCE], history, address) if rest in ([], [ONCE]) else None
    except ValueError:
        return None


def parted(text: bytes) -> tuple[bytes, bytes]:
    """The tag and the line of what a log has kept."""
    if text.startswith(BRACE):
        return b"", text
    tag, _, line = text.partition(TAB)
    return tag, line


def lines_of(kept: Sequence[bytes]) -> list[bytes]:
    """The lines of what a log has kept, without their tags."""
    return [text if text.startswith(BRACE) else text.partition(TAB)[2] for text in kept]
