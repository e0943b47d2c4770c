"""Texts of which a worker alone knows some parts: the system properties of its environment.

Such a text is a list of its parts, in turn. A part is a text, or `{"systemProperties":NAME}`, or `{"value":T,"default":T}`: its
default counts if its value comes to the empty text. A text without such parts is no list.
"""

from __future__ import annotations

from collections.abc import Iterable, Mapping
from itertools import groupby
from typing import Any

SYSTEM_PROPERTIES = "systemProperties"
VALUE, DEFAULT = "value", "default"

Part = str | dict[str, Any]
Late = str | list[Part]


def system_property(name: str) -> Late:
    return [{SYSTEM_PROPERTIES: name}]


def parts_of(text: Late) -> list[Part]:
    return [text] if isinstance(text, str) else text


def joined(texts: Iterable[Late]) -> Late:
    """All texts in turn as one."""
    parts = [part for text in texts for part in parts_of(text) if part != ""]
    merged = list[Part]()
    for kind, run in groupby(parts, key=type):
        merged += ["".join(map(str, run))] if kind is str else list(run)
    if not merged:
        return ""
    return merged[0] if len(merged) == 1 and isinstance(merged[0], str) else merged


def defaulted(text: Late, default: Late) -> Late:
    """A text, or its default if it is empty. A text that is known in part isn't empty."""
    if isinstance(text, str):
        return text or default
    is_empty = not any(isinstance(part, str) for part in text)
    return [{VALUE: text, DEFAULT: default}] if is_empty else text


def depth(text: Late) -> int:
    """How deep the parts of a text nest."""
    inner = [part for part in text if isinstance(part, dict)] if isinstance(text, list) else []
    return max((1 + max(depth(part.get(VALUE, "")), depth(part.get(DEFAULT, ""))) for part in inner), default=0)


def size(text: Late) -> int:
    """The characters of a text and of its parts."""
    if isinstance(text, str):
        return len(text)
    return sum(len(part) if isinstance(part, str) else 1 + sum(map(size, part.values())) for part in text)


def completed(text: Late, known: Mapping[str, str]) -> str:
    """The whole text. A system property that isn't known is the empty text."""
    if isinstance(text, str):
        return text
    return "".join(part if isinstance(part, str) else _completed_part(part, known) for part in text)


def _completed_part(part: Mapping[str, Any], known: Mapping[str, str]) -> str:
    if SYSTEM_PROPERTIES in part:
        return known.get(part[SYSTEM_PROPERTIES], "")
    return completed(part[VALUE], known) or completed(part[DEFAULT], known)
