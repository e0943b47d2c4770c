"""The text of a catalogue: its one line for a pipe, and its values with their places.

`batchctl` decides whether a line is JSON. What is read here says where the fault of a file stands, and in which words.
"""

from __future__ import annotations

import json
import math
import re
from bisect import bisect_right
from dataclasses import dataclass, field
from typing import Any

from job_host.protocol.bounds import MOST_NUMBER

MOST_NESTED = 127
MOST_LINE_BYTES = 16_777_216
QUOTED = 48
WIDTH = 128

TEXT_OR_SPACE = re.compile(rb'"[^"\\]*(?:\\.[^"\\]*)*(?:"|\\?\Z)|[ \t\r\n]+', re.DOTALL)
PUNCTUATION = frozenset(b'{}[],:"')
SPACE = re.compile(r"[ \t\r\n]*")
NUMBER = re.compile(r"-?(?:0|[1-9][0-9]*)(?:\.[0-9]+)?(?:[eE][+-]?[0-9]+)?")
LINE_END = re.compile(r"\r\n|\n|\r")
WHOLE = re.compile(r"[0-9]+")
PLAIN = re.compile(r'[^"\\\x00-\x1f]*')
UNIT = re.compile(r"\\u([0-9A-Fa-f]{4})")
WORD = re.compile(r'[A-Za-z_]+|//|/\*|"[^"\n]*"?|.', re.DOTALL)
ESCAPES = {'"': '"', "\\": "\\", "/": "/", "b": "\b", "f": "\f", "n": "\n", "r": "\r", "t": "\t"}
LITERALS = {"true": True, "false": False, "null": None}
OTHER_SPELLINGS = {"True": "true", "False": "false", "None": "null", "TRUE": "true", "FALSE": "false", "NULL": "null"}
BYTE_ORDER_MARK = "\ufeff"


def one_line(data: bytes) -> bytes:
    """The same tokens in one line: white space goes, and nothing else is written anew.

    A blank stays between two tokens that would be one without it. A line feed in a text, which JSON doesn't allow, is written
    as a carriage return, which it allows as little.
    """

    def shortened(found: re.Match[bytes]) -> bytes:
        token = found[0]
        if token.startswith(b'"'):
            return token.replace(b"\n", b"\r")
        is_edge = found.start() == 0 or found.end() == len(data)
        is_apart = is_edge or data[found.start() - 1] in PUNCTUATION or data[found.end()] in PUNCTUATION
        return b"" if is_apart else b" "

    return TEXT_OR_SPACE.sub(shortened, data)


@dataclass(frozen=True, slots=True)
class Member:
    """A member of an object: where its name stands, and its value."""

    at: int
    value: Value


@dataclass(slots=True)
class Members:
    """The members of an object, of which the last of each name counts. `repeated` has the names and places of the others."""

    named: dict[str, Member] = field(default_factory=dict)
    repeated: list[tuple[str, int]] = field(default_factory=list)

    def put(self, name: str, at: int, value: Value) -> None:
        if name in self.named:
            self.repeated.append((name, self.named[name].at))
        self.named[name] = Member(at, value)


@dataclass(frozen=True, slots=True)
class Value:
    """A value, and where it stands in its file: from `at` to `end`. A number that is not whole, or has a sign, is a float."""

    at: int
    end: int
    held: str | int | float | bool | None | list[Value] | Members

    @property
    def members(self) -> dict[str, Member]:
        """The members of an object; of any other value none."""
        return self.held.named if isinstance(self.held, Members) else {}

    @property
    def items(self) -> list[Value]:
        """The items of a list; of any other value none."""
        return self.held if isinstance(self.held, list) else []

    def text(self, name: str) -> str | None:
        """The text that a member is, if it is one."""
        member = self.members.get(name)
        return member.value.held if member is not None and isinstance(member.value.held, str) else None


def plain(value: Value) -> Any:
    """The value without its places."""
    if isinstance(value.held, Members):
        return {name: plain(member.value) for name, member in value.held.named.items()}
    if isinstance(value.held, list):
        return [plain(item) for item in value.held]
    return value.held


def laid_out(value: Any, indent: int = 0) -> str:
    """JSON for people: what fits in a line stands in one."""
    line = json.dumps(value, ensure_ascii=False)
    if indent + len(line) <= WIDTH or not isinstance(value, (dict, list)):
        return line
    inner = [laid_out(item, indent + 2) for item in (value.values() if isinstance(value, dict) else value)]
    if isinstance(value, dict):
        inner = [f"{json.dumps(name, ensure_ascii=False)}: {text}" for name, text in zip(value, inner)]
    space = "\n" + " " * indent
    begin, end = ("{", "}") if isinstance(value, dict) else ("[", "]")
    return begin + space + "  " + f",{space}  ".join(inner) + space + end


@dataclass(frozen=True)
class Place:
    """Lines and columns count from 1, and a column is a character."""

    line: int
    column: int

    def __str__(self) -> str:
        return f"{self.line}:{self.column}"


class Source:
    """A file's name and its text."""

    def __init__(self, name: str, text: str) -> None:
        self.name = name
        self.text = text
        self._begins = [0, *(found.end() for found in LINE_END.finditer(text))]

    def place(self, at: int) -> Place:
        line = bisect_right(self._begins, at)
        return Place(line, at - self._begins[line - 1] + 1)

    def offset(self, line: int, column: int) -> int:
        """Where a place stands, its column counted from 0."""
        return self._begins[min(line, len(self._begins)) - 1] + column

    def quote(self, value: Value) -> str:
        """What stands in the file, in one short line."""
        told = " ".join(self.text[value.at : min(value.end, value.at + QUOTED)].split())
        return told if value.end <= value.at + QUOTED else told + " .."


class NotJson(Exception):
    """The text is not one JSON value."""

    def __init__(self, at: int, expected: str, found: str, likely: str = "") -> None:
        super().__init__(expected)
        self.at, self.expected, self.found, self.likely = at, expected, found, likely


def decoded(data: bytes) -> tuple[str, NotJson | None]:
    """The text of a file; of one that is not UTF-8 as much of it as can be read, and the fault."""
    try:
        return data.decode("utf-8"), None
    except UnicodeDecodeError as fault:
        before = data[: fault.start].decode("utf-8")
        told = NotJson(len(before), "UTF-8", f"the byte 0x{data[fault.start]:02x}")
        return data.decode("utf-8", "replace"), told


class Reader:
    """Reads one JSON value, and keeps where each part of it stands."""

    def __init__(self, text: str) -> None:
        self.text = text

    def read(self) -> Value:
        """The whole text as one value. Raises NotJson."""
        if self.text.startswith(BYTE_ORDER_MARK):
            raise NotJson(0, "a file without a byte order mark", "one")
        value = self.value(self.past_space(0), 0)
        end = self.past_space(value.end)
        if end < len(self.text):
            raise NotJson(end, "the end of the file", self.found(end))
        return value

    def past_space(self, at: int) -> int:
        found = SPACE.match(self.text, at)
        return found.end() if found else at

    def found(self, at: int) -> str:
        """What stands there: a word, a comment or a character."""
        found = WORD.match(self.text, at)
        return f"`{found[0][:QUOTED]}`" if found else "the end of the file"

    def value(self, at: int, depth: int) -> Value:
        begin = self.text[at : at + 1]
        if begin and begin in "{[":
            if depth == MOST_NESTED:
                raise NotJson(at, f"lists and objects nested {MOST_NESTED} deep at most", "one more")
            return self.object(at, depth + 1) if begin == "{" else self.list(at, depth + 1)
        if begin == '"':
            text, end = self.string(at)
            return Value(at, end, text)
        return self.number_or_literal(at)

    def object(self, at: int, depth: int) -> Value:
        members = Members()
        end = self.past_space(at + 1)
        if self.text[end : end + 1] == "}":
            return Value(at, end + 1, members)
        while True:
            name, value = self.member(end, depth)
            members.put(name, end, value)
            closing = self.past_space(value.end)
            end = self.past_comma(closing, "}")
            if end == closing:
                return Value(at, end + 1, members)

    def member(self, at: int, depth: int) -> tuple[str, Value]:
        if self.text[at : at + 1] != '"':
            raise NotJson(at, "a member's name between quotation marks", self.found(at))
        name, after = self.string(at)
        colon = self.past_space(after)
        if self.text[colon : colon + 1] != ":":
            raise NotJson(colon, "`:`", self.found(colon))
        return name, self.value(self.past_space(colon + 1), depth)

    def list(self, at: int, depth: int) -> Value:
        items: list[Value] = []
        end = self.past_space(at + 1)
        if self.text[end : end + 1] == "]":
            return Value(at, end + 1, items)
        while True:
            items.append(self.value(end, depth))
            closing = self.past_space(items[-1].end)
            end = self.past_comma(closing, "]")
            if end == closing:
                return Value(at, end + 1, items)

    def past_comma(self, at: int, closing: str) -> int:
        """Where the next member or item begins, or the closing bracket stands."""
        if self.text[at : at + 1] == closing:
            return at
        if self.text[at : at + 1] != ",":
            raise NotJson(at, f"`,` or `{closing}`", self.found(at))
        after = self.past_space(at + 1)
        if self.text[after : after + 1] == closing:
            raise NotJson(at, f"no comma in front of `{closing}`", "`,`")
        return after

    def number_or_literal(self, at: int) -> Value:
        number = NUMBER.match(self.text, at)
        if number is not None:
            return Value(at, number.end(), self.number(at, number[0]))
        found = WORD.match(self.text, at)
        word = found[0] if found else ""
        if word in LITERALS:
            return Value(at, at + len(word), LITERALS[word])
        raise NotJson(at, "a value", self.found(at), OTHER_SPELLINGS.get(word, ""))

    def number(self, at: int, token: str) -> int | float:
        if WHOLE.fullmatch(token) and len(token) <= 20 and int(token) <= MOST_NUMBER:
            return int(token)
        if math.isinf(float(token)):
            raise NotJson(at, "a number that 64 bits of floating point hold", f"`{token[:QUOTED]}`")
        return float(token)

    def string(self, at: int) -> tuple[str, int]:
        """The text that begins here, and where it ends."""
        pieces = []
        end = at + 1
        while True:
            found = PLAIN.match(self.text, end)
            if found:
                pieces.append(found[0])
                end = found.end()
            stop = self.text[end : end + 1]
            if stop == '"':
                return "".join(pieces), end + 1
            if stop != "\\":
                raise NotJson(end if stop else at, *self.broken_text(stop))
            piece, end = self.escape(end)
            pieces.append(piece)

    def broken_text(self, stop: str) -> tuple[str, str]:
        if not stop:
            return 'a text that ends with `"`', "one that doesn't end"
        return 'no control character in a text, or `"` in front of it', f"the character U+{ord(stop):04X}"

    def escape(self, at: int) -> tuple[str, int]:
        """The character that an escape stands for, and where it ends."""
        letter = self.text[at + 1 : at + 2]
        if letter in ESCAPES and letter:
            return ESCAPES[letter], at + 2
        first = self.unit(at)
        if first is None:
            raise NotJson(at, 'one of \\" \\\\ \\/ \\b \\f \\n \\r \\t \\uXXXX', f"`{self.text[at : at + 6]}`")
        if not 0xD800 <= first <= 0xDFFF:
            return chr(first), at + 6
        second = self.unit(at + 6)
        if first > 0xDBFF or second is None or not 0xDC00 <= second <= 0xDFFF:
            raise NotJson(at, "a pair of surrogates", f"`{self.text[at : at + 12]}`")
        return chr(0x10000 + ((first - 0xD800) << 10) + (second - 0xDC00)), at + 12

    def unit(self, at: int) -> int | None:
        found = UNIT.match(self.text, at)
        return int(found[1], 16) if found else None
