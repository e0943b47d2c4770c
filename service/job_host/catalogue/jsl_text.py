"""The text of a JSL file: its elements and attributes with their places. The parser is defusedxml's."""

from __future__ import annotations

import codecs
import math
import re
from collections.abc import Iterator, Mapping
from dataclasses import dataclass, field
from io import BytesIO
from xml.sax import SAXParseException
from xml.sax.handler import ContentHandler, feature_namespaces
from xml.sax.xmlreader import InputSource

from defusedxml.common import DefusedXmlException
from defusedxml.expatreader import DefusedExpatParser

from job_host.catalogue.text import Member, Source, Value

# Jakarta Batch 2.0 and 2.1, and 1.0. A file may also name none.
NAMESPACES = ("https://jakarta.ee/xml/ns/jakartaee", "http://xmlns.jcp.org/xml/ns/javaee", None)
MARKS = ((codecs.BOM_UTF8, "utf-8"), (codecs.BOM_UTF16_LE, "utf-16-le"), (codecs.BOM_UTF16_BE, "utf-16-be"))
ENCODING = re.compile(rb"""<\?xml[^>]*?\sencoding\s*=\s*["']([A-Za-z][A-Za-z0-9._-]*)["']""")
TAG = re.compile(r"<[^\s/>]+")
ATTRIBUTE = re.compile(r"""\s+([^\s=]+)\s*=\s*("[^"]*"|'[^']*')""")
# A catalogue of such a file nests no deeper than a line may.
MOST_NESTED = 60

Attributes = Mapping[tuple[str | None, str], str]


class NotXml(Exception):
    """The file can't be read as XML."""

    def __init__(self, source: Source, at: int, told: str) -> None:
        super().__init__(told)
        self.source, self.at = source, at


@dataclass
class XmlElement:
    """An element, but for its attributes of other namespaces. `value` stands for its tag, `texts` for what is between tags."""

    name: str
    namespace: str | None
    value: Value
    attributes: dict[str, Member] = field(default_factory=dict)
    children: list[XmlElement] = field(default_factory=list)
    texts: list[Value] = field(default_factory=list)

    @property
    def at(self) -> int:
        return self.value.at

    @property
    def is_jsl(self) -> bool:
        return self.namespace in NAMESPACES

    def named(self, *names: str) -> Iterator[XmlElement]:
        """The children of JSL with one of these names."""
        return (child for child in self.children if child.is_jsl and child.name in names)

    def said(self) -> Iterator[str]:
        """What it names at any depth: properties, artifacts and classes."""
        for child in self.children:
            yield from (str(child.attributes[name].value.held) for name in ("name", "ref", "class") if name in child.attributes)
            yield from child.said()


def is_xml(data: bytes) -> bool:
    """Whether a file begins as XML does."""
    mark = next((mark for mark, _ in MARKS if data.startswith(mark)), b"")
    return data[len(mark) :].replace(b"\0", b"")[:1024].lstrip().startswith(b"<")


def encoding_of(data: bytes) -> tuple[bytes, str]:
    """The bytes behind the mark, and the encoding by the mark, else by the declaration, else UTF-8."""
    for mark, encoding in MARKS:
        if data.startswith(mark):
            return data[len(mark) :], encoding
    declared = ENCODING.match(data)
    return data, declared[1].decode("ascii") if declared else "utf-8"


def decoded(name: str, data: bytes) -> str:
    """The text of a file. Raises NotXml."""
    rest, encoding = encoding_of(data)
    try:
        text = str(rest, encoding)
        text.encode("utf-8")
        return text
    except LookupError as fault:
        raise NotXml(Source(name, ""), 0, f"there is no encoding {encoding!r}") from fault
    except UnicodeDecodeError as fault:
        before = rest[: fault.start].decode(encoding, "replace")
        told = f"the byte 0x{rest[fault.start]:02x} is not {encoding}"
        raise NotXml(Source(name, before), len(before), told) from fault
    except UnicodeError as fault:
        raise NotXml(Source(name, ""), 0, f"the encoding {encoding!r} is none of text") from fault


class Handler(ContentHandler):
    """Builds the tree. Where an event stands is the locator's line and column."""

    def __init__(self, source: Source, most: float) -> None:
        super().__init__()
        self.source = source
        self._most = self._left = most
        self.root: XmlElement | None = None
        self._open: list[XmlElement] = []

    def at(self) -> int:
        locator = self._locator  # type: ignore[attr-defined]
        return self.source.offset(locator.getLineNumber(), locator.getColumnNumber())

    def startElementNS(self, name: tuple[str | None, str], qname: str | None, attrs: Attributes) -> None:
        at = self.at()
        element = XmlElement(name[1], name[0], Value(at, self.end_of_tag(at), None))
        places = self.attribute_places(at)
        for (namespace, local), text in attrs.items():
            if namespace is None and local in places:
                name_at, begin, end = places[local]
                element.attributes[local] = Member(name_at, Value(begin, end, text))
        if len(self._open) >= MOST_NESTED:
            raise NotXml(self.source, at, f"elements are nested deeper than {MOST_NESTED}")
        self._left -= 1
        if self._left < 0:
            raise NotXml(self.source, at, f"there are more than {self._most:g} elements")
        if self._open:
            self._open[-1].children.append(element)
        self.root = self.root or element
        self._open.append(element)

    def end_of_tag(self, at: int) -> int:
        found = TAG.match(self.source.text, at)
        return found.end() if found else at

    def attribute_places(self, at: int) -> dict[str, tuple[int, int, int]]:
        """Where each attribute of a start tag stands: its name, its value and the value's end. The parser has taken the tag."""
        places = {}
        end = self.end_of_tag(at)
        while found := ATTRIBUTE.match(self.source.text, end):
            places[found[1]] = (found.start(1), found.start(2), found.end(2))
            end = found.end()
        return places

    def endElementNS(self, name: tuple[str | None, str], qname: str | None) -> None:
        self._open.pop()

    def characters(self, content: str) -> None:
        if content.strip():
            at = self.at() + len(content) - len(content.lstrip())
            self._open[-1].texts.append(Value(at, at + len(content.strip()), content.strip()))


def read_xml(name: str, data: bytes, most: float = math.inf) -> tuple[Source, XmlElement]:
    """The root of a file with at most so many elements. Raises NotXml."""
    source = Source(name, decoded(name, data))
    parser = DefusedExpatParser(forbid_dtd=True)
    handler = Handler(source, most)
    parser.setFeature(feature_namespaces, True)
    parser.setContentHandler(handler)
    # The parser is handed the text alone, so that its places are those of the text, whatever the mark and the declaration say.
    text = InputSource()
    text.setByteStream(BytesIO(source.text.encode("utf-8")))  # type: ignore[no-untyped-call]
    text.setEncoding("utf-8")  # type: ignore[no-untyped-call]
    try:
        parser.parse(text)
    except SAXParseException as fault:
        at = source.offset(fault.getLineNumber() or 1, fault.getColumnNumber() or 0)
        raise NotXml(source, at, str(fault.getMessage())) from fault
    except DefusedXmlException as fault:
        raise NotXml(source, handler.at(), "a document type or an entity is declared, which JSL has none of") from fault
    if handler.root is None:
        raise NotXml(source, 0, "there is no element")
    return source, handler.root
