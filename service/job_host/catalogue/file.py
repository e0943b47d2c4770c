"""A catalogue's file, in any layout: its line for a pipe, and its values with their places."""

from __future__ import annotations

import math
from collections.abc import Collection
from dataclasses import dataclass, field

from job_host.catalogue import jsl, jsl_text
from job_host.catalogue.faults import NOBODY, NOT_A_CATALOGUE, NOT_JSON, Fault, Note, Owner
from job_host.catalogue.text import MOST_LINE_BYTES, Members, NotJson, Reader, Source, Value, decoded, one_line, plain
from job_host.protocol.lines import compact


@dataclass(frozen=True)
class NamedArtifact:
    """An artifact of a step that stands beside the catalogue, and where it is named."""

    at: int
    owner: Owner
    name: str


@dataclass
class CatalogueFile:
    """What a file holds. `line` is none if its JSL can't be read, and `root` is none if it can't be read at all.

    `faults` are those that keep it from being read, `refused` the forms of JSL that keep it from being a catalogue, and `told`
    those that are left out. `beside` are the artifacts that have no place in a catalogue.
    """

    source: Source
    line: bytes | None
    root: Value | None = None
    faults: list[Fault] = field(default_factory=list)
    refused: list[Note] = field(default_factory=list)
    told: list[Note] = field(default_factory=list)
    beside: list[NamedArtifact] = field(default_factory=list)


def read_data(name: str, data: bytes, allowed: Collection[str] = ()) -> CatalogueFile:
    """Reads what a file holds, which is JSL if it begins as XML does."""
    return read_jsl(name, data, allowed) if jsl_text.is_xml(data) else read_json(name, data)


def too_long(line: bytes) -> list[Fault]:
    if len(line) <= MOST_LINE_BYTES:
        return []
    return [Fault(NOT_A_CATALOGUE, 0, NOBODY, f"a line of at most {MOST_LINE_BYTES} bytes", f"{len(line)}")]


def read_json(name: str, data: bytes) -> CatalogueFile:
    line = one_line(data)
    text, broken = decoded(data)
    read = CatalogueFile(Source(name, text), line, faults=too_long(line))
    if read.faults:
        return read
    try:
        if broken is not None:
            raise broken
        read.root = Reader(text).read()
    except NotJson as fault:
        read.faults.append(Fault(NOT_JSON, fault.at, NOBODY, fault.expected, fault.found, fault.likely))
    return read


def read_jsl(name: str, data: bytes, allowed: Collection[str]) -> CatalogueFile:
    return translated(name, data, jsl.Translator(allowed))


def translated(name: str, data: bytes, translator: jsl.Translator, most: float = math.inf) -> CatalogueFile:
    """A file of JSL with at most so many elements, by a translator that has translated nothing before."""
    try:
        source, element = jsl_text.read_xml(name, data, most)
    except jsl_text.NotXml as fault:
        return CatalogueFile(fault.source, None, refused=[Note(jsl.JSL, fault.at, NOBODY, str(fault))])
    other = jsl.no_job(element)
    if other is not None:
        return CatalogueFile(source, None, refused=[other])
    made = translator.job(element)
    root = catalogue_of([made.value])
    line = compact(plain(root))
    return CatalogueFile(source, line, root, too_long(line), made.refused, made.told)


def catalogue_of(jobs: list[Value]) -> Value:
    members = Members()
    members.put("jobs", 0, Value(0, 0, jobs))
    return Value(0, 0, members)
