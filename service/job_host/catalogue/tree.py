"""The jobs of a catalogue as trees of their elements, as far as a file has them."""

from __future__ import annotations

import json
from collections.abc import Iterator
from dataclasses import dataclass, field
from functools import cached_property
from itertools import count

from job_host.catalogue.faults import Owner
from job_host.catalogue.forms import KINDS
from job_host.catalogue.text import Member, Value

ELEMENT = "element"
FLOW_OF_A_SPLIT = "flow of a split"
TRANSITION = "transition element"
MOST_SHOWN = 256


def shown(text: str) -> str:
    """A text between quotation marks, on one line, and no longer than a line should be."""
    return json.dumps(text if len(text) <= MOST_SHOWN else text[:MOST_SHOWN] + "..", ensure_ascii=False)


@dataclass
class Element:
    """An element, or a flow of a split, with its number in its job. `form` is empty if its kind can't be read."""

    number: int
    value: Value
    form: str
    depth: int
    listing: Listing
    inner: list[Listing] = field(default_factory=list)

    @property
    def id(self) -> str | None:
        return self.value.text("id")

    @property
    def told(self) -> str:
        """Its kind and its id, as far as there are such."""
        name = f" {shown(self.id)}" if self.id is not None else ""
        return f"{self.form or 'element'}{name}"

    @property
    def transitions(self) -> list[Value]:
        member = self.value.members.get("transitions") if self.form != FLOW_OF_A_SPLIT else None
        return member.value.items if member is not None else []

    def targets(self) -> Iterator[Member]:
        """The members that name an element to go on at: its `next`, and the `to` of its transition elements."""
        if "next" in self.value.members and self.form in ("step", "flow", "split"):
            yield self.value.members["next"]
        for transition in self.transitions:
            if transition.text("kind") == "next" and "to" in transition.members:
                yield transition.members["to"]

    def artifacts(self) -> Iterator[Value]:
        """The objects with a `ref` that it has."""
        if self.form == "decision":
            yield self.value
        members = self.value.members if self.form == "step" else {}
        chunk = members["chunk"].value.members if "chunk" in members else {}
        yield from (members[name].value for name in ("batchlet",) if name in members)
        yield from (chunk[name].value for name in ("reader", "processor", "writer") if name in chunk)


@dataclass
class Listing:
    """A list of elements, or of the flows of a split, and where it stands."""

    value: Value
    list_kind: str
    elements: list[Element] = field(default_factory=list)

    @cached_property
    def ids(self) -> dict[str, Element]:
        """The first element of each id. It is asked for after the list was read."""
        return {element.id: element for element in reversed(self.elements) if element.id is not None}

    @cached_property
    def is_whole(self) -> bool:
        """Whether each of its elements has an id that can be read."""
        return all(element.id is not None for element in self.elements)


@dataclass
class Job:
    """A job by its number, with all its elements in written order."""

    number: int
    value: Value
    listing: Listing | None = None
    elements: list[Element] = field(default_factory=list)

    @property
    def id(self) -> str | None:
        return self.value.text("id")

    @cached_property
    def by_id(self) -> dict[str, Element]:
        """The first element of each id. It is asked for after the job was read."""
        return {element.id: element for element in reversed(self.elements) if element.id is not None}

    def owner(self, element: Element | None = None) -> Owner:
        name = f"job {shown(self.id)}" if self.id is not None else f"job number {self.number}"
        if element is None:
            return Owner(self.number, None, name)
        return Owner(self.number, element.number, f"{name}, {element.told} (number {element.number})")


def form_of(value: Value, list_kind: str) -> str:
    """The form of an item, if its kind can be read."""
    kind = value.text("kind")
    if kind not in KINDS[list_kind]:
        return ""
    return FLOW_OF_A_SPLIT if list_kind == FLOW_OF_A_SPLIT else kind


def read_job(number: int, value: Value) -> Job:
    job = Job(number, value)
    numbers = count()

    def listing(owner: Value, name: str, depth: int, list_kind: str) -> Listing | None:
        member = owner.members.get(name)
        if member is None or not isinstance(member.value.held, list):
            return None
        read = Listing(member.value, list_kind)
        for item in member.value.items:
            read.elements.append(element(item, read, depth, list_kind))
        return read

    def element(item: Value, within: Listing, depth: int, list_kind: str) -> Element:
        read = Element(next(numbers), item, form_of(item, list_kind), depth, within)
        job.elements.append(read)
        if read.form in ("flow", FLOW_OF_A_SPLIT):
            read.inner += [inner for inner in [listing(item, "elements", depth + 1, ELEMENT)] if inner]
        if read.form == "split":
            read.inner += [inner for inner in [listing(item, "flows", depth + 1, FLOW_OF_A_SPLIT)] if inner]
        return read

    job.listing = listing(value, "elements", 1, ELEMENT)
    return job


def listings_of(job: Job) -> Iterator[Listing]:
    """The lists of a job, in written order."""
    if job.listing is not None:
        yield job.listing
    for element in job.elements:
        yield from element.inner


def count_elements(owner: Value) -> int:
    """How many elements stand in a job, a flow or a split, flows of splits included."""
    lists = [owner.members[name].value.items for name in ("elements", "flows") if name in owner.members]
    return sum(1 + count_elements(item) for items in lists for item in items)


def restart_of(transition: Value) -> str | None:
    return transition.text("restart") if transition.text("kind") == "stop" else None
