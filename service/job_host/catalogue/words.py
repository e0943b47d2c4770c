"""The words of a fault: what was expected, what stands there and what was probably meant, by batchctl's name and its way."""

from __future__ import annotations

import json
from collections.abc import Callable
from dataclasses import dataclass

from job_host.catalogue.faults import BAD_ELEMENT, NOBODY, NOT_A_CATALOGUE, Fault, Owner
from job_host.catalogue.forms import (
    JOB,
    KINDS,
    MOST_DEPTH,
    MOST_ELEMENTS,
    MOST_JOBS,
    MOST_TEXT_BYTES,
    FORMS,
    TASKS,
    likely,
    meant_by,
    members_of,
    quoted,
)
from job_host.catalogue.paths import Spot
from job_host.catalogue.text import Member, Members, Source, Value
from job_host.catalogue.tree import ELEMENT, Element, Job, read_job, shown
from job_host.catalogue.verdicts import Answer
from job_host.catalogue.ways import loop_in

MOST_OF_A_WAY = 12
TEXT_TOO_LONG, EMPTY, TOO_DEEP, TOO_MANY = "TextTooLong", "Empty", "TooDeep", "TooMany"
DUPLICATE_ID, NO_SUCH_TARGET, LOOP, RESTART_NOT_JOB_LEVEL = "DuplicateId", "NoSuchTarget", "Loop", "RestartNotJobLevel"


@dataclass(frozen=True)
class Told:
    """What is said of a place. `by` is the element that is told, if it isn't that of the place."""

    at: int
    expected: str
    found: str
    likely: str = ""
    by: Element | None = None


class Words:
    """The words for the faults of a file. What isn't at fault in the file as it is has none."""

    def __init__(self, source: Source, root: Value) -> None:
        self.source = source
        self.root = root
        self._jobs = dict[int, Job]()
        self._elements = dict[int, Element]()
        self._tellers: dict[str, Callable[[Spot], Told | None]] = {
            NOT_A_CATALOGUE: self._whole,
            BAD_ELEMENT: self._member,
            TEXT_TOO_LONG: self._too_long,
            EMPTY: self._empty,
            TOO_DEEP: self._too_deep,
            TOO_MANY: self._too_many,
            DUPLICATE_ID: self._duplicate,
            NO_SUCH_TARGET: self._no_target,
            LOOP: self._loop,
            RESTART_NOT_JOB_LEVEL: self._no_restart,
        }

    def fault(self, name: str, spot: Spot) -> Fault | None:
        teller = self._tellers.get(name)
        told = teller(spot) if teller is not None else None
        if told is None:
            return None
        return Fault(name, told.at, self.owner(spot, told.by), told.expected, told.found, told.likely)

    def owner(self, spot: Spot, by: Element | None = None) -> Owner:
        job = self.job_of(spot)
        return job.owner(by or self.element_of(spot)) if job is not None else NOBODY

    def unexplained(self, answer: Answer) -> Fault:
        """A fault for which there are no words: it is told at its job or element."""
        at, owner = self._place_of(answer)
        expected = "what docs/CATALOGUE.md says" if answer["fault"] == BAD_ELEMENT else "no such fault"
        return Fault(answer["fault"], at, owner, expected, json.dumps(answer, separators=(",", ":")))

    def _place_of(self, answer: Answer) -> tuple[int, Owner]:
        number = answer.get("job")
        if not isinstance(number, int) or number >= len(self.jobs):
            return 0, NOBODY
        job = self.job(number)
        element = next((element for element in job.elements if element.number == answer.get("element")), None)
        return (element.value if element is not None else job.value).at, job.owner(element)

    # ---- The jobs of the file

    @property
    def jobs(self) -> list[Value]:
        jobs = self.root.members.get("jobs")
        return jobs.value.items if jobs is not None else []

    def job(self, number: int) -> Job:
        if number not in self._jobs:
            self._jobs[number] = read_job(number, self.jobs[number])
            self._elements |= {id(element.value): element for element in self._jobs[number].elements}
        return self._jobs[number]

    def job_of(self, spot: Spot) -> Job | None:
        """The job in which a place is, if it is in one."""
        if len(spot.way) < 3:
            return None
        return self.job(next(number for number, job in enumerate(self.jobs) if job is spot.way[2]))

    def element_of(self, spot: Spot) -> Element | None:
        """The innermost element around a place."""
        self.job_of(spot)
        return next((self._elements[id(value)] for value in reversed(spot.way) if id(value) in self._elements), None)

    def quote(self, value: Value) -> str:
        return f"`{self.source.quote(value)}`"

    # ---- The members of an object

    def _whole(self, spot: Spot) -> Told | None:
        if spot.name is None:
            return Told(spot.value.at, 'an object with the member "jobs"', self.quote(spot.value))
        if spot.member is None:
            return Told(spot.value.at, 'an object with the member "jobs"', "none")
        if spot.name == "jobs":
            return Told(spot.member.value.at, 'a list as "jobs"', self.quote(spot.member.value))
        words = [] if "jobs" in spot.value.members else ["jobs"]
        return Told(spot.member.at, '"jobs" alone', f'"{spot.name}"', likely(spot.name, words))

    def _member(self, spot: Spot) -> Told | None:
        if not isinstance(spot.value.held, Members):
            article = {JOB: "the", ELEMENT: "an"}.get(spot.list_kind, "a")
            return Told(spot.value.at, f"an object, {article} {spot.list_kind}", self.quote(spot.value))
        if spot.name is None:
            return self._tasks(spot.value)
        if spot.name == "kind" and spot.list_kind in KINDS:
            return self._kind(spot.value, spot.member, KINDS[spot.list_kind])
        forms = members_of(spot.form)
        if spot.member is None:
            return Told(spot.value.at, f'"{spot.name}" in the {spot.form}', "none")
        if spot.name in forms:
            value, form = spot.member.value, forms[spot.name]
            return Told(value.at, f'{form.told()} as "{spot.name}"', self.quote(value), meant_by(value, form))
        words = [word for word in forms if word not in spot.value.members]
        expected = f"{quoted(tuple(forms))} in the {spot.form}" if forms else "no such member"
        return Told(spot.member.at, expected, f'"{spot.name}"', likely(spot.name, words))

    def _tasks(self, step: Value) -> Told | None:
        """A step has one of its two tasks."""
        has = [step.members[name].at for name in TASKS if name in step.members]
        expected = f"{quoted(TASKS)} in the step"
        return Told(max(has), expected, "both") if len(has) > 1 else Told(step.at, expected, "none of both")

    def _kind(self, item: Value, kind: Member | None, kinds: tuple[str, ...]) -> Told:
        expected = f'{quoted(kinds)} as "kind"'
        if kind is not None:
            return Told(kind.value.at, expected, self.quote(kind.value), likely(item.text("kind") or "", kinds))
        near = likely("kind", [name for name in item.members if name not in FORMS["step"]])
        if near:
            return Told(item.members[near].at, expected, f'"{near}"', "kind")
        return Told(item.at, expected, "none")

    # ---- Texts, lists and numbers of a job

    def _too_long(self, spot: Spot) -> Told | None:
        text = text_of(spot)
        if text is None or spot.member is None:
            return None
        size = len(text.encode("utf-8", "replace"))
        return Told(spot.member.value.at, f'at most {MOST_TEXT_BYTES} bytes as "{spot.name}"', f"{size}")

    def _empty(self, spot: Spot) -> Told | None:
        if spot.member is None or spot.name is None:
            return None
        at, form = spot.member.value.at, members_of(spot.form).get(spot.name)
        if isinstance(spot.member.value.held, str) or form is None:
            return Told(at, f'a text that is not empty as "{spot.name}"', "an empty one")
        return Told(at, f"at least one {form.inside} in the list", "none")

    def _too_deep(self, spot: Spot) -> Told | None:
        element = self.element_of(spot)
        return Told(element.value.at, f"depth {MOST_DEPTH} at most", f"{element.depth}") if element is not None else None

    def _too_many(self, spot: Spot) -> Told | None:
        job = self.job_of(spot)
        if job is None or self.element_of(spot) is None:
            return Told(spot.value.at, f"at most {MOST_JOBS} jobs", "one more")
        expected = f"at most {MOST_ELEMENTS} elements in the job, flows of splits included"
        return Told(spot.value.at, expected, f"{len(job.elements)}")

    # ---- Ids and targets

    def _duplicate(self, spot: Spot) -> Told | None:
        job, element, name = self.job_of(spot), self.element_of(spot), text_of(spot)
        if job is None or name is None or spot.member is None:
            return None
        at = spot.member.value.at
        if element is None:
            first = next(number for number, other in enumerate(self.jobs) if other.text("id") == name)
            found = f"{shown(name)}, which job number {first} has ({self.source.place(self.jobs[first].at)})"
            return Told(at, "an id that no earlier job has", found) if first < job.number else None
        other = job.by_id[name]
        place = self.source.place(other.value.members["id"].value.at)
        found = f"{shown(name)}, which element number {other.number} has ({place})"
        return Told(at, "an id that no other element of the job has", found) if other is not element else None

    def _no_target(self, spot: Spot) -> Told | None:
        job, element, name = self.job_of(spot), self.element_of(spot), text_of(spot)
        if job is None or element is None or name is None or spot.member is None:
            return None
        at, expected, elsewhere = spot.member.value.at, "the id of an element of the same list", job.by_id.get(name)
        if elsewhere is None:
            return Told(at, expected, shown(name), likely(name, element.listing.ids))
        return Told(at, expected, f"{shown(name)}, which stands in another list (element number {elsewhere.number})")

    def _no_restart(self, spot: Spot) -> Told | None:
        job, name = self.job_of(spot), text_of(spot)
        if job is None or job.listing is None or name is None or spot.member is None:
            return None
        near = likely(name, job.listing.ids)
        return Told(spot.member.value.at, "the id of an element of the job's own list", shown(name), near)

    def _loop(self, spot: Spot) -> Told | None:
        job = self.job_of(spot)
        way = loop_in(job) if job is not None else []
        if not way:
            return None
        ids = [shown(element.id or "") for element, _ in [*way, way[0]]]
        told = " -> ".join(ids if len(ids) <= MOST_OF_A_WAY else [*ids[:4], "..", *ids[-4:]])
        last, target = way[-1]
        return Told(target.value.at, "no way that leads round in a list", told, by=last)


def text_of(spot: Spot) -> str | None:
    """The text of the member at a place, if it is one."""
    held = spot.member.value.held if spot.member is not None else None
    return held if isinstance(held, str) else None
