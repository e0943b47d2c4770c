"""Warns of what a catalogue may have, and seldom means."""

from __future__ import annotations

import re
from collections.abc import Iterable, Iterator
from pathlib import Path

from job_host.catalogue.faults import NOBODY, WARNING, Note, Owner
from job_host.catalogue.forms import likely
from job_host.catalogue.patterns import ANY_CHARACTER, ANYTHING
from job_host.catalogue.text import Member, Members, Source, Value
from job_host.catalogue.tree import ELEMENT, Element, Job, Listing, listings_of, shown
from job_host.protocol import executables

MOST_SEARCHES = 100
# What stands in regular expressions, and seldom in an exit status.
REGULAR = re.compile(r"\.[*+?]|[|\[\]^$\\]|\(.*\)")
STATUSES = ("COMPLETED", "FAILED", "STOPPED")


def repeated(value: Value, source: Source) -> Iterator[Note]:
    """Members that come twice, at any depth."""
    if isinstance(value.held, Members):
        yield from (again(name, at, value.held.named[name], source) for name, at in value.held.repeated)
    for inner in [*value.items, *(member.value for member in value.members.values())]:
        yield from repeated(inner, source)


def again(name: str, at: int, last: Member, source: Source) -> Note:
    return Note(WARNING, at, NOBODY, f'"{name}" comes again ({source.place(last.at)}), and this one counts for nothing')


class Artifacts:
    """The artifacts of the workers over a folder. Each name is looked for once."""

    def __init__(self, folder: Path) -> None:
        self.folder = folder
        self.names = [path.name for path in sorted(folder.iterdir()) if self.is_there(path.name)]
        self._told = dict[str, str]()

    def is_there(self, name: str) -> bool:
        try:
            executables.find(self.folder, name)
        except executables.NoArtifact:
            return False
        return True

    def likely(self, name: str) -> str:
        if name not in self._told:
            self._told[name] = likely(name, self.names) if len(self._told) < MOST_SEARCHES else ""
        return self._told[name]

    def warn(self, at: int, owner: Owner, name: str) -> Iterator[Note]:
        """A warning of an artifact that no worker has."""
        if name not in self.names:
            yield Note(WARNING, at, owner, f"no worker over {self.folder} has the artifact {shown(name)}", self.likely(name))


def covers(earlier: str, later: str) -> bool:
    """Whether each exit status that the later pattern matches is matched by the earlier one; false if that isn't known.

    The later one's characters are taken as they stand: its `*` is matched by a `*` alone, and its `?` by a `?` too.
    """
    reached = {0}
    for character in [*later, ""]:
        for at in sorted(reached):
            while at < len(earlier) and earlier[at] == ANYTHING:
                at += 1
                reached.add(at)
        if not character:
            return len(earlier) in reached
        stays = {at for at in reached if at < len(earlier) and earlier[at] == ANYTHING}
        taken = {at + 1 for at in reached if at < len(earlier) and takes(earlier[at], character)}
        reached = stays | taken
    return False


def takes(pattern: str, character: str) -> bool:
    """Whether a character of the earlier pattern, other than `*`, matches one of the later."""
    return pattern != ANYTHING and (pattern == character or pattern == ANY_CHARACTER and character != ANYTHING)


def jobs_alike(jobs: Iterable[Job]) -> Iterator[Note]:
    """Jobs whose ids differ in case alone."""
    known = dict[str, Job]()
    for job in jobs:
        if job.id is None:
            continue
        other = known.setdefault(job.id.casefold(), job)
        if other.id != job.id:
            yield Note(
                WARNING, job.value.at, job.owner(), f"its id and that of job {shown(other.id or '')} differ in case alone"
            )


class Warner:
    """Warns of one job. `known` has the workers' artifacts, if they are known."""

    def __init__(self, job: Job, known: Artifacts | None) -> None:
        self.job = job
        self.known = known

    def warn(self, at: int, element: Element, told: str, near: str = "") -> Note:
        return Note(WARNING, at, self.job.owner(element), told, near)

    def warnings(self, has_fault: bool) -> Iterator[Note]:
        """All of them. Of a job that has a fault the way of its walk isn't known."""
        listings = [listing for listing in listings_of(self.job) if listing.list_kind == ELEMENT and not has_fault]
        yield from (note for listing in listings for note in self.unreached(listing))
        for element in self.job.elements:
            yield from self.never_matched(element)
            yield from self.never_left(element)
            yield from self.odd_patterns(element)
            yield from self.unknown_artifacts(element)
        yield from self.alike(self.job.elements)

    def led_to(self, listing: Listing) -> set[str]:
        """The ids to which something leads: a `next` or `to` of the list, or a `restart`."""
        targets = [target for element in listing.elements for target in element.targets()]
        if listing is self.job.listing:
            targets += restarts_of(self.job)
        return {target.value.held for target in targets if isinstance(target.value.held, str)}

    def unreached(self, listing: Listing) -> Iterator[Note]:
        """Elements that nothing leads to; and those that end the list, although such a one stands behind them."""
        reached = self.led_to(listing)
        for element, following in zip(listing.elements, listing.elements[1:]):
            if following.id in reached:
                continue
            if not list(element.targets()):
                told = f'its list ends here, although {following.told} stands behind it: no "next" or "to" leads on'
                yield self.warn(element.value.at, element, told)
            told = 'nothing leads here: no "next" or "to" of its list names it'
            yield self.warn(following.value.at, following, told)

    def never_matched(self, element: Element) -> Iterator[Note]:
        """Transition elements that never count, since the first one that matches does."""
        earlier = list[str]()
        for transition in element.transitions:
            pattern = transition.text("on") or ""
            before = next((known for known in earlier[:MOST_SEARCHES] if covers(known, pattern)), None)
            if before is not None:
                told = f"the transition element for {shown(pattern)} never counts: the one for {shown(before)} stands before it"
                yield self.warn(transition.at, element, told)
            earlier.append(pattern)

    def never_left(self, element: Element) -> Iterator[Note]:
        """A `next` that never counts, and a decision that ends its list at an exit status that it doesn't know."""
        patterns = [transition.text("on") for transition in element.transitions]
        if ANYTHING in patterns and "next" in element.value.members:
            told = f'"next" never counts: the transition element for {shown(ANYTHING)} matches any exit status'
            yield self.warn(element.value.members["next"].at, element, told)
        if element.form == "decision" and patterns and ANYTHING not in patterns:
            told = f"after an exit status that no transition element matches its list ends: there is none for {shown(ANYTHING)}"
            yield self.warn(element.value.at, element, told)

    def odd_patterns(self, element: Element) -> Iterator[Note]:
        """Patterns that are meant otherwise: a regular expression, or a batch status in small letters."""
        for transition in element.transitions:
            pattern = transition.text("on") or ""
            if REGULAR.search(pattern):
                told = f'{shown(pattern)} is no regular expression: only "*" and "?" stand for other characters'
                yield self.warn(transition.at, element, told)
            elif pattern not in STATUSES and pattern.upper() in STATUSES:
                told = f"{shown(pattern)} doesn't match the exit status {shown(pattern.upper())}"
                yield self.warn(transition.at, element, told, pattern.upper())

    def alike(self, elements: Iterable[Element]) -> Iterator[Note]:
        """Ids that differ in case alone."""
        known = dict[str, Element]()
        for element in elements:
            if element.id is None:
                continue
            other = known.setdefault(element.id.casefold(), element)
            if other.id != element.id:
                yield self.warn(element.value.at, element, f"its id and that of {other.told} differ in case alone")

    def unknown_artifacts(self, element: Element) -> Iterator[Note]:
        """Artifacts that no worker has."""
        for artifact in element.artifacts():
            name = artifact.text("ref")
            if name is not None and self.known is not None:
                yield from self.known.warn(artifact.members["ref"].value.at, self.job.owner(element), name)


def restarts_of(job: Job) -> list[Member]:
    transitions = [transition for element in job.elements for transition in element.transitions]
    return [transition.members["restart"] for transition in transitions if "restart" in transition.members]
