"""What a new catalogue adds, changes and drops beside an old one, and whether a running log or service takes it."""

from __future__ import annotations

import json
from collections.abc import Iterator, Mapping, Sequence
from dataclasses import dataclass
from typing import Any

from job_host.catalogue.tree import shown

LISTS = ("elements", "flows")
LEFT_OUT = "left out"

Members = Mapping[str, Any]


@dataclass(frozen=True)
class Placed:
    """An element: its own members, and the job, flow or split in whose list it stands."""

    members: Members
    within: str

    @property
    def told(self) -> str:
        return f"{self.members['kind']} {shown(self.members['id'])}"


@dataclass(frozen=True)
class Comparison:
    """What differs, a line each, and what keeps a running log or a running service from taking the new catalogue."""

    lines: list[str]
    changed: list[str]
    is_in_order: bool

    @property
    def is_taken(self) -> bool:
        return not self.changed and self.is_in_order

    def verdict(self) -> str:
        if self.changed:
            return f"no running log or service takes it: {', '.join(self.changed)}"
        if not self.is_in_order:
            return "a running service takes it; no running log does, as it doesn't begin with the old jobs in their order"
        return "a running log or service takes it"


def json_of(value: Any) -> str:
    return json.dumps(value, ensure_ascii=False, separators=(",", ":"))


def own(members: Members) -> Members:
    return {name: value for name, value in members.items() if name not in LISTS}


def placed(owner: Members, told: str) -> Iterator[Placed]:
    """The elements inside an object, in written order."""
    for item in [item for name in LISTS for item in owner.get(name, [])]:
        element = Placed(item, told)
        yield element
        yield from placed(item, element.told)


def changes(old: Members, new: Members, path: str = "") -> Iterator[str]:
    """What differs in members, and in the objects that these are."""
    for name in [*old, *(name for name in new if name not in old)]:
        before, after = old.get(name), new.get(name)
        if before == after:
            continue
        if isinstance(before, dict) and isinstance(after, dict):
            yield from changes(before, after, f"{path}{name} ")
        else:
            was = json_of(before) if name in old else LEFT_OUT
            yield f"{path}{name}: was {was}, is {json_of(after) if name in new else LEFT_OUT}"


def changes_of_element(old: Placed, new: Placed) -> Iterator[str]:
    if old.within != new.within:
        yield f"  ~ {new.told}: stood in {old.within}, stands in {new.within}"
    yield from (f"  ~ {new.told}: {told}" for told in changes(own(old.members), own(new.members)))


def changes_of_order(old: list[Placed], new: list[Placed]) -> Iterator[str]:
    """Elements of one list that stand in another order."""
    for within in dict.fromkeys(element.within for element in new):
        ids = [element.members["id"] for element in new if element.within == within]
        before = [element.members["id"] for element in old if element.within == within and element.members["id"] in ids]
        after = [name for name in ids if name in before]
        if before != after:
            told = f"stood as {', '.join(map(shown, before))}, stand as {', '.join(map(shown, after))}"
            yield f"  ~ the elements of {within}: {told}"


def changes_of_job(old: Members, new: Members) -> Iterator[str]:
    """What differs in a job that both catalogues have."""
    name = f"job {shown(new['id'])}"
    yield from (f"  ~ {told}" for told in changes(own(old), own(new)))
    before, after = list(placed(old, name)), list(placed(new, name))
    old_ones = {element.members["id"]: element for element in before}
    new_ones = {element.members["id"]: element for element in after}
    for identity, element in new_ones.items():
        if identity in old_ones:
            yield from changes_of_element(old_ones[identity], element)
        else:
            yield f"  + {element.told} in {element.within}"
    yield from (f"  - {element.told} in {element.within}" for name, element in old_ones.items() if name not in new_ones)
    yield from changes_of_order(before, after)


def lines_of_job(name: str, old: Members | None, new: Members | None, is_changed: bool) -> Iterator[str]:
    if old is None and new is not None:
        yield f"+ job {shown(name)}, elements: {len(list(placed(new, '')))}"
    elif new is None:
        yield f"- job {shown(name)}"
    elif old is not None and old != new:
        yield f"~ job {shown(name)}" + ("" if is_changed else ", which means the same")
        yield from changes_of_job(old, new)


def compare(old: Sequence[Members], new: Sequence[Members], changed: Sequence[str], is_in_order: bool) -> Comparison:
    """Shows what differs as JSON between the jobs of two accepted catalogues.

    batchctl says which old jobs are changed or dropped, and whether a log takes the new ones in their order.
    """
    before, after = {job["id"]: job for job in old}, {job["id"]: job for job in new}
    names = [*before, *(name for name in after if name not in before)]
    lines = [line for name in names for line in lines_of_job(name, before.get(name), after.get(name), name in changed)]
    told = [f"job {shown(name)} is dropped" for name in changed if name not in after]
    told += [f"job {shown(name)} is changed" for name in changed if name in after]
    return Comparison(lines, told, is_in_order)
