"""The way to a member of a catalogue, as `jobs[2].elements[0].next`: so batchctl names what is at fault."""

from __future__ import annotations

import json
import re
from dataclasses import dataclass

from job_host.catalogue.forms import CATALOGUE, JOB, KINDS, members_of
from job_host.catalogue.text import Member, Members, Value
from job_host.catalogue.tree import FLOW_OF_A_SPLIT, form_of

# A plain name, with a point before it if it isn't the first step; or in brackets a number, or any other name as a JSON text.
STEP = re.compile(r'\.?([A-Za-z0-9_-]+)|\[([0-9]+)\]|\[("(?:[^"\\]|\\.)*")\]', re.DOTALL)

Steps = tuple[str | int, ...]


def steps_of(way: str) -> Steps:
    """The names and numbers of a way. Raises ValueError if it is none."""
    steps = list[str | int]()
    at = 0
    while at < len(way):
        found = STEP.match(way, at)
        if found is None:
            raise ValueError(f"{way!r} is no way to a member")
        name, number, text = found.groups()
        steps.append(name if name is not None else int(number) if number is not None else json.loads(text))
        at = found.end()
    return tuple(steps)


@dataclass(frozen=True)
class Spot:
    """The end of a way in a file: a member that an object has or lacks, or else an item of a list, or the whole value.

    `way` has the values from the whole one to that object, or to the item itself. `form` is the object's, and empty if its kind
    can't be read. `list_kind` says of what list it is an item, if it is one.
    """

    way: tuple[Value, ...]
    form: str
    list_kind: str
    name: str | None = None
    member: Member | None = None

    @property
    def value(self) -> Value:
        return self.way[-1]


def item_form(item: Value, list_kind: str) -> str:
    """The form of an item of a list; of one whose kind can't be read, and of other lists, none."""
    if list_kind in (JOB, FLOW_OF_A_SPLIT):
        return list_kind
    return form_of(item, list_kind) if list_kind in KINDS else ""


def spot_of(root: Value, steps: Steps) -> Spot | None:
    """Follows a way from the whole value. None if it leaves what the file has."""
    way, form, list_kind = [root], CATALOGUE, ""
    for place, step in enumerate(steps):
        owner = way[-1]
        if isinstance(step, int):
            if not 0 <= step < len(owner.items):
                return None
            way.append(owner.items[step])
            form, list_kind = item_form(way[-1], form), form
            continue
        member = owner.members.get(step)
        if place == len(steps) - 1 and isinstance(owner.held, Members):
            return Spot(tuple(way), form, list_kind, step, member)
        if member is None:
            return None
        way.append(member.value)
        form, list_kind = inside_of(form, step), ""
    return Spot(tuple(way), form, list_kind)


def inside_of(form: str, name: str) -> str:
    """The form of the object that a member is, or of what list it is."""
    member = members_of(form).get(name)
    return member.inside if member is not None else ""
