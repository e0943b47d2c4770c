"""The members of each object of a catalogue, and its bounds, in the words of docs/CATALOGUE.md.

`batchctl` decides whether a catalogue is as it must be. The table says what to expect in the place of a fault.
"""

from __future__ import annotations

from collections.abc import Iterable
from dataclasses import dataclass
from difflib import get_close_matches
from enum import Enum

from job_host.catalogue.text import WHOLE, Value

MOST_COUNT = 2**32 - 1
MOST_PARTITIONS = 64
MOST_TEXT_BYTES = 256
MOST_DEPTH = 16
MOST_ELEMENTS = 1_000
MOST_JOBS = 256


class Kind(Enum):
    """What a member is. Each prints as it is told."""

    TEXT = "a text"
    TRUTH = "true or false"
    NUMBER = "a whole number"
    LIST = "a list"
    OBJECT = "an object"


@dataclass(frozen=True)
class Form:
    """A member: what it is, whether it may be left out, a number's bounds, the form of an object or of a list's items."""

    kind: Kind
    is_optional: bool = False
    least: int = 0
    most: int = MOST_COUNT
    inside: str = ""

    def told(self) -> str:
        told = str(self.kind.value)
        return f"{told} from {self.least} to {self.most}" if self.kind is Kind.NUMBER else told


Forms = dict[str, Form]

TEXT = Form(Kind.TEXT)
TEXT_OR_NONE = Form(Kind.TEXT, is_optional=True)
TRUTH_OR_NONE = Form(Kind.TRUTH, is_optional=True)
ELEMENTS = Form(Kind.LIST, inside="element")
TRANSITIONS = Form(Kind.LIST, is_optional=True, inside="transition element")
ARTIFACT = Form(Kind.OBJECT, inside="artifact")
ARTIFACT_OR_NONE = Form(Kind.OBJECT, is_optional=True, inside="artifact")

STEP: Forms = {
    "kind": TEXT,
    "id": TEXT,
    "next": TEXT_OR_NONE,
    "start-limit": Form(Kind.NUMBER, is_optional=True),
    "allow-start-if-complete": TRUTH_OR_NONE,
    "partitions": Form(Kind.NUMBER, is_optional=True, least=1, most=MOST_PARTITIONS),
    "batchlet": ARTIFACT_OR_NONE,
    "chunk": Form(Kind.OBJECT, is_optional=True, inside="chunk"),
    "transitions": TRANSITIONS,
}
CHUNK: Forms = {
    "item-count": Form(Kind.NUMBER, is_optional=True, least=1),
    "reader": ARTIFACT,
    "processor": ARTIFACT_OR_NONE,
    "writer": ARTIFACT,
}
FORMS: dict[str, Forms] = {
    "job": {"id": TEXT, "restartable": TRUTH_OR_NONE, "elements": ELEMENTS},
    "step": STEP,
    "artifact": {"ref": TEXT},
    "chunk": CHUNK,
    "flow": {"kind": TEXT, "id": TEXT, "next": TEXT_OR_NONE, "elements": ELEMENTS, "transitions": TRANSITIONS},
    "split": {"kind": TEXT, "id": TEXT, "next": TEXT_OR_NONE, "flows": Form(Kind.LIST, inside="flow of a split")},
    "flow of a split": {"kind": TEXT, "id": TEXT, "elements": ELEMENTS},
    "decision": {"kind": TEXT, "id": TEXT, "ref": TEXT, "transitions": TRANSITIONS},
    "next": {"kind": TEXT, "on": TEXT, "to": TEXT},
    "end": {"kind": TEXT, "on": TEXT, "exit-status": TEXT_OR_NONE},
    "fail": {"kind": TEXT, "on": TEXT, "exit-status": TEXT_OR_NONE},
    "stop": {"kind": TEXT, "on": TEXT, "exit-status": TEXT_OR_NONE, "restart": TEXT_OR_NONE},
}
# The whole value, which holds the jobs.
CATALOGUE, JOB = "catalogue", "job"
JOBS: Forms = {"jobs": Form(Kind.LIST, inside=JOB)}
TASKS = ("batchlet", "chunk")
# The kinds that an item of a list may have.
KINDS = {
    "element": ("step", "flow", "split", "decision"),
    "flow of a split": ("flow",),
    "transition element": ("next", "end", "fail", "stop"),
}


def members_of(form: str) -> Forms:
    """The members of an object; of one whose kind can't be read none."""
    return JOBS if form == CATALOGUE else FORMS.get(form, {})


def likely(word: str, words: Iterable[str]) -> str:
    """The word that was probably meant, or nothing."""
    lower = {known.lower(): known for known in words}
    near = get_close_matches(word.lower().replace("_", "-"), list(lower), 1, 0.6)
    return lower[near[0]] if near else ""


def meant_by(value: Value, form: Form) -> str:
    """The truth value or the number that a text was probably meant to be, or nothing."""
    if not isinstance(value.held, str):
        return ""
    if form.kind is Kind.TRUTH:
        return likely(value.held.strip(), ["true", "false"])
    return value.held if form.kind is Kind.NUMBER and WHOLE.fullmatch(value.held) else ""


def quoted(words: tuple[str, ...]) -> str:
    *most, last = (f'"{word}"' for word in words)
    return f"{', '.join(most)} or {last}" if most else last
