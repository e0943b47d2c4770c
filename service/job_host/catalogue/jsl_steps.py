"""Turns JSL into a catalogue, and keeps what the worker of a step has to know that has no place in that.

These are the listeners of a step, and of a chunk what is skipped and tried again, and when a checkpoint is taken. A form that
is allowed by its name is left out all the same, with those that mean nothing without it.
"""

from __future__ import annotations

from collections.abc import Collection, Sequence
from typing import Any

from job_host.catalogue.file import NamedArtifact
from job_host.catalogue.forms import MOST_COUNT, likely, quoted
from job_host.catalogue.jobs import Steps
from job_host.catalogue.jsl import EXCEPTION_CLASSES, REFUSED, block, number, same
from job_host.catalogue.jsl_properties import PropertiesTranslator
from job_host.catalogue.jsl_substitution import Scope
from job_host.catalogue.jsl_text import XmlElement
from job_host.catalogue.text import Value
from job_host.catalogue.tree import shown

SKIPPABLE, RETRYABLE, WITHOUT_ROLLBACK = EXCEPTION_CLASSES
POLICY, ALGORITHM, TIME_LIMIT = "checkpoint-policy", "checkpoint-algorithm", "time-limit"
SKIP = ("skip-limit", SKIPPABLE)
RETRY = ("retry-limit", RETRYABLE, WITHOUT_ROLLBACK)
ITEM, CUSTOM = "item", "custom"
# No file has a longer name.
MOST_REF_BYTES = 255


class StepsTranslator(PropertiesTranslator):
    """Translates one job. `steps` has what a claim tells of its steps then, and `artifacts` the executables that it names."""

    reasons = {**REFUSED, "listeners": "no listener of a job is called, but those of its steps are"}

    def __init__(self, allowed: Collection[str]) -> None:
        super().__init__(allowed)
        self.steps: Steps = {}
        self.artifacts: list[NamedArtifact] = []
        self._step: dict[str, Any] = {}
        self._use = ""

    def element(self, element: XmlElement, scope: Scope) -> Value:
        around, self._step = self._step, {}
        made = super().element(element, scope)
        if self._step:
            self.steps[made.text("id") or ""] = self._step
        self._step = around
        return made

    def use_of(self, element: XmlElement) -> str:
        return self._use if element.name == "listener" else super().use_of(element)

    def listeners(self, element: XmlElement, scope: Scope) -> None:
        for listeners in element.named("listeners"):
            if element.name == "job":
                self.without("listeners", listeners.at, block(listeners))
            elif "listeners" in self.allowed:
                self.leave_out(listeners.at, f"{block(listeners)}: {REFUSED['listeners']}")
            else:
                self.look(listeners, "listeners")
                self.keep_listeners(list(listeners.named("listener")), scope)

    def keep_listeners(self, listeners: Sequence[XmlElement], scope: Scope) -> None:
        if listeners:
            self._step["listeners"] = [self.listener(child, place, scope) for place, child in enumerate(listeners, 1)]

    def listener(self, element: XmlElement, place: int, scope: Scope) -> dict[str, str]:
        self._use = f"listener-{place}"
        return {"ref": self.named_artifact(element, scope), "use": self._use}

    def named_artifact(self, element: XmlElement, scope: Scope) -> str:
        """The name of an artifact that the catalogue doesn't have. Its properties are kept."""
        ref = self.needed(element, "ref", scope)
        if len(ref.encode()) > MOST_REF_BYTES:
            at = element.attributes["ref"].value.at
            self.refuse(at, f'expected at most {MOST_REF_BYTES} bytes as "ref" of <{element.name}>, found more')
        elif ref:
            self.artifacts.append(NamedArtifact(element.attributes["ref"].value.at, self.owner, ref))
        self.scope_of(element, scope)
        return ref

    def needed(self, element: XmlElement, name: str, scope: Scope) -> str:
        """The text of an element's one attribute, which may not be empty."""
        self.look(element, element.name)
        count = len(self.refused)
        text = str(self.attribute(element, name, scope, same).held) if name in element.attributes else ""
        if not text and len(self.refused) == count:
            found = "an empty one" if name in element.attributes else "none"
            self.refuse(element.at, f'expected "{name}" in <{element.name}>, found {found}')
        return text

    def beside_chunk(self, element: XmlElement, scope: Scope) -> None:
        told: dict[str, Any] = {}
        self.checkpoints(element, scope, told)
        self.handled(element, scope, told, SKIP)
        self.handled(element, scope, told, RETRY)
        if told:
            self._step["chunk"] = told

    def are_left_out(self, element: XmlElement, names: Collection[str]) -> bool:
        """Whether forms are left out, as one of them is allowed by its name. Then each of them is named."""
        if not set(names) & set(self.allowed):
            return False
        for name in [name for name in names if name in element.attributes]:
            self.leave_attribute_out(element, name, REFUSED[name])
        for child in element.named(*names):
            self.leave_out(child.at, f"{block(child)}: {REFUSED[child.name]}")
        return True

    def leave_attribute_out(self, element: XmlElement, name: str, reason: str) -> None:
        member = element.attributes[name]
        self.leave_out(member.at, f"{name}={shown(str(member.value.held))}: {reason}")

    def checkpoints(self, element: XmlElement, scope: Scope, told: dict[str, Any]) -> None:
        """The checkpoint policy, with its algorithm or its seconds."""
        if self.are_left_out(element, (POLICY, ALGORITHM)):
            policy = ITEM
        else:
            policy = self.policy(element, scope)
            self.algorithm(element, scope, told, policy)
        if policy == CUSTOM and TIME_LIMIT in element.attributes:
            self.leave_attribute_out(element, TIME_LIMIT, "the checkpoint algorithm says when a group ends")
        elif not self.are_left_out(element, (TIME_LIMIT,)):
            seconds = self.count(element, TIME_LIMIT, scope)
            if seconds:
                told[TIME_LIMIT] = seconds
            elif seconds == 0:
                self.leave_attribute_out(element, TIME_LIMIT, "it is the default")

    def policy(self, element: XmlElement, scope: Scope) -> str:
        if POLICY not in element.attributes:
            return ITEM
        member = element.attributes[POLICY]
        policy = str(self.attribute(element, POLICY, scope, same).held)
        if policy == ITEM:
            self.leave_out(member.at, f'{POLICY}="{ITEM}": it is the default')
        elif policy != CUSTOM:
            told = f'expected {quoted((ITEM, CUSTOM))} as "{POLICY}", found {shown(policy)}'
            self.refuse(member.value.at, told, likely(policy, [ITEM, CUSTOM]))
        elif not any(element.named(ALGORITHM)):
            self.refuse(member.value.at, f'expected <{ALGORITHM}> beside {POLICY}="{CUSTOM}", found none')
        return policy

    def algorithm(self, element: XmlElement, scope: Scope, told: dict[str, Any], policy: str) -> None:
        for child in element.named(ALGORITHM):
            if policy == CUSTOM:
                told[ALGORITHM] = {"ref": self.named_artifact(child, scope)}
            else:
                self.leave_out(child.at, f'{block(child)}: it is asked nothing without {POLICY}="{CUSTOM}"')

    def handled(self, element: XmlElement, scope: Scope, told: dict[str, Any], names: tuple[str, ...]) -> None:
        """What is skipped, or tried again, and how often: names of the limit, and of the classes that it limits."""
        limit, classes, *others = names
        if self.are_left_out(element, names):
            return
        if not any(element.named(classes)):
            for other in element.named(*others):
                self.leave_out(other.at, f"{block(other)}: nothing is tried again without <{classes}>")
            if limit in element.attributes:
                self.leave_attribute_out(element, limit, f"it limits nothing without <{classes}>")
            return
        most = self.count(element, limit, scope)
        told |= {} if most is None else {limit: most}
        told |= {child.name: self.classes(child, scope) for child in element.named(classes, *others)}

    def classes(self, element: XmlElement, scope: Scope) -> dict[str, list[str]]:
        self.look(element, element.name)
        told = dict[str, list[str]]()
        for child in element.named("include", "exclude"):
            told.setdefault(child.name, []).append(self.needed(child, "class", scope))
        return told

    def count(self, element: XmlElement, name: str, scope: Scope) -> int | None:
        """The number of an attribute, none without it. What is none is refused."""
        if name not in element.attributes:
            return None
        value = self.attribute(element, name, scope, number)
        if isinstance(value.held, int) and value.held <= MOST_COUNT:
            return value.held
        self.refuse(value.at, f'expected a whole number from 0 to {MOST_COUNT} as "{name}", found {shown(str(value.held))}')
        return None
