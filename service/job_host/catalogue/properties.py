"""The properties of a job, which stand beside its catalogue, and what they come to at a claim.

Jakarta Batch 2.1, "Job XML Substitution": properties are resolved at their own element, in written order. `jobProperties` sees
the earlier ones there, then those of the elements around it, the innermost first. `partitionPlan` sees the plan's properties of
the work item's partition, within its step. What isn't there is the empty text. `systemProperties` are left to the worker.
"""

from __future__ import annotations

from collections.abc import Mapping
from dataclasses import dataclass, field
from typing import Any, NamedTuple

from job_host.catalogue.jsl_substitution import JOB_PROPERTIES, has_expression, operation_of, pieces
from job_host.protocol.late_texts import SYSTEM_PROPERTIES, Late, completed, defaulted, depth, joined, size, system_property

JOB_PARAMETERS, PARTITION_PLAN = "jobParameters", "partitionPlan"
# Characters of all properties of a claim: a property may name another one several times, and a parameter is of any length.
MOST_CHARACTERS = 2_097_152
MOST_NESTED = 32

Pairs = tuple[tuple[str, str], ...]
Texts = dict[str, Late]


class TooLarge(Exception):
    """What the properties of a work item come to is too large to be handed over."""


@dataclass
class ElementProperties:
    """The properties of a step or decision, as they are written: its own, those of its artifacts by their use, and those of the
    partitions of its plan."""

    own: Pairs = ()
    artifacts: dict[str, Pairs] = field(default_factory=dict)
    plan: dict[int, Pairs] = field(default_factory=dict)


class Settled(NamedTuple):
    """The properties of an element, and all that are known inside it."""

    own: Texts
    scope: Texts


class Settler:
    """Resolves the properties of one work item."""

    def __init__(self, parameters: Mapping[str, str]) -> None:
        self._parameters = parameters
        self._left = MOST_CHARACTERS
        self.plan: Texts = {}

    def settle(self, pairs: Pairs, around: Texts) -> Settled:
        """Raises TooLarge."""
        own, scope = Texts(), dict(around)
        for written, value in pairs:
            # The name of a property is known before a worker is.
            name = completed(self.text(written, scope), {})
            own[name] = scope[name] = self.text(value, scope)
        return Settled(own, scope)

    def text(self, written: str, scope: Texts) -> Late:
        if not has_expression(written):
            return self._spend(written)
        texts = [self._spend(one) if isinstance(one, str) else self._expression(*one, scope) for one in pieces(written)]
        text = joined(texts)
        if depth(text) > MOST_NESTED:
            raise TooLarge(f"defaults nest deeper than {MOST_NESTED}")
        return text

    def _expression(self, operation: str, default: str | None, scope: Texts) -> Late:
        principal = self._spend(self._operand(operation, scope))
        if default is None or (isinstance(principal, str) and principal):
            return principal
        return defaulted(principal, self.text(default, scope))

    def _operand(self, operation: str, scope: Texts) -> Late:
        operator, name = operation_of(operation) or ("", "")
        if operator == SYSTEM_PROPERTIES:
            return system_property(name)
        known: Mapping[str, Mapping[str, Late]] = {
            JOB_PARAMETERS: self._parameters,
            JOB_PROPERTIES: scope,
            PARTITION_PLAN: self.plan,
        }
        return known.get(operator, {}).get(name, "")

    def _spend(self, text: Late) -> Late:
        self._left -= size(text)
        if self._left < 0:
            raise TooLarge(f"they come to more than {MOST_CHARACTERS} characters")
        return text


@dataclass
class JobProperties:
    """The properties of a job as they are written, those of its steps and decisions by their ids."""

    own: Pairs = ()
    elements: dict[str, ElementProperties] = field(default_factory=dict)

    def at_claim(self, work: Mapping[str, Any], parameters: Mapping[str, str]) -> dict[str, Texts]:
        """What a work item is handed: the properties of its job, of its step, and of each of its artifacts. Raises TooLarge."""
        element = self.elements.get(work["element"], ElementProperties())
        settler = Settler(parameters)
        job = settler.settle(self.own, {})
        partition = element.plan.get(work.get("partition", -1))
        if partition is not None:
            # A plan is resolved before its partitions are.
            settler.plan = settler.settle(partition, settler.settle(element.own, job.scope).scope).own
        step = settler.settle(element.own, job.scope)
        artifacts = {use: settler.settle(pairs, step.scope).own for use, pairs in element.artifacts.items()}
        told = {"job": job.own, "step": step.own, **artifacts}
        return {use: texts for use, texts in told.items() if texts}
