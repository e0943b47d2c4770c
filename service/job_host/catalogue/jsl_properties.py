"""Turns JSL into a catalogue, and keeps the properties that have no place in that.

Of an attribute that the catalogue has, a property is written out at once. So nothing may stand there that is known only after a
start, unless it has a default that is to count.
"""

from __future__ import annotations

from collections.abc import Collection
from dataclasses import replace

from job_host.catalogue.forms import quoted
from job_host.catalogue.jsl import ATTRIBUTES, Convert, Translator, number
from job_host.catalogue.jsl_substitution import EXPRESSION, JOB_PROPERTIES, Resolved, Scope, operation_of, resolve
from job_host.catalogue.jsl_text import XmlElement
from job_host.catalogue.properties import ElementProperties, JobProperties, Pairs
from job_host.catalogue.text import Members, Value
from job_host.catalogue.tree import shown
from job_host.protocol.late_texts import SYSTEM_PROPERTIES

# Characters that the properties of one element, or an attribute, may come to.
MOST_CHARACTERS = 262_144
DECIDER = "decider"


class PropertiesTranslator(Translator):
    """Translates one job. `kept` has its properties then."""

    def __init__(self, allowed: Collection[str]) -> None:
        super().__init__(allowed)
        self.kept = JobProperties()
        self._current = ElementProperties()
        self._partition_at: dict[int, int] = {}
        self._inside: Scope = {}
        self._left = 0

    def element(self, element: XmlElement, scope: Scope) -> Value:
        around, self._current = self._current, ElementProperties()
        made = super().element(element, scope)
        if self._current != ElementProperties():
            self.kept.elements[made.text("id") or ""] = self._current
        self._current = around
        return made

    def scope_of(self, element: XmlElement, scope: Scope) -> Scope:
        """The properties that are known inside an element. The partitions of a plan don't see one another's."""
        inner = scope
        for properties in element.named("properties"):
            pairs, inner = self.pairs_of(properties, scope)
            self.keep(element, properties, pairs, scope)
        if element.name in ("step", "decision"):
            self._inside = inner
        self.listeners(element, inner)
        return inner

    def keep(self, element: XmlElement, properties: XmlElement, pairs: Pairs, scope: Scope) -> None:
        if element.name == "plan":
            self.keep_of_partition(properties, pairs, scope)
            return
        if "partition" in properties.attributes:
            self.leave_out(properties.attributes["partition"].at, "`partition`: only a plan has partitions")
        if element.name == "job":
            self.kept.own = pairs
        elif element.name == "step":
            self._current.own = pairs
        else:
            self._current.artifacts[self.use_of(element)] = pairs

    def use_of(self, element: XmlElement) -> str:
        """The name by which a claim tells the properties of an artifact."""
        return DECIDER if element.name == "decision" else element.name

    def keep_of_partition(self, properties: XmlElement, pairs: Pairs, scope: Scope) -> None:
        if "partition" not in properties.attributes:
            self.refuse(properties.at, 'expected "partition" in <properties> of <plan>, found none')
            return
        value = self.attribute(properties, "partition", scope, number)
        if not isinstance(value.held, int):
            self.refuse(value.at, f'expected a whole number as "partition", found {shown(str(value.held))}')
        elif value.held in self._current.plan:
            self.refuse(value.at, f"expected one <properties> of the partition {value.held}, found another one")
        else:
            self._current.plan[value.held] = pairs
            self._partition_at[value.held] = value.at

    def transitions(self, owner: XmlElement, members: Members, scope: Scope) -> None:
        """Those of a step or a decision see its properties, which stand around them."""
        super().transitions(owner, members, scope if owner.name == "flow" else self._inside)

    def plan(self, plan: XmlElement, members: Members, scope: Scope) -> None:
        self._partition_at = {}
        super().plan(plan, members, scope)
        count = members.named["partitions"].value.held
        for partition, at in self._partition_at.items():
            if isinstance(count, int) and partition >= count:
                self.refuse(at, f'expected a partition of the plan\'s {count}, from 0, as "partition", found {partition}')

    def pairs_of(self, properties: XmlElement, scope: Scope) -> tuple[Pairs, Scope]:
        """The properties as they are written, and what is known behind them as far as it is known before a start."""
        self.look(properties, "properties")
        self._left, known, pairs = MOST_CHARACTERS, dict(scope), list[tuple[str, str]]()
        for item in properties.named("property"):
            self.look(item, "property")
            missing = tuple(name for name in ATTRIBUTES["property"] if name not in item.attributes)
            if missing:
                self.refuse(item.at, f"expected {quoted(missing)} in <property>, found none")
                continue
            name, value = (self.of_property(item, attribute, known) for attribute in ATTRIBUTES["property"])
            if SYSTEM_PROPERTIES in name.later:
                form = f'the substitution of {SYSTEM_PROPERTIES} in "name"'
                self.without(SYSTEM_PROPERTIES, item.attributes["name"].value.at, form, "takes it for not given")
            pairs.append((text_of(item, "name"), text_of(item, "value")))
            known[name.text] = value
        return tuple(pairs), known

    def of_property(self, item: XmlElement, attribute: str, known: Scope) -> Resolved:
        """What the name or the value of a property comes to, as far as that is known before a start."""
        at, text = item.attributes[attribute].value.at, text_of(item, attribute)
        if not self.fits(at, attribute, text, known):
            return Resolved("")
        resolved = resolve(text, known)
        self.refuse_wrong(attribute, at, resolved)
        # It is refused here, and not again where it is named. Names that double one another would soon fill a memory, too.
        return replace(resolved, wrong=(), unknown=resolved.unknown[:1])

    def fits(self, at: int, attribute: str, text: str, known: Scope) -> bool:
        """Whether a text stays within the bound, else it is refused: properties that double one another soon fill a memory."""
        operations = [operation_of(found[1]) for found in EXPRESSION.finditer(text)]
        names = [operation[1] for operation in operations if operation is not None and operation[0] == JOB_PROPERTIES]
        self._left -= len(text) + sum(len(known[name].text) for name in names if name in known)
        if self._left < 0:
            self.refuse(at, f'"{attribute}" comes to more than {MOST_CHARACTERS} characters, with what stands before it')
        return self._left >= 0

    def attribute(self, element: XmlElement, name: str, scope: Scope, convert: Convert) -> Value:
        self._left, value = MOST_CHARACTERS, element.attributes[name].value
        if not self.fits(value.at, name, str(value.held), scope):
            return Value(value.at, value.end, "")
        return super().attribute(element, name, scope, convert)

    def substituted(self, name: str, at: int, resolved: Resolved) -> str:
        """The catalogue is fixed. So what is known only after a start may stand there by its default alone."""
        text = super().substituted(name, at, resolved)
        for operator in sorted(resolved.bare & set(self.allowed)):
            self.refuse(at, f'the substitution of {operator} in "{name}" has no place in a catalogue, and it has no default')
        return text


def text_of(element: XmlElement, attribute: str) -> str:
    return str(element.attributes[attribute].value.held)
