"""Turns JSL (Jakarta Batch 2.1, "Job Specification Language") into a catalogue.

A form that has no place in a catalogue is named. If a job would do something else without it, it is refused, unless it is
allowed by its name: then it is left out. What is at fault in a catalogue is for batchctl to say.
"""

from __future__ import annotations

import re
from collections.abc import Callable, Collection, Iterable, Mapping
from dataclasses import dataclass, field

from job_host.catalogue.faults import NOBODY, Note, Owner
from job_host.catalogue.forms import likely, quoted
from job_host.catalogue.jsl_substitution import JOB_PROPERTIES, OPERATORS, Resolved, Scope, has_expression, resolve
from job_host.catalogue.jsl_text import XmlElement
from job_host.catalogue.text import Members, Value
from job_host.catalogue.tree import shown

JSL = "JSL"
LEFT_OUT = "left out"
WRITTEN_OUT = "written out"
WHOLE = re.compile(r"[0-9]{1,20}")

# The forms that are refused unless they are allowed, by the names that allow them.
REFUSED = {
    "properties": "artifacts are handed no properties",
    "listeners": "no listener is called",
    "jobParameters": "a job parameter is known only after the start",
    "systemProperties": "a system property is known only after the start",
    "partitionPlan": "a property of a partition is known only after the start",
    "checkpoint-policy": "a checkpoint is taken after each `item-count` items",
    "checkpoint-algorithm": "a checkpoint is taken after each `item-count` items",
    "time-limit": "a checkpoint is taken after each `item-count` items",
    "skip-limit": "no exception is skipped",
    "retry-limit": "nothing is tried again but by a restart",
    "skippable-exception-classes": "no exception is skipped",
    "retryable-exception-classes": "nothing is tried again but by a restart",
    "no-rollback-exception-classes": "nothing is tried again but by a restart",
    "threads": "as many partitions run at a time as workers claim",
    "mapper": "the number of partitions stands in the catalogue",
    "collector": "partitions hand nothing to their step",
    "analyzer": "partitions hand nothing to their step",
    "reducer": "partitions hand nothing to their step",
    "transitions-in-split": "a flow that stands directly in a split leads nowhere by itself",
    "inheritance": "no job takes over another one's elements",
}
INHERITANCE = ("abstract", "parent", "jsl-name", "merge")
TRANSITIONS = ("next", "end", "fail", "stop")
EXECUTION_ELEMENTS = ("decision", "flow", "split", "step")
TASKS = ("batchlet", "chunk")
EXCEPTION_CLASSES = ("skippable-exception-classes", "retryable-exception-classes", "no-rollback-exception-classes")
# The attributes and the children of each element.
ATTRIBUTES: dict[str, tuple[str, ...]] = {
    "job": ("id", "restartable", "version"),
    "step": ("id", "next", "start-limit", "allow-start-if-complete"),
    "chunk": ("checkpoint-policy", "item-count", "time-limit", "skip-limit", "retry-limit"),
    "plan": ("partitions", "threads"),
    "flow": ("id", "next"),
    "split": ("id", "next"),
    "decision": ("id", "ref"),
    "next": ("on", "to"),
    "end": ("on", "exit-status"),
    "fail": ("on", "exit-status"),
    "stop": ("on", "exit-status", "restart"),
    "batchlet": ("ref",),
    "reader": ("ref",),
    "processor": ("ref",),
    "writer": ("ref",),
    "property": ("name", "value"),
    "properties": ("partition",),
    "partition": (),
    "listeners": (),
    "listener": ("ref",),
    "checkpoint-algorithm": ("ref",),
    **dict.fromkeys(EXCEPTION_CLASSES, ()),
    "include": ("class",),
    "exclude": ("class",),
}
CHILDREN: dict[str, tuple[str, ...]] = {
    "job": ("properties", "listeners", *EXECUTION_ELEMENTS),
    "step": ("properties", "listeners", *TASKS, "partition", *TRANSITIONS),
    "chunk": ("reader", "processor", "writer", "checkpoint-algorithm", *EXCEPTION_CLASSES),
    "partition": ("mapper", "plan", "collector", "analyzer", "reducer"),
    "plan": ("properties",),
    "flow": (*EXECUTION_ELEMENTS, *TRANSITIONS),
    "split": ("flow",),
    "decision": ("properties", *TRANSITIONS),
    "batchlet": ("properties",),
    "reader": ("properties",),
    "processor": ("properties",),
    "writer": ("properties",),
    "properties": ("property",),
    "listeners": ("listener",),
    "listener": ("properties",),
    "checkpoint-algorithm": ("properties",),
    **dict.fromkeys(EXCEPTION_CLASSES, ("include", "exclude")),
}
MANY = (*EXECUTION_ELEMENTS, *TRANSITIONS, "property", "listener", "include", "exclude")
SEVERAL_PROPERTIES = "plan"

Convert = Callable[[str], str | int | bool]


@dataclass
class Translation:
    """A job as a value with its places, the forms that keep it from being one, and what was left out."""

    value: Value
    refused: list[Note] = field(default_factory=list)
    told: list[Note] = field(default_factory=list)


def truth(text: str) -> str | bool:
    return {"true": True, "false": False}.get(text.strip(), text)


def number(text: str) -> str | int:
    return int(text) if WHOLE.fullmatch(text.strip()) else text


def same(text: str) -> str:
    return text


def tag_of(element: XmlElement) -> str:
    return f"<{element.name}>" if element.is_jsl else f"<{element.name}> of the namespace {element.namespace}"


def block(element: XmlElement) -> str:
    """An element with what is lost if it is left out."""
    own = element.attributes.get("ref")
    said = [str(own.value.held)] if own is not None else list(element.said())
    return f"<{element.name}> of {', '.join(map(shown, said))}" if said else f"<{element.name}>"


def meant(element: XmlElement, names: list[str]) -> str:
    """The element that was probably meant, or nothing."""
    return likely(element.name, [name for name in names if name != element.name])


def no_job(root: XmlElement) -> Note | None:
    """What is wrong if the root of a file is no job."""
    if root.name == "job" and root.is_jsl:
        return None
    return Note(JSL, root.at, NOBODY, f"expected <job> of JSL, found {tag_of(root)}", meant(root, ["job"]))


def tags(names: Iterable[str]) -> str:
    return ", ".join(f"<{name}>" for name in names) or "no element"


class Translator:
    """Translates one job. `allowed` has the names of forms that may be left out, and `reasons` say what is lost then."""

    reasons: Mapping[str, str] = REFUSED

    def __init__(self, allowed: Collection[str]) -> None:
        self.allowed = allowed
        self.refused: list[Note] = []
        self.told: list[Note] = []
        self.owner = Owner()
        self.name = ""

    def refuse(self, at: int, told: str, near: str = "") -> None:
        self.refused.append(Note(JSL, at, self.owner, told, near))

    def leave_out(self, at: int, told: str) -> None:
        self.told.append(Note(LEFT_OUT, at, self.owner, told))

    def without(self, name: str, at: int, form: str, allowed: str = "leaves it out") -> None:
        """A form that has no place here, and without which a job does something else."""
        if name in self.allowed:
            self.leave_out(at, f"{form}: {self.reasons[name]}")
        else:
            self.refuse(at, f"{form} has no place in a catalogue: {self.reasons[name]} (--allow {name} {allowed})")

    def job(self, root: XmlElement) -> Translation:
        self.name = self.name_of(root)
        self.owner = Owner(told=self.name)
        members = self.begin(root, "job", {}, {"id": same, "restartable": truth})
        scope = self.scope_of(root, {})
        members.put("elements", root.at, self.elements(root, scope))
        refused, told = (sorted(notes, key=lambda note: note.at) for notes in (self.refused, self.told))
        return Translation(Value(root.at, root.value.end, members), refused, told)

    def name_of(self, element: XmlElement) -> str:
        identity = element.attributes.get("id")
        return f"{element.name} {shown(str(identity.value.held))}" if identity is not None else f"<{element.name}>"

    def begin(self, element: XmlElement, kind: str, scope: Scope, converts: dict[str, Convert]) -> Members:
        """The members that an element's attributes are; and what it has that JSL hasn't is refused."""
        self.look(element, kind)
        members = Members()
        if kind in (*EXECUTION_ELEMENTS, *TRANSITIONS):
            members.put("kind", element.at, Value(element.at + 1, element.value.end, kind))
        for name, convert in converts.items():
            if name in element.attributes:
                members.put(name, element.attributes[name].at, self.attribute(element, name, scope, convert))
        return members

    def attribute(self, element: XmlElement, name: str, scope: Scope, convert: Convert) -> Value:
        """An attribute's value after substitution."""
        value = element.attributes[name].value
        text = str(value.held)
        if has_expression(text):
            text = self.substituted(name, value.at, resolve(text, scope))
        return Value(value.at, value.end, convert(text))

    def substituted(self, name: str, at: int, resolved: Resolved) -> str:
        self.refuse_wrong(name, at, resolved)
        if resolved.unknown:
            unknown = ", ".join(map(shown, resolved.unknown))
            self.leave_out(at, f'{JOB_PROPERTIES} in "{name}" has no {unknown}: it is the empty text')
        for operator in sorted(resolved.later):
            self.without(operator, at, f'the substitution of {operator} in "{name}"', "takes it for not given")
        if not resolved.wrong and resolved.later <= set(self.allowed):
            self.told.append(Note(WRITTEN_OUT, at, self.owner, f'substitution in "{name}": {shown(resolved.text)}'))
        return resolved.text

    def refuse_wrong(self, name: str, at: int, resolved: Resolved) -> None:
        for wrong in resolved.wrong[:1]:
            near = likely(wrong.strip("#{}").split("[")[0], list(OPERATORS))
            self.refuse(at, f"expected an expression such as #{{jobParameters['name']}} in \"{name}\", found `{wrong}`", near)

    def look(self, element: XmlElement, kind: str) -> None:
        """Refuses attributes, children and texts that JSL doesn't have there."""
        self.look_at_attributes(element, kind)
        if element.texts:
            text = element.texts[0]
            self.refuse(text.at, f"expected no text in <{kind}>, found `{str(text.held)[:48]}`")
        seen = set[str]()
        for child in element.children:
            self.look_at_child(child, kind, seen)
            seen.add(child.name)

    def look_at_attributes(self, element: XmlElement, kind: str) -> None:
        for name, member in element.attributes.items():
            if name in INHERITANCE:
                self.without("inheritance", member.at, f'the attribute "{name}"')
            elif name not in ATTRIBUTES[kind]:
                self.unknown(member.at, kind, name, element.attributes)

    def look_at_child(self, child: XmlElement, kind: str, seen: Collection[str]) -> None:
        known = CHILDREN.get(kind, ())
        if child.name not in known or not child.is_jsl:
            near = meant(child, [name for name in known if name in MANY or name not in seen])
            self.refuse(child.at, f"expected {tags(known)} in <{kind}>, found {tag_of(child)}", near)
        elif child.name in seen and child.name not in MANY and kind != SEVERAL_PROPERTIES:
            self.refuse(child.at, f"expected one <{child.name}> in <{kind}>, found another one")

    def unknown(self, at: int, kind: str, name: str, has: Collection[str]) -> None:
        known = ATTRIBUTES[kind]
        expected = quoted(known) if known else "no attribute"
        near = likely(name, [word for word in known if word not in has])
        self.refuse(at, f'expected {expected} in <{kind}>, found "{name}"', near)

    def scope_of(self, element: XmlElement, scope: Scope) -> Scope:
        """The properties that are known inside an element. Its own ones have no other place in a catalogue."""
        self.listeners(element, scope)
        for properties in element.named("properties"):
            scope = self.properties(properties, scope)
        return scope

    def listeners(self, element: XmlElement, scope: Scope) -> None:
        """Those of a job or a step."""
        self.all_without(element, "listeners")

    def all_without(self, owner: XmlElement, *names: str) -> None:
        """Children that have no place here, each by its name."""
        for child in owner.named(*names):
            self.without(child.name, child.at, block(child))

    def properties(self, properties: XmlElement, scope: Scope) -> Scope:
        self.look(properties, "properties")
        self.without("properties", properties.at, block(properties))
        known = dict(scope)
        for item in properties.named("property"):
            self.look(item, "property")
            if "name" in item.attributes and "value" in item.attributes:
                name = resolve(str(item.attributes["name"].value.held), known).text
                known[name] = resolve(str(item.attributes["value"].value.held), known)
        return known

    def elements(self, owner: XmlElement, scope: Scope) -> Value:
        return Value(owner.at, owner.value.end, [self.element(child, scope) for child in owner.named(*EXECUTION_ELEMENTS)])

    def element(self, element: XmlElement, scope: Scope) -> Value:
        """An execution element. What is told meanwhile is told of it."""
        around = self.owner
        self.owner = Owner(told=f"{self.name}, {self.name_of(element)}")
        translate = {"step": self.step, "flow": self.flow, "split": self.split, "decision": self.decision}
        members = translate[element.name](element, scope)
        self.owner = around
        return Value(element.at, element.value.end, members)

    def step(self, element: XmlElement, scope: Scope) -> Members:
        converts: dict[str, Convert] = {"id": same, "next": same, "start-limit": number, "allow-start-if-complete": truth}
        members = self.begin(element, "step", scope, converts)
        inner = self.scope_of(element, scope)
        self.tasks(element, members, inner)
        for partition in element.named("partition"):
            self.partition(partition, members, inner)
        self.transitions(element, members, scope)
        return members

    def tasks(self, step: XmlElement, members: Members, scope: Scope) -> None:
        for task in step.named(*TASKS):
            translate = self.chunk if task.name == "chunk" else self.artifact
            members.put(task.name, task.at, translate(task, scope))

    def artifact(self, element: XmlElement, scope: Scope) -> Value:
        members = self.begin(element, element.name, scope, {"ref": same})
        self.scope_of(element, scope)
        return Value(element.at, element.value.end, members)

    def chunk(self, element: XmlElement, scope: Scope) -> Value:
        members = self.begin(element, "chunk", scope, {"item-count": number})
        for child in element.named("reader", "processor", "writer"):
            members.put(child.name, child.at, self.artifact(child, scope))
        self.beside_chunk(element, scope)
        return Value(element.at, element.value.end, members)

    def beside_chunk(self, element: XmlElement, scope: Scope) -> None:
        """What a chunk has that a catalogue has no place for."""
        self.all_without(element, "checkpoint-algorithm", *EXCEPTION_CLASSES)
        self.chunk_attribute(element, scope, "checkpoint-policy", lambda text: text == "item", "it is the default")
        self.chunk_attribute(element, scope, "time-limit", lambda text: number(text) == 0, "it is the default")
        self.limit(element, scope, "skip-limit", EXCEPTION_CLASSES[0])
        self.limit(element, scope, "retry-limit", EXCEPTION_CLASSES[1])

    def limit(self, element: XmlElement, scope: Scope, name: str, classes: str) -> None:
        has_classes = any(element.named(classes))
        self.chunk_attribute(element, scope, name, lambda _: not has_classes, f"it limits nothing without <{classes}>")

    def chunk_attribute(
        self, element: XmlElement, scope: Scope, name: str, says_nothing: Callable[[str], bool], reason: str
    ) -> None:
        """An attribute that has no place here: one that says nothing is left out."""
        if name not in element.attributes:
            return
        at = element.attributes[name].at
        text = str(self.attribute(element, name, scope, same).held)
        form = f"{name}={shown(text)}"
        if says_nothing(text):
            self.leave_out(at, f"{form}: {reason}")
        else:
            self.without(name, at, form)

    def partition(self, element: XmlElement, members: Members, scope: Scope) -> None:
        self.look(element, "partition")
        self.all_without(element, "mapper", "collector", "analyzer", "reducer")
        for plan in element.named("plan"):
            self.plan(plan, members, scope)
        if not any(element.named("mapper", "plan")):
            self.refuse(element.at, "expected <plan> or <mapper> in <partition>, found none of both")

    def plan(self, plan: XmlElement, members: Members, scope: Scope) -> None:
        """The number of partitions, 1 if the plan names none."""
        given = self.begin(plan, "plan", scope, {"partitions": number}).named
        partitions = given["partitions"].value if "partitions" in given else Value(plan.at, plan.value.end, 1)
        members.put("partitions", partitions.at, partitions)
        self.scope_of(plan, scope)
        if "threads" in plan.attributes:
            at = plan.attributes["threads"].at
            threads = self.attribute(plan, "threads", scope, number).held
            if isinstance(threads, int) and isinstance(partitions.held, int) and threads >= partitions.held:
                self.leave_out(at, f"threads={shown(str(threads))}: there are no more partitions")
            else:
                self.without("threads", at, f"threads={shown(str(threads))}")

    def flow(self, element: XmlElement, scope: Scope) -> Members:
        members = self.begin(element, "flow", scope, {"id": same, "next": same})
        members.put("elements", element.at, self.elements(element, scope))
        self.transitions(element, members, scope)
        return members

    def split(self, element: XmlElement, scope: Scope) -> Members:
        members = self.begin(element, "split", scope, {"id": same, "next": same})
        flows = [self.element(child, scope) for child in element.named("flow")]
        for flow in flows:
            self.end_of_flow(flow)
        members.put("flows", element.at, Value(element.at, element.value.end, flows))
        return members

    def end_of_flow(self, flow: Value) -> None:
        """Takes the `next` and the transition elements of a flow in a split away."""
        members = flow.held.named if isinstance(flow.held, Members) else {}
        for name in [name for name in ("next", "transitions") if name in members]:
            form = f"`next` of the flow {shown(flow.text('id') or '')}"
            if name == "transitions":
                form = f"a transition element of the flow {shown(flow.text('id') or '')}"
            self.without("transitions-in-split", members.pop(name).at, form)

    def decision(self, element: XmlElement, scope: Scope) -> Members:
        members = self.begin(element, "decision", scope, {"id": same, "ref": same})
        self.scope_of(element, scope)
        self.transitions(element, members, scope)
        return members

    def transitions(self, owner: XmlElement, members: Members, scope: Scope) -> None:
        items = [self.transition(child, scope) for child in owner.named(*TRANSITIONS)]
        if items:
            members.put("transitions", items[0].at, Value(items[0].at, items[-1].end, items))

    def transition(self, element: XmlElement, scope: Scope) -> Value:
        members = self.begin(element, element.name, scope, {name: same for name in ATTRIBUTES[element.name]})
        return Value(element.at, element.value.end, members)
