"""A JSON Schema of catalogues, for editors, made from the table of forms. What it can't say is batchctl's to say."""

from __future__ import annotations

from typing import Any

from job_host.catalogue.forms import FORMS, KINDS, TASKS, Form, Kind

DRAFT = "https://json-schema.org/draft/2020-12/schema"
TYPES = {Kind.TEXT: "string", Kind.TRUTH: "boolean", Kind.NUMBER: "integer", Kind.LIST: "array", Kind.OBJECT: "object"}

Schema = dict[str, Any]


def reference(name: str) -> Schema:
    return {"$ref": f"#/$defs/{name.replace(' ', '-')}"}


def of_member(form: Form) -> Schema:
    if form.kind is Kind.OBJECT:
        return reference(form.inside)
    schema: Schema = {"type": TYPES[form.kind]}
    if form.kind is Kind.NUMBER:
        schema |= {"minimum": form.least, "maximum": form.most}
    if form.kind is Kind.LIST:
        schema["items"] = reference(form.inside)
    return schema


def of_object(name: str) -> Schema:
    members = FORMS[name]
    properties = {member: of_member(form) for member, form in members.items()}
    if "kind" in members:
        properties["kind"] = {"const": kind_of(name)}
    required = [member for member, form in members.items() if not form.is_optional]
    schema: Schema = {"type": "object", "properties": properties, "required": required, "additionalProperties": False}
    return schema | ({"oneOf": [{"required": [task]} for task in TASKS]} if name == "step" else {})


def kind_of(name: str) -> str:
    """The kind of an object: the flows of a split have a name of their own among the lists."""
    return KINDS[name][0] if name in KINDS else name


def schema_of_catalogues() -> Schema:
    objects = {name.replace(" ", "-"): of_object(name) for name in FORMS}
    lists = {
        name.replace(" ", "-"): {"oneOf": [reference(kind) for kind in kinds]}
        for name, kinds in KINDS.items()
        if name not in FORMS
    }
    jobs = {"type": "array", "items": reference("job")}
    root = {"type": "object", "properties": {"jobs": jobs}, "required": ["jobs"], "additionalProperties": False}
    return {"$schema": DRAFT, "title": "a catalogue of jobs", **root, "$defs": objects | lists}
