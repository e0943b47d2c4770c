"""JSL becomes a catalogue. The samples in `jsl/` follow the chapters of Jakarta Batch 2.1, "Job Specification Language"."""

from __future__ import annotations

import json
import random
import re
import time
from collections.abc import Collection
from pathlib import Path
from typing import Any
from xml.sax.saxutils import quoteattr

import pytest
from catalogue_samples import checked, told
from random_catalogues import Maker, objects_in

from job_host.catalogue import jsl
from job_host.catalogue.file import CatalogueFile, read_data
from job_host.catalogue.jsl_substitution import Resolved, resolve
from job_host.catalogue.text import plain

SAMPLES = Path(__file__).parent / "jsl"
ALLOW = re.compile(r"--allow ([\w-]+)")
# Each element of JSL, with its attributes.
SPECIFICATION = {
    "job": "id restartable version",
    "listeners": "",
    "listener": "ref",
    "properties": "partition",
    "property": "name value",
    "step": "id start-limit allow-start-if-complete next",
    "chunk": "checkpoint-policy item-count time-limit skip-limit retry-limit",
    "reader": "ref",
    "processor": "ref",
    "writer": "ref",
    "checkpoint-algorithm": "ref",
    "skippable-exception-classes": "",
    "retryable-exception-classes": "",
    "no-rollback-exception-classes": "",
    "include": "class",
    "exclude": "class",
    "batchlet": "ref",
    "partition": "",
    "plan": "partitions threads",
    "mapper": "ref",
    "reducer": "ref",
    "collector": "ref",
    "analyzer": "ref",
    "flow": "id next",
    "split": "id next",
    "decision": "id ref",
    "next": "on to",
    "fail": "on exit-status",
    "end": "on exit-status",
    "stop": "on exit-status restart",
}


def step(name: str, ref: str, **more: Any) -> dict[str, Any]:
    return {"kind": "step", "id": name, "batchlet": {"ref": ref}, **more}


LOAD, REPORT = step("load", "loader"), step("report", "mailer")
CHUNK = {"reader": {"ref": "rows"}, "writer": {"ref": "table"}}
INNER = {"kind": "flow", "id": "inside", "elements": [step("copy", "copier")]}
RIGHT = [
    {"kind": "decision", "id": "day", "ref": "day-of-week"},
    {"kind": "split", "id": "inner", "flows": [{"kind": "flow", "id": "innermost", "elements": [INNER]}]},
]
LOAD_FLOW = {"kind": "flow", "id": "left", "elements": [LOAD]}
TRANSITIONS = [
    {"kind": "next", "on": "AGAIN?", "to": "mend"},
    {"kind": "fail", "on": "BAD*"},
    {"kind": "fail", "on": "WORSE", "exit-status": "NO FILE"},
    {"kind": "end", "on": "NOTHING"},
    {"kind": "end", "on": "EMPTY", "exit-status": "NO ROWS"},
    {"kind": "stop", "on": "LATER"},
    {"kind": "stop", "on": "MONDAY", "exit-status": "WAITS", "restart": "report"},
]
DAY = [{"kind": "next", "on": "SUNDAY", "to": "report"}, {"kind": "end", "on": "*"}]
EXCEPTIONS = ["skip-limit", "retry-limit", *jsl.EXCEPTION_CLASSES]
# For each sample the names that have to be allowed, in the order of its text, and the elements of its job then.
EXPECTED: dict[str, tuple[list[str], list[dict[str, Any]]]] = {
    "job": ([], [{**LOAD, "next": "report"}, REPORT]),
    "job_listeners": (["properties", "listeners"], [LOAD]),
    "step": (
        [],
        [
            {**LOAD, "start-limit": 3, "allow-start-if-complete": True, "next": "report"},
            {**REPORT, "start-limit": 0, "allow-start-if-complete": False},
        ],
    ),
    "step_listeners": (["properties", "listeners", "properties"], [LOAD]),
    "chunk": (
        [],
        [
            {"kind": "step", "id": "copy", "next": "plain", "chunk": {**CHUNK, "item-count": 100, "processor": {"ref": "odd"}}},
            {"kind": "step", "id": "plain", "chunk": CHUNK},
        ],
    ),
    "chunk_properties": (
        ["properties"] * 3,
        [{"kind": "step", "id": "copy", "chunk": {**CHUNK, "item-count": 10, "processor": {"ref": "odd"}}}],
    ),
    "checkpoints": (
        ["checkpoint-policy", "time-limit", "checkpoint-algorithm"],
        [{"kind": "step", "id": "copy", "chunk": {**CHUNK, "item-count": 50}}],
    ),
    "exceptions": (EXCEPTIONS, [{"kind": "step", "id": "copy", "chunk": CHUNK}]),
    "partition_plan": ([], [step("print", "printer", next="one", partitions=3), step("one", "printer", partitions=1)]),
    "partition_properties": (
        ["partitionPlan", "properties", "threads", "properties", "properties", "properties"],
        [step("print", "printer", partitions=3)],
    ),
    "partition_mapper": (["mapper", "collector", "analyzer", "reducer"], [step("print", "printer")]),
    "flow": (
        [],
        [
            {
                "kind": "flow",
                "id": "prepare",
                "next": "report",
                "elements": [{**LOAD, "next": "check"}, step("check", "checker")],
                "transitions": [{"kind": "fail", "on": "BAD*", "exit-status": "NO FILE"}],
            },
            REPORT,
        ],
    ),
    "split": (
        [],
        [
            {
                "kind": "split",
                "id": "both",
                "next": "report",
                "flows": [LOAD_FLOW, {"kind": "flow", "id": "right", "elements": RIGHT}],
            },
            REPORT,
        ],
    ),
    "split_that_leads_on": (
        ["transitions-in-split", "transitions-in-split"],
        [
            {
                "kind": "split",
                "id": "both",
                "flows": [LOAD_FLOW, {"kind": "flow", "id": "right", "elements": [step("copy", "copier")]}],
            }
        ],
    ),
    "decision": (
        ["properties"],
        [{**LOAD, "next": "day"}, {"kind": "decision", "id": "day", "ref": "day-of-week", "transitions": DAY}, REPORT],
    ),
    "transitions": (
        [],
        [{**LOAD, "next": "report", "transitions": TRANSITIONS}, step("mend", "mender", next="report"), REPORT],
    ),
    "substitution": (
        ["properties", "jobParameters", "properties", "jobParameters", "systemProperties"],
        [
            step("load", "north-loader", next="report", **{"start-limit": 3}),
            step("report", "north-mailer", transitions=[{"kind": "end", "on": "*", "exit-status": "north-end"}]),
        ],
    ),
    "inheritance": (["inheritance"] * 4 + ["listeners"], [LOAD]),
    "first_version": ([], [LOAD]),
}


def sample(name: str, allowed: Collection[str] = ()) -> CatalogueFile:
    return read_data(name, (SAMPLES / f"{name}.xml").read_bytes(), allowed)


def test_there_is_a_sample_of_each_element_and_attribute() -> None:
    text = "".join(path.read_text() for path in SAMPLES.glob("*.xml"))
    wanted = {(name, attribute) for name, attributes in SPECIFICATION.items() for attribute in attributes.split()}
    tags = re.findall(r"<([\w-]+)((?:\s+[\w:-]+\s*=\s*\"[^\"]*\")*)\s*/?>", text)
    found = {(name, attribute) for name, attributes in tags for attribute in re.findall(r"([\w:-]+)\s*=", attributes)}
    assert wanted <= found
    assert set(SPECIFICATION) <= {name for name, _ in tags}
    assert {path.stem for path in SAMPLES.glob("*.xml")} == set(EXPECTED)


def test_each_form_that_is_refused_has_a_sample() -> None:
    names = {name for allowed, _ in EXPECTED.values() for name in allowed}
    assert names == set(jsl.REFUSED)


@pytest.mark.parametrize("name", EXPECTED)
def test_a_sample_becomes_a_catalogue(tmp_path: Path, name: str) -> None:
    needed, elements = EXPECTED[name]
    data = (SAMPLES / f"{name}.xml").read_bytes()
    refused = checked(tmp_path, data)
    assert [ALLOW.findall(str(note))[0] for note in refused.file.refused] == needed
    assert refused.is_accepted == (not needed)
    found = checked(tmp_path, data, needed)
    assert (found.is_accepted, found.file.refused, found.faults) == (True, [], [])
    job: dict[str, Any] = {"id": "nightly", "elements": elements}
    assert found.file.root is not None
    assert plain(found.file.root) == {"jobs": [job | ({"restartable": False} if name == "job" else {})]}


@pytest.mark.parametrize("name", [name for name, (needed, _) in EXPECTED.items() if len(set(needed)) > 1])
def test_a_form_that_is_not_allowed_stays_refused(name: str) -> None:
    needed = EXPECTED[name][0]
    for left in set(needed):
        found = sample(name, set(needed) - {left})
        assert {ALLOW.findall(str(note))[0] for note in found.refused} == {left}


def test_forms_that_say_nothing_are_named_and_left_out() -> None:
    notes = sample("chunk").told + sample("partition_plan").told
    assert [note.told for note in notes] == [
        'checkpoint-policy="item": it is the default',
        'time-limit="0": it is the default',
        'skip-limit="5": it limits nothing without <skippable-exception-classes>',
        'retry-limit="5": it limits nothing without <retryable-exception-classes>',
        'threads="3": there are no more partitions',
    ]


def of_job(inner: str, more: str = "") -> str:
    return f'<job xmlns="https://jakarta.ee/xml/ns/jakartaee" version="2.0" id="a"{more}>\n{inner}\n</job>'


BATCHLET = '<batchlet ref="ok"/>'
PARTITIONS = '<partition><plan partitions="%s"/></partition>'
FAULTS = [
    (
        of_job(f'<step id="s" nxt="t">{BATCHLET}</step>'),
        '2:14: JSL in job "a", step "s": expected "id", "next", "start-limit" or "allow-start-if-complete" in <step>, '
        'found "nxt"; did you mean `next`?',
    ),
    (
        of_job(f'<stpe id="s">{BATCHLET}</stpe>'),
        '2:1: JSL in job "a": expected <properties>, <listeners>, <decision>, <flow>, <split>, <step> in <job>, found <stpe>; '
        "did you mean `step`?",
    ),
    (
        of_job(f'<step id="s">{BATCHLET}{BATCHLET}</step>'),
        '2:34: JSL in job "a", step "s": expected one <batchlet> in <step>, found another one',
    ),
    (of_job(f'<step id="s">{BATCHLET}text</step>'), '2:34: JSL in job "a", step "s": expected no text in <step>, found `text`'),
    (
        of_job(f'<step id="s">{BATCHLET}<partition/></step>'),
        '2:34: JSL in job "a", step "s": expected <plan> or <mapper> in <partition>, found none of both',
    ),
    (
        of_job(f'<step id="s">{BATCHLET}<x:next xmlns:x="urn:x" on="*" to="s"/></step>'),
        '2:34: JSL in job "a", step "s": expected <properties>, <listeners>, <batchlet>, <chunk>, <partition>, <next>, <end>, '
        "<fail>, <stop> in <step>, found <next> of the namespace urn:x",
    ),
    ('<jobs id="a"/>', "1:1: JSL: expected <job> of JSL, found <jobs>; did you mean `job`?"),
    ('<job xmlns="urn:x" id="a"/>', "1:1: JSL: expected <job> of JSL, found <job> of the namespace urn:x"),
    (
        of_job('<step id="s"><batchlet ref="#{jobParameter[\'x\']}"/></step>'),
        '2:28: JSL in job "a", step "s": expected an expression such as #{jobParameters[\'name\']} in "ref", found '
        "`#{jobParameter['x']}`; did you mean `jobParameters`?",
    ),
    (
        of_job('<step id="s"><batchlet ref="a#{b"/></step>'),
        '2:28: JSL in job "a", step "s": expected an expression such as #{jobParameters[\'name\']} in "ref", found `a#{b`',
    ),
    # What a catalogue may not have is batchctl's fault, at its place in the JSL.
    (
        of_job(f'<step id="s" start-limit="many">{BATCHLET}</step>'),
        '2:26: BadElement in job "a", step "s" (number 0): expected a whole number from 0 to 4294967295 as "start-limit", '
        'found `"many"`',
    ),
    (
        of_job(f'<step id="s" allow-start-if-complete="True">{BATCHLET}</step>'),
        '2:38: BadElement in job "a", step "s" (number 0): expected true or false as "allow-start-if-complete", '
        'found `"True"`; did you mean `true`?',
    ),
    (
        of_job(f'<step id="s">{BATCHLET}{PARTITIONS % 65}</step>'),
        '2:62: BadElement in job "a", step "s" (number 0): expected a whole number from 1 to 64 as "partitions", found `"65"`',
    ),
    (
        of_job('<step id="s"/>'),
        '2:1: BadElement in job "a", step "s" (number 0): expected "batchlet" or "chunk" in the step, found none of both',
    ),
    (of_job(f"<step>{BATCHLET}</step>"), '2:1: BadElement in job "a", step (number 0): expected "id" in the step, found none'),
    (
        of_job(f'<step id="load" next="reprot">{BATCHLET}</step><step id="report">{BATCHLET}</step>'),
        '2:22: NoSuchTarget in job "a", step "load" (number 0): expected the id of an element of the same list, '
        'found "reprot"; did you mean `report`?',
    ),
    (of_job(""), '1:1: Empty in job "a": expected at least one element in the list, found none'),
]


@pytest.mark.parametrize(("text", "fault"), FAULTS)
def test_a_fault_has_its_place_in_the_jsl(tmp_path: Path, text: str, fault: str) -> None:
    found = checked(tmp_path, text)
    assert not found.is_accepted
    assert fault in told(found)


NO_XML = [
    (b"<job", "1:1: JSL: unclosed token"),
    (b"<job></jbo>", "1:8: JSL: mismatched tag"),
    (b"<job id='a' id='b'/>", "1:13: JSL: duplicate attribute"),
    (b"<!DOCTYPE job SYSTEM 'file:///etc/passwd'>\n<job/>", "declared, which JSL has none of"),
    (b"<!DOCTYPE job [<!ENTITY a 'aaaa'><!ENTITY b '&a;&a;'>]><job id='&b;'/>", "declared, which JSL has none of"),
    (b"<job id='\xff'/>", "1:10: JSL: the byte 0xff is not utf-8"),
    (b"<?xml version='1.0' encoding='klingon'?><job/>", "1:1: JSL: there is no encoding 'klingon'"),
    (b"<?xml version='1.0' encoding='undefined'?><job/>", "1:1: JSL: the encoding 'undefined' is none of text"),
    (b"<?xml version='1.0' encoding='unicode_escape'?><job id='\\ud800'/>", "1:1: JSL: the encoding 'unicode_escape' is none"),
    (b"<flow>" * 61 + b"</flow>" * 61, "1:361: JSL: elements are nested deeper than 60"),
]


@pytest.mark.parametrize(("data", "fault"), NO_XML)
def test_what_is_no_xml_is_refused(tmp_path: Path, data: bytes, fault: str) -> None:
    found = checked(tmp_path, data)
    assert (found.is_accepted, found.file.line) == (False, None)
    assert len(told(found)) == 1 and fault in told(found)[0]


@pytest.mark.parametrize("encoding", ["utf-8", "utf-8-sig", "utf-16", "iso-8859-1", "gb18030"])
def test_places_are_characters_in_each_encoding(tmp_path: Path, encoding: str) -> None:
    declared = encoding.removesuffix("-sig")
    text = f'<?xml version="1.0" encoding="{declared}"?>\r\n<job id="é">\r\n<step id="é" next="é">{BATCHLET}</step></job>'
    found = checked(tmp_path, text.encode(encoding))
    assert [note.split(" in ")[0] for note in told(found)] == ["3:19: Loop"]


@pytest.mark.parametrize("encoding", ["utf-8", "utf-8-sig", "utf-16", "shift_jis"])
def test_a_job_in_one_line_keeps_its_attributes(encoding: str) -> None:
    declared = encoding.removesuffix("-sig")
    text = f'<?xml version="1.0" encoding="{declared}"?><job id="表"><step id="s" next="t">{BATCHLET}</step></job>'
    made = read_data("job.xml", text.encode(encoding))
    assert made.root is not None
    assert plain(made.root) == {"jobs": [{"id": "表", "elements": [step("s", "ok", next="t")]}]}


LOST = """<job id="a"><properties><property name="rate" value="3"/><property name="table" value="T"/></properties>
<listeners><listener ref="audit"/></listeners>
<step id="s"><chunk skip-limit="1"><reader ref="r"/><writer ref="w"/><checkpoint-algorithm ref="often"/>
<skippable-exception-classes><include class="java.io.IOException"/></skippable-exception-classes></chunk></step></job>"""


def test_what_is_left_out_is_named_whole() -> None:
    made = read_data("job.xml", LOST.encode(), [*jsl.REFUSED])
    told = [note.told.split(":")[0] for note in made.told]
    assert told == [
        '<properties> of "rate", "table"',
        '<listeners> of "audit"',
        'skip-limit="1"',
        '<checkpoint-algorithm> of "often"',
        '<skippable-exception-classes> of "java.io.IOException"',
    ]
    refused = [note.told.split(" has no place")[0] for note in read_data("job.xml", LOST.encode()).refused]
    assert refused == told


@pytest.mark.parametrize(
    ("text", "expected", "later", "unknown"),
    [
        ("plain", "plain", set(), ()),
        ("#{jobProperties['a']}/#{jobProperties['a']}.txt", "A/A.txt", set(), ()),
        ("#{jobProperties['none']}?:d;e", "de", set(), ("none",)),
        ("#{jobProperties['a']}?:d;e", "Ae", set(), ()),
        ("#{jobParameters['x']}?:#{jobProperties['a']};", "A", {"jobParameters"}, ()),
        ("#{jobProperties['from']}", "dflt", {"jobParameters"}, ()),
        ("#{systemProperties['x']}#{partitionPlan['y']}", "", {"systemProperties", "partitionPlan"}, ()),
        ("a # {b} ?: c;", "a # {b} ?: c;", set(), ()),
        ("#{jobProperties['a']}?:x#{jobProperties['a']}?:y", "A?:xA?:y", set(), ()),
        ("#{jobParameters['x']}?:#{jobParameters['y']}?:d;", "?:d", {"jobParameters"}, ()),
    ],
)
def test_substitution(text: str, expected: str, later: Collection[str], unknown: tuple[str, ...]) -> None:
    scope = {"a": Resolved("A"), "from": resolve("#{jobParameters['x']}?:dflt;", {})}
    assert resolve(text, scope) == Resolved(expected, frozenset(later), unknown)


@pytest.mark.parametrize(
    "text", ["#{" * 40_000, "#{a}?:" * 10_000, "#{a}?:" * 10_000 + "#{;", "#{jobParameters['a']}?:" + "#{a}" * 9_999 + ";"]
)
def test_a_text_of_many_expressions_is_soon_read(text: str) -> None:
    begun = time.process_time()
    assert resolve(text, {}).wrong
    assert time.process_time() - begun < 2


@pytest.mark.parametrize(("text", "wrong"), [("#{a#{b}", ("#{a", "#{b}")), ("#{a", ("#{a",)), ("x#{}", ("#{}",))])
def test_what_is_no_expression_is_named(text: str, wrong: tuple[str, ...]) -> None:
    assert resolve(text, {}).wrong == wrong


def written(members: dict[str, Any]) -> str:
    """An element, a transition element or an artifact of a catalogue as JSL."""
    kind = members["kind"]
    lists = ("elements", "flows", "transitions", "chunk", "batchlet", "partitions", "kind")
    texts = {name: value for name, value in members.items() if name not in lists}
    attributes = "".join(f" {name}={quoteattr(attribute(value), BREAKS)}" for name, value in texts.items())
    inner = [written({"kind": "batchlet", **members["batchlet"]})] if "batchlet" in members else []
    inner += [written_chunk(members["chunk"])] if "chunk" in members else []
    inner += [PARTITIONS % members["partitions"]] if "partitions" in members else []
    inner += [written(item) for name in lists[:3] for item in members.get(name, [])]
    return f"<{kind}{attributes}>\n{''.join(inner)}</{kind}>"


def written_chunk(chunk: dict[str, Any]) -> str:
    count = f' item-count="{chunk["item-count"]}"' if "item-count" in chunk else ""
    parts = [written({"kind": name, **chunk[name]}) for name in ("reader", "processor", "writer") if name in chunk]
    return f"<chunk{count}>{''.join(parts)}</chunk>"


def attribute(value: Any) -> str:
    return str(value).lower() if isinstance(value, bool) else str(value)


BREAKS = {"\n": "&#10;", "\t": "&#9;", "\r": "&#13;"}


def jobs_for_jsl(seed: int) -> list[dict[str, Any]]:
    """Random jobs without what JSL hasn't: the character U+0000, and an empty list of transition elements."""
    made = json.dumps(Maker(random.Random(seed)).catalogue()).replace("\\u0000", "\\u263a")
    jobs: list[dict[str, Any]] = json.loads(made)["jobs"]
    for held in objects_in(jobs):
        if held.get("transitions") == []:
            del held["transitions"]
    return jobs


def test_random_jobs_are_the_same_in_jsl(tmp_path: Path) -> None:
    for job in [job for seed in range(60) for job in jobs_for_jsl(seed)]:
        found = checked(tmp_path, written({"kind": "job", **job}))
        assert (found.is_accepted, found.file.refused, found.file.told) == (True, [], [])
        assert found.file.root is not None
        assert plain(found.file.root) == {"jobs": [job]}
