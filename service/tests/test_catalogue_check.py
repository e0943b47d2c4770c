"""`jobhost catalogue check` gives batchctl's verdict, and says where a fault stands and what was expected."""

from __future__ import annotations

import itertools
import json
import os
import random
import re
from collections import Counter
from pathlib import Path
from typing import Any

import pytest
from catalogue_samples import BATCHCTL, checked, one_job, step, told
from random_catalogues import random_catalogue
from told_faults import told_wrongly

from job_host.catalogue.check import Checked, check, first_fault
from job_host.catalogue.faults import NoVerdict
from job_host.catalogue.file import CatalogueFile, read_json
from job_host.catalogue.finder import MORE, MOST_OF_A_FILE, MOST_OF_A_JOB
from job_host.catalogue.jobs import read_file
from job_host.catalogue.paths import spot_of, steps_of
from job_host.catalogue.text import MOST_LINE_BYTES, Reader, Source, one_line
from job_host.catalogue.verdicts import ask
from job_host.catalogue.warnings import covers

RANDOM = int(os.environ.get("JOBHOST_RANDOM_CATALOGUES", "100"))
SEED = int(os.environ.get("JOBHOST_SEED", "11"))


def test_random_catalogues_are_told_as_batchctl_says() -> None:
    named = Counter[str]()
    for number in range(RANDOM):
        made = random_catalogue(random.Random(f"{SEED}-{number}"))
        name, wrong = told_wrongly(BATCHCTL, made.data)
        assert not wrong, (number, wrong, made)
        named[name] += 1
    assert len(named) > 6 and named["accepted"]


def test_a_line_at_its_bound_and_one_above_it(tmp_path: Path) -> None:
    """White space doesn't count: the line is what batchctl is handed."""
    frame = len(one_line(one_job(step("s", next="")).encode()))
    for size, name in ((MOST_LINE_BYTES, "TextTooLong"), (MOST_LINE_BYTES + 1, "NotACatalogue")):
        found = checked(tmp_path, one_job(step("s", next="x" * (size - frame))) + " " * 100)
        assert (len(found.file.line or b""), found.faults[0].name) == (size, name)
    assert str(found.faults[0]) == "NotACatalogue: expected a line of at most 16777216 bytes, found 16777217"


def job_of(elements: str) -> str:
    return '{"jobs": [{"id": "a", "elements": [' + elements + "]}]}"


# The mark stands in front of what is at fault.
MARK = "▸"
OK = '"batchlet": {"ref": "ok"}'
CHUNK = '"chunk": {"reader": {"ref": "r"}, "writer": {"ref": "w"}}'
S = '{"kind": "step", "id": "s", ' + OK
T = '{"kind": "step", "id": "t", ' + OK
MEMBERS = '"kind", "id", "next", "start-limit", "allow-start-if-complete", "partitions", "batchlet", "chunk" or "transitions"'
LIMIT = 'a whole number from 0 to 4294967295 as "start-limit"'
IN_S = 'in job "a", step "s" (number 0)'
SAME_LIST = "expected the id of an element of the same list"
FAULTS = [
    (job_of(S + ', ▸"nxt": "t"}'), f'BadElement {IN_S}: expected {MEMBERS} in the step, found "nxt"; did you mean `next`?'),
    (
        job_of('{"kind": "step", "id": "s", ▸"bachlet": {"ref": "ok"}}'),
        f'BadElement {IN_S}: expected {MEMBERS} in the step, found "bachlet"; did you mean `batchlet`?',
    ),
    (
        job_of('{"kind": ▸"stp", "id": "s"}'),
        'BadElement in job "a", element "s" (number 0): expected "step", "flow", "split" or "decision" as "kind", '
        'found `"stp"`; did you mean `step`?',
    ),
    (job_of("▸7"), 'BadElement in job "a", element (number 0): expected an object, an element, found `7`'),
    (job_of(S + ', "start-limit": ▸"3"}'), f'BadElement {IN_S}: expected {LIMIT}, found `"3"`; did you mean `3`?'),
    (job_of(S + ', "start-limit": ▸-1}'), f"BadElement {IN_S}: expected {LIMIT}, found `-1`"),
    (job_of(S + ', "start-limit": ▸1.0}'), f"BadElement {IN_S}: expected {LIMIT}, found `1.0`"),
    (job_of(S + ', "next": ▸null}'), f'BadElement {IN_S}: expected a text as "next", found `null`'),
    (
        job_of(S + ', "partitions": ▸65}'),
        f'BadElement {IN_S}: expected a whole number from 1 to 64 as "partitions", found `65`',
    ),
    (
        '{"jobs": [{"id": "a", "restartable": ▸"False", "elements": [' + S + "}]}]}",
        'BadElement in job "a": expected true or false as "restartable", found `"False"`; did you mean `false`?',
    ),
    (
        job_of('▸{"kind": "step", "id": "s"}'),
        f'BadElement {IN_S}: expected "batchlet" or "chunk" in the step, found none of both',
    ),
    (job_of(f"{S}, ▸{CHUNK}}}"), f'BadElement {IN_S}: expected "batchlet" or "chunk" in the step, found both'),
    (
        job_of('{"kind": "step", "id": "s", "chunk": ▸{"reader": {"ref": "r"}}}'),
        f'BadElement {IN_S}: expected "writer" in the chunk, found none',
    ),
    (
        job_of(S + ', "transitions": [{"kind": "end", "on": "*", ▸"exit_status": "x"}]}'),
        f'BadElement {IN_S}: expected "kind", "on" or "exit-status" in the end, found "exit_status"; '
        "did you mean `exit-status`?",
    ),
    (
        job_of('{"kind": "split", "id": "p", "flows": [{"kind": "flow", "id": "f", ▸"next": "x", "elements": [' + S + "}]}]}"),
        'BadElement in job "a", flow of a split "f" (number 1): expected "kind", "id" or "elements" in the flow of a split, '
        'found "next"',
    ),
    ('{▸"Jobs": []}', 'NotACatalogue: expected "jobs" alone, found "Jobs"; did you mean `jobs`?'),
    ('{"jobs": ▸{}}', 'NotACatalogue: expected a list as "jobs", found `{}`'),
    (
        job_of('{"kind": "split", "id": "p", "flows": [{▸"kinx": "flow", "id": "f", "elements": [' + S + "}]}]}"),
        'BadElement in job "a", element "f" (number 1): expected "kind", "id" or "elements" in the flow of a split, '
        'found "kinx"; did you mean `kind`?',
    ),
    ("▸[]", 'NotACatalogue: expected an object with the member "jobs", found `[]`'),
    ('{"jobs": [▸7]}', "BadElement in job number 0: expected an object, the job, found `7`"),
    (job_of("\n\t" + S + "▸,}"), "NotJson: expected no comma in front of `}`, found `,`"),
    (
        job_of(S + ', "next": ▸"' + "é" * 129 + '"}'),
        f'TextTooLong {IN_S}: expected at most 256 bytes as "next", found 258',
    ),
    (
        job_of('{"kind": "step", "id": ▸"", ' + OK + "}"),
        'Empty in job "a", step "" (number 0): expected a text that is not empty as "id", found an empty one',
    ),
    ('{"jobs": [{"id": "a", "elements": ▸[]}]}', 'Empty in job "a": expected at least one element in the list, found none'),
    (
        job_of('{"kind": "split", "id": "s", "flows": ▸[]}'),
        'Empty in job "a", split "s" (number 0): expected at least one flow of a split in the list, found none',
    ),
    (
        job_of(S + ', "next": "t"},\n' + T + '},\n{"kind": "step", "id": ▸"t", ' + OK + "}"),
        'DuplicateId in job "a", step "t" (number 2): expected an id that no other element of the job has, found "t", which '
        "element number 1 has (2:24)",
    ),
    (
        job_of('{"kind": "step", "id": "s", "next": ▸"reprot", ' + OK + '}, {"kind": "step", "id": "report", ' + OK + "}"),
        f'NoSuchTarget {IN_S}: {SAME_LIST}, found "reprot"; did you mean `report`?',
    ),
    (
        job_of(S + ', "next": ▸"t"}, {"kind": "flow", "id": "f", "elements": [' + T + "}]}"),
        f'NoSuchTarget {IN_S}: {SAME_LIST}, found "t", which stands in another list (element number 2)',
    ),
    (
        job_of(S + ', "next": "t"}, ' + T + ', "transitions": [{"kind": "next", "on": "*", "to": ▸"s"}]}'),
        'Loop in job "a", step "t" (number 1): expected no way that leads round in a list, found "s" -> "t" -> "s"',
    ),
    (job_of(S + ', "next": ▸"s"}'), f'Loop {IN_S}: expected no way that leads round in a list, found "s" -> "s"'),
    (
        job_of(S + ', "transitions": [{"kind": "stop", "on": "*", "restart": ▸"ss"}]}'),
        f'RestartNotJobLevel {IN_S}: expected the id of an element of the job\'s own list, found "ss"; did you mean `s`?',
    ),
    (
        '{"jobs": [{"id": "a", "elements": [' + S + '}]},\n{"elements": [' + S + '}], "id": ▸"a"}]}',
        'DuplicateId in job "a": expected an id that no earlier job has, found "a", which job number 0 has (1:11)',
    ),
]


@pytest.mark.parametrize(("text", "fault"), FAULTS)
def test_a_fault_has_its_place_and_its_words(tmp_path: Path, text: str, fault: str) -> None:
    at = Source("marked", text).place(text.index(MARK))
    found = checked(tmp_path, text.replace(MARK, ""))
    assert not found.is_accepted
    assert told(found)[0] == f"{at}: {fault}"


def test_depth_and_numbers_of_elements_and_jobs(tmp_path: Path) -> None:
    element: dict[str, Any] = step("s")
    for depth in range(16):
        element = {"kind": "flow", "id": f"f{depth}", "elements": [element]}
    deep = checked(tmp_path, one_job(element)).faults
    assert [(fault.name, fault.expected, fault.found) for fault in deep] == [("TooDeep", "depth 16 at most", "17")]
    many = checked(tmp_path, one_job(*[step(f"s{number}") for number in range(1001)])).faults
    assert [(fault.name, fault.owner.element, fault.found) for fault in many] == [("TooMany", 1000, "1001")]
    jobs = [{"id": str(number), "elements": [step("s")]} for number in range(257)]
    faults = checked(tmp_path, json.dumps({"jobs": jobs})).faults
    assert [(fault.name, fault.owner.job, fault.expected) for fault in faults] == [("TooMany", 256, "at most 256 jobs")]


def test_each_fault_is_told_and_batchctls_first(tmp_path: Path) -> None:
    text = one_job(step("s", next="u"), step("t", next="s", partitions=0), {"kind": "step", "id": "u", "batchlet": {"ref": ""}})
    found = checked(tmp_path, text)
    assert found.verdict is not None and found.verdict.answer == {"element": 1, "fault": "BadElement", "job": 0}
    assert [fault.name for fault in found.faults] == ["BadElement", "Empty"]


def test_a_fault_of_a_later_job_is_told_too(tmp_path: Path) -> None:
    jobs = [{"id": "a", "elements": [step("s", next="s")]}, {"id": "b", "elements": []}]
    found = checked(tmp_path, json.dumps({"jobs": jobs}))
    assert [(fault.name, fault.owner.job) for fault in found.faults] == [("Loop", 0), ("Empty", 1)]


def names_of(found: Checked) -> list[tuple[str, int | None]]:
    """The faults of the first job, each with its element."""
    return [(fault.name, fault.owner.element) for fault in found.faults]


X, Y = step("x"), step("y")
# The elements of a job, and which of them are told, in batchctl's order.
REPAIRED: list[tuple[list[Any], list[tuple[str, int | None]]]] = [
    # An object is told once, and those inside it by themselves.
    ([step("s", partitions=0, foo=1, batchlet={"reff": "r"})], [("BadElement", 0), ("BadElement", 0)]),
    ([{"kind": "step", "id": "s", "batchlt": {"ref": "r"}}, step("t", next="u")], [("BadElement", 0), ("NoSuchTarget", 1)]),
    # An id that can't be read may be the one that is meant.
    ([step("s", next="t"), {"kind": "step", "idd": "t", "batchlet": {"ref": "r"}}], [("BadElement", 1)]),
    ([step("s", next="t"), 7], [("BadElement", 1)]),
    ([step("s", next="t"), step("")], [("Empty", 1), ("NoSuchTarget", 0)]),
    # The list of a flow is another one.
    (
        [step("s", next="t"), {"kind": "flow", "id": "f", "elements": [{"kind": "step", "batchlet": {"ref": "r"}}]}],
        [("BadElement", 2), ("NoSuchTarget", 0)],
    ),
    # A second id has another name, by which nothing is looked for.
    ([step("s", next="t"), {"kind": "flow", "id": "f", "elements": [step("t")]}, step("t")], [("DuplicateId", 3)]),
    ([step("s", next="u"), step("t"), step("t")], [("DuplicateId", 2), ("NoSuchTarget", 0)]),
    # Kinds that can't be read, in each list; what stands behind them keeps its number.
    (
        [
            {"kind": "split", "id": "p", "flows": [{"kind": "flw", "id": "f", "elements": [X, Y]}]},
            {"kind": "stp", "id": "s", "next": "u"},
            step("t", transitions=[{"kind": "stp", "on": "*"}, {"kind": "next", "on": "*", "to": "u"}]),
        ],
        [("BadElement", 1), ("BadElement", 2), ("BadElement", 3), ("NoSuchTarget", 3)],
    ),
    ([step("s"), {"kind": "stp", "id": "s"}, step("t", next="u")], [("BadElement", 1), ("NoSuchTarget", 2)]),
    # A loop keeps batchctl from going on in its job.
    ([step("s", next="s", transitions=[{"kind": "stop", "on": "*", "restart": "u"}])], [("Loop", 0)]),
    ([step("s", next="é" * 129), {"kind": "split", "id": "p", "flows": []}], [("TextTooLong", 0), ("Empty", 1)]),
]


@pytest.mark.parametrize(("elements", "told_of"), REPAIRED)
def test_what_a_repair_makes_is_never_told(tmp_path: Path, elements: list[Any], told_of: list[tuple[str, int | None]]) -> None:
    found = checked(tmp_path, one_job(*elements))
    assert names_of(found) == told_of
    assert MORE not in [note.told for note in found.warnings]


def test_of_many_faults_the_first_ones_are_told(tmp_path: Path) -> None:
    many = [step(f"s{number}", next="nowhere") for number in range(MOST_OF_A_JOB + 1)]
    found = checked(tmp_path, one_job(*many))
    assert len(found.faults) == MOST_OF_A_JOB
    assert [(note.told, note.owner.job) for note in found.warnings if note.told == MORE] == [(MORE, 0)]
    assert len(checked(tmp_path, one_job(*many[1:])).faults) == MOST_OF_A_JOB
    # A job that is left out may be at fault beside another one, which isn't told, and batchctl goes on behind it.
    jobs = [{"id": name, "elements": elements} for name, elements in (("a", [X]), ("a", many), ("b", [step("s", next="s")]))]
    found = checked(tmp_path, json.dumps({"jobs": jobs}))
    assert Counter((fault.name, fault.owner.job) for fault in found.faults) == {
        ("NoSuchTarget", 1): MOST_OF_A_JOB,
        ("Loop", 2): 1,
    }
    assert [note.owner.job for note in found.warnings if note.told == MORE] == [1]
    jobs = [{"id": f"j{number}", "elements": [step("s", next="s")]} for number in range(MOST_OF_A_FILE + 1)]
    found = checked(tmp_path, json.dumps({"jobs": jobs}))
    assert [fault.owner.job for fault in found.faults] == list(range(MOST_OF_A_FILE))
    assert [(note.told, note.owner.job) for note in found.warnings if note.told == MORE] == [(MORE, None)]


def test_a_way_to_a_member_is_read() -> None:
    way = 'jobs[2].elements[10]["a b"]["\\"\\u0000]"].start-limit'
    assert steps_of(way) == ("jobs", 2, "elements", 10, "a b", '"\0]', "start-limit")
    assert (steps_of(""), steps_of('[""]')) == ((), ("",))
    for wrong in ("jobs[", "jobs[x]", "jobs..id", "a b", '["a]'):
        with pytest.raises(ValueError, match="is no way to a member"):
            steps_of(wrong)


def test_a_way_is_followed_to_what_the_file_has() -> None:
    text = one_job(step("s"), {"kind": "flow", "id": "f", "elements": [step("t")]})
    root = Reader(text).read()

    def found(way: str) -> tuple[str, str, bool] | None:
        spot = spot_of(root, steps_of(way))
        return None if spot is None else (spot.form, spot.list_kind, spot.member is not None)

    assert found("") == ("catalogue", "", False)
    assert found("jobs[0]") == ("job", "job", False)
    assert found("jobs[0].restartable") == ("job", "job", False)
    assert found("jobs[0].elements[1].elements[0].batchlet.ref") == ("artifact", "", True)
    assert found("jobs[0].elements[1].id") == ("flow", "element", True)
    for way in ("jobs[1]", "jobs[0].elements[2].id", "jobs[0].id.id", "jobs[0].none.none", "jobs.id", "none[0]"):
        assert found(way) is None


def test_a_fault_without_words_is_told_at_its_element() -> None:
    file = read_json("file", one_job(step("s"), step("t")).encode())
    answer = {"element": 1, "fault": "BadElement", "job": 0}
    fault = first_fault(file, answer, None)
    assert (fault.owner.element, file.source.text[fault.at :][:27]) == (1, '{"kind": "step", "id": "t",')
    assert first_fault(CatalogueFile(Source("f", ""), b""), {"fault": "NotJson"}, None).at == 0


D = '{"kind": "decision", "id": "d", "ref": "r", "transitions": [{"kind": "next", "on": "S", "to": "s"}'
ENDS = 'its list ends here, although step "t" stands behind it: no "next" or "to" leads on'


def ending(pattern: str) -> str:
    return json.dumps({"kind": "end", "on": pattern})


UNKNOWN = 'after an exit status that no transition element matches its list ends: there is none for "*"'
NO_REGULAR = ' is no regular expression: only "*" and "?" stand for other characters'
UNREACHED = 'nothing leads here: no "next" or "to" of its list names it'
WARNINGS = [
    (job_of(S + ', "next": "t"}, ' + T + "}"), []),
    (
        job_of(f"▸{S}}}, ▸{T}}}"),
        [
            f"warning {IN_S}: {ENDS}",
            f'warning in job "a", step "t" (number 1): {UNREACHED}',
        ],
    ),
    # A branch ends its list, and the one behind it is led to.
    (job_of(D + ', {"kind": "next", "on": "*", "to": "t"}]}, ' + S + "}, " + T + "}"), []),
    (
        job_of("▸" + D + "]}, ▸" + S + "}, ▸" + T + "}"),
        [
            f'warning in job "a", decision "d" (number 0): {UNKNOWN}',
            f'warning in job "a", step "s" (number 1): {ENDS}',
            f'warning in job "a", step "t" (number 2): {UNREACHED}',
        ],
    ),
    (
        job_of('▸▸{"kind": "decision", "id": "d", "ref": "r", "transitions": [{"kind": "end", "on": "S"}]}, ▸' + T + "}"),
        [
            f'warning in job "a", decision "d" (number 0): {ENDS}',
            f'warning in job "a", decision "d" (number 0): {UNKNOWN}',
            f'warning in job "a", step "t" (number 1): {UNREACHED}',
        ],
    ),
    # Only a restart leads to the last one.
    (job_of(S + ', "transitions": [{"kind": "stop", "on": "*", "restart": "t"}]}, ' + T + "}"), []),
    (
        job_of(S + ', "transitions": [{"kind": "end", "on": "*"}, ▸{"kind": "fail", "on": "BAD"}]}'),
        [f'warning {IN_S}: the transition element for "BAD" never counts: the one for "*" stands before it'],
    ),
    (
        job_of(S + ', "transitions": [{"kind": "end", "on": "A?"}, ▸{"kind": "fail", "on": "A?"}]}'),
        [f'warning {IN_S}: the transition element for "A?" never counts: the one for "A?" stands before it'],
    ),
    (
        job_of(
            S + ', "transitions": [{"kind": "end", "on": "A*"}, ▸{"kind": "fail", "on": "AB?*"}, {"kind": "fail", "on": "?B"}]}'
        ),
        [f'warning {IN_S}: the transition element for "AB?*" never counts: the one for "A*" stands before it'],
    ),
    (
        job_of(S + ', ▸"next": "t", "transitions": [{"kind": "end", "on": "*"}]}, ' + T + "}"),
        [f'warning {IN_S}: "next" never counts: the transition element for "*" matches any exit status'],
    ),
    (
        job_of(S + f', "transitions": [▸{ending("BAD|WORSE")}, ▸{ending("A.*")}, {ending("C.D")}]' + "}"),
        [f"warning {IN_S}: {shown}{NO_REGULAR}" for shown in ('"BAD|WORSE"', '"A.*"')],
    ),
    (
        job_of(S + ', "transitions": [▸{"kind": "end", "on": "Completed"}, {"kind": "end", "on": "done"}]}'),
        [f'warning {IN_S}: "Completed" doesn\'t match the exit status "COMPLETED"; did you mean `COMPLETED`?'],
    ),
    (
        job_of(S + ', "next": "S"}, ▸' + T.replace('"t"', '"S"') + "}"),
        ['warning in job "a", step "S" (number 1): its id and that of step "s" differ in case alone'],
    ),
    (
        job_of(S + "}")[:-2] + ", ▸" + job_of(S + "}").replace('"a"', '"A"').removeprefix('{"jobs": ['),
        ['warning in job "A": its id and that of job "a" differ in case alone'],
    ),
    ('{▸"jobs": 7, "jobs": []}', ['warning: "jobs" comes again (1:13), and this one counts for nothing']),
]


@pytest.mark.parametrize(("text", "warnings"), WARNINGS)
def test_what_is_legal_and_seldom_meant(tmp_path: Path, text: str, warnings: list[str]) -> None:
    places = []
    while MARK in text:
        places.append(Source("marked", text).place(text.index(MARK)))
        text = text.replace(MARK, "", 1)
    found = checked(tmp_path, text)
    assert found.is_accepted
    assert told(found) == [f"{place}: {warning}" for place, warning in zip(places, warnings, strict=True)]


PATTERNS = ["", "A", "B", "?", "*", "A*", "*A", "A?", "??", "*?", "?*", "A*B", "*A*", "AB", "**", "*B*A"]
STATUSES = ["".join(letters) for size in range(5) for letters in itertools.product("ABC", repeat=size)]


def matches(pattern: str, text: str) -> bool:
    return re.fullmatch(pattern.replace("*", ".*").replace("?", "."), text) is not None


@pytest.mark.parametrize("earlier", PATTERNS)
def test_a_pattern_is_covered_by_one_that_matches_all_of_its_statuses(earlier: str) -> None:
    for later in PATTERNS:
        is_covered = all(matches(earlier, text) for text in STATUSES if matches(later, text))
        assert not covers(earlier, later) or is_covered
        # What these two cover isn't found, but for themselves.
        assert covers(earlier, later) or not is_covered or earlier in ("*?", "?*")


def test_a_ref_that_no_worker_has(tmp_path: Path) -> None:
    folder = tmp_path / "artifacts"
    folder.mkdir()
    for name, mode in (("rows", 0o755), ("table", 0o755), ("odd", 0o644), (".hidden", 0o755)):
        (folder / name).write_text("#!/bin/sh\n")
        (folder / name).chmod(mode)
    chunk = {"reader": {"ref": "row"}, "processor": {"ref": "odd"}, "writer": {"ref": "table"}}
    text = one_job({"kind": "step", "id": "s", "chunk": chunk})
    assert [warning.told for warning in checked(tmp_path, text).warnings] == []
    warnings = checked(tmp_path, text, artifacts=folder).warnings
    assert [(warning.told, warning.likely) for warning in warnings] == [
        (f'no worker over {folder} has the artifact "row"', "rows"),
        (f'no worker over {folder} has the artifact "odd"', ""),
    ]


def test_without_batchctl_there_is_no_verdict(tmp_path: Path) -> None:
    file = read_json("file", b'{"jobs":[]}')
    with pytest.raises(NoVerdict, match="there is no program"):
        check(file, [str(tmp_path / "none")])
    with pytest.raises(NoVerdict, match="ended with status 1"):
        check(file, ["/bin/false"])


@pytest.mark.parametrize(
    ("text", "name"),
    [
        (job_of(S + ', "start-limit": -0}'), "BadElement"),
        (job_of(S + ', "start-limit": 1e400}'), "NotJson"),
        (job_of(S + ', "next": NaN}'), "NotJson"),
        (job_of(S + ', "next": "\\ud800"}'), "NotJson"),
        ("[" * 100_000, "NotJson"),
        ("[]", "NotACatalogue"),
        ('{"jobs":\n\n[]}', None),
    ],
)
def test_a_service_reads_a_catalogue_as_batchctl_does(tmp_path: Path, text: str, name: str | None) -> None:
    path = tmp_path / "catalogue.json"
    path.write_text(text)
    answer = ask(BATCHCTL, read_file(path)).answer
    assert (answer or {}).get("fault") == name
