"""What a new catalogue adds, changes and drops, and whether a running log or service takes it, as batchctl says."""

from __future__ import annotations

import json
from typing import Any

import pytest
from catalogue_samples import BATCHCTL, step

from job_host.catalogue.diff import Comparison, compare
from job_host.catalogue.growth import CatalogueChanged, changed_jobs, grown, is_begun_by

Job = dict[str, Any]
pytestmark = pytest.mark.usefixtures("has_log")


def compared(old: list[Job], new: list[Job]) -> Comparison:
    kept, given = (json.dumps({"jobs": jobs}).encode() for jobs in (old, new))
    return compare(old, new, changed_jobs(BATCHCTL, kept, given), is_begun_by(BATCHCTL, kept, given))


def job(name: str, *elements: Any, **more: Any) -> Job:
    return {"id": name, "elements": list(elements), **more}


def flow(name: str, *elements: Any, **more: Any) -> dict[str, Any]:
    return {"kind": "flow", "id": name, "elements": list(elements), **more}


A, B = job("a", step("s")), job("b", step("s"))
CHUNK = {"reader": {"ref": "r"}, "writer": {"ref": "w"}}
CHUNKY = {"kind": "step", "id": "s", "chunk": CHUNK}
CHANGES: list[tuple[Job, Job, list[str]]] = [
    (A, job("a", step("s"), restartable=False), ["  ~ restartable: was left out, is false"]),
    (A, job("a", step("s", **{"start-limit": 1})), ['  ~ step "s": start-limit: was left out, is 1']),
    (
        job("a", step("s", next="t"), step("t")),
        job("a", step("s")),
        ['  ~ step "s": next: was "t", is left out', '  - step "t" in job "a"'],
    ),
    (A, job("a", step("s"), step("t")), ['  + step "t" in job "a"']),
    (
        A,
        job("a", CHUNKY),
        [
            '  ~ step "s": batchlet: was {"ref":"ok"}, is left out',
            f'  ~ step "s": chunk: was left out, is {json.dumps(CHUNK, separators=(",", ":"))}',
        ],
    ),
    (
        job("a", CHUNKY),
        job("a", {**CHUNKY, "chunk": {**CHUNK, "item-count": 5, "reader": {"ref": "q"}}}),
        ['  ~ step "s": chunk reader ref: was "r", is "q"', '  ~ step "s": chunk item-count: was left out, is 5'],
    ),
    (
        A,
        job("a", step("s", transitions=[{"kind": "end", "on": "é"}])),
        ['  ~ step "s": transitions: was left out, is [{"kind":"end","on":"é"}]'],
    ),
    (
        job("a", flow("f", step("s")), step("t")),
        job("a", flow("f", step("t")), step("s")),
        [
            '  ~ step "t": stood in job "a", stands in flow "f"',
            '  ~ step "s": stood in flow "f", stands in job "a"',
        ],
    ),
    (
        job("a", flow("f", step("s"), step("t"))),
        job("a", flow("f", step("t"), step("s"))),
        ['  ~ the elements of flow "f": stood as "s", "t", stand as "t", "s"'],
    ),
    (
        A,
        job("a", {"kind": "decision", "id": "s", "ref": "r"}),
        [
            '  ~ decision "s": kind: was "step", is "decision"',
            '  ~ decision "s": batchlet: was {"ref":"ok"}, is left out',
            '  ~ decision "s": ref: was left out, is "r"',
        ],
    ),
]


TAKEN = "a running log or service takes it"
SAME: list[tuple[Job, str]] = [
    (job("a", step("s"), restartable=True), "  ~ restartable: was left out, is true"),
    (job("a", step("s", **{"start-limit": 0})), '  ~ step "s": start-limit: was left out, is 0'),
    (job("a", step("s", transitions=[])), '  ~ step "s": transitions: was left out, is []'),
]


@pytest.mark.parametrize(("old", "new", "lines"), CHANGES)
def test_a_changed_job_is_told_member_by_member(old: Job, new: Job, lines: list[str]) -> None:
    told = compared([old], [new])
    assert told.lines == ['~ job "a"', *lines]
    assert told.verdict() == 'no running log or service takes it: job "a" is changed'


@pytest.mark.parametrize(("new", "line"), SAME)
def test_a_default_that_is_written_out_is_no_change(new: Job, line: str) -> None:
    told = compared([A], [new])
    assert (told.lines, told.verdict()) == (['~ job "a", which means the same', line], TAKEN)


@pytest.mark.parametrize(
    ("old", "new", "lines", "verdict"),
    [
        ([A, B], [A, B], [], TAKEN),
        ([A], [A, B], ['+ job "b", elements: 1'], TAKEN),
        ([], [A], ['+ job "a", elements: 1'], TAKEN),
        ([A, B], [A], ['- job "b"'], 'no running log or service takes it: job "b" is dropped'),
        (
            [A],
            [B, A],
            ['+ job "b", elements: 1'],
            "a running service takes it; no running log does, as it doesn't begin with the old jobs in their order",
        ),
        (
            [A, B],
            [B, A],
            [],
            "a running service takes it; no running log does, as it doesn't begin with the old jobs in their order",
        ),
    ],
)
def test_jobs_that_are_added_dropped_and_moved(old: list[Job], new: list[Job], lines: list[str], verdict: str) -> None:
    told = compared(old, new)
    assert (told.lines, told.verdict(), told.is_taken) == (lines, verdict, verdict == TAKEN)


@pytest.mark.parametrize("new", [[A, B], [B, A], [A], [B], [job("a", step("s"), step("t")), B], []])
def test_a_service_takes_what_is_said_that_it_takes(new: list[Job]) -> None:
    kept, given = (json.dumps({"jobs": jobs}).encode() for jobs in ([A], new))
    if compared([A], new).changed:
        with pytest.raises(CatalogueChanged):
            grown(BATCHCTL, kept, given)
    else:
        assert is_begun_by(BATCHCTL, kept, grown(BATCHCTL, kept, given))


def test_each_changed_job_is_found() -> None:
    old = [job(name, step("s")) for name in "abcd"]
    new = [
        job("d", step("t")),
        job("c", step("s"), restartable=True),
        job("e", step("s")),
        job("a", step("s", next="t"), step("t")),
    ]
    kept, given = (json.dumps({"jobs": jobs}).encode() for jobs in (old, new))
    assert changed_jobs(BATCHCTL, kept, given) == ["a", "b", "d"]
    with pytest.raises(CatalogueChanged) as refused:
        grown(BATCHCTL, kept, given)
    told = str(refused.value)
    assert told.startswith('the job \'a\' is changed: step "s": next: was left out, is "t", + step "t" in job "a"; ')
    assert "; the job 'b' is dropped; the job 'd' is changed: " in told


def test_members_in_another_order_are_no_change() -> None:
    assert compared([A], [dict(reversed(list(A.items())))]).lines == []
