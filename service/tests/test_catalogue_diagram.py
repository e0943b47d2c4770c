"""A picture of a catalogue has ids, kinds and patterns, and takes every text."""

from __future__ import annotations

import json
import random
import re
from typing import Any

import pytest
from catalogue_samples import one_job, step
from defusedxml.ElementTree import fromstring
from random_catalogues import Maker

from job_host.catalogue.check import jobs_in
from job_host.catalogue.diagram import TITLE, draw, width_of
from job_host.catalogue.file import read_json
from job_host.catalogue.tree import Job

SVG = "{http://www.w3.org/2000/svg}"


def jobs_of(text: str) -> list[Job]:
    root = read_json("file", text.encode()).root
    assert root is not None
    return jobs_in(root)


def texts_in(svg: bytes) -> list[str]:
    return [element.text or "" for element in fromstring(svg).iter(f"{SVG}text")]


CHUNK = {"item-count": 5, "reader": {"ref": "rows"}, "processor": {"ref": "odd"}, "writer": {"ref": "table"}}
WHOLE = one_job(
    step("load", next="both", transitions=[{"kind": "fail", "on": "BAD*", "exit-status": "NO FILE"}]),
    {
        "kind": "split",
        "id": "both",
        "next": "day",
        "flows": [
            {"kind": "flow", "id": "left", "elements": [{"kind": "step", "id": "copy", "chunk": CHUNK, "partitions": 3}]},
            {"kind": "flow", "id": "right", "elements": [{"kind": "flow", "id": "in", "elements": [step("deep")]}]},
        ],
    },
    {
        "kind": "decision",
        "id": "day",
        "ref": "day-of-week",
        "transitions": [
            {"kind": "next", "on": "SUN?", "to": "report"},
            {"kind": "end", "on": "MON"},
            {"kind": "stop", "on": "*", "restart": "load"},
        ],
    },
    step("report"),
)


def test_a_picture_has_ids_kinds_and_patterns() -> None:
    wanted = ["job a", "load", "step, batchlet ok", "split both", "flow left", "flow right", "flow in", "day"]
    wanted += ["step, chunk of 5", "reader rows", "processor odd", "writer table", "3 partitions", "decision day-of-week"]
    wanted += ["fail", "NO FILE", "end", "stop", "restart at load", "BAD*", "SUN?", "MON", "*"]
    assert set(wanted) <= set(texts_in(draw(jobs_of(WHOLE))))


@pytest.mark.parametrize(
    "text", ['"', "\\", "\\N", "<b>", "&lt;", "a\nb", "\x00\x1b[31m", "é𝄞", "\u2028", "", "{x|y}", "x" * 256]
)
def test_each_text_is_drawn_as_it_is(text: str) -> None:
    drawn = texts_in(draw(jobs_of(one_job(step("s", transitions=[{"kind": "end", "on": text}]), id=f"a{text}"))))
    shown = "".join(mark if mark.isprintable() else f"\\u{ord(mark):04x}" for mark in text)
    assert f"job a{shown}" in drawn
    assert shown in drawn or not text


def test_a_box_is_as_wide_as_its_texts() -> None:
    flow = {"kind": "flow", "id": "f" * 90, "elements": [step("i")]}
    drawn = fromstring(draw(jobs_of(one_job(flow, step("宽" * 40), step("\x00" * 20)))))
    frame, wide, control, short = [int(rect.get("width", "0")) for rect in drawn.iter(f"{SVG}rect")]
    assert frame > width_of("flow " + "f" * 90) > 2 * short
    assert wide > 2 * width_of("x" * 40) and control > width_of("\\u0000" * 20)


def test_jobs_stand_one_below_the_other() -> None:
    jobs = [*jobs_of(WHOLE), *jobs_of(one_job(step("s"), id="b"))]
    drawn = fromstring(draw(jobs))
    tops = [int(found[1]) for group in drawn if (found := re.fullmatch(r"translate\(0 (\d+)\)", group.get("transform", "")))]
    heights = [int(fromstring(draw([job])).get("height", "0")) for job in jobs]
    assert (tops, int(drawn.get("height", "0"))) == ([0, heights[0]], sum(heights))
    lowest = max(int(rect.get("y", "0")) + int(rect.get("height", "0")) for rect in drawn[1].iter(f"{SVG}rect"))
    assert lowest + TITLE < heights[0]


def test_random_catalogues_are_drawn() -> None:
    for seed in range(15):
        catalogue: dict[str, Any] = Maker(random.Random(seed)).catalogue()
        assert draw(jobs_of(json.dumps(catalogue))).startswith(b"<?xml")
