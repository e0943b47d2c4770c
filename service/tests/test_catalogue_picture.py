"""The layout of a job: what stands where, which ways cross nothing, and what is folded at first."""

from __future__ import annotations

import json
import random
import re
import time
from collections.abc import Iterator
from itertools import combinations, islice
from typing import Any

import pytest
from catalogue_samples import step
from random_catalogues import Maker

from job_host.catalogue.layout import HEAD, MOST_LANES, Arranger, Axes, Point, walk
from job_host.catalogue.picture import (
    CONSOLE,
    LARGE,
    MOST_WAYS,
    Picture,
    Placed,
    Wanted,
    arrangements_in,
    drawn_job,
    picture_of,
)

Object = dict[str, Any]
Corners = tuple[int, int, int, int]


def chain(name: str, count: int) -> list[Object]:
    following: list[Object] = [*({"next": f"{name}{number}"} for number in range(1, count)), {}]
    return [step(f"{name}{number}", **more) for number, more in enumerate(following)]


def flow(name: str, elements: list[Object], **more: Any) -> Object:
    return {"kind": "flow", "id": name, "elements": elements, **more}


def split(name: str, *flows: Object, **more: Any) -> Object:
    return {"kind": "split", "id": name, "flows": list(flows), **more}


def leads(on: str, to: str) -> Object:
    return {"kind": "next", "on": on, "to": to}


def job(*elements: Object) -> Object:
    return {"id": "job", "elements": list(elements)}


# Numbers: load 0, both 1, left 2, copy 3, right 4, in 5, deep0 6, deep1 7, day 8, report 9.
NESTED = job(
    step("load", next="both", transitions=[{"kind": "fail", "on": "BAD*", "exit-status": "NO FILE"}]),
    split("both", flow("left", [step("copy")]), flow("right", [flow("in", chain("deep", 2))]), next="day"),
    {"kind": "decision", "id": "day", "ref": "day", "transitions": [leads("SUN?", "report"), {"kind": "end", "on": "*"}]},
    step("report"),
)


def corners(placed: Placed) -> Corners:
    item, at = placed
    return at.x, at.y, at.x + item.size.width, at.y + item.size.height


def is_apart(one: Corners, other: Corners) -> bool:
    return one[2] <= other[0] or other[2] <= one[0] or one[3] <= other[1] or other[3] <= one[1]


def is_within(inner: Corners, outer: Corners) -> bool:
    return outer[0] <= inner[0] and outer[1] <= inner[1] and inner[2] <= outer[2] and inner[3] <= outer[3]


def by_id(picture: Picture) -> dict[str, Corners]:
    return {one.item.element["id"]: corners(one) for one in picture.placed if one.item.element and one.item.ending is None}


def faults_of(job: Object, picture: Picture) -> Iterator[str]:
    """Boxes that overlap, elements outside of their frames, and frames that hold what isn't theirs."""
    places = by_id(picture)
    inside = {
        one["id"]: {each["id"] for each in walk(one.get("elements", one.get("flows", [])))} for one in walk(job["elements"])
    }
    for one, other in combinations(places, 2):
        if other in inside[one]:
            left, top, right, bottom = places[one]
            yield from [] if is_within(places[other], (left, top + HEAD, right, bottom)) else [f"{other} is not in {one}"]
        elif not is_apart(places[one], places[other]):
            yield f"{one} and {other} overlap"
    ends = [corners(one) for one in picture.placed if one.item.ending is not None]
    boxes = [corners(one) for one in picture.placed if one.item.ending is None and one.item.inner is None]
    yield from (f"an end overlaps: {end}" for end in ends for box in boxes if not is_apart(end, box))
    yield from (f"{place} is outside" for place in places.values() if not is_within(place, (0, 0, *picture.size)))


def random_jobs() -> Iterator[Object]:
    for seed in range(12):
        catalogue = Maker(random.Random(seed)).catalogue()
        yield from json.loads(json.dumps(catalogue))["jobs"]


@pytest.mark.parametrize("is_downwards", [False, True])
def test_nothing_overlaps_and_frames_hold_what_is_theirs(is_downwards: bool) -> None:
    jobs = [NESTED, *islice(random_jobs(), 30)]
    assert len(jobs) > 10
    for one in jobs:
        picture = picture_of(one, CONSOLE, is_downwards=is_downwards)
        assert list(faults_of(one, picture)) == []
        assert by_id(picture).keys() == {each["id"] for each in walk(one["elements"])}


@pytest.mark.parametrize("is_downwards", [False, True])
def test_each_element_is_behind_what_leads_to_it(is_downwards: bool) -> None:
    place = by_id(picture_of(NESTED, CONSOLE, is_downwards=is_downwards))
    begin, end = (1, 3) if is_downwards else (0, 2)
    for one, other in (("load", "both"), ("both", "day"), ("day", "report"), ("deep0", "deep1")):
        assert place[one][end] < place[other][begin]
    beside = 0 if is_downwards else 1
    assert place["left"][beside + 2] < place["right"][beside] and place["left"][begin] == place["right"][begin]


def points_of(path: str) -> list[Point]:
    return [Point(int(x), int(y)) for x, y in re.findall(r"(-?\d+) (-?\d+)", path)]


@pytest.mark.parametrize("is_downwards", [False, True])
def test_a_way_over_several_layers_passes_beside_their_boxes(is_downwards: bool) -> None:
    long = job(*chain("s", 5))
    long["elements"][0]["transitions"] = [leads("LAST", "s4")]
    picture = picture_of(long, CONSOLE, is_downwards=is_downwards)
    (way,) = [way for way in picture.ways if way.label == "LAST"]
    points, axes = points_of(way.path), Axes(is_downwards)
    boxes = [corners(one) for one in picture.placed[1:4]]
    assert len(points) > 10
    assert [(one, box) for one in points for box in boxes if not is_apart((*one, *one), box)] == []
    assert points[0] == axes.point(14 + (66 if is_downwards else 188), axes.across(points[0])) and points[-1] == way.tip


def test_the_lanes_of_all_lists_are_bounded() -> None:
    flows = [flow(f"f{number}", chain(f"f{number}s", 98)) for number in range(10)]
    for one in (step for each in flows for step in each["elements"][:49]):
        one["transitions"] = [leads("FAR", re.sub(r"\d+$", lambda found: str(int(found[0]) + 49), one["id"]))]
    whole = Arranger(CONSOLE, frozenset(), False).listing(flows)
    lanes = [lane for one, _ in arrangements_in(whole, Point(0, 0)) for edge in one.edges for lane in edge.lanes]
    assert 10 * 49 * 48 > len(lanes) == MOST_LANES


@pytest.mark.parametrize("is_downwards", [False, True])
def test_ways_to_one_element_join_before_it(is_downwards: bool) -> None:
    long = job(*chain("s", 6))
    for one in long["elements"][:3]:
        one["transitions"] = [leads("LAST", "s5")]
    picture = picture_of(long, CONSOLE, is_downwards=is_downwards)
    first, *others = [way for way in picture.ways if way.label == "LAST"]
    assert first.tip == points_of(first.path)[-1] and len(others) == 2
    for way in others:
        assert way.tip is None and points_of(way.path)[-1] in points_of(first.path)
    assert len({way.label_at for way in (first, *others)}) == 3


def test_ways_begin_and_end_at_their_elements() -> None:
    picture = picture_of(NESTED, CONSOLE)
    place = by_id(picture)
    ends = {(points_of(way.path)[0], way.tip, way.label) for way in picture.ways}

    def side(name: str, is_end: bool) -> Point:
        left, top, right, bottom = place[name]
        return Point(right if is_end else left, (top + bottom) // 2)

    for one, other, label in (("load", "both", ""), ("both", "day", ""), ("day", "report", "SUN?"), ("deep0", "deep1", "")):
        assert (side(one, True), side(other, False), label) in ends
    assert {way.label for way in picture.ways} == {"", "BAD*", "SUN?", "*"} and len(picture.ways) == 6


def test_patterns_that_lead_to_one_element_are_one_way() -> None:
    forked = job(step("one", next="two", transitions=[leads("A", "two"), leads("B", "two")]), step("two"))
    assert [way.label for way in picture_of(forked, CONSOLE).ways] == ["A, B"]


def test_a_label_has_room_before_its_element() -> None:
    place = by_id(picture_of(job(step("one", transitions=[leads("SIXTEEN LETTERS.", "two")]), step("two")), CONSOLE))
    assert place["two"][0] - place["one"][2] > CONSOLE.label("SIXTEEN LETTERS.") > CONSOLE.label("SHORT") > 0


def test_a_label_stands_on_the_side_that_its_way_does_not_come_from() -> None:
    forked = job(step("one", transitions=[leads("A", "two"), leads("B", "three")]), step("two"), step("three"))
    for is_downwards in (False, True):
        one, other = picture_of(forked, CONSOLE, is_downwards=is_downwards).ways
        axes = Axes(is_downwards)
        assert one.tip is not None and axes.across(one.label_at) < axes.across(one.tip)
        assert other.tip is not None and axes.across(other.label_at) > axes.across(other.tip)
        assert (one.anchor, other.anchor) == ("end", "start" if is_downwards else "end")


@pytest.mark.parametrize("is_downwards", [False, True])
def test_labels_of_ways_to_one_element_stand_apart(is_downwards: bool) -> None:
    forked = job(
        step("one", transitions=[leads(f"TO {name}", name) for name in ("last", "two", "three", "four")]),
        *(step(name, transitions=[leads(f"FROM {name}", "last")]) for name in ("two", "three", "four")),
        step("last"),
    )
    picture = picture_of(forked, CONSOLE, is_downwards=is_downwards)
    assert len({way.label_at for way in picture.ways}) == len(picture.ways) == 7


@pytest.mark.parametrize("is_downwards", [False, True])
def test_ways_cross_no_more_than_they_have_to(is_downwards: bool) -> None:
    """The steps of the last layer are written in the other order."""
    forked = job(
        step("one", transitions=[leads("A", "two"), leads("B", "three")]),
        *(step("two", next="four"), step("three", next="five"), step("five"), step("four")),
    )
    place, across = by_id(picture_of(forked, CONSOLE, is_downwards=is_downwards)), 0 if is_downwards else 1
    assert place["two"][across] < place["three"][across] and place["four"][across] < place["five"][across]


def told(job: Object, **more: Any) -> dict[str, Any]:
    return drawn_job(job, Wanted(**more))


def seen(answer: dict[str, Any]) -> list[int]:
    """The numbers of the elements that are drawn."""
    return sorted(item["element"] for item in answer["picture"]["items"] if "ending" not in item)


def test_what_is_folded_is_a_box_without_what_is_inside() -> None:
    assert (told(NESTED)["folded"], seen(told(NESTED))) == ([], list(range(10)))
    folded = told(NESTED, folded=frozenset([4, 5]))
    assert (folded["folded"], seen(folded), folded["ways"]) == ([4, 5], [0, 1, 2, 3, 4, 8, 9], 5)
    assert seen(told(NESTED, folded=frozenset([5]))) == [0, 1, 2, 3, 4, 5, 8, 9]
    assert told(NESTED, folded=frozenset([0, 3, 9999])) == told(NESTED)
    box = next(item for item in folded["picture"]["items"] if item["element"] == 4)
    assert (box["width"], box["height"]) == (188, 66)


FOLLOWING: dict[str, Object] = {"f0": {"next": "f1"}, "f1": {"next": "f2"}, "f2": {}}
# Numbers: f0 0, f0-g 1, f0-g0 to f0-g9 2 to 11, f0-h 12, f1 13, f1-g 14, and so on.
DEEP = job(
    *(
        flow(one, [flow(f"{one}-g", chain(f"{one}-g", 10), next=f"{one}-h"), step(f"{one}-h")], **more)
        for one, more in FOLLOWING.items()
    )
)


def test_a_large_picture_has_its_deepest_frames_folded_at_first() -> None:
    whole, first = told(DEEP, folded=frozenset()), told(DEEP)
    assert whole["picture"]["width"] > LARGE >= first["picture"]["width"]
    assert (first["folded"], seen(first)) == ([1, 14, 27], [0, 1, 12, 13, 14, 25, 26, 27, 38])


def test_what_has_to_be_seen_stays_unfolded() -> None:
    first = told(DEEP, unfolded=frozenset([13, 14]))
    assert first["folded"] == [1, 27]
    assert set(range(13, 26)) <= set(seen(first))


def dense(count: int, each: int) -> Object:
    """Each step leads to many of those behind it."""
    steps = chain("s", count)
    for number, one in enumerate(steps):
        one["transitions"] = [leads(f"P{to}", f"s{to}") for to in range(number + 2, min(number + 2 + each, count))]
    return job(*steps)


def test_a_job_with_too_many_ways_has_no_picture() -> None:
    begun = time.process_time()
    answer = told(dense(1000, 39))
    assert (answer["picture"], answer["ways"], answer["mostWays"]) == (None, 39_180, MOST_WAYS)
    inner = job(flow("all", dense(1000, 39)["elements"]))
    assert (told(inner)["folded"], seen(told(inner))) == ([0], [0])
    assert told(dense(100, 20))["picture"] is not None
    assert time.process_time() - begun < 5


def test_a_thousand_steps_that_all_lead_to_the_last_are_drawn_one_behind_the_other() -> None:
    long = job(*chain("s", 1000))
    for one in long["elements"][:998]:
        one["transitions"] = [leads("LAST", "s999")]
    begun = time.process_time()
    items = told(long)["picture"]["items"]
    assert time.process_time() - begun < 5
    assert told(long)["picture"]["height"] == 14 + 66 + 22 + 10 + 14
    lefts = [item["x"] for item in items]
    assert lefts == sorted(lefts) and len(set(lefts)) == 1000
    assert [item["element"] for item in items] == list(range(1000))


def test_a_way_passes_beside_a_frame() -> None:
    wide = job(
        step("one", next="two", transitions=[leads("SKIP", "three")]), flow("two", chain("t", 3), next="three"), step("three")
    )
    picture = picture_of(wide, CONSOLE)
    frame = by_id(picture)["two"]
    (way,) = [way for way in picture.ways if way.label == "SKIP"]
    assert not any(frame[0] < x < frame[2] and frame[1] < y < frame[3] for x, y in points_of(way.path))
    assert any(x == frame[2] for x, _ in points_of(way.path))
