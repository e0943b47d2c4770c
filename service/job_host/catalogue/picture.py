"""A job that is laid out as one flat picture: places beside its own corner, and the paths of its ways."""

from __future__ import annotations

from bisect import bisect_left
from collections import Counter
from collections.abc import Iterator, Mapping, Sequence, Set
from dataclasses import dataclass
from typing import Any, NamedTuple

from job_host.catalogue.layout import (
    HEAD,
    PAD,
    Arrangement,
    Arranger,
    Axes,
    Element,
    Item,
    Measures,
    Point,
    Size,
    lists_in,
    transitions_of,
    walk,
)

CONSOLE_BOX = Size(188, 66)
CONSOLE_END = Size(92, 30)
CONSOLE_LABEL_CHARACTERS = 16
CONSOLE_CHARACTER = 6.6
CONSOLE = Measures(
    box=lambda element: CONSOLE_BOX,
    ending=lambda transition: CONSOLE_END,
    head=lambda element: CONSOLE_BOX.width,
    label=lambda text: round(min(CONSOLE_LABEL_CHARACTERS, len(text)) * CONSOLE_CHARACTER),
)
# A picture that is larger than a few frames of a page has its inner frames folded at first.
LARGE = 4_000
# A picture with more ways tells nobody anything.
MOST_WAYS = 4_000


class Placed(NamedTuple):
    item: Item
    at: Point


class Way(NamedTuple):
    """The path of a way, the tip of its arrow unless it joins another way, and its label with its place."""

    path: str
    tip: Point | None
    label: str
    label_at: Point
    anchor: str


@dataclass(frozen=True)
class Picture:
    """Frames stand before what is inside them."""

    size: Size
    placed: list[Placed]
    ways: list[Way]


def moved(point: Point, by: Point) -> Point:
    return Point(point.x + by.x, point.y + by.y)


def arrangements_in(arrangement: Arrangement, corner: Point) -> Iterator[tuple[Arrangement, Point]]:
    """The arrangement and those in its frames, each with its corner."""
    yield arrangement, corner
    for item in arrangement.items:
        if item.inner is not None:
            inner = Point((item.size.width - item.inner.size.width) // 2, HEAD)
            yield from arrangements_in(item.inner, moved(moved(corner, item.at), inner))


class WayDrawer:
    """Draws the ways of one arrangement."""

    def __init__(self, axes: Axes, arrangement: Arrangement, corner: Point) -> None:
        self.axes = axes
        self.edges = arrangement.edges
        self.corner = corner
        self.labelled = Counter(edge.chain[1] for edge in self.edges if edge.labels)

    def ways(self) -> Iterator[Way]:
        for edge in self.edges:
            steps = list(self.steps(edge.chain))
            path = f"M {steps[0][0].x} {steps[0][0].y}{''.join(self.step(*step) for step in steps)}"
            tip = None if edge.joined else steps[-1][2]
            yield Way(path, tip, edge.label, *self.label_at(self.labelled[edge.chain[1]] > 1, *steps[0][1:]))

    def side(self, item: Item, is_end: bool) -> Point:
        """The middle of the side at which ways begin or end."""
        along = self.axes.along(item.at) + (self.axes.along(item.size) if is_end else 0)
        return moved(self.axes.point(along, self.axes.across(item.at) + self.axes.across(item.size) // 2), self.corner)

    def steps(self, chain: Sequence[Item]) -> Iterator[tuple[Point, Point, Point]]:
        """From layer to layer: where a way is, where it leaves that layer, and where it comes to the next item."""
        for before, item in zip(chain, chain[1:]):
            here = self.side(before, is_end=True)
            end = before.layer_end + self.axes.along(self.corner)
            yield here, self.axes.point(end, self.axes.across(here)), self.side(item, is_end=False)

    def step(self, here: Point, bend: Point, to: Point) -> str:
        """Goes straight through a layer, and bends between layers."""
        straight = f" L {bend.x} {bend.y}" if bend != here else ""
        if self.axes.across(bend) == self.axes.across(to):
            return f"{straight} L {to.x} {to.y}"
        middle = (self.axes.along(bend) + self.axes.along(to)) // 2
        first, second = self.axes.point(middle, self.axes.across(bend)), self.axes.point(middle, self.axes.across(to))
        return f"{straight} C {first.x} {first.y} {second.x} {second.y} {to.x} {to.y}"

    def label_at(self, is_shared: bool, bend: Point, to: Point) -> tuple[Point, str]:
        """Before what a way first comes to, on the other side; or if several were there, in the middle of its first bend."""
        if is_shared:
            return Point((bend.x + to.x) // 2, (bend.y + to.y) // 2), "middle"
        if not self.axes.is_downwards:
            return Point(to.x - 10, to.y + (14 if bend.y < to.y else -7)), "end"
        return (Point(to.x - 7, to.y - 12), "end") if bend.x > to.x else (Point(to.x + 7, to.y - 12), "start")


def picture_of(job: Element, measures: Measures, folded: Set[str] = frozenset(), is_downwards: bool = False) -> Picture:
    arranger = Arranger(measures, folded, is_downwards)
    whole = arranger.listing(job["elements"])
    arrangements = list(arrangements_in(whole, Point(PAD, PAD)))
    placed = [Placed(item, moved(item.at, corner)) for one, corner in arrangements for item in one.items]
    ways = [way for one, corner in arrangements for way in WayDrawer(arranger.axes, one, corner).ways()]
    return Picture(Size(whole.size.width + 2 * PAD, whole.size.height + 2 * PAD), placed, ways)


@dataclass(frozen=True)
class Wanted:
    """How a job is drawn: the numbers of the frames to fold; or none to have them chosen, but for those that stay unfolded."""

    folded: frozenset[int] | None = None
    unfolded: frozenset[int] = frozenset()
    is_downwards: bool = False


class JobPicture:
    """The picture of a job in the console. Elements are named by their numbers, in written order: an id may be any text."""

    def __init__(self, job: Element, wanted: Wanted) -> None:
        self.job = job
        self.wanted = wanted
        self.elements = list(walk(job["elements"]))
        self.numbers = {element["id"]: number for number, element in enumerate(self.elements)}
        self.folded: frozenset[str] = frozenset()
        self.picture: Picture | None = None

    def told(self) -> dict[str, Any]:
        """The picture, or none if too many ways would be seen."""
        self.choose()
        ways = self.ways(self.folded)
        folded = sorted(self.numbers[name] for name in self.folded)
        told = {"folded": folded, "ways": ways, "mostWays": MOST_WAYS, "picture": None}
        return told if self.picture is None else {**told, "picture": self.picture_told(self.picture)}

    def choose(self) -> None:
        """Folds what is wanted; else as few of the deepest frames as make the picture small enough."""
        foldings = self.foldings()
        self.folded = foldings[bisect_left(foldings, True, hi=len(foldings) - 1, key=self.is_small)]
        self.picture = self.draw(self.folded)

    def is_small(self, folded: frozenset[str]) -> bool:
        picture = self.draw(folded)
        return picture is not None and max(picture.size) <= LARGE

    def foldings(self) -> list[frozenset[str]]:
        """What may be folded, each with more than the one before."""
        depths = dict(depths_of(self.job["elements"], 1))
        if self.wanted.folded is not None:
            return [self.ids(self.wanted.folded) & depths.keys()]
        may_fold = depths.keys() - self.ids(self.wanted.unfolded)
        ends = sorted({depths[name] for name in may_fold}, reverse=True)
        return [frozenset(), *(frozenset(name for name in may_fold if depths[name] >= end) for end in ends)]

    def ids(self, numbers: Set[int]) -> frozenset[str]:
        return frozenset(self.elements[one]["id"] for one in numbers if one < len(self.elements))

    def draw(self, folded: frozenset[str]) -> Picture | None:
        if self.ways(folded) > MOST_WAYS:
            return None
        return picture_of(self.job, CONSOLE, folded, self.wanted.is_downwards)

    def ways(self, folded: Set[str]) -> int:
        return sum(len(transitions_of(one)) + ("next" in one) for one in visible(self.job["elements"], folded))

    def picture_told(self, picture: Picture) -> dict[str, Any]:
        return {
            "width": picture.size.width,
            "height": picture.size.height,
            "items": [self.item_told(*placed) for placed in picture.placed],
            "ways": [way._asdict() for way in picture.ways],
        }

    def item_told(self, item: Item, at: Point) -> dict[str, Any]:
        number = self.numbers[item.element["id"]] if item.element is not None else -1
        told = {"element": number, "x": at.x, "y": at.y, "width": item.size.width, "height": item.size.height}
        return {**told, "ending": item.ending} if item.ending is not None else told


def depths_of(elements: Sequence[Element], depth: int) -> Iterator[tuple[str, int]]:
    """The frames with their depths."""
    for frame in elements:
        if lists_in(frame):
            yield frame["id"], depth
            yield from depths_of(lists_in(frame), depth + 1)


def visible(elements: Sequence[Element], folded: Set[str]) -> Iterator[Element]:
    """The elements that aren't inside a folded one."""
    for element in elements:
        yield element
        if element["id"] not in folded:
            yield from visible(lists_in(element), folded)


def drawn_job(job: Mapping[str, Any], wanted: Wanted) -> dict[str, Any]:
    return JobPicture(job, wanted).told()
