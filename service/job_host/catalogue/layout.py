"""Lays out a job: its elements in layers, each behind what leads to it, and what is inside a flow or split in a frame."""

from __future__ import annotations

from collections import Counter, defaultdict, deque
from collections.abc import Callable, Iterable, Iterator, Mapping, Sequence, Set
from dataclasses import dataclass, field
from itertools import takewhile
from typing import Any, NamedTuple

Element = Mapping[str, Any]

LAYER_GAP = 54
ROW_GAP = 22
LANE = 10
PAD = 14
HEAD = 26
LABEL_PAD = 26
# Lanes of a job. A way over several layers that gets none may cross boxes.
MOST_LANES = 5_000


class Size(NamedTuple):
    width: int
    height: int


class Point(NamedTuple):
    x: int
    y: int


@dataclass(frozen=True)
class Measures:
    """How large a box and a way's end are where a picture is drawn, and how wide a frame's head and a label."""

    box: Callable[[Element], Size]
    ending: Callable[[Element], Size]
    head: Callable[[Element], int]
    label: Callable[[str], int]


@dataclass(eq=False)
class Item:
    """What has a place in a layer: an element, the end of a way, or a lane, by which a way passes through a layer."""

    size: Size
    element: Element | None = None
    ending: int | None = None
    inner: Arrangement | None = None
    at: Point = Point(0, 0)
    layer: int = 0
    layer_end: int = 0


@dataclass(eq=False)
class Edge:
    """A way from an element to another one, or to an end of its own, with the patterns that lead there.

    It passes through lanes. If it comes to a lane of another way to its target, it joins that way there.
    """

    source: Item
    target: Item
    labels: list[str]
    lanes: list[Item] = field(default_factory=list)
    joined: Item | None = None

    @property
    def label(self) -> str:
        return ", ".join(self.labels)

    @property
    def chain(self) -> list[Item]:
        return [self.source, *self.lanes, self.joined or self.target]


@dataclass(frozen=True)
class Arrangement:
    """A list that is laid out, with the places of its items beside its own corner."""

    items: list[Item]
    edges: list[Edge]
    size: Size


@dataclass(frozen=True)
class Axes:
    """Which way the layers go: to the right, or downwards."""

    is_downwards: bool

    def along(self, pair: Size | Point) -> int:
        return pair[1] if self.is_downwards else pair[0]

    def across(self, pair: Size | Point) -> int:
        return pair[0] if self.is_downwards else pair[1]

    def point(self, along: int, across: int) -> Point:
        return Point(across, along) if self.is_downwards else Point(along, across)

    def size(self, along: int, across: int) -> Size:
        return Size(across, along) if self.is_downwards else Size(along, across)


def lists_in(element: Element) -> list[Element]:
    """The elements directly inside a flow, or the flows of a split."""
    inner: list[Element] = element.get("elements") or element.get("flows") or []
    return inner


def walk(elements: Sequence[Element]) -> Iterator[Element]:
    """All elements in written order, flows of splits too."""
    for element in elements:
        yield element
        yield from walk(lists_in(element))


def transitions_of(element: Element) -> list[Element]:
    transitions: list[Element] = element.get("transitions", [])
    return transitions


def ends_of(element: Element) -> list[int]:
    """The places of the transition elements that end the job."""
    return [place for place, one in enumerate(transitions_of(element)) if one["kind"] != "next"]


class Arranger:
    """Lays out lists. What is inside an element whose id is folded isn't drawn."""

    def __init__(self, measures: Measures, folded: Set[str], is_downwards: bool) -> None:
        self.measures = measures
        self.folded = folded
        self.axes = Axes(is_downwards)
        self.lanes_left = MOST_LANES

    def listing(self, elements: Sequence[Element]) -> Arrangement:
        items = [item for element in elements for item in self.items(element)]
        edges = edges_of(items)
        put_in_layers(items, edges)
        self.give_lanes(edges)
        rows = rows_of(items, edges)
        gaps = self.gaps(len(rows), edges)
        put_in_order(rows, edges)
        return Arrangement(items, edges, self.place(rows, gaps))

    def items(self, element: Element) -> list[Item]:
        endings = [Item(self.measures.ending(transitions_of(element)[place]), element, place) for place in ends_of(element)]
        return [self.item(element), *endings]

    def item(self, element: Element) -> Item:
        if not lists_in(element) or element["id"] in self.folded:
            return Item(self.measures.box(element), element)
        inner = self.flows(element["flows"]) if "flows" in element else self.listing(element["elements"])
        width = max(self.measures.head(element), inner.size.width + 2 * PAD)
        return Item(Size(width, inner.size.height + HEAD + PAD), element, inner=inner)

    def flows(self, flows: Sequence[Element]) -> Arrangement:
        """The flows of a split stand beside one another: they run at a time."""
        items = [self.item(flow) for flow in flows]
        across = 0
        for item in items:
            item.at = self.axes.point(0, across)
            across += self.axes.across(item.size) + ROW_GAP
        along = max(self.axes.along(item.size) for item in items)
        return Arrangement(items, [], self.axes.size(along, across - ROW_GAP))

    def give_lanes(self, edges: Sequence[Edge]) -> None:
        """Ways to one element have one lane in each layer that they pass through."""
        lanes: dict[tuple[Item, int], Item] = {}
        for edge in edges:
            layers = range(edge.source.layer + 1, edge.target.layer)
            own = list(takewhile(lambda layer: (edge.target, layer) not in lanes, layers))[: self.lanes_left]
            edge.lanes = [Item(Size(LANE, LANE), layer=layer) for layer in own]
            edge.joined = lanes.get((edge.target, edge.source.layer + 1 + len(own)))
            lanes |= {(edge.target, lane.layer): lane for lane in edge.lanes}
            self.lanes_left -= len(own)

    def gaps(self, count: int, edges: Sequence[Edge]) -> list[int]:
        """How far each layer is from the one before: ways have their labels before the first layer that they come to."""
        gaps = [LAYER_GAP] * count
        for edge in () if self.axes.is_downwards else edges:
            layer = edge.source.layer + 1
            gaps[layer] = max(gaps[layer], self.measures.label(edge.label) + LABEL_PAD)
        return gaps

    def across_row(self, row: Sequence[Item]) -> int:
        return sum(self.axes.across(item.size) + ROW_GAP for item in row) - ROW_GAP

    def place(self, rows: Sequence[list[Item]], gaps: Sequence[int]) -> Size:
        """Gives each item its place, and returns the size of all."""
        widths = [self.across_row(row) for row in rows]
        across = max(widths)
        along = -gaps[0]
        for row, gap, width in zip(rows, gaps, widths):
            along += gap
            along += self.place_row(row, along, (across - width) // 2)
        return self.axes.size(along, across)

    def place_row(self, row: Sequence[Item], along: int, across: int) -> int:
        """Places a layer, and returns how deep it is."""
        depth = max(self.axes.along(item.size) for item in row)
        for item in row:
            item.at = self.axes.point(along, across)
            item.layer_end = along + depth
            across += self.axes.across(item.size) + ROW_GAP
        return depth


def edges_of(items: Sequence[Item]) -> list[Edge]:
    """The ways of a list: one from an element to another, with all its patterns, and one to each end."""
    by_id = {item.element["id"]: item for item in items if item.element is not None and item.ending is None}
    patterns: dict[tuple[Item, Item], list[str]] = {}
    for source, target, pattern in (way for item in items for way in ways_from(item, by_id)):
        patterns.setdefault((source, target), []).extend([pattern] if pattern else [])
    return [Edge(source, target, labels) for (source, target), labels in patterns.items()]


def ways_from(item: Item, by_id: Mapping[str, Item]) -> Iterator[tuple[Item, Item, str]]:
    """Where an element leads. The end of a way says itself where it comes from."""
    if item.element is None:
        return
    if item.ending is not None:
        yield by_id[item.element["id"]], item, transitions_of(item.element)[item.ending]["on"]
        return
    yield from ((item, by_id[one["to"]], one["on"]) for one in transitions_of(item.element) if one["kind"] == "next")
    if "next" in item.element:
        yield item, by_id[item.element["next"]], ""


def put_in_layers(items: Sequence[Item], edges: Sequence[Edge]) -> None:
    """Each item is one layer behind the last one that leads to it. No list of an accepted catalogue leads round.

    Items become ready layer by layer, so the last one that leads to a target is the deepest.
    """
    leads_on = grouped((edge.source, edge.target) for edge in edges)
    waits = Counter(edge.target for edge in edges)
    ready = deque(item for item in items if not waits[item])
    while ready:
        item = ready.popleft()
        ready.extend(target for target in leads_on[item] if is_next(item, target, waits))


def is_next(item: Item, target: Item, waits: Counter[Item]) -> bool:
    """Moves a target behind an item that leads to it, and says whether that was the last one."""
    target.layer = item.layer + 1
    waits[target] -= 1
    return not waits[target]


def rows_of(items: Sequence[Item], edges: Sequence[Edge]) -> list[list[Item]]:
    """The items of each layer, with the lanes behind them."""
    rows: list[list[Item]] = [[] for _ in range(1 + max(item.layer for item in items))]
    for item in (*items, *(lane for edge in edges for lane in edge.lanes)):
        rows[item.layer].append(item)
    return rows


def put_in_order(rows: Sequence[list[Item]], edges: Sequence[Edge]) -> None:
    """Orders each layer by the middle of what leads to it."""
    before = grouped((target, source) for edge in edges for source, target in zip(edge.chain, edge.chain[1:]))
    for place in range(1, len(rows)):
        above = {item: number for number, item in enumerate(rows[place - 1])}
        middles = {item: middle_of([above[one] for one in before[item] if one in above], len(above)) for item in rows[place]}
        rows[place].sort(key=middles.__getitem__)


def grouped(pairs: Iterable[tuple[Item, Item]]) -> defaultdict[Item, list[Item]]:
    """The second items of the pairs, by their first ones."""
    groups = defaultdict[Item, list[Item]](list)
    for first, second in pairs:
        groups[first].append(second)
    return groups


def middle_of(places: Sequence[int], default: int) -> float:
    return sum(places) / len(places) if places else default
