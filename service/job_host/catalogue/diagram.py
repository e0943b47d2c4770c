"""Draws the jobs of a catalogue as SVG."""

from __future__ import annotations

from collections.abc import Iterator, Sequence
from unicodedata import east_asian_width
from xml.sax.saxutils import escape

from job_host.catalogue.layout import PAD, Element, Item, Measures, Point, Size, transitions_of
from job_host.catalogue.picture import Picture, Placed, Way, picture_of
from job_host.catalogue.text import plain
from job_host.catalogue.tree import Job

CHARACTER = 7
LINE = 16
BASE = 12
SPACE = 10
TITLE = 30
INK = "#40566b"
OVER_LINES = ' paint-order="stroke" stroke="#ffffff" stroke-width="4"'
FRAME = 'fill="none" stroke="#8090a0"'
BOX = f'fill="#eef3f8" stroke="{INK}"'
ENDS = {"end": "#dff0d8", "fail": "#f6d5d5", "stop": "#fbeecb"}
HEAD = """<?xml version="1.0" encoding="UTF-8"?>
<svg xmlns="http://www.w3.org/2000/svg" width="{0}" height="{1}" viewBox="0 0 {0} {1}" font-family="sans-serif" font-size="12">
<marker id="arrow" markerWidth="8" markerHeight="8" refX="8" refY="4" orient="auto">
<path d="M0 0 L8 4 L0 8 z" fill="{2}"/></marker>
"""


def told(text: str) -> str:
    """A text as SVG may hold it."""
    return escape("".join(one if one.isprintable() else f"\\u{ord(one):04x}" for one in text))


def width_of(text: str) -> int:
    return CHARACTER * sum(2 if east_asian_width(one) in "WF" else 1 if one.isprintable() else 6 for one in text)


def size_of(lines: Sequence[str]) -> Size:
    return Size(max(map(width_of, lines)) + 2 * SPACE, LINE * len(lines) + SPACE)


def lines_of(element: Element) -> list[str]:
    """The id, the kind, and what is run."""
    if element["kind"] == "decision":
        return [element["id"], f"decision {element['ref']}"]
    if "batchlet" in element:
        lines = [element["id"], f"step, batchlet {element['batchlet']['ref']}"]
    else:
        chunk = element["chunk"]
        parts = [f"{name} {chunk[name]['ref']}" for name in ("reader", "processor", "writer") if name in chunk]
        lines = [element["id"], f"step, chunk of {chunk.get('item-count', 10)}", *parts]
    return lines + ([f"{element['partitions']} partitions"] if "partitions" in element else [])


def head_of(element: Element) -> str:
    return f"{element['kind']} {element['id']}"


def lines_of_ending(transition: Element) -> list[str]:
    """How a transition element ends the job."""
    status = [transition["exit-status"]] if "exit-status" in transition else []
    return [transition["kind"], *status, *([f"restart at {transition['restart']}"] if "restart" in transition else [])]


MEASURES = Measures(
    box=lambda element: size_of(lines_of(element)),
    ending=lambda transition: size_of(lines_of_ending(transition)),
    head=lambda element: width_of(head_of(element)) + 2 * PAD,
    label=width_of,
)


def drawn_text(text: str, at: Point, anchor: str = "middle", more: str = "") -> str:
    return f'<text x="{at.x}" y="{at.y}" text-anchor="{anchor}"{more}>{told(text)}</text>' if text else ""


def drawn_lines(lines: Sequence[str], item: Item, at: Point) -> str:
    middle = at.x + item.size.width // 2
    return "".join(drawn_text(line, Point(middle, at.y + SPACE // 2 + BASE + LINE * row)) for row, line in enumerate(lines))


def drawn_box(size: Size, at: Point, colours: str, round_by: int = 8) -> str:
    return f'<rect x="{at.x}" y="{at.y}" width="{size.width}" height="{size.height}" rx="{round_by}" {colours}/>'


def drawn_item(item: Item, at: Point) -> str:
    element = item.element or {}
    if item.inner is not None:
        return drawn_box(item.size, at, FRAME) + drawn_text(head_of(element), Point(at.x + PAD, at.y + 18), "start")
    if item.ending is not None:
        transition = transitions_of(element)[item.ending]
        colours = f'fill="{ENDS[transition["kind"]]}" stroke="{INK}"'
        return drawn_box(item.size, at, colours, item.size.height // 2) + drawn_lines(lines_of_ending(transition), item, at)
    round_by = item.size.height // 2 if element["kind"] == "decision" else 8
    return drawn_box(item.size, at, BOX, round_by) + drawn_lines(lines_of(element), item, at)


def drawn_way(way: Way) -> str:
    arrow = ' marker-end="url(#arrow)"' if way.tip else ""
    path = f'<path d="{way.path}" fill="none" stroke="{INK}"{arrow}/>'
    return path + drawn_text(way.label, way.label_at, way.anchor, OVER_LINES)


def parts_of(name: str, picture: Picture, above: int) -> Iterator[str]:
    """A job under its name, with all that was drawn above it."""
    yield f'<g transform="translate(0 {above})">{drawn_text(f"job {name}", Point(PAD, TITLE - SPACE), "start")}'
    yield f'<g transform="translate(0 {TITLE})">'
    yield from (drawn_item(*placed) for placed in sorted(picture.placed, key=is_inside))
    yield from map(drawn_way, picture.ways)
    yield "</g></g>"


def is_inside(placed: Placed) -> bool:
    """Whether it is drawn over the frames."""
    return placed.item.inner is None


def draw(jobs: Sequence[Job]) -> bytes:
    """The jobs of an accepted catalogue as SVG, one below the other."""
    drawn = [(job.id or "", picture_of(plain(job.value), MEASURES)) for job in jobs]
    width = max((max(picture.size.width, width_of(f"job {name}") + 2 * PAD) for name, picture in drawn), default=0)
    lines, above = list[str](), 0
    for name, picture in drawn:
        lines += parts_of(name, picture, above)
        above += TITLE + picture.size.height
    return "\n".join([HEAD.format(width, above, INK), *lines, "</svg>", ""]).encode()
