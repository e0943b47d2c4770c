"""Random catalogues: some as they should be, most at fault in the ways that docs/CATALOGUE.md names."""

from __future__ import annotations

import json
import random
from collections.abc import Callable, Iterator
from dataclasses import dataclass
from typing import Any

Object = dict[str, Any]
LONG = "é" * 129
ODD_NUMBERS = "-1 -0 1.0 1e3 0.5 4294967296 18446744073709551616 1e-400 0 65 64 4294967295".split()
OTHERS: list[Any] = [None, True, 7, "text", [], {}, [[]], "step", 0, ""]
UNLISTED = "nxt Id properties listeners ref2 item_count restart elements flows transitions next kind".split()
SPACES = ["", "", "", " ", "\n", "\t", "\r\n", "  \n  "]
TEXTS = ["COMPLETED", "*", "A?", "", "é", "\u2028", "\x7f", "\u0000", "𝄞", "a\\b", 'a"b', "/", "F*"]
# Tokens that JSON hasn't, and a few that it has; `|` parts them.
TOKENS = r"""NaN|-Infinity|1e400|-1e400|"\ud800"|"\udc00\ud800"|"\u12g4"|"\x41"|'text'|True|01|+1|1.|.5|0x10|1e""".split("|")
TOKENS += (
    r"""nul|tru e|1 2|"a" "b"|//|[1,]|{"a":1,}|{a:1}|[1 2]|{"a" 1}|[|]|"|- 1|"\ud834\udd1e"|1.7976931348623159e308""".split("|")
)
TOKENS += ["9" * 400, '"a\nb"', '"a\tb"', '"\x00"', ""]


@dataclass(frozen=True)
class Raw:
    """A token that is written as it is."""

    token: str


@dataclass(frozen=True)
class Twice:
    """A member's value with one before it that doesn't count."""

    first: Any
    last: Any


class Writer:
    """Writes JSON with members in any order, and white space and escapes where they may be."""

    def __init__(self, chance: random.Random) -> None:
        self.chance = chance

    def space(self) -> str:
        return self.chance.choice(SPACES)

    def value(self, value: Any) -> str:
        if isinstance(value, Raw):
            return value.token
        if isinstance(value, dict):
            return self.around("{", [self.member(name, held) for name, held in self.shuffled(value)], "}")
        if isinstance(value, list):
            return self.around("[", [self.value(item) for item in value], "]")
        return self.text(value) if isinstance(value, str) else json.dumps(value)

    def shuffled(self, members: Object) -> list[tuple[str, Any]]:
        pairs = list(members.items())
        if self.chance.random() < 0.5:
            self.chance.shuffle(pairs)
        return pairs

    def member(self, name: str, value: Any) -> str:
        if isinstance(value, Twice):
            return f"{self.member(name, value.first)},{self.member(name, value.last)}"
        return f"{self.text(name)}{self.space()}:{self.space()}{self.value(value)}"

    def around(self, begin: str, items: list[str], end: str) -> str:
        return begin + ",".join(f"{self.space()}{item}{self.space()}" for item in items) + self.space() + end

    def text(self, text: str) -> str:
        return json.dumps(text, ensure_ascii=self.chance.random() < 0.3)


class Maker:
    """Makes catalogues that batchctl takes."""

    def __init__(self, chance: random.Random) -> None:
        self.chance = chance
        self.number = 0

    def catalogue(self) -> Object:
        return {"jobs": [self.job(number) for number in range(self.chance.choice([0, 1, 1, 1, 2, 3]))]}

    def job(self, number: int) -> Object:
        job: Object = {"id": f"job{number}", "elements": self.elements(1)}
        if self.chance.random() < 0.3:
            job["restartable"] = self.chance.random() < 0.5
        top = [element["id"] for element in job["elements"]]
        for transition in transitions_in(job):
            if transition["kind"] == "stop" and self.chance.random() < 0.5:
                transition["restart"] = self.chance.choice(top)
        return job

    def id(self) -> str:
        self.number += 1
        return f"{self.chance.choice(['load', 'é', 'x'])}{self.number}"

    def elements(self, depth: int) -> list[Object]:
        """Elements that lead to later ones alone."""
        ids = [self.id() for _ in range(self.chance.choice([1, 1, 2, 3, 4]))]
        return [self.element(name, ids[place + 1 :], depth) for place, name in enumerate(ids)]

    def element(self, name: str, later: list[str], depth: int) -> Object:
        kinds = ["step", "step", "decision", "flow", "split"] if depth < 4 else ["step", "decision"]
        kind = self.chance.choice(kinds)
        element: Object = {"kind": kind, "id": name}
        if later and kind != "decision" and self.chance.random() < 0.7:
            element["next"] = self.chance.choice(later)
        if kind != "split" and self.chance.random() < 0.5:
            element["transitions"] = [self.transition(later) for _ in range(self.chance.randrange(3))]
        return {**element, **getattr(self, kind)(depth)}

    def step(self, depth: int) -> Object:
        members: Object = {"batchlet": self.artifact()} if self.chance.random() < 0.5 else {"chunk": self.chunk()}
        if self.chance.random() < 0.3:
            members["partitions"] = self.chance.choice([1, 3, 64])
        if self.chance.random() < 0.3:
            members["start-limit"] = self.chance.choice([0, 1, 4294967295])
        if self.chance.random() < 0.3:
            members["allow-start-if-complete"] = self.chance.random() < 0.5
        return members

    def chunk(self) -> Object:
        members: Object = {"reader": self.artifact(), "writer": self.artifact()}
        if self.chance.random() < 0.5:
            members["processor"] = self.artifact()
        return members if self.chance.random() < 0.5 else {**members, "item-count": self.chance.choice([1, 10, 4294967295])}

    def artifact(self) -> Object:
        return {"ref": self.chance.choice(["ok", "count:5", "sink", "é" * 128, "\u0000"])}

    def decision(self, depth: int) -> Object:
        return self.artifact()

    def flow(self, depth: int) -> Object:
        return {"elements": self.elements(depth + 1)}

    def split(self, depth: int) -> Object:
        flows = range(self.chance.choice([1, 2]))
        return {"flows": [{"kind": "flow", "id": self.id(), "elements": self.elements(depth + 2)} for _ in flows]}

    def transition(self, later: list[str]) -> Object:
        kind = self.chance.choice(["next", "end", "fail", "stop"] if later else ["end", "fail", "stop"])
        members: Object = {"kind": kind, "on": self.chance.choice(TEXTS)}
        if kind == "next":
            return {**members, "to": self.chance.choice(later)}
        return {**members, "exit-status": self.chance.choice(TEXTS)} if self.chance.random() < 0.5 else members


def objects_in(value: Any) -> Iterator[Object]:
    """The objects of a value, each before those inside it."""
    if isinstance(value, dict):
        yield value
    inner = value.values() if isinstance(value, dict) else value if isinstance(value, list) else ()
    for held in inner:
        yield from objects_in(held)


def elements_in(job: Any) -> list[Object]:
    return [held for held in objects_in(job) if "id" in held and "kind" in held]


def transitions_in(job: Any) -> list[Object]:
    return [held for held in objects_in(job) if "on" in held and "kind" in held]


class Breaker:
    """Breaks a catalogue in one of the ways that have a name. What can't be broken so stays as it is."""

    def __init__(self, chance: random.Random) -> None:
        self.chance = chance
        self.made = Maker(chance)

    def pick(self, items: list[Any]) -> Any:
        return self.chance.choice(items) if items else None

    def jobs(self, catalogue: Object) -> list[Any]:
        if not catalogue["jobs"]:
            catalogue["jobs"].append(self.made.job(0))
        return list(catalogue["jobs"])

    def element(self, catalogue: Object) -> Object:
        chosen: Object | None = self.pick(elements_in(self.jobs(catalogue)))
        return chosen if chosen is not None else {}

    def other_root(self, catalogue: Object) -> Any:
        broken: list[Any] = [
            [catalogue],
            None,
            7,
            "jobs",
            {},
            {"jobs": {}},
            {"jobs": None},
            {"Jobs": []},
            {**catalogue, "version": 1},
        ]
        return self.pick(broken)

    def without_a_member(self, catalogue: Object) -> Any:
        held = self.pick([held for held in objects_in(self.jobs(catalogue)) if held])
        if held is not None:
            del held[self.pick(list(held))]
        return catalogue

    def other_kind(self, catalogue: Object) -> Any:
        held = self.pick([held for held in objects_in(self.jobs(catalogue)) if held])
        if held is not None:
            held[self.pick(list(held))] = self.pick(OTHERS)
        return catalogue

    def unlisted(self, catalogue: Object) -> Any:
        held = self.pick(list(objects_in(self.jobs(catalogue))))
        held[self.pick(UNLISTED)] = self.pick([*OTHERS, "b", [{"kind": "end", "on": "*"}]])
        return catalogue

    def misspelt(self, catalogue: Object) -> Any:
        held = self.pick([held for held in objects_in(self.jobs(catalogue)) if held])
        name = self.pick(list(held))
        held[name[:-1] + self.pick(["", "x", name[-1] * 2])] = held.pop(name)
        return catalogue

    def no_object(self, catalogue: Object) -> Any:
        lists = [value for held in objects_in(catalogue) for value in held.values() if isinstance(value, list) and value]
        chosen = self.pick(lists)
        if chosen is not None:
            chosen[self.chance.randrange(len(chosen))] = self.pick(OTHERS)
        return catalogue

    def odd_number(self, catalogue: Object) -> Any:
        step = self.pick([held for held in elements_in(self.jobs(catalogue)) if held["kind"] == "step"])
        if step is not None:
            owner, name = self.pick([(step, "start-limit"), (step, "partitions"), (step.get("chunk", step), "item-count")])
            owner[name] = Raw(self.pick(ODD_NUMBERS))
        return catalogue

    def both_tasks(self, catalogue: Object) -> Any:
        step = self.pick([held for held in elements_in(self.jobs(catalogue)) if held["kind"] == "step"])
        if step is not None:
            step.update(self.pick([{"batchlet": {"ref": "ok"}, "chunk": self.made.chunk()}, {"chunk": {}}]))
        return catalogue

    def too_long(self, catalogue: Object) -> Any:
        held = self.pick([held for held in objects_in(self.jobs(catalogue)) if set(held) & {"id", "ref", "on"}])
        names = [name for name, value in held.items() if isinstance(value, str) and name != "kind"]
        held[self.pick(names)] = LONG
        return catalogue

    def empty(self, catalogue: Object) -> Any:
        held = self.pick([held for held in objects_in(self.jobs(catalogue)) if set(held) & {"id", "ref", "elements", "flows"}])
        name = self.pick([name for name in held if name in ("id", "ref", "elements", "flows")])
        held[name] = "" if name in ("id", "ref") else []
        return catalogue

    def deep(self, catalogue: Object) -> Any:
        """Flows and splits around a list, down to about the greatest depth."""
        job = self.pick(self.jobs(catalogue))
        for _ in range(self.chance.randrange(5, 17)):
            job["elements"] = [self.around(job["elements"])]
        return catalogue

    def around(self, elements: list[Object]) -> Object:
        if self.chance.random() < 0.7:
            return {"kind": "flow", "id": self.made.id() + "-flow", "elements": elements}
        flow = {"kind": "flow", "id": self.made.id() + "-inner", "elements": elements}
        return {"kind": "split", "id": self.made.id() + "-split", "flows": [flow]}

    def same_id(self, catalogue: Object) -> Any:
        elements = elements_in(self.pick(self.jobs(catalogue)))
        self.pick(elements)["id"] = self.pick(elements)["id"]
        return catalogue

    def same_job(self, catalogue: Object) -> Any:
        jobs = self.jobs(catalogue)
        catalogue["jobs"].append({**self.made.job(9), "id": self.pick(jobs)["id"]})
        return catalogue

    def wrong_target(self, catalogue: Object) -> Any:
        """A target that is somewhere in the catalogue, or nowhere: it may lead round, or be in another list."""
        ids = [element["id"] for element in elements_in(catalogue)]
        element = self.element(catalogue)
        if element.get("kind") in ("step", "flow", "split"):
            element["next"] = self.pick([*ids, "nowhere", ""])
        else:
            element["transitions"] = [{"kind": "next", "on": "*", "to": self.pick([*ids, "nowhere"])}]
        return catalogue

    def round(self, catalogue: Object) -> Any:
        """Elements of one list that lead to one another."""
        lists = [held["elements"] for held in objects_in(self.jobs(catalogue)) if held.get("elements")]
        elements = self.pick(lists)
        steps = [element for element in elements if element["kind"] != "decision"] or elements
        for element in steps:
            element["next"] = self.pick(elements)["id"]
        return catalogue

    def wrong_restart(self, catalogue: Object) -> Any:
        element = self.element(catalogue)
        ids = [other["id"] for other in elements_in(catalogue)]
        stop = {"kind": "stop", "on": "*", "restart": self.pick([*ids, "nowhere", ""])}
        if element.get("kind") in ("step", "flow", "decision"):
            element["transitions"] = [*element.get("transitions", []), stop]
        return catalogue

    def many_elements(self, catalogue: Object) -> Any:
        job = self.pick(self.jobs(catalogue))
        count = self.chance.choice([998, 999, 1000])
        job["elements"] += [{"kind": "step", "id": f"many{number}", "batchlet": {"ref": "ok"}} for number in range(count)]
        return catalogue

    def many_jobs(self, catalogue: Object) -> Any:
        step = {"kind": "step", "id": "s", "batchlet": {"ref": "ok"}}
        count = self.chance.choice([253, 256, 257])
        catalogue["jobs"] += [{"id": f"many{number % 256}", "elements": [step]} for number in range(count)]
        return catalogue

    def twice(self, catalogue: Object) -> Any:
        """A member that comes twice: what comes first doesn't count."""
        held = self.pick([held for held in objects_in(self.jobs(catalogue)) if held])
        name = self.pick(list(held))
        value = held[name]
        held[name] = self.pick([Twice(self.pick(OTHERS), value), Twice(value, self.pick(OTHERS)), Twice(Raw("1e400"), value)])
        return catalogue

    def nested(self, catalogue: Object) -> Any:
        held = self.pick(list(objects_in(self.jobs(catalogue))))
        count = self.chance.choice([100, 118, 120, 122, 124, 126, 127, 128])
        held["deep"] = Raw("[" * count + "]" * count)
        return catalogue

    def bad_token(self, catalogue: Object) -> Any:
        held = self.pick(list(objects_in(self.jobs(catalogue))))
        held[self.pick([*held, "x"])] = Raw(self.pick(TOKENS))
        return catalogue


# A heavy one is made seldom.
HEAVY = ("many_elements", "many_jobs")
WAYS: list[str] = [
    name for name in vars(Breaker) if not name.startswith("_") and name not in ("pick", "jobs", "element", "around")
]


def cut(data: bytes, chance: random.Random) -> bytes:
    """One byte more, less or other, an end too early, a mark in front, or something behind."""
    at = chance.randrange(len(data) + 1)
    byte = bytes([chance.choice([*b'{}[]",:\\ \n\t0e-', 0, 0x1F, 0x80, 0xC3, 0xFF, 0xED])])
    ways: list[Callable[[], bytes]] = [
        lambda: data[:at] + byte + data[at:],
        lambda: data[:at] + data[at + 1 :],
        lambda: data[:at] + byte + data[at + 1 :],
        lambda: data[:at],
        lambda: b"\xef\xbb\xbf" + data,
        lambda: data + chance.choice([b"x", b"{}", b",", b"\0", b"\x0c", b"\xa0"]),
        lambda: data[:at] + b"\xed\xa0\x80" + data[at:],
    ]
    return chance.choice(ways)()


@dataclass(frozen=True)
class RandomCatalogue:
    """The bytes of a file, and the ways in which it was broken."""

    ways: tuple[str, ...]
    data: bytes


def random_catalogue(chance: random.Random) -> RandomCatalogue:
    catalogue: Any = Maker(chance).catalogue()
    breaker = Breaker(chance)
    ways = [chance.choice(WAYS) for _ in range(chance.choice([0, 1, 1, 1, 1, 2, 2, 3]))]
    ways = [way for way in ways if way not in HEAVY or chance.random() < 0.2]
    done = []
    for way in ways:
        if isinstance(catalogue, dict) and isinstance(catalogue.get("jobs"), list):
            catalogue = applied(breaker, way, catalogue)
            done.append(way)
    data = Writer(chance).value(catalogue).encode()
    if chance.random() < 0.1:
        return RandomCatalogue((*done, "cut"), cut(data, chance))
    return RandomCatalogue(tuple(done), data)


def applied(breaker: Breaker, way: str, catalogue: Any) -> Any:
    """The catalogue broken in one way. Where an earlier way has left nothing to break so, it stays."""
    try:
        return getattr(breaker, way)(catalogue)
    except (AttributeError, KeyError, TypeError, IndexError, ValueError):
        return catalogue
