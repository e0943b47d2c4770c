"""What an object shows, before and behind a refusal: when lines tell the same."""

from __future__ import annotations

import re
from collections.abc import Iterable

from memory_trial.calls import Part
from program import Wrong


def end_of_braces(text: str, start: int) -> int:
    """Where the braces end that open at `start`."""
    depth = 0
    for place in range(start, len(text)):
        depth += {"{": 1, "}": -1}.get(text[place], 0)
        if depth == 0:
            return place + 1
    raise Wrong(f"braces without an end in {text[start:]!r}")


def entries_of(text: str) -> list[str]:
    """The entries of a map of numbers, as `1: Cursor { .. }`."""
    entries, place = [], 1
    while found := re.compile(r"(?:, )?(\d+: \w+ )(?=\{)").match(text, place):
        place = end_of_braces(text, found.end())
        entries.append(text[found.start(1) : place])
    if text[place:] != "}":
        raise Wrong(f"no map of kept walks: {text!r}")
    return entries


def without_walks(line: str) -> tuple[str, list[list[str]]]:
    """A line without the walks that repositories keep, and these."""
    kept, place = [], 0
    while (place := line.find(" cursors: {", place)) >= 0:
        start = place + len(" cursors: ")
        end = end_of_braces(line, start)
        kept.append(entries_of(line[start:end]))
        line = line[:start] + "{}" + line[end:]
        place = start
    return line, kept


# What a script shows of a session.
SESSION = re.compile(r"(session \d+), seen (\d+)(, shown \d+, own \d+)")


def tells_the_same(now: str, before: str) -> bool:
    """Whether a line tells the same as another one, but that walks which were kept may be dropped."""
    (left, kept), (right, held) = without_walks(now), without_walks(before)
    return left == right and all(set(some).issubset(others) for some, others in zip(kept, held, strict=True))


def is_as_before(now: str, before: str) -> bool:
    """Whether a line tells the same as another one, but that walks may be dropped, and a session may have seen more."""
    if (found := SESSION.fullmatch(now)) and (other := SESSION.fullmatch(before)):
        return found[1] == other[1] and found[3] == other[3] and int(found[2]) >= int(other[2])
    return tells_the_same(now, before)


def see_what_there_is(lines: list[str]) -> bool:
    """Whether no session has seen more operations than these lines, which show all sessions, say that there are."""
    told = [int(found[1]) for line in lines if (found := re.match(r"(\d+) operations", line))]
    operations = max([sum(line.startswith("Some(Entry") for line in lines), *told])
    return all(int(found[2]) <= operations for line in lines if (found := SESSION.fullmatch(line)))


def are_as_before(now: Iterable[str], before: Iterable[str]) -> bool:
    lines, others = list(now), list(before)
    return len(lines) == len(others) and all(map(is_as_before, lines, others))


def alike(now: Iterable[Part], before: Iterable[Part]) -> bool:
    """Whether parts tell the same of the same lines, but that walks may be dropped."""
    some, others = list(now), list(before)
    return len(some) == len(others) and all(
        one.line == other.line and are_as_before(one.said, other.said) for one, other in zip(some, others)
    )


# What is told if there is nothing to count.
NOTHING = {'{"refused":"NoSuchJobException"}': '{"count":0}', '{"counts":{}}': '{"counts":{"STARTING":0}}'}


def has_between(now: str, before: str, after: str) -> bool:
    """Whether each number is between those before and after, and all else as in both."""
    pieces = [re.split(r"(\d+)", NOTHING.get(line, line)) for line in (now, before, after)]
    if len({len(each) for each in pieces}) != 1:
        return False
    for one, low, high in zip(*pieces):
        if not (one.isdigit() and low.isdigit() and high.isdigit()):
            if not one == low == high:
                return False
        elif not int(low) <= int(one) <= int(high):
            return False
    return True


# How a repository prints that it has no lists of unfinished job executions.
NO_LISTS = "running: None"


def places_of_lists(line: str) -> list[tuple[int, int]]:
    """Where a line tells of a repository's lists of unfinished job executions, or that it has none."""
    heads = re.finditer(NO_LISTS + r"|running: Some\(RunningLists (?=\{)", line)
    return [(head.start(), head.end() if head[0] == NO_LISTS else end_of_braces(line, head.end()) + 1) for head in heads]


def without_lists(line: str, other: str) -> str:
    """A line in which those repositories have no lists that have none in the other one."""
    places, others = places_of_lists(line), places_of_lists(other)
    if len(places) == len(others):
        for (start, end), (first, last) in reversed(list(zip(places, others))):
            if other[first:last] == NO_LISTS:
                line = line[:start] + NO_LISTS + line[end:]
    return line
