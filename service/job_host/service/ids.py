"""Numbers of job instances, job executions and work items outside of their queue: unique over all queues of a service.

Outside, a number is that of its queue times 4,294,967,296 and the number inside. So those of the default queue, which is 0,
are the same inside and outside, and all of them are whole numbers in JavaScript, too.
"""

from __future__ import annotations

import json
from collections.abc import Mapping
from typing import Any, NamedTuple

# A repository's own numbers are below that.
OF_ONE_QUEUE = 4_294_967_296
# The members of answers whose values are such numbers.
NUMBERED = frozenset({"executionId", "instanceId", "stepExecutionId", "work", "execution", "instance", "closed", "made"})
# Members with a list of numbers of job executions.
LISTED = frozenset({"executions"})
# What is in a member of these names is other people's: it has no numbers of ours.
OPAQUE = frozenset({"jobParameters", "properties", "step", "metrics", "checkpoint", "parameterText", "log", "logEnd"})
PATHS = ("/batch/jobexecutions/", "/batch/jobinstances/")


class Inside(NamedTuple):
    """The number of a queue, and a number inside it."""

    queue: int
    number: int


def outside(queue: int, number: int) -> int:
    return queue * OF_ONE_QUEUE + number


def inside(number: int) -> Inside:
    return Inside(*divmod(number, OF_ONE_QUEUE))


def told_outside(told: Any, queue: int) -> Any:
    """An answer of a queue with its numbers as they are outside."""
    if queue == 0:
        return told
    if isinstance(told, Mapping):
        return {name: _member(name, value, queue) for name, value in told.items()}
    return [told_outside(one, queue) for one in told] if isinstance(told, list) else told


def _member(name: str, value: Any, queue: int) -> Any:
    if name in OPAQUE:
        return value
    if name in NUMBERED and isinstance(value, int) and value:
        return outside(queue, value)
    if name in LISTED and isinstance(value, list):
        return [outside(queue, one) for one in value if isinstance(one, int)]
    if name == "href" and isinstance(value, str):
        return path_outside(value, queue)
    return told_outside(value, queue)


def path_outside(path: str, queue: int) -> str:
    """A path that has a number behind its first names."""
    for head in PATHS:
        digits, slash, rest = path.removeprefix(head).partition("/")
        if path.startswith(head) and digits.isdecimal():
            return f"{head}{outside(queue, int(digits))}{slash}{rest}"
    return path


def text_outside(text: str, queue: int) -> str:
    """A document of JSON that tells of a queue."""
    return text if queue == 0 else json.dumps(told_outside(json.loads(text), queue), separators=(",", ":"))
