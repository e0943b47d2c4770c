"""How many operations an answer saw: one number, or with several queues a number for each, in the order of their numbers.

`12` is of the queue 0 alone, and `12,0,7` says that 7 operations of the queue 2 were seen. Zeros at the end are left out.
"""

from __future__ import annotations

import re
from itertools import zip_longest

from job_host.protocol.bounds import MOST_NUMBER

Seen = tuple[int, ...]

NOTHING: Seen = ()
NUMBERS = re.compile(r"[0-9]{1,20}(,[0-9]{1,20})*")
# More queues than any service has.
MOST_NUMBERS = 1_000


class NoNumbers(ValueError):
    """A text that says no numbers of operations."""


def read_seen(text: str) -> Seen:
    """The numbers of a text. Raises NoNumbers."""
    if not NUMBERS.fullmatch(text) or text.count(",") >= MOST_NUMBERS:
        raise NoNumbers(text[:100])
    numbers = tuple(map(int, text.split(",")))
    if max(numbers) > MOST_NUMBER:
        raise NoNumbers(text[:100])
    return without_zeros(numbers)


def without_zeros(numbers: Seen) -> Seen:
    """The numbers without the zeros at their end."""
    count = len(numbers)
    while count and not numbers[count - 1]:
        count -= 1
    return numbers[:count]


def written(seen: Seen) -> str:
    return ",".join(map(str, seen)) if seen else "0"


def both(one: Seen, other: Seen) -> Seen:
    """All that either of them saw."""
    return tuple(map(max, zip_longest(one, other, fillvalue=0)))


def of_queue(number: int, operations: int) -> Seen:
    """So many operations of one queue."""
    return without_zeros((*([0] * number), operations))


def in_queue(seen: Seen, number: int) -> int:
    """How many operations of one queue that is: of one that isn't there, none."""
    return seen[number] if number < len(seen) else 0
