"""Sessions: the number by which the repository knows a client. Each client name has one, as long as the name is kept.

A name is kept from its first accepted call on. Before that its client has a number as long as it has a call in hand: of a call
that is refused nothing is left, but for the reply of its key, if it has one. A name that is silent for long is forgotten here,
or sooner if room is short. The store keeps it for a day at least, as long as it holds a request key, and for good if it did
something to a job execution.
"""

from __future__ import annotations

from collections.abc import Callable, Collection, Container, Iterator, Mapping
from contextlib import contextmanager
from dataclasses import dataclass
from itertools import islice

from job_host.service.problems import Problem
from job_host.service.terms.calls import SERVICE, SERVICE_SESSION

# If room is short, the part of the names that is forgotten at once.
PART_FORGOTTEN = 100


@dataclass(frozen=True)
class Silent:
    """A kept name that wasn't heard for long, and whether the store needs it, as for its request key."""

    name: str
    number: int
    is_needed: bool


@dataclass
class InHand:
    """How many calls of a client are in hand, and its session, if it is no kept name's."""

    calls: int = 0
    number: int | None = None


def nothing_held() -> Container[int]:
    return ()


class Sessions:
    """Client names and their sessions, in the order in which they were heard. `holding` tells which sessions hold work items.

    A new session is above all that are kept, and above `used`.
    """

    def __init__(
        self, kept: Mapping[str, int], most: int, used: int = 0, holding: Callable[[], Container[int]] = nothing_held
    ) -> None:
        self._numbers = dict(kept)
        self._names = {number: name for name, number in kept.items()}
        self._last = max([SERVICE_SESSION, used, *kept.values()])
        self._most = most
        self._holding = holding
        self._heard: set[int] = set()
        self._dropping: set[str] = set()
        self._in_hand: dict[str, InHand] = {}

    @contextmanager
    def hearing(self, name: str) -> Iterator[None]:
        """A call of a client is in hand. Until its end the client's session stays the same, kept or not."""
        hand = self._in_hand.setdefault(name, InHand())
        hand.calls += 1
        try:
            yield
        finally:
            hand.calls -= 1
            if not hand.calls:
                del self._in_hand[name]

    def known(self, name: str) -> int | None:
        """The session of a client that is heard now, if it has one."""
        if name == SERVICE:
            return SERVICE_SESSION
        number = self._numbers.pop(name, None)
        if number is None:
            hand = self._in_hand.get(name)
            return None if hand is None else hand.number
        self._numbers[name] = number
        self._heard.add(number)
        return number

    def number(self, name: str) -> int:
        """The session of a client for its call. A new name has a new number, so `is_known` is asked first."""
        number = self.known(name)
        if name != SERVICE and name not in self._numbers and len(self._numbers) >= self._most and not self._make_room():
            told = "each of them holds a work item, or has a call in hand"
            raise Problem("TooManyClients", 429, f"{self._most} client names are kept, and no more: {told}")
        if number is None:
            self._last += 1
            number = self._last
            if name in self._in_hand:
                self._in_hand[name].number = number
        return number

    def is_known(self, name: str) -> bool:
        """Whether the store needn't be asked for a name."""
        hand = self._in_hand.get(name)
        has_number = hand is not None and hand.number is not None
        return name == SERVICE or name in self._numbers or name in self._dropping or has_number

    def remember(self, name: str, number: int) -> None:
        """The store's session of a client with a call in hand, whose name isn't about to be dropped there."""
        if name in self._in_hand and not self.is_known(name):
            self._in_hand[name].number = number

    def keep(self, name: str, number: int) -> None:
        """A call of a client was accepted."""
        if name == SERVICE or self._numbers.get(name) == number:
            return
        if len(self._numbers) >= self._most:
            self._make_room()
        self._last = max(self._last, number)
        self._numbers[name] = number
        self._names[number] = name
        self._heard.add(number)

    def _make_room(self) -> bool:
        """Forgets some names that hold nothing, of those that were heard longest ago. Returns whether there are any."""
        holding = self._holding()
        free = (one for one, number in self._numbers.items() if number not in holding and one not in self._in_hand)
        gone = list(islice(free, max(1, self._most // PART_FORGOTTEN)))
        for name in gone:
            del self._names[self._numbers.pop(name)]
        return bool(gone)

    def numbers(self) -> list[int]:
        return [SERVICE_SESSION, *self._names]

    def name(self, number: int) -> str | None:
        return self._names.get(number)

    def take_heard(self) -> list[int]:
        """The sessions that were heard since this was last asked."""
        heard, self._heard = self._heard, set()
        return list(heard)

    @contextmanager
    def forgetting(self, silent: Collection[Silent], holding: Container[int]) -> Iterator[dict[str, int]]:
        """Forgets those of these names that weren't heard since `take_heard`, and that hold no work item.

        Gives those that the store doesn't need either, and drops within the block. A name of these that is heard
        meanwhile, or later, has another session: no number is given twice.
        """
        gone = [one for one in silent if one.number not in holding and self._forget(one)]
        dropped = {one.name: one.number for one in gone if not one.is_needed}
        self._dropping.update(dropped)
        try:
            yield dropped
        finally:
            self._dropping.difference_update(dropped)

    def _forget(self, silent: Silent) -> bool:
        """Forgets a name if it wasn't heard. Returns whether it isn't known now."""
        if silent.number in self._heard or silent.name in self._in_hand:
            return False
        if self._numbers.get(silent.name) == silent.number:
            del self._numbers[silent.name], self._names[silent.number]
        return silent.name not in self._numbers
