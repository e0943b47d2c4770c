"""Room for connections: who has a place, and who makes way for a new one.

A stranger is a connection by which no accepted caller has asked yet. Strangers have what callers leave free, and a few places
beside that. If there are more of them, the oldest one of the address that has the most makes way: so no address keeps the
others out. A caller's connection makes way for another caller's, and only while it waits for its next request.
"""

from __future__ import annotations

from typing import Protocol

# So many strangers are let in though callers have all places, so that each of them can show who it is.
MOST_BESIDE = 64


class Occupant(Protocol):
    def make_way(self) -> None:
        """Ends the connection."""


class Room:
    def __init__(self, places: int) -> None:
        self._places = places
        self._strangers: dict[bytes, dict[Occupant, None]] = {}
        self._addresses: dict[Occupant, bytes] = {}
        self._callers: set[Occupant] = set()
        self._idle: dict[Occupant, None] = {}

    @property
    def count(self) -> int:
        return len(self._addresses) + len(self._callers)

    def enter(self, occupant: Occupant, address: bytes) -> bool:
        """Lets a stranger in. Returns whether another one made way."""
        is_full = len(self._addresses) >= max(MOST_BESIDE, self._places - len(self._callers))
        if is_full:
            most = max(self._strangers.values(), key=lambda those: len(those))
            self._end(next(iter(most)))
        self._strangers.setdefault(address, {})[occupant] = None
        self._addresses[occupant] = address
        return is_full

    def admit(self, occupant: Occupant) -> bool:
        """A caller is accepted. Returns whether it has a place: else all are taken by callers whose requests are in hand."""
        if occupant in self._addresses:
            if len(self._callers) >= self._places and not self._end_idle():
                return False
            self.leave(occupant)
            self._callers.add(occupant)
        return True

    def _end_idle(self) -> bool:
        if self._idle:
            self._end(next(iter(self._idle)))
            return True
        return False

    def _end(self, occupant: Occupant) -> None:
        self.leave(occupant)
        occupant.make_way()

    def note_idle(self, occupant: Occupant, is_idle: bool) -> None:
        """A caller's connection waits for its next request, or has one."""
        self._idle.pop(occupant, None)
        if is_idle and occupant in self._callers:
            self._idle[occupant] = None

    def leave(self, occupant: Occupant) -> None:
        """Frees its place, if it has one."""
        self._callers.discard(occupant)
        self._idle.pop(occupant, None)
        address = self._addresses.pop(occupant, None)
        if address is not None:
            del self._strangers[address][occupant]
            if not self._strangers[address]:
                del self._strangers[address]
