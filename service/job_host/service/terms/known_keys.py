"""Which request keys may have a reply, so that the store needn't be asked for one that surely has none."""

from __future__ import annotations

from collections.abc import Awaitable, Callable, Sequence
from typing import NamedTuple

# A key sets so many bits of a filter, which has room for one key in so many bits: of keys without a reply, fewer than one in a
# hundred is asked for.
BITS_SET, BITS_A_KEY = 5, 12
# The bits of the first filter. Each further one has four times as many.
FIRST_BITS, GROWTH = 2**20, 4
# Keys of the store are read so many at a time, so that calls come between.
PAGE = 1_000


class KeptKey(NamedTuple):
    """A request key of the store, by what orders them: when it was kept, its session and itself."""

    at: float
    session: int
    key: str


ReadPage = Callable[[KeptKey | None, int], Awaitable[Sequence[KeptKey]]]


class Filter:
    """A filter of B. Bloom: it forgets no key, and may take one for known that isn't. Bits are a power of two."""

    def __init__(self, bits: int) -> None:
        self._bits = bytearray(bits // 8)
        self._last = bits - 1
        self.room = bits // BITS_A_KEY

    def add(self, session: int, key: str) -> None:
        self.room -= 1
        bits, last, at = self._bits, self._last, hash((session, key))
        step = (at >> 32) | 1
        for _ in range(BITS_SET):
            place = at & last
            bits[place >> 3] |= 1 << (place & 7)
            at += step

    def has(self, session: int, key: str) -> bool:
        bits, last, at = self._bits, self._last, hash((session, key))
        step = (at >> 32) | 1
        for _ in range(BITS_SET):
            place = at & last
            if not bits[place >> 3] & 1 << (place & 7):
                return False
            at += step
        return True


class KnownKeys:
    """The keys of one term: those that the store has, and those that were handed over since.

    Until it has read all of the store's, any may be known.
    """

    def __init__(self, first_bits: int = FIRST_BITS) -> None:
        self._next_bits = first_bits
        self._filters: list[Filter] = []
        self.is_whole = False

    def add(self, session: int, key: str) -> None:
        if not self._filters or self._filters[-1].room <= 0:
            self._filters.append(Filter(self._next_bits))
            self._next_bits *= GROWTH
        self._filters[-1].add(session, key)

    def may_have(self, session: int, key: str) -> bool:
        """Whether the key may have been used. If not, it surely wasn't."""
        return not self.is_whole or any(one.has(session, key) for one in self._filters)

    async def read(self, read_page: ReadPage, size: int = PAGE) -> None:
        """Reads the keys of the store, page by page."""
        last: KeptKey | None = None
        while page := await read_page(last, size):
            for one in page:
                self.add(one.session, one.key)
            last = page[-1]
        self.is_whole = True
