"""Replies to queries, and who gives them."""

from __future__ import annotations

from collections.abc import Awaitable, Sequence
from dataclasses import dataclass
from typing import Protocol


@dataclass(frozen=True)
class Answers:
    """Replies to queries of one state, and how many operations they saw."""

    replies: list[bytes]
    seen: int


class Answering(Protocol):
    """Answers queries. `entered` says how many operations its history has by now."""

    entered: int

    def ask(self, queries: Sequence[bytes]) -> Awaitable[Answers]:
        """Asks queries of one state. There is at least one."""
