"""Pages of lists: how many rows are left out, and how many follow at most."""

from __future__ import annotations

from collections.abc import Sequence
from typing import NamedTuple, TypeVar

T = TypeVar("T")

# Rows of a page if a request names no number, and the links of a job instance to its job executions.
USUAL_SIZE = 50


class Page(NamedTuple):
    start: int
    size: int

    def of(self, rows: Sequence[T]) -> Sequence[T]:
        return rows[self.start : self.start + self.size]
