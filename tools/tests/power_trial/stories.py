"""What is due: the history of a run, the replies to its lines, and how a history is known by replies."""

from __future__ import annotations

from collections.abc import Sequence
from dataclasses import dataclass
from functools import lru_cache
from itertools import accumulate

from log_trial.script import is_kept
from power_trial.lines import questions, sequel
from power_trial.runs import Bench
from program import Wrong

# The calls that were accepted, in their order.
History = tuple[bytes, ...]


@dataclass(frozen=True)
class Book:
    """The replies that are due with a catalogue, by the program without a log."""

    bench: Bench
    catalogue: bytes

    @lru_cache(maxsize=None)
    def replies(self, history: History, lines: tuple[bytes, ...]) -> list[bytes]:
        """The replies to lines after a history."""
        return self.bench.replies(self.catalogue, [*history, *lines])[len(history) :]

    @lru_cache(maxsize=None)
    def counts(self, history: History, lines: tuple[bytes, ...]) -> dict[bytes, int]:
        """How many operations of a history there are, by the replies to some lines after them."""
        answers = [b"".join(self.replies(history[:count], lines)) for count in range(len(history) + 1)]
        if len(set(answers)) < len(answers):
            raise Wrong("two beginnings of a history have the same replies")
        return {answer: count for count, answer in enumerate(answers)}


# By the replies to the questions a caller knows where it goes on. The probe shows the data too, and that a night goes on.
QUESTIONS = tuple(questions())
PROBE = (*questions(), *sequel(), *questions())


@dataclass(frozen=True)
class Story:
    """A run: the history before it and after it, the replies that are due, and how many operations there are after each."""

    book: Book
    before: History
    history: History
    replies: tuple[bytes, ...]
    operations: tuple[int, ...]
    # So many operations were seen before the run.
    least: int

    def told(self) -> bytes:
        return b"".join(self.replies)

    def seen(self, told: int) -> int:
        """How many operations somebody saw who was told so many bytes: those before the last reply that was told in part."""
        ends = accumulate(map(len, self.replies[:-1]), initial=0)
        touched = sum(end < told for end in ends)
        return max(self.least, self.operations[touched - 1]) if touched else self.least


def story_of(book: Book, history: History, lines: Sequence[bytes], least: int) -> Story:
    """The story of a run that is told these lines after this history."""
    replies = book.replies(history, tuple(lines))
    accepted = [is_kept(line, reply) for line, reply in zip(lines, replies, strict=True)]
    added = tuple(line for line, is_so in zip(lines, accepted) if is_so)
    operations = accumulate(accepted, initial=len(history))
    return Story(book, history, history + added, tuple(replies), tuple(operations)[1:], least)


@dataclass(frozen=True)
class Night:
    """A night, and the same on a second day, with other moments: a run on that day goes on where the log ends."""

    book: Book
    lines: tuple[bytes, ...]
    later: tuple[bytes, ...]

    def history(self, until: int) -> History:
        """The calls among the first lines that are accepted."""
        return story_of(self.book, (), self.lines[:until], 0).history

    def rest(self, count: int) -> tuple[bytes, ...]:
        """The lines of the second day after so many operations."""
        operations = (0, *story_of(self.book, (), self.lines, 0).operations)
        return self.later[operations.index(count) :]
