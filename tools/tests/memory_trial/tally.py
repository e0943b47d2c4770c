"""Refuses each request of a call in turn, and counts them."""

from __future__ import annotations

import re
from collections.abc import Iterator
from concurrent.futures import ThreadPoolExecutor
from dataclasses import dataclass

from memory_trial.calls import Refuser
from memory_trial.rules import OF_ALL_REQUESTS, OF_ONE_CALL, Refusal, judge, rule_of
from memory_trial.single_calls import Case


@dataclass(frozen=True)
class Tally:
    """How many requests a call makes, and the numbers of those that it can do without."""

    requests: int
    without: tuple[int, ...] = ()


# Calls of objects that show less, and calls that ask for just the same and can do without the same. A desk and an operator
# hand a call to their book: they ask for nothing of their own, neither before it nor behind its change.
AS_OF_A_BOOK = [(r"operator\.(night\.\d+)", r"book.\1"), (r"full_desk\.(\w+\.\d+)", r"full_book.\1")]


def differ_from_a_book(tallies: dict[str, Tally]) -> Iterator[str]:
    """The calls that ask otherwise than those of a book."""
    for name, tally in tallies.items():
        for pattern, other in AS_OF_A_BOOK:
            if found := re.fullmatch(pattern, name):
                wanted = tallies.get(found.expand(other), tally)
                if tally != wanted:
                    yield f"{name}: {tally}, and {found.expand(other)}: {wanted}"


def sums_of(tallies: list[Tally]) -> str:
    """How many calls there are, and how many requests were refused in them."""
    requests, without = [tally.requests for tally in tallies], sum(len(tally.without) for tally in tallies)
    refused = f"{len(tallies)} calls, {sum(requests)} requests refused, at most {max(requests)} of a call"
    return f"{refused}, {without} done without; {requests.count(0)} calls asked for none"


def check(program: Refuser, case: Case, pool: ThreadPoolExecutor) -> Tally:
    """Refuses each request of a case."""
    whole = program.whole(case)
    script = case.script(rule_of(case) not in OF_ONE_CALL)
    numbers = range(1, whole.requests + 1)
    without, refusals = [], []
    for number, run in zip(numbers, pool.map(lambda number: program.run(script, number), numbers)):
        refusal = Refusal(program, case, whole, number, run)
        if judge(refusal):
            without.append(number)
        if rule_of(case) in OF_ALL_REQUESTS:
            refusals.append(refusal)
    if refusals:
        OF_ALL_REQUESTS[rule_of(case)](refusals)
    return Tally(whole.requests, tuple(without))
