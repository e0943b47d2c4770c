"""The jobs of a catalogue, repaired in memory as little as lets batchctl go on behind a fault.

What is wrong is taken out if it may be left out, and else becomes the plainest thing that may stand there. Lists keep their
lengths, so that a way leads to the same place here and in the file.
"""

from __future__ import annotations

import json
from collections import Counter
from collections.abc import Sequence
from itertools import count
from typing import Any

from job_host.catalogue.forms import KINDS, Form, Kind, members_of
from job_host.catalogue.paths import Spot, Steps
from job_host.catalogue.text import plain
from job_host.catalogue.tree import ELEMENT, FLOW_OF_A_SPLIT, TRANSITION, Job, Listing
from job_host.catalogue.verdicts import Verdict, ask
from job_host.catalogue.words import LOOP, TOO_DEEP, TOO_MANY, Words

# So many bytes of jobs are handed over at a time, or one job.
MOST_AT_ONCE = 1_048_576
ANY_TEXT = "any"
ARTIFACT = {"ref": ANY_TEXT}
# What an item whose kind can't be read becomes.
PLAINEST = {ELEMENT: "step", TRANSITION: "end"}


def written(job: Any) -> bytes:
    return json.dumps(job, ensure_ascii=False, separators=(",", ":")).encode()


def at_end(value: Any, steps: Sequence[str | int]) -> Any:
    """What stands at the end of a way."""
    for step in steps:
        value = value[step]
    return value


def plain_step(name: str) -> dict[str, Any]:
    return {"kind": "step", "id": name, "batchlet": ARTIFACT}


class Repairs:
    """The jobs as they are handed to batchctl. What it has found good isn't read again: the ids stay, and plain steps."""

    def __init__(self, words: Words, batchctl: Sequence[str]) -> None:
        self._words = words
        self._batchctl = batchctl
        self._jobs = dict[int, Any]()
        self._texts = dict[int, bytes]()
        self._begin, self.count = 0, len(words.jobs)
        self._tried = set[tuple[str, Steps]]()
        self.left_out = Counter[int]()
        self._job_ids = {job.text("id") for job in words.jobs}
        self._numbers = count(1)
        # The ids that elements of a list have no more. None stands for one that can't be read.
        self._lost = set[tuple[int, str | None]]()

    def ask(self) -> Verdict:
        """batchctl's next verdict."""
        while self._begin < self.count:
            end = self._end()
            verdict = ask(self._batchctl, b'{"jobs":[' + b",".join(map(self._text, range(end))) + b"]}")
            if verdict.answer is not None:
                return verdict
            self._pass(end)
        return Verdict(None)

    def _end(self) -> int:
        """The end of the jobs that are handed over next."""
        end, size = self._begin + 1, len(self._text(self._begin))
        while end < self.count and size + len(self._text(end)) <= MOST_AT_ONCE:
            size += len(self._text(end))
            end += 1
        return end

    def _pass(self, end: int) -> None:
        """The jobs before this one are good."""
        for number in range(self._begin, end):
            name = self._jobs[number]["id"] if number in self._jobs else self._words.jobs[number].text("id")
            self._texts[number] = written({"id": name, "elements": [plain_step(ANY_TEXT)]})
        self._begin = end

    def _text(self, number: int) -> bytes:
        if number not in self._texts:
            job = self._jobs[number] if number in self._jobs else plain(self._words.jobs[number])
            self._texts[number] = written(job)
        return self._texts[number]

    def job(self, number: int) -> Any:
        """A job as it is by now."""
        if number not in self._jobs:
            self._jobs[number] = plain(self._words.jobs[number])
        return self._jobs[number]

    def has_lost(self, listing: Listing | None, name: str | None) -> bool:
        """Whether a list has no such id more, or may have none, because of a repair."""
        return bool({(id(listing), name), (id(listing), None)} & self._lost)

    # ---- Repairs

    def repair(self, name: str, steps: Steps, spot: Spot | None, number: int) -> None:
        """Repairs what stands at the end of a way, in a job. If that can't help, or didn't, the job is left out."""
        if name == TOO_MANY and len(steps) == 2:
            self.count = number
        elif spot is None or name in (LOOP, TOO_DEEP, TOO_MANY) or len(steps) == 2 or (name, steps) in self._tried:
            self.leave_out(number)
        else:
            self._tried.add((name, steps))
            self._mend(self._words.job(number), steps[2:], spot)
            self._pass(number)
            self._texts.pop(number, None)

    def leave_out(self, number: int) -> None:
        """Puts a plain job in the place of one, and the next time with another id. If that can't help, it is the last one."""
        self._pass(number)
        self.left_out[number] += 1
        if self.left_out[number] > 2:
            self.count = number
            return
        job = self._words.job(number)
        name = self._jobs[number].get("id") if isinstance(self._jobs.get(number), dict) else job.id
        name = name if isinstance(name, str) and self.left_out[number] == 1 else self._new_id(job)
        self._jobs[number] = {"id": name, "elements": [plain_step(ANY_TEXT)]}
        self._texts.pop(number, None)

    def _new_id(self, job: Job) -> str:
        """An id that nothing has in the file."""
        names = (f"repaired-{number}" for number in self._numbers)
        return next(name for name in names if name not in job.by_id and name not in self._job_ids)

    def _mend(self, job: Job, steps: Steps, spot: Spot) -> None:
        forms = members_of(spot.form or PLAINEST.get(spot.list_kind, ""))
        form = forms.get(spot.name) if spot.name is not None else None
        is_needed = form is not None and not form.is_optional
        if spot.name is None or spot.list_kind in KINDS and spot.name == "kind" or spot.list_kind == TRANSITION and is_needed:
            *way, last = steps if spot.name is None else steps[:-1]
            items = at_end(self.job(job.number), way)
            items[last] = self._instead(job, items[last], spot)
            return
        owner = at_end(self.job(job.number), steps[:-1])
        if form is None or form.is_optional:
            owner.pop(spot.name, None)
        elif spot.name == "id":
            self._lose_id(spot, spot.value.text("id"))
            owner["id"] = self._new_id(job)
        else:
            owner[spot.name] = self._plainest(job, form)

    def _plainest(self, job: Job, form: Form) -> Any:
        if form.kind is Kind.LIST:
            return [self._plainest_item(job, form.inside, self._new_id(job))]
        return dict(ARTIFACT) if form.kind is Kind.OBJECT else ANY_TEXT

    def _plainest_item(self, job: Job, list_kind: str, name: str) -> dict[str, Any]:
        if list_kind == TRANSITION:
            return {"kind": "end", "on": ANY_TEXT}
        if list_kind == FLOW_OF_A_SPLIT:
            return {"kind": "flow", "id": name, "elements": [plain_step(self._new_id(job))]}
        return plain_step(name)

    def _instead(self, job: Job, item: Any, spot: Spot) -> dict[str, Any]:
        """What stands in the place of an item: of a step with both tasks or none the step, else the plainest item."""
        members = item if isinstance(item, dict) else {}
        if members and spot.name is None:
            return {**{name: value for name, value in members.items() if name != "chunk"}, "batchlet": dict(ARTIFACT)}
        name, target = members.get("id"), members.get("next")
        if spot.list_kind != TRANSITION and not isinstance(name, str):
            self._lose_id(spot, None)
        made = self._plainest_item(job, spot.list_kind, name if isinstance(name, str) else self._new_id(job))
        return {**made, "next": target} if isinstance(target, str) and spot.list_kind == ELEMENT else made

    def _lose_id(self, spot: Spot, name: str | None) -> None:
        element = self._words.element_of(spot)
        if element is not None:
            self._lost.add((id(element.listing), name))
