"""Finds the faults of a catalogue: batchctl names one, it is repaired in memory, and batchctl is asked again.

A fault that a repair has made is never told: an object is told once, and no target whose id is lost by a repair.
"""

from __future__ import annotations

from collections import Counter
from collections.abc import Sequence

from job_host.catalogue.faults import NOBODY, WARNING, Fault, Note
from job_host.catalogue.paths import Spot, Steps, spot_of, steps_of
from job_host.catalogue.repairs import Repairs
from job_host.catalogue.text import Source, Value
from job_host.catalogue.verdicts import Verdict
from job_host.catalogue.words import LOOP, NO_SUCH_TARGET, RESTART_NOT_JOB_LEVEL, Words, text_of

MOST_OF_A_JOB, MOST_OF_A_FILE = 20, 100
# A job that isn't good after so many repairs is left out: few of them are made for nothing that is told.
MOST_REPAIRS = 3 * MOST_OF_A_JOB
MORE = "there may be more faults than these: they are told when these are gone"


class FaultFinder:
    """Finds the faults of one file. `notes` says where there may be more of them."""

    def __init__(self, source: Source, root: Value, batchctl: Sequence[str]) -> None:
        self.faults: list[Fault] = []
        self.notes: list[Note] = []
        self.words = Words(source, root)
        self.repairs = Repairs(self.words, batchctl)
        self._root = root
        # The objects that were told. A loop is one of the job as a whole, and not of its own members.
        self._told = set[tuple[int, bool]]()
        self._told_of, self._repaired = Counter[int](), Counter[int]()

    def find(self, verdict: Verdict) -> None:
        """Begins with the verdict on the file as it is. Raises NoVerdict."""
        while verdict.answer is not None:
            steps = steps_of(verdict.member or "")
            spot = spot_of(self._root, steps) if verdict.member is not None else None
            fault = self._fault(verdict.answer["fault"], spot)
            if fault is None and not self.faults:
                fault = self.words.unexplained(verdict.answer)
            if fault is not None and len(self.faults) == MOST_OF_A_FILE:
                self.notes.append(Note(WARNING, 0, NOBODY, MORE))
                return
            self._go_on(verdict.answer["fault"], steps, spot, fault)
            verdict = self.repairs.ask() if verdict.member is not None else Verdict(None)

    def _fault(self, name: str, spot: Spot | None) -> Fault | None:
        """The fault at a place of the file, if it is told."""
        fault = self.words.fault(name, spot) if spot is not None and not self._is_made(name, spot) else None
        if fault is None or spot is None:
            return None
        told = (id(spot.value), name == LOOP)
        if told in self._told:
            return None
        self._told.add(told)
        return fault

    def _is_made(self, name: str, spot: Spot) -> bool:
        """Whether a target may be wrong because of a repair of ids."""
        element, job = self.words.element_of(spot), self.words.job_of(spot)
        if name == NO_SUCH_TARGET and element is not None:
            return self.repairs.has_lost(element.listing, text_of(spot))
        return name == RESTART_NOT_JOB_LEVEL and job is not None and self.repairs.has_lost(job.listing, text_of(spot))

    def _go_on(self, name: str, steps: Steps, spot: Spot | None, fault: Fault | None) -> None:
        number = steps[1] if len(steps) > 1 else None
        if not isinstance(number, int):
            self.faults += [fault] if fault is not None else []
            return
        self._repaired[number] += 1
        is_full = fault is not None and self._told_of[number] == MOST_OF_A_JOB or self._repaired[number] > MOST_REPAIRS
        if not is_full:
            self.faults += [fault] if fault is not None else []
            self._told_of[number] += fault is not None
            self.repairs.repair(name, steps, spot, number)
            return
        if not self.repairs.left_out[number]:
            job = self.words.job(number)
            self.notes.append(Note(WARNING, job.value.at, job.owner(), MORE))
        self.repairs.leave_out(number)
