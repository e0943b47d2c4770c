"""Each request for memory of a run is refused in turn, and nothing is lost (memory_trial/growth.py).

The number of requests of each case is compared with the record (memory_trial/growth.json): a call that asks for memory once
more, or that no longer asks, changes it. `--record` writes it. A commit that records another number says why.
"""

from __future__ import annotations

import json
from collections.abc import Callable, Iterator
from concurrent.futures import ThreadPoolExecutor
from pathlib import Path

import pytest

from memory_trial import growth
from memory_trial.growth import CASES, Case, Refuser, check
from program import Program, want

RECORD = Path(growth.__file__).with_suffix(".json")
RECORDED: dict[str, int] = json.loads(RECORD.read_text())


Compare = Callable[[str, int], None]


@pytest.fixture(scope="module")
def compare(pytestconfig: pytest.Config) -> Iterator[Compare]:
    """Compares the number of requests of a case with the record, or records it."""
    is_recording, found = pytestconfig.getoption("--record"), dict[str, int]()

    def compare(name: str, requests: int) -> None:
        found[name] = requests
        if not is_recording:
            want(f"{name}: requests", requests, RECORDED.get(name))

    yield compare
    if is_recording:
        known = RECORDED | found
        RECORD.write_text(json.dumps({name: known[name] for name in map(Case.name, CASES) if name in known}, indent=1) + "\n")


@pytest.fixture
def refuser(program: Program, library: Callable[[str], Path], folder: Path) -> Refuser:
    return Refuser(program.under(library("refuse_a_request")), folder)


@pytest.mark.parametrize("case", CASES, ids=Case.name)
def test_each_request_of_a_run_is_refused(
    refuser: Refuser, case: Case, pool: ThreadPoolExecutor, compare: Compare, tell: Callable[[str], None]
) -> None:
    requests, told = check(refuser, case, pool)
    tell(told)
    compare(case.name(), requests)


def test_the_record_has_the_cases() -> None:
    assert list(RECORDED) == [case.name() for case in CASES]
