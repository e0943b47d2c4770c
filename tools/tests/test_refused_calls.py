"""A public call of the library that is refused memory leaves all as it was (docs/TESTING.md, "Want of memory").

Each case (memory_trial/single_calls.py) is one call, in a state made for it. It runs twice with no refusal, and must write the
same and make as many requests both times. Then each request of the call is refused, one in each run: memory_trial/rules.py has
what the call may do then. Other tests have a program that answers one script, and wrong bodies, which have to be noticed.
"""

from __future__ import annotations

from collections.abc import Callable, Iterator
from concurrent.futures import ThreadPoolExecutor
from pathlib import Path
from unittest.mock import patch

import pytest

from memory_trial.alike import has_between, is_as_before, see_what_there_is, tells_the_same, without_lists
from memory_trial.calls import EXPECTED, Part, Refuser, Run
from memory_trial.rules import Refusal, have_all_replies_before, reported_a_beginning, were_refused_in_each_group
from memory_trial.single_calls import Case, cases
from memory_trial.tally import Tally, check, differ_from_a_book, sums_of
from program import Program, Wrong, made_up

CASES = cases()
Library = Callable[[str], Path]


@pytest.fixture(scope="module")
def tallies(tell: Callable[[str], None], pytestconfig: pytest.Config) -> Iterator[dict[str, Tally]]:
    """How many requests each case makes. In the end it tells their sums by group."""
    found = dict[str, Tally]()
    yield found
    for name, tally in found.items() if pytestconfig.getoption("--by-case") else ():
        tell(f"{name}: {tally.requests}, {len(tally.without)} done without")
    for group in dict.fromkeys(case.group() for case in CASES):
        if tallies := [found[case.name] for case in CASES if case.group() == group and case.name in found]:
            tell(f"{group}: {sums_of(tallies)}")
    if found:
        tell(f"all: {len(found)} calls, {sum(tally.requests for tally in found.values())} requests refused in turn")


@pytest.mark.parametrize("case", CASES, ids=[case.name for case in CASES])
def test_a_refused_call_leaves_all(
    calls: Program, library: Library, folder: Path, case: Case, pool: ThreadPoolExecutor, tallies: dict[str, Tally]
) -> None:
    tallies[case.name] = check(Refuser(calls.under(library("refuse_a_request")), folder), case, pool)


def test_a_desk_and_an_operator_ask_for_what_a_book_asks_for(calls: Program, tallies: dict[str, Tally]) -> None:
    assert list(differ_from_a_book(tallies)) == []


# A program whose call `act` makes two requests. What it does if one of them is refused is written in place of @@: it has the
# functions `refused STATE` and `acted`. A script that makes the call again has a line `act` without a mark.
PROGRAM = """#!/bin/sh
printf '\\2\\0\\0\\0\\0\\0\\0\\0' >"$REFUSE_COUNT"
show() { echo '> show'; echo "$1"; }
before='{ cursors: {1: Cursor { at: 2 }}, count: 3 }'
refused() { echo '> ! act'; echo 'Err(OutOfMemory)'; show "$1"; }
acted() { echo "> ${1}act"; echo 'Ok(7)'; show '{ cursors: {1: Cursor { at: 3 }}, count: 4 }'; }
ended() { echo '> next'; echo next; show '{ cursors: {}, count: 5 }'; }
show "$before"
if [ "$REFUSE_AT" = 0 ]; then
    acted '! '
else
    @@
fi
ended
"""

KEEPS = 'refused "$before"; acted ""'
DROPS_A_WALK = "refused '{ cursors: {}, count: 3 }'; acted ''"
DOES_WITHOUT = "acted '! '; LD_PRELOAD= grep -q '^act$' \"$1\" && acted ''"
ASKS_FOR_MORE = f"printf '\\3\\0\\0\\0\\0\\0\\0\\0' >\"$REFUSE_COUNT\"; {DOES_WITHOUT}"

# What a wrong body does, and what is said of it.
WRONG = {
    "changes before it gives up": ("refused '{ cursors: {}, count: 4 }'; acted ''", "not as before"),
    "keeps an empty slot": ("refused '{ cursors: {1: None}, count: 3 }'; acted ''", "no map of kept walks"),
    "keeps another walk": ("refused '{ cursors: {1: Cursor { at: 3 }}, count: 3 }'; acted ''", "not as before"),
    "answers otherwise then": ('refused "$before"; echo "> act"; echo "Ok(8)"; exit', "it goes on otherwise"),
    "says more then": (KEEPS + "; echo more", "it goes on otherwise"),
    "ends": ("exit 1", "status 1"),
}


Requests = Callable[..., int]


@pytest.fixture
def requests_of(folder: Path, library: Library) -> Requests:
    """How many requests the call makes, if it answers this, and does this where one is refused."""

    def requests(refused: str, kind: str = "book", answer: str = "Ok(7)", name: str = "") -> int:
        made = made_up(folder, PROGRAM.replace("@@", refused).replace("Ok(7)", answer))
        case = Case(name or f"{kind}.night.1", kind, "act", "", (), ("next",), ("show",))
        with ThreadPoolExecutor(2) as pool:
            return check(Refuser(made.under(library("refuse_a_request")), folder), case, pool).requests

    return requests


def test_a_call_that_leaves_all_is_right(requests_of: Requests) -> None:
    assert requests_of(KEEPS) == 2
    assert requests_of(DROPS_A_WALK) == 2


def test_a_request_is_done_without_where_it_may_be(requests_of: Requests) -> None:
    assert requests_of(DOES_WITHOUT, "desk") == 2
    for without in (DOES_WITHOUT, ASKS_FOR_MORE):
        with pytest.raises(Wrong, match="gave up nothing"):
            requests_of(without)
    with pytest.raises(Wrong, match="doesn't say that it was refused"):
        requests_of(DOES_WITHOUT, "texts")


def test_a_call_that_collects_a_list_asks_for_more_instead(requests_of: Requests) -> None:
    assert requests_of(ASKS_FOR_MORE, name="jobs.faultless") == 2
    with pytest.raises(Wrong, match="asked for no more instead"):
        requests_of(DOES_WITHOUT, name="jobs.faultless")


def test_what_is_expected_is_compared(requests_of: Requests) -> None:
    with patch.dict(EXPECTED, {"book.night.1": [("act", ("Ok(7)",))]}):
        assert requests_of(KEEPS) == 2
    with patch.dict(EXPECTED, {"book.night.1": [("act", ("Ok(8)",))]}), pytest.raises(Wrong, match="in place of"):
        requests_of(KEEPS)


def test_a_call_is_not_refused_with_all_memory(requests_of: Requests) -> None:
    with pytest.raises(Wrong, match="with all memory: Err"):
        requests_of(KEEPS, answer="Err(OutOfMemory)")


@pytest.mark.parametrize("refused, said", WRONG.values(), ids=WRONG)
def test_each_wrong_body_is_noticed(requests_of: Requests, refused: str, said: str) -> None:
    with pytest.raises(Wrong, match=said):
        requests_of(refused)


def test_walks_may_be_dropped_and_not_added() -> None:
    kept = "{ cursors: {1: Cursor { at: 2 }, 3: Cursor { at: 1 }}, count: 3 }"
    less = "{ cursors: {3: Cursor { at: 1 }}, count: 3 }"
    assert is_as_before(less, kept)
    assert not is_as_before(kept, less)


def test_a_session_may_have_seen_more_operations_than_before_and_no_more_than_there_are() -> None:
    before, now = "session 2, seen 1, shown 0, own 1", "session 2, seen 3, shown 0, own 1"
    assert is_as_before(now, before)
    assert not is_as_before(before, now)
    assert not is_as_before("session 2, seen 3, shown 0, own 2", before)
    assert see_what_there_is([now, "3 operations"])
    assert not see_what_there_is([now, "2 operations"])
    assert not see_what_there_is([now, "Some(Entry { who: 1 })", "Some(Entry { who: 2 })"])


def test_numbers_are_between_those_of_two_lines() -> None:
    assert has_between("copy of 2", "copy of 0", "copy of 3")
    assert not has_between("copy of 4", "copy of 0", "copy of 3")
    assert not has_between("book of 2", "copy of 0", "copy of 3")
    assert has_between('{"count":1}', '{"refused":"NoSuchJobException"}', '{"count":3}')


def test_lists_that_are_given_up_are_gone_and_not_other_ones() -> None:
    line = "{ running: Some(RunningLists { of: {1: 2} }), rows: 3, running: None }"
    assert without_lists(line, line) == line
    given_up = "{ running: None, rows: 3, running: None }"
    assert without_lists(line, given_up) == given_up
    other = line.replace("{1: 2}", "{1: 3}")
    assert without_lists(line, other) == line


def test_a_call_that_goes_on_shows_its_session_just_what_it_would() -> None:
    assert tells_the_same("session 2, seen 3, shown 0, own 1", "session 2, seen 3, shown 0, own 1")
    assert not tells_the_same("session 2, seen 4, shown 0, own 1", "session 2, seen 3, shown 0, own 1")


def test_an_operator_asks_for_what_a_book_asks_for() -> None:
    tallies = {"book.night.3": Tally(3, (2,)), "operator.night.3": Tally(3, (2,))}
    assert list(differ_from_a_book(tallies)) == []
    for wrong in (Tally(4, (2,)), Tally(3), Tally(3, (2, 3))):
        assert len(list(differ_from_a_book({**tallies, "operator.night.3": wrong}))) == 1


def refusal_of(case: Case, whole: Run, number: int, parts: tuple[Part, ...]) -> Refusal:
    """A run with a refused request in which these parts were written."""
    return Refusal(Refuser(Program(Path()), Path()), case, whole, number, Run(0, parts, "", whole.requests))


# A script of two lines, whose replies are `one` and `two`.

WHOLE_SCRIPT = Run(0, (Part("", ("Ok(Summary)", "one", "two")),), "", 3)


def refusals(*counts: int) -> list[Refusal]:
    """Runs that have written so many replies, one for each request."""
    whole = WHOLE_SCRIPT.lines()
    said = [("Err(OutOfMemory)", *whole[1 : 1 + count], *whole) for count in counts]
    case = Case("run_script", "run_script")
    return [refusal_of(case, WHOLE_SCRIPT, number, (Part("", each),)) for number, each in enumerate(said, 1)]


def test_each_number_of_replies_is_left() -> None:
    have_all_replies_before(refusals(0, 0, 1, 1))
    with pytest.raises(Wrong, match="no request was refused behind .1. replies"):
        have_all_replies_before(refusals(0, 0, 0))
    with pytest.raises(Wrong, match="0 replies, and 1 at an earlier request"):
        have_all_replies_before(refusals(0, 1, 0))


CASE = Case("workers.run_item.quiet", "workers", "run_item quiet")
SAID = ("Ok(Completed)", "0 losses", "Checkpoint { 1 }", "Finish { 2 }")
WHOLE = Run(0, (Part("", ()), Part("run_item quiet", SAID)), "", 2)


def refusal(*said: str) -> Refusal:
    parts = (Part("", ()), Part("run_item quiet", said), Part("run_item quiet", SAID))
    return refusal_of(CASE, WHOLE, 1, parts)


def test_a_worker_says_so_in_each_group() -> None:
    failed, refused = ("Ok(Failed)", "0 losses", "Finish { 3 }"), ("Err(OutOfMemory)", "0 losses")
    were_refused_in_each_group([refusal(*said) for said in (failed, refused)])
    with pytest.raises(Wrong, match="behind .0. reports"):
        were_refused_in_each_group([refusal(*failed)])


def test_a_work_item_is_reported_as_far_as_it_came() -> None:
    reported_a_beginning(refusal("Err(OutOfMemory)", "0 losses"))
    reported_a_beginning(refusal("Err(OutOfMemory)", "0 losses", "Checkpoint { 1 }"))


@pytest.mark.parametrize(
    "said",
    [
        ("Err(OutOfMemory)", "1 losses"),
        ("Ok(Failed)", "0 losses", "Finish { 2 }"),
        ("Err(OutOfMemory)", "0 losses", "Finish { 2 }"),
        SAID,
    ],
)
def test_it_is_not_lost_not_failed_and_not_reported_otherwise(said: tuple[str, ...]) -> None:
    with pytest.raises(Wrong):
        reported_a_beginning(refusal(*said))


def test_what_is_expected_is_so_of_cases() -> None:
    assert set(EXPECTED) <= {case.name for case in CASES}
    assert EXPECTED


def test_each_case_has_a_name_of_its_own_and_one_call() -> None:
    names = [case.name for case in CASES]
    assert len(names) == len(set(names))
    for case in CASES:
        marked = [line for line in case.script(True).splitlines() if line.startswith("! ")]
        assert len(marked) == 1, case.name
