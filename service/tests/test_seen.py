"""How many operations were seen, in one queue or in several; and numbers as they are outside of their queue."""

from __future__ import annotations

import json

import pytest

from job_host.protocol.seen import NoNumbers, both, in_queue, of_queue, read_seen, written
from job_host.service.ids import Inside, inside, outside, path_outside, text_outside, told_outside
from job_host.service.pages import Page
from job_host.service.routes.several import in_order, newest_first, one_behind_another, summed

QUEUE = 4_294_967_296


@pytest.mark.parametrize(
    ("text", "numbers", "again"),
    [("12", (12,), "12"), ("0", (), "0"), ("12,0,7", (12, 0, 7), "12,0,7"), ("0,5", (0, 5), "0,5"), ("3,0,0", (3,), "3")],
)
def test_numbers_are_read_and_written(text: str, numbers: tuple[int, ...], again: str) -> None:
    assert read_seen(text) == numbers and written(numbers) == again


@pytest.mark.parametrize(
    "text", ["", ",", "1,", ",1", "1, 2", "-1", "1.5", "1;2", str(2**64), "0," + "9" * 21, "1," * 1_000 + "1"]
)
def test_another_text_is_refused(text: str) -> None:
    with pytest.raises(NoNumbers):
        read_seen(text)


def test_what_two_saw_is_the_greater_of_each_queue() -> None:
    assert both((1, 5), (2, 3, 4)) == (2, 5, 4) and both((), (0, 1)) == (0, 1)
    assert of_queue(2, 7) == (0, 0, 7) and of_queue(2, 0) == ()
    assert [in_queue((1, 0, 3), queue) for queue in range(4)] == [1, 0, 3, 0]


def test_a_number_says_its_queue() -> None:
    assert outside(0, 5) == 5 and outside(3, 5) == 3 * QUEUE + 5
    assert inside(3 * QUEUE + 5) == Inside(3, 5) and inside(5) == Inside(0, 5) and inside(QUEUE - 1).queue == 0


def test_an_answer_has_the_numbers_of_outside() -> None:
    told = {
        "executionId": 1,
        "instanceId": None,
        "work": {"work": 2, "execution": 3, "element": "load", "partition": 4, "checkpoint": "5"},
        "jobParameters": {"work": "6", "executionId": "7"},
        "step": {"work": 8},
        "_links": [{"rel": "self", "href": "/batch/jobexecutions/9/stepexecutions"}],
        "rows": [{"work": 10, "made": 0, "operation": 11}],
        "executions": [12],
        "more": True,
    }
    assert told_outside(told, 0) is told
    assert told_outside(told, 1) == {
        **told,
        "executionId": QUEUE + 1,
        "work": {"work": QUEUE + 2, "execution": QUEUE + 3, "element": "load", "partition": 4, "checkpoint": "5"},
        "_links": [{"rel": "self", "href": f"/batch/jobexecutions/{QUEUE + 9}/stepexecutions"}],
        "rows": [{"work": QUEUE + 10, "made": 0, "operation": 11}],
        "executions": [QUEUE + 12],
    }
    assert json.loads(text_outside('{"executionId":1,"kind":"FAILED"}', 2)) == {"executionId": 2 * QUEUE + 1, "kind": "FAILED"}
    assert path_outside("/batch/jobinstances/4", 1) == f"/batch/jobinstances/{QUEUE + 4}"
    assert path_outside("/batch/jobs/4", 1) == "/batch/jobs/4" and path_outside("/batch/jobexecutions/x", 1)[-1] == "x"


def test_a_page_of_joined_lists_has_the_newest_rows() -> None:
    lists: list[list[int]] = [[9, 5, 1], [], [8, 5, 4]]
    assert newest_first(lists, Page(0, 3)) == ([Page(0, 2), Page(0, 0), Page(0, 1)], [0, 2, 0])
    assert newest_first(lists, Page(3, 3)) == ([Page(2, 1), Page(0, 0), Page(1, 2)], [2, 2, 0])
    assert newest_first(lists, Page(6, 3)).order == []
    rows: list[list[str]] = [["a", "b"], [], ["c"]]
    assert in_order([0, 2, 0], rows) == ["a", "c", "b"] and in_order([1, 2], rows) == ["c"]


def test_lists_stand_one_behind_another() -> None:
    assert one_behind_another([2, 0, 3], Page(1, 3)) == [Page(1, 1), Page(0, 0), Page(0, 2)]
    assert one_behind_another([2, 0, 3], Page(4, 3)) == [Page(2, 0), Page(0, 0), Page(2, 1)]
    assert summed([{"a": 1, "b": None}, {"a": 2, "b": 3, "c": 4}]) == {"a": 3, "b": None, "c": 4}
