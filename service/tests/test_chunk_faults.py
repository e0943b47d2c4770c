"""Faults of a chunk's parts: what is skipped, what is tried again, and how often.

What is expected follows "Chunk Exception Handling" of Jakarta Batch 2.1, worked out by hand.
"""

from __future__ import annotations

import random
from itertools import repeat
from typing import Any

import pytest
from chunk_parts import Bench, FakePart, Faults

from job_host.worker.artifacts import Ended
from job_host.worker.fault_rules import FaultRules, Remedy, classes_of
from job_host.worker.parts import Fault, read_answer

BAD, BUSY, HARMLESS = "rows.Bad", "rows.Busy", "rows.Harmless"
SKIP = {"skippable-exception-classes": {"include": [BAD]}}
RETRY = {"retryable-exception-classes": {"include": [BUSY]}}
KEEP = {**RETRY, "no-rollback-exception-classes": {"include": [BUSY]}}
BOTH = {"skippable-exception-classes": {"include": [BAD]}, "retryable-exception-classes": {"include": [BAD]}}


@pytest.mark.parametrize(
    ("include", "exclude", "classes", "has"),
    [
        (["a.B"], [], ["a.B"], True),
        (["a.B"], [], ["a.C"], False),
        (["a.B"], [], [], False),
        ([], [], ["a.B"], False),
        ([], ["a.B"], ["a.C"], False),
        (["java.lang.Exception"], [], ["a.B", "java.lang.Exception"], True),
        (["java.lang.Exception"], ["java.io.IOException"], ["java.io.EOFException", "java.lang.Exception"], True),
        (
            ["java.lang.Exception"],
            ["java.io.IOException"],
            ["java.io.EOFException", "java.io.IOException", "java.lang.Exception"],
            False,
        ),
        (["java.io.IOException"], ["java.lang.Exception"], ["java.io.IOException", "java.lang.Exception"], True),
        (["a.B"], ["a.B"], ["a.B"], False),
        (["a.B"], [], ["a.b"], False),
    ],
)
def test_the_nearest_class_that_is_named_says_whether(
    include: list[str], exclude: list[str], classes: list[str], has: bool
) -> None:
    assert classes_of({"include": include, "exclude": exclude}).has(classes) is has


def test_a_limit_is_the_number_of_faults_that_are_allowed() -> None:
    for limit in (0, 1, 3):
        skips = FaultRules({**SKIP, "skip-limit": limit})
        assert [skips.remedy([BAD], False) for _ in range(limit + 1)] == [Remedy.SKIP] * limit + [Remedy.FAIL]
        retries = FaultRules({**RETRY, "retry-limit": limit})
        assert [retries.remedy([BUSY], False) for _ in range(limit + 1)] == [Remedy.ROLL_BACK] * limit + [Remedy.FAIL]
    rules = FaultRules({**SKIP, **RETRY})
    assert {rules.remedy([BAD], False) for _ in range(1000)} == {Remedy.SKIP}
    assert {rules.remedy([BUSY], False) for _ in range(1000)} == {Remedy.ROLL_BACK}
    assert rules.remedy([], False) is Remedy.FAIL and FaultRules({}).remedy([BAD], False) is Remedy.FAIL


def test_what_may_be_both_is_tried_again_first_and_skipped_in_a_rerun() -> None:
    rules = FaultRules({**BOTH, "skip-limit": 1, "retry-limit": 2})
    told = [rules.remedy([BAD], is_rerun) for is_rerun in (False, True, True, True, False)]
    assert told == [Remedy.ROLL_BACK, Remedy.SKIP, Remedy.ROLL_BACK, Remedy.FAIL, Remedy.FAIL]
    rules = FaultRules({**BOTH, "retry-limit": 1, "no-rollback-exception-classes": {"include": [BAD]}})
    assert [rules.remedy([BAD], False) for _ in range(3)] == [Remedy.RETRY, Remedy.SKIP, Remedy.SKIP]


@pytest.mark.parametrize(
    ("answer", "told", "classes"),
    [
        ('{"fault":"x"}', "rows: read: x", ()),
        ('{"fault":"x","class":"a.B"}', "rows: read: x", ("a.B",)),
        ('{"fault":"x","class":["a.B","a.C"]}', "rows: read: x", ("a.B", "a.C")),
        ('{"fault":"x","class":[]}', "rows: read: x", ()),
        ('{"fault":"x","class":null}', "rows: read: x", ()),
        ('{"fault":"x","class":[null]}', "rows: read: x: the class of a fault is a text or a list of texts", ()),
        ('{"fault":7,"class":"a.B"}', "rows: read: 7", ("a.B",)),
        ('{"fault":"x","class":7}', "rows: read: x: the class of a fault is a text or a list of texts", ()),
        ('{"fault":"x","class":["a.B",7]}', "rows: read: x: the class of a fault is a text or a list of texts", ()),
        ('{"class":"a.B","fault":null}', "rows: read: None", ("a.B",)),
        ("[]", "rows: the answer to read is no object", ()),
        ("{", "rows: the answer to read is no JSON", ()),
    ],
)
def test_a_fault_has_the_classes_that_it_names(answer: str, told: str, classes: tuple[str, ...]) -> None:
    with pytest.raises(Fault) as raised:
        read_answer("rows", "read", answer.encode())
    assert (str(raised.value), raised.value.classes) == (told, classes)


def counts(read: int, write: int, commit: int, **more: int) -> dict[str, int]:
    told = {"READ_COUNT": read, "WRITE_COUNT": write, "COMMIT_COUNT": commit, **more}
    return {name: count for name, count in told.items() if count}


# The faults, what the step says, the groups that are written, the checkpoints, and the sums of the metrics.
Case = tuple[Faults, dict[str, Any], list[list[int]], list[int], dict[str, int]]
COMPLETED: dict[str, Case] = {
    "no fault": ({}, {}, [[1, 2, 3], [4, 5]], [3, 5], counts(5, 5, 2)),
    # The next item is read in place of one that is skipped.
    "read skipped": ({"read 2": [BAD]}, SKIP, [[1, 3, 4], [5]], [4, 5], counts(4, 4, 2, READ_SKIP_COUNT=1)),
    "reads skipped up to the limit": (
        {"read 1": [BAD], "read 3": [BAD]},
        {**SKIP, "skip-limit": 2},
        [[2, 4, 5]],
        [5],
        counts(3, 3, 1, READ_SKIP_COUNT=2),
    ),
    "last reads skipped": (
        {"read 4": [BAD], "read 5": [BAD]},
        SKIP,
        [[1, 2, 3]],
        [3, 5],
        counts(3, 3, 2, READ_SKIP_COUNT=2),
    ),
    "process skipped": (
        {"process 2": [BAD], "process 4": [BAD]},
        {**SKIP, "skip-limit": 2},
        [[1, 3], [5]],
        [3, 5],
        counts(5, 3, 2, PROCESS_SKIP_COUNT=2),
    ),
    "write skipped": ({"write 2": [BAD]}, {**SKIP, "skip-limit": 1}, [[4, 5]], [3, 5], counts(5, 2, 2, WRITE_SKIP_COUNT=1)),
    # The reader faults at the third item: two items and this one are run one by one.
    "read tried again": (
        {"read 3": [BUSY]},
        {**RETRY, "retry-limit": 1},
        [[1], [2], [3], [4, 5]],
        [1, 2, 3, 5],
        counts(5, 5, 4, ROLLBACK_COUNT=1),
    ),
    "process tried again": (
        {"process 2": [BUSY]},
        {**RETRY, "retry-limit": 1},
        [[1], [2], [3, 4, 5]],
        [1, 2, 5],
        counts(5, 5, 3, ROLLBACK_COUNT=1),
    ),
    "write tried again": (
        {"write 2": [BUSY]},
        {**RETRY, "retry-limit": 1},
        [[1], [2], [3], [4, 5]],
        [1, 2, 3, 5],
        counts(5, 5, 4, ROLLBACK_COUNT=1),
    ),
    "second group tried again": (
        {"write 5": [BUSY]},
        RETRY,
        [[1, 2, 3], [4], [5]],
        [3, 4, 5],
        counts(5, 5, 3, ROLLBACK_COUNT=1),
    ),
    # The second fault is in the rerun: the item that failed hasn't passed yet.
    "tried again up to the limit": (
        {"process 2": [BUSY] * 3},
        {**RETRY, "retry-limit": 3},
        [[1], [2], [3, 4, 5]],
        [1, 2, 5],
        counts(5, 5, 3, ROLLBACK_COUNT=3),
    ),
    # A fault in the rerun of the first item: the two others are still run one by one.
    "first item of a rerun": (
        {"write 1": [BUSY, BUSY]},
        RETRY,
        [[1], [2], [3], [4, 5]],
        [1, 2, 3, 5],
        counts(5, 5, 4, ROLLBACK_COUNT=2),
    ),
    "no rollback of a read": (
        {"busy 3": [BUSY, BUSY]},
        {**KEEP, "retry-limit": 2},
        [[1, 2, 3], [4, 5]],
        [3, 5],
        counts(5, 5, 2),
    ),
    "no rollback of a process": (
        {"process 3": [BUSY]},
        {**KEEP, "retry-limit": 1},
        [[1, 2, 3], [4, 5]],
        [3, 5],
        counts(5, 5, 2),
    ),
    "no rollback of a write": ({"write 2": [BUSY] * 9}, KEEP, [[1, 2, 3], [4, 5]], [3, 5], counts(5, 5, 2)),
    # "Retry and Skip the Same Exception".
    "both, process": (
        {"process 2": [BAD, BAD]},
        {**BOTH, "skip-limit": 1, "retry-limit": 1},
        [[1], [3, 4, 5]],
        [1, 2, 5],
        counts(5, 4, 3, ROLLBACK_COUNT=1, PROCESS_SKIP_COUNT=1),
    ),
    "both, write": (
        {"write 2": [BAD, BAD]},
        BOTH,
        [[1], [3], [4, 5]],
        [1, 2, 3, 5],
        counts(5, 4, 4, ROLLBACK_COUNT=1, WRITE_SKIP_COUNT=1),
    ),
    "both, read": (
        {"read 2": [BAD, BAD]},
        BOTH,
        [[1], [3, 4, 5]],
        [1, 2, 5],
        counts(4, 4, 3, ROLLBACK_COUNT=1, READ_SKIP_COUNT=1),
    ),
    "both, retries used up": (
        {"process 1": [BAD], "process 5": [BAD]},
        {**BOTH, "retry-limit": 1},
        [[1], [2, 3, 4]],
        [1, 4, 5],
        counts(5, 4, 3, ROLLBACK_COUNT=1, PROCESS_SKIP_COUNT=1),
    ),
    # What was skipped in a group that is rolled back was skipped, and is told with the next checkpoint.
    "skipped before a rollback": (
        {"read 1": [BAD], "process 3": [BUSY]},
        {**SKIP, **RETRY},
        [[1], [2], [3], [4, 5]],
        [1, 2, 3, 5],
        counts(5, 5, 4, ROLLBACK_COUNT=1, READ_SKIP_COUNT=1),
    ),
    "at the end of the reader": (
        {"read end": [BUSY]},
        RETRY,
        [[1, 2, 3], [4], [5]],
        [3, 4, 5],
        counts(5, 5, 3, ROLLBACK_COUNT=1),
    ),
}


@pytest.mark.parametrize("name", COMPLETED)
async def test_a_chunk_goes_on_after_its_faults(name: str) -> None:
    faults, chunk, written, marks, sums = COMPLETED[name]
    bench = Bench(5, faults)
    ended = await bench.run(chunk)
    assert ended.outcome == "COMPLETED"
    assert bench.written == [[str(number) for number in group] for group in written]
    assert bench.marks == [str(mark) for mark in marks]
    assert bench.sums(ended) == sums


FAILED: dict[str, Case] = {
    "no class": ({"read 2": [None]}, {**SKIP, **RETRY}, [], [], {"ROLLBACK_COUNT": 1}),
    "another class": ({"process 2": [HARMLESS]}, {**SKIP, **RETRY}, [], [], {"ROLLBACK_COUNT": 1}),
    "no classes given": ({"process 5": [BAD]}, {}, [[1, 2, 3]], [3], counts(3, 3, 1, ROLLBACK_COUNT=1)),
    "one read beyond the limit": (
        {"read 1": [BAD], "read 2": [BAD], "read 4": [BAD]},
        {**SKIP, "skip-limit": 2},
        [],
        [],
        {"ROLLBACK_COUNT": 1, "READ_SKIP_COUNT": 2},
    ),
    "one process beyond the limit": (
        {"process 2": [BAD], "process 5": [BAD]},
        {**SKIP, "skip-limit": 1},
        [[1, 3]],
        [3],
        counts(3, 2, 1, ROLLBACK_COUNT=1, PROCESS_SKIP_COUNT=1),
    ),
    "one write beyond the limit": (
        {"write 1": [BAD], "write 5": [BAD]},
        {**SKIP, "skip-limit": 1},
        [],
        [3],
        counts(3, 0, 1, ROLLBACK_COUNT=1, WRITE_SKIP_COUNT=1),
    ),
    "the limit is of all three": (
        {"read 1": [BAD], "process 2": [BAD], "write 3": [BAD]},
        {**SKIP, "skip-limit": 2},
        [],
        [],
        {"ROLLBACK_COUNT": 1, "READ_SKIP_COUNT": 1, "PROCESS_SKIP_COUNT": 1},
    ),
    "a skip-limit of 0": ({"process 1": [BAD]}, {**SKIP, "skip-limit": 0}, [], [], {"ROLLBACK_COUNT": 1}),
    "one retry beyond the limit": (
        {"process 2": [BUSY] * 3},
        {**RETRY, "retry-limit": 2},
        [[1]],
        [1],
        counts(1, 1, 1, ROLLBACK_COUNT=3),
    ),
    "one retry beyond the limit, no rollback": (
        {"write 2": [BUSY] * 3},
        {**KEEP, "retry-limit": 2},
        [],
        [],
        {"ROLLBACK_COUNT": 1},
    ),
    "a class without rollback that isn't retryable": (
        {"process 2": [HARMLESS]},
        {**RETRY, "no-rollback-exception-classes": {"include": [HARMLESS]}},
        [],
        [],
        {"ROLLBACK_COUNT": 1},
    ),
    "both, both used up": (
        {"process 2": [BAD] * 3},
        {**BOTH, "skip-limit": 0, "retry-limit": 2},
        [[1]],
        [1],
        counts(1, 1, 1, ROLLBACK_COUNT=3),
    ),
}


@pytest.mark.parametrize("name", FAILED)
async def test_a_chunk_fails_beyond_its_limits(name: str) -> None:
    faults, chunk, written, marks, sums = FAILED[name]
    bench = Bench(5, faults)
    ended = await bench.run(chunk)
    assert (ended.outcome, ended.exit) == ("FAILED", None)
    assert bench.written == [[str(number) for number in group] for group in written]
    assert bench.marks == [str(mark) for mark in marks]
    assert bench.sums(ended) == sums
    # The log says the fault that it failed of, and at last what it was told.
    assert (
        bench.tail.text().splitlines()[-1].startswith("jobhost: ") and "tried again" not in bench.tail.text().splitlines()[-1]
    )


ROLLED_BACK = """
writer open None, reader open None, processor open None,
reader read, processor process 1, reader read, processor process 2,
reader checkpoint, writer write ['1', '2'] 1, writer closed, reader closed,
writer open None, reader open None,
reader read, processor process 1, reader checkpoint, writer write ['1'] 2,
reader read, processor process 2, reader checkpoint, writer write ['2'] 3,
reader read, processor process 3, reader read, reader checkpoint, writer write ['3'] 4
"""


async def test_after_a_rollback_reader_and_writer_are_opened_at_the_last_checkpoint() -> None:
    """Each is started anew, the processor goes on. A number names one group."""
    bench = Bench(3, {"write 2": [BUSY]})
    assert (await bench.run(RETRY, item_count=2)).outcome == "COMPLETED"
    wanted = " ".join(ROLLED_BACK.split()).replace("['1', '2']", "['1' '2']").split(", ")
    told = [line.replace("['1', '2']", "['1' '2']") for line in bench.told("reader", "processor", "writer")]
    assert told[: len(wanted)] == wanted
    assert sorted(told[len(wanted) :]) == ["processor closed", "reader closed", "writer closed"]
    assert bench.lines[-1] == ("files", {"do": "removed"})
    assert "tried again: writer: write: write 2" in bench.tail.text()


async def test_without_a_fault_each_part_is_told_the_lines_of_ever() -> None:
    """Rules that nothing comes under change no line."""
    lines = []
    given: list[dict[str, Any]] = [{}, {**BOTH, **KEEP, "skip-limit": 5, "time-limit": 3600}]
    for chunk in given:
        bench = Bench(5, dropped=[2])
        assert await bench.run(chunk) == Ended("COMPLETED")
        lines.append(bench.lines)
        assert bench.reported == [
            ("3", {"READ_COUNT": 3, "FILTER_COUNT": 1, "WRITE_COUNT": 2, "COMMIT_COUNT": 1}),
            ("5", {"READ_COUNT": 2, "FILTER_COUNT": 0, "WRITE_COUNT": 2, "COMMIT_COUNT": 1}),
        ]
    assert lines[0] == lines[1]
    assert [line for use, line in lines[0] if use == "writer"][1:3] == [
        {"do": "write", "items": ["1", "3"], "work": 7, "group": 1, "checkpoint": "3"},
        {"do": "write", "items": ["4", "5"], "work": 7, "group": 2, "checkpoint": "5"},
    ]


async def test_a_writer_that_keeps_its_mark_is_gone_on_with() -> None:
    """It has written the group, although it said that it hasn't: after the rollback the reader goes on at its mark."""
    bench = Bench(5, {"write 4": [BUSY]})
    kept: list[str | None] = [None]
    plain = bench._writer

    def keeps(asked: dict[str, Any]) -> dict[str, Any]:
        answer = plain(asked)
        if asked["do"] == "write":
            kept[0] = asked["checkpoint"]
            if "fault" in answer:
                bench.written.append(asked["items"])
        return {"checkpoint": kept[0]} if asked["do"] == "open" else answer

    bench.others["writer"] = keeps
    assert (await bench.run(RETRY)).outcome == "COMPLETED"
    assert bench.written == [["1", "2", "3"], ["4", "5"]]
    assert bench.told("reader").count("reader open 5") == 1


async def test_a_stop_is_heeded_between_tries() -> None:
    """A chunk whose retries have no limit can be stopped, at its last checkpoint."""
    for chunk, count in ((KEEP, 1), (RETRY, 1)):
        bench = Bench(5, {"process 5": repeat(BUSY)})
        bench.stop_at = lambda: len([line for line in bench.told("processor") if line == "processor process 5"]) >= 3
        ended = await bench.run(chunk)
        assert (ended.outcome, bench.marks[0], bench.written[0]) == ("STOPPED", "3", ["1", "2", "3"])
        assert ended.metrics is not None and ended.metrics["ROLLBACK_COUNT"] >= count
        assert not any("5" in group for group in bench.written)


async def test_a_writer_that_keeps_marks_is_rolled_back_to_where_it_began() -> None:
    """It has written nothing yet. Where the chunk begins was reported, so it isn't told that an earlier run is over."""
    bench = Bench(3, {"write 2": [BUSY]})
    plain = bench._writer
    bench.others["writer"] = lambda asked: {"checkpoint": None} if asked["do"] == "open" else plain(asked)
    ended = await bench.run(RETRY)
    assert (ended.outcome, bench.marks, bench.written) == ("COMPLETED", ["0", "1", "2", "3"], [["1"], ["2"], ["3"]])
    opened = [line for line in bench.told("writer", "reader") if " open " in line]
    assert opened == ["writer open None", "reader open None", "writer open 0", "reader open 0"]
    assert bench.sums(ended) == counts(3, 3, 3, ROLLBACK_COUNT=1)


async def test_a_report_whose_reply_says_stop_is_the_last() -> None:
    """Nothing is read or written after it, also if the reader was at its end."""
    for count, marks in ((9, ["3"]), (2, ["2"])):
        bench = Bench(count)
        bench.says_stop = True
        assert await bench.run() == Ended("STOPPED")
        assert bench.marks == marks and bench.told("reader").count("reader read") == 3


async def test_a_stop_lets_the_group_in_hand_be_written() -> None:
    bench = Bench(9)
    bench.stop_at = lambda: bench.place >= 4
    assert await bench.run() == Ended("STOPPED")
    assert bench.written == [["1", "2", "3"], ["4", "5", "6"]]


async def test_a_stop_is_heeded_between_reads_that_are_skipped() -> None:
    """A reader that says faults without end, where any number is skipped. What was read is kept."""
    bench = Bench(2, {"busy 2": repeat(BAD)})
    bench.stop_at = lambda: bench.tail.text().count("skipped") >= 3
    assert await bench.run(SKIP) == Ended("STOPPED")
    assert (bench.marks, bench.written) == (["1"], [["1"]])
    assert bench.sums(Ended("STOPPED")) == counts(1, 1, 1, READ_SKIP_COUNT=3)


class Once(Bench):
    """Parts that can be started once."""

    async def start(self, use: str) -> FakePart:
        if f"{use} started" in self.told(use):
            raise OSError(2, "No such file or directory", use)
        self.lines.append((use, {"do": "started"}))
        return await super().start(use)


async def test_a_part_that_isnt_there_again_fails_the_chunk() -> None:
    bench = Once(5, {"write 1": [BUSY]})
    assert await bench.run(RETRY) == Ended("FAILED", None, {"ROLLBACK_COUNT": 1})
    assert "No such file or directory" in bench.tail.text()


def random_case(seed: int) -> tuple[Faults, dict[str, Any], int]:
    chosen = random.Random(seed)
    keys = [f"{do} {number}" for do in ("read", "process", "write") for number in range(1, 13)]
    faults = {key: [chosen.choice([BAD, BUSY, HARMLESS])] * chosen.randint(1, 3) for key in chosen.sample(keys, 5)}
    first, *others = chosen.sample([BAD, BUSY, HARMLESS], 3)
    chunk = {
        "skippable-exception-classes": {"include": others},
        "retryable-exception-classes": {"include": [first, *chosen.sample(others, 1)]},
        "no-rollback-exception-classes": {"include": [HARMLESS]},
    }
    return faults, chunk, chosen.randint(1, 5)


def may_be_lost(faults: Faults, item_count: int) -> set[int]:
    """The items that may be skipped: those at fault, and the others of a group whose write is."""
    keys = [(do, int(number)) for do, number in map(str.split, faults)]
    far = {"read": 0, "process": 0, "write": 2 * item_count}
    return {number + step for do, number in keys for step in range(-far[do], far[do] + 1)}


async def test_each_item_is_written_once_unless_it_is_skipped() -> None:
    """Random faults and rules. In the end each item was written or skipped, in its order, and no metric is lost."""
    for seed in range(150):
        faults, chunk, item_count = random_case(seed)
        bench = Bench(12, faults)
        ended = await bench.run(chunk, item_count)
        written = [int(item) for group in bench.written for item in group]
        sums = bench.sums(ended)
        assert ended.outcome == "COMPLETED" and written == sorted(set(written))
        assert sums.get("WRITE_COUNT", 0) == len(written) and sums["COMMIT_COUNT"] == len(bench.reported)
        skipped = bench.tail.text().count("jobhost: skipped: ")
        assert skipped == sum(count for name, count in sums.items() if name.endswith("SKIP_COUNT"))
        assert sums.get("ROLLBACK_COUNT", 0) == bench.told("writer").count("writer closed") - 1
        assert bench.marks == sorted(bench.marks, key=int) and int(bench.marks[-1]) >= max(written, default=0)
        assert set(range(1, 13)) - set(written) <= may_be_lost(faults, item_count)
