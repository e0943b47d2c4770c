"""What `batchctl check` says of a catalogue: the number of its jobs, or its first fault with the byte and the member.

In a catalogue here a `@` stands before the byte that is told, and is no part of the text. The members are worked out by hand.
"""

from __future__ import annotations

import json
from pathlib import Path

import pytest

from cases import CASES
from program import DEVICE_FAILED, DONE, FAULTY_CATALOGUE, REFUSED_WORDS, UNREAD, Ended, Program

MAX_LINE = 16_777_216
STEP = '{"kind":"step","id":"s","batchlet":{"ref":"ok"}}'
LONG = "x" * 257


def job(elements: str, job_id: str = "a") -> str:
    return f'{{"id":"{job_id}","elements":[{elements}]}}'


def catalogue(*jobs: str) -> str:
    return f'{{"jobs":[{",".join(jobs)}]}}'


def of_elements(elements: str) -> str:
    return catalogue(job(elements))


def step(members: str, step_id: str = "s") -> str:
    return f'{{"kind":"step","id":"{step_id}",{members}}}'


def chunk(members: str) -> str:
    return step(f'"chunk":{{{members}}}')


def nested(levels: int, inner: str) -> str:
    """An element inside so many flows."""
    text = inner
    for level in range(levels):
        text = f'{{"kind":"flow","id":"f{level}","elements":[{text}]}}'
    return text


OK = '"batchlet":{"ref":"ok"}'


def transition(members: str) -> str:
    """A step with a second transition element, of these members."""
    return f'{OK},"transitions":[{{"kind":"end","on":"A"}},{{"on":"*",{members}}}]'


# No element has the id `u`; `s` is in another list, and `t` is not at job level.
TO_NOTHING = '"kind":"next","to":@"u"'
NEXT_OUTSIDE = f'"next":@"s",{OK}'
RESTART_INSIDE = '"kind":"stop","restart":@"t"'

# The fault, its job and element, the catalogue, and the member.
NOT_A_CATALOGUE = [
    ("@7", ""),
    ("@[]", ""),
    (" @{}", "jobs"),
    ('{"jobs":@7}', "jobs"),
    ('{"jobs":[],"more":@7}', "more"),
    ('{"jobs":[],"a b":@7}', '["a b"]'),
    ('{"jobs":[],"":@7}', '[""]'),
    ('{"b":1,"a":@2,"jobs":7,"jobs":[]}', "a"),
]
BAD_JOB = [
    (catalogue(job(STEP), "@7"), 1, "jobs[1]"),
    ('{"jobs":[@{}]}', 0, "jobs[0].id"),
    ('{"jobs":[@{"id":"a"}]}', 0, "jobs[0].elements"),
    ('{"jobs":[{"id":@7,"elements":[]}]}', 0, "jobs[0].id"),
    ('{"jobs":[{"id":"a","elements":@{}}]}', 0, "jobs[0].elements"),
    ('{"jobs":[{"id":"a","elements":[],"restartable":@0}]}', 0, "jobs[0].restartable"),
    ('{"jobs":[{"id":"a","elements":[],"restartable":true,"x.y":@0}]}', 0, 'jobs[0]["x.y"]'),
]
BAD_ELEMENT = [
    (of_elements("@7"), 0, "jobs[0].elements[0]"),
    (of_elements(f"{STEP},@{{}}"), 1, "jobs[0].elements[1].kind"),
    (of_elements('{"kind":@"job"}'), 0, "jobs[0].elements[0].kind"),
    (of_elements('@{"kind":"step","id":"s"}'), 0, "jobs[0].elements[0]"),
    (of_elements('{"kind":"step","id":"s","batchlet":@{}}'), 0, "jobs[0].elements[0].batchlet.ref"),
    (of_elements('{"kind":"step","id":"s","batchlet":{"ref":@7}}'), 0, "jobs[0].elements[0].batchlet.ref"),
    (of_elements('{"kind":"step","id":"s","batchlet":{"ref":"ok","reff":@7}}'), 0, "jobs[0].elements[0].batchlet.reff"),
    (
        of_elements(chunk('"item-count":@0,"reader":{"ref":"r"},"writer":{"ref":"w"}')),
        0,
        "jobs[0].elements[0].chunk.item-count",
    ),
    (of_elements(chunk('"reader":{"ref":"r"},"writer":{"ref":@0}')), 0, "jobs[0].elements[0].chunk.writer.ref"),
    (of_elements('{"kind":"step","id":"s","chunk":@{"reader":{"ref":"r"}}}'), 0, "jobs[0].elements[0].chunk.writer"),
    (of_elements(step(f'"start-limit":@4294967296,{OK}')), 0, "jobs[0].elements[0].start-limit"),
    (of_elements(step(f'"partitions":@65,{OK}')), 0, "jobs[0].elements[0].partitions"),
    (of_elements(step(transition('"kind":"next","to":@7'))), 0, "jobs[0].elements[0].transitions[1].to"),
    (
        of_elements(f'{{"kind":"flow","id":"f","elements":[{STEP},{{"kind":"decision","id":"d","ref":@7}}]}}'),
        2,
        "jobs[0].elements[0].elements[1].ref",
    ),
    (
        of_elements(
            f'{{"kind":"split","id":"p","flows":[{{"kind":"flow","id":"f","elements":[{STEP}]}},@{{"kind":"flow","id":"g"}}]}}'
        ),
        3,
        "jobs[0].elements[0].flows[1].elements",
    ),
]
IN_JOB = [
    ("TextTooLong", catalogue(f'{{"id":@"{LONG}","elements":[{STEP}]}}'), 0, "jobs[0].id"),
    ("TextTooLong", of_elements(f'{STEP},{{"kind":"step","id":@"{LONG}",{OK}}}'), 0, "jobs[0].elements[1].id"),
    ("TextTooLong", of_elements(step(f'"next":@"{LONG}",{OK}')), 0, "jobs[0].elements[0].next"),
    (
        "TextTooLong",
        of_elements(f'{{"kind":"step","id":"s","batchlet":{{"ref":@"{LONG}"}}}}'),
        0,
        "jobs[0].elements[0].batchlet.ref",
    ),
    (
        "TextTooLong",
        of_elements(chunk(f'"reader":{{"ref":"r"}},"processor":{{"ref":@"{LONG}"}},"writer":{{"ref":"w"}}')),
        0,
        "jobs[0].elements[0].chunk.processor.ref",
    ),
    (
        "TextTooLong",
        of_elements(step(transition(f'"kind":"end","exit-status":@"{LONG}"'))),
        0,
        "jobs[0].elements[0].transitions[1].exit-status",
    ),
    ("Empty", catalogue('{"id":@"","elements":[]}'), 0, "jobs[0].id"),
    ("Empty", catalogue(job(STEP), '{"id":"b","elements":@[]}'), 1, "jobs[1].elements"),
    ("Empty", of_elements('{"kind":"flow","id":"f","elements":@[]}'), 0, "jobs[0].elements[0].elements"),
    ("Empty", of_elements('{"kind":"split","id":"p","flows":@[]}'), 0, "jobs[0].elements[0].flows"),
    ("Empty", of_elements('{"kind":"decision","id":"d","ref":@""}'), 0, "jobs[0].elements[0].ref"),
    ("TooDeep", of_elements(nested(16, f"@{STEP}")), 0, "jobs[0]" + 17 * ".elements[0]"),
    (
        "TooMany",
        of_elements(",".join(("@" if at == 1000 else "") + step(OK, f"s{at}") for at in range(1002))),
        0,
        "jobs[0].elements[1000]",
    ),
    ("TooMany", catalogue(*(("@" if at == 256 else "") + job(STEP, f"j{at}") for at in range(257))), 256, "jobs[256]"),
    (
        "DuplicateId",
        of_elements(f'{STEP},{{"kind":"flow","id":"f","elements":[{{"kind":"step","id":@"s",{OK}}}]}}'),
        0,
        "jobs[0].elements[1].elements[0].id",
    ),
    ("DuplicateId", catalogue(job(STEP), job(STEP, "b"), f'{{"id":@"a","elements":[{STEP}]}}'), 2, "jobs[2].id"),
    ("NoSuchTarget", of_elements(step(f'"next":@"t",{OK}')), 0, "jobs[0].elements[0].next"),
    ("NoSuchTarget", of_elements(f'{STEP},{step(transition(TO_NOTHING), "t")}'), 0, "jobs[0].elements[1].transitions[1].to"),
    (
        "NoSuchTarget",
        of_elements(f'{STEP},{{"kind":"flow","id":"f","elements":[{step(NEXT_OUTSIDE, "t")}]}}'),
        0,
        "jobs[0].elements[1].elements[0].next",
    ),
    ("Loop", catalogue(job(STEP), "@" + job(step(f'"next":"s",{OK}'), "b")), 1, "jobs[1]"),
    (
        "RestartNotJobLevel",
        of_elements(f'{STEP},{{"kind":"flow","id":"f","elements":[{step(transition(RESTART_INSIDE), "t")}]}}'),
        0,
        "jobs[0].elements[1].elements[0].transitions[1].restart",
    ),
]


def told(line: dict[str, object]) -> bytes:
    return json.dumps(line, sort_keys=True, separators=(",", ":")).encode() + b"\n"


def place(marked: str, member: str) -> tuple[bytes, dict[str, object]]:
    """The text without its mark, and the two members that tell the place."""
    text = marked.encode()
    assert text.count(b"@") == 1
    return text.replace(b"@", b""), {"byte": text.index(b"@"), "member": member}


def refused(program: Program, text: bytes, line: dict[str, object]) -> None:
    """The line about a catalogue with a fault, which `script` tells too, without the place."""
    fault = {name: value for name, value in line.items() if name not in ("byte", "member")}
    assert program.run(["check"], text) == Ended(FAULTY_CATALOGUE, told(line))
    assert program.script(text) == Ended(FAULTY_CATALOGUE, told(fault))


@pytest.mark.parametrize(("marked", "member"), NOT_A_CATALOGUE)
def test_no_catalogue(program: Program, marked: str, member: str) -> None:
    text, found = place(marked, member)
    refused(program, text, {"fault": "NotACatalogue", **found})


@pytest.mark.parametrize(("marked", "number", "member"), BAD_JOB)
def test_own_members_of_a_job(program: Program, marked: str, number: int, member: str) -> None:
    text, found = place(marked, member)
    refused(program, text, {"fault": "BadElement", "job": number, "element": None, **found})


@pytest.mark.parametrize(("marked", "element", "member"), BAD_ELEMENT)
def test_own_members_of_an_element(program: Program, marked: str, element: int, member: str) -> None:
    text, found = place(marked, member)
    refused(program, text, {"fault": "BadElement", "job": 0, "element": element, **found})


@pytest.mark.parametrize(("fault", "marked", "number", "member"), IN_JOB)
def test_a_job_as_a_whole(program: Program, fault: str, marked: str, number: int, member: str) -> None:
    text, found = place(marked, member)
    refused(program, text, {"fault": fault, "job": number, **found})


@pytest.mark.parametrize("text", [b"", b"\n", b"{", b'{"jobs":[]}}', b"\xff", b'{"jobs":["\xff"]}', b"[" * 128 + b"]" * 128])
def test_no_json_has_no_place(program: Program, text: bytes) -> None:
    refused(program, text, {"fault": "NotJson"})


def test_a_line_that_is_too_long_has_no_place(program: Program) -> None:
    refused(program, b"[" + b" " * MAX_LINE, {"fault": "NotACatalogue"})


def test_bytes_are_counted_and_not_characters(program: Program) -> None:
    text, found = place('{"jobs":[{"id":"é€","elements":@7}]}', "jobs[0].elements")
    refused(program, text, {"fault": "BadElement", "job": 0, "element": None, **found})


@pytest.mark.parametrize(
    ("text", "jobs"), [(catalogue(), 0), (of_elements(STEP), 1), (catalogue(*(job(STEP, f"j{at}") for at in range(256))), 256)]
)
def test_a_good_catalogue_has_the_number_of_its_jobs(program: Program, text: str, jobs: int) -> None:
    assert program.run(["check"], text.encode() + b"\nnot looked at") == Ended(DONE, b'{"jobs":%d}\n' % jobs)


def test_a_file_is_checked_as_standard_input_is(program: Program, tmp_path: Path) -> None:
    file = tmp_path / "night"
    file.write_text(of_elements(STEP))
    file.chmod(0o400)
    good = Ended(DONE, b'{"jobs":1}\n')
    assert program.run(["check", file], b"{") == good
    assert program.run(["check", "night"], b"{", folder=tmp_path) == good
    assert program.run(["check", "-"], file) == good
    assert program.run(["check"], file) == good
    file.chmod(0o600)
    file.write_text('{"jobs":7}\n')
    assert program.run(["check", file]) == Ended(FAULTY_CATALOGUE, b'{"byte":8,"fault":"NotACatalogue","member":"jobs"}\n')


@pytest.mark.parametrize("name", ["missing", "."])
def test_a_file_that_cannot_be_read(program: Program, tmp_path: Path, name: str) -> None:
    assert program.run(["check", name], b'{"jobs":[]}', folder=tmp_path) == UNREAD
    assert UNREAD.status == DEVICE_FAILED


@pytest.mark.parametrize(
    "words",
    [["check", "--", "night"], ["check", "-night"], ["check", ""], ["check", "night", "day"], ["check", "--log", "night"]],
)
def test_other_words_are_refused(program: Program, tmp_path: Path, words: list[str]) -> None:
    (tmp_path / "night").write_text(of_elements(STEP))
    ended = program.run(words, b'{"jobs":[]}', folder=tmp_path)
    assert (ended.status, ended.output, bool(ended.faults)) == (REFUSED_WORDS, b"", True)


def test_the_catalogue_of_each_script_is_judged_as_the_script_judges_it(program: Program) -> None:
    paths = sorted(path for path in (CASES / "scripts").iterdir() if path.suffix == ".script")
    assert paths
    for path in paths:
        text = path.read_bytes()
        checked, ran = program.run(["check"], text), program.script(text)
        assert (checked.status == FAULTY_CATALOGUE) == (ran.status == FAULTY_CATALOGUE), path
        if ran.status == FAULTY_CATALOGUE:
            found = json.loads(checked.output)
            assert {name: value for name, value in found.items() if name not in ("byte", "member")} == json.loads(
                ran.output
            ), path
