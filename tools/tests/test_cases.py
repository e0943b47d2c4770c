"""The cases have their replies (cases.py); and programs that write one text, whose faults have to be noticed."""

from __future__ import annotations

from collections import Counter
from collections.abc import Callable, Iterator
from concurrent.futures import ThreadPoolExecutor
from functools import partial
from pathlib import Path

import pytest

from cases import CASES, Command, check, check_commands, check_large, commands_of_the_cases, first_difference, left_alone
from cases import on_an_operator, replies_of_an_operator, replies_of_batchctl
from program import Program, Wrong, made_up


def name_of(path: Path) -> str:
    return path.name


def files_of(name: str) -> list[Path]:
    return sorted((CASES / name).glob("*.script*"))


@pytest.fixture(scope="module")
def counts(tell: Callable[[str], None]) -> Iterator[Counter[str]]:
    """How many scripts of each folder have their replies."""
    found = Counter[str]()
    yield found
    for name, count in found.items():
        tell(f"cases/{name}: {count} scripts have their replies")


@pytest.mark.parametrize("path", files_of("scripts"), ids=name_of)
def test_the_program_answers_scripts(program: Program, path: Path, pool: ThreadPoolExecutor, counts: Counter[str]) -> None:
    counts["scripts"] += check(path, partial(replies_of_batchctl, program), pool)


@pytest.mark.parametrize("path", files_of("operator"), ids=name_of)
def test_an_operator_answers_scripts(calls: Program, path: Path, pool: ThreadPoolExecutor, counts: Counter[str]) -> None:
    counts["operator"] += check(path, partial(replies_of_an_operator, calls), pool)


def test_lines_and_checkpoints_are_as_long_as_they_may_be(program: Program) -> None:
    check_large(program)


def test_command_lines_write_what_stands_there(program: Program, tell: Callable[[str], None]) -> None:
    tell(f"cases/commands.toml: {check_commands(program, commands_of_the_cases())} command lines write what stands there")


@pytest.mark.parametrize("name", ["scripts", "operator"])
def test_no_script_and_no_replies_stand_alone(name: str) -> None:
    assert left_alone(CASES / name) == []


# A catalogue, which the made-up programs do not read.
CATALOGUE = '{"jobs":[]}'

# The lines of a script for an operator, what the program writes for each, and the reply of which it is a part.
ROWS = [
    ('{"do":"start","by":1,"at":1,"job":"a"}', "> start", '{"execution":1}', '{"execution":1}'),
    ('{"do":"claim","by":2,"at":2}', "> claim", '{"nothing":true}', '{"nothing":true}'),
    ('{"operator":"meet","one":1,"other":2}', "> meet 1 2", "", '{"met":true}'),
    ('{"operator":"ask_by","by":2}', "", "", '{"asks":2}'),
    ('{"ask":"job_names"}', "> ask 2", '{"names":["a"]}', '{"names":["a"]}'),
    ('{"ask":"job_names"}', "> job_names", '{"names":[]}', '{"names":[]}'),
    ('{"operator":"stop_seen","by":1,"execution":65}', "> stop_seen 1 65", "false", '{"stop_seen":false}'),
    ('{"operator":"operations_at_least","by":2}', "> operations_at_least 2", "1 operations", '{"operations_at_least":1}'),
    ('{"operator":"show","by":1}', "> show 1", "session 1, seen 1, shown 0, own 1", '{"seen":1}'),
    ('{"operator":"open"}', "> open", "session 6", '{"session":6}'),
    ('{"operator":"close"}', "> close", "", '{"closed":true}'),
    ('{"operator":"publish","copy":1}', "> publish 1", "Ok(())", '{"published":true}'),
]
SCRIPT = "\n".join(['{"operator":"copies","copies":2}', CATALOGUE, *(line for line, *_ in ROWS)])
SAID = [(echo, said) for _, echo, said, _ in ROWS if echo]
SAID += [("> operations_at_least 5", "1 operations"), ("> open", "session 7")]


Writes = Callable[..., Program]


@pytest.fixture
def that_writes(folder: Path) -> Writes:
    """Makes up a program that writes this text."""

    def program(text: str, status: int = 0) -> Program:
        (folder / "text").write_text(text)
        return made_up(folder, f'#!/bin/sh\ncat >/dev/null\ncat "{folder / "text"}"\nexit {status}\n')

    return program


def checked(folder: Path, script: str, replies: str, name: str = "one.script") -> int:
    """How many scripts a file has, if a program that writes upper case has these replies."""
    path = folder / name
    path.write_bytes(script.encode("latin-1"))
    path.with_suffix(".replies").write_bytes(replies.encode("latin-1"))
    with ThreadPoolExecutor(2) as pool:
        return check(path, lambda script: script.upper().rstrip("\n") + "\n", pool)


def test_each_script_has_its_replies(folder: Path) -> None:
    assert checked(folder, "a\nb\n", "A\nB\n") == 1
    assert checked(folder, "a\n\nb\nc\n", "A\n\nB\nC\n", "two.scripts") == 2


def test_no_byte_is_read_as_another(folder: Path) -> None:
    assert checked(folder, "a\r\nb\r\n\xff\n", "A\r\nB\r\n\xff\n") == 1
    with pytest.raises(Wrong):
        checked(folder, "a\nb\n\xff\n", "A\r\nB\r\n\xff\n")


def test_the_first_other_line_is_told(folder: Path) -> None:
    with pytest.raises(Wrong, match="two.scripts differs from its replies in line 4"):
        checked(folder, "a\n\nb\nc\n", "A\n\nB\nD\n", "two.scripts")


def test_a_text_that_ends_early_differs() -> None:
    assert first_difference("A\nB\n", "A\nB\n") is None
    assert first_difference("A\n", "A\nB\n") == 2
    assert first_difference("", "A\n") == 1
    assert first_difference("A\nB", "A\nB\n") == 3


def test_a_file_that_stands_alone_is_noticed(folder: Path) -> None:
    assert left_alone(folder) == [f"{folder.name} has no script"]
    (folder / "one.script").write_text("a\n")
    assert left_alone(folder) == ["one has no replies"]
    (folder / "one.replies").write_text("A\n")
    assert left_alone(folder) == []
    (folder / "two.replies").write_text("A\n")
    assert left_alone(folder) == ["two has no script"]


@pytest.mark.parametrize("text", ['{"fault":"NotJson"}\n', '{"done":true}\n'])
@pytest.mark.parametrize("status", [0, 3, 5])
def test_the_status_tells_a_fault_of_the_catalogue(that_writes: Writes, text: str, status: int) -> None:
    made = that_writes(text, status)
    if status == (3 if "fault" in text else 0):
        assert replies_of_batchctl(made, "") == text
    else:
        with pytest.raises(Wrong):
            replies_of_batchctl(made, "")


def test_a_command_line_writes_what_it_should(that_writes: Writes) -> None:
    made = that_writes("out\n", 3)
    assert check_commands(made, [Command([["a"], ["a", "b"]], "", "out\n", 3)]) == 2
    assert check_commands(made, [Command([["a"]], "", None, 3)]) == 1
    for command in (Command([["a"]], "", "out\n"), Command([["a"]], "", "", 3), Command([["a"]], "", "out\n", 2)):
        with pytest.raises(Wrong, match="batchctl a: status 3"):
            check_commands(made, [command])
    with pytest.raises(Wrong, match="batchctl a: status 0"):
        check_commands(that_writes(""), [Command([["a"]], "")])


def test_a_refusal_is_told_on_standard_error(that_writes: Writes) -> None:
    with pytest.raises(Wrong):
        check_commands(that_writes("", 2), [Command([["a"]], "", "", 2)])


def test_there_are_command_lines() -> None:
    assert sum(len(command.lines) for command in commands_of_the_cases()) > 30


def test_other_replies_to_large_lines_are_noticed(that_writes: Writes) -> None:
    with pytest.raises(Wrong, match="large script 2"):
        check_large(that_writes('{"names":[]}\n'))


Replies = Callable[..., str]


@pytest.fixture
def replies(that_writes: Writes) -> Replies:
    """The replies of a program that says this on an operator."""

    def replies(said: list[tuple[str, str]], status: int = 0) -> str:
        text = "".join(f"{line}\n{reply}\n" if reply else f"{line}\n" for line, reply in said)
        return replies_of_an_operator(that_writes(text, status), SCRIPT)

    return replies


def test_directives_are_lines_of_the_program() -> None:
    taken, catalogue = on_an_operator(SCRIPT)
    assert (taken.copies, catalogue) == (2, CATALOGUE)
    assert taken.lines[2:4] == ["meet 1 2", 'ask 2 {"ask":"job_names"}']
    assert taken.lines[-3:] == ["publish 1", "operations_at_least 5", "open"]
    assert len(taken.lines) == len(SAID)


def test_what_it_writes_makes_the_replies(replies: Replies) -> None:
    assert replies(SAID) == "".join(f"{reply}\n" for *_, reply in ROWS)


@pytest.mark.parametrize(
    "place, line, reply, told",
    [
        (-2, "> operations_at_least 5", "2 operations", "1 operations were accepted"),
        (-2, "> operations_at_least 5", "0 operations", "1 operations were accepted"),
        (-1, "> open", "session 8", "session 7 is the next one"),
    ],
)
def test_what_nobody_asked_for_or_is_not_shown_is_noticed(
    replies: Replies, place: int, line: str, reply: str, told: str
) -> None:
    said = list(SAID)
    said[place] = (line, reply)
    with pytest.raises(Wrong, match=told):
        replies(said)


def test_a_program_that_fails_is_noticed(replies: Replies) -> None:
    with pytest.raises(Wrong):
        replies(SAID, 1)
    with pytest.raises(Wrong):
        replies(SAID[:-1])
