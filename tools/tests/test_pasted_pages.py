"""The blocks of README and of the service's page, pasted into a new user's shell; and wrong ones, which have to be noticed."""

from __future__ import annotations

import os
import socket
import tempfile
from pathlib import Path
from unittest import mock

import pytest

import pasting
from page_blocks import Block, Difference, commands_in, told
from pages import README
from pasting import SERVICE, Place, files_of_the_repository, own_network, paste, unused, wait_for_port
from program import Program, made_up
from repository import ROOT

PROGRAM = '#!/bin/sh\necho "built $*"\n'
TRIED = "(cd crates/batchctl && rt try -- script < stdin)"


def test_each_command_in_another_s_place_is_one_of_a_page() -> None:
    assert told(unused([README.read_text(), SERVICE.read_text()])) == ""


def test_the_blocks_of_both_pages_succeed_in_a_new_user_s_shell(program: Program) -> None:
    if not own_network():
        wait_for_port()
    found = list[Difference]()
    with tempfile.TemporaryDirectory(prefix="paste-") as name:
        place = Place(Path(name), program, files_of_the_repository())
        for path, has_output, is_installed in ((README, False, False), (SERVICE, True, True)):
            found += paste(str(path.relative_to(ROOT)), path.read_text(), has_output, place, is_installed)
    assert told(found) == ""


def pasted(text: str, has_output: bool = True, is_installed: bool = False) -> list[tuple[int, str, str]]:
    """The line, what is wanted, and what is found, of each difference of a page, pasted with a copy of one file."""
    with tempfile.TemporaryDirectory(prefix="paste-") as folder:
        (Path(folder) / "place").mkdir()
        os.chmod(folder, 0o755)
        place = Place(Path(folder) / "place", made_up(Path(folder), PROGRAM), ["crates/batchctl/stdin"])
        return [(one.number, one.wanted, one.found) for one in paste("page", text, has_output, place, is_installed)]


def shell(*lines: str, word: str = "sh") -> str:
    """A block of these lines, whose first line is the page's second one."""
    return "\n".join([f"```{word}", *lines, "```", ""])


GONE = (3, "success of ls -d crate", "status 2: ls: cannot access 'crate': No such file or directory")
TWO = shell("echo one", "echo two >&2")
AT = shell("echo 'at 10:04, by (one)'")
PASTED, NO_WORD = "a block that is pasted", "no word after its fence"
# Pages, and what differs in each.
DIFFERENCES: dict[str, tuple[str, list[tuple[int, str, str]]]] = {
    "one shell": (shell("cd crates", "word=told") + shell("echo $word; ls") + shell("told", "batchctl", word=""), []),
    "a build that fails": (shell("true", "ls -d crate  # a comment", "true", word="sh build"), [GONE]),
    "a build prints what it likes": (shell("echo one", word="sh build"), []),
    "a new home of an ordinary user": (
        shell("ls -A ~", "test $(id -u) != 0", "touch ~/mine", f'test ~ != "{Path.home()}"'),
        [],
    ),
    "a quote without an end": (shell("true", "echo 'one"), [(3, "a whole command", "echo 'one")]),
    "a text without an end": (shell("true", "cat <<'END'"), [(3, "a whole command", "cat <<'END'")]),
    "a condition without an end": (shell("true", "if true; then"), [(3, "a whole command", "if true; then")]),
    "a line without an end": (shell("true", "echo \\"), [(3, "a whole command", "echo \\")]),
    "another line": (TWO + shell("one", "six", word=""), [(7, "six", "two")]),
    "the same lines": (TWO + shell("one", "two", word=""), []),
    "a line more": (shell("echo one"), [(2, "nothing", "one")]),
    "a line less": (shell("true") + shell("one", word=""), [(5, "one", "nothing")]),
    "dots": (AT + shell("at .., by (one)", word=""), []),
    "dots and another text": (AT + shell("at .., by (two)", word=""), [(5, "at .., by (two)", "at 10:04, by (one)")]),
    "no dots": (AT + shell("at 10:04, by .one.", word=""), [(5, "at 10:04, by .one.", "at 10:04, by (one)")]),
    "a list": ("1. First:\n\n   ```sh\n   false\n   ```\n", [(4, "success of false", "status 1: ")]),
    "another word": (shell("one", word="python"), [(2, PASTED, "python")]),
    "no word": (shell("one", word=""), [(2, PASTED, NO_WORD)]),
    "a part of a file": (shell("one = 1", word="conf"), []),
    "a part of a file, and output": (shell("one = 1", word="conf") + shell("one", word=""), [(5, PASTED, NO_WORD)]),
    "several machines": (shell("false", word="sh machines") + shell("one", word=""), []),
    "a database": (shell("false", word="sh database") + shell("one", word=""), []),
    "another command in its place": (shell(f"{TRIED}   # a minute") + shell("built script", word=""), []),
}


@pytest.mark.parametrize("page, wanted", DIFFERENCES.values(), ids=DIFFERENCES)
def test_each_difference_of_a_page_is_told(page: str, wanted: list[tuple[int, str, str]]) -> None:
    assert pasted(page) == wanted


def test_a_page_need_not_show_what_its_commands_print() -> None:
    assert pasted(shell("true", "ls -d crate", "true"), has_output=False) == [GONE]
    for page in (TWO + shell("one", "six", word=""), shell("one", word="")):
        assert pasted(page, has_output=False) == []


def test_a_shell_that_ends_is_told_with_the_command_that_ended_it() -> None:
    assert [number for number, _, _ in pasted(shell("true", "exit 0", "true"))] == [3]


def test_a_shell_that_hangs_is_ended() -> None:
    with mock.patch.object(pasting, "MOST_SECONDS", 2.0):
        assert [number for number, _, _ in pasted(shell("true", "sleep 60"))] == [3]


def test_one_has_all_its_lines() -> None:
    lines = ["cat > file <<'END'", "if then", "", "END", "", "echo one \\", "  two", "true"]
    found = commands_in(Block("page", 2, "sh", lines))
    assert [(one.number, one.first_line) for one in found] == [(2, lines[0]), (7, "echo one \\"), (9, "true")]


def test_what_is_left_running_is_ended() -> None:
    with tempfile.TemporaryDirectory(prefix="paste-") as folder:
        os.chmod(folder, 0o777)
        pipe = Path(folder) / "pipe"
        os.mkfifo(pipe)
        pipe.chmod(0o666)
        reading = os.open(pipe, os.O_RDONLY | os.O_NONBLOCK)
        assert pasted(shell(f"(echo on; exec sleep 60) > {pipe} &", "sleep 0.2"), has_output=False) == []
        os.set_blocking(reading, True)
        assert os.read(reading, 9) == b"on\n"
        assert os.read(reading, 9) == b"", "the end, since nobody has the pipe any more"
        os.close(reading)


def test_the_path_has_nothing_but_debians_programs_and_what_blocks_install() -> None:
    with tempfile.TemporaryDirectory(prefix="commands-") as folder:
        for name in ("batchctl", "jobhost", "other"):
            (Path(folder) / name).write_text("#!/bin/sh\n")
            (Path(folder) / name).chmod(0o755)
        os.chmod(folder, 0o755)
        with mock.patch.dict(os.environ, {"PATH": f"{folder}:{os.environ['PATH']}", "JOBHOST_BATCHCTL": folder}):
            lines = ["type batchctl", "type jobhost", "type other", 'test -n "$JOBHOST_BATCHCTL"', "type python3"]
            assert [number for number, _, _ in pasted(shell(*lines, word="sh build"))] == [2, 3, 4, 5]


def test_a_later_page_finds_what_the_first_one_installed() -> None:
    install = ["install -D $BUILT_BATCHCTL ~/.local/bin/batchctl", "batchctl one"]
    assert [number for number, _, _ in pasted(shell(*install) + shell("built one", word=""))] == [3, 6]
    assert pasted(shell(*install) + shell("built one", word=""), is_installed=True) == []


@pytest.mark.skipif(not own_network(), reason="the system allows no network of its own")
def test_the_network_is_loopback_alone_with_each_port_free() -> None:
    with socket.create_server(("127.0.0.1", 0)) as held:
        serve = f"import socket; socket.create_server(('127.0.0.1', {held.getsockname()[1]}))"
        count = "import socket; print(len(socket.if_nameindex()))"
        commands = shell(f'python3 -c "{serve}"', f'python3 -c "{count}"')
        assert pasted(commands + shell("1", word="")) == []


def test_the_copy_has_the_files_as_they_stand_and_nothing_that_was_built() -> None:
    files = files_of_the_repository()
    assert {"README.md", "service/jobhost", "crates/batchctl/src/main.rt", "tools/tests/pasting.py"} < set(files)
    assert [name for name in files if "out" in Path(name).parts] == []


def test_another_command_that_takes_long_is_pasted() -> None:
    assert len(pasted(shell("(cd crates/batchctl && rt try --steps 1)", word="sh build"))) == 1


def test_a_command_of_the_list_that_no_page_has_is_told() -> None:
    told = [difference.wanted for difference in unused([shell(f"{TRIED}  # a minute"), "text"])]
    assert len(told) == len(pasting.INSTEAD) - 1
    assert f"a page with {TRIED}" not in told
