"""The examples of the pages print what the pages show (pages.py); and other pages and programs, which have to be noticed."""

from __future__ import annotations

from pathlib import Path

import pytest

from page_blocks import Block, Difference, told
from pages import FIRST_SCRIPT, HOST, HOST_PAGE, LINES, PAGES, README
from pages import check_commands, check_host, check_page, check_readme, check_words
from program import Program, made_up
from repository import ROOT


@pytest.mark.parametrize("path", PAGES, ids=[path.stem for path in PAGES])
def test_the_examples_of_a_page_are_what_the_program_writes(program: Program, path: Path) -> None:
    assert told(check_page(program, str(path.relative_to(ROOT)), path.read_text())) == ""


def test_the_first_page_shows_what_the_program_writes(program: Program) -> None:
    assert told(check_readme(program, README.name, README.read_text(), FIRST_SCRIPT.read_text())) == ""


def test_the_page_of_lines_has_each_word_of_the_sources() -> None:
    assert told(check_words(str(LINES.relative_to(ROOT)), LINES.read_text())) == ""


def test_the_page_of_the_operator_shows_the_whole_host() -> None:
    assert told(check_host(str(HOST_PAGE.relative_to(ROOT)), HOST_PAGE.read_text(), HOST.read_text())) == ""


# Answers each line after the first with its number and the line.
PROGRAM = """#!/bin/sh
awk 'NR > 1 && $0 != "" { print NR - 1 " " $0 }'
"""

SCRIPTS = """
```json jobs
{"jobs":
 []}
```

```script
# catalogue: jobs
> one
1 one
# A line for the reader, and one that has no reply.
>\x20
> three
3 three
```

```script
> four
4 four
```

```script
# catalogue: jobs
> first
1 first
```
"""

COMMANDS = """
```sh build
echo is not run
```

```sh
word=told
```

```sh
printf 'catalogue\\nline\\n' | batchctl script; echo $word; echo failed >&2
```

```
1 line
told
failed
```
"""


LISTED = "1. First:\n\n   ```sh\n   cat <<END\n     {}\n   END\n   ```\n\n   ```\n     one\n   ```\n"
CHECKED = "a block that can be checked"


# Pages, and what differs in each.
DIFFERENCES: dict[str, tuple[str, list[tuple[int, str, str]]]] = {
    "a script begins anew, or goes on without a catalogue": (SCRIPTS, []),
    "another reply": (SCRIPTS.replace("3 three", "3 six"), [(14, "3 six", "3 three")]),
    "a reply that the page has not": (SCRIPTS.replace("3 three\n", ""), [(13, "nothing", "3 three")]),
    "a reply that the program has not": (SCRIPTS.replace(">\x20\n", ">\x20\n2\n"), [(13, "2", "nothing")]),
    "no catalogue": ("```script\n# catalogue: others\n> one\n1 one\n```\n", [(1, "a catalogue others", "nothing")]),
    "one shell, without builds": (COMMANDS, []),
    "another line": (COMMANDS.replace("told\nfailed", "said\nfailed"), [(16, "said", "told")]),
    "output without a block": ("```sh\necho one\n```\n", [(2, "nothing", "one")]),
    "a block of a list": (LISTED.replace("{}", "one"), []),
    "another line of a list": (LISTED.replace("{}", "six"), [(10, "  one", "  six")]),
    "a command that fails": ("```sh\nfalse\n```\n", [(2, "nothing", "status 1")]),
    "a shell that ends early": ("```sh\nexit 0\n```\n", [(2, "nothing", "the shell has ended")]),
    "another word": ("```python\n1\n```\n", [(2, CHECKED, "python")]),
    "no word": ("```\n1\n```\n", [(2, CHECKED, "no word after its fence")]),
    "no end": ("```sh\ntrue\n", [(2, CHECKED, "a block without an end")]),
}


@pytest.mark.parametrize("page, wanted", DIFFERENCES.values(), ids=DIFFERENCES)
def test_each_difference_of_a_page_is_told(folder: Path, page: str, wanted: list[tuple[int, str, str]]) -> None:
    found = check_page(made_up(folder, PROGRAM), "page", page)
    assert [(difference.number, difference.wanted, difference.found) for difference in found] == wanted


def test_a_whole_program_is_shown() -> None:
    source = "fn main() {\n}\n"
    assert list(check_host("page", f"text\n```rust\n{source}```\n", source)) == []
    assert len(list(check_host("page", "```rust\nfn main() {\n```\n", source))) == 1


def test_the_first_page_shows_a_script_and_its_replies(folder: Path) -> None:
    page = "```\n{}\none\n```\n```\n{reply}\n```\n```sh\nbatchctl script < crates/batchctl/stdin # again\n```\n"
    made = made_up(folder, PROGRAM)
    for reply, line, count in (("1 one", "one", 0), ("2 one", "one", 1), ("1 one", "two", 2)):
        assert len(list(check_readme(made, "page", page.replace("{reply}", reply), f"{{}}\n{line}\n"))) == count


def test_a_command_of_the_first_page_that_fails_is_told(folder: Path) -> None:
    blocks = [Block("page", 4, "sh", ["batchctl walk", "not-run", "batchctl script"])]
    made = made_up(folder, '#!/bin/sh\n[ "$1" = script ]\n')
    assert [difference.number for difference in check_commands(made, blocks)] == [4]


def test_words_without_an_example_are_told() -> None:
    some = {'"do":"start"', '"ask":"job_names"', '{"stop":', "`item-count`", "`updated`", '{"refused":"NoSuchWork"}'}
    told = {difference.wanted for difference in check_words("page", " ".join(some))}
    assert not some & told
    others = {'"do":"purge"', '"ask":"status_counts"', '{"go":', "`partition`", "`metrics`", '{"refused":"NotClaimer"}'}
    assert others <= told


def test_a_difference_is_printed_with_page_and_line() -> None:
    assert str(Difference("page", 3, "one", "two")) == "page:3\n    wanted one\n    found  two"
