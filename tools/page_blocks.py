"""The blocks of a page: what they are, the commands in them, and what these print."""

from __future__ import annotations

import os
import re
import subprocess
import tempfile
from collections.abc import Iterable, Iterator
from dataclasses import dataclass
from itertools import zip_longest
from pathlib import Path

from repository import ROOT

NOTHING = "nothing"
COMMENT = re.compile(r" +#.*")
# Ends what a block prints, and tells of a last command that failed.
BLOCK_END = "\ncase $? in 0) ;; *) echo \"status $?\" ;; esac; printf '\\0'\n"


@dataclass(frozen=True)
class Block:
    """A fenced block of a page: the number of its first line, the word after its fence, and its lines."""

    page: str
    number: int
    word: str
    lines: list[str]


@dataclass(frozen=True)
class Difference:
    """What a page wants at one of its lines, and what was found."""

    page: str
    number: int
    wanted: str
    found: str

    def __str__(self) -> str:
        return f"{self.page}:{self.number}\n    wanted {self.wanted}\n    found  {self.found}"


@dataclass(frozen=True)
class Command:
    """A command with all its lines, and the number of the first one."""

    page: str
    number: int
    text: str

    @property
    def first_line(self) -> str:
        return COMMENT.sub("", self.text.splitlines()[0]).strip()


def blocks_in(page: str, text: str) -> Iterator[Block]:
    """The fenced blocks of a page, in their order. Those of a list are indented."""
    word, lines = None, list[str]()
    for number, line in enumerate(text.splitlines(), 1):
        if word is None and line.lstrip().startswith("```"):
            indent, _, rest = line.partition("```")
            word, lines, first = rest.strip(), [], number + 1
        elif word is not None and line == f"{indent}```":
            yield Block(page, first, word, lines)
            word = None
        elif word is not None:
            lines.append(line.removeprefix(indent))
    if word is not None:
        yield Block(page, first, "a block without an end", lines)


def first_difference(page: str, wanted: list[tuple[int, str]], found: list[str], number: int) -> Iterator[Difference]:
    """The first line that differs, if there is one. `number` is told if the page has no line."""
    for of_page, of_program in zip_longest(wanted, found):
        if of_page is None or of_page[1] != of_program:
            number, text = of_page or (number, NOTHING)
            yield Difference(page, number, text, NOTHING if of_program is None else of_program)
            return


def numbered(block: Block) -> list[tuple[int, str]]:
    return list(enumerate(block.lines, block.number))


def unknown_blocks(
    blocks: list[Block], wanted: str, words: tuple[str, ...], shown: tuple[str, ...] = ("sh",)
) -> Iterator[Difference]:
    """Blocks with other words than these, which nothing would check. A block without a word is what one with a word of `shown`
    prints. A catalogue has its name behind the word `json`."""
    before = ""
    for block in blocks:
        word = "json" if block.word.startswith("json ") else block.word
        if not (word in words or (word == "" and before in shown)):
            yield Difference(block.page, block.number, wanted, block.word or "no word after its fence")
        before = block.word


def is_whole(text: str) -> bool:
    """Whether a shell would run these lines, and wait for no more."""
    read = subprocess.run(["bash", "-n"], input=text.encode(), stderr=subprocess.PIPE, check=False)
    return read.returncode == 0 and not read.stderr and not text.rstrip("\n").endswith("\\")


def commands_in(block: Block) -> list[Command]:
    """The commands of a block. The last one is not whole if the block ends within it."""
    found, lines, first = list[Command](), list[str](), block.number
    for number, line in enumerate(block.lines, block.number):
        first = first if lines else number
        lines.append(line)
        text = "".join(f"{one}\n" for one in lines)
        if is_whole(text):
            found += [Command(block.page, first, text)] if text.strip() else []
            lines = []
    return found + [Command(block.page, first, "\n".join(lines))] if lines else found


def run_shell(commands: list[Block], program: Path, folder: Path) -> list[str]:
    """What each of these blocks prints, with a line more if its last command fails."""
    (folder / "bin").mkdir()
    (folder / "bin" / "batchctl").symlink_to(program)
    text = "exec 2>&1\n" + "".join("\n".join(block.lines) + BLOCK_END for block in commands)
    (folder / "commands").write_text(text)
    around = os.environ | {"PATH": f"{folder / 'bin'}:{os.environ['PATH']}", "TMPDIR": str(folder)}
    words = ["bash", str(folder / "commands")]
    ran = subprocess.run(words, cwd=ROOT, env=around, stdin=subprocess.DEVNULL, stdout=subprocess.PIPE, check=False)
    printed = ran.stdout.decode().split("\0")[:-1]
    return printed + ["the shell has ended\n"] * (len(commands) - len(printed))


def check_shell(program: Path, blocks: list[Block]) -> Iterator[Difference]:
    """Runs the commands of a page, and compares what each block prints with the block below it."""
    places = [place for place, block in enumerate(blocks) if block.word == "sh"]
    with tempfile.TemporaryDirectory(prefix="pages-") as folder:
        printed = run_shell([blocks[place] for place in places], program, Path(folder))
    for place, text in zip(places, printed):
        below = [block for block in blocks[place + 1 : place + 2] if block.word == ""]
        wanted = [line for block in below for line in numbered(block)]
        yield from first_difference(blocks[place].page, wanted, text.splitlines(), blocks[place].number)


def told(differences: Iterable[Difference]) -> str:
    return "\n".join(map(str, differences))
