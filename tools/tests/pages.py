"""The examples of the pages: what a program writes is compared with them. The word after a block's fence says what it is:

- `sh`: commands. All of a page run in one shell, in their order, from the root of the repository. The block without a word
  below it is what they print, to standard error too. Commands without such a block print nothing. The last command succeeds.
- `sh build`: a build or an install, which is not run. `batchctl` is the program that is checked.
- `json NAME`: a catalogue and its name. In a script its lines are one line.
- `script`: lines of a script, each after `> `, with the reply below it. `# catalogue: NAME` begins a script over that
  catalogue. A block without it goes on with the script of the block before. Other lines with a `#` are for the reader alone.

docs/LINES.md must also have each command, query, reply and refusal of the sources, and each member of a work item, a job
execution and a step execution. docs/OPERATOR.md must show the program of `benches/host`. README's first script and its
replies are compared, and its commands of `batchctl` succeed.
"""

from __future__ import annotations

import re
import tempfile
from collections.abc import Iterator
from dataclasses import dataclass, field
from itertools import islice, zip_longest
from pathlib import Path

from page_blocks import NOTHING, Block, Difference, blocks_in, check_shell, first_difference, numbered, run_shell
from page_blocks import unknown_blocks
from program import CRATE, Program
from repository import ROOT

LINES = ROOT / "docs" / "LINES.md"
PAGES = [ROOT / "docs" / "TUTORIAL.md", LINES, ROOT / "docs" / "DURABILITY.md"]
# A page that shows a whole program, and its source.
HOST_PAGE, HOST = ROOT / "docs" / "OPERATOR.md", ROOT / "benches" / "host" / "src" / "main.rt.txt"
# The first page, and the script that it shows with its replies.
README, FIRST_SCRIPT = ROOT / "README.md", CRATE / "stdin"
# The sources of the words that docs/LINES.md must have, a pattern that finds these, and how the page spells each.
WORDS = [
    ("script_text/src/calls.rt", r'^ +"(\w+)" => \w+_of\(value\)', '"do":"{}"'),
    ("script_text/src/queries.rt", r'^ +"(\w+)" => ', '"ask":"{}"'),
    ("script_text/src/reply.rt", r'tell_(?:one|true)\(out, "(\w+)"', '{{"{}":'),
    ("script_text/src/reply.rt", r'^ +\("([\w-]+)", ', "`{}`"),
    ("script_text/src/records.rt", r'^ +\("(\w+)", ', "`{}`"),
    # A script that runs out of memory ends: it has no reply that says so.
    ("batch_ids/src/refusal.rt", r'^ +Refusal::\w+ => "(?!OutOfMemory)(\w+)"', '{{"refused":"{}"}}'),
]
CATALOGUE = "# catalogue: "
SENT = "> "
FAILED = re.compile(r"(?:\A|\n)(?:status \d+|the shell has ended)\n\Z")


@dataclass
class Sent:
    """A line of a script, and the replies that the page has below it, with the numbers of their lines."""

    number: int
    text: str
    replies: list[tuple[int, str]] = field(default_factory=list)


@dataclass
class Script:
    """The lines of one script over a catalogue."""

    page: str
    catalogue: str
    sent: list[Sent] = field(default_factory=list)


def catalogues_in(blocks: list[Block]) -> dict[str, str]:
    """The catalogues of a page by their names, each in one line."""
    named = [(block.word.partition(" "), block) for block in blocks]
    return {name: "".join(block.lines) for (kind, _, name), block in named if kind == "json"}


def scripts_in(blocks: list[Block]) -> list[Script]:
    """The scripts of a page. A line that names a catalogue begins one."""
    scripts = list[Script]()
    for block in (block for block in blocks if block.word == "script"):
        for number, line in numbered(block):
            if line.startswith(CATALOGUE) or not scripts:
                scripts.append(Script(block.page, line.removeprefix(CATALOGUE)))
            if line.startswith(SENT):
                scripts[-1].sent.append(Sent(number, line.removeprefix(SENT)))
            elif not line.startswith("#") and scripts[-1].sent:
                scripts[-1].sent[-1].replies.append((number, line))
    return scripts


def check_script(program: Program, script: Script, catalogue: str) -> Iterator[Difference]:
    """Sends the lines of a script, and compares each reply with that of the page. An empty line has none."""
    lines = "".join(f"{line}\n" for line in [catalogue, *(sent.text for sent in script.sent)])
    replies = iter(program.script(lines.encode()).output.decode().splitlines())
    for sent in script.sent:
        found = list(islice(replies, 1)) if sent.text else []
        yield from first_difference(script.page, sent.replies, found, sent.number)
    yield from first_difference(script.page, [], list(replies), script.sent[-1].number if script.sent else 1)


def check_scripts(program: Program, blocks: list[Block]) -> Iterator[Difference]:
    """Runs the scripts of a page, each over the catalogue that it names."""
    catalogues = catalogues_in(blocks)
    for script in scripts_in(blocks):
        if script.catalogue in catalogues:
            yield from check_script(program, script, catalogues[script.catalogue])
        else:
            yield Difference(script.page, 1, f"a catalogue {script.catalogue}", NOTHING)


def check_host(page: str, text: str, source: str) -> Iterator[Difference]:
    """The page shows the whole program."""
    if f"```rust\n{source}```\n" not in text:
        yield Difference(page, 1, f"all lines of {HOST.relative_to(ROOT)} in one block", "none that is so")


def check_readme(program: Program, page: str, text: str, script: str) -> Iterator[Difference]:
    """The blocks without a word are the script and its replies, and the commands of the program succeed."""
    blocks = list(blocks_in(page, text))
    replies = program.script(script.encode()).output.decode()
    shown = [block for block in blocks if block.word == ""]
    for block, wanted in zip_longest(shown, [script, replies]):
        if block is None or wanted is None:
            yield Difference(page, 1, "two blocks without a word: a script, and its replies", f"{len(shown)}")
            return
        yield from first_difference(page, numbered(block), wanted.splitlines(), block.number)
    yield from check_commands(program, [block for block in blocks if block.word == "sh"])


def check_commands(program: Program, blocks: list[Block]) -> Iterator[Difference]:
    """Each line that is a command of the program succeeds, in a folder of its own; other lines build, install or serve."""
    commands = [
        Block(block.page, number, "sh", ['cd "$TMPDIR"', line.replace(" crates/", f" {ROOT}/crates/")])
        for block in blocks
        for number, line in numbered(block)
        if line.startswith("batchctl ")
    ]
    with tempfile.TemporaryDirectory(prefix="readme-") as folder:
        printed = run_shell(commands, program.path, Path(folder))
    for command, text in zip(commands, printed):
        if FAILED.search(text):
            yield Difference(command.page, command.number, "a command that succeeds", text.strip())


def check_words(page: str, text: str) -> Iterator[Difference]:
    """The page has each word of the sources."""
    for source, pattern, spelling in WORDS:
        words = re.findall(pattern, (ROOT / "crates" / source).read_text(), re.M)
        if not words:
            yield Difference(page, 1, f"words of {source}", "none that the pattern finds")
        for word in words:
            if spelling.format(word) not in text:
                yield Difference(page, 1, spelling.format(word), "no example of it")


def check_page(program: Program, page: str, text: str) -> Iterator[Difference]:
    """All that differs between a page and the program."""
    blocks = list(blocks_in(page, text))
    yield from unknown_blocks(blocks, "a block that can be checked", ("sh", "sh build", "script", "json"))
    yield from check_scripts(program, blocks)
    yield from check_shell(program.path, blocks)
