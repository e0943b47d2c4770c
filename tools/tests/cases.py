"""The cases of `cases/`: scripts and command lines, with the replies that stand beside them.

A file `NAME.script` is one script, and a file `NAME.scripts` has an empty line between two of them. So do the replies, in
`NAME.replies`, which were worked out by hand.

- `cases/scripts`: `batchctl script` answers each. It ends with status 3 if the catalogue has a fault, and else with 0.
- `cases/commands.toml`: command lines of `batchctl`, with what each writes and its exit status.
- Scripts whose lines have 16,777,216 bytes, or one more, are made here, since they are too large for a file, and one with
  checkpoints of 65,536 bytes and of one more.
- `cases/operator`: an operator of the program `refused_calls` answers each. The session that a line names makes a call, and
  session 1 makes a query. Lines with a member `operator` are directives (`OnAnOperator.follow`). Session 5 makes no call: at
  the end it has to be shown as many operations as calls were accepted, and the next session to be opened has to have the next
  number. So a case shows whether the operator made an operation or opened a session without being asked.
"""

from __future__ import annotations

import json
import tempfile
import tomllib
from collections.abc import Callable
from concurrent.futures import ThreadPoolExecutor
from dataclasses import dataclass, field
from pathlib import Path

from program import DONE, FAULTY_CATALOGUE, REFUSED_WORDS, Program, Wrong
from repository import ROOT

CASES = ROOT / "cases"

# How many sessions an operator has open when the first line comes. The last of them makes no call.
SESSIONS = 5

# How the program echoes a line.
ECHO = "> "


@dataclass(frozen=True)
class Directive:
    """A line for an operator that is neither a call nor a query."""

    # The members that name a session, read copies or a job execution, in the order of the program's line.
    members: tuple[str, ...]
    # The reply to it, of what the program writes.
    reply: Callable[[str], object]


DIRECTIVES = {
    # Two sessions meet.
    "meet": Directive(("one", "other"), lambda said: {"met": said == ""}),
    # A session looks whether a job execution was asked to stop.
    "stop_seen": Directive(("by", "execution"), lambda said: {"stop_seen": json.loads(said)}),
    # A session is shown the number of operations.
    "operations_at_least": Directive(("by",), lambda said: {"operations_at_least": int(said.removesuffix(" operations"))}),
    # The number of operations that a session has seen by its own calls and queries.
    "show": Directive(("by",), lambda said: {"seen": int(said.split(", ")[1].removeprefix("seen "))}),
    # One more session is opened.
    "open": Directive((), lambda said: {"session": int(said.removeprefix("session "))}),
    # The session that was opened last is closed.
    "close": Directive((), lambda said: {"closed": said == ""}),
    # The read copies with an index are updated.
    "publish": Directive(("copy",), lambda said: {"published": said == "Ok(())"}),
}


def compact(value: object) -> str:
    return json.dumps(value, separators=(",", ":"))


def first_difference(written: str, wanted: str) -> int | None:
    """The first line, counted from 1, in which two texts differ, if they do."""
    if written == wanted:
        return None
    lines, others = written.split("\n"), wanted.split("\n")
    same = (one == other for one, other in zip(lines, others))
    return next((number for number, is_same in enumerate(same, 1) if not is_same), min(len(lines), len(others)) + 1)


def text_of(written: bytes) -> str:
    """The text of these bytes, whatever they are, with its line feeds and carriage returns."""
    return written.decode(errors="surrogateescape")


def replies_of_batchctl(program: Program, script: str) -> str:
    """The replies of `batchctl` to a script."""
    ended = program.script(script.encode(errors="surrogateescape"))
    wanted = FAULTY_CATALOGUE if b'"fault":' in ended.output.partition(b"\n")[0] else DONE
    if ended.status != wanted or ended.faults:
        raise Wrong(f"status {ended.status} in place of {wanted}; {text_of(ended.faults)}")
    return text_of(ended.output)


# The most bytes of a line, and of a checkpoint.
MAX_LINE = 16_777_216
MAX_CHECKPOINT = 65_536
# A chunk, its start and its claim, and their replies.
CHUNK = (
    '{"jobs":[{"id":"a","elements":[{"kind":"step","id":"s","chunk":{"reader":{"ref":"r"},"writer":{"ref":"w"}}}]}]}\n'
    '{"do":"start","by":1,"at":0,"job":"a"}\n{"do":"claim","by":1,"at":0}\n'
)
CLAIMED = (
    '{"execution":1}\n{"work":{"checkpoint":null,"element":"s","execution":1,"item-count":10,"kind":"chunk","processor":null,'
    '"reader":"r","work":1,"writer":"w"}}\n'
)


def padded(line: str, length: int) -> str:
    """The line, with spaces behind it up to this length."""
    return line + " " * (length - len(line))


def checkpoint_of(length: int) -> str:
    return '{"do":"checkpoint","by":1,"at":0,"work":1,"data":"%s"}\n' % ("m" * length)


def large_scripts() -> list[tuple[str, str]]:
    """Scripts with lines and checkpoints at their bounds and above, each with its replies."""
    empty, names, bad = '{"jobs":[]}', '{"ask":"job_names"}', '{"refused":"BadLine"}'
    later = "\n".join([empty, *(padded(names, length) for length in (MAX_LINE, MAX_LINE + 1, 0))])
    return [
        (f"{padded(empty, MAX_LINE)}\n{names}\n", '{"names":[]}\n'),
        (f"{padded(empty, MAX_LINE + 1)}\n{names}\n", '{"fault":"NotACatalogue"}\n'),
        # The rest of a longer line is skipped.
        (f"{later}\n", f'{{"names":[]}}\n{bad}\n{{"names":[]}}\n'),
        (
            f"{CHUNK}{checkpoint_of(MAX_CHECKPOINT + 1)}{checkpoint_of(MAX_CHECKPOINT)}",
            f'{CLAIMED}{{"refused":"TextTooLong"}}\n{{"go":true}}\n',
        ),
    ]


def check_large(program: Program) -> None:
    """Raises `Wrong` if the replies to a script of large lines are others."""
    for number, (script, replies) in enumerate(large_scripts(), 1):
        if replies_of_batchctl(program, script) != replies:
            raise Wrong(f"large script {number} has other replies")


@dataclass(frozen=True)
class Command:
    """Command lines with their input, and what each of them writes."""

    lines: list[list[str]]
    input: str
    # What it writes; anything, if it is not told.
    output: str | None = None
    status: int = 0

    def check(self, program: Program, words: list[str]) -> None:
        """Raises `Wrong` if a command line writes something else, or ends otherwise."""
        with tempfile.TemporaryDirectory(prefix="cases-") as folder:
            ended = program.run(words, self.input.encode(), Path(folder))
        output, faults = text_of(ended.output), text_of(ended.faults)
        written = output == self.output or (self.output is None and output != "")
        if not written or ended.status != self.status or (faults != "") != (self.status == REFUSED_WORDS):
            raise Wrong(f"batchctl {' '.join(words)}: status {ended.status}, {output!r}, {faults!r}")


def check_commands(program: Program, commands: list[Command]) -> int:
    """Raises `Wrong` if a command line is answered otherwise, and returns how many there are."""
    for command in commands:
        for words in command.lines:
            command.check(program, words)
    return sum(len(command.lines) for command in commands)


def commands_of_the_cases() -> list[Command]:
    return [Command(**members) for members in tomllib.loads((CASES / "commands.toml").read_text())["command"]]


@dataclass
class OnAnOperator:
    """A script for an operator, as lines of the program, and what makes its replies of what the program writes."""

    copies: int = 1
    lines: list[str] = field(default_factory=list)
    # For each reply the place of its line, or the reply itself.
    replies: list[tuple[int, Callable[[str], str]] | str] = field(default_factory=list)
    asker: int = 1
    opened: int = SESSIONS

    def send(self, line: str, reply: Callable[[str], str]) -> None:
        self.replies.append((len(self.lines), reply))
        self.lines.append(line)

    def follow(self, line: dict[str, object]) -> None:
        """Takes a directive."""
        name = str(line["operator"])
        if name == "copies":
            self.copies = int(str(line["copies"]))
        elif name == "ask_by":
            self.asker = int(str(line["by"]))
            self.replies.append(compact({"asks": self.asker}))
        else:
            directive = DIRECTIVES[name]
            self.opened += name == "open"
            words = [name, *(str(line[member]) for member in directive.members)]
            self.send(" ".join(words), lambda said: compact(directive.reply(said)))

    def take(self, text: str) -> None:
        """Takes a line of the script."""
        line = json.loads(text)
        if "operator" in line:
            self.follow(line)
        elif "ask" in line and self.asker > 1:
            self.send(f"ask {self.asker} {text}", str)
            self.asker = 1
        else:
            self.send(text, str)

    def replies_to(self, said: list[str]) -> str:
        """The replies, of what the program wrote for each of its lines."""
        told = [reply if isinstance(reply, str) else reply[1](said[reply[0]]) for reply in self.replies]
        return "".join(f"{reply}\n" for reply in told)

    def accepted(self, said: list[str]) -> int:
        """How many of the calls were accepted as operations."""
        calls = [reply for line, reply in zip(self.lines, said) if line.startswith('{"do":')]
        return sum(not reply.startswith('{"refused":') and reply != '{"nothing":true}' for reply in calls)

    def check_end(self, said: list[str]) -> None:
        """Raises `Wrong` if there was an operation or a session that nobody asked for, by what the last two lines show."""
        accepted, next_number = self.accepted(said), self.next_number()
        if said[-2:] != [f"{accepted} operations", f"session {next_number}"]:
            raise Wrong(f"{accepted} operations were accepted and session {next_number} is the next one: {said[-2:]}")

    def next_number(self) -> int:
        return self.opened + 1


def on_an_operator(script: str) -> tuple[OnAnOperator, str]:
    """The script for an operator, and its catalogue. It ends with what shows that nothing else was done."""
    taken = OnAnOperator()
    first, *lines = script.strip("\n").split("\n")
    while first.startswith('{"operator":'):
        taken.follow(json.loads(first))
        first, *lines = lines
    for line in lines:
        taken.take(line)
    taken.lines += [f"operations_at_least {SESSIONS}", "open"]
    return taken, first


def replies_of_an_operator(program: Program, script: str) -> str:
    """The replies of an operator to a script."""
    taken, catalogue = on_an_operator(script)
    with tempfile.TemporaryDirectory(prefix="cases-") as name:
        path = Path(name) / "script"
        path.write_text("\n".join([f"operator {taken.copies}", catalogue, *taken.lines]) + "\n")
        ended = program.run([path])
    output, faults = text_of(ended.output), text_of(ended.faults)
    if ended.status or faults:
        raise Wrong(f"status {ended.status}; {output[-200:]}{faults}")
    parts = output.removeprefix(ECHO).split(f"\n{ECHO}")
    said = ["\n".join(part.rstrip("\n").split("\n")[1:]) for part in parts]
    if len(said) != len(taken.lines):
        raise Wrong(f"{len(said)} lines in place of {len(taken.lines)}")
    taken.check_end(said)
    return taken.replies_to(said)


def scripts_in(path: Path) -> list[str]:
    text = text_of(path.read_bytes())
    return text.split("\n\n") if path.suffix == ".scripts" else [text]


def check(path: Path, answered: Callable[[str], str], pool: ThreadPoolExecutor) -> int:
    """Raises `Wrong` if the replies to a file of scripts are others, and returns how many scripts it has."""
    scripts = scripts_in(path)
    try:
        written = "\n".join(pool.map(answered, scripts))
    except Wrong as wrong:
        raise Wrong(f"{path.name}: {wrong}") from wrong
    line = first_difference(written, text_of(path.with_suffix(".replies").read_bytes()))
    if line is not None:
        raise Wrong(f"{path.name} differs from its replies in line {line} of them")
    return len(scripts)


def left_alone(folder: Path) -> list[str]:
    """The files of a folder that have no replies beside them, or no script. A folder without any script is named too."""
    scripts = {path.stem for path in folder.glob("*.script*")}
    replies = {path.stem for path in folder.glob("*.replies")}
    alone = [f"{name} has no replies" for name in sorted(scripts - replies)]
    alone += [f"{name} has no script" for name in sorted(replies - scripts)]
    return alone if scripts else [f"{folder.name} has no script", *alone]
