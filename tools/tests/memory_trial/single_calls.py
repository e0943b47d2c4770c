"""The cases: single calls of the library, each in a state made for it.

A case is a script for the program `refused_calls`. Its lines make the object's state, show it, make the
call, show the state again, and go on using the object. The folder `data` has what the scripts are made of: `histories.txt`
(scripts of calls and queries, each for the objects that its first line names), `catalogues.txt`, `commands.txt`, `starts.txt`.
"""

from __future__ import annotations

from collections.abc import Callable, Iterator
from dataclasses import dataclass
from pathlib import Path

from program import CRATE

DATA = Path(__file__).parent / "data"

# The script of `batchctl`.
SCRIPT = CRATE / "stdin"

# A line that begins so is marked: there is a mark before and after its call.
MARKED = "! "


@dataclass(frozen=True)
class Case:
    """A call, with what its script has around it. If no line is the call, it makes the object from the first line."""

    name: str
    kind: str
    line: str = ""
    first: str = ""
    before: tuple[str, ...] = ()
    after: tuple[str, ...] = ()
    # The lines that show the object's state.
    looks: tuple[str, ...] = ()

    def script(self, again: bool) -> str:
        """The script, in which an unmarked line makes the call again, if it is to be made again."""
        if not self.line:
            lines = [self.kind, MARKED + self.first, *self.looks, *self.after]
        else:
            call = [MARKED + self.line, *self.looks, *([self.line, *self.looks] if again else [])]
            lines = [self.kind, self.first, *self.before, *self.looks, *call, *self.after, *self.looks]
        return "\n".join(lines) + "\n"

    def group(self) -> str:
        """The part of the name before its first dot."""
        return self.name.partition(".")[0]


def each_of(kind: str, lines: list[str]) -> Iterator[Case]:
    """A case of each of these lines, which have no object."""
    for line in lines:
        yield Case(f"{kind}.{line.replace(' ', '.')[:48]}", kind, line)


def of_values() -> Iterator[Case]:
    """Calls of single values."""
    night = "the nightly load"
    words = ["new", "new_of_4", "within", "try_clone", "try_clone_option"]
    for word in words:
        yield Case(f"texts.{word}", "texts", f"{word} {night}")
    yield from each_of("texts", ["shared", "bad_line_text", "metrics_value"])
    yield from each_of("parameters", ["new", "new_long", "new_long_key", "new_many", "try_clone"])
    faults = ["TextTooLong", "Empty", "TooDeep", "TooMany", "DuplicateId", "NoSuchTarget", "Loop", "RestartNotJobLevel"]
    yield from each_of("jobs", ["faultless", "in_flows", *faults])
    yield from each_of("rows", ["add_instance", "add_execution", "add_work", "set_checkpoint", "set_checkpoint 11"])
    yield from each_of("rows", ["works_of_instance", "steps_made", "running_of", "job_instance.try_clone"])
    refusals = [
        f"{kind}Exception" for kind in ("NoSuchJobExecution", "JobExecutionNotMostRecent", "JobExecutionAlreadyComplete")
    ]
    yield from each_of("restarts", ["first_plan", "accepted", *refusals, "STARTED", "ABANDONED", "not_restartable"])


# A step `a`, then a split of a flow with the step `s` of two partitions and a flow with `t`.
WALKED = (
    '{"jobs":[{"id":"j","elements":[{"kind":"step","id":"a","next":"k","batchlet":{"ref":"ok"}},'
    '{"kind":"split","id":"k","flows":['
    '{"kind":"flow","id":"f","elements":[{"kind":"step","id":"s","partitions":2,"batchlet":{"ref":"ok"}}]},'
    '{"kind":"flow","id":"g","elements":[{"kind":"step","id":"t","batchlet":{"ref":"ok"}}]}]}]}]}'
)


def of_walks() -> Iterator[Case]:
    """Calls of walks: one from its beginning to its end, and clones that go on instead."""
    for word in ("new", "resume", "value_at_first", "fact.try_clone", "work_key.try_clone"):
        yield Case(f"walk.{word}", "walk", word, WALKED)
    steps = [f"{word} {step}" for step in ("a", "t", "s") for word in ("take", "report")]
    for number, step in enumerate(steps):
        before, after = ("walk", *steps[:number]), tuple(steps[number + 1 :])
        yield Case(f"walk.{step.replace(' ', '.')}", "walk", step, WALKED, before, after, ("show",))
    for word in ("try_clone", "value.try_clone", "work_keys.try_clone"):
        yield Case(f"walk.cursor.{word}", "walk", word, WALKED, ("walk",), ("swap", *steps), ("show",))


def job_of(id_: str) -> str:
    chunk = '{"item-count":2,"reader":{"ref":"count:5"},"processor":{"ref":"odd"},"writer":{"ref":"sink"}}'
    return f'{{"id":"{id_}","elements":[{{"kind":"step","id":"t","partitions":3,"chunk":{chunk}}}]}}'


def catalogue_of(count: int) -> str:
    return f'{{"jobs":[{",".join(job_of(f"j{number}") for number in range(count))}]}}'


def of_catalogues() -> Iterator[Case]:
    """Calls of catalogues, and of what is made of one."""
    two = catalogue_of(2)
    after = ("add later", "job.element later")
    for id_, first in (("night", two), ("j1", two), ("more", catalogue_of(256))):
        # A catalogue of 256 jobs takes no other one.
        then = () if id_ == "more" else after
        yield Case(f"catalogue.add.{id_}", "catalogue", f"add {id_}", first, (), then, ("show",))
    words = ["try_clone", "artifacts", "artifacts_of_a_clone", "table"]
    for word in words + ["job.try_clone j0", "job.element j0", "task.try_clone j0"]:
        yield Case(f"catalogue.{word.partition(' ')[0]}", "catalogue", word, two, (), after, ("show",))


def lines_of(name: str) -> list[str]:
    return (DATA / name).read_text().splitlines()


# A command that is longer than the lines whose room a reader keeps.
LONG_COMMAND = '{"do":"claim","by":1,"at":1' + " " * 65_536 + "}"

# The catalogues without a fault, by their lines.
FAULTLESS = (1, 2, 3, 12)


def of_readers() -> Iterator[Case]:
    """Calls that read or write texts."""
    for number, line in enumerate(lines_of("catalogues.txt"), 1):
        yield Case(f"readings.read_catalogue.{number}", "readings", f"read_catalogue {line}")
        if number not in FAULTLESS:
            yield Case(f"readings.fault_text.{number}", "readings", f"fault_text {line}")
    starts = lines_of("starts.txt")
    for number, line in enumerate(starts, 1):
        yield Case(f"readings.read_start.{number}", "readings", f"read_start {line}")
    commands = (*lines_of("commands.txt"), LONG_COMMAND)
    for number, line in enumerate(commands, 1):
        yield Case(f"commands.{number}", "commands", line, "", commands[: number - 1], commands[number:])
    for number in range(len(starts) + 2):
        yield Case(f"lines.{number}", "lines", "", str(number), (), tuple(starts))
    yield Case("logs.tell", "logs", 'tell {"execution":1}')
    script = tuple(SCRIPT.read_text().splitlines())
    for kind in ("run_script", "answer_script", "program"):
        yield Case(kind, kind, "", "", (), script)


def of_workers() -> Iterator[Case]:
    """Calls of kits, workers and pools, and of the words of a command line."""
    words = ["kit.add quiet", *(f"run_item {name}" for name in ("quiet", "nobody", "decision", "chunk", "own_chunk"))]
    words += ["run_partition chunk", "run_partition own_chunk"]
    yield from each_of("workers", words + ["worker quiet", "work_item.try_clone chunk", "work_task.try_clone chunk"])
    lines = ("counts", "start", "pool", "counts")
    first = '{"jobs":[{"id":"a","elements":[{"kind":"step","id":"s","batchlet":{"ref":"quiet"}}]}]}'
    yield Case("pool", "pool", "pool", first, ("start",), lines)
    command_lines = ["script", "script --log night.log", "run", "run --workers 3", "", "walk", "run --workers 17"]
    command_lines += ["run --", "run --workers 3 --", "run --workers 16", "run --workers=1", "run --workers=+03"]
    command_lines += ["--help", "script --help", "run --help"]
    for line in command_lines:
        yield Case(f"arguments.{line.replace(' ', '.') or 'none'}", "arguments", line or " ")


# The queries that show what a desk and an operator have.
LOOKS = [
    '{"ask":"job_names"}',
    '{"ask":"job_instances","job":"a","start":0,"count":9}',
    '{"ask":"running_executions","job":"a"}',
    '{"ask":"running_executions","job":"c"}',
    '{"ask":"job_executions","instance":1}',
    '{"ask":"job_executions","instance":2}',
    '{"ask":"parameters","execution":1}',
    '{"ask":"step_executions","execution":1}',
    '{"ask":"step_executions","execution":2}',
    '{"ask":"step_executions","execution":3}',
    '{"ask":"status_counts"}',
]
COUNT = '{"ask":"job_instance_count","job":"a"}'
SEEN = ("show", *(f"look {query}" for query in LOOKS))
# The same of an operator. Sessions 1 and 2 make the calls and queries, 3 looks, 4 and 5 read copies only. Job executions 1 and
# 65 share a word of stops.
SEEN_BY_SESSIONS = (
    *(f"stop_seen 1 {execution}" for execution in (1, 65)),
    *(f"show {session}" for session in (1, 2, 4, 5)),
    *(line for query in LOOKS for line in ("operations_at_least 3", f"ask 3 {query}")),
)
# What shows the state of each kind of object.
SHOWN = {
    "book": ("show",),
    "full_book": ("show",),
    "repository": ("show",),
    "full_repository": ("show",),
    "world": ("show",),
    "desk": SEEN,
    "full_desk": SEEN,
    "operator": (*SEEN_BY_SESSIONS, COUNT, f"ask 4 {COUNT}", 'ask 5 {"ask":"status_counts"}'),
    "copies": ("show", f"alone {COUNT}", f"shared {COUNT}", "counts"),
    "states": ("show", "counts"),
}


@dataclass(frozen=True)
class History:
    """A script of calls and queries for objects of these kinds."""

    kinds: tuple[str, ...]
    name: str
    catalogue: str
    lines: tuple[str, ...]


def blocks_of(name: str) -> list[list[str]]:
    """The lines of a file of data between which empty lines stand."""
    return [text.splitlines() for text in (DATA / name).read_text().strip().split("\n\n")]


def histories() -> Iterator[History]:
    for head, catalogue, *lines in blocks_of("histories.txt"):
        kinds, _, name = head.partition(": ")
        yield History(tuple(kinds.split()), name, catalogue, tuple(lines))
        if "entered" in kinds.split():
            yield entered(catalogue, lines)
        if "counted" in kinds.split():
            yield counted(catalogue, lines)


def entered(catalogue: str, lines: list[str]) -> History:
    """The calls of a script in a world whose copy takes in each operation by itself, as soon as it is accepted."""
    calls = [line for line in lines if '"do"' in line]
    return History(("world",), "entered", catalogue, tuple(each for call in calls for each in (call, PUBLISH)))


def counted(catalogue: str, lines: list[str]) -> History:
    """The calls of a script whose operations are absorbed by counts, in place of a repository."""
    absorbed = ["count" if line in ("enter", "absorb") else line for line in lines if '"ask"' not in line]
    return History(("states",), "counted", catalogue, (*absorbed, "counts"))


def made(kind: str, history: History, line: str, number: int) -> Case:
    """The case of a line."""
    before, after = history.lines[: number - 1], history.lines[number:]
    return Case(f"{kind}.{history.name}.{number}", kind, line, history.catalogue, before, after, SHOWN[kind])


def about(history: History) -> Iterator[Case]:
    """Cases about the calls and queries of a history: previews, copies and texts. A repository has the calls before."""
    for number, line in enumerate(history.lines, 1):
        words = ["answer_text"] if '"ask"' in line else ["preview", "call.try_clone", "reply.try_clone", "reply_text"]
        for word in words:
            case = made("repository", history, f"{word} {line}", number)
            name = f"{word.replace('.', '_')}.{history.name}.{number}"
            yield Case(name, case.kind, case.line, case.first, case.before, (line, *case.after), case.looks)


def previewed_full(history: History) -> Iterator[Case]:
    """The previews of a history's calls, by a repository that is full after two operations."""
    for number, line in enumerate(history.lines, 1):
        if '"do"' in line:
            case = made("full_repository", history, f"preview {line}", number)
            name = f"full_preview.{history.name}.{number}"
            yield Case(name, case.kind, case.line, case.first, case.before, (line, *case.after), case.looks)


# Lines that are no cases: nothing in them asks for memory, or they are part of the state of others.
NO_CASES = ("meet", "stop_seen", "show")

# The line by which a world's copy takes in all operations.
PUBLISH = "publish 99"


def is_case(kind: str, history: History, line: str) -> bool:
    """Whether a line of a history is a case. Its calls may be there for others alone, and its queries too."""
    if kind == "states":
        return '"do"' not in line
    of_others = kind == "copies" or history.name == "entered"
    return line.split()[0] not in NO_CASES and not (of_others and line.startswith("{"))


def of_histories() -> Iterator[Case]:
    """Each line of each history, for each of its objects, and the making of the object."""
    for history in histories():
        for kind in history.kinds:
            if kind in ABOUT:
                yield from ABOUT[kind](history)
                continue
            name = f"{kind}.{history.name}.new"
            yield Case(name, kind, "", history.catalogue, (), history.lines, SHOWN[kind])
            for number, line in enumerate(history.lines, 1):
                if is_case(kind, history, line):
                    yield made(kind, history, line, number)
        if "world" in history.kinds and history.name != "entered":
            yield Case(f"events.{history.name}", "events", "", history.catalogue, (), history.lines)


# What makes cases of a history, by the word that its first line has for them. `entered` and `counted` make histories of their
# own.
ABOUT: dict[str, Callable[[History], Iterator[Case]]] = {
    "about": about,
    "about_full": previewed_full,
    "entered": lambda _: iter(()),
    "counted": lambda _: iter(()),
}


def expected() -> dict[str, list[tuple[str, tuple[str, ...]]]]:
    """What cases write for some of their lines, by the names of the cases."""
    wanted: dict[str, list[tuple[str, tuple[str, ...]]]] = {}
    for name, *lines in blocks_of("expected.txt"):
        parts = wanted.setdefault(name, [])
        for line in lines:
            if line.startswith("> "):
                parts.append((line.removeprefix("> "), ()))
            else:
                parts[-1] = (parts[-1][0], (*parts[-1][1], line))
    return wanted


def cases() -> list[Case]:
    """All cases, in their order."""
    made_of = (of_values, of_walks, of_catalogues, of_readers, of_histories, of_workers)
    return [case for group in made_of for case in group()]
