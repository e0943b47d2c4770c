"""The workloads: inputs for `batchctl`, each made from a seed.

    python3 bench/workloads.py NAME SEED SIZE    writes the input of a workload to standard output

SIZE is the number of lines, or for `pool` the number of job executions. Equal seeds give equal inputs.

- `nights`: jobs of five steps, eight at a time, with checkpoints, failures, restarts and some queries.
- `consoles`: the same, but seven lines in ten are queries.
- `backlog`: a fifth of the lines are starts, all before the first claim; reports come in any order.
- `deep`: jobs of about a thousand elements: long lists, flows in flows, wide splits, splits in splits.
- `restarts`: jobs of twenty steps, one after another. One step of each tenth job fails, and the job is restarted.
- `pool`: a run of chunks, partitions and splits by two workers with built-in artifacts.
- `logged`: `nights` over a new log.
- `opened`: the catalogue of `nights` and one query, over the log that `logged` leaves.
- `refused`: lines that are refused: half of them with `BadLine`, the others with each other refusal but `RepositoryFull`.
"""

from __future__ import annotations

import json
import sys
from collections.abc import Callable
from dataclasses import dataclass
from pathlib import Path
from string import Template

# The number of sessions of a script, which take turns.
SESSIONS = 16
# What a reported checkpoint's group of items came to.
METRICS = '{"READ_COUNT":100,"WRITE_COUNT":98,"FILTER_COUNT":2,"COMMIT_COUNT":1}'

Json = dict[str, object]


class Dice:
    """Pseudorandom numbers, equal for equal seeds (splitmix64)."""

    MASK = 2**64 - 1

    def __init__(self, seed: int) -> None:
        self.state = seed

    def below(self, bound: int) -> int:
        """A number below `bound`, or 0 if that is 0."""
        self.state = (self.state + 0x9E3779B97F4A7C15) & self.MASK
        first = ((self.state ^ (self.state >> 30)) * 0xBF58476D1CE4E5B9) & self.MASK
        second = ((first ^ (first >> 27)) * 0x94D049BB133111EB) & self.MASK
        return (second ^ (second >> 31)) % bound if bound else 0

    def percent(self, share: int) -> bool:
        """True with a probability of `share` percent."""
        return self.below(100) < share


class Script:
    """A script that grows line by line, and the numbers that its calls return."""

    def __init__(self, catalogue: list[Json]) -> None:
        self.lines = [json.dumps({"jobs": catalogue}, separators=(",", ":"))]
        self.at = 1_700_000_000_000
        self.instances = self.executions = self.works = 0

    def text(self) -> str:
        return "".join(f"{line}\n" for line in self.lines)

    def call(self, name: str, turn: int, members: str = "") -> None:
        """Adds a call in the name of one of the sessions."""
        self.at += 7
        self.lines.append(f'{{"do":"{name}","by":{1 + turn % SESSIONS},"at":{self.at}{members}}}')

    def start(self, job: str, day: int = 0) -> int:
        """Starts a job, and gives the number of the job execution."""
        self.instances += 1
        self.executions += 1
        parameters = f',"parameters":{{"day":"{day}","region":"eu"}}' if day else ""
        self.call("start", self.executions, f',"job":"{job}"{parameters}')
        return self.executions

    def restart(self, execution: int) -> int:
        """Restarts a job execution, and gives the number of the new one."""
        self.executions += 1
        self.call("restart", self.executions, f',"execution":{execution}')
        return self.executions

    def claim(self) -> int:
        """Claims a work item, and gives its number."""
        self.works += 1
        self.call("claim", self.works)
        return self.works

    def checkpoint(self, work: int, row: int) -> None:
        """Reports a checkpoint at a row."""
        self.call("checkpoint", work, f',"work":{work},"data":"row {row}","metrics":{METRICS}')

    def finish(self, work: int, outcome: str = "COMPLETED", exit_status: str = "") -> None:
        """Reports the end of a work item, with its exit status unless that is empty."""
        shown = f',"exit":"{exit_status}"' if exit_status else ""
        self.call("finish", work, f',"work":{work},"outcome":"{outcome}"{shown}')

    def ask(self, query: str, members: str = "") -> None:
        self.lines.append(f'{{"ask":"{query}"{members}}}')


def step(id_: str, ref: str, **others: object) -> Json:
    """A step that runs a batchlet."""
    return {"kind": "step", "id": id_, **others, "batchlet": {"ref": ref}}


# The nightly jobs: how many there are, and how many job executions run at a time.
JOBS = 20
WIDTH = 8
NIGHTLY_STEPS: list[Json] = [
    step("extract", "extract", next="validate"),
    step(
        "validate",
        "validate",
        next="load",
        transitions=[
            {"kind": "next", "on": "REDO*", "to": "load"},
            {"kind": "fail", "on": "BAD?", "exit-status": "bad input"},
        ],
    ),
    {
        "kind": "step",
        "id": "load",
        "next": "reconcile",
        "chunk": {
            "item-count": 100,
            "reader": {"ref": "reader"},
            "processor": {"ref": "processor"},
            "writer": {"ref": "writer"},
        },
    },
    step("reconcile", "reconcile", next="report"),
    step("report", "report"),
]


@dataclass
class Member:
    """A job execution that is under way, and the number of steps left."""

    execution: int = 0
    left: int = 0
    work: int = 0
    has_failed: bool = False

    def is_under_way(self) -> bool:
        return self.left > 0 and not self.has_failed


class Nights:
    """Nights of jobs, and the consoles that watch them."""

    def __init__(self, dice: Dice, share: int) -> None:
        """After each query another one follows with a probability of `share` percent."""
        self.dice = dice
        self.share = share
        self.script = Script([{"id": f"nightly-{job}", "elements": NIGHTLY_STEPS} for job in range(JOBS)])
        self.members = [Member() for _ in range(WIDTH)]

    def begin(self, member: Member) -> None:
        """Starts a job, or restarts the job execution that failed before."""
        if member.has_failed:
            member.execution = self.script.restart(member.execution)
            member.has_failed = False
            return
        job = self.dice.below(JOBS)
        day = 20_240_101 + self.dice.below(28) if self.dice.percent(50) else 0
        member.execution = self.script.start(f"nightly-{job}", day)
        member.left = len(NIGHTLY_STEPS)

    def ask(self) -> None:
        """Adds a query. Half of the queries are about a recent job execution."""
        dice, script = self.dice, self.script
        recent = 200 if dice.percent(50) else script.executions
        execution = max(script.executions - dice.below(recent), 1)
        job = f',"job":"nightly-{dice.below(JOBS)}"'
        instance = dice.below(script.instances) + 1
        page = dice.below(1 + script.instances // (10 * JOBS)) * 10
        about = f',"execution":{execution}'
        queries = (
            (35, "job_execution", about),
            (60, "step_executions", about),
            (75, "job_executions", f',"instance":{instance}'),
            (85, "job_instances", f'{job},"start":{page},"count":10'),
            (93, "status_counts", ""),
            (95, "running_executions", job),
            (97, "parameters", about),
            (98, "job_instance_count", job),
            (99, "job_instance", about),
            (100, "job_names", ""),
        )
        drawn = dice.below(100)
        script.ask(*next((query, members) for bound, query, members in queries if drawn < bound))

    def ask_some(self) -> None:
        for _ in range(50):
            if not self.dice.percent(self.share):
                return
            self.ask()

    def report(self, member: Member) -> None:
        """Reports the end of a work item. Before that, a chunk gets up to nine checkpoints."""
        if member.left == 3:
            for row in range(self.dice.below(10)):
                self.script.checkpoint(member.work, 100 * row)
        if self.dice.percent(3):
            member.has_failed = True
            self.script.finish(member.work, "FAILED")
            return
        exit_status = "REDO1" if member.left == 4 and self.dice.percent(10) else ""
        member.left -= 1
        self.script.finish(member.work, "COMPLETED", exit_status)

    def round(self) -> None:
        """Runs one step of each job execution: claims all work items, then reports them from a random one on."""
        for member in self.members:
            if member.is_under_way():
                member.work = self.script.claim()
        first = self.dice.below(WIDTH)
        for turn in range(WIDTH):
            member = self.members[(first + 5 * turn) % WIDTH]
            if member.is_under_way():
                self.report(member)
            self.ask_some()

    def run(self, size: int) -> str:
        while len(self.script.lines) < size:
            for member in self.members:
                self.begin(member)
            for _ in NIGHTLY_STEPS:
                self.round()
        return self.script.text()


def nights(dice: Dice, size: int) -> str:
    """Nights with few queries."""
    return Nights(dice, 10).run(size)


def consoles(dice: Dice, size: int) -> str:
    """Nights in which seven lines of ten are queries."""
    return Nights(dice, 87).run(size)


# A job of one step and a job of two.
BACKLOG: list[Json] = [
    {"id": "job-0", "elements": [step("only", "only")]},
    {"id": "job-1", "elements": [step("first", "first", next="second"), step("second", "second")]},
]


@dataclass
class Busy:
    """A claimed work item, and whether another step follows its step."""

    work: int
    goes_on: bool


def backlog(dice: Dice, size: int) -> str:
    """Job executions that are all started before the first claim, and then reports in any order."""
    script = Script(BACKLOG)

    def start() -> bool:
        job = dice.below(2)
        script.start(f"job-{job}")
        return job == 1

    pairs = [start() for _ in range(size // 5)]
    busy = [Busy(script.claim(), goes_on) for goes_on in pairs]
    while busy:
        one = busy[dice.below(len(busy))]
        if len(script.lines) >= size:
            break
        script.finish(one.work)
        one.goes_on = False if one.goes_on else start()
        one.work = script.claim()
    return script.text()


def steps(prefix: str, number: int, count: int, then: str = "") -> list[Json]:
    """A list of steps, whose last one goes on with the element `then`, if that is not empty."""
    ids = [f"{prefix}{number}-{place}" for place in range(count)]
    found: list[Json] = []
    for id_, follows in zip(ids, [*ids[1:], then]):
        found.append(step(id_, "ok") | ({"next": follows} if follows else {}))
    return found


def flows(first: int, count: int, length: int) -> list[Json]:
    """Flows of a split, numbered from `first`, each of `length` steps."""
    numbers = range(first, first + count)
    return [{"kind": "flow", "id": f"v{number}-0", "elements": steps("y", number, length)} for number in numbers]


def nested(level: int) -> list[Json]:
    """A list in a flow in the middle of a list, down to the sixteenth level."""
    if level == 15:
        return steps("c", 0, 60)
    flow: Json = {"kind": "flow", "id": f"f{level}-0", "next": f"b{level}-0", "elements": nested(level + 1)}
    return [*steps("a", level, 30, f"f{level}-0"), flow, *steps("b", level, 30)]


def wide() -> list[Json]:
    """A split of 60 flows, and a list after it."""
    return [{"kind": "split", "id": "w0-0", "next": "x0-0", "flows": flows(0, 60, 15)}, *steps("x", 0, 39)]


def grid() -> list[Json]:
    """A split of 16 flows, each of which has a split of 14 flows."""
    outer: list[Json] = []
    for number in range(16):
        inner: Json = {"kind": "split", "id": f"s{number}-0", "flows": flows(14 * number, 14, 3)}
        elements = [*steps("h", number, 1, f"s{number}-0"), inner]
        outer.append({"kind": "flow", "id": f"g{number}-0", "elements": elements})
    return [{"kind": "split", "id": "w0-0", "flows": outer}]


@dataclass(frozen=True)
class Stage:
    """A part of a job: lists that run at a time, each of `steps` steps."""

    tracks: int
    steps: int


# The jobs of about a thousand elements, each with the stages that it runs in order.
DEEP: list[tuple[list[Json], tuple[Stage, ...]]] = [
    (steps("l", 0, 1_000), (Stage(1, 1_000),)),
    (nested(0), (Stage(1, 960),)),
    (wide(), (Stage(60, 15), Stage(1, 39))),
    ([{"kind": "split", "id": "w0-0", "flows": flows(0, 249, 3)}], (Stage(249, 3),)),
    (grid(), (Stage(16, 1), Stage(224, 3))),
]


def run_stage(script: Script, dice: Dice, stage: Stage) -> None:
    """Runs all lists of a stage to their ends, in an order drawn by chance."""
    tracks = [[script.claim(), stage.steps] for _ in range(stage.tracks)]
    while tracks:
        place = dice.below(len(tracks))
        track = tracks[place]
        script.finish(track[0])
        track[1] -= 1
        if track[1] > 0:
            track[0] = script.claim()
        else:
            tracks[place] = tracks[-1]
            tracks.pop()


def deep(dice: Dice, size: int) -> str:
    """Jobs of about a thousand elements, one after another."""
    script = Script([{"id": f"deep-{number}", "elements": elements} for number, (elements, _) in enumerate(DEEP)])
    number = dice.below(len(DEEP))
    while len(script.lines) < size:
        script.start(f"deep-{number}")
        for stage in DEEP[number][1]:
            run_stage(script, dice, stage)
        number = (number + 1) % len(DEEP)
    return script.text()


def run_steps(script: Script, count: int) -> None:
    """Runs as many steps to their ends."""
    for _ in range(count):
        script.finish(script.claim())


def restarts(dice: Dice, size: int) -> str:
    """Jobs of twenty steps, one after another. One step of each tenth job fails, and the job is restarted from it."""
    length, jobs = 20, 10
    script = Script([{"id": f"long-{job}", "elements": steps("l", job, length)} for job in range(jobs)])
    while len(script.lines) < size:
        job = script.instances % jobs
        execution = script.start(f"long-{job}")
        done = dice.below(length) if job == 0 else length
        run_steps(script, done)
        if done < length:
            script.finish(script.claim(), "FAILED")
            script.restart(execution)
            run_steps(script, length - done)
    return script.text()


def chunk(id_: str, items: int, item_count: int, **others: object) -> Json:
    """A step that counts items and drops them."""
    reader = {"ref": f"count:{items}"}
    processor = {"processor": {"ref": others.pop("processor")}} if "processor" in others else {}
    return {
        "kind": "step",
        "id": id_,
        **others,
        "chunk": {"reader": reader, **processor, "writer": {"ref": "sink"}, "item-count": item_count},
    }


def pool_job(dice: Dice, number: int) -> Json:
    """A job of a chunk that filters items, a split with a partitioned step, and a last step."""
    load = chunk("load", 200 + dice.below(50), 10, next="both", processor="odd")
    left = [chunk("copy", 10 + dice.below(20), 5, partitions=3)]
    right = [step("check", "ok", next="sign"), step("sign", "ok")]
    both: Json = {
        "kind": "split",
        "id": "both",
        "next": "end",
        "flows": [
            {"kind": "flow", "id": "left", "elements": left},
            {"kind": "flow", "id": "right", "elements": right},
        ],
    }
    end = step("end", "fail" if dice.percent(20) else "exit:sent")
    return {"id": f"run-{number}", "elements": [load, both, end]}


def pool(dice: Dice, size: int) -> str:
    """The input of a run: a catalogue of eight jobs, and `size` lines that start them."""
    catalogue = {"jobs": [pool_job(dice, number) for number in range(8)]}
    starts = "".join(f'{{"job":"run-{dice.below(8)}"}}\n' for _ in range(size))
    return json.dumps(catalogue, separators=(",", ":")) + "\n" + starts


def opened(dice: Dice, size: int) -> str:
    """The catalogue of `nights`, and a query about all its job executions."""
    script = Script([])
    script.lines = nights(dice, size).splitlines()[:1]
    script.ask("status_counts")
    return script.text()


# The first job is started, fails, is restarted, is under way and is abandoned. The last one is never started.
REFUSED_JOBS: list[Json] = [
    {
        "id": "nightly",
        "elements": [
            {
                "kind": "step",
                "id": "load",
                "next": "report",
                "chunk": {"item-count": 100, "reader": {"ref": "rows"}, "writer": {"ref": "table"}},
            },
            step("report", "mail"),
        ],
    },
    {"id": "calendar", "elements": [{"kind": "decision", "id": "day", "ref": "day-of-week"}]},
    {"id": "payroll", "elements": [step("pay", "pay")]},
]
# A text that is a byte too long, and a parameter too many.
LONG = 257 * "x"
PARAMETERS = ",".join(f'"k{number:02}":"v"' for number in range(65))
# The lines of each refusal, after `begin_refused`. `$at` is the moment, `$by` that and a session that claimed nothing, and
# `$new` a number that nothing has.
REFUSED: dict[str, tuple[str, ...]] = {
    "BadLine": (
        "start nightly",
        "[]",
        '{"do":"claim",$by',
        '{"do":"claim",$by}}',
        '{"do":"claim","by":2}',
        '{"do":"claim","by":0,$at}',
        '{"do":"claim","by":2,"at":1.5}',
        '{"do":"claim","by":18446744073709551616,$at}',
        '{"do":"begin",$by,"job":"nightly"}',
        '{"do":[' + 60 * "[0]," + "[0]],$by}",
        '{"do":"start",$by,"job":"nightly","parameters":{"day":"20240101","region":1}}',
        '{"do":"checkpoint",$by,"work":4,"data":"row 100","metrics":{"READ_COUNT":100,"WRITE_COUNT":4294967296}}',
        '{"do":"finish",$by,"work":4,"outcome":"COMPLETED","exit":null}',
        '{"do":"finish",$by,"work":4,"outcome":"STARTED"}',
        '{"ask":"job_names","job":"nightly"}',
        '{"ask":"job_execution","execution":-1}',
    ),
    "TextTooLong": (
        f'{{"do":"start",$by,"job":"{LONG}"}}',
        f'{{"do":"start",$by,"job":"nightly","parameters":{{{PARAMETERS}}}}}',
        f'{{"do":"finish",$by,"work":4,"outcome":"COMPLETED","exit":"{LONG}"}}',
        f'{{"ask":"running_executions","job":"{LONG}"}}',
    ),
    "JobStartException": (
        '{"do":"start",$by,"job":"job-$new"}',
        '{"do":"start",$by,"job":"night","parameters":{"day":"$new"}}',
    ),
    "NoSuchJobException": (
        '{"ask":"job_instance_count","job":"payroll"}',
        '{"ask":"job_instances","job":"payroll","start":0,"count":10}',
        '{"ask":"running_executions","job":"job-$new"}',
    ),
    "NoSuchJobInstanceException": ('{"do":"purge",$by,"instance":$new}', '{"ask":"job_executions","instance":$new}'),
    "NoSuchJobExecutionException": (
        '{"do":"restart",$by,"execution":$new,"parameters":{"day":"20240101"}}',
        '{"do":"stop",$by,"execution":$new}',
        '{"do":"abandon",$by,"execution":$new}',
        '{"ask":"job_execution","execution":$new}',
        '{"ask":"step_executions","execution":$new}',
    ),
    "JobExecutionNotRunningException": ('{"do":"stop",$by,"execution":1}', '{"do":"stop",$by,"execution":6}'),
    "JobExecutionIsRunningException": ('{"do":"abandon",$by,"execution":3}', '{"do":"purge",$by,"instance":3}'),
    "JobExecutionAlreadyCompleteException": ('{"do":"restart",$by,"execution":2}',),
    "JobExecutionNotMostRecentException": ('{"do":"restart",$by,"execution":1}',),
    "JobRestartException": ('{"do":"restart",$by,"execution":4}', '{"do":"restart",$by,"execution":6}'),
    "NoSuchWork": (
        '{"do":"checkpoint",$by,"work":$new,"data":"row $new"}',
        '{"do":"finish",$by,"work":$new,"outcome":"COMPLETED"}',
        '{"do":"lose",$by,"work":$new}',
    ),
    "WorkNotRunning": (
        '{"do":"checkpoint",$by,"work":1,"data":"row $new"}',
        '{"do":"finish",$by,"work":3,"outcome":"FAILED","exit":"late"}',
        '{"do":"lose",$by,"work":8}',
    ),
    "NotClaimer": (
        f'{{"do":"checkpoint",$by,"work":4,"data":"row $new","metrics":{METRICS}}}',
        '{"do":"finish",$by,"work":6,"outcome":"COMPLETED"}',
    ),
    "NotStopping": (
        '{"do":"finish","by":5,$at,"work":4,"outcome":"STOPPED"}',
        '{"do":"finish","by":7,$at,"work":6,"outcome":"STOPPED"}',
    ),
    "WrongOutcome": (
        '{"do":"checkpoint","by":7,$at,"work":6,"data":"row $new"}',
        '{"do":"finish","by":8,$at,"work":7,"outcome":"STOPPED"}',
    ),
}


def begin_refused(script: Script) -> None:
    """Makes six job executions: 1 is FAILED, 2 is its restart and COMPLETED, 3 to 5 are STARTED, and 6 is ABANDONED. Work items
    4, 6 and 7 are busy: a chunk of session 5, a batchlet of session 7 and a decision of session 8."""
    script.start("nightly")
    script.finish(script.claim(), "FAILED")
    script.restart(1)
    script.finish(script.claim())
    script.finish(script.claim())
    script.start("nightly")
    script.claim()
    script.start("nightly")
    script.finish(script.claim())
    script.claim()
    script.start("calendar")
    script.claim()
    script.start("nightly")
    script.finish(script.claim(), "FAILED")
    script.call("abandon", 1, ',"execution":6')


def refused(dice: Dice, size: int) -> str:
    """Lines that are refused, in a repository of six job executions."""
    script = Script(REFUSED_JOBS)
    begin_refused(script)
    bad_lines, *others = REFUSED.values()
    while len(script.lines) < size:
        lines = bad_lines if dice.percent(50) else others[dice.below(len(others))]
        line = Template(lines[dice.below(len(lines))])
        script.at += 7
        moment = f'"at":{script.at}'
        session = f'"by":{SESSIONS + 1 + dice.below(SESSIONS)},{moment}'
        script.lines.append(line.substitute(at=moment, by=session, new=1_000 + dice.below(1_000_000)))
    return script.text()


WORKLOADS: dict[str, Callable[[Dice, int], str]] = {
    "nights": nights,
    "consoles": consoles,
    "backlog": backlog,
    "deep": deep,
    "restarts": restarts,
    "pool": pool,
    "logged": nights,
    "opened": opened,
    "refused": refused,
}


def input_of(name: str, seed: int, size: int) -> bytes:
    """The input of a workload."""
    return WORKLOADS[name](Dice(seed), size).encode()


def program_of(checkout: Path) -> Path:
    """The program that a checkout has built."""
    return checkout / "crates" / "batchctl" / "out" / "batchctl"


def command(checkout: Path, name: str, log: Path) -> list[str]:
    """How a checkout's program runs a workload, `logged` and `opened` over this log. It has the input as its standard input."""
    over_log = ["script", "--log", str(log)]
    words = {"pool": ["run", "--workers", "2"], "logged": over_log, "opened": over_log}.get(name, ["script"])
    return [str(program_of(checkout)), *words]


if __name__ == "__main__":
    if len(sys.argv) != 4 or sys.argv[1] not in WORKLOADS:
        sys.exit(__doc__)
    sys.stdout.buffer.write(input_of(sys.argv[1], int(sys.argv[2]), int(sys.argv[3])))
