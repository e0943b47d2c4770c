#!/usr/bin/python3 -S
"""A stand-in for `batchctl script --log FILE --tags --compact`, for tests of what the service makes of a log with a base.

Its `check` takes each catalogue. Its state is the rows of a base alone. It knows steps one after the other, partitions, chunks,
and decisions that lead nowhere else; parallel parts and transitions it doesn't know. The checks of its records are zeros. A
file FILE.fault lets a compaction fail, or last: it has the word `refuse`, `forget`, `die-before`, `die-after` or `wait`, and
seconds or none.
"""

from __future__ import annotations

import fcntl
import json
import os
import sys
import time
from collections.abc import Iterator
from pathlib import Path
from typing import Any, BinaryIO

HEADER = b"bctlog2\n"
UNFINISHED = ("STARTING", "STARTED", "STOPPING")
USAGE = "script [--log FILE] [--tags] [--compact]"
Told = dict[str, Any]


def written(told: Told) -> bytes:
    return json.dumps(told, separators=(",", ":"), sort_keys=True).encode()


def refused(name: str) -> Told:
    return {"refused": name}


def record(mark: bytes, line: bytes) -> bytes:
    return b"111 %b %08x %08x" % (mark, len(line), len(line)) + 3 * b" 00000000" + b" " + line + b"\n"


class Repository:
    """Rows, as a base has them, and the last numbers."""

    def __init__(self) -> None:
        self.jobs: dict[str, Told] = {}
        self.count = 0
        self.last = {"execution": 0, "instance": 0, "work": 0}
        self.executions: dict[int, Told] = {}
        self.works: dict[int, Told] = {}
        self.checkpoints: dict[tuple[int, str, int], str] = {}

    def next(self, kind: str) -> int:
        self.last[kind] += 1
        return self.last[kind]

    # ---- Rows

    def element(self, row: Told, name: str) -> Told:
        elements = self.jobs[row["job"]]["elements"]
        return next(one for one in elements if one["id"] == name)

    def works_of(self, execution: int, element: str | None = None) -> list[Told]:
        return [one for one in self.works.values() if one["execution"] == execution and element in (None, one["element"])]

    def place(self, row: Told) -> tuple[Told, list[Any], list[Told]] | None:
        """The element that a job execution has come to, the partitions that weren't claimed, and its work items."""
        name: str | None = row["plan"]["from"]
        while name is not None:
            element = self.element(row, name)
            works = self.works_of(row["execution"], name)
            kept = {one["partition"] for one in row["plan"].get("kept", ()) if one["step"] == name}
            parts = range(element["partitions"]) if "partitions" in element else [None]
            left = [one for one in parts if one not in kept and one not in {work.get("partition") for work in works}]
            if left or any(work.get("outcome") != "COMPLETED" for work in works):
                return element, left, works
            name = element.get("next")
        return None

    def of_instance(self, instance: int) -> list[Told]:
        return [one for one in self.executions.values() if one["instance"] == instance]

    @staticmethod
    def status(row: Told) -> str:
        if row.get("abandoned"):
            return "ABANDONED"
        return "STOPPING" if row.get("stop") and row["status"] in UNFINISHED else str(row["status"])

    # ---- Commands

    def make(self, line: Told, job: str, instance: int, plan: Told) -> Told:
        at, number = line["at"], self.next("execution")
        row = {"execution": number, "instance": instance, "job": job, "status": "STARTING", "create": at, "updated": at}
        more = {"parameters": line["parameters"]} if line.get("parameters") else {}
        self.executions[number] = {**row, **more, "plan": plan}
        return {"execution": number}

    def start(self, line: Told) -> Told:
        if line["job"] not in self.jobs:
            return refused("JobStartException")
        first = self.jobs[line["job"]]["elements"][0]["id"]
        return self.make(line, line["job"], self.next("instance"), {"from": first})

    def restart(self, line: Told) -> Told:
        row = self.executions.get(line["execution"])
        if row is None:
            return refused("NoSuchJobExecutionException")
        if self.of_instance(row["instance"])[-1] is not row:
            return refused("JobExecutionNotMostRecentException")
        if row["status"] not in ("FAILED", "STOPPED") or row.get("abandoned"):
            return refused("JobRestartException")
        come_to = self.place(row)
        assert come_to is not None
        element, _, works = come_to
        done = [one["partition"] for one in works if one.get("outcome") == "COMPLETED" and "partition" in one]
        kept = [{"partition": one, "step": element["id"]} for one in done] + row["plan"].get("kept", [])
        plan = {"from": element["id"], **({"kept": kept} if kept else {})}
        return self.make(line, row["job"], row["instance"], plan)

    def stop(self, line: Told) -> Told:
        row = self.executions.get(line["execution"])
        if row is None:
            return refused("NoSuchJobExecutionException")
        if row["status"] not in UNFINISHED:
            return refused("JobExecutionNotRunningException")
        row.update(stop=True, updated=line["at"])
        self.settle(row, line["at"])
        return {"done": True}

    def abandon(self, line: Told) -> Told:
        row = self.executions.get(line["execution"])
        if row is None:
            return refused("NoSuchJobExecutionException")
        if row["status"] in UNFINISHED:
            return refused("JobExecutionIsRunningException")
        row.update(abandoned=True, updated=line["at"])
        return {"done": True}

    def purge(self, line: Told) -> Told:
        rows = self.of_instance(line["instance"])
        if not rows:
            return refused("NoSuchJobInstanceException")
        if any(row["status"] in UNFINISHED for row in rows):
            return refused("JobExecutionIsRunningException")
        for row in rows:
            del self.executions[row["execution"]]
        self.works = {number: one for number, one in self.works.items() if one["execution"] in self.executions}
        self.checkpoints = {key: mark for key, mark in self.checkpoints.items() if key[0] != line["instance"]}
        return {"done": True}

    def claim(self, line: Told) -> Told:
        for row in self.executions.values():
            come_to = self.place(row) if row["status"] in UNFINISHED and not row.get("stop") else None
            if come_to is not None and come_to[1]:
                return {"work": self.claimed(line, row, come_to[0], come_to[1][0])}
        return {"nothing": True}

    def claimed(self, line: Told, row: Told, element: Told, partition: int | None) -> Told:
        at, number = line["at"], self.next("work")
        kind = "decision" if element["kind"] == "decision" else "chunk" if "chunk" in element else "batchlet"
        of = {} if partition is None else {"partition": partition}
        work = {"work": number, "execution": row["execution"], "element": element["id"], "kind": kind, **of}
        self.works[number] = {**work, "claimer": line["by"], "start": at}
        row.update(status="STARTED", updated=at, start=row.get("start", at))
        if kind == "chunk":
            mark = self.checkpoints.get((row["instance"], element["id"], partition or 0))
            chunk = {name: value["ref"] if "ref" in value else value for name, value in element["chunk"].items() if value != 2}
            return {**work, "processor": None, **chunk, "item-count": element["chunk"]["item-count"], "checkpoint": mark}
        return {**work, "ref": element["ref"] if kind == "decision" else element["batchlet"]["ref"]}

    def held(self, line: Told) -> Told:
        """The busy work item of a report, or its refusal."""
        work = self.works.get(line["work"])
        if work is None:
            return refused("NoSuchWork")
        if "outcome" in work:
            return refused("WorkNotRunning")
        return work if line["do"] == "lose" or work["claimer"] == line["by"] else refused("NotClaimer")

    def checkpoint(self, line: Told) -> Told:
        work = self.held(line)
        if "refused" in work:
            return work
        row = self.executions[work["execution"]]
        row["updated"] = line["at"]
        self.checkpoints[row["instance"], work["element"], work.get("partition", 0)] = line["data"]
        return {"stop": True} if row.get("stop") else {"go": True}

    def finish(self, line: Told) -> Told:
        work = self.held(line)
        if "refused" in work:
            return work
        row, outcome = self.executions[work["execution"]], line.get("outcome", "FAILED")
        if outcome == "STOPPED" and not row.get("stop"):
            return refused("NotStopping")
        work.update(outcome=outcome, exit=line.get("exit") or outcome, end=line["at"], ended=self.count + 1)
        row["updated"] = line["at"]
        self.settle(row, line["at"])
        return {"done": True}

    lose = finish

    def settle(self, row: Told, at: int) -> None:
        """Ends a job execution of which nothing is busy, and nothing may come."""
        come_to = self.place(row)
        outcomes = [one.get("outcome") for one in (come_to[2] if come_to else [])]
        if None in outcomes:
            return
        wrong = "FAILED" if "FAILED" in outcomes else "STOPPED" if "STOPPED" in outcomes or row.get("stop") else None
        status = wrong or (None if come_to else "COMPLETED")
        if status is not None:
            row.update(status=status, exit=status, end=at)

    # ---- Queries

    def shown(self, row: Told) -> Told:
        names = ("execution", "instance", "job", "exit", "create", "start", "end", "updated")
        return {**{name: row.get(name) for name in names}, "status": self.status(row)}

    def steps(self, execution: int) -> list[Told]:
        row, steps = self.executions[execution], list[Told]()
        for name in dict.fromkeys(one["element"] for one in self.works_of(execution) if one["kind"] != "decision"):
            works = self.works_of(execution, name)
            outcomes = [one.get("outcome") for one in works]
            come_to = self.place(row)
            is_open = None in outcomes or (
                come_to is not None and come_to[0]["id"] == name and come_to[1] and "FAILED" not in outcomes
            )
            status = "STARTED" if is_open else "FAILED" if "FAILED" in outcomes else str(outcomes[-1])
            told = {"work": works[0]["work"], "execution": execution, "step": name, "status": status, "metrics": {}}
            end = None if is_open else works[-1]["end"]
            steps.append({**told, "exit": None if is_open else works[-1]["exit"], "start": works[0]["start"], "end": end})
        return steps

    def ask_of_execution(self, line: Told) -> Told:
        row = self.executions.get(line["execution"])
        if row is None:
            return refused("NoSuchJobExecutionException")
        if line["ask"] == "parameters":
            return {"parameters": row.get("parameters", {})}
        if line["ask"] == "job_instance":
            return {"instance": row["instance"], "job": row["job"]}
        if line["ask"] == "step_executions":
            return {"step_executions": self.steps(line["execution"])}
        return {"job_execution": self.shown(row)}

    def ask_of_job(self, line: Told) -> Told:
        rows = [one for one in self.executions.values() if one["job"] == line["job"]]
        if not rows:
            return refused("NoSuchJobException")
        instances = sorted({row["instance"] for row in rows}, reverse=True)
        if line["ask"] == "job_instance_count":
            return {"count": len(instances)}
        if line["ask"] == "running_executions":
            return {"running": [row["execution"] for row in rows if row["status"] in UNFINISHED]}
        page = instances[line["start"] : line["start"] + line["count"]]
        return {"instances": [{"instance": one, "job": line["job"]} for one in page]}

    def ask(self, line: Told) -> Told:
        if line["ask"] == "status_counts":
            statuses = [self.status(row) for row in self.executions.values()]
            return {"counts": {one: statuses.count(one) for one in statuses}}
        if line["ask"] == "job_names":
            return {"names": list(dict.fromkeys(row["job"] for row in self.executions.values()))}
        if "job" in line:
            return self.ask_of_job(line)
        if "execution" in line:
            return self.ask_of_execution(line)
        rows = self.of_instance(line["instance"])
        told = [self.shown(row) for row in reversed(rows)]
        return {"job_executions": told} if rows else refused("NoSuchJobInstanceException")

    def reply(self, line: Told) -> Told:
        if "ask" in line:
            return self.ask(line)
        told: Told = getattr(self, line["do"])(line)
        self.count += not told.keys() & {"refused", "nothing"}
        return told

    # ---- The base

    def base(self) -> Iterator[Told]:
        marks = [dict(zip(("instance", "step", "partition", "mark"), (*key, mark))) for key, mark in self.checkpoints.items()]
        rows = [*self.executions.values(), *self.works.values(), *marks]
        yield {"base": {"count": self.count, **self.last, "rows": len(rows)}}
        yield from rows

    def restore(self, row: Told) -> None:
        if "base" in row:
            self.last = {name: row["base"][name] for name in self.last}
            self.count = row["base"]["count"]
        elif "work" in row:
            self.works[row["work"]] = row
        elif "mark" in row:
            self.checkpoints[row["instance"], row["step"], row["partition"]] = row["mark"]
        else:
            self.executions[row["execution"]] = row


class Log:
    """The file, locked. What stands behind its first shut gate is cut off."""

    def __init__(self, path: Path) -> None:
        self.path = path
        self.file = self.locked(path)
        self.first: bytes | None = None
        self.last: bytes = b""

    @staticmethod
    def locked(path: Path) -> BinaryIO:
        file = path.open("ab+", buffering=0)
        fcntl.flock(file, fcntl.LOCK_EX | fcntl.LOCK_NB)
        return file

    def restore(self, repository: Repository) -> None:
        self.file.seek(0)
        read = self.file.read(len(HEADER))
        end = len(read)
        for text in self.file.read().splitlines(keepends=True):
            if not text.startswith(b"111") or not text.endswith(b"\n"):
                break
            end += len(text)
            self.restore_record(repository, text[4:5], text[51:-1])
        self.file.truncate(end)

    def fault_in(self) -> Told | None:
        """The fault of a file whose rows aren't those that its base's head counts."""
        texts = self.path.read_bytes()[len(HEADER) :].splitlines(keepends=True)
        based = [(place, text) for place, text in enumerate(texts) if text[4:5] == b"b"]
        for place, text in based:
            if not text.endswith(b"\n") or int(text[6:14], 16) != len(text[51:-1]):
                return {"fault": "LogDamaged", "record": place}
        if based and json.loads(based[0][1][51:])["base"]["rows"] != len(based) - 1:
            return {"fault": "LogBadBase", "record": based[-1][0] + 1}
        return None

    def other_job(self, repository: Repository, catalogue: bytes, words: list[str]) -> int | None:
        """The first job of the log's that keeps it from another catalogue. A compaction lets those go that aren't used."""
        kept, given = list(repository.jobs.values()), json.loads(catalogue)["jobs"]
        if given[: len(kept)] == kept:
            return None
        first = next(place for place, job in enumerate(kept) if given[place : place + 1] != [job])
        if "--compact" not in words or self.fault()[0] == "refuse":
            return first
        used = {row["job"] for row in repository.executions.values()}
        return next((place for place, job in enumerate(kept) if job["id"] in used and job not in given), None)

    def restore_record(self, repository: Repository, mark: bytes, line: bytes) -> None:
        if mark == b"c":
            self.last = line
            repository.jobs = {job["id"]: job for job in json.loads(line)["jobs"]}
        elif mark == b"b":
            repository.restore(json.loads(line))
        else:
            repository.reply(json.loads(line[line.index(b"{") :]))

    def begin(self, catalogue: bytes) -> None:
        """Keeps a catalogue that isn't the last one."""
        if not self.last:
            self.file.write(HEADER)
        if catalogue != self.last:
            self.file.write(record(b"c", catalogue))

    def add(self, line: bytes) -> None:
        self.file.write(record(b"o", line))
        os.fsync(self.file.fileno())

    def fault(self) -> list[str]:
        path = self.path.with_name(self.path.name + ".fault")
        return (path.read_text() if path.exists() else "").split() or [""]

    def compact(self, repository: Repository, catalogue: bytes) -> None:
        word, *more = self.fault()
        if word == "refuse":
            print("batchctl: the log is not compacted: memory is refused", file=sys.stderr, flush=True)
            return
        time.sleep(float(more[0]) if more else 0.0)
        if word == "die-before":
            sys.exit(9)
        if word == "forget":
            repository.executions.popitem()
        new = self.locked(self.path.with_name(self.path.name + ".new"))
        new.write(HEADER + record(b"c", catalogue) + b"".join(record(b"b", written(row)) for row in repository.base()))
        Path(new.name).rename(self.path)
        self.file = new
        if word == "die-after":
            sys.exit(9)


def answer(repository: Repository, log: Log | None, text: bytes) -> bytes:
    line = text if text.startswith(b"{") else text.partition(b"\t")[2]
    told = repository.reply(json.loads(line))
    if log is not None and b'{"ask"' not in line and not told.keys() & {"refused", "nothing"}:
        log.add(text)
    return written(told) + b"\n"


def main() -> int:
    words, out = sys.argv[1:], sys.stdout.buffer
    if "--help" in words:
        print(USAGE)
        return 0
    catalogue, repository, log = sys.stdin.buffer.readline().rstrip(b"\n"), Repository(), None
    if words == ["check"]:
        out.write(written({"jobs": len(json.loads(catalogue)["jobs"])}) + b"\n")
        return 0
    if "--log" in words:
        try:
            log = Log(Path(words[words.index("--log") + 1]))
        except BlockingIOError:
            out.write(b'{"fault":"LogInUse"}\n')
            return 7
        fault = log.fault_in()
        if fault is not None:
            out.write(written(fault) + b"\n")
            return 7
        log.restore(repository)
        job = log.other_job(repository, catalogue, words)
        if job is not None:
            out.write(written({"fault": "LogOtherCatalogue", "job": job}) + b"\n")
            return 7
        log.begin(catalogue)
    repository.jobs = {job["id"]: job for job in json.loads(catalogue)["jobs"]}
    if log is not None and "--compact" in words and repository.count:
        log.compact(repository, catalogue)
    for text in sys.stdin.buffer:
        out.write(answer(repository, log, text.rstrip(b"\n")))
        out.flush()
    return 0


if __name__ == "__main__":
    sys.exit(main())
