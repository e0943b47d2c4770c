"""docs/SERVICE.md, "Each group once": its writer writes each group once, while its workers are killed."""

from __future__ import annotations

import asyncio
import json
import os
import random
import re
import signal
import subprocess
import sys
from collections.abc import Callable
from pathlib import Path
from typing import Any

import asyncpg
import pytest
from catalogue_samples import ROOT
from instances import Caller, running
from workers import end_of

from job_host.service.settings import ServeSettings

Make = Callable[..., ServeSettings]
KILLS, JOBS, ITEMS = 50, 4, 160

CHUNK = {"item-count": 2, "reader": {"ref": "numbers"}, "writer": {"ref": "table"}}
CATALOGUE = {"jobs": [{"id": "copy", "elements": [{"kind": "step", "id": "copy", "chunk": CHUNK}]}]}
# Reads ITEMS numbers from `first` on. Its checkpoint is the next number.
NUMBERS = f"""#!/usr/bin/python3
import json, os, sys
first = place = int(os.environ["BATCH_PARAMETER_first"])
for line in sys.stdin:
    told, answer = json.loads(line), {{}}
    if told["do"] == "open":
        place = int(told["checkpoint"] or first)
    elif told["do"] == "checkpoint":
        answer = {{"checkpoint": str(place)}}
    elif place < first + {ITEMS}:
        answer, place = {{"item": place}}, place + 1
    else:
        answer = {{"end": True}}
    print(json.dumps(answer), flush=True)
"""
# Tells of each commit of a group: the work item and the worker.
TELL_COMMITS = """
create function tell() returns trigger language plpgsql as $$ begin
    perform pg_notify('commits', new.work || ' ' || current_setting('application_name'));
    return new;
end $$;
create trigger tell after update on batch_mark for each row when (new.mark is distinct from old.mark) execute function tell();
"""


def blocks_of_page() -> tuple[str, str]:
    """The statements and the writer that the page shows."""
    page = (ROOT / "docs" / "SERVICE.md").read_text()
    found = re.search(r"psql \"\$DATABASE\" <<'END'\n(.*?)END\ncat > artifacts/table <<'END'\n(.*?)END\n", page, re.DOTALL)
    assert found is not None
    return found[1], found[2]


class Killer:
    """Runs job executions, and kills a worker soon after its writer has committed a group, again and again."""

    def __init__(self, url: str, folder: Path, dsn: str) -> None:
        self.caller = Caller(url)
        self._alive: set[int] = set()
        self._killed: asyncio.Queue[tuple[int, int]] = asyncio.Queue()
        self._random = random.Random(13)
        self._kills = 0
        words = [sys.executable, str(Path(__file__).with_name("worker_forks.py")), url, str(folder), dsn]
        self._forks = subprocess.Popen(words, stdin=subprocess.PIPE, stdout=subprocess.PIPE, text=True, bufsize=1)

    def hear_commit(self, _connection: Any, _server: int, _channel: str, told: Any) -> None:
        """Kills the worker at once, or in some milliseconds."""
        work, worker = map(int, str(told).split())
        if worker in self._alive and self._kills < KILLS:
            self._kills += 1
            self._alive.remove(worker)
            pause = self._random.choice((0, 0, 0, 0.002, 0.005))
            asyncio.get_running_loop().call_later(pause, self._kill, work, worker)

    def _kill(self, work: int, worker: int) -> None:
        os.kill(worker, signal.SIGKILL)
        self._killed.put_nowait((work, worker))

    async def run(self) -> list[dict[str, Any]]:
        """Each job instance's last job execution."""
        for job in range(JOBS):
            await self.caller.start("copy", first=str(1 + job * ITEMS))
            await self._begin_worker()
        for _ in range(KILLS):
            work, _ = await asyncio.wait_for(self._killed.get(), 60)
            await self._begin_worker()
            await self._restart(work)
        last = [(await self.executions(job))[0]["executionId"] for job in range(1, JOBS + 1)]
        return [await end_of(self.caller, execution) for execution in last]

    async def _begin_worker(self) -> None:
        assert self._forks.stdin is not None and self._forks.stdout is not None
        self._forks.stdin.write("one more\n")
        self._alive.add(int(await asyncio.to_thread(self._forks.stdout.readline)))

    async def _restart(self, work: int) -> None:
        """Gives up the work item of a worker that was killed, and restarts its job, if it isn't COMPLETED."""
        held = {one["work"]: one["executionId"] for one in (await self.caller.ask("GET", "/batch/work")).told}
        if (await self.caller.ask("PUT", f"/batch/work/{work}?action=lose")).status == 200:
            execution = (await self.caller.ask("GET", f"/batch/jobexecutions/{held[work]}")).told
            body = {"jobParameters": execution["jobParameters"]}
            await self.caller.ask("PUT", f"/batch/jobexecutions/{held[work]}?action=restart", body)

    async def executions(self, instance: int) -> list[dict[str, Any]]:
        """The job executions of a job instance, the newest first."""
        return list((await self.caller.ask("GET", f"/batch/jobinstances/{instance}/jobexecutions")).told)

    async def reported(self) -> int:
        """How many items the reports have as read."""
        numbers = [one["executionId"] for job in range(1, JOBS + 1) for one in await self.executions(job)]
        steps = [await self.caller.ask("GET", f"/batch/jobexecutions/{one}/stepexecutions") for one in numbers]
        return sum(answer.told[0]["metrics"].get("READ_COUNT", 0) for answer in steps if answer.told)

    def stop(self) -> None:
        for worker in self._alive:
            os.kill(worker, signal.SIGKILL)
        self._forks.kill()
        self._forks.communicate()


@pytest.fixture
def folder(tmp_path: Path) -> Path:
    """Artifacts: the reader of numbers, and the page's writer."""
    made = tmp_path / "artifacts"
    made.mkdir()
    for name, text in {"numbers": NUMBERS, "table": blocks_of_page()[1]}.items():
        (made / name).write_text(text)
        (made / name).chmod(0o755)
    return made


def answers(table: Path, dsn: str, *told: dict[str, Any]) -> list[Any]:
    """What the writer answers to these lines. If it ends before, the last one is what it says of that."""
    variables = {**os.environ, "DATABASE": dsn, "BATCH_INSTANCE": "1", "BATCH_STEP": "copy"}
    lines = "".join(json.dumps(one) + "\n" for one in told)
    done = subprocess.run([str(table)], input=lines, env=variables, capture_output=True, text=True, check=False)
    return [json.loads(line) for line in done.stdout.splitlines()] + done.stderr.splitlines()


async def test_the_writer_of_the_page_knows_its_run_and_its_work_item(dsn: str, folder: Path) -> None:
    database = await asyncpg.connect(dsn)
    await database.execute(blocks_of_page()[0])
    first: dict[str, Any] = {"do": "open", "checkpoint": None, "work": 1}
    group: dict[str, Any] = {"do": "write", "items": [1, 2], "work": 1, "group": 1, "checkpoint": "2"}
    later: dict[str, Any] = {"do": "open", "checkpoint": "0", "work": 2}

    async def ask(*lines: dict[str, Any]) -> list[Any]:
        return await asyncio.to_thread(answers, folder / "table", dsn, *lines)

    told = [await ask(first, group), await ask(later), await ask(later, group)]
    anew, late = await ask({**first, "work": 3}), await ask(later)
    written = [row["number"] for row in await database.fetch("select number from number order by number")]
    await database.close()
    over = "a later work item has taken over"
    assert told == [[{"checkpoint": None}, {}], [{"checkpoint": "2"}], [{"checkpoint": "2"}, over]]
    assert (anew, late, written) == ([{"checkpoint": None}], [over], [1, 2])


async def test_each_group_is_written_once_over_50_kills(settings: Make, dsn: str, folder: Path, tmp_path: Path) -> None:
    (tmp_path / "copy.json").write_text(json.dumps(CATALOGUE))
    database = await asyncpg.connect(dsn)
    await database.execute(blocks_of_page()[0] + TELL_COMMITS)
    async with running(settings(catalogue=tmp_path / "copy.json")) as instance:
        killer = Killer(instance.url, folder, dsn)
        await database.add_listener("commits", killer.hear_commit)
        try:
            ended = await killer.run()
            unreported = JOBS * ITEMS - await killer.reported()
        finally:
            killer.stop()
    written = [row["number"] for row in await database.fetch("select number from number order by number")]
    await database.close()
    assert [one["batchStatus"] for one in ended] == ["COMPLETED"] * JOBS
    assert written == list(range(1, JOBS * ITEMS + 1))
    assert unreported > 0, "no kill came between a commit and its report"
