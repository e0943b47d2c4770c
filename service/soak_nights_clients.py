"""The clients of nights that are pressed: they start, work, restart and ask again, each call by its key until an answer."""

from __future__ import annotations

import asyncio
import random
import sys
import uuid
from pathlib import Path
from typing import Any

sys.path.insert(0, str(Path(__file__).resolve().parent))
sys.path.insert(0, str(Path(__file__).resolve().parent / "tests"))

from instances import Answer, Caller  # noqa: E402
from soak import SoakClient  # noqa: E402
from soak_check import Acknowledged, Read, Seen, Wrong  # noqa: E402
from soak_nights_parts import NightParts  # noqa: E402

GROUPS = 6
# Each fourth job execution is of a chunk.
CHUNKS = 4
# Request keys are known for seven days.
NIGHTS_OF_KEYS = 5
PAGE = 1_000
MEND_SECONDS = 0.3
# How often a starter reads, and how often a client asks a call again.
READS, AGAIN = 0.3, 0.05
WAIT = {"wait": 1.0}


class NightClient(SoakClient):
    """A client that goes on calling the instance that answered last."""

    def __init__(self, name: str, parts: NightParts, seen: Seen, chance: random.Random, ending: asyncio.Event) -> None:
        super().__init__(name, parts, seen, chance, ending)
        self._nights = parts
        self._url: str | None = None
        # How many calls it had made when each night began.
        self._made_before: list[int] = []

    def begin_night(self) -> None:
        """Forgets calls whose keys may soon be too old."""
        self._made_before.append(len(self._calls))
        if len(self._made_before) > NIGHTS_OF_KEYS:
            gone = self._made_before.pop(0)
            del self._calls[:gone]
            self._made_before = [count - gone for count in self._made_before]

    def _caller(self) -> Caller:
        self._url = self._url or self._chance.choice(self._nights.urls)
        return self._nights.caller(self._url, self._name, self._nights.answer_seconds)

    async def _ask(self, method: str, path: str, body: Any, key: str | None) -> Answer:
        try:
            answer = await super()._ask(method, path, body, key)
        except BaseException:
            self._url = None
            raise
        if answer.status == 503:
            self._url = None
        self._nights.note_told(answer.operations or 0)
        return answer

    async def get(self, path: str) -> Any:
        """What is told. It isn't compared."""
        answer = await self._until_answered("GET", path, None, None)
        if answer.status != 200:
            raise Wrong(f"{path} is answered {answer}")
        return answer.told

    async def get_all(self, path: str) -> Any:
        """What an instance tells that knows all that anybody was told. A follower may lag."""
        return await self.get(f"{path}{'&' if '?' in path else '?'}atLeast={self._nights.told}")

    async def items(self, execution: int) -> Any:
        """The work items of a job execution."""
        return await self.get_all(f"/batch/jobexecutions/{execution}/workitems?pageSize={PAGE}")


class Starter(NightClient):
    """Starts job executions, reads some, and asks some calls again."""

    async def night(self, count: int) -> None:
        for _ in range(count):
            await self.start()
            if self._chance.random() < READS:
                self._url = None
                await self._read()
            if self._chance.random() < AGAIN:
                await self._ask_again()

    async def start(self) -> None:
        """A start that has to be accepted."""
        night, parameters = self._nights.night, {"night": str(self._nights.night)}
        is_chunk = next(self._nights.places) % CHUNKS == CHUNKS - 1
        if is_chunk:
            parameters |= {"groups": str(GROUPS), "fails": str(self._chance.randint(1, GROUPS - 1))}
        job = "rows" if is_chunk else "five"
        body, members = {"jobName": job, "jobParameters": parameters}, {"job": job, "parameters": parameters}
        answer = await self._call("start", "POST", "/batch/jobinstances", body, members)
        if answer.status != 201:
            raise Wrong(f"a start of {job} is answered {answer}")
        self._known.append(answer.told["executionId"])
        self._nights.instances.setdefault(night, set()).add(answer.told["instanceId"])
        if is_chunk and night == 1:
            self._nights.kept_back.add(answer.told["instanceId"])


class OnceStarter(NightClient):
    """Starts a job once a night, and asks for that again while the job instance is kept. By its keys nobody else starts."""

    def __init__(self, *given: Any) -> None:
        super().__init__(*given)
        self._first: dict[int, Answer] = {}

    async def ask(self) -> int:
        """Returns how many earlier starts gave their first replies."""
        now = self._nights.night
        self._first = {night: answer for night, answer in self._first.items() if night > now - self._nights.kept}
        for night, first in self._first.items():
            answer = await self._start_once(night)
            if (answer.status, answer.told) != (first.status, first.told):
                raise Wrong(f"the start of night {night} that says once was answered {first}, and now {answer}")
        count = len(self._first)
        if now not in self._first:
            answer = self._first[now] = await self._start_once(now)
            self._seen.calls.append(acknowledged(self._name, f"night-{now}", "start", {"job": "five"}, answer))
            self._nights.instances.setdefault(now, set()).add(answer.told["instanceId"])
        return count

    async def _start_once(self, night: int) -> Answer:
        body = {"jobName": "five", "jobParameters": {"night": str(night)}}
        return await self._until_answered("POST", "/batch/jobinstances?once=true", body, f"night-{night}")


class Hand(NightClient):
    """A worker that is simulated: its artifacts only note that they ran."""

    async def run(self) -> None:
        while not self._ending.is_set():
            key = uuid.uuid4().hex
            answer = await self._until_answered("POST", "/batch/work", WAIT, key)
            if "work" in answer.told:
                self._seen.calls.append(acknowledged(self._name, key, "claim", {}, answer))
                self._calls.append(("POST", "/batch/work", WAIT, key, answer, 0))
                await self._do(answer.told)
            if self._chance.random() < AGAIN:
                await self._ask_again()

    async def _do(self, told: Any) -> None:
        work = told["work"]
        self._note("begun", work["work"])
        if work["kind"] == "chunk":
            await self._do_chunk(work, told["jobParameters"])
        else:
            self._note("ended", work["work"])
            await self._report(work["work"], "finish", {"outcome": "COMPLETED", "exit": "DONE"})

    async def _do_chunk(self, work: Any, parameters: Any) -> None:
        """Goes on at the checkpoint. If the group at which it fails is still to come, it fails there."""
        place, fails = int(work["checkpoint"] or 0), int(parameters["fails"])
        until, outcome = (fails, "FAILED") if place < fails else (int(parameters["groups"]), "COMPLETED")
        for group in range(place + 1, until + 1):
            if not await self._report(work["work"], "checkpoint", {"data": str(group)}):
                return
        await self._report(work["work"], "finish", {"outcome": outcome, "exit": f"behind {until}"})

    async def _report(self, work: int, action: str, body: dict[str, Any]) -> bool:
        """Whether it was accepted. It is refused if the lease ran out while nobody answered."""
        answer = await self._call(action, "PUT", f"/batch/work/{work}?action={action}", body, {"work": work, **body})
        if answer.status >= 400 and answer.name not in ("WorkNotRunning", "NoSuchWork"):
            raise Wrong(f"{action} of work item {work} is answered {answer}")
        return answer.status == 200

    def _note(self, name: str, work: int) -> None:
        with open(self._nights.artifacts / name, "a") as file:
            file.write(f"{work}\n")


class Mender(NightClient):
    """Restarts what is FAILED, but for the chunks of the first night that failed by themselves: until they may go on."""

    def __init__(self, *given: Any) -> None:
        super().__init__(*given)
        # Job executions of the first night that wait.
        self._waiting: set[int] = set()
        # Held by whoever restarts.
        self.turn = asyncio.Lock()

    async def run(self) -> None:
        while not self._ending.is_set():
            async with self.turn:
                await self.mend()
            await asyncio.sleep(MEND_SECONDS)

    async def mend(self) -> int:
        """Returns how many were to be restarted."""
        told = await self.get_all(f"/batch/jobexecutions?status=FAILED&mostRecent=true&pageSize={PAGE}")
        found = [one["executionId"] for one in told["jobExecutions"] if not await self._waits(one)]
        for execution in found:
            await self.restart(execution)
        return len(found)

    async def _waits(self, one: Any) -> bool:
        """Whether it waits for the end of the last night. One whose worker was lost doesn't: it may have no checkpoint."""
        if self._nights.night > 1 or one["jobName"] != "rows":
            return one["instanceId"] in self._nights.kept_back
        if one["executionId"] not in self._waiting:
            if (await self.items(one["executionId"]))[-1]["outcome"] == "LOST":
                return False
            self._waiting.add(one["executionId"])
        return True

    async def restart(self, execution: int) -> None:
        path = f"/batch/jobexecutions/{execution}?action=restart"
        await self._call("restart", "PUT", path, None, {"execution": execution})


class Reader(NightClient):
    """Reads from all instances in turn."""

    def _caller(self) -> Caller:
        self._url = None
        return super()._caller()

    async def read(self, execution: int) -> Read:
        """Reads a job execution, which is compared at the end."""
        await self._read_execution(execution)
        return self._seen.reads[-1]


def acknowledged(client: str, key: str, do: str, members: dict[str, Any], answer: Answer) -> Acknowledged:
    return Acknowledged(client, key, do, members, answer.status, answer.told, answer.operations or 0)
