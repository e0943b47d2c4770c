"""All that an artifact has started ends with it, and with its worker."""

from __future__ import annotations

import ast
import asyncio
import os
import signal
import subprocess
import sys
from pathlib import Path
from typing import Any

import psutil
import pytest
from instances import until

from job_host.worker.artifacts import Ended
from job_host.worker.chunks import Chunk
from job_host.worker.output import Tail
from job_host.worker.worker import Batchlet, Told

# A process in a session of its own, whose parents have ended. It takes no notice of SIGTERM.
HIDDEN = """
import os, signal, time
if os.fork() == 0:
    os.setsid()
    if os.fork() == 0:
        signal.signal(signal.SIGTERM, signal.SIG_IGN)
        with open(f"began-{os.getpid()}", "w"):
            pass
        time.sleep(60)
    os._exit(0)
os.wait()
"""
# Three processes beside the artifact: a child, a child that takes no notice of SIGTERM, and a hidden one.
LEAVES = """#!/bin/sh
(echo > began-$(sh -c 'echo $PPID'); exec sleep 60) &
(trap '' TERM; echo > began-$(sh -c 'echo $PPID'); exec sleep 60) &
python3 hidden.py
while [ "$(ls began-* | wc -l)" != 3 ]; do sleep 0.01; done
echo LEFT
"""
WAITS = LEAVES + "echo > began-$$\nsleep 60\n"
WORKER = """
import asyncio, sys
from pathlib import Path
sys.path[:0] = [sys.argv[1]]
from job_host.worker.output import Tail
from job_host.worker.worker import Batchlet, Told
claimed = {"work": {"work": 1, "execution": 1, "element": "only", "ref": "waits", "kind": "batchlet"}}
asyncio.run(Batchlet(Path(sys.argv[2]), claimed, Tail(), Told()).run())
"""


# A reader and a writer at their end, each with a process in a session of its own that keeps their outputs open.
PART = """#!/usr/bin/python3
import json, subprocess, sys
from pathlib import Path
Path(f"began-{subprocess.Popen(['sleep', '60'], start_new_session=True).pid}").touch()
for line in sys.stdin:
    answer = {"read": {"end": True}, "checkpoint": {"checkpoint": "0"}}.get(json.loads(line)["do"], {})
    print(json.dumps(answer), flush=True)
"""


def lives(process: int) -> bool:
    """Whether a process of these tests is there, and is no zombie."""
    try:
        return psutil.Process(process).status() not in (psutil.STATUS_ZOMBIE, psutil.STATUS_DEAD)
    except psutil.NoSuchProcess:
        return False


class Night:
    """A folder of artifacts, and what they have started."""

    def __init__(self, folder: Path) -> None:
        self.folder = folder
        self.tail = Tail()
        self.told = Told()
        (folder / "hidden.py").write_text(HIDDEN)

    def batchlet(self, text: str, name: str = "waits") -> Batchlet:
        (self.folder / name).write_text(text)
        (self.folder / name).chmod(0o755)
        work: dict[str, Any] = {"work": 1, "execution": 1, "element": "only", "ref": name, "kind": "batchlet"}
        return Batchlet(self.folder, {"work": work}, self.tail, self.told)

    def begun(self) -> list[int]:
        return [int(path.name.partition("-")[2]) for path in self.folder.glob("began-*")]

    async def until_begun(self, count: int) -> None:
        async def have_begun() -> bool:
            return len(self.begun()) == count

        await until(have_begun, 10)

    def alive(self) -> list[int]:
        return [process for process in self.begun() if lives(process)]

    async def have_ended(self) -> bool:
        return not self.alive()


@pytest.fixture
def night(tmp_path: Path) -> Any:
    made = Night(tmp_path)
    yield made
    for process in made.alive():
        os.kill(process, signal.SIGKILL)


async def test_a_worker_that_is_killed_takes_all_descendants_along(night: Night) -> None:
    night.batchlet(WAITS)
    files = night.folder / "temporary"
    files.mkdir()
    words = [sys.executable, "-c", WORKER, str(Path(__file__).resolve().parents[1]), str(night.folder)]
    with subprocess.Popen(words, env={**os.environ, "TMPDIR": str(files)}) as worker:
        await night.until_begun(4)
        assert len(night.alive()) == 4 and list(files.iterdir())
        worker.kill()
    await until(night.have_ended, 5)

    async def is_empty() -> bool:
        return not list(files.iterdir())

    await until(is_empty, 5)


async def test_an_artifact_that_is_lost_takes_all_descendants_along(night: Night) -> None:
    running = asyncio.create_task(night.batchlet(WAITS).run())
    await night.until_begun(4)
    running.cancel()
    with pytest.raises(asyncio.CancelledError):
        await running
    assert night.alive() == []


@pytest.mark.parametrize("delay", [0.0, 0.001, 0.005, 0.01, 0.02, 0.04, 0.08])
async def test_an_artifact_that_is_lost_while_it_starts_leaves_nothing(night: Night, delay: float) -> None:
    running = asyncio.create_task(night.batchlet("#!/bin/sh\n(setsid sleep 60 & echo > began-$!)\nsleep 60\n").run())
    await asyncio.sleep(delay)
    running.cancel()
    with pytest.raises(asyncio.CancelledError):
        await asyncio.wait_for(running, 8)
    assert night.alive() == []


async def test_what_an_artifact_leaves_behind_ends_before_its_end_is_told(night: Night) -> None:
    ended = await asyncio.wait_for(night.batchlet(LEAVES).run(), 4)
    assert (ended, len(night.begun()), night.alive()) == (Ended("COMPLETED", "LEFT"), 3, [])


async def test_orphans_that_end_meanwhile_are_no_end(night: Night) -> None:
    text = "#!/bin/sh\nfor _ in 1 2 3 4 5; do (sleep 0.01 &) ; done\nsleep 0.2\necho DONE\nexit 0\n"
    assert await night.batchlet(text).run() == Ended("COMPLETED", "DONE")


@pytest.mark.parametrize(
    ("line", "ended"),
    [
        ("exit 0", Ended("COMPLETED")),
        ("exit 255", Ended("FAILED", "255")),
        ("kill -9 $$", Ended("FAILED", "signal 9")),
        ("kill -15 $$", Ended("FAILED", "signal 15")),
        ("kill -11 $$", Ended("FAILED", "signal 11")),
        ("kill -40 $$", Ended("FAILED", "signal 40")),
    ],
)
async def test_how_it_ended_is_told_as_it_was(night: Night, line: str, ended: Ended) -> None:
    assert await night.batchlet(f"#!/bin/sh\n{line}\n").run() == ended


@pytest.mark.parametrize(
    ("text", "fault"),
    [("", "Exec format error"), ("#!/nowhere/sh\n", "No such file or directory"), ("#!/\n", "Permission denied")],
    ids=["empty", "no interpreter", "no file"],
)
async def test_what_cannot_be_executed_fails_and_says_why(night: Night, text: str, fault: str) -> None:
    assert await night.batchlet(text).run() == Ended("FAILED")
    assert fault in night.tail.text() and str(night.folder / "waits") in night.tail.text()


async def test_a_stop_reaches_the_group_by_sigterm(night: Night) -> None:
    (night.folder / "waits.stoppable").touch()
    text = "#!/bin/sh\ntrap 'echo BROKEN-OFF; exit 0' TERM\necho > began-$$\nwhile :; do sleep 0.02; done\n"
    running = asyncio.create_task(night.batchlet(text).run())
    await night.until_begun(1)
    night.told.stop.set()
    assert await asyncio.wait_for(running, 10) == Ended("STOPPED", "BROKEN-OFF")


async def test_an_artifact_whose_parent_is_killed_fails(night: Night) -> None:
    text = "#!/bin/sh\nsleep 60 &\necho > began-$!\necho > began-$$\nkill -9 $PPID\nsleep 60\n"
    ended = await asyncio.wait_for(night.batchlet(text).run(), 4)
    assert ended == Ended("FAILED", "signal 9") or "its supervisor has ended" in night.tail.text()
    assert len(night.begun()) == 2
    await until(night.have_ended, 5)


async def test_an_artifact_leads_its_session_and_has_no_more_than_its_own_descriptors(night: Night) -> None:
    text = "#!/bin/sh\nps -o sid= -p $$ | tr -d ' '\necho $$\nls -l /proc/$$/fd\nexec grep Sig /proc/self/status\n"
    assert (await night.batchlet(text).run()).outcome == "COMPLETED"
    session, process, *rest = night.tail.text().splitlines()
    assert session == process and [line for line in rest if "socket:" in line] == []
    masks = {line.split()[0]: int(line.split()[1], 16) for line in rest if line.startswith("Sig") and "/" not in line}
    assert masks["SigBlk:"] == 0 and not masks["SigIgn:"] & (1 << signal.SIGPIPE - 1 | 1 << signal.SIGTERM - 1)


async def test_an_artifact_has_the_environment_that_it_is_given(night: Night, monkeypatch: pytest.MonkeyPatch) -> None:
    monkeypatch.setenv("PYTHONSTARTUP", "/nowhere")
    monkeypatch.setenv("ODD", os.fsdecode(b"\xff=\xfe"))
    batchlet = night.batchlet("#!/usr/bin/python3\nimport os\nprint(sorted(os.environb.items()))\n")
    assert (await batchlet.run()).outcome == "COMPLETED"
    told = dict(ast.literal_eval(night.tail.text().splitlines()[0]))
    given = {os.fsencode(name): os.fsencode(value) for name, value in os.environ.items()}
    for environment in (told, given):
        environment.pop(b"LC_CTYPE", None)  # each Python adds it under the locale C
    assert {name: value for name, value in told.items() if not name.startswith(b"BATCH_")} == given
    assert told[b"BATCH_STEP"] == b"only"


async def test_what_the_parts_of_a_chunk_leave_behind_ends_with_them(night: Night) -> None:
    night.batchlet(PART, "part")
    work = {"work": 1, "execution": 1, "element": "only", "item-count": 2, "checkpoint": None, "processor": None}

    async def report(mark: str, metrics: dict[str, int]) -> bool:
        return False

    chunk = Chunk(night.folder, {"work": {**work, "reader": "part", "writer": "part"}}, night.tail, report)
    assert await chunk.run() == Ended("COMPLETED")
    assert len(night.alive()) == 2
    await asyncio.wait_for(chunk.close(), 4)
    assert night.alive() == []
