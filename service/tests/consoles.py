"""A service, a worker and a browser for tests of the console, and what a person sees there."""

from __future__ import annotations

import asyncio
import json
import time
from collections.abc import Iterator
from pathlib import Path
from typing import Any

import pytest
from browser import Browser
from instances import Answer, Caller, Process
from test_catalogue_picture import DEEP, dense
from workers import WorkerProcess

# Texts that are markup, that end attributes, and that turn the direction of what stands behind them.
MARKS = "<script>window.bad=1</script><img src=x onerror=window.bad=1>\"'&amp;{}${1}\u202e\u200f\u2067abc"
HARD_JOB = (MARKS + "j" * 256)[: 256 - (len(MARKS.encode()) - len(MARKS))]
HARD_VALUE = (MARKS + "\r\nline\n" + "v" * 4096)[: 4096 - (len(MARKS.encode()) - len(MARKS))]
HARD_LOG = MARKS + "\n" + "</pre></details></main>" * 170 + "\n\u202eend"

LOAD = """#!/bin/sh
[ -e mended ] || { echo 'no space left on the ledger' >&2; exit 3; }
echo "LOADED FOR $BATCH_PARAMETER_date"
"""
ARTIFACTS = {
    "extract": "#!/bin/sh\necho '120 ROWS'\n",
    "load": LOAD,
    "report": "#!/bin/sh\necho SENT\n",
    "hard": "#!/bin/sh\ncat hard.log >&2\nexit 3\n",
    "patient": "#!/bin/sh\nwhile [ ! -e go-on ]; do sleep 0.05; done\n",
}


def step(name: str, ref: str, **more: Any) -> dict[str, Any]:
    return {"kind": "step", "id": name, "batchlet": {"ref": ref}, **more}


def leads(number: int) -> dict[str, Any]:
    """Each step leads to the next one, and to the last one if it says so."""
    last = [{"kind": "next", "on": "LAST", "to": "s999"}] if number < 998 else []
    return {"transitions": last, **({"next": f"s{number + 1}"} if number < 999 else {})}


MONDAY = [{"kind": "next", "on": "MONDAY", "to": "both"}, {"kind": "end", "on": "HOLIDAY", "exit-status": "NO WORK"}]
GO = [{"kind": "next", "on": "*", "to": "f1"}]
JOBS = [
    {
        "id": "nightly",
        "elements": [step("extract", "extract", next="load"), step("load", "load", next="report"), step("report", "report")],
    },
    {"id": HARD_JOB, "elements": [step(MARKS, "hard")]},
    {"id": "patient", "elements": [step("wait", "patient", partitions=2)]},
    {
        "id": "branching",
        "elements": [
            {"kind": "decision", "id": "day", "ref": "extract", "transitions": MONDAY},
            {
                "kind": "split",
                "id": "both",
                "next": "last",
                "flows": [
                    {"kind": "flow", "id": "left", "elements": [step("one", "extract", next="two"), step("two", "report")]},
                    {"kind": "flow", "id": "right", "elements": [step("three", "report")]},
                ],
            },
            step("last", "report"),
        ],
    },
    {"id": "many", "elements": [step("print", "report", partitions=64)]},
    {"id": "deep", "elements": [{"kind": "decision", "id": "go", "ref": "extract", "transitions": GO}, *DEEP["elements"]]},
    {**dense(150, 39), "id": "dense"},
    {"id": "long", "elements": [step(f"s{number}", "report", **leads(number)) for number in range(1000)]},
]


@pytest.fixture(scope="module", name="browser")
def browser_made(chromium: Browser) -> Iterator[Browser]:
    """The session's browser, as a new one is. It leaves the page behind whose service is gone."""
    chromium.size(1280, 900)
    chromium.scheme("light")
    yield chromium
    chromium.open("about:blank")
    chromium.complaints()


@pytest.fixture(name="artifacts")
def artifacts_made(tmp_path: Path) -> Path:
    folder = tmp_path / "artifacts"
    folder.mkdir()
    (folder / "hard.log").write_text(HARD_LOG)
    for name, text in ARTIFACTS.items():
        (folder / name).write_text(text)
        (folder / name).chmod(0o755)
    return folder


@pytest.fixture(name="words")
def words_made(dsn: str, tmp_path: Path) -> list[str]:
    """The words of a service over PostgreSQL, with the jobs of these tests."""
    path = tmp_path / "jobs.json"
    path.write_text(json.dumps({"jobs": JOBS}))
    return ["--catalogue", str(path), "--postgres", dsn, "--takeover-after", "2"]


@pytest.fixture(name="service")
def service_made(words: list[str], tmp_path: Path) -> Iterator[Process]:
    process = Process(tmp_path / "serve.log", *words)
    process.start()
    try:
        asyncio.run(process.until_role("leader"))
        yield process
    finally:
        process.kill()


@pytest.fixture(name="worker")
def worker_made(service: Process, artifacts: Path) -> Iterator[WorkerProcess]:
    process = WorkerProcess(service.url, artifacts, 2)
    try:
        yield process
    finally:
        process.stop()


@pytest.fixture(autouse=True)
def no_complaints(request: pytest.FixtureRequest) -> Iterator[None]:
    """A browser that complained, of a script or of what the content policy refused, fails its test."""
    yield
    if "browser" in request.fixturenames:
        complaints = request.getfixturevalue("browser").complaints()
        assert not [one for one in complaints if "Failed to load resource" not in one and "ERR_" not in one], complaints


def start(service: Process, job: str, **parameters: str) -> int:
    return int(asyncio.run(Caller(service.url).start(job, **parameters)).told["executionId"])


def ask(url: str, method: str, path: str, body: Any = None, token: str | None = None, **headers: str) -> Answer:
    return asyncio.run(Caller(url, token=token).ask(method, path, body, None, **headers))


def states(browser: Browser) -> dict[str, str]:
    """What stands in the boxes of the picture."""
    script = """return [...document.querySelectorAll('.picture [data-element]')].map(
        g => [g.dataset.element, g.querySelector('.state').textContent])"""
    return dict(browser.run(script))


def bars(browser: Browser, section: str) -> list[str]:
    """What the small bars of a section say."""
    script = "return [...document.querySelectorAll(arguments[0])].map(bar => bar.getAttribute('aria-label'))"
    return list(browser.run(script, f"section[data-key='{section}'] svg.bar"))


def reads(browser: Browser, part: str) -> int:
    """How many reads a tab has made whose addresses have this part."""
    script = "return performance.getEntriesByType('resource').filter(one => one.name.includes(arguments[0])).length"
    return int(browser.run(script, part))


def reads_at_rest(browser: Browser, part: str) -> int:
    """How many it has made once it has made no other for two seconds."""
    counts = [-1]
    while counts[-1] != (now := reads(browser, part)):
        counts.append(now)
        time.sleep(2.0)
    return counts[-1]
