"""Fixtures: a PostgreSQL server for the session, an empty database for each test, and a catalogue."""

from __future__ import annotations

import asyncio
import json
import subprocess
import sys
from collections.abc import Awaitable, Callable, Iterator
from pathlib import Path
from typing import Any

import pytest

sys.path.insert(0, str(Path(__file__).resolve().parent))
sys.path.insert(0, str(Path(__file__).resolve().parents[1]))

import artifact_files  # noqa: E402
from browser import Browser, browsing  # noqa: E402
from postgres_server import PostgresServer  # noqa: E402

from job_host.commands.command_line import main  # noqa: E402
from job_host.commands.program import find_batchctl  # noqa: E402
from job_host.service.history.coprocess import CoProcess  # noqa: E402
from job_host.service.history.engine import Engine  # noqa: E402
from job_host.service.keepers.batchctl_compact import can_compact  # noqa: E402
from job_host.service.server import Service  # noqa: E402
from job_host.service.settings import Bounds, ServeSettings  # noqa: E402

Say = Callable[..., Awaitable[tuple[int, str]]]

STAND_IN = Path(__file__).resolve().with_name("stand_in_batchctl.py")


def batchlet(name: str, ref: str, **more: Any) -> dict[str, Any]:
    return {"kind": "step", "id": name, "batchlet": {"ref": ref}, **more}


NIGHTLY = {"id": "nightly", "elements": [batchlet("load", "load", next="report"), batchlet("report", "report")]}
SHORT = {"id": "short", "elements": [batchlet("only", "only")]}
WIDE = {"id": "wide", "elements": [batchlet("print", "print", partitions=8)]}
CHUNK = {"item-count": 2, "reader": {"ref": "rows"}, "processor": {"ref": "odd"}, "writer": {"ref": "table"}}
CHUNKY = {"id": "chunky", "elements": [{"kind": "step", "id": "copy", "chunk": CHUNK}]}
DECIDING = {"id": "deciding", "elements": [{"kind": "decision", "id": "day", "ref": "day"}]}
JOBS = [NIGHTLY, SHORT, WIDE, CHUNKY, DECIDING]


@pytest.fixture(scope="session", autouse=True)
def bytecode(tmp_path_factory: pytest.TempPathFactory) -> Iterator[None]:
    """Services, workers and commands in processes of their own find their modules compiled, and write nothing beside these.

    Else each of them compiles all that it loads, where Python is told to keep no bytecode.
    """
    with pytest.MonkeyPatch.context() as patched:
        patched.setenv("PYTHONPYCACHEPREFIX", str(tmp_path_factory.mktemp("bytecode")))
        patched.delenv("PYTHONDONTWRITEBYTECODE", raising=False)
        yield


@pytest.fixture(scope="session")
def postgres() -> Iterator[PostgresServer]:
    server = PostgresServer.make()
    server.start()
    yield server
    server.remove()


@pytest.fixture(scope="session")
def chromium() -> Iterator[Browser]:
    """A browser that the tests of the console share: to start one takes some seconds of the processor."""
    with browsing() as one:
        yield one


@pytest.fixture(scope="session")
def database(postgres: PostgresServer) -> str:
    """The database that tests use one after another: to make a new one for each takes a tenth of a second more."""
    postgres.sql("create database tests")
    return postgres.dsn_of("tests")


@pytest.fixture
def dsn(postgres: PostgresServer, database: str) -> Iterator[str]:
    """An empty database."""
    yield database
    postgres.empty("tests")


@pytest.fixture
def catalogue(tmp_path: Path) -> Path:
    path = tmp_path / "catalogue.json"
    path.write_text(json.dumps({"jobs": JOBS}, indent=1))
    return path


@pytest.fixture
def artifacts(tmp_path: Path) -> Path:
    folder = tmp_path / "artifacts"
    artifact_files.write(folder)
    return folder


@pytest.fixture
def night(tmp_path: Path) -> Path:
    path = tmp_path / "night.json"
    path.write_text(json.dumps({"jobs": artifact_files.jobs()}))
    return path


@pytest.fixture
def settings(dsn: str, catalogue: Path) -> Callable[..., ServeSettings]:
    """Settings of a service over PostgreSQL that takes over after a second and a half."""

    def make(**more: Any) -> ServeSettings:
        given: dict[str, Any] = {"port": 0, "takeover_after": 1.5, "lease": 10.0, "postgres": (dsn,), **more}
        return ServeSettings(catalogue=given.pop("catalogue", catalogue), batchctl=find_batchctl(None), **given)

    return make


@pytest.fixture
def embedded(tmp_path: Path, catalogue: Path, has_log: None) -> Callable[..., ServeSettings]:
    """Settings of a service over a log of its own."""

    def make(**more: Any) -> ServeSettings:
        given: dict[str, Any] = {"port": 0, "lease": 10.0, "data": tmp_path / "data", **more}
        return ServeSettings(catalogue=given.pop("catalogue", catalogue), batchctl=find_batchctl(None), **given)

    return make


@pytest.fixture(scope="session")
def one_compactor() -> tuple[str, ...]:
    """A program that compacts a log: batchctl if it can, else a stand-in."""
    batchctl = find_batchctl(None)
    return batchctl if can_compact(batchctl) else (str(STAND_IN),)


@pytest.fixture
def stand_in() -> None:
    """A test that takes this has a stand-in for batchctl, whose compactions fail when they are told to."""


@pytest.fixture
def compactor(request: pytest.FixtureRequest, one_compactor: tuple[str, ...]) -> tuple[str, ...]:
    return (str(STAND_IN),) if "stand_in" in request.fixturenames else one_compactor


@pytest.fixture
def compacting(compactor: tuple[str, ...], tmp_path: Path, catalogue: Path) -> Callable[..., ServeSettings]:
    """Settings of a service whose program compacts its log."""

    def make(**more: Any) -> ServeSettings:
        given: dict[str, Any] = {"port": 0, "lease": 10.0, "data": tmp_path / "data", "catalogue": catalogue, **more}
        return ServeSettings(batchctl=compactor, **given)

    return make


@pytest.fixture
def basing(compactor: tuple[str, ...], dsn: str, catalogue: Path) -> Callable[..., ServeSettings]:
    """Settings of a service over PostgreSQL whose program compacts a log."""

    def make(**more: Any) -> ServeSettings:
        given: dict[str, Any] = {"port": 0, "takeover_after": 1.5, "lease": 10.0, "postgres": (dsn,), **more}
        return ServeSettings(catalogue=given.pop("catalogue", catalogue), batchctl=compactor, **given)

    return make


@pytest.fixture(params=["postgres", "log"])
def based(
    request: pytest.FixtureRequest, one_compactor: tuple[str, ...], tmp_path: Path, catalogue: Path
) -> Callable[..., ServeSettings]:
    """Settings of a service over PostgreSQL, and of one over a log of its own, whose program makes bases."""
    over_log = request.param == "log"
    kept: dict[str, Any] = {"data": tmp_path / "data"} if over_log else {"postgres": (request.getfixturevalue("dsn"),)}

    def make(**more: Any) -> ServeSettings:
        given: dict[str, Any] = {"port": 0, "takeover_after": 1.5, "lease": 10.0, "catalogue": catalogue, **kept, **more}
        return ServeSettings(batchctl=one_compactor, **given)

    return make


@pytest.fixture(params=["settings", "embedded"])
def either(request: pytest.FixtureRequest) -> Callable[..., ServeSettings]:
    """Settings of a service over PostgreSQL, and of one over a log of its own."""
    made: Callable[..., ServeSettings] = request.getfixturevalue(request.param)
    return made


@pytest.fixture
def idle(tmp_path: Path) -> Callable[..., Service]:
    """A service whose history isn't there: it takes connections, and answers what needs none."""

    def make(bounds: Bounds = Bounds(), **more: Any) -> Service:
        path = tmp_path / "none.json"
        path.write_text('{"jobs":[]}')
        given: dict[str, Any] = {"port": 0, "data": tmp_path / "data", **more}
        return Service(ServeSettings(catalogue=path, batchctl=("/nowhere",), bounds=bounds, **given))

    return make


@pytest.fixture
def say(capsys: pytest.CaptureFixture[str]) -> Say:
    """Calls a command of a service in this process. Returns its exit status, and what it wrote."""

    async def call(url: str, command: str, *words: str) -> tuple[int, str]:
        capsys.readouterr()
        status = await asyncio.to_thread(main, [command, "--url", url, *words])
        told = capsys.readouterr()
        return status, told.out + told.err

    return call


@pytest.fixture(scope="session")
def has_log(tmp_path_factory: pytest.TempPathFactory) -> None:
    """Skips if the program that is tested has no `script --log`."""
    log = tmp_path_factory.mktemp("log") / "history.log"
    words = [*find_batchctl(None), "script", "--log", str(log)]
    done = subprocess.run(words, input=b'{"jobs":[]}\n', capture_output=True, check=False)
    if done.returncode == 2:
        pytest.skip("this batchctl has no `script --log`")


@pytest.fixture
def started(monkeypatch: pytest.MonkeyPatch) -> list[str]:
    """The words behind `batchctl script` of each co-process that was started."""
    words: list[str] = []
    start = CoProcess.start

    async def note(given: Any, catalogue: bytes) -> CoProcess:
        words.append(" ".join(given[2:3]))
        return await start(given, catalogue)

    monkeypatch.setattr(CoProcess, "start", note)
    return words


@pytest.fixture
def entered(monkeypatch: pytest.MonkeyPatch) -> list[Any]:
    """What engines were told to enter."""
    told: list[Any] = []
    enter = Engine.enter

    def note(engine: Engine, *given: Any) -> Any:
        told.append(given)
        return enter(engine, *given)

    monkeypatch.setattr(Engine, "enter", note)
    return told
