"""The options, the fixtures and the mark of the suite."""

from __future__ import annotations

import os
import signal
import subprocess
import tempfile
from collections.abc import Callable, Iterator
from concurrent.futures import ThreadPoolExecutor
from functools import cache
from pathlib import Path

import pytest
from _pytest.terminal import TerminalReporter

from program import Program
from repository import ROOT

LIBRARIES = Path(__file__).parent / "libraries"
# The programs that the proofs build, by their fixtures. A test that has one is marked `program`, and by the fixture.
CRATES = {"program": "batchctl", "calls": "refused_calls"}
# Tests without an end are ended by the alarm.
MOST_SECONDS = 900
TOLD = pytest.StashKey[list[str]]()


def pytest_addoption(parser: pytest.Parser) -> None:
    group = parser.getgroup("the tests of the programs")
    for name, crate in CRATES.items():
        built = ROOT / "crates" / crate / "out" / crate
        group.addoption(f"--{name}", type=Path, default=built, metavar="PATH", help=f"the program {crate}")
    drawn = int.from_bytes(os.urandom(4), "big")
    group.addoption("--seed", type=int, default=drawn, metavar="N", help="the seed of all draws")
    group.addoption("--kills", type=int, default=20, metavar="N", help="how often a program is killed in each way")
    group.addoption("--histories", type=int, default=60, metavar="N", help="how many histories at random are compacted")
    group.addoption("--by-case", action="store_true", help="tell how many requests each refused call makes")
    group.addoption("--record", action="store_true", help="record how many requests for memory there are")


def path_of(fixture: str, config: pytest.Config) -> Path:
    return Path(config.getoption(f"--{fixture}")).resolve()


def pytest_itemcollected(item: pytest.Item) -> None:
    for fixture in CRATES.keys() & set(getattr(item, "fixturenames", [])):
        item.add_marker("program")
        item.add_marker(fixture)


def pytest_collection_finish(session: pytest.Session) -> None:
    """Ends the session if a chosen test needs a program that is not there."""
    for fixture, crate in CRATES.items():
        path, is_needed = path_of(fixture, session.config), any(item.get_closest_marker(fixture) for item in session.items)
        if is_needed and not session.config.option.collectonly and not os.access(path, os.X_OK):
            pytest.exit(f"there is no program {path}: `rt ci`, or `rt run` in crates/{crate}, makes it", 1)


def pytest_terminal_summary(terminalreporter: TerminalReporter, config: pytest.Config) -> None:
    for line in config.stash.get(TOLD, []):
        terminalreporter.write_line(line)


@pytest.fixture(scope="session")
def tell(pytestconfig: pytest.Config) -> Callable[[str], None]:
    """Prints a line behind all tests: what a test tried, and how often."""
    told: list[str] = pytestconfig.stash.setdefault(TOLD, list[str]())
    return told.append


@pytest.fixture(autouse=True)
def alarm() -> Iterator[None]:
    signal.alarm(MOST_SECONDS)
    yield
    signal.alarm(0)


@pytest.fixture(scope="session")
def program(pytestconfig: pytest.Config) -> Program:
    return Program(path_of("program", pytestconfig))


@pytest.fixture(scope="session")
def calls(pytestconfig: pytest.Config) -> Program:
    return Program(path_of("calls", pytestconfig))


@pytest.fixture(scope="session")
def library() -> Iterator[Callable[[str], Path]]:
    """Compiles a library of C, once."""
    with tempfile.TemporaryDirectory(prefix="libraries-") as folder:

        @cache
        def compiled(name: str) -> Path:
            path = Path(folder) / f"{name}.so"
            source = LIBRARIES / f"{name}.c"
            subprocess.run(["cc", "-O2", "-shared", "-fPIC", "-o", path, source, "-ldl"], check=True)
            return path

        yield compiled


@pytest.fixture
def folder() -> Iterator[Path]:
    """An empty folder, which is gone after the test."""
    with tempfile.TemporaryDirectory(prefix="tools-") as name:
        yield Path(name)


@pytest.fixture(scope="session")
def pool() -> Iterator[ThreadPoolExecutor]:
    with ThreadPoolExecutor(os.cpu_count()) as workers:
        yield workers


@pytest.fixture(scope="session")
def seed(pytestconfig: pytest.Config) -> int:
    return int(pytestconfig.getoption("--seed"))
