"""docs/SERVICE.md, "An upgrade" and "A new history": their blocks, against services over a log and over PostgreSQL."""

from __future__ import annotations

import asyncio
import importlib
import os
import select
import shutil
import signal
import subprocess
import sys
import time
from collections.abc import Callable, Iterator
from contextlib import contextmanager
from pathlib import Path
from typing import Any

import pytest
from catalogue_samples import BATCHCTL, ROOT
from instances import COMMAND, Answer, Caller
from postgres_server import PostgresServer, free_port, programs
from unversioned import make_unversioned

from job_host.service.stores.beside_files import STORE_NAME
from job_host.service.stores.postgres_migrations import MIGRATIONS

sys.path.insert(0, str(ROOT / "tools"))
page_blocks = importlib.import_module("page_blocks")

PAGE = (ROOT / "docs" / "SERVICE.md").read_text()
SECONDS = 60.0
START = "jobhost start nightly -p date=2026-11-27 --once"
FIRST = "job execution 1 of job instance 1 was made\n"
ROWS = "25 ROWS, 1360 IN ALL"
READY = 'until curl -sf "http://127.0.0.1:8570/readyz"; do sleep 0.1; done'


class Part:
    """The blocks of a part of the page, which are taken in their order."""

    def __init__(self, title: str, end: str) -> None:
        text = PAGE[PAGE.index(f"\n{title}") + 1 :]
        self.blocks = list(page_blocks.blocks_in("page", text[: text.index(f"\n{end}")]))

    def take(self, word: str) -> Any:
        """The next block with this word. Those before it, with other words, aren't wanted."""
        while self.blocks[0].word != word:
            self.blocks.pop(0)
        return self.blocks.pop(0)

    def told(self) -> str:
        """What the page says that the last block prints."""
        return "".join(f"{line}\n" for line in self.blocks.pop(0).lines) if self.blocks and not self.blocks[0].word else ""


def upgrade() -> Part:
    return Part("**An upgrade**", "## ")


def new_history() -> Part:
    return Part("## A new history", "## ")


class Shell:
    """A shell in which a reader pastes blocks, on a machine with a port of its own in the place of each of the page's."""

    def __init__(self, folder: Path, **around: str) -> None:
        shutil.copytree(ROOT / "examples", folder / "examples", ignore=shutil.ignore_patterns("out"))
        self.folder, self._ports = folder, (free_port(), free_port())
        given = {"PATH": f"{COMMAND.parent}:{programs()}:{os.environ['PATH']}", "JOBHOST_BATCHCTL": BATCHCTL[0], **around}
        self._process = subprocess.Popen(
            ["bash"],
            cwd=folder,
            env={**os.environ, **given, "JOBHOST_URL": self.url},
            stdin=subprocess.PIPE,
            stdout=subprocess.PIPE,
            stderr=subprocess.STDOUT,
            start_new_session=True,
        )

    @property
    def url(self) -> str:
        return f"http://127.0.0.1:{self._ports[0]}"

    def run(self, command: str) -> str:
        """What a command prints. It succeeds."""
        here = command.replace("jobhost serve ", f"jobhost serve --port {self._ports[0]} ")
        for of_page, port in zip(("8570", "8571"), self._ports):
            here = here.replace(of_page, str(port))
        assert self._process.stdin is not None and self._process.stdout is not None
        self._process.stdin.write(f"{here}\nprintf '\\0%d\\0' $?\n".encode())
        self._process.stdin.flush()
        told, deadline = b"", time.monotonic() + SECONDS
        while told.count(b"\0") < 2:
            ready, _, _ = select.select([self._process.stdout], [], [], deadline - time.monotonic())
            assert ready, f"{here} is still running: {told.decode()}"
            told += os.read(self._process.stdout.fileno(), 65_536)
        printed, status, _ = told.decode().split("\0")
        assert status == "0", f"{here}: {printed}"
        return printed

    def paste(self, block: Any, between: Callable[[], None] = lambda: None) -> str:
        """What the commands of a block print. `between` is called after the first one."""
        first, *rest = [command.text for command in page_blocks.commands_in(block)]
        printed = self.run(first)
        between()
        return printed + "".join(self.run(text) for text in rest)

    def ask(self, method: str, path: str, body: Any = None) -> Answer:
        return asyncio.run(Caller(self.url, "worker").ask(method, path, body))

    def history(self) -> str:
        return str(self.ask("GET", "/batch/history").told["history"])

    def end(self) -> None:
        os.killpg(self._process.pid, signal.SIGKILL)
        self._process.wait()


@contextmanager
def shell_in(folder: Path, **around: str) -> Iterator[Shell]:
    folder.mkdir()
    made = Shell(folder, **around)
    try:
        yield made
    finally:
        made.end()


def fail_twice(shell: Shell) -> str:
    """Starts the night, which fails, and so does its restart. Returns the identity of the history."""
    assert shell.run(START) == FIRST
    for number in (1, 2):
        assert shell.ask("POST", "/batch/work").told["work"]["work"] == number
        shell.ask("PUT", f"/batch/work/{number}?action=finish", {"outcome": "FAILED", "log": ROWS})
        if number == 1:
            assert shell.ask("PUT", "/batch/jobexecutions/1?action=restart").told["executionId"] == 2
    return shell.history()


def check_kept(shell: Shell, history: str) -> None:
    """The history is that one, its keys are known, its logs are there, and it goes on."""
    assert shell.history() == history
    assert shell.run(START) == FIRST
    assert shell.run("jobhost log 2 | grep ROWS") == f"{ROWS}\n"
    assert shell.ask("PUT", "/batch/jobexecutions/2?action=restart").told["executionId"] == 3


def check_new(shell: Shell, history: str) -> None:
    """The history is another one, and knows nothing of that one."""
    assert shell.history() != history
    assert shell.run(START) == FIRST
    assert len(shell.ask("GET", "/batch/jobexecutions").told["jobExecutions"]) == 1
    assert shell.ask("GET", "/batch/jobexecutions/1/joblogs").told == []


def test_the_blocks_over_postgresql_are_those_of_these_parts() -> None:
    blocks = [block for part in (upgrade(), new_history()) for block in part.blocks]
    assert PAGE.count("```sh database\n") == sum(block.word == "sh database" for block in blocks) == 4


def test_an_upgrade_on_one_machine(tmp_path: Path, has_log: None) -> None:
    """The old version's tables have no version. The copy has them as they were."""
    steps = upgrade()
    with shell_in(tmp_path / "machine") as shell:
        shell.run("jobhost serve --catalogue examples/night/catalogue.json 2> serve.log &")
        assert shell.run(READY) == "ready\n"
        history = fail_twice(shell)
        store = shell.folder / "jobhost-data" / STORE_NAME
        block = steps.take("sh")
        assert shell.paste(block, lambda: make_unversioned(store)) == steps.told() == "ready\n"
        check_kept(shell, history)
        kept = (shell.folder / "before-upgrade" / STORE_NAME).read_bytes()
        assert kept[60:64] == bytes(4), "SQLite keeps the version there"
        assert "begins again" not in (shell.folder / "serve.log").read_text()


def test_a_new_history_on_one_machine(tmp_path: Path, has_log: None) -> None:
    steps = new_history()
    with shell_in(tmp_path / "machine") as shell:
        shell.run("jobhost serve --catalogue examples/night/catalogue.json 2> serve.log &")
        shell.run(READY)
        history = fail_twice(shell)
        shell.run("kill $! && wait")
        assert shell.paste(steps.take("sh")) == steps.told() == FIRST
        check_new(shell, history)
        assert shell.paste(steps.take("sh")) == steps.told() == f"{ROWS}\n"


@pytest.fixture
def databases(postgres: PostgresServer) -> Iterator[dict[str, str]]:
    """The variables of the page's commands, with the history's database and the one that a new history has."""
    postgres.sql("create role jobhost login")
    postgres.sql("create database jobhost owner jobhost encoding 'UTF8' template template0")
    at = f"postgresql://jobhost@127.0.0.1:{postgres.port}"
    user = postgres.dsn.removeprefix("postgresql://").partition("@")[0]
    server = {"PGHOST": "127.0.0.1", "PGPORT": str(postgres.port), "PGUSER": user, "PGDATABASE": "postgres"}
    yield {"DATABASE": f"{at}/jobhost", "NEW_DATABASE": f"{at}/jobhost2", **server}
    for name in ("jobhost", "jobhost2"):
        postgres.sql(f"drop database if exists {name} with (force)")
    postgres.sql("drop role jobhost")


@contextmanager
def two_instances(folder: Path, databases: dict[str, str]) -> Iterator[list[Shell]]:
    """The shells of two machines, each with an instance. The first one leads."""
    with shell_in(folder / "one", **databases) as one, shell_in(folder / "two", **databases) as two:
        for shell in (one, two):
            shell.run('jobhost serve --catalogue examples/night/catalogue.json --postgres "$DATABASE" 2> serve.log &')
            shell.run(READY)
            until_it_leads(one)
        yield [one, two]


def until_it_leads(shell: Shell) -> None:
    shell.run("until curl -sf http://127.0.0.1:8570/health/leader > /dev/null; do sleep 0.1; done")


def test_an_upgrade_over_postgresql(tmp_path: Path, postgres: PostgresServer, databases: dict[str, str]) -> None:
    """The follower brings the tables to its version while the old leader commits."""

    def sql(statement: str) -> str:
        words = [str(programs() / "psql"), "-X", "-A", "-t", "-q", "-d", databases["DATABASE"], "-c", statement]
        return subprocess.run(words, check=True, capture_output=True, text=True).stdout.strip()

    steps = upgrade()
    block = steps.take("sh database")
    ready = steps.told()
    with two_instances(tmp_path, databases) as (leader, follower):
        history = fail_twice(leader)
        sql("drop table job_host_version")
        assert follower.paste(block) == ready == "ready\n"
        assert sql("select version from job_host_version") == str(len(MIGRATIONS))
        assert leader.ask("GET", "/health/leader").status == 200 and leader.run(START) == FIRST
        assert leader.paste(block) == ready
        until_it_leads(follower)
        check_kept(follower, history)
        assert leader.ask("GET", "/batch/jobexecutions/3?atLeast=7").told["batchStatus"] == "STARTING"


def test_a_new_history_over_postgresql(tmp_path: Path, databases: dict[str, str]) -> None:
    steps = new_history()
    with two_instances(tmp_path, databases) as (one, two):
        history = fail_twice(one)
        end, make, begin = (steps.take("sh database") for _ in range(3))
        for shell in (one, two):
            assert shell.paste(end) == ""
        assert one.paste(make) == "CREATE DATABASE\n"
        for shell in (one, two):
            assert shell.paste(begin) == "ready\n"
            until_it_leads(one)
        check_new(one, history)
        assert two.history() == one.history()
        one.run('jobhost serve --catalogue examples/night/catalogue.json --port 8571 --postgres "$DATABASE" 2> old.log &')
        assert one.run("jobhost log 2 --url http://127.0.0.1:8571 | grep ROWS") == f"{ROWS}\n"
