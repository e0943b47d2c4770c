"""docs/SERVICE.md, "Three machines": its blocks, in their order and on one machine, over two PostgreSQL servers with TLS."""

from __future__ import annotations

import importlib
import os
import pwd
import shutil
import subprocess
import sys
import tempfile
import time
from collections.abc import Iterator
from pathlib import Path

import pytest
from catalogue_samples import BATCHCTL, ROOT
from instances import COMMAND
from postgres_server import ACCOUNT, as_account, free_port, programs, run

sys.path.insert(0, str(ROOT / "tools"))
page_blocks = importlib.import_module("page_blocks")

SECONDS = 60.0
# The page's passwords and tokens, which end with two points.
SECRET, REST = "SECRET", "0" * 16
PAGE_DATA, PAGE_CONFIGURATION = "/var/lib/postgresql/15/main", "/etc/postgresql/15/main"
# Debian's command, for a server that has no place in /etc.
CONTROL = 'pg_ctlcluster() { "$PROGRAMS/pg_ctl" -s -w -D "$DATA" -l "$DATA.log" -o "$OPTIONS" "$3" < /dev/null; }\n'


class Steps:
    """The blocks of the page's section, which are taken in their order."""

    def __init__(self) -> None:
        page = (ROOT / "docs" / "SERVICE.md").read_text()
        section = page[page.index("\n## Three machines\n") + 1 :]
        self._blocks = list(page_blocks.blocks_in("page", section[: section.index("\n## ")]))
        assert page.count("```sh machines\n") == sum(block.word == "sh machines" for block in self._blocks)

    def take(self, word: str) -> str:
        block = self._blocks.pop(0)
        assert block.word == word
        return "".join(f"{line}\n" for line in block.lines)

    @property
    def left(self) -> int:
        return len(self._blocks)


class Machine:
    """One of the two machines with PostgreSQL, as Debian installs it, and with its certificate."""

    def __init__(self, name: str, files: Path) -> None:
        self.name, self.files = name, files
        self.data = files.parent / name / "data"
        self.port, self.service_port = free_port(), free_port()
        own(make_folder(self.data.parent))
        words = ["initdb", "-D", str(self.data), "-A", "peer", "--auth-host=scram-sha-256", "-E", "UTF8", "--no-sync"]
        run(as_account([str(programs() / words[0]), *words[1:]]))
        extension = ["-addext", "subjectAltName=DNS:localhost"]
        openssl(files, "-CA", "ca.pem", "-CAkey", "ca.key", "-keyout", f"{name}.key", "-out", f"{name}.pem", *extension)
        own(files / f"{name}.key")

    def append(self, name: str, text: str) -> None:
        with open(self.data / name, "a") as file:
            file.write(text)

    def shell(self, text: str) -> str:
        """What a block prints, as the user `postgres` of this machine. Each of its commands succeeds."""
        options = {"port": str(self.port), "unix_socket_directories": str(self.data.parent), "listen_addresses": "localhost"}
        around = os.environ | {
            "PGHOST": str(self.data.parent),
            "PGPORT": str(self.port),
            "PGDATABASE": "postgres",
            "PGPASSFILE": str(self.files / "pgpass-of-postgres"),
            "PROGRAMS": str(programs()),
            "DATA": str(self.data),
            "OPTIONS": " ".join(f"-c {name}={value}" for name, value in (options | {"ssl": "on"}).items()),
            "PATH": f"{programs()}:{os.environ['PATH']}",
        }
        around.pop("PGUSER", None)
        words = as_account(["bash", "-c", f"set -e\n{CONTROL}{text}"])
        done = subprocess.run(words, cwd=self.files, env=around, capture_output=True, text=True, check=False)
        assert done.returncode == 0, done.stderr
        return done.stdout

    def die(self) -> None:
        """Ends the server at once, if it runs."""
        self.shell('"$PROGRAMS/pg_ctl" -s -D "$DATA" -m immediate stop || ! "$PROGRAMS/pg_ctl" -s -D "$DATA" status')


def make_folder(folder: Path) -> Path:
    folder.mkdir()
    return folder


def own(path: Path) -> None:
    """Gives a file or folder to the user that runs PostgreSQL, alone."""
    path.chmod(0o700 if path.is_dir() else 0o600)
    if os.getuid() == 0:
        account = pwd.getpwnam(ACCOUNT)
        os.chown(path, account.pw_uid, account.pw_gid)


def openssl(folder: Path, *words: str) -> None:
    given = ["openssl", "req", "-x509", "-newkey", "ec", "-pkeyopt", "ec_paramgen_curve:prime256v1", "-nodes", "-days", "2"]
    subprocess.run([*given, "-subj", "/CN=localhost", *words], cwd=folder, capture_output=True, check=True)


class Pair:
    """Both machines, and the page's commands with what is theirs here."""

    def __init__(self, folder: Path) -> None:
        self.files = make_folder(folder / "files")
        openssl(self.files, "-keyout", "ca.key", "-out", "ca.pem")
        for name in ("pgpass", "pgpass-of-postgres"):
            (self.files / name).write_text(f"*:*:*:*:{SECRET}\n")
            (self.files / name).chmod(0o600)
        own(self.files / "pgpass-of-postgres")
        shutil.copytree(ROOT / "examples" / "night", self.files, dirs_exist_ok=True, ignore=shutil.ignore_patterns("out"))
        self.db1, self.db2 = Machine("db1", self.files), Machine("db2", self.files)
        self._running: list[subprocess.Popen[bytes]] = []

    def here(self, text: str, machine: Machine) -> str:
        """A block of the page with the places and ports of this machine."""
        for one in (self.db1, self.db2):
            text = text.replace(f"host={one.name} ", f"host=localhost port={one.port} ")
            text = text.replace(f"@{one.name}/", f"@localhost:{one.port}/")
            text = text.replace(f"https://{one.name}:8570", f"https://localhost:{one.service_port}")
        text = text.replace(PAGE_CONFIGURATION, str(self.files)).replace("--host 0.0.0.0", f"--port {machine.service_port}")
        return text.replace(PAGE_DATA.removesuffix("main"), f"{machine.data.parent}/").replace("/main ", "/data ")

    @property
    def urls(self) -> str:
        return ",".join(f"https://localhost:{machine.service_port}" for machine in (self.db1, self.db2))

    @property
    def around(self) -> dict[str, str]:
        path = f"{COMMAND.parent}:{os.environ['PATH']}"
        return os.environ | {"PATH": path, "JOBHOST_BATCHCTL": BATCHCTL[0], "PGPASSFILE": str(self.files / "pgpass")}

    def run_on(self, text: str, name: str) -> None:
        """Runs a command that goes on until the test's end."""
        with open(self.files / f"{name}.log", "wb") as log:
            words = ["bash", "-c", f"exec {text}"]
            self._running.append(subprocess.Popen(words, cwd=self.files, env=self.around, stdout=log, stderr=log))

    def jobhost(self, *words: str) -> tuple[int, list[str]]:
        """A command of the operator: its exit status, and its lines."""
        given = ["jobhost", *words, "--url", self.urls, "--token", "desk.token", "--authority", "ca.pem"]
        done = subprocess.run(given, cwd=self.files, env=self.around, capture_output=True, text=True, check=False)
        return done.returncode, (done.stdout + done.stderr).splitlines()

    def remove(self) -> None:
        for process in self._running:
            process.kill()
            process.wait()
        for machine in (self.db1, self.db2):
            machine.die()


@pytest.fixture
def pair() -> Iterator[Pair]:
    folder = Path(tempfile.mkdtemp(prefix="jobhost-machines-"))
    folder.chmod(0o755)
    made = Pair(folder)
    yield made
    made.remove()
    shutil.rmtree(folder)


def write_tokens(folder: Path, text: str) -> None:
    """The page's tokens, and a file with that of each name."""
    (folder / "tokens").write_text(text.replace("..", REST))
    for line in text.splitlines():
        _, name, token = line.split()
        (folder / f"{name}.token").write_text(token.replace("..", REST))


def test_three_machines_go_as_the_page_says(pair: Pair) -> None:
    steps, db1, db2 = Steps(), pair.db1, pair.db2
    settings, rules = pair.here(steps.take("conf"), db1), steps.take("conf")
    for machine in (db1, db2):
        machine.append("postgresql.conf", settings)
        machine.append("pg_hba.conf", rules)
        machine.shell("pg_ctlcluster 15 main start")
    db1.shell(steps.take("sh machines"))
    db2.shell(pair.here(steps.take("sh machines"), db2))
    look, streaming, deadline = steps.take("sh machines"), steps.take(""), time.monotonic() + SECONDS
    while db1.shell(look) != streaming:
        assert time.monotonic() < deadline
        time.sleep(0.1)
    db1.shell(steps.take("sh machines"))
    write_tokens(pair.files, steps.take("conf"))
    serve = steps.take("sh machines")
    pair.run_on(pair.here(serve, db1), "db1")
    pair.run_on(pair.here(serve, db2).replace("db1.", "db2.").replace(advertised(db1), advertised(db2)), "db2")
    pair.run_on(pair.here(steps.take("sh machines"), db1), "worker")
    check_night(pair, "2026-11-27", 1)
    db1.die()
    db2.shell(steps.take("sh machines"))
    check_night(pair, "2026-11-28", 2)
    assert pair.jobhost("status", "1")[0] == 0
    assert steps.left == 0


def advertised(machine: Machine) -> str:
    return f"--advertise https://localhost:{machine.service_port}"


def check_night(pair: Pair, date: str, execution: int) -> None:
    status, told = pair.jobhost("start", "nightly", "-p", f"date={date}", "--once", "--wait")
    assert (status, told[-1:]) == (0, [f"job execution {execution} is COMPLETED, exit status COMPLETED"])
