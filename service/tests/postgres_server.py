"""A PostgreSQL server of its own folder, which a test starts, kills, continues and promotes."""

from __future__ import annotations

import os
import pwd
import shutil
import signal
import socket
import subprocess
import tempfile
import time
from pathlib import Path

ACCOUNT = "postgres"
START_SECONDS = 60.0


def free_port() -> int:
    with socket.socket() as listening:
        listening.bind(("127.0.0.1", 0))
        return int(listening.getsockname()[1])


def programs() -> Path:
    """The folder of Debian's newest PostgreSQL."""
    versions = sorted(Path("/usr/lib/postgresql").glob("*/bin/postgres"), key=lambda path: int(path.parts[-3]))
    if not versions:
        raise FileNotFoundError("no PostgreSQL: service/install.sh --postgres installs it")
    return versions[-1].parent


def as_account(words: list[str]) -> list[str]:
    """PostgreSQL doesn't run as root."""
    return ["runuser", "-u", ACCOUNT, "--", *words] if os.getuid() == 0 else words


class PostgresServer:
    """One server. It has no TCP but on loopback, and no password."""

    def __init__(self, folder: Path, port: int, options: dict[str, str]) -> None:
        self.folder = folder
        self.port = port
        self.options = options
        self._process: subprocess.Popen[bytes] | None = None

    @classmethod
    def make(cls, **options: str) -> PostgresServer:
        """A new server with an empty database. It isn't started."""
        folder = cls._folder()
        run(as_account([str(programs() / "initdb"), "-D", str(folder / "data"), "-A", "trust", "-E", "UTF8", "--no-sync"]))
        return cls(folder, free_port(), options)

    @staticmethod
    def _folder() -> Path:
        folder = Path(tempfile.mkdtemp(prefix="jobhost-postgres-"))
        if os.getuid() == 0:
            account = pwd.getpwnam(ACCOUNT)
            os.chown(folder, account.pw_uid, account.pw_gid)
        return folder

    @property
    def dsn(self) -> str:
        return self.dsn_of("postgres")

    def dsn_of(self, database: str) -> str:
        user = ACCOUNT if os.getuid() == 0 else pwd.getpwuid(os.getuid()).pw_name
        return f"postgresql://{user}@127.0.0.1:{self.port}/{database}"

    def start(self) -> None:
        """Starts the server, and waits until it answers."""
        given = {"listen_addresses": "127.0.0.1", "unix_socket_directories": "", "max_connections": "50", **self.options}
        words = [str(programs() / "postgres"), "-D", str(self.folder / "data"), "-p", str(self.port)]
        words += [word for name, value in given.items() for word in ("-c", f"{name}={value}")]
        with open(self.folder / "log", "ab") as log:
            self._process = subprocess.Popen(as_account(words), stdout=log, stderr=log, start_new_session=True)
        deadline = time.monotonic() + START_SECONDS
        while not self.is_ready():
            if time.monotonic() > deadline or self._process.poll() is not None:
                raise TimeoutError((self.folder / "log").read_text()[-2000:])
            time.sleep(0.05)

    def is_ready(self) -> bool:
        words = [str(programs() / "pg_isready"), "-q", "-h", "127.0.0.1", "-p", str(self.port)]
        return subprocess.run(words, check=False).returncode == 0

    def sql(self, statement: str, database: str = "postgres") -> str:
        words = [str(programs() / "psql"), "-X", "-A", "-t", "-q", "-d", self.dsn_of(database), "-c", statement]
        return subprocess.run(words, check=True, capture_output=True, text=True).stdout.strip()

    def empty(self, database: str) -> None:
        """Ends each connection to a database, and drops all that it has."""
        others = f"datname = '{database}' and pid <> pg_backend_pid()"
        end = f"select pg_terminate_backend(pid) from pg_stat_activity where {others}"
        queues = "drop schema if exists job_host_queue_1, job_host_queue_2 cascade"
        schema = "drop schema public cascade; create schema public"
        self.sql(f"{end}; set client_min_messages = error; {queues}; {schema}", database)

    def make_standby(self, port: int | None = None, **options: str) -> PostgresServer:
        """A standby of this server, which streams from it. It is started."""
        folder = self._folder()
        words = [
            str(programs() / "pg_basebackup"),
            "-D",
            str(folder / "data"),
            "-d",
            self.dsn,
            "-R",
            "-X",
            "stream",
            "-c",
            "fast",
        ]
        run(as_account(words))
        standby = PostgresServer(folder, port or free_port(), {**self.options, **options})
        standby.start()
        return standby

    def replicate_by_one(self) -> None:
        """Returns after each commit waits until one standby has applied it. The standby runs already."""
        self.sql("alter system set synchronous_standby_names = 'ANY 1 (*)'")
        self.sql("alter system set synchronous_commit = 'remote_apply'")
        self.sql("select pg_reload_conf()")
        deadline = time.monotonic() + START_SECONDS
        while self.sql("select count(*) from pg_stat_replication where sync_state in ('sync', 'quorum')") != "1":
            if time.monotonic() > deadline:
                raise TimeoutError("no standby has caught up")
            time.sleep(0.05)

    def promote(self) -> None:
        self.sql("select pg_promote(true, 30)")

    def _postmaster(self) -> int:
        return int((self.folder / "data" / "postmaster.pid").read_text().split()[0])

    def kill(self) -> None:
        """Ends the server and each of its backends at once."""
        postmaster = self._postmaster()
        for number in [postmaster, *children_of(postmaster)]:
            try:
                os.kill(number, signal.SIGKILL)
            except ProcessLookupError:
                continue
        if self._process is not None:
            self._process.wait()
            self._process = None

    def stop(self) -> None:
        if self._process is not None and self._process.poll() is None:
            self.kill()

    def remove(self) -> None:
        self.stop()
        shutil.rmtree(self.folder, ignore_errors=True)


def children_of(parent: int) -> list[int]:
    """The processes that this one has started and that still run."""
    told = Path(f"/proc/{parent}/task/{parent}/children").read_text()
    return [int(word) for word in told.split()]


def run(words: list[str]) -> None:
    done = subprocess.run(words, capture_output=True, text=True, check=False)
    if done.returncode:
        raise RuntimeError(f"{words[0]}: {done.stdout}{done.stderr}")
