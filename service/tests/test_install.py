"""service/install.sh with a path of made-up programs, and a service without the package that only PostgreSQL needs."""

from __future__ import annotations

import os
import shutil
import subprocess
from pathlib import Path

import pytest
from catalogue_samples import BATCHCTL, ROOT
from instances import COMMAND, Process

INSTALL = ROOT / "service" / "install.sh"
TO_RUN = ["python3", "python3-aiohttp", "python3-defusedxml", "python3-prometheus-client", "python3-rich"]
FOR_POSTGRES = ["python3-asyncpg", "postgresql"]
# Debian has installed all, and the user is an ordinary one.
ALL = {"dpkg-query": "echo installed", "id": "echo 1000"}
NONE = {**ALL, "dpkg-query": "exit 1"}
NO_ASYNCPG = "raise ModuleNotFoundError(\"No module named 'asyncpg'\", name='asyncpg')\n"


def install(folder: Path, programs: dict[str, str], *words: str, path: str = "") -> tuple[int, list[str]]:
    """The exit status and what is said, if the path has these programs, and the home is `folder / "home"`."""
    made = folder / "programs"
    made.mkdir()
    for borrowed in ("dirname", "ln", "mkdir"):
        (made / borrowed).symlink_to(shutil.which(borrowed) or "")
    for program, line in programs.items():
        (made / program).unlink(missing_ok=True)
        (made / program).write_text(f"#!/bin/sh\n{line}\n")
        (made / program).chmod(0o755)
    around = {"PATH": f"{made}:{path}", "HOME": str(folder / "home")}
    done = subprocess.run([INSTALL, *words], env=around, capture_output=True, text=True, check=False)
    return done.returncode, (done.stdout + done.stderr).splitlines()


def test_an_ordinary_user_has_the_command_below_the_home(tmp_path: Path) -> None:
    folder = tmp_path / "home" / ".local" / "bin"
    told = [f"jobhost is {folder}/jobhost", f'put {folder} on the path: export PATH="{folder}:$PATH"']
    assert install(tmp_path, ALL) == (0, told)
    assert (folder / "jobhost").resolve() == COMMAND


def test_nothing_is_said_of_a_folder_that_is_on_the_path(tmp_path: Path) -> None:
    folder = str(tmp_path / "commands")
    assert install(tmp_path, ALL, folder, path=folder) == (0, [f"jobhost is {folder}/jobhost"])


def test_root_has_the_command_for_everybody(tmp_path: Path) -> None:
    programs = {**ALL, "id": "echo 0", "mkdir": "exit 0", "ln": 'echo "$3"'}
    status, told = install(tmp_path, programs, path="/usr/local/bin")
    assert (status, told) == (0, ["/usr/local/bin/jobhost", "jobhost is /usr/local/bin/jobhost"])


def test_without_options_only_what_a_service_over_a_log_needs_is_missing(tmp_path: Path) -> None:
    status, told = install(tmp_path, NONE, "--missing")
    assert (status, " ".join(told).split()) == (0, TO_RUN)


def test_postgres_needs_more(tmp_path: Path) -> None:
    status, told = install(tmp_path, NONE, "--postgres", "--missing")
    assert (status, " ".join(told).split()) == (0, TO_RUN + FOR_POSTGRES)


@pytest.mark.parametrize("words", [["--development", "--missing"], ["--missing", "--postgres", "--development"]])
def test_development_needs_all(tmp_path: Path, words: list[str]) -> None:
    missing = " ".join(install(tmp_path, NONE, *words)[1]).split()
    assert missing[:7] == TO_RUN + FOR_POSTGRES
    assert {"mypy", "chromium", "eslint", "openssl"} < set(missing)
    assert len(missing) == len(set(missing))


def test_another_option_is_refused(tmp_path: Path) -> None:
    assert install(tmp_path, ALL, "--all") == (2, ["install.sh: --all is none of --postgres, --development and --missing"])


def test_only_root_installs_packages(tmp_path: Path) -> None:
    programs = {**ALL, "dpkg-query": 'case "$4" in python3-rich) exit 1 ;; esac; echo installed'}
    assert install(tmp_path, programs) == (1, ["only root can install python3-rich, and there is no sudo"])
    assert not (tmp_path / "home").exists()


@pytest.fixture
def without_asyncpg(tmp_path: Path, monkeypatch: pytest.MonkeyPatch) -> None:
    """Processes of the test find no asyncpg."""
    (tmp_path / "hidden").mkdir()
    (tmp_path / "hidden" / "asyncpg.py").write_text(NO_ASYNCPG)
    monkeypatch.setenv("PYTHONPATH", str(tmp_path / "hidden"))


async def test_a_service_over_a_log_needs_no_asyncpg(
    tmp_path: Path, catalogue: Path, has_log: None, without_asyncpg: None
) -> None:
    words = ["--catalogue", str(catalogue), "--batchctl", BATCHCTL[0], "--data", str(tmp_path / "data")]
    process = Process(tmp_path / "service", *words)
    try:
        process.start()
        await process.until_role("leader")
    finally:
        process.kill()


def test_a_service_over_postgres_names_the_package(catalogue: Path, without_asyncpg: None) -> None:
    postgres = "postgresql://nobody@127.0.0.1:9/none"
    words = [str(COMMAND), "serve", "--catalogue", str(catalogue), "--batchctl", BATCHCTL[0], "--postgres", postgres]
    done = subprocess.run(words, env=os.environ, capture_output=True, text=True, check=False)
    told = "jobhost serve: --postgres needs asyncpg: Debian's package python3-asyncpg\n"
    assert (done.returncode, done.stdout + done.stderr) == (2, told)
