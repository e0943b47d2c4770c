"""Tests of tools/check_needs.py, with a path that has made-up programs."""

from __future__ import annotations

import contextlib
import io
import os
import shutil
import tempfile
from pathlib import Path
from unittest import mock

import pytest

from check_needs import main

# The programs that service/install.sh calls.
BORROWED = ("dirname", "id")


def said_with(programs: dict[str, str]) -> tuple[int, list[str]]:
    """The exit status and what is said, if the path has these programs: the name of each, and its line of shell."""
    with tempfile.TemporaryDirectory() as name:
        folder = Path(name)
        for borrowed in BORROWED:
            (folder / borrowed).symlink_to(shutil.which(borrowed) or "")
        for program, line in programs.items():
            (folder / program).write_text(f"#!/bin/sh\n{line}\n")
            (folder / program).chmod(0o755)
        said = io.StringIO()
        with mock.patch.dict(os.environ, {"PATH": name}), contextlib.redirect_stderr(said):
            status = main()
    return status, [line.removeprefix("check_needs: ") for line in said.getvalue().splitlines()]


ALL = {"rt": "exit 0", "python3": "exit 0", "cc": "exit 0", "valgrind": "exit 0", "dpkg-query": "echo installed"}


def test_nothing_is_said_if_all_is_there() -> None:
    assert said_with(ALL) == (0, [])


def test_all_that_is_missing_is_named_at_once() -> None:
    status, said = said_with({"dpkg-query": "exit 1"})
    assert status == 1
    assert said[:4] == [
        "missing: rt, Rattle's toolchain",
        "missing: python3, 3.11 or newer, on the path (Debian's python3)",
        "missing: cc, with the headers of tools/tests/libraries/*.c (Debian's gcc libc6-dev)",
        "missing: valgrind (Debian's valgrind)",
    ]
    assert "missing: python3-aiohttp (Debian's python3-aiohttp)" in said
    install = said[-1].split()
    assert install[:2] == ["apt-get", "install"]
    assert {"gcc", "libc6-dev", "valgrind", "chromium", "postgresql", "python3-aiohttp"} <= set(install)
    assert len(install) == len(set(install))


@pytest.mark.parametrize(
    "name, line, said",
    [
        ("python3", "exit 1", "missing: python3, 3.11 or newer, on the path (Debian's python3)"),
        ("cc", "exit 1", "missing: cc, with the headers of tools/tests/libraries/*.c (Debian's gcc libc6-dev)"),
        ("dpkg-query", 'case "$4" in openssl) exit 1 ;; esac; echo installed', "missing: openssl (Debian's openssl)"),
        ("dpkg-query", 'case "$4" in eslint) exit 1 ;; esac; echo installed', "missing: eslint (Debian's eslint)"),
    ],
)
def test_what_is_missing_is_named(name: str, line: str, said: str) -> None:
    package = said.split("Debian's ")[1].removesuffix(")")
    install = f"apt-get install --no-install-recommends {package}"
    assert said_with({**ALL, name: line}) == (1, [said, install])


def test_nothing_is_to_be_installed_if_debian_lacks_it() -> None:
    programs = {name: line for name, line in ALL.items() if name != "rt"}
    assert said_with(programs) == (1, ["missing: rt, Rattle's toolchain"])
