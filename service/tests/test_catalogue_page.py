"""docs/CATALOGUE.md: its commands print what it shows, and its tables have each member and each form."""

from __future__ import annotations

import importlib
import re
import sys
from pathlib import Path

import pytest
from catalogue_samples import BATCHCTL, ROOT

from job_host.catalogue import jsl
from job_host.catalogue.forms import FORMS

sys.path.insert(0, str(ROOT / "tools"))
page_blocks = importlib.import_module("page_blocks")

PAGE = ROOT / "docs" / "CATALOGUE.md"


def test_the_commands_print_what_the_page_shows(tmp_path: Path, monkeypatch: pytest.MonkeyPatch) -> None:
    """The settings that it shows are read in test_job_settings.py."""
    (tmp_path / "jobhost").symlink_to(ROOT / "service" / "jobhost")
    monkeypatch.setenv("PATH", f"{tmp_path}:/usr/bin:/bin")
    monkeypatch.setenv("JOBHOST_BATCHCTL", str(Path(BATCHCTL[0]).resolve()))
    blocks = list(page_blocks.blocks_in(str(PAGE), PAGE.read_text()))
    differences = list(page_blocks.unknown_blocks(blocks, "a block that can be checked", ("sh", "sh build", "conf")))
    differences += page_blocks.check_shell(Path(BATCHCTL[0]).resolve(), blocks)
    assert "\n".join(map(str, differences)) == ""


def test_the_page_runs_each_command() -> None:
    commands = re.findall(r"^jobhost catalogue ([\w-]+)", PAGE.read_text(), re.M)
    assert set(commands) == {"check", "line", "from-jsl", "diagram", "diff"}


def test_the_tables_have_each_member_and_each_form() -> None:
    text = PAGE.read_text()
    members = {name for form in FORMS.values() for name in form}
    assert {name for name in members | set(jsl.REFUSED) if f"`{name}`" not in text} == set()


def test_the_page_says_what_to_do_instead_of_each_form() -> None:
    """Each form that is refused by its name has one row, whose cells all say something."""
    text = PAGE.read_text()
    section = text[text.index("## What has no JSON form") : text.index("## Settings of a job")]
    rows = [[cell.strip() for cell in line.strip("|").split(" | ")] for line in section.splitlines() if line.startswith("| `")]
    names = [name for cells in rows for name in re.findall("`([^`]+)`", cells[0])]
    assert sorted(names) == sorted(jsl.REFUSED)
    assert {len([cell for cell in cells if cell]) for cells in rows} == {4}
