"""What the repository has to be before any proof; and wrong layers of its crates, which have to be noticed."""

from __future__ import annotations

import subprocess
from pathlib import Path

import pytest

import counts
import draw_crates
import specs_alone
from repository import ROOT, layers

RIGHT = """# Crates, with a comment: of no layer.
# layer: words
low: serde_json
mid: low
# layer: over any repository
log: mid low
# layer: the repository
rows: low
# layer: the binding
service: log rows mid

# layer: programs
program: service rows serde_json
"""


def test_no_definition_and_no_contract_names_a_lemma_file() -> None:
    assert specs_alone.places(ROOT) == []


def test_the_layers_hold_and_the_picture_has_them() -> None:
    assert draw_crates.faults() == []
    assert "the repository" in list(layers())[1:-1]


def test_the_page_has_the_counts() -> None:
    assert counts.otherwise() == []


@pytest.mark.parametrize("words", ["flake8 .", "black --check .", "mypy ."])
def test_the_tools_are_laid_out_and_typed(words: str) -> None:
    ended = subprocess.run(["/usr/bin/python3", "-m", *words.split()], cwd=ROOT / "tools", capture_output=True, text=True)
    assert ended.returncode == 0, ended.stdout + ended.stderr


@pytest.mark.parametrize(
    "old, new, told",
    [
        ("", "", []),
        ("log: mid", "log: rows mid", ["log (over any repository) uses rows, which is of a higher layer (the repository)"]),
        ("mid: low", "mid: low log", ["mid (words) uses log, which is of a higher layer (over any repository)"]),
        ("rows: low", "rows: service", ["rows (the repository) uses service, which is of a higher layer (the binding)"]),
        ("service: log", "service: log program", ["service (the binding) uses program, which is of a higher layer (programs)"]),
        ("# layer: words\n", "", ["low has no layer", "mid has no layer"]),
        ("# layer: words\n", "# words\n", ["low has no layer", "mid has no layer"]),
    ],
)
def test_a_crate_that_uses_a_higher_layer_is_named(folder: Path, old: str, new: str, told: list[str]) -> None:
    (folder / "crates.txt").write_text(RIGHT.replace(old, new, 1))
    assert draw_crates.faults_of_layers(folder) == told
