"""docs/SERVICE.md has each refusal, metric, path and word of a query. tools/tests/test_pasted_pages.py runs what it shows."""

from __future__ import annotations

import ast
import re
from collections.abc import Iterator

from catalogue_samples import ROOT

from job_host.protocol.problem_statuses import STATUS_OF_PROBLEM, STATUS_OF_REFUSAL
from job_host.service.metrics import Metrics
from job_host.service.pages import USUAL_SIZE
from job_host.service.routes import work
from job_host.service.routes.table import ROUTES
from job_host.service.settings import LOG_BOUNDS, Bounds

PAGE = ROOT / "docs" / "SERVICE.md"


def test_the_first_page_has_commands_of_that_night() -> None:
    night = PAGE.read_text().splitlines()
    page = (ROOT / "README.md").read_text().splitlines()
    commands = [re.split(r" +[&#]", line)[0] for line in page if line.startswith("jobhost ")]
    assert commands
    assert [command for command in commands if not any(line.startswith(command) for line in night)] == []


def test_the_first_page_names_crates_and_tests_that_are_there() -> None:
    """The grounds of each row of the promise: crates of its proofs, and files of its tests."""
    page = (ROOT / "README.md").read_text()
    promise = page[page.index("| You use |") : page.index("We trust")]
    named = {name for place in re.findall(r"\(([^()]*`[^()]*)\)", promise) for name in names_in(place)}
    tests = {path.name for folder in ("tools/tests", "service/tests") for path in (ROOT / folder).glob("*.py")}
    crates = {path.name for path in (ROOT / "crates").iterdir()}
    assert len(named) > 10
    assert named - tests - crates == set()


def rows() -> list[list[str]]:
    """The cells of the rows of the page's tables."""
    lines = [line for line in PAGE.read_text().splitlines() if line.startswith("| ")]
    return [[cell.strip() for cell in line.strip("|").split(" | ")] for line in lines]


def test_the_page_has_each_refusal_with_its_status() -> None:
    told = [(name, int(cells[1])) for cells in rows() if re.fullmatch("[345][0-9]{2}", cells[1]) for name in names_in(cells[0])]
    assert sorted(told) == sorted([*STATUS_OF_PROBLEM.items(), *STATUS_OF_REFUSAL.items()])


def names_in(cell: str) -> list[str]:
    return re.findall("`([^`]+)`", cell)


def raised() -> Iterator[tuple[str, int]]:
    """The problems that the service makes, with their statuses."""
    trees = [ast.parse(path.read_text()) for path in (ROOT / "service" / "job_host").rglob("*.py")]
    for call in [node for tree in trees for node in ast.walk(tree) if isinstance(node, ast.Call) and node.args]:
        words = [word.value for word in call.args if isinstance(word, ast.Constant)]
        if ast.unparse(call.func) == "unavailable":
            yield str(words[0]), 503
        elif ast.unparse(call.func) in ("Problem", "super().__init__") and words[1:] and isinstance(words[1], int):
            yield str(words[0]), words[1]


def test_each_problem_is_one_of_the_table() -> None:
    known, made = STATUS_OF_PROBLEM | STATUS_OF_REFUSAL, set(raised())
    assert [(name, status) for name, status in sorted(made) if known.get(name) != status] == []
    assert STATUS_OF_PROBLEM.keys() - {name for name, _ in made} == {"MethodNotAllowed", "RequestEntityTooLarge"}


def test_the_page_has_each_metric() -> None:
    told = {name for cells in rows() for name in names_in(cells[0]) if name.startswith("jobhost_")}
    metrics = Metrics(LOG_BOUNDS)
    # Those of several queues, which aren't told otherwise.
    assert len(metrics.each_queue) == 2
    families = list(metrics.registry.collect())
    assert told == {family.name + ("_total" if family.type == "counter" else "") for family in families}


def test_the_page_has_each_path_and_each_word_of_a_query() -> None:
    text = "\n".join(cells[0] for cells in rows())
    for method, path, _, _, words in ROUTES:
        row = re.search(rf"^`{method} {re.escape(path)}(?![/\w]).*$", text, re.M)
        assert row is not None, path
        assert [word for word in words if word != "atLeast" and f"{word}=" not in row[0]] == [], path


def test_the_page_has_an_example_of_each_path() -> None:
    asked = re.findall(r"^(?:ask|until curl -sf) .*$", PAGE.read_text(), re.M)
    others = [("GET", path) for path in ("/batch/events", "/metrics", "/health/leader", "/readyz")]
    routes = [(route[0], route[1]) for route in ROUTES]
    for method, path in [*routes, *others]:
        pattern = re.escape(path).replace(r"\{id\}", "[0-9]+").replace(r"\{name\}", "[a-z]+") + r"(?![/\w])"
        assert any(re.search(pattern, line) and (method in line or path == "/readyz") for line in asked), (method, path)
    for action in (*work.ACTIONS, "heartbeat", "stop", "restart", "abandon"):
        assert any(f"?action={action}'" in line for line in asked), action


def test_the_page_has_the_bounds_of_pages() -> None:
    bounds, text = Bounds(), PAGE.read_text()
    assert f"50 if it is left out and {bounds.page_size:,} at most" in text
    assert f"of the job executions of a job instance, {bounds.page_of_large_rows}." in text
    assert f"the first {bounds.listed:,}, and" in text
    assert f"links its newest {USUAL_SIZE} job executions" in text
