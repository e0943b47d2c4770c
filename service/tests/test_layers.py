"""The package's parts by what runs where: which of them may import which, and that no modules import each other in a ring."""

from __future__ import annotations

import ast
from collections.abc import Iterator, Mapping, Set
from graphlib import CycleError, TopologicalSorter
from importlib.util import resolve_name
from pathlib import Path

import pytest
from catalogue_samples import ROOT

PACKAGE = ROOT / "service" / "job_host"
# Each part, and the parts that it may import beside itself. So a worker's modules need none of the service's.
MAY_IMPORT: Mapping[str, Set[str]] = {
    "": set(),
    "protocol": set(),
    "catalogue": {"protocol"},
    "archive": {"protocol"},
    "worker": {"protocol"},
    "service": {"protocol", "catalogue", "archive"},
    "commands": {"protocol", "catalogue", "archive", "worker", "service"},
    "__main__": {"commands"},
}
# The folders and modules of the part `service`. Each may import what stands before it.
ORDER_OF_SERVICE = (
    *("pages", "ids", "problems", "settings"),
    *("history", "versions", "terms", "stores", "keepers", "queues", "http", "routes"),
    *("retention", "policies", "metrics", "making", "server"),
)

Graph = Mapping[str, Set[str]]


def texts_in(package: Path) -> dict[str, str]:
    """The text of each module, by the module's name."""
    names = {path: ".".join(path.relative_to(package.parent).with_suffix("").parts) for path in package.rglob("*.py")}
    return {name.removesuffix(".__init__"): path.read_text() for path, name in names.items()}


def named_by(node: ast.AST, package: str) -> Iterator[str]:
    """What an import names: a module, or a module and a name in it."""
    if isinstance(node, ast.Import):
        yield from (alias.name for alias in node.names)
    elif isinstance(node, ast.ImportFrom):
        base = resolve_name("." * node.level + (node.module or ""), package)
        yield from (f"{base}.{alias.name}" for alias in node.names)


def packages_of(name: str) -> list[str]:
    """The packages around what has this name, the outermost first."""
    parts = name.split(".")
    return [".".join(parts[:count]) for count in range(1, len(parts))]


def loaded_by(name: str, importer: str, modules: Set[str]) -> set[str]:
    """The modules that are loaded for a name: its own, and the packages around it, but those around the importer."""
    found = [one for one in [*packages_of(name), name] if one in modules]
    return {*found[-1:], *(set(found) - {importer, *packages_of(importer)})}


def imports_in(texts: Mapping[str, str]) -> Graph:
    """The modules that each module imports: at its top, in functions, and for its types alone."""
    graph: dict[str, set[str]] = {}
    for importer, text in texts.items():
        is_package = any(name.startswith(f"{importer}.") for name in texts)
        package = importer if is_package else importer.rpartition(".")[0]
        names = [name for node in ast.walk(ast.parse(text)) for name in named_by(node, package)]
        graph[importer] = {one for name in names for one in loaded_by(name, importer, texts.keys())}
    return graph


def part_of(module: str) -> str:
    return [*module.split("."), ""][1]


def place_in_service(module: str) -> int:
    name = [*module.split("."), "", ""][2]
    return ORDER_OF_SERVICE.index(name) if name else -1


def is_against(importer: str, imported: str) -> bool:
    if part_of(importer) != part_of(imported):
        return part_of(imported) not in MAY_IMPORT[part_of(importer)]
    return part_of(importer) == "service" and place_in_service(imported) > place_in_service(importer)


def against_the_directions(graph: Graph) -> set[tuple[str, str]]:
    return {(importer, imported) for importer, those in graph.items() for imported in those if is_against(importer, imported)}


def ring_in(graph: Graph) -> list[str]:
    """Modules each of which imports the next one, and the last one is the first. It is empty if there is no ring."""
    try:
        TopologicalSorter(graph).prepare()
    except CycleError as fault:
        return list(reversed(fault.args[1]))
    return []


def test_no_import_is_against_the_directions() -> None:
    assert against_the_directions(imports_in(texts_in(PACKAGE))) == set()


def test_no_modules_import_each_other() -> None:
    assert ring_in(imports_in(texts_in(PACKAGE))) == []


def test_each_module_is_in_a_part_that_is_named_here() -> None:
    texts = texts_in(PACKAGE)
    assert len(texts) > 70
    assert {part_of(name) for name in texts} == set(MAY_IMPORT)
    assert {name.split(".")[2] for name in texts if name.startswith("job_host.service.")} == set(ORDER_OF_SERVICE)


EMPTY = dict.fromkeys(["job_host", *(f"job_host.{part}" for part in ("protocol", "worker", "commands", "service"))], "")
WRONG = {
    "job_host.protocol.client": "import asyncio\nfrom job_host.service.problems import Problem\n",
    "job_host.service.problems": "def document() -> None:\n    from ..protocol import client\n",
    "job_host.worker.chunks": "import job_host.commands.jobs as jobs, json\n",
    "job_host.commands.jobs": "from job_host.worker import chunks\n",
    "job_host.service.pages": "if TYPE_CHECKING:\n    from job_host.service.server import Service\n",
    "job_host.service.server": "from job_host.service import pages\nfrom job_host.protocol import *\n",
}


def test_imports_against_the_directions_are_found() -> None:
    assert against_the_directions(imports_in({**EMPTY, **WRONG})) == {
        ("job_host.protocol.client", "job_host.service"),
        ("job_host.protocol.client", "job_host.service.problems"),
        ("job_host.worker.chunks", "job_host.commands"),
        ("job_host.worker.chunks", "job_host.commands.jobs"),
        ("job_host.service.pages", "job_host.service.server"),
    }


@pytest.mark.parametrize(
    "ring",
    [
        ("job_host.protocol.client", "job_host.service.problems"),
        ("job_host.worker.chunks", "job_host.commands.jobs"),
        ("job_host.service.pages", "job_host.service.server"),
    ],
)
def test_a_ring_is_found(ring: tuple[str, str]) -> None:
    found = ring_in(imports_in({**EMPTY, **{name: WRONG[name] for name in ring}}))
    assert len(found) == 3 and found[0] == found[2] and set(found) == set(ring)
    assert ring_in(imports_in({**EMPTY, ring[0]: WRONG[ring[0]], ring[1]: ""})) == []


def test_a_package_that_imports_its_importer_is_a_ring() -> None:
    texts = {**EMPTY, "job_host.service": "import job_host.worker.chunks", "job_host.service.pages": ""}
    assert ring_in(imports_in({**texts, "job_host.worker.chunks": "from job_host.service.pages import Page"})) != []
