"""What the tools know of the repository: its crates, what each uses, and where its tests stand."""

from __future__ import annotations

import shutil
from pathlib import Path

ROOT = Path(__file__).resolve().parent.parent
# The line ahead of the crates of a layer, and the layer of crates ahead of each such line.
LAYER, NO_LAYER = "# layer: ", "no layer"


def lines_of_crates(root: Path) -> list[str]:
    return (root / "crates.txt").read_text().splitlines()


def crate_of(line: str) -> str:
    """The crate that a line of crates.txt names; none, if it is a comment."""
    name, colon, _ = line.partition("#")[0].partition(":")
    return name.split()[0] if colon else ""


def uses_by_crate(root: Path = ROOT) -> dict[str, list[str]]:
    """The crates of a repository's crates.txt, each with the libraries that it uses."""
    return {crate: line.partition(":")[2].split() for line in lines_of_crates(root) if (crate := crate_of(line))}


def layers(root: Path = ROOT) -> dict[str, list[str]]:
    """The crates by the layers of crates.txt, the lowest layer first. A line `# layer: NAME` is ahead of the crates of each."""
    found: dict[str, list[str]] = {}
    layer = NO_LAYER
    for line in lines_of_crates(root):
        if line.startswith(LAYER):
            layer = line.removeprefix(LAYER)
        elif crate := crate_of(line):
            found.setdefault(layer, []).append(crate)
    return found


def with_libraries(crates: set[str], root: Path = ROOT) -> set[str]:
    """These crates and those of the repository that they stand on."""
    uses = uses_by_crate(root)
    found: set[str] = set()
    waiting = list(crates)
    while waiting:
        name = waiting.pop()
        if name in uses and name not in found:
            found.add(name)
            waiting += uses[name]
    return found


def with_those_above(crates: set[str]) -> list[str]:
    """These crates and those that stand on them, each behind what it uses."""
    uses = uses_by_crate()
    wanted = [name for name in uses if with_libraries({name}) & crates]
    return sorted(wanted, key=lambda name: (len(with_libraries({name})), name))


def has_tests(crate: str) -> bool:
    return any("#[test]" in path.read_text() for path in (ROOT / "crates" / crate / "src").rglob("*.rt"))


def copy_of(crates: set[str], folder: Path) -> Path:
    """Copies these crates and those that they stand on into this folder, as a repository of their own, with nothing of what
    was built or kept in `out/`. Gives the folder that the crates are in."""
    kept = with_libraries(crates)
    shutil.copy(ROOT / "HANDLES", folder / "HANDLES")
    lines = [line for line in lines_of_crates(ROOT) if crate_of(line) in kept]
    (folder / "crates.txt").write_text("\n".join(lines) + "\n")
    for name in kept:
        shutil.copytree(ROOT / "crates" / name, folder / "crates" / name, ignore=shutil.ignore_patterns("out"))
    return folder / "crates"
