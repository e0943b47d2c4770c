"""Draws the crates of crates.txt as a Mermaid picture in docs/ARCHITECTURE.md, and looks after their layers.

    python3 tools/draw_crates.py            writes the picture anew
    python3 tools/draw_crates.py --check    says what differs, and ends with status 1 if anything does

An arrow goes from a crate to each crate of the repository that it uses and that no other of its crates uses already.
Programs, which no crate uses, have round ends. crates.txt has the layers, the lowest first. It also ends with status 1 if a
crate has no layer, or uses a crate of a higher one. The repository's layer is above all that is proved over any repository. So
only the crate that binds both, and those above it, can use the repository that there is.
"""

from __future__ import annotations

import argparse
import sys
from pathlib import Path

from repository import NO_LAYER, ROOT, layers, uses_by_crate, with_libraries

PAGE = ROOT / "docs" / "ARCHITECTURE.md"
BEGIN = "<!-- The picture is drawn by tools/draw_crates.py. -->\n```mermaid\n"
END = "```\n"


def direct_uses(crate: str) -> list[str]:
    """The crates that a crate uses, without those that stand below another one of them."""
    uses = uses_by_crate()
    used = [other for other in uses[crate] if other in uses]
    below = {lower for other in used for lower in with_libraries({other}) - {other}}
    return [other for other in used if other not in below]


def box_of(crate: str) -> str:
    """A crate in Mermaid's words. A program has round ends."""
    is_program = (ROOT / "crates" / crate / "src" / "main.rt").exists()
    return f"{crate}([{crate}])" if is_program else crate


def picture() -> str:
    """The picture, in Mermaid's words: the layers from the highest on, and the arrows."""
    lines = ["flowchart TD"]
    for number, (layer, crates) in reversed(list(enumerate(layers().items(), 1))):
        lines += [f'    subgraph layer_{number} ["{layer}"]', *(f"        {box_of(crate)}" for crate in crates), "    end"]
    lines += [f"    {crate} --> {other}" for crate in reversed(uses_by_crate()) for other in direct_uses(crate)]
    return "\n".join(lines) + "\n"


def drawn_and_around() -> tuple[str, str, str]:
    """The picture that the page has, what stands before it, and what behind it."""
    before, begin, rest = PAGE.read_text().partition(BEGIN)
    drawn, end, after = rest.partition(END)
    if not begin or not end:
        sys.exit(f"draw_crates: {PAGE.name} has no picture")
    return drawn, before + begin, end + after


def faults_of_layers(root: Path = ROOT) -> list[str]:
    """The crates without a layer, and the uses of a crate of a higher layer, a line for each."""
    layer_of = {crate: layer for layer, crates in layers(root).items() for crate in crates}
    order = list(layers(root))
    found = [f"{crate} has no layer" for crate, layer in layer_of.items() if layer == NO_LAYER]
    for crate, libraries in uses_by_crate(root).items():
        for library in libraries:
            if library in layer_of and order.index(layer_of[library]) > order.index(layer_of[crate]):
                found.append(f"{crate} ({layer_of[crate]}) uses {library}, which is of a higher layer ({layer_of[library]})")
    return found


def faults() -> list[str]:
    """What is wrong with the layers and with the picture, a line for each."""
    is_drawn = drawn_and_around()[0] == picture()
    told = f"the picture of {PAGE.name} is not that of crates.txt: run tools/draw_crates.py"
    return faults_of_layers() + ([] if is_drawn else [told])


def main() -> int:
    parser = argparse.ArgumentParser(description=(__doc__ or "").splitlines()[0])
    parser.add_argument("--check", action="store_true")
    check = parser.parse_args().check
    wrong = faults() if check else faults_of_layers()
    for line in wrong:
        print(f"draw_crates: {line}", file=sys.stderr)
    if not check and not wrong:
        _, before, after = drawn_and_around()
        PAGE.write_text(before + picture() + after)
    return 1 if wrong else 0


if __name__ == "__main__":
    sys.exit(main())
