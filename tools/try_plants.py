"""Plants the wrong bodies of `plants/CRATE.toml` in a copy of the repository, and says which of them are still proved.

    python3 tools/try_plants.py CRATE..            tries all plants of these crates
    python3 tools/try_plants.py --new CRATE..      only those that have no verdict on the code as it stands
    python3 tools/try_plants.py --only NAME CRATE  only the plant of this name; --only may be given again
    python3 tools/try_plants.py                    tries nothing, and prints the verdicts
    python3 tools/try_plants.py --check            tries nothing, and says what is wrong with plants as they stand: a text that
                                                   does not stand once in its file, or that nothing else replaces; two plants
                                                   of one name; a test that is not there

A plant that is still proved is a gap in a contract, unless `refused_by` names a test that refuses it, or it costs time alone.
Each function is proved by itself, so one check tries a plant in each of many functions; a second plant of a function waits
for the next check. A plant is

- `refused` where its function gets no proof for a goal of its own,
- `PROVED` where its function is proved,
- `no Rust` where the edited code does not compile.

Where the check names only what the function calls, which may hold another plant, or nothing of the function at all,
the plant is tried again by itself, and the whole crate decides. So it is where an answer no longer fits because its goal
became trivial: a plant against which nothing else is said counts as proved.

The copy has nothing of `out/`. Each crate is checked once with no plant, and has to be proved: that takes as long as a first
check of the crate and of those below it, or less if checks in other copies on this machine kept them.

Verdicts are kept in `plants/verdicts.json`, and all of them are printed as a table in the end. Each has a checksum of what its
plant was tried on: the plant's file, and the definitions and contracts of its crate and of all crates below (contracts.py). If
any of these was changed since, the verdict is old, and counts for nothing. A plant whose own text was changed is not tried.
Must-fail edits are the telling plants, and the gate tries them; these here are tried by hand.
"""

from __future__ import annotations

import argparse
import hashlib
import json
import re
import subprocess
import sys
import tempfile
import tomllib
from collections import Counter
from dataclasses import dataclass
from pathlib import Path
from typing import Any

from contracts import FUNCTION, checksum_of_file, parts_of_function
from repository import ROOT, copy_of

VERDICTS = ROOT / "plants" / "verdicts.json"
# What the check says of an answer to a goal that the plant has made trivial: without the answer it would be proved.
FELL_AWAY = "the two types are `Unit {0}` (expected)"
FIRST_CHECK = ["rt", "check"]
CHECK = ["timeout", "1500", *FIRST_CHECK]
# By plant: its mark, what became of it, and a checksum of the code that it was tried on.
Kept = dict[str, list[str]]
# The columns of the table.
KINDS = ["refused by a contract", "proved, refused by a test", "proved, costs time alone", "proved", "old", "not tried"]


@dataclass(frozen=True)
class Plant:
    """A wrong body: a text that stands once in a file, and what stands there instead.

    A `reason` says why no contract refuses the plant. `refused_by` names the tests that do: scripts (cases/scripts/NAME),
    command lines (cases/commands.toml), tests in Rattle (crates/CRATE: NAME) or in Python (tools/tests/test_NAME.py). A plant
    with `costs` has the same results as the code that it replaces, and costs time alone.
    """

    name: str
    file: str
    old: str
    new: str
    more: tuple[tuple[str, str], ...] = ()
    reason: str = ""
    refused_by: tuple[str, ...] = ()
    costs: str = ""

    def mark(self) -> str:
        """What tells this plant from an edited one of the same name."""
        return hashlib.sha256(repr((self.file, self.old, self.new, self.more)).encode()).hexdigest()[:12]

    def put(self, text: str) -> str | None:
        """The text with the plant in it, further pairs on what the earlier ones made; none where a text stands not once."""
        for old, new in [(self.old, self.new), *self.more]:
            if text.count(old) != 1:
                return None
            text = text.replace(old, new)
        return text

    def function(self, text: str) -> tuple[str, str, str]:
        """The file, the type (if any) and the name of the function that the plant is in; no name if it is in none."""
        place = text.index(self.old) + len(self.old.split("\n")[0])
        return self.file, self.type_of(text[:place]), function_at(text, place)

    @staticmethod
    def type_of(before: str) -> str:
        """The type of the `impl` block that is open at the end of this text."""
        found = list(re.finditer(r"^impl(?:<[^>]*>)? (?:[A-Za-z:<>, ]+ for )?(\w+)[^\n]*\{$", before, re.M))
        return found[-1].group(1) if found and "\n}\n" not in before[found[-1].end() :] else ""


def function_at(text: str, place: int) -> str:
    """The name of the innermost function that goes on at this place of a file in `rt fmt`'s layout; none behind its end."""
    begun = [found for found in FUNCTION.finditer(text) if found.start() < place]
    return next((found[3] for found in reversed(begun) if place <= parts_of_function(text, found)[1]), "")


def plant_of(entry: dict[str, Any]) -> Plant:
    """The plant of an entry, which has lists. A member that a plant does not have is an error."""
    pairs = tuple((old, new) for old, new in entry.get("more", []))
    members: dict[str, Any] = {**entry, "more": pairs, "refused_by": tuple(entry.get("refused_by", []))}
    return Plant(**members)


def plants_of(crate: str) -> list[Plant]:
    with (ROOT / "plants" / f"{crate}.toml").open("rb") as file:
        entries = tomllib.load(file)["plant"]
    return [plant_of(entry) for entry in entries]


def twice_named(plants: list[Plant]) -> list[str]:
    """The names that more than one of these plants have. A name has one verdict."""
    return [name for name, count in Counter(plant.name for plant in plants).items() if count > 1]


def group_of(plants: list[Plant], sources: dict[str, str]) -> list[Plant]:
    """The first plants of which no two are in one function, nor overlap; one of a constant stands alone."""
    if not plants[0].function(sources[plants[0].file])[2]:
        return plants[:1]
    group: list[Plant] = []
    texts = dict(sources)
    functions: set[tuple[str, str, str]] = set()
    for plant in plants:
        function = plant.function(sources[plant.file])
        planted = None if function in functions or not function[2] else plant.put(texts[plant.file])
        if planted is not None:
            texts[plant.file] = planted
            functions.add(function)
            group.append(plant)
    return group


def planted(group: list[Plant], sources: dict[str, str]) -> dict[str, str]:
    texts = dict(sources)
    for plant in group:
        texts[plant.file] = plant.put(texts[plant.file]) or texts[plant.file]
    return texts


def check(crate: Path, texts: dict[str, str], sources: dict[str, str]) -> str:
    """What the check says of the crate with these texts."""
    try:
        for file, text in texts.items():
            (crate / file).write_text(text)
        return subprocess.run(CHECK, cwd=crate, stdout=subprocess.PIPE, stderr=subprocess.STDOUT, text=True).stdout
    finally:
        for file, text in sources.items():
            (crate / file).write_text(text)


def verdict(said: str, crate: str, function: tuple[str, str, str]) -> str:
    """What the check says of a function; `unclear` where it may say so because of another plant."""
    file, owner, name = function
    if not name:
        return verdict_of_crate(said)
    module = Path(file).stem
    path = rf"fn {crate}::(?:\w+::)*?(?:{module}::)?{owner}\w*::{name}" if owner else rf"fn {crate}::(?:\w+::)*{name}"
    lines = [line for line in said.splitlines() if re.match(path + r"(?::|\+|$)", line)]
    folder = rf"\./proofs/(?:\S+/)?{owner + '/' if owner else ''}\+?{name}/"
    # functions that call one another share a folder, where a goal's name begins with the function's
    goal = rf"(?:did not prove|error:) `(?:invariant-)?{name}-"
    without = [line for line in lines if ": no proof" in line]
    own = [line for line in without if ": no proof: it calls" not in line]
    if not own and fell_away(re.findall(rf"^{folder}\S*: error.*$", said, re.M)):
        return "unclear"
    if own or re.search(rf"^{folder}\S*: error|{goal}", said, re.M):
        return "refused"
    if not without and any(re.match(path + ": proved", line) for line in lines):
        return "PROVED"
    return "unclear"


def fell_away(errors: list[str]) -> bool:
    """Whether all that is said against a plant is that answers no longer fit, since their goals became trivial."""
    return bool(errors) and all(FELL_AWAY in error for error in errors)


def verdict_of_crate(said: str) -> str:
    """What the check says of a plant that is alone in its crate."""
    without = re.search(r": no proof(?!: it calls)", said)
    trivial = not without and fell_away(re.findall(r"^\./proofs/\S+: error.*$", said, re.M))
    return "PROVED" if "\nlogic=proved" in said or trivial else "refused"


def compiles(said: str) -> bool:
    return "\nlogic=" in said


def try_group(crate: Path, group: list[Plant], sources: dict[str, str]) -> dict[str, str]:
    """The verdict on each plant of a group; a group that does not compile is tried by halves, an unclear plant alone."""
    said = check(crate, planted(group, sources), sources)
    if len(group) == 1:
        said_of_it = verdict_of_crate(said) if compiles(said) else "no Rust"
        print(f"{crate.name}: {group[0].name}: {said_of_it}", flush=True)
        return {group[0].name: said_of_it}
    if not compiles(said):
        half = len(group) // 2
        return try_group(crate, group[:half], sources) | try_group(crate, group[half:], sources)
    verdicts = {plant.name: verdict(said, crate.name, plant.function(sources[plant.file])) for plant in group}
    unclear = [plant for plant in group if verdicts[plant.name] == "unclear"]
    for plant in (plant for plant in group if plant not in unclear):
        print(f"{crate.name}: {plant.name}: {verdicts[plant.name]}", flush=True)
    for plant in unclear:
        verdicts |= try_group(crate, [plant], sources)
    return verdicts


def prove(crate: Path) -> None:
    """Proves each function of a crate in the copy, with no plant in it."""
    said = subprocess.run(FIRST_CHECK, cwd=crate, stdout=subprocess.PIPE, stderr=subprocess.STDOUT, text=True).stdout
    if "\nlogic=proved" not in said:
        sys.exit(f"{said}\n{crate.name}: it is not proved with no plant in it")


def try_plants(crate: Path, plants: list[Plant]) -> None:
    """Tries plants in a copy of their crate. Verdicts are kept group by group, so a run that is cut off has those so far."""
    prove(crate)
    sources = {plant.file: (crate / plant.file).read_text() for plant in plants}
    stale = [plant.name for plant in plants if plant.put(sources[plant.file]) is None]
    for plant in stale:
        print(f"{crate.name}: {plant}: its text does not stand there once", flush=True)
    keep(crate, dict.fromkeys(stale, "stale"), plants)
    left = [plant for plant in plants if plant.name not in stale]
    while left:
        group = group_of(left, sources)
        keep(crate, try_group(crate, group, sources), plants)
        left = [plant for plant in left if plant not in group]


def crates_with_plants() -> list[str]:
    return sorted(path.stem for path in (ROOT / "plants").glob("*.toml"))


def kept_verdicts() -> dict[str, Kept]:
    """What is kept of each crate."""
    if not VERDICTS.exists():
        return {}
    verdicts: dict[str, Kept] = json.loads(VERDICTS.read_text())
    return verdicts


def verdict_kept(kept: Kept, plant: Plant, code: str) -> str:
    """What became of a plant on this code: `old` if it was tried on other code, `not tried` if its own text was another."""
    mark, said, tried_on = kept.get(plant.name, ("", "", ""))
    if mark != plant.mark():
        return "not tried"
    return said if tried_on == code else "old"


def verdicts_of(name: str, plants: list[Plant]) -> dict[Plant, str]:
    kept = kept_verdicts().get(name, {})
    return {plant: verdict_kept(kept, plant, checksum_of_file(ROOT, name, plant.file)) for plant in plants}


def still_said(kept: Kept, plants: list[Plant]) -> Kept:
    """The verdicts on plants that stand as they were tried."""
    return {plant.name: kept[plant.name] for plant in plants if kept.get(plant.name, [""])[0] == plant.mark()}


def newly_said(found: dict[str, str], plants: list[Plant], crate: Path) -> Kept:
    """The verdicts that were found in this copy of a crate, each with its plant's mark and the code that it was tried on."""
    root = crate.parent.parent
    tried = [plant for plant in plants if plant.name in found]
    return {plant.name: [plant.mark(), found[plant.name], checksum_of_file(root, crate.name, plant.file)] for plant in tried}


def keep(crate: Path, found: dict[str, str], plants: list[Plant]) -> None:
    """Keeps what was found of these plants in a copy of their crate, and drops the verdicts that are of no plant."""
    kept = kept_verdicts()
    new = {name: still_said(kept.get(name, {}), plants_of(name)) for name in crates_with_plants()}
    new[crate.name] |= still_said(newly_said(found, plants, crate), plants_of(crate.name))
    VERDICTS.write_text(json.dumps(new, indent=1, sort_keys=True) + "\n")


def wanted_of(said: dict[Plant, str], only_new: bool, names: list[str]) -> list[Plant]:
    """The plants to try: those of these names, or of any if there are none; only those without a verdict, if that is asked."""
    named = [plant for plant in said if not names or plant.name in names]
    return [plant for plant in named if not only_new or said[plant] in ("old", "not tried", "stale")]


def try_crates(crates: list[str], only_new: bool, names: list[str]) -> None:
    """Tries the plants of these crates in one copy of all of them."""
    wanted = {name: wanted_of(verdicts_of(name, plants_of(name)), only_new, names) for name in crates}
    with tempfile.TemporaryDirectory(prefix="plants-") as folder:
        copied = copy_of({name for name in crates if wanted[name]}, Path(folder))
        for name in crates:
            if wanted[name]:
                try_plants(copied / name, wanted[name])


def kind_of(plant: Plant, verdict: str) -> str:
    """The column of the table in which a plant with this verdict counts."""
    if verdict == "refused":
        return "refused by a contract"
    if verdict == "PROVED" and plant.refused_by:
        return "proved, refused by a test"
    if verdict == "PROVED":
        return "proved, costs time alone" if plant.costs else "proved"
    return "old" if verdict == "old" else "not tried"


def row_of(name: str) -> tuple[list[int], list[str]]:
    """How many plants a crate has, and of each kind; and what is proved and refused by nothing."""
    kinds = {plant: kind_of(plant, verdict) for plant, verdict in verdicts_of(name, plants_of(name)).items()}
    counts = Counter(kinds.values())
    gaps = [f"{name}: {plant.name}" for plant, kind in kinds.items() if kind == "proved"]
    return [len(kinds), *(counts[kind] for kind in KINDS)], gaps


def table() -> tuple[list[str], list[str]]:
    """What became of all plants by crate, as the lines of a table; and those that are proved and refused by nothing."""
    heads = ["planted", *KINDS]
    lines = ["| crate | " + " | ".join(heads) + " |", "|---|" + "---|" * len(heads)]
    totals = [0] * len(heads)
    gaps: list[str] = []
    for name in crates_with_plants():
        counts, proved = row_of(name)
        totals = [total + count for total, count in zip(totals, counts)]
        gaps += proved
        lines.append(f"| {name} | " + " | ".join(map(str, counts)) + " |")
    lines.append("| all | " + " | ".join(map(str, totals)) + " |")
    return lines, gaps


def is_there(test: str) -> bool:
    """Whether the repository has this test: one in Rattle, a file of tests in Python, or a file of cases with its replies."""
    folder, colon, name = test.partition(": ")
    if colon:
        head = re.compile(rf"^#\[test\]\n(?:#\[.*\n)*fn {re.escape(name)}\(", re.M)
        return any(head.search(path.read_text()) for path in (ROOT / folder / "src").rglob("*.rt"))
    if test.startswith("tools/"):
        return re.fullmatch(r"tools/tests/test_\w+\.py", test) is not None and (ROOT / test).is_file()
    has_script = any((ROOT / f"{test}{ending}").is_file() for ending in (".script", ".scripts"))
    return (has_script and (ROOT / f"{test}.replies").is_file()) or (test == "cases/commands.toml" and (ROOT / test).is_file())


def faults_of(plant: Plant, crate: Path) -> list[str]:
    """What is wrong with a plant of this crate as it stands."""
    path = crate / plant.file
    faults = [] if path.is_file() and plant.put(path.read_text()) is not None else ["its text does not stand there once"]
    if any(old == new for old, new in [(plant.old, plant.new), *plant.more]):
        faults.append("a text does not differ from what replaces it")
    faults += [f"there is no test {test}" for test in plant.refused_by if not is_there(test)]
    if plant.costs not in ("", "time") or (plant.costs and plant.refused_by):
        faults.append("`costs` is time, and is left out if a test refuses the plant")
    if re.search(r"[/_`]", plant.reason):
        faults.append("its reason names a test, which `refused_by` has to name")
    return faults


def faults() -> list[str]:
    """What is wrong with plants as they stand."""
    found = list[str]()
    for crate in crates_with_plants():
        plants = plants_of(crate)
        told = [f"{name}: two plants have this name" for name in twice_named(plants)]
        told += [f"{plant.name}: {fault}" for plant in plants for fault in faults_of(plant, ROOT / "crates" / crate)]
        found += [f"plants/{crate}.toml: {line}" for line in told]
    return found


def main() -> int:
    parser = argparse.ArgumentParser(description=__doc__.splitlines()[0])
    parser.add_argument("--new", action="store_true", help="only plants without a verdict")
    parser.add_argument("--only", action="append", default=[], metavar="NAME", help="only the plant of this name")
    parser.add_argument("--check", action="store_true", help="try nothing, and look whether texts and tests are there")
    parser.add_argument("crates", nargs="*")
    words = parser.parse_args()
    if words.check:
        found = faults()
        for fault in found:
            print(fault)
        return 1 if found else 0
    for crate in words.crates:
        if twice := twice_named(plants_of(crate)):
            sys.exit(f"plants/{crate}.toml: two plants have the name {' or '.join(twice)}, and a name has one verdict")
    try_crates(words.crates, words.new, words.only)
    lines, gaps = table()
    print("\n".join(lines))
    for gap in gaps:
        print(f"still proved: {gap}")
    return 1 if gaps else 0


if __name__ == "__main__":
    sys.exit(main())
