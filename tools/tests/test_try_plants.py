"""Each plant of the repository can be planted, and its tests are there; and which function a plant is in, and when a verdict
is old (try_plants.py, contracts.py)."""

from __future__ import annotations

from collections import Counter
from pathlib import Path
from typing import Any

import pytest

from contracts import checksum_of_file, contracts_of
from counts import table_in
from repository import ROOT
from try_plants import Plant, crates_with_plants, faults, faults_of, is_there, kind_of, newly_said, plant_of, plants_of
from try_plants import still_said, twice_named, verdict_kept, wanted_of
from want_of_memory import places_in

SOURCE = """
const FIRST: usize = 1;

trait Sink {
    fn write(&mut self, bytes: &[u8]) -> Result<usize, Fault>
        ensures { Wrote result };

    const MOST: usize = 2;
}

/// Whether all are counts.
fn are_counts(members: &[Member]) -> bool
    ensures { result ≡ list_all is_count members.now }
{
    fn is_low(count: u64) -> bool {
        count < 3
    }
    members.iter().all(|member| is_low(member.count))
}

/// The most of them.
const MOST_OF_ALL: usize = 16;

impl Line {
    fn nothing(&self) {}

    const LONGEST: usize = 4;

    pub(crate) fn add(&self) -> usize {
        self.len() + 1
    }
}
"""


@pytest.mark.parametrize(
    "old, place",
    [
        ("FIRST: usize = 1", ("", "")),
        ("MOST: usize = 2", ("", "")),
        ("MOST_OF_ALL: usize = 16", ("", "")),
        ("LONGEST: usize = 4", ("Line", "")),
        # It stands above a function.
        ("/// The most", ("", "")),
        ("ensures { result ≡ list_all", ("", "are_counts")),
        ("members.iter()", ("", "are_counts")),
        ("self.len() + 1", ("Line", "add")),
        ("fn add", ("Line", "add")),
        # A function in a function ends before it.
        ("count < 3", ("", "is_low")),
    ],
)
def test_a_plant_is_in_a_function_of_a_type(old: str, place: tuple[str, str]) -> None:
    assert Plant("name", "src/lib.rt", old, "other").function(SOURCE)[1:] == place


BODIES = """
#![tactic(auto)]

ghost use Rattle.std.specs.Prelude.{◌≡◌};

use crate::rows::{Kind, Row};
use std::mem;

mod rows;
pub use rows::Row;

#[derive(Drop)]
pub struct Rows {
    rows: Vec<Row>,
    ghost rising: { AreRising rows },
}

impl Rows {
    #[tactic(auto, unfolding(
        crate::specs::Rows::added,
    ))]
    pub fn add(
        &mut self,
        row: Row,
    ) -> Result<(), OutOfMemory>
        ensures added { OnOk result (self.new ≡ record self.old {
          rows = self.old.rows ++ row ∷ [];
        }) }
    {
        let is_low = |count: u64| requires { count < 3 } { count < 2 };
        mem::swap(self, row)
    }

    fn len(&self) -> usize {
        self.rows.len()
    }
}

impl<'a> Iterator for Left<'a> {
    fn next(&mut self) -> Option<Kind> {
        None
    }
}

fn law(x: u64)
    ensures { x ≡ x }
{}

pub(crate) fn last(rows: [u8; 3]) -> u64;
"""
FROM_ABOVE = """ghost use Rattle.std.specs.Prelude.{◌≡◌};
use crate::rows::Kind;
use crate::rows::Row;
pub use rows::Row;
#[derive(Drop)]
pub struct Rows {
    rows: Vec<Row>,
    ghost rising: { AreRising rows },
}
impl Rows {
    pub fn add(
        &mut self,
        row: Row,
    ) -> Result<(), OutOfMemory>
        ensures added { OnOk result (self.new ≡ record self.old {
          rows = self.old.rows ++ row ∷ [];
        }) }
}
impl<'a> Iterator for Left<'a> {
    fn next(&mut self) -> Option<Kind>
}
"""


def test_bodies_tactics_and_what_is_private_are_left_out() -> None:
    assert contracts_of(BODIES, from_above=True) == FROM_ABOVE


def test_the_crate_itself_sees_its_private_functions() -> None:
    seen = contracts_of(BODIES, from_above=False)
    assert "    fn len(&self) -> usize\n}\n" in seen
    assert "fn law(x: u64)\n    ensures { x ≡ x }\npub(crate) fn last(rows: [u8; 3]) -> u64;\n" in seen
    assert "mod rows;\n" in seen
    assert "count < 3" not in seen
    assert "mem" not in seen


CODE = {
    "crates.txt": "# Crates\nlow:\nbeside: low\nmid: low serde_json\nhigh: mid\n",
    "crates/low/specs/Rows.antt": "-- the rows\nabbrev pub rows : ℕ\nrows = 1\n",
    "crates/low/src/lib.rt": "pub fn row() -> u64\n    ensures { result ≡ 1 }\n{\n    1\n}\n\nfn own() -> u64 {\n    1\n}\n",
    "crates/beside/src/lib.rt": "pub fn beside() -> u64 {\n    1\n}\n",
    "crates/mid/src/lib.rt": "pub fn mid() -> u64 {\n    1\n}\n",
    "crates/high/src/lib.rt": "/// Counts.\npub fn count() -> u64 {\n    1\n}\n",
    "crates/high/src/rows.rt": "fn first() -> u64\n    ensures { result ≡ 1 }\n{\n    1\n}\n",
}


def checksum(folder: Path, name: str = "", old: str = "", new: str = "") -> str:
    """The checksum of a file of the highest crate, with a text of a file in place of another."""
    for file, text in CODE.items():
        path = folder / file
        path.parent.mkdir(parents=True, exist_ok=True)
        path.write_text(text.replace(old, new) if file == name else text)
    return checksum_of_file(folder, "high", "src/lib.rt")


@pytest.mark.parametrize(
    "name, old, new",
    [
        ("crates/low/specs/Rows.antt", "rows = 1", "rows = 2"),
        ("crates/low/src/lib.rt", "result ≡ 1", "result ≡ 2"),
        ("crates/mid/src/lib.rt", "-> u64", "-> u32"),
        ("crates/high/src/rows.rt", "result ≡ 1", "result ≡ 2"),
        ("crates.txt", "high: mid", "high: mid beside"),
        ("crates/high/src/lib.rt", "    1", "    2"),
    ],
)
def test_definitions_contracts_and_the_file_itself_count(folder: Path, name: str, old: str, new: str) -> None:
    assert checksum(folder / "now", name, old, new) != checksum(folder / "before")


@pytest.mark.parametrize(
    "name, old, new",
    [
        ("crates/low/src/lib.rt", "    1", "    2"),
        ("crates/high/src/rows.rt", "    1", "    2"),
        ("crates/low/src/lib.rt", "fn own() -> u64", "fn own(x: u64) -> u64"),
        ("crates/beside/src/lib.rt", "-> u64", "-> u32"),
        ("crates/high/src/lib.rt", "/// Counts.", "/// Counts all."),
        ("crates/low/specs/Rows.antt", "-- the rows", "-- all rows"),
    ],
)
def test_bodies_comments_and_what_is_private_or_not_below_do_not_count(folder: Path, name: str, old: str, new: str) -> None:
    assert checksum(folder / "now", name, old, new) == checksum(folder / "before")


entry = {"name": "name", "file": "src/lib.rt", "old": "1", "new": "2", "reason": "why"}


def test_further_pairs_are_taken_in_their_order() -> None:
    plant = plant_of({**entry, "more": [["3", "4"], ["5", "6"]]})
    assert plant == Plant("name", "src/lib.rt", "1", "2", (("3", "4"), ("5", "6")), "why")


def test_a_misspelled_member_is_an_error() -> None:
    with pytest.raises(TypeError):
        plant_of({**entry, "reasons": "why"})


plant = Plant("name", "src/lib.rt", "1", "2")


def test_a_verdict_counts_on_the_code_that_it_was_tried_on() -> None:
    kept = {"name": [plant.mark(), "refused", "code"]}
    assert verdict_kept(kept, plant, "code") == "refused"
    assert verdict_kept(kept, plant, "later code") == "old"
    assert verdict_kept(kept, Plant("name", "src/lib.rt", "1", "3"), "code") == "not tried"
    assert verdict_kept({}, plant, "code") == "not tried"


def test_a_verdict_names_the_copy_that_was_tried(folder: Path) -> None:
    tried_on = checksum(folder)
    said = newly_said({"name": "refused"}, [plant, Plant("other", "src/lib.rt", "1", "2")], folder / "crates" / "high")
    assert said == {"name": [plant.mark(), "refused", tried_on]}


def test_a_verdict_of_no_plant_is_dropped() -> None:
    kept = {"name": [plant.mark(), "refused", "code"], "gone": ["mark", "refused", "code"]}
    assert still_said(kept, [plant]) == {"name": kept["name"]}


def test_plants_are_wanted_by_their_names_and_verdicts() -> None:
    one, two, three = (Plant(name, "src/lib.rt", "1", "2") for name in ("one", "two", "three"))
    said = {one: "refused", two: "old", three: "not tried"}
    assert wanted_of(said, False, []) == [one, two, three]
    assert wanted_of(said, True, []) == [two, three]
    assert wanted_of(said, False, ["one", "three"]) == [one, three]
    assert wanted_of(said, True, ["one", "three"]) == [three]


def test_what_is_proved_counts_by_what_refuses_it() -> None:
    assert kind_of(plant_of({**entry, "refused_by": ["a test"]}), "PROVED") == "proved, refused by a test"
    assert kind_of(plant_of({**entry, "costs": "time"}), "PROVED") == "proved, costs time alone"
    assert kind_of(plant_of(entry), "PROVED") == "proved"


def test_other_verdicts_count_as_they_are() -> None:
    plant = Plant("name", "src/lib.rt", "1", "2", refused_by=("a test",))
    verdicts = ("refused", "old", "not tried", "stale", "no Rust")
    kinds = ["refused by a contract", "old", "not tried", "not tried", "not tried"]
    assert [kind_of(plant, verdict) for verdict in verdicts] == kinds


def test_a_table_is_found_though_a_column_came() -> None:
    page = ["| crate | tests |", "|---|---|", "", "| crate | planted | old |", "|---|---|---|", "| a | 2 | 1 |", "", "text"]
    assert table_in(page, "| crate | planted | proved | old |") == (3, 6)
    assert table_in(page, "| crate | edits |") == (8, 8)


crate = ROOT / "crates" / "seat_rules"


def test_each_plant_stands_once_and_its_tests_are_there() -> None:
    assert faults() == []


@pytest.mark.parametrize("file, old", [("stop_word.rt", "no such text"), ("stop_word.rt", "result"), ("none.rt", "result")])
def test_a_text_that_does_not_stand_once_is_a_fault(file: str, old: str) -> None:
    assert faults_of(Plant("name", f"src/{file}", old, "other"), crate) == ["its text does not stand there once"]


def test_costs_are_time_and_refused_by_no_test() -> None:
    entry = {"name": "name", "file": "src/stop_word.rt", "old": "execution.value()", "new": "0"}
    fault = ["`costs` is time, and is left out if a test refuses the plant"]
    assert faults_of(plant_of({**entry, "costs": "time"}), crate) == []
    assert faults_of(plant_of({**entry, "costs": "memory"}), crate) == fault
    tested = plant_of({**entry, "costs": "time", "refused_by": ["cases/operator/stop_seen"]})
    assert faults_of(tested, crate) == fault


def test_a_reason_that_names_a_test_is_a_fault() -> None:
    plant = Plant("name", "src/stop_word.rt", "execution.value()", "0", reason="the case stop_seen shows it")
    assert faults_of(plant, crate) == ["its reason names a test, which `refused_by` has to name"]


@pytest.mark.parametrize("pairs", [("1", "1"), ("1", "2", ("3", "3"))])
def test_a_text_that_nothing_else_replaces_is_a_fault(pairs: tuple[Any, ...]) -> None:
    old, new, *more = pairs
    assert "a text does not differ from what replaces it" in faults_of(
        Plant("name", "src/lib.rt", old, new, tuple(more)), crate
    )


def test_two_plants_of_one_name_are_told() -> None:
    assert twice_named([plant, Plant("other", "src/lib.rt", "1", "2"), plant]) == ["name"]


@pytest.mark.parametrize(
    "test",
    [
        *("cases/scripts/nightly_chain", "cases/operator/stop_seen", "cases/commands.toml", "tools/tests/test_log.py"),
        "crates/value_tests: a_ring_is_a_cycle",
    ],
)
def test_a_test_is_there(test: str) -> None:
    assert is_there(test)


@pytest.mark.parametrize(
    "test",
    [
        *("cases/scripts/stop_seen", "cases/scripts", "crates/service_cases", "README.md"),
        *("tools/repository.py", "tools/tests/test_none.py", "tools/tests/program.py"),
        *("crates/value_tests: spot_of", "crates/no_tests: a_ring_is_a_cycle"),
    ],
)
def test_a_test_is_not_there(test: str) -> None:
    assert not is_there(test)


def test_want_of_memory_is_found_where_plants_say_so() -> None:
    for crate in crates_with_plants():
        for plant in plants_of(crate):
            if "tools/tests/test_want_of_memory.py" in plant.refused_by:
                text = (ROOT / "crates" / crate / plant.file).read_text()
                found = Counter(places_in(plant.put(text) or "")) - Counter(places_in(text))
                assert found, f"{crate}: {plant.name}"
