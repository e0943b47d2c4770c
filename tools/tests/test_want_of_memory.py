"""Each place that answers want of memory of its own accord is listed with its reason; and how such a place is found."""

from __future__ import annotations


import pytest

from want_of_memory import faults, places_in


def test_each_place_is_listed() -> None:
    assert faults() == []


GIVES_UP = """
fn row(&self, x: u64) -> Result<Row, OutOfMemory>
    ensures { OnErr result (result ≡ Err Refusal.OutOfMemory) }
{
    if x == 77 {
        return Err(OutOfMemory);
    }
    self.find(x)
}
"""

HANDS_ON = """
impl From<AllocError> for Fault {
    fn from(_error: AllocError) -> Fault {
        Fault::OutOfMemory
    }
}

/// Answers `OutOfMemory` where memory is refused.
fn name(fault: Fault) -> Result<&'static str, AllocError> {
    let copy = text.try_clone()?;
    if matches!(fault, Fault::OutOfMemory) {
        return Ok("OutOfMemory");
    }
    match fault {
        Fault::OutOfMemory => Ok("out of memory"),
        Inner::OutOfMemory => Err(Fault::OutOfMemory),
    }
}
"""


PROMISES = """
trait Absorb {
    fn absorb(&mut self, entry: &Entry) -> Result<(), OutOfMemory>
        requires { stands self.old entry }
        ensures refused { OnErr result (self.new ≡ self.old) };
}
"""


AS_ANOTHER = "Err(Refusal::RepositoryFull) => Err(Refusal::OutOfMemory),"
BY_ITS_PATH = "None => return Err(std::alloc::AllocError),"
BY_A_CLOSURE = "let at = self.place(key).ok_or(AllocError)?;"


# Sources, and the lines in them that make the answer.
SOURCES = {
    "on a rare condition": (GIVES_UP, ["return Err(OutOfMemory);"]),
    "types, patterns, conversions, and what is handed on": (HANDS_ON, []),
    "a method without a body": (PROMISES, []),
    "in place of another refusal": (f"match reply {{\n    {AS_ANOTHER}\n}}", [AS_ANOTHER]),
    "named by its path": (f"match vertex {{\n    {BY_ITS_PATH}\n}}", [BY_ITS_PATH]),
    "in a closure": (BY_A_CLOSURE, [BY_A_CLOSURE]),
}


@pytest.mark.parametrize("text, places", SOURCES.values(), ids=SOURCES)
def test_what_makes_the_answer_is_found_and_what_hands_it_on_is_not(text: str, places: list[str]) -> None:
    assert places_in(text) == places
