"""A fault or a note of a catalogue: where it stands, what was expected, and what stands there."""

from __future__ import annotations

from dataclasses import dataclass

BAD_ELEMENT = "BadElement"
NOT_JSON = "NotJson"
NOT_A_CATALOGUE = "NotACatalogue"
WARNING = "warning"


@dataclass(frozen=True)
class Owner:
    """The job and the element that a fault is of, by their numbers and as they are told."""

    job: int | None = None
    element: int | None = None
    told: str = ""


NOBODY = Owner()


@dataclass(frozen=True)
class Fault:
    """A fault by batchctl's name."""

    name: str
    at: int
    owner: Owner
    expected: str
    found: str
    likely: str = ""

    @property
    def members(self) -> dict[str, str]:
        """The fault as an object, but for its place."""
        told = {
            "fault": self.name,
            "in": self.owner.told,
            "expected": self.expected,
            "found": self.found,
            "likely": self.likely,
        }
        return {name: text for name, text in told.items() if text}

    def __str__(self) -> str:
        owner = f" in {self.owner.told}" if self.owner.told else ""
        told = f"{self.name}{owner}: expected {self.expected}, found {self.found}"
        return f"{told}; did you mean `{self.likely}`?" if self.likely else told


@dataclass(frozen=True)
class Note:
    """A warning, or what is told of a form of JSL. `word` says which."""

    word: str
    at: int
    owner: Owner
    told: str
    likely: str = ""

    @property
    def members(self) -> dict[str, str]:
        """The note as an object, but for its place."""
        told = {"note": self.word, "in": self.owner.told, "told": self.told, "likely": self.likely}
        return {name: text for name, text in told.items() if text}

    def __str__(self) -> str:
        owner = f" in {self.owner.told}" if self.owner.told else ""
        told = f"{self.word}{owner}: {self.told}"
        return f"{told}; did you mean `{self.likely}`?" if self.likely else told


class NoVerdict(Exception):
    """batchctl could not be asked, or gave no verdict."""
