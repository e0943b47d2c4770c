"""Reads the values of a settings' file. What isn't as it must be is a fault with its place, and reads as nothing."""

from __future__ import annotations

from collections.abc import Sequence

from job_host.catalogue.durations import seconds_of
from job_host.catalogue.faults import Fault, Note, Owner
from job_host.catalogue.forms import MOST_COUNT, MOST_TEXT_BYTES, likely, quoted
from job_host.catalogue.text import Members, Source, Value
from job_host.catalogue.tree import Job, shown

SECONDS = f"a whole number of seconds from %d to {MOST_COUNT}, or a duration as `PT90S`,"


class SettingsReader:
    """The values of one file, by the names of their members. `faults` grows."""

    def __init__(self, source: Source, job: Job, faults: list[Fault | Note], name: str) -> None:
        self.source = source
        self.job = job
        self._faults = faults
        self._name = name

    @property
    def fault_count(self) -> int:
        """How many faults there are by now."""
        return len(self._faults)

    def members(self, value: Value, owner: Owner, what: str, names: Sequence[str], expected: str = "") -> dict[str, Value]:
        """The members of an object that may be there. Others, and another value, are at fault."""
        if not isinstance(value.held, Members):
            self.fault(value, owner, f"an object, {what}")
        for name, member in value.members.items():
            if name not in names:
                near = likely(name, [word for word in names if word not in value.members])
                self.fault_at(member.at, owner, expected or f"{quoted(tuple(names))} in {what}", shown(name), near)
        return {name: member.value for name, member in value.members.items() if name in names}

    def seconds(self, value: Value, owner: Owner, name: str, least: int = 1) -> int | None:
        """A time in whole seconds, as a number or as a duration."""
        held = value.held
        found = seconds_of(held) if isinstance(held, str) else held
        if isinstance(found, bool) or not isinstance(found, int) or not least <= found <= MOST_COUNT:
            self.fault(value, owner, f'{SECONDS % least} as "{name}"')
            return None
        return found

    def count(self, value: Value, owner: Owner, name: str, most: int) -> int | None:
        """A whole number from 1 on."""
        held = value.held
        if isinstance(held, bool) or not isinstance(held, int) or not 1 <= held <= most:
            self.fault(value, owner, f'a whole number from 1 to {most} as "{name}"')
            return None
        return held

    def truth(self, value: Value, owner: Owner, name: str) -> bool | None:
        if not isinstance(value.held, bool):
            self.fault(value, owner, f'true or false as "{name}"')
            return None
        return value.held

    def text(self, value: Value, owner: Owner, name: str) -> str | None:
        """A text that isn't empty, and not longer than those of a catalogue."""
        held = value.held
        if not isinstance(held, str) or not 1 <= len(held.encode("utf-8", "surrogatepass")) <= MOST_TEXT_BYTES:
            self.fault(value, owner, f'a text of 1 to {MOST_TEXT_BYTES} bytes as "{name}"')
            return None
        return held

    def texts(self, value: Value, owner: Owner, name: str, most: int) -> tuple[str, ...] | None:
        """A list of such texts, with one at least."""
        if not isinstance(value.held, list) or not 1 <= len(value.held) <= most:
            self.fault(value, owner, f'a list of 1 to {most} texts as "{name}"')
            return None
        read = [self.text(item, owner, name) for item in value.held]
        return tuple(one for one in read if one is not None)

    def fault(self, value: Value, owner: Owner, expected: str) -> None:
        self.fault_at(value.at, owner, expected, f"`{self.source.quote(value)}`")

    def fault_at(self, at: int, owner: Owner, expected: str, found: str, near: str = "") -> None:
        self._faults.append(Note(self._name, at, owner, f"expected {expected}, found {found}", near))
