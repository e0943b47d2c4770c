"""The schedule in a job's settings."""

from __future__ import annotations

from zoneinfo import ZoneInfo

from job_host.catalogue.cron import Cron, NotCron, read_cron
from job_host.catalogue.schedules import CATCH_UP, SKIP, Schedule
from job_host.catalogue.settings_reader import SettingsReader
from job_host.catalogue.forms import MOST_TEXT_BYTES
from job_host.catalogue.text import Members, Value
from job_host.catalogue.tree import shown

SCHEDULE = "schedule"
CRON, ZONE, MISSED, PARAMETERS = "cron", "zone", "missed", "parameters"
DATE_PARAMETER, MOMENT_PARAMETER = "dateParameter", "momentParameter"
NAMES = (CRON, ZONE, MISSED, PARAMETERS, DATE_PARAMETER, MOMENT_PARAMETER)
# Those of the core.
MOST_PARAMETERS, MOST_VALUE_BYTES = 64, 4_096


class ScheduleReader:
    """Reads one schedule. What is at fault is told by the reader of the file."""

    def __init__(self, reader: SettingsReader) -> None:
        self._reader = reader
        self._owner = reader.job.owner()

    def read(self, value: Value) -> Schedule | None:
        """The schedule. None if something of it is at fault."""
        before = self._reader.fault_count
        told = self._reader.members(value, self._owner, SCHEDULE, NAMES)
        if not isinstance(value.held, Members):
            return None
        if CRON not in told:
            self._reader.fault(value, self._owner, f'"{CRON}" in {SCHEDULE}')
        cron = self._cron(told[CRON]) if CRON in told else None
        zone = self._zone(told[ZONE]) if ZONE in told else "UTC"
        missed = self._missed(told[MISSED]) if MISSED in told else SKIP
        parameters = self._parameters(told[PARAMETERS]) if PARAMETERS in told else {}
        names = [
            self._name(told[name], name, parameters) if name in told else "" for name in (DATE_PARAMETER, MOMENT_PARAMETER)
        ]
        if names[0] and names[0] == names[1]:
            self._reader.fault(told[MOMENT_PARAMETER], self._owner, f'another name than "{DATE_PARAMETER}" has')
        if len(parameters) + sum(map(bool, names)) > MOST_PARAMETERS:
            self._reader.fault(value, self._owner, f"at most {MOST_PARAMETERS} parameters")
        if cron is None or self._reader.fault_count > before:
            return None
        return Schedule(cron, zone, missed, tuple(parameters.items()), *names)

    def _cron(self, value: Value) -> Cron | None:
        if not isinstance(value.held, str):
            self._reader.fault(value, self._owner, f'a text of five fields as "{CRON}"')
            return None
        try:
            return read_cron(value.held)
        except NotCron as fault:
            self._reader.fault(value, self._owner, f'{fault}, as "{CRON}"')
            return None

    def _zone(self, value: Value) -> str:
        try:
            return ZoneInfo(value.held).key if isinstance(value.held, str) else self._no_zone(value)
        except (KeyError, OSError, ValueError):
            return self._no_zone(value)

    def _no_zone(self, value: Value) -> str:
        self._reader.fault(value, self._owner, f'a time zone of this machine, as `Europe/Berlin`, as "{ZONE}"')
        return "UTC"

    def _missed(self, value: Value) -> str:
        if value.held not in (CATCH_UP, SKIP):
            self._reader.fault(value, self._owner, f'"{CATCH_UP}" or "{SKIP}" as "{MISSED}"')
            return SKIP
        return str(value.held)

    def _parameters(self, value: Value) -> dict[str, str]:
        if not isinstance(value.held, Members):
            self._reader.fault(value, self._owner, f"an object of texts, {PARAMETERS}")
        texts = {name: self._value(name, member.value) for name, member in value.members.items()}
        return {name: text for name, text in texts.items() if text is not None}

    def _value(self, name: str, value: Value) -> str | None:
        """The value of a parameter. Its name has the bound of other texts."""
        held = value.held
        if not 1 <= size_of(name) <= MOST_TEXT_BYTES:
            self._reader.fault(value, self._owner, f"a parameter whose name has 1 to {MOST_TEXT_BYTES} bytes")
        elif isinstance(held, str) and size_of(held) <= MOST_VALUE_BYTES:
            return held
        else:
            self._reader.fault(value, self._owner, f"a text of at most {MOST_VALUE_BYTES} bytes as {shown(name)}")
        return None

    def _name(self, value: Value, name: str, parameters: dict[str, str]) -> str:
        read = self._reader.text(value, self._owner, name)
        if read in parameters:
            self._reader.fault(value, self._owner, f"a parameter that {PARAMETERS} hasn't")
        return read or ""


def size_of(text: str) -> int:
    return len(text.encode("utf-8", "surrogatepass"))
