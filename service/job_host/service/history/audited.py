"""Operations as an audit tells them: what each was on, who made it, by which token, from where, and when."""

from __future__ import annotations

from array import array
from collections.abc import Iterable
from dataclasses import dataclass
from typing import Any, NamedTuple

from job_host.service.history.numbers import Numbers
from job_host.service.pages import Page

# Stands in a client's name behind the name of its token. Neither of the two can have it.
BEHIND_TOKEN = "/"


def token_of(client: str) -> str | None:
    """The name of the token by which a client called, or None: clients' names begin with it."""
    token, found, _ = client.partition(BEHIND_TOKEN)
    return token if found else None


class Did(NamedTuple):
    """What an operation did, by which session, when, and to which job execution of which job.

    `of` is the job execution that it made, the job instance that it purged, or its work item; else 0.
    """

    name: str
    session: int
    moment: int
    execution: int
    job: str
    of: int


class Origin(NamedTuple):
    """Whose an operation is, the token's name and the remote address. None is what isn't known, or isn't there."""

    client: str | None
    token: str | None = None
    address: str | None = None

    @classmethod
    def of(cls, client: str, address: str) -> Origin:
        return cls(client, token_of(client), address or None)


NOBODY_KNOWN = Origin(None)


class Audited(NamedTuple):
    """An operation by its number."""

    number: int
    did: Did
    origin: Origin

    @classmethod
    def read(cls, row: Iterable[Any]) -> Audited:
        """One of a row of a store, in the order of COLUMNS."""
        number, name, session, moment, execution, job, of, *origin = row
        return cls(number, Did(name, session, moment, execution or 0, job or "", of or 0), Origin(*origin))


# The columns of both stores.
COLUMNS = "number, name, session, moment, execution, job, of, client, token, address"


@dataclass(frozen=True)
class AuditWanted:
    """Which operations are wanted, the newest first. What is None isn't asked for. `until` isn't within."""

    page: Page
    job: str | None = None
    client: str | None = None
    token: str | None = None
    since: int | None = None
    until: int | None = None


class MadeJobs:
    """The job of each job execution, by its place: a number for each, and each name once."""

    def __init__(self, executions: Numbers) -> None:
        self._executions = executions
        self._names = [""]
        self._places = {"": 0}
        self._jobs = array("I", [0])

    def begin(self, jobs: Iterable[str]) -> None:
        """Begins with the jobs of the job executions of a base, by rising number."""
        self._jobs = array("I", [0, *map(self._place, jobs)])

    def _place(self, job: str) -> int:
        place = self._places.setdefault(job, len(self._names))
        if place == len(self._names):
            self._names.append(job)
        return place

    def note(self, execution: int, job: str) -> None:
        """A job execution was made."""
        place = self._executions.place(execution)
        self._jobs.extend([0] * (place + 1 - len(self._jobs)))
        self._jobs[place] = self._place(job)

    def of(self, execution: int) -> str:
        """The job of a job execution, or the empty text if it isn't known."""
        place = self._executions.place(execution)
        return self._names[self._jobs[place]] if 0 < place < len(self._jobs) else ""
