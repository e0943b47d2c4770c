"""Who asks for work, and who gives signs of work items: the clients that did so last, while one instance leads."""

from __future__ import annotations

from collections.abc import Sequence
from typing import NamedTuple

from job_host.service.terms.moments import clock

# So many are known. Each start of a worker is a client of its own.
MOST_WORKERS = 1_000


class Heard(NamedTuple):
    """The moments of a client's last claim, and of its last report or heartbeat; and its artifacts, if it has told them.

    It is draining if it has said so since it asked for work: it ends what it has, and claims nothing more.
    """

    claim: int | None = None
    sign: int | None = None
    artifacts: tuple[str, ...] | None = None
    is_draining: bool = False


class Workers:
    """Clients in the order in which they were heard."""

    def __init__(self, most: int = MOST_WORKERS) -> None:
        self._most = most
        self._heard: dict[str, Heard] = {}

    def note_claim(self, client: str, is_new: bool = True) -> None:
        """A client asks for work. One that isn't new was asked for until now, or is about to be withdrawn."""
        heard = self.heard(client)
        self._note(client, heard._replace(claim=clock(), is_draining=heard.is_draining and not is_new))

    def note_draining(self, client: str) -> None:
        """A client ends what it has, and claims nothing more."""
        self._note(client, self.heard(client)._replace(is_draining=True))

    def note_sign(self, client: str) -> None:
        """A client has reported of a work item, or renewed its lease."""
        self._note(client, self.heard(client)._replace(sign=clock()))

    def note_artifacts(self, client: str, names: Sequence[str]) -> None:
        self._note(client, self.heard(client)._replace(artifacts=tuple(names)))

    def _note(self, client: str, heard: Heard) -> None:
        self._heard.pop(client, None)
        self._heard[client] = heard
        if len(self._heard) > self._most:
            del self._heard[next(iter(self._heard))]

    def heard(self, client: str) -> Heard:
        return self._heard.get(client, Heard())

    def clients(self) -> set[str]:
        return set(self._heard)
