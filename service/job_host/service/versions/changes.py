"""Changes of jobs: a version that was applied, and a job that was withdrawn or brought back."""

from __future__ import annotations

import hashlib
from collections.abc import Mapping, Sequence
from dataclasses import dataclass, field
from typing import Any

from job_host.catalogue.jobs import JobFile
from job_host.catalogue.names import id_of
from job_host.protocol.lines import compact

APPLY, WITHDRAW, RETURN = "apply", "withdraw", "return"


def digest_of(data: bytes) -> str:
    return hashlib.sha256(data).hexdigest()


def digest_of_file(file: JobFile) -> str:
    """A digest of a job's file with its settings. Without settings it is that of the file alone."""
    digest = digest_of(file.data)
    return digest if file.settings is None else digest_of(f"{digest} {digest_of(file.settings.data)}".encode())


@dataclass(frozen=True)
class KeyedBy:
    """The request key by which a change was asked for, and a digest of that request."""

    key: str
    fingerprint: bytes


@dataclass(frozen=True)
class Change:
    """Who changed a job, and when, in milliseconds. `job` is how the catalogue has a version that was applied."""

    action: str
    name: str
    version: int
    client: str
    moment: int
    job: Mapping[str, Any] | None = None
    file: JobFile | None = None
    by: KeyedBy | None = None
    reply: bytes = field(default=b"")

    @property
    def id(self) -> str:
        return id_of(self.name, self.version)

    def members(self) -> dict[str, Any]:
        """The change as an object of JSON. Its file is told by its name, its suffix and its digest, its settings so too."""
        told: dict[str, Any] = {"action": self.action, "name": self.name, "version": self.version}
        told |= {"client": self.client, "at": self.moment, "job": self.job, "reply": self.reply.decode("ascii")}
        if self.file is not None:
            told |= {"file": self.file.name, "suffix": self.file.suffix, "digest": digest_of(self.file.data)}
            settings = self.file.settings
            told |= {} if settings is None else {"settings": settings.name, "settingsDigest": digest_of(settings.data)}
        if self.by is not None:
            told |= {"key": self.by.key, "fingerprint": self.by.fingerprint.hex()}
        return told


@dataclass(frozen=True)
class Growth:
    """Changes that are kept together, and the catalogue with them, if it has grown."""

    changes: Sequence[Change]
    catalogue: bytes | None


def reply_of(name: str, version: int, changed: bool, told: tuple[str, ...] = ()) -> bytes:
    """What is answered to a change. `told` says what was left out of the file."""
    members: dict[str, Any] = {"jobName": name, "version": version, "changed": changed}
    return compact({**members, "leftOut": list(told)} if told else members)


def change_in(told: Mapping[str, Any], file: JobFile | None) -> Change:
    """The change that `members` tells. Raises KeyError or ValueError if it is none."""
    by = KeyedBy(told["key"], bytes.fromhex(told["fingerprint"])) if "key" in told else None
    head = (str(told["action"]), str(told["name"]), int(told["version"]), str(told["client"]), int(told["at"]))
    return Change(*head, told["job"], file, by, str(told["reply"]).encode("ascii"))
