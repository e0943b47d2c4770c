"""The commands `jobhost jobs`: apply, withdraw and versions."""

from __future__ import annotations

import argparse
import re
import sys
import uuid
from collections.abc import Iterator, Mapping, Sequence
from dataclasses import dataclass
from pathlib import Path
from typing import TYPE_CHECKING, Any
from urllib.parse import quote, urlencode

from job_host.protocol.client import Client, Document, Refused
from job_host.protocol.printable import printable

if TYPE_CHECKING:
    from job_host.catalogue.file import CatalogueFile
    from job_host.catalogue.jobs import JobFile

KINDS = {".xml": "application/xml", ".json": "application/json"}


@dataclass(frozen=True)
class Sent:
    """A job's file, as it is sent."""

    name: str
    file: str
    body: Document

    def path(self, check: bool) -> str:
        words = {"file": self.file, **({"check": "true"} if check else {})}
        return f"/batch/jobs/{quote(self.name, safe='')}?{urlencode(words)}"


async def apply(client: Client, given: argparse.Namespace) -> int:
    """Applies all files of a folder, after all of them were looked at: if one is at fault, none is applied."""
    sent, faults = read_all(given.path)
    for one in sent:
        faults += await faults_of(client, one)
    if faults:
        refused = f"jobhost jobs apply: {given.path} is refused, and nothing is changed"
        print("\n".join(printable(line) for line in [*faults, refused]), file=sys.stderr)
        return 1
    await apply_all(client, sent, given.check)
    return 0


async def faults_of(client: Client, one: Sent) -> list[str]:
    """Why a file would be refused."""
    try:
        await client.operate("PUT", one.path(check=True), one.body)
    except Refused as refused:
        return [f"{one.file}: {refused}"] if refused.name != "JobRefused" else list(refused.document.get("faults", ()))
    return []


async def apply_all(client: Client, sent: Sequence[Sent], is_check: bool) -> None:
    for one in sent:
        show(one, await client.operate("PUT", one.path(is_check), one.body), is_check)


def show(one: Sent, told: dict[str, Any], is_check: bool) -> None:
    for line in told.get("leftOut", ()):
        print(printable(line), file=sys.stderr)
    state = ("would be" if is_check else "is") if told["changed"] else "stays"
    print(printable(f"{one.name}: {state} version {told['version']}"))


def read_all(path: Path) -> tuple[list[Sent], list[str]]:
    """The jobs of a file, or of all files of a folder, and what keeps them from being sent."""
    from job_host.catalogue.folder import files_in, paths_in, unowned
    from job_host.catalogue.settings import SUFFIX, job_file_of

    is_folder = path.is_dir()
    paths = paths_in(path) if is_folder else [path]
    sent, faults = list[Sent](), list[str]()
    for one in paths:
        found, told = read_one(one)
        sent += found
        faults += told
    settings = [one for one in files_in(path) if one.name.endswith(SUFFIX)] if is_folder else []
    faults += [unowned(one) for one in settings if not job_file_of(one).exists()]
    if not paths:
        faults.append(f"{path}: there is no file *.xml or *.json")
    return sent, faults


def read_one(path: Path) -> tuple[list[Sent], list[str]]:
    """The jobs of a file with their settings, and what keeps them from being sent."""
    from job_host.catalogue.folder import MOST_BYTES, Unreadable, bytes_of, read_job_file, settings_beside, unread
    from job_host.catalogue.jobs import JobFile
    from job_host.catalogue.settings import SUFFIX, job_file_of, settings_of

    if path.name.endswith(SUFFIX):
        raise ValueError(f"{path}: these are settings, which are applied with their job's file {job_file_of(path).name}")
    if path.suffix not in MOST_BYTES:
        raise ValueError(f"{path}: a job's file is *.xml or *.json")
    at = path
    try:
        data = bytes_of(path)
        at = settings_of(path)
        given = JobFile(str(path), path.suffix, data, settings_beside(path))
    except (OSError, Unreadable) as fault:
        return [], [unread(at, fault)]
    read = read_job_file(given, ()).file
    found = list(jobs_to_send(given, read))
    return found, [] if found else unnamed(read)


def jobs_to_send(given: JobFile, read: CatalogueFile) -> Iterator[Sent]:
    """The jobs of a file that have a name. Of a catalogue each is sent by itself, at its place in the file."""
    from job_host.catalogue.folder import jobs_of_file

    jobs = jobs_of_file(read)
    for job in jobs:
        if job.id is None:
            continue
        if len(jobs) == 1:
            yield Sent(job.id, given.name, body_of(given))
        else:
            text = read.source.text
            alone = re.sub(r"[^\r\n]", " ", text[: job.value.at]) + text[job.value.at : job.value.end]
            yield Sent(job.id, given.name, Document(alone.encode(), KINDS[given.suffix]))


def body_of(given: JobFile) -> Document:
    """The file of one job, as a form with its settings if it has some."""
    kind = KINDS[given.suffix]
    if given.settings is None:
        return Document(given.data, kind)
    return form_of({"job": Document(given.data, kind), "settings": Document(given.settings.data, KINDS[".json"])})


def form_of(parts: Mapping[str, Document]) -> Document:
    """Several documents as one, each as a part of a form. No part has the boundary in it, which is made up."""
    boundary = uuid.uuid4().hex
    lines = list[bytes]()
    for name, part in parts.items():
        head = f'--{boundary}\r\nContent-Disposition: form-data; name="{name}"\r\nContent-Type: {part.kind}\r\n'
        lines += [head.encode(), part.data]
    return Document(b"\r\n".join([*lines, f"--{boundary}--\r\n".encode()]), f"multipart/form-data; boundary={boundary}")


def unnamed(read: CatalogueFile) -> list[str]:
    """What keeps the name of a job from being read."""
    from job_host.catalogue.folder import faults_of, told_at

    return [told_at(read, note) for note in faults_of(read)] or [f"{read.source.name}: no job in it has an id"]


async def withdraw(client: Client, given: argparse.Namespace) -> int:
    told = await client.operate("DELETE", f"/batch/jobs/{quote(given.job, safe='')}")
    print(printable(f"{given.job}: is withdrawn{'' if told['changed'] else ' already'}, at version {told['version']}"))
    return 0


async def versions(client: Client, given: argparse.Namespace) -> int:
    from rich.console import Console

    from job_host.commands.terminal import change_table

    Console().print(change_table(await client.read(f"/batch/jobs/{quote(given.job, safe='')}/versions"), given.utc))
    return 0
