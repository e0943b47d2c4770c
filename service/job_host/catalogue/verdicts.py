"""batchctl's verdict on a catalogue: none, or its first fault and the way to what is at fault."""

from __future__ import annotations

import json
import subprocess
from collections.abc import Sequence
from dataclasses import dataclass
from typing import Any

from job_host.catalogue.faults import NoVerdict

CATALOGUE_REFUSED = 3
PLACE = ("byte", "member")

Answer = dict[str, Any]


@dataclass(frozen=True)
class Verdict:
    """The line with which batchctl refuses a catalogue, and the way to the fault; none if it takes it, or knows no place."""

    answer: Answer | None
    member: str | None = None


def ask(batchctl: Sequence[str], line: bytes) -> Verdict:
    """Hands batchctl a catalogue's line, and no other. Raises NoVerdict."""
    try:
        done = subprocess.run([*batchctl, "check"], input=line + b"\n", capture_output=True, check=False)
    except OSError as fault:
        raise NoVerdict(f"there is no program {batchctl[0]}: {fault}") from fault
    try:
        told = json.loads(done.stdout)
    except ValueError:
        told = None
    if isinstance(told, dict) and done.returncode == 0 and "fault" not in told:
        return Verdict(None)
    if isinstance(told, dict) and done.returncode == CATALOGUE_REFUSED:
        return Verdict({name: value for name, value in told.items() if name not in PLACE}, told.get("member"))
    words = (done.stderr or done.stdout).decode("utf-8", "replace").strip()
    raise NoVerdict(f"{batchctl[0]} check ended with status {done.returncode}: {words[:400]}")
