"""Random requests: none ends the service, changes the history without permission, or shows a trace."""

from __future__ import annotations

import asyncio
import json
import os
import random
from collections import Counter
from collections.abc import Callable
from dataclasses import dataclass
from pathlib import Path
from typing import Any

import pytest
from instances import Caller, Instance, running

from job_host.service.routes.table import ROUTES
from job_host.service.settings import Bounds, ServeSettings

REQUESTS = int(os.environ.get("JOBHOST_RANDOM_REQUESTS", "5000"))
SEED = int(os.environ.get("JOBHOST_SEED", "11"))
TOKENS = {"reader": "r" * 20, "operator": "o" * 20, "worker": "w" * 20}
METHODS = ["GET", "POST", "PUT", "DELETE", "PATCH", "OPTIONS", "HEAD", "TRACE", "CONNECT", "get", "A" * 300, "PO ST", "\x00"]
PATHS = [
    "/batch/jobs",
    "/batch/jobinstances",
    "/batch/jobinstances/{id}",
    "/batch/jobinstances/{id}/jobexecutions",
    "/batch/jobexecutions/{id}",
    "/batch/jobexecutions/{id}/stepexecutions",
    "/batch/jobexecutions/{id}/joblogs",
    "/batch/jobexecutions/{id}/operations",
    "/batch/open",
    "/batch/work",
    "/batch/work/{id}",
    "/batch/work/{id}/log",
    "/batch/workers",
    "/metrics",
    "/health/ready",
    "/",
    "/console/console.js",
    "/console/{id}",
    "/{id}",
    "//{id}/..",
    "http://other.example/batch/jobs",
    "*",
]
NUMBERS = [
    "0",
    "1",
    "2",
    "3",
    "18446744073709551615",
    "18446744073709551616",
    "9" * 300,
    "-1",
    "1.5",
    "1e3",
    "x",
    "%00",
    "..%2f..",
    "",
    "é",
]
NAMES = ["short", "none", "nightly@2", "%00", "..%2f..", "%ff", "é", "x" * 300]
QUERIES = ["", "?action=stop", "?action=restart", "?action=abandon", "?action=finish", "?action=checkpoint", "?action=lose"]
QUERIES += ["?action=heartbeat", "?action=%ff", "?page=-1", "?page=99999999999", "?pageSize=0", "?pageSize=x", "?jobName=%00"]
QUERIES += [
    "?status=FAILED",
    "?status=x",
    "?search=%00",
    "?search=" + "s" * 300,
    "?jobName=nightly",
    "?type=text",
    "?once=true",
    "?withJobs=true",
    "?atLeast=7",
    "?atLeast=x",
    "?" + "a=1&" * 500,
]
TEXTS = [
    "nightly",
    "short",
    "wide",
    "",
    "x" * 257,
    "\u0000",
    "\ud800",
    "é" * 200,
    "'; drop table job_host_operation; --",
    '"}\n{"do":"start"',
]
WORDS = [
    "jobName",
    "jobXMLName",
    "jobParameters",
    "wait",
    "outcome",
    "exit",
    "metrics",
    "data",
    "log",
    "do",
    "by",
    "at",
    "ask",
    "job",
]
BODIES = [
    b"",
    b"{",
    b"null",
    b"[]",
    b"[" * 50_000,
    b"{}" * 3,
    b"\xff\xfe",
    b'{"jobName":NaN}',
    b'{"a":' * 2_000,
    b"0" * 200_000,
]
HEADERS = [
    "Content-Type: text/plain",
    "Content-Type: application/json; charset=\xff",
    "Content-Length: 7",
    "Content-Length: -1",
    "Content-Length: 99999999999",
    "Transfer-Encoding: chunked",
    "Expect: 100-continue",
    "Content-Encoding: gzip",
    "Idempotency-Key: " + "k" * 400,
    "Idempotency-Key: a b",
    "Batch-Client: " + "c" * 400,
    "Batch-Client: ../../etc",
    "Batch-At-Least: -5",
    "Batch-At-Least: 99999",
    "Host: ",
    "no colon here",
    "X: " + "y" * 9_000,
    "Upgrade: websocket",
    "Origin: null",
    "Origin: http://localhost",
    "Origin: http://other.example",
    "Sec-Fetch-Site: cross-site",
    "Sec-Fetch-Site: same-origin",
    "Batch-Forgery-Token: \xff",
]
KNOWN = [(route.method, route.path) for route in ROUTES]


@dataclass(frozen=True)
class Sent:
    text: bytes
    rights: frozenset[str]


def random_value(chance: random.Random, depth: int = 0) -> Any:
    kinds = ["text", "number", "null", "truth", *(["list", "object"] if depth < 3 else [])]
    kind = chance.choice(kinds)
    if kind == "text":
        return chance.choice(TEXTS)
    if kind == "number":
        return chance.choice([0, 1, -1, 2, 1.5, 2**64, 10**400])
    if kind == "list":
        return [random_value(chance, depth + 1) for _ in range(chance.randrange(3))]
    if kind == "object":
        return {chance.choice(WORDS + TEXTS): random_value(chance, depth + 1) for _ in range(chance.randrange(4))}
    return None if kind == "null" else chance.random() < 0.5


def random_body(chance: random.Random) -> bytes:
    if chance.random() < 0.3:
        return chance.choice(BODIES)
    if chance.random() < 0.4:
        good = [{"jobName": "short"}, {"outcome": "COMPLETED"}, {"wait": 0}, {"data": "1"}, {}]
        return json.dumps(chance.choice(good)).encode()
    members = {chance.choice(WORDS): random_value(chance) for _ in range(chance.randrange(1, 4))}
    return json.dumps(members).encode()


def random_request(chance: random.Random) -> Sent:
    """A request, and the roles whose token it carries."""
    if chance.random() < 0.05:
        return Sent(chance.randbytes(chance.randrange(1, 400)), frozenset())
    method, path = chance.choice(KNOWN) if chance.random() < 0.7 else (chance.choice(METHODS), chance.choice(PATHS))
    numbers = NUMBERS[1:4] if chance.random() < 0.5 else NUMBERS
    path = path.replace("{id}", chance.choice(numbers)).replace("{name}", chance.choice(NAMES)) + chance.choice(QUERIES)
    role = chance.choice([None, "wrong", "reader", "operator", "worker"])
    lines = [f"{method} {path} HTTP/1.1", "Host: localhost", "Connection: close"]
    if role is not None:
        lines.append(f"Authorization: Bearer {TOKENS.get(role, 'x' * 20)}")
    if chance.random() < 0.8:
        lines += [f"Batch-Client: c{chance.randrange(3)}", f"Idempotency-Key: k{chance.randrange(50)}"]
    body = random_body(chance)
    if chance.random() < 0.8:
        kind = "application/json" if chance.random() < 0.9 else "text/plain"
        lines += [f"Content-Type: {kind}", f"Content-Length: {len(body)}"]
    if chance.random() < 0.3:
        lines.append(chance.choice(HEADERS))
    head = "\r\n".join(lines).encode("utf-8", "surrogateescape")
    return Sent(head + b"\r\n\r\n" + body, frozenset({role} if role in ("operator", "worker") else set()))


async def send(port: int, sent: Sent) -> bytes:
    """The answer, as far as one comes."""
    reader, writer = await asyncio.open_connection("127.0.0.1", port, limit=2**22)
    try:
        writer.write(sent.text)
        return await asyncio.wait_for(reader.read(), 20)
    except ConnectionError:
        return b""
    finally:
        writer.close()


@pytest.fixture
def guarded(settings: Callable[..., ServeSettings], tmp_path: Path) -> ServeSettings:
    path = tmp_path / "tokens"
    path.write_text("".join(f"{role} a{role} {token}\n" for role, token in TOKENS.items()))
    bounds = Bounds(slow_after=0.1, longest_poll=0.05, at_least_seconds=0.02)
    return settings(tokens=path, bounds=bounds, lease=100_000.0)


async def check_one(instance: Instance, chance: random.Random, statuses: Counter[str]) -> None:
    keeper = instance.service.keeper
    before, sent = keeper.operations, random_request(chance)
    told = await send(instance.service.port, sent)
    assert b"Traceback" not in told and b'File "' not in told and b".py" not in told, (sent, told)
    status = told[9:12].decode("ascii", "replace") if told.startswith(b"HTTP/1.") else "none"
    assert not status.startswith("5") or status in ("501", "503", "505"), told[:200] + sent.text[-400:]
    assert sent.rights or keeper.operations == before, (sent, told)
    statuses[status] += 1


async def test_random_requests(guarded: ServeSettings) -> None:
    chance, statuses = random.Random(SEED), Counter[str]()
    async with running(guarded) as instance:
        for _ in range(REQUESTS):
            await check_one(instance, chance, statuses)
        keeper = instance.service.keeper
        assert keeper.role == "leader" and keeper.epoch == 1
        caller = Caller(instance.url, token=TOKENS["operator"])
        begun = await caller.start("nightly")
        assert (begun.status, begun.operations) == (201, keeper.operations)
    wanted = {"200", "400", "401", "403", "404", "405", "415"}
    assert wanted <= statuses.keys(), statuses
