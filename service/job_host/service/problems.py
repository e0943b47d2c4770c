"""Problem documents: a refusal of the repository, or of the service, by its name (RFC 7807)."""

from __future__ import annotations

import json
from collections.abc import Mapping
from typing import Any

from aiohttp import web

from job_host.protocol.headers import OPERATIONS
from job_host.protocol.problem_statuses import STATUS_OF_REFUSAL

CONTENT_TYPE = "application/problem+json"


class Problem(Exception):
    """An answer that is no success: its name, its status, and a sentence for people."""

    def __init__(self, name: str, status: int, detail: str = "", **members: Any) -> None:
        super().__init__(f"{name}: {detail}" if detail else name)
        self.name = name
        self.status = status
        self.detail = detail
        self.members = members
        # How many operations were seen of its queue, and with several queues what was seen of all of them.
        self.operations: int | None = None
        self.seen: str | None = None

    def document(self) -> dict[str, Any]:
        told = {"type": f"urn:jobhost:{self.name}", "title": self.name, "status": self.status, **self.members}
        return {**told, "detail": self.detail} if self.detail else told

    def response(self) -> web.Response:
        headers = {"Retry-After": "1"} if self.status in (429, 503) else {}
        if self.operations is not None:
            headers[OPERATIONS] = self.seen or str(self.operations)
        text = json.dumps(self.document())
        return web.Response(text=text, status=self.status, content_type=CONTENT_TYPE, headers=headers)


def of_refusal(reply: Mapping[str, Any], seen: int | None = None) -> Problem | None:
    """The problem of a reply that saw so many operations, if it is a refusal."""
    name = reply.get("refused")
    if not isinstance(name, str):
        return None
    problem = Problem(name, STATUS_OF_REFUSAL.get(name, 409))
    problem.operations = seen
    return problem


def bad_request(detail: str) -> Problem:
    return Problem("BadRequest", 400, detail)


def unavailable(name: str, detail: str, **members: Any) -> Problem:
    """The service can't answer now. The operation may have been kept: the same request key finds out."""
    return Problem(name, 503, detail, **members)
