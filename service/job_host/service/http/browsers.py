"""Requests of browsers: whose page makes them, and the token without which a page changes nothing."""

from __future__ import annotations

import hmac
import secrets
from urllib.parse import urlsplit

from aiohttp import web

from job_host.protocol.headers import FORGERY_TOKEN
from job_host.service.problems import Problem

READING = ("GET", "HEAD", "OPTIONS")
CONSOLE = "/"


def origin_of(url: str) -> str:
    """The scheme, the host and the port of a URL, as a browser names an origin."""
    parts = urlsplit(url)
    return f"{parts.scheme}://{parts.netloc}".lower()


class Browsers:
    """Browsers say from which page a request comes. Requests that say nothing of it come from no browser."""

    def __init__(self, advertised: str) -> None:
        self.token = secrets.token_urlsafe(32)
        self._advertised = origin_of(advertised) if advertised else ""

    def check(self, request: web.Request) -> None:
        """Raises a problem if another page made the request, or if it changes something without this start's token."""
        origin, site = request.headers.get("Origin"), request.headers.get("Sec-Fetch-Site")
        if origin is None and site is None:
            return
        if origin is not None and not self._is_own(request, origin.lower()):
            raise foreign()
        if site not in (None, "same-origin", "none") and not is_link(request):
            raise foreign()
        given = request.headers.get(FORGERY_TOKEN, "").encode("utf-8", "surrogateescape")
        if request.method not in READING and not hmac.compare_digest(given, self.token.encode()):
            raise Problem("ForgedRequest", 403, f"a page's request has {FORGERY_TOKEN}, which the console has by its start")

    def _is_own(self, request: web.Request, origin: str) -> bool:
        return origin in (f"{request.scheme}://{request.host}".lower(), self._advertised or None)


def is_link(request: web.Request) -> bool:
    """Whether a person follows a link to the console, from wherever it stands."""
    mode = request.headers.get("Sec-Fetch-Mode")
    return request.method == "GET" and request.path == CONSOLE and mode == "navigate"


def foreign() -> Problem:
    return Problem("ForeignOrigin", 403, "another page may not ask the service")
