"""Who may ask for what: loopback alone, or tokens with a role over TLS."""

from __future__ import annotations

import hashlib
import hmac
import ipaddress
import re
import ssl
from dataclasses import dataclass
from pathlib import Path

from aiohttp import web

from job_host.service.problems import Problem
from job_host.service.settings import ServeSettings

ROLES = {
    "reader": frozenset({"read"}),
    "operator": frozenset({"read", "operate"}),
    "worker": frozenset({"read", "work"}),
}
EVERYTHING = frozenset({"read", "operate", "work"})
NAME = re.compile(r"[A-Za-z0-9][A-Za-z0-9._:@-]*")
NAME_BYTES = 128
LOOPBACK_NAMES = ("localhost", "127.0.0.1", "[::1]")


class SettingsRefused(Exception):
    """The settings don't fit together. The text says why."""


@dataclass(frozen=True)
class Caller:
    """What a token allows. Its clients' names begin with the token's name, so that no token speaks for another's client."""

    prefix: str
    rights: frozenset[str]


ANYBODY = Caller("", EVERYTHING)


def is_loopback(host: str) -> bool:
    if host == "localhost":
        return True
    try:
        return ipaddress.ip_address(host).is_loopback
    except ValueError:
        return False


def digest(token: str) -> bytes:
    return hashlib.sha256(token.encode("utf-8", "surrogateescape")).digest()


def is_name(text: str) -> bool:
    """Whether a text may be the name of a token, and so the beginning of its clients' names."""
    return len(text) <= NAME_BYTES and NAME.fullmatch(text) is not None


def read_tokens(path: Path) -> dict[bytes, Caller]:
    """A file of tokens, a line each: role, name, token. Empty lines and lines that begin with `#` say nothing."""
    tokens: dict[bytes, Caller] = {}
    for number, line in enumerate(path.read_text().splitlines(), 1):
        words = line.split()
        if not words or words[0].startswith("#"):
            continue
        if len(words) != 3 or words[0] not in ROLES or not is_name(words[1]) or len(words[2]) < 16:
            told = "not a role (reader, operator, worker), a name, and a token of at least 16 characters"
            raise SettingsRefused(f"{path}, line {number}: {told}")
        tokens[digest(words[2])] = Caller(words[1] + "/", ROLES[words[0]])
    if not tokens:
        raise SettingsRefused(f"{path} has no token")
    return tokens


class Access:
    """Says who a request is from. Without tokens everybody on this machine may do everything."""

    def __init__(self, settings: ServeSettings) -> None:
        self._path = settings.tokens
        self._tokens = read_tokens(settings.tokens) if settings.tokens else None
        if (settings.certificate is None) != (settings.certificate_key is None):
            raise SettingsRefused("--certificate and --certificate-key belong together: one of them is missing")
        if is_loopback(settings.host):
            return
        if self._tokens is None:
            raise SettingsRefused(f"{settings.host} isn't loopback: --tokens is needed")
        if settings.certificate is None or settings.certificate_key is None:
            raise SettingsRefused(f"{settings.host} isn't loopback: --certificate and --certificate-key are needed")

    def read_again(self) -> None:
        """Reads the file of tokens again. Raises SettingsRefused, OSError or ValueError, and keeps the earlier tokens then."""
        if self._path is not None:
            self._tokens = read_tokens(self._path)

    def check_host(self, request: web.Request) -> None:
        """Raises a problem if what needs no token is asked for by a name that isn't this machine's."""
        if self._tokens is None:
            self._local(request)

    def caller(self, request: web.Request) -> Caller:
        """The caller of a request. Raises a problem if its token isn't known."""
        if self._tokens is None:
            return self._local(request)
        scheme, _, token = request.headers.get("Authorization", "").partition(" ")
        given, found = digest(token.strip()), None
        for known, caller in self._tokens.items():
            if hmac.compare_digest(known, given):
                found = caller
        if found is None or scheme.lower() != "bearer":
            raise web.HTTPUnauthorized(headers={"WWW-Authenticate": "Bearer"}, text="")
        return found

    @staticmethod
    def _local(request: web.Request) -> Caller:
        """A page of a browser can name this machine by a name of its own, so only loopback's own names are served."""
        host = request.headers.get("Host", "")
        name = host.rsplit(":", 1)[0] if not host.endswith("]") else host
        if name not in LOOPBACK_NAMES:
            raise Problem("NotThisHost", 421, "without tokens the service is called by a name of loopback")
        return ANYBODY

    def knows(self, request: web.Request, caller: Caller) -> bool:
        """Whether the request's token is still this caller's: tokens may have been read again."""
        try:
            return self.caller(request) == caller
        except (Problem, web.HTTPUnauthorized):
            return False


class Certificate:
    """The certificate for TLS. Each new connection has the one that was read last."""

    def __init__(self, settings: ServeSettings) -> None:
        self._settings = settings
        self.context = tls_context(settings)

    def read_again(self) -> None:
        """Reads the files again. Raises OSError, and keeps the earlier certificate then."""
        files = self._settings.certificate, self._settings.certificate_key
        if self.context is None or files[0] is None:
            return
        # What doesn't fit together would leave the context that is in use without a certificate.
        tls_context(self._settings)
        self.context.load_cert_chain(files[0], files[1])


def tls_context(settings: ServeSettings) -> ssl.SSLContext | None:
    if settings.certificate is None or settings.certificate_key is None:
        return None
    context = ssl.create_default_context(ssl.Purpose.CLIENT_AUTH)
    context.minimum_version = ssl.TLSVersion.TLSv1_2
    context.load_cert_chain(settings.certificate, settings.certificate_key)
    return context
