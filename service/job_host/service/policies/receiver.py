"""Who is told of events: a URL, over which bodies are sent with a signature.

No redirect is followed, and no proxy of the environment is used. A name in the URL doesn't lead to a private address, unless
the operator says so: whoever may change a name's addresses couldn't let the service call what only it can reach.
"""

from __future__ import annotations

import errno
import hashlib
import hmac
import ipaddress
import socket
from pathlib import Path
from typing import Any

import aiohttp
from aiohttp.abc import AbstractResolver
from aiohttp.resolver import ThreadedResolver
from yarl import URL

from job_host.service.http.access import SettingsRefused
from job_host.service.settings import ServeSettings

SIGNATURE, ID = "Batch-Signature", "Batch-Notification"
LEAST_SECRET, MOST_SECRET = 16, 4_096
# The whole of a request has so long, and a connection is made in less.
SEND_SECONDS, CONNECT_SECONDS = 10.0, 5.0

# Gateways lead from these to addresses of IPv4.
TRANSLATED = ipaddress.ip_network("64:ff9b::/96")


class NotTaken(Exception):
    """A notification wasn't taken. `is_here` says that the receiver answered, and refuses this one."""

    def __init__(self, told: str, is_here: bool = False) -> None:
        super().__init__(told)
        self.is_here = is_here


def is_private(address: str) -> bool:
    """Whether an address isn't one of the public network: loopback, link-local, private, multicast or reserved ones are not."""
    found = ipaddress.ip_address(address.partition("%")[0])
    inner = inner_of(found) if isinstance(found, ipaddress.IPv6Address) else None
    one = inner or found
    return not one.is_global or one.is_multicast


def inner_of(address: ipaddress.IPv6Address) -> ipaddress.IPv4Address | None:
    """The address of IPv4 to which one of IPv6 leads, if it does."""
    if address in TRANSLATED:
        return ipaddress.IPv4Address(int(address) & 0xFFFF_FFFF)
    return address.ipv4_mapped or address.sixtofour


def is_literal(host: str) -> bool:
    """Whether the operator has written where it leads: an address, or this machine."""
    try:
        ipaddress.ip_address(host)
    except ValueError:
        return host == "localhost"
    return True


class PublicResolver(AbstractResolver):
    """Looks up names. Of their addresses the public ones alone count."""

    def __init__(self) -> None:
        self._inner = ThreadedResolver()

    async def resolve(self, host: str, port: int = 0, family: int = socket.AF_INET) -> list[dict[str, Any]]:
        found = await self._inner.resolve(host, port, family)
        public = [one for one in found if not is_private(one["host"])]
        if not public:
            raise OSError(errno.EACCES, f"{host} has private addresses alone: --notify-private allows them")
        return public

    async def close(self) -> None:
        await self._inner.close()


def checked_url(text: str, may_be_private: bool) -> URL:
    """The URL of a receiver. Raises SettingsRefused if it isn't one, or if nobody should send there."""
    try:
        url = URL(text)
        is_url = url.scheme in ("http", "https") and bool(url.host) and url.port is not None
    except ValueError:
        is_url = False
    if not is_url or url.host is None:
        raise SettingsRefused(f"--notify is a URL of http or https, and not {text!r}")
    if url.user is not None or url.password is not None or url.fragment:
        raise SettingsRefused("--notify has neither a user, nor a password, nor a fragment: everybody here sees its words")
    is_near = may_be_private or (is_literal(url.host) and (url.host == "localhost" or is_private(url.host)))
    if url.scheme == "http" and not is_near:
        raise SettingsRefused(f"--notify {text}: without TLS it is for this machine and private addresses (--notify-private)")
    return url


def read_secret(path: Path) -> bytes:
    """The secret of a file, without white space around it. Raises SettingsRefused, and OSError."""
    with path.open("rb") as file:
        secret = file.read(MOST_SECRET + 1).strip()
    if not LEAST_SECRET <= len(secret) <= MOST_SECRET:
        raise SettingsRefused(f"{path}: a secret has {LEAST_SECRET} to {MOST_SECRET} bytes")
    return secret


def signature_of(secret: bytes, body: bytes) -> str:
    return f"sha256={hmac.new(secret, body, hashlib.sha256).hexdigest()}"


class Receiver:
    """The receiver of one service. Raises SettingsRefused or OSError if its settings can't be used."""

    def __init__(self, settings: ServeSettings) -> None:
        if settings.notify_secret is None:
            raise SettingsRefused("--notify needs --notify-secret FILE, by which its receiver knows who sends")
        self._path = settings.notify_secret
        self._may_be_private = settings.notify_private
        self._url = checked_url(settings.notify, settings.notify_private)
        self._secret = read_secret(self._path)
        self._session: aiohttp.ClientSession | None = None

    def read_again(self) -> None:
        """Reads the secret again."""
        self._secret = read_secret(self._path)

    def _open(self) -> aiohttp.ClientSession:
        if self._session is None:
            is_open = self._may_be_private or is_literal(self._url.host or "")
            resolver = ThreadedResolver() if is_open else PublicResolver()
            timeout = aiohttp.ClientTimeout(total=SEND_SECONDS, connect=CONNECT_SECONDS)
            connector = aiohttp.TCPConnector(resolver=resolver, limit=1, use_dns_cache=False)
            self._session = aiohttp.ClientSession(connector=connector, timeout=timeout, cookie_jar=aiohttp.DummyCookieJar())
        return self._session

    async def send(self, number: str, text: str) -> None:
        """Sends a notification. Raises NotTaken unless the answer's status is one of success. The answer isn't read."""
        body = text.encode("ascii")
        headers = {"Content-Type": "application/json", ID: number, SIGNATURE: signature_of(self._secret, body)}
        try:
            async with self._open().post(self._url, data=body, headers=headers, allow_redirects=False) as answer:
                if not 200 <= answer.status < 300:
                    raise NotTaken(f"status {answer.status}", answer.status < 500 and answer.status not in (408, 429))
        except (aiohttp.ClientError, OSError, TimeoutError, ValueError) as fault:
            raise NotTaken(f"{type(fault).__name__}: {fault}") from fault

    async def close(self) -> None:
        if self._session is not None:
            await self._session.close()
