"""Where the service is, and as whom a command calls it."""

from __future__ import annotations

import argparse
import getpass
import os
import re
import socket
from pathlib import Path

from job_host.protocol.addresses import DEFAULT_URL
from job_host.protocol.client import Address, read_token, separated

Subcommands = argparse._SubParsersAction  # argparse has no public name for it

OWN_NAME = "the user's name, or the number of a user without one, and the machine's name"


def add_address(parser: argparse.ArgumentParser, own_name: str = OWN_NAME) -> None:
    """Where the service is, and as whom it is called."""
    url = f"the service, or its instances with commas between them (default: JOBHOST_URL, else {DEFAULT_URL})"
    parser.add_argument("--url", default=os.environ.get("JOBHOST_URL", DEFAULT_URL), metavar="URL[,URL..]", help=url)
    token = "a file with the token (default: JOBHOST_TOKEN_FILE, else none)"
    parser.add_argument("--token", type=Path, default=os.environ.get("JOBHOST_TOKEN_FILE"), metavar="FILE", help=token)
    authority = "the certificate that signed the service's (default: those that this machine trusts)"
    parser.add_argument("--authority", type=Path, metavar="FILE", help=authority)
    parser.add_argument("--client", metavar="NAME", help=f"the client's name (default: {own_name})")
    patience = "for how long the service is tried (default: %(default)g)"
    parser.add_argument("--patience", type=float, default=30.0, metavar="SECONDS", help=patience)


def address_of(given: argparse.Namespace) -> Address:
    """Where the service is, by options or by the environment."""
    client = given.client or own_name()
    return Address(separated(given.url), client, read_token(given.token), given.authority, given.patience)


def own_name() -> str:
    """The user's name and the machine's. A user id without a name, as containers have, stands for itself."""
    try:
        user = getpass.getuser()
    except (KeyError, OSError):
        user = str(os.getuid())
    return re.sub(r"[^A-Za-z0-9._-]", "-", f"{user}-{socket.gethostname()}").lstrip("._-") or "somebody"
