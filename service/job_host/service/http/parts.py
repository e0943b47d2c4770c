"""The parts of a body of several files: multipart/form-data, as RFC 7578 has it. Their bytes are taken as they are."""

from __future__ import annotations

from email.message import Message
from email.parser import BytesHeaderParser

from job_host.service.problems import bad_request

FORM = "multipart/form-data"
BREAK = b"\r\n"
# How a part's bytes may be said to stand there: all of these mean as they are.
AS_THEY_ARE = ("", "7bit", "8bit", "binary")


def parts_of(media_type: str, body: bytes) -> dict[str, bytes]:
    """The parts by their names. Raises a problem if the body has none, or two of one name."""
    held = (BREAK + body).split(BREAK + b"--" + boundary_of(media_type))
    if len(held) < 2 or not held[-1].startswith(b"--"):
        raise bad_request("the body doesn't end with its boundary")
    found = dict[str, bytes]()
    for part in held[1:-1]:
        name, data = part_in(part)
        if name in found:
            raise bad_request("two parts of the body have one name")
        found[name] = data
    return found


def boundary_of(media_type: str) -> bytes:
    head = Message()
    head["Content-Type"] = media_type
    boundary = head.get_boundary()
    if not boundary or not boundary.isascii():
        raise bad_request("the media type of the body has no boundary")
    return boundary.encode()


def part_in(part: bytes) -> tuple[str, bytes]:
    """The name and the bytes of a part, which stands behind the boundary."""
    rest = part.lstrip(b" \t")
    head, end, data = rest.partition(BREAK + BREAK)
    if not rest.startswith(BREAK) or not end:
        raise bad_request("a part of the body has no head")
    told = BytesHeaderParser().parsebytes(head.removeprefix(BREAK))
    name = told.get_param("name", header="content-disposition")
    if told.get_content_disposition() != "form-data" or not isinstance(name, str):
        raise bad_request("a part of the body has no name")
    if str(told.get("content-transfer-encoding", "")).lower() not in AS_THEY_ARE:
        raise bad_request("the parts of the body stand there as they are, without another encoding")
    return name, data
