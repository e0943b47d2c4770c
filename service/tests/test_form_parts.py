"""The parts of a form's body, by RFC 7578: their bytes as they are, and wrong bodies, which have to be noticed."""

from __future__ import annotations

import pytest

from job_host.commands.job_versions import form_of
from job_host.protocol.client import Document
from job_host.service.http.parts import parts_of
from job_host.service.problems import Problem

FORM = "multipart/form-data; boundary=ab"
HEAD = b'Content-Disposition: form-data; name="job"\r\n\r\n'
BYTES = bytes(range(256)) + b"\r\n--a\r\n\n\r-- ab--\r\n\r\n"


def body_of(*parts: bytes, between: bytes = b"--ab") -> bytes:
    return b"".join(between + b"\r\n" + part + b"\r\n" for part in parts) + between + b"--\r\n"


def test_bytes_are_taken_as_they_are() -> None:
    other = HEAD.replace(b"job", b"settings")
    assert parts_of(FORM, body_of(HEAD + BYTES, other)) == {"job": BYTES, "settings": b""}
    quoted = FORM.replace("ab", '"ab"')
    assert parts_of(quoted, b"before it\r\n" + body_of(HEAD + b"1") + b"behind it") == {"job": b"1"}
    spaces = body_of(HEAD + b"1").replace(b"--ab\r", b"--ab \t\r")
    assert parts_of(FORM, spaces) == {"job": b"1"}
    more = b'content-type: application/xml\r\nContent-disposition: Form-Data; filename="x.xml"; name=job\r\n\r\n'
    assert parts_of(FORM, body_of(more + b"1")) == {"job": b"1"}
    assert parts_of(FORM, body_of(b"Content-Transfer-Encoding: binary\r\n" + HEAD + b"1")) == {"job": b"1"}
    assert parts_of(FORM, b"--ab--") == {}


def test_a_command_s_form_is_read() -> None:
    sent = form_of({"job": Document(BYTES, "application/xml"), "settings": Document(b"{}", "application/json")})
    assert parts_of(sent.kind, sent.data) == {"job": BYTES, "settings": b"{}"}


NO_END, NO_HEAD, NO_NAME = "doesn't end with its boundary", "has no head", "has no name"
WRONG = [
    ("multipart/form-data", body_of(HEAD), "has no boundary"),
    ("multipart/form-data; boundary=", body_of(HEAD), "has no boundary"),
    ("multipart/form-data; boundary=\xe4b", body_of(HEAD), "has no boundary"),
    (FORM, b"", NO_END),
    (FORM, body_of(HEAD)[:-4], NO_END),
    (FORM, body_of(HEAD, between=b"--cd"), NO_END),
    (FORM, body_of(HEAD).replace(b"\r\n", b"\n"), NO_END),
    (FORM, body_of(HEAD + b"1\r\n--abc\r\n\r\n"), NO_HEAD),
    (FORM, body_of(b"no head"), NO_HEAD),
    (FORM, body_of(b"\r\nno head"), NO_NAME),
    (FORM, body_of(b"Content-Disposition: form-data\r\n\r\n"), NO_NAME),
    (FORM, body_of(HEAD.replace(b"form-data", b"attachment")), NO_NAME),
    (FORM, body_of(b"Content-Type: text/plain\r\n\r\n"), NO_NAME),
    (FORM, body_of(b"Content-Transfer-Encoding: base64\r\n" + HEAD + b"MQ=="), "without another encoding"),
    (FORM, body_of(HEAD + b"1", HEAD + b"2"), "two parts of the body have one name"),
]


@pytest.mark.parametrize(("media_type", "body", "told"), WRONG)
def test_a_wrong_body_is_refused(media_type: str, body: bytes, told: str) -> None:
    with pytest.raises(Problem, match=told) as refused:
        parts_of(media_type, body)
    assert (refused.value.name, refused.value.status) == ("BadRequest", 400)
