"""Logs with a chain under test: made without a service, and changed as by somebody who mends all that batchctl checks."""

from __future__ import annotations

import json
import subprocess
from collections.abc import Callable
from pathlib import Path

from conftest import CHUNKY

from job_host.commands.program import find_batchctl
from job_host.service.history import log_file
from job_host.service.history.chain import COVERED
from job_host.service.keepers.chaining import Chaining
from job_host.service.keepers.embedded import LOG_NAME

CATALOGUE = json.dumps({"jobs": [CHUNKY]}, separators=(",", ":")).encode()
BEGUN = [
    b'ops/anna =10.0.0.1\t{"do":"start","by":2,"at":1,"job":"chunky"}',
    b'farm/one =10.0.0.2\t{"do":"claim","by":3,"at":2}',
]
# Their replies are all the same, so that batchctl sees nothing if they change places.
CHECKPOINT = b'farm/one =10.0.0.2\t{"do":"checkpoint","by":3,"at":%d,"work":1,"data":"%d"}'
TABLE = [0] * 256
for number in range(256):
    check = number
    for _ in range(8):
        check = (check >> 1) ^ (0x82F63B78 if check & 1 else 0)
    TABLE[number] = check

# Operations as a chain covers them, which are changed in their place.
Operations = list[bytes]
Plant = Callable[[Operations], None]


def crc32c(data: bytes, begun: int) -> int:
    check = begun ^ 0xFFFFFFFF
    for byte in data:
        check = TABLE[(check ^ byte) & 255] ^ (check >> 8)
    return check ^ 0xFFFFFFFF


def make_chained(folder: Path, count: int) -> Path:
    """A folder with a log of so many operations, and its chain. Returns the log."""
    folder.mkdir()
    path = folder / LOG_NAME
    lines = [CATALOGUE, *BEGUN, *(CHECKPOINT % (at, at) for at in range(3, count + 1))]
    words = [*find_batchctl(None), "script", "--log", str(path), "--tags"]
    subprocess.run(words, input=b"\n".join(lines) + b"\n", check=True, capture_output=True)
    Chaining(path).begin()
    return path


def forge(path: Path, plant: Plant) -> None:
    """Changes the operations of a log, and mends lengths, numbers and checks."""
    texts = [text for some in log_file.texts(path) for text in some]
    kept = [text for text in texts if text[log_file.MARK] != log_file.OPERATION]
    operations = [text[COVERED] for text in texts if text[log_file.MARK] == log_file.OPERATION]
    plant(operations)
    records = [(text[log_file.MARK], text[COVERED]) for text in kept] + [(log_file.OPERATION, one) for one in operations]
    header = path.read_bytes()[: log_file.HEADER_BYTES]
    written, check = [header], crc32c(header, 0)
    for number, (mark, covered) in enumerate(records):
        reply, line = covered[:8], covered[9:]
        check = crc32c(mark + reply + line, check)
        sizes = b"%08x %08x %08x %08x" % (len(line), len(line), number, check)
        written.append(b"111 %b %b %b %b\n" % (mark, sizes, reply, line))
    path.write_bytes(b"".join(written) + log_file.SHUT)


def accepts(path: Path) -> bool:
    """Whether batchctl replays a copy of a log."""
    copy = path.with_name("accepted")
    copy.write_bytes(path.read_bytes())
    words = [*find_batchctl(None), "script", "--log", str(copy), "--tags"]
    return subprocess.run(words, input=CATALOGUE + b"\n", check=False, capture_output=True).returncode == 0
