"""Each fault of a log, and which comes first. The file stays as it was."""

from __future__ import annotations

from collections.abc import Iterator
from dataclasses import dataclass, replace
from pathlib import Path

from log_trial.log_file import CATALOGUE, Record, catalogue_record, link_behind, log_of, operation_record
from log_trial.samples import JOB, OTHER_JOB, catalogue_of
from log_trial.script import want_log
from program import LOG_REFUSED, Ended, Program, want

FAULTY_CATALOGUE = 3
FOREIGN = b'{"fault":"LogForeign"}\n'
LATER = b'{"fault":"LogLater"}\n'
NOT_JSON = Ended(FAULTY_CATALOGUE, b'{"fault":"NotJson"}\n')

GIVEN = catalogue_of(JOB)
START = b'{"do":"start","by":1,"at":1,"job":"a"}'
STARTED = b'{"execution":1}\n'
CLAIM = b'{"do":"claim","by":1,"at":2}'
CLAIMED = b'{"work":{"element":"s","execution":1,"kind":"batchlet","ref":"ok","work":1}}\n'
FIRST = catalogue_record(GIVEN)
STARTING = operation_record(START, STARTED)
CLAIMING = operation_record(CLAIM, CLAIMED)
GOOD = log_of([FIRST, STARTING, CLAIMING])
# A record whose check is of another line, and one whose reply has another check.
DAMAGED = log_of([FIRST, STARTING]).replace(b'"at":1', b'"at":7')
# The check of record 1, as it is written.
CHECK = b"%08x" % STARTING.check(link_behind([FIRST]))
OTHER = replace(STARTING, reply_check=STARTING.reply_check ^ 1)


@dataclass(frozen=True)
class Refusal:
    """A file, the catalogue that is given, and the line of the fault."""

    name: str
    file: bytes
    line: bytes
    given: bytes = GIVEN


def damaged(record: int, byte: int) -> bytes:
    return b'{"byte":%d,"fault":"LogDamaged","record":%d}\n' % (byte, record)


def other_reply(record: int) -> bytes:
    return b'{"fault":"LogOtherReply","record":%d}\n' % record


def other_catalogue(job: int) -> bytes:
    return b'{"fault":"LogOtherCatalogue","job":%d}\n' % job


# The bytes at which the gates of records 1 and 2 stand.
SECOND = 8 + FIRST.size()
THIRD = SECOND + STARTING.size()

FOREIGNERS = [
    Refusal("an empty file", b"", FOREIGN),
    Refusal("a text", b"These are no records.\n", FOREIGN),
    Refusal("a script", GIVEN + b"\n" + START + b"\n", FOREIGN),
    Refusal("the header without its line feed", GOOD[:7], FOREIGN),
    Refusal("a header with a carriage return", GOOD.replace(b"\n", b"\r\n", 1), FOREIGN),
    Refusal("the header alone", GOOD[:8], FOREIGN),
    Refusal("version 1", GOOD.replace(b"bctlog2", b"bctlog1"), FOREIGN),
    Refusal("a log without a record", log_of([]), FOREIGN),
    Refusal("a log that begins with an operation", log_of([STARTING, FIRST]), FOREIGN),
    Refusal("a log whose catalogue is none", log_of([Record(CATALOGUE, b'{"jobs":{}}'), STARTING]), FOREIGN),
    Refusal("a log whose catalogue is empty", log_of([Record(CATALOGUE, b""), STARTING]), FOREIGN),
    Refusal("a log whose last catalogue is none", log_of([FIRST, STARTING, Record(CATALOGUE, b"null")]), FOREIGN),
    Refusal("a log whose last catalogue has a faulty job", log_of([FIRST, Record(CATALOGUE, catalogue_of(JOB, JOB))]), FOREIGN),
]

LATERS = [
    Refusal(f"version {digit!r}", GOOD.replace(b"bctlog2", b"bctlog" + digit), LATER)
    for digit in (b"3", b"0", b"9", b"x", b"\n")
]

DAMAGES = [
    Refusal("a changed line", DAMAGED, damaged(1, SECOND)),
    Refusal("a changed catalogue", GOOD.replace(b'"ok"', b'"no"', 1), damaged(0, 8)),
    Refusal("a mark that differs", GOOD.replace(b"111 o", b"111 c", 1), damaged(1, SECOND)),
    Refusal("a digit in upper case", GOOD.replace(CHECK, CHECK.upper()), damaged(1, SECOND)),
    Refusal("a line without its feed", GOOD[: SECOND - 1] + b" " + GOOD[SECOND:], damaged(0, 8)),
    Refusal("half a record", GOOD[: SECOND + 20], damaged(1, SECOND)),
    Refusal("a record left out", GOOD[:SECOND] + GOOD[THIRD:], damaged(1, SECOND)),
    Refusal("a doubled record", GOOD[:THIRD] + GOOD[SECOND:], damaged(2, THIRD)),
    Refusal("records exchanged", GOOD[:SECOND] + GOOD[THIRD:-3] + GOOD[SECOND:THIRD] + GOOD[-3:], damaged(1, SECOND)),
    Refusal("an open gate with a space behind it", GOOD[:-3] + b"111 ", damaged(3, len(GOOD) - 3)),
    Refusal("two records with a fault each", DAMAGED.replace(b'"ok"', b'"no"'), damaged(0, 8)),
]

REPLIES = [
    Refusal("another check of a reply", log_of([FIRST, OTHER]), other_reply(1)),
    Refusal("another check of the second reply", log_of([FIRST, STARTING, replace(CLAIMING, reply_check=0)]), other_reply(2)),
    Refusal("two other checks", log_of([FIRST, OTHER, replace(CLAIMING, reply_check=0)]), other_reply(1)),
    Refusal("another check behind a second catalogue", log_of([FIRST, FIRST, OTHER]), other_reply(2)),
    Refusal("no check of a reply", log_of([FIRST, replace(STARTING, reply_check=0)]), other_reply(1)),
]


def unkept_lines() -> Iterator[Refusal]:
    """Logs with a line that no log keeps, though its reply has the check."""
    pairs = [
        (b'{"do":"start","by":1,"at":1,"job":"b"}', b'{"refused":"JobStartException"}\n'),
        (b'{"do":"start","by":0,"at":1,"job":"a"}', b'{"refused":"BadLine"}\n'),
        (b'{"do":"claim","by":1,"at":2}', b'{"nothing":true}\n'),
        (b'{"ask":"job_names"}', b'{"job_names":[]}\n'),
        (b"no line", b'{"refused":"BadLine"}\n'),
        (b"", b""),
    ]
    for line, reply in pairs:
        file = log_of([FIRST, operation_record(line, reply), STARTING])
        yield Refusal(f"a log that keeps {line.decode()!r}", file, other_reply(1))


def orders() -> list[Refusal]:
    """Logs with two faults: the earlier one is told."""
    faulty = Record(CATALOGUE, b"null")
    return [
        Refusal("a later version that is damaged", DAMAGED.replace(b"log2", b"log3"), LATER),
        Refusal("a later version of another catalogue", GOOD.replace(b"log2", b"log3"), LATER, catalogue_of()),
        Refusal("another file of another version", b"BCTLOG3\n", FOREIGN),
        Refusal("a damaged record of another catalogue", DAMAGED, damaged(1, SECOND), catalogue_of()),
        Refusal("a damaged record behind no catalogue", log_of([faulty])[:-3] + b"111x", damaged(1, 8 + faulty.size())),
        Refusal("no catalogue, and another reply", log_of([faulty, OTHER]), FOREIGN),
        Refusal("another catalogue, and another reply", log_of([FIRST, OTHER]), other_catalogue(0), catalogue_of(OTHER_JOB)),
        Refusal(
            "a catalogue that has grown, and another reply",
            log_of([FIRST, OTHER]),
            other_reply(1),
            catalogue_of(JOB, OTHER_JOB),
        ),
    ]


def refusals() -> list[Refusal]:
    return [*FOREIGNERS, *LATERS, *DAMAGES, *REPLIES, *unkept_lines(), *orders()]


def check_refusal(program: Program, case: Refusal, log: Path) -> None:
    """A log that is refused. No line is answered, and a fault of the catalogue comes first."""
    log.write_bytes(case.file)
    before = log.stat()
    given = b"\n".join([case.given, START, CLAIM, b""])
    want(case.name, program.over(log, given), Ended(LOG_REFUSED, case.line))
    want_log(case.name, log, case.file)
    want(f"{case.name}, with no catalogue", program.over(log, b"\n" + given), NOT_JSON)
    want_log(f"{case.name}, with no catalogue", log, case.file)
    want(f"{case.name}: its time", log.stat().st_mtime_ns, before.st_mtime_ns)
