"""A script over a log whose lines have tags: no reply depends on them, and the log keeps them."""

from __future__ import annotations

from collections.abc import Callable, Iterable
from itertools import cycle
from pathlib import Path

from log_trial.log_file import Record, catalogue_record, log_of, operation_record
from log_trial.samples import JOB, MAX_LINE, catalogue_of, sample_scripts
from log_trial.script import Script, lines_of, script_of, want_log
from program import DONE, LOG_REFUSED, REFUSED_WORDS, Ended, Program, Words, over, want

MAX_TAG = 512
# Tags are bytes: they need not be text.
TAGS = [
    b"alice",
    b"",
    b'["a client","a key",0]',
    b"x" * MAX_TAG,
    bytes(byte for byte in range(256) if byte not in b"\t\n{"),
    b" {",
    b"111 o 00000027",
]
CATALOGUE = catalogue_of(JOB)
START = lines_of([{"do": "start", "by": 1, "at": 1, "job": "a"}]).removesuffix(b"\n")
BAD_LINE = b'{"refused":"BadLine"}\n'


def with_tags(log: Path) -> list[Words]:
    """The words that ask for a script with tags over this log."""
    name = str(log)
    return [
        [*over(log), "--tags"],
        ["script", "--tags", "--log", name],
        ["script", f"--log={name}", "--tags"],
        ["script", "--tags", f"--log={name}"],
    ]


def tagged(lines: Iterable[bytes]) -> list[bytes]:
    """Lines with tags by turns. An empty line has none: it would have no reply with one, too."""
    return [tag + b"\t" + line if line else line for tag, line in zip(cycle(TAGS), lines)]


def text_of(catalogue: bytes, lines: Iterable[bytes]) -> bytes:
    return b"\n".join([catalogue, *lines, b""])


def tagged_log(script: Script, lines: list[bytes]) -> bytes:
    """The log of a script whose lines were sent in this form."""
    kept = [operation_record(lines[number], script.replies[number]) for number in script.kept]
    return log_of([catalogue_record(script.catalogue), *kept])


def check_scripts(program: Program, log: Path) -> None:
    """Each sample script with tags: as one without them, in one run, and in two over one log."""
    words = cycle(with_tags(log))
    for name, text in sample_scripts():
        if program.script(text).status != DONE:
            continue
        script = script_of(program, name, text)
        lines = tagged(script.lines)
        half = len(lines) // 2
        for parts in ([lines], [lines[:half], lines[half:]]):
            log.unlink(missing_ok=True)
            found = [program.run(next(words), text_of(script.catalogue, part)) for part in parts]
            want(name, [(one.status, one.faults) for one in found], [(DONE, b"")] * len(parts))
            want(name, b"".join(one.output for one in found), script.told())
            want_log(name, log, tagged_log(script, lines))


def execution(number: int) -> bytes:
    return b'{"execution":%d}\n' % number


# Lines, and the replies to them, one after another.
EDGES: list[tuple[bytes, bytes]] = [
    (b"x" * MAX_TAG + b"\t" + START, execution(1)),
    (b"x" * (MAX_TAG + 1) + b"\t" + START, BAD_LINE),
    (b"{x\t" + START, BAD_LINE),
    (START, execution(2)),
    (b"\t" + START, execution(3)),
    (b"a\tb\t" + START, BAD_LINE),
    (b"a", BAD_LINE),
    (b"a\t", b""),
    (b"a\t\t" + START + b"\t", execution(4)),
    (b"", b""),
    (b"t\t" + START.ljust(MAX_LINE - 2), execution(5)),
    (b"t\t" + START.ljust(MAX_LINE - 1), BAD_LINE),
    (START.replace(b",", b",\t"), execution(6)),
]


def check_edges(program: Program, log: Path) -> None:
    """Where a tag ends, and what has none."""
    replies = b"".join(reply for _, reply in EDGES)
    found = program.run(with_tags(log)[0], text_of(CATALOGUE, [line for line, _ in EDGES]))
    want("lines with and without tags", found, Ended(DONE, replies))
    kept = [operation_record(line, reply) for line, reply in EDGES if reply.startswith(b'{"execution"')]
    want_log("lines with and without tags", log, log_of([catalogue_record(CATALOGUE), *kept]))


def check_other_logs(program: Program, log: Path) -> None:
    """A log without tags is gone on with by tags. One that has tags is refused without them, and stays as it is."""
    records: list[Record] = [catalogue_record(CATALOGUE), operation_record(START, execution(1))]
    log.write_bytes(log_of(records))
    line = b"alice\t" + START
    want("tags over a log without them", program.run(with_tags(log)[1], text_of(CATALOGUE, [line])), Ended(DONE, execution(2)))
    records.append(operation_record(line, execution(2)))
    want_log("tags over a log without them", log, log_of(records))
    fault = b'{"fault":"LogOtherReply","record":2}\n'
    want("a log with tags, without them", program.over(log, text_of(CATALOGUE, [START])), Ended(LOG_REFUSED, fault))
    want_log("a log with tags, without them", log, log_of(records))
    log.unlink()
    want("a tag without `--tags`", program.over(log, text_of(CATALOGUE, [line])), Ended(DONE, BAD_LINE))
    want_log("a tag without `--tags`", log, log_of(records[:1]))


def check_words(program: Program, log: Path) -> None:
    """`--tags` is taken before and behind the log, once, and not without it."""
    name = str(log)
    for words in with_tags(log):
        log.unlink(missing_ok=True)
        want(f"{words}", program.run(words, text_of(CATALOGUE, [b"a\t" + START])), Ended(DONE, execution(1)))
    log.unlink()
    refused: list[Words] = [
        ["script", "--tags"],
        ["script", "--log", "--tags"],
        ["script", "--tags", "--log", name, "--tags"],
        ["script", "--tags", "--tags", "--log", name],
        ["script", "--tags=yes", "--log", name],
        ["script", "--log", "--tags", name],
        ["run", "--tags"],
        ["--tags", "script", "--log", name],
    ]
    for words in refused:
        ended = program.run(words, text_of(CATALOGUE, []))
        want(f"{words}", (ended.status, ended.output, bool(ended.faults)), (REFUSED_WORDS, b"", True))
        want(f"{words}: a log was made", log.exists(), False)


TRIALS: list[Callable[[Program, Path], None]] = [check_scripts, check_edges, check_other_logs, check_words]
