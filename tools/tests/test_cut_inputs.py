"""What `batchctl` says to an input that ends too early: a script and the input of a run, each cut behind every byte.

- Within the catalogue the fault NotJson is all that is written, and the status is 3.
- Behind it each whole line has its reply, a last line without its line feed too. A line that is cut is answered BadLine, and
  the status is 0.
- A run tells of the job executions that the whole lines have started.

The replies stand here as the formats of the service's lines have them.
"""

from __future__ import annotations

from concurrent.futures import ThreadPoolExecutor
from dataclasses import dataclass
from functools import partial

import pytest

from program import DONE, FAULTY_CATALOGUE, Ended, Program

CATALOGUE = b'{"jobs":[{"id":"a","elements":[{"kind":"step","id":"s","batchlet":{"ref":"ok"}}]}]}'
NOT_JSON = b'{"fault":"NotJson"}\n'
BAD_LINE = b'{"refused":"BadLine"}\n'
STEPS = b'[{"exit":"COMPLETED","metrics":{},"status":"COMPLETED","step":"s"}]'
TOLD = b'{"execution":%d,"exit":"COMPLETED","status":"COMPLETED","steps":' + STEPS + b"}\n"


@dataclass(frozen=True)
class Case:
    """Words of the command line, lines behind the catalogue, and the reply to each."""

    words: tuple[str, ...]
    lines: tuple[bytes, ...]
    replies: tuple[bytes, ...]
    # What a run tells of each job execution at its end; each line starts one.
    told: bytes = b""

    def input(self) -> bytes:
        return b"".join(line + b"\n" for line in (CATALOGUE, *self.lines))

    def answered(self, count: int) -> bytes:
        return b"".join(self.replies[:count])

    def ending(self, count: int) -> bytes:
        return b"".join(self.told % (number + 1) for number in range(count) if self.told)

    def wanted(self, cut: int) -> Ended:
        """How a run ends if its input ends behind so many bytes."""
        *whole, last = self.input()[:cut].split(b"\n")
        lines = (CATALOGUE, *self.lines)
        if not whole and last != CATALOGUE:
            return Ended(FAULTY_CATALOGUE, NOT_JSON)
        is_whole = last != b"" and last == lines[len(whole)]
        count = len(whole) + is_whole - 1
        bad = BAD_LINE if last and not is_whole else b""
        return Ended(DONE, self.answered(count) + bad + self.ending(count))


CASES = [
    Case(
        ("script",),
        (
            b'{"do":"start","by":1,"at":10,"job":"a"}',
            b'{"do":"claim","by":2,"at":20}',
            b'{"do":"finish","by":2,"at":30,"work":1,"outcome":"COMPLETED"}',
            b'{"ask":"job_execution","execution":1}',
        ),
        (
            b'{"execution":1}\n',
            b'{"work":{"element":"s","execution":1,"kind":"batchlet","ref":"ok","work":1}}\n',
            b'{"done":true}\n',
            b'{"job_execution":{"create":10,"end":30,"execution":1,"exit":"COMPLETED","instance":1,"job":"a","start":20,'
            b'"status":"COMPLETED","updated":30}}\n',
        ),
    ),
    Case(
        ("run", "--workers", "2"),
        (b'{"job":"a"}', b'{"job":"a","parameters":{"k":"v"}}'),
        (b'{"execution":1}\n', b'{"execution":2}\n'),
        TOLD,
    ),
]


def differs(program: Program, case: Case, cut: int) -> str | None:
    """What is wrong with the answer to an input that ends behind so many bytes."""
    found, wanted = program.run(case.words, case.input()[:cut]), case.wanted(cut)
    return None if found == wanted else f"{case.words[0]}, cut behind {cut} bytes: {found} in place of {wanted}"


@pytest.mark.parametrize("case", CASES, ids=[case.words[0] for case in CASES])
def test_an_input_is_cut_behind_each_byte(program: Program, case: Case, pool: ThreadPoolExecutor) -> None:
    cuts = range(len(case.input()) + 1)
    assert "\n".join(told for told in pool.map(partial(differs, program, case), cuts) if told) == ""
