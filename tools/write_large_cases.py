"""Writes the large cases of `cases/scripts`: scripts of many lines or long texts, with their replies.

    python3 tools/write_large_cases.py [--check]

Every reply is worked out here from the rules, never taken from the program. With `--check` nothing is written, and the
exit status is 1 where a file differs.
"""

from __future__ import annotations

import sys

from repository import ROOT

DATA = ROOT / "cases" / "scripts"

STEP = '{"kind":"step","id":"s","batchlet":{"ref":"ok"}}'
DECISION = '{"kind":"decision","id":"d","ref":"a"}'
ONE_JOB = '{"jobs":[{"id":"a","elements":[%s]}]}' % STEP
START = '{"do":"start","by":1,"at":0,"job":"a"}'
CLAIM = '{"do":"claim","by":1,"at":0}'
TOO_LONG = '{"refused":"TextTooLong"}'


def text(lines: list[str]) -> str:
    return "".join(line + "\n" for line in lines)


def three_hundred_executions() -> tuple[list[str], list[str]]:
    """More job executions and work items than a byte counts, all started, then claimed, then finished."""
    numbers = range(1, 301)
    script = [ONE_JOB] + [START for _ in numbers] + [CLAIM for _ in numbers]
    script += ['{"do":"finish","by":1,"at":7,"work":%d,"outcome":"COMPLETED"}' % number for number in numbers]
    replies = ['{"execution":%d}' % number for number in numbers]
    replies += ['{"work":{"element":"s","execution":%d,"kind":"batchlet","ref":"ok","work":%d}}' % (n, n) for n in numbers]
    replies += ['{"done":true}' for _ in numbers]
    script += ['{"ask":"job_execution","execution":257}', '{"ask":"status_counts"}']
    replies += [
        '{"job_execution":{"create":0,"end":7,"execution":257,"exit":"COMPLETED","instance":257,"job":"a","start":0,'
        '"status":"COMPLETED","updated":7}}',
        '{"counts":{"COMPLETED":300}}',
    ]
    script += ['{"ask":"step_executions","execution":300}']
    replies += [
        '{"step_executions":[{"end":7,"execution":300,"exit":"COMPLETED","metrics":{},"start":0,"status":"COMPLETED",'
        '"step":"s","work":300}]}'
    ]
    return script, replies


def parameters_at_their_bounds() -> tuple[list[str], list[str]]:
    """A key of 256 bytes and a value of 4,096, and 64 parameters; one more of each is refused."""
    start = '{"do":"start","by":1,"at":0,"job":"a","parameters":{%s}}'
    restart = '{"do":"restart","by":1,"at":0,"execution":1,"parameters":{%s}}'
    stop = '{"do":"stop","by":1,"at":0,"execution":1}'
    ask = '{"ask":"parameters","execution":%d}'
    longest = '"%s":"%s"' % ("k" * 256, "v" * 4096)
    long_value = '"k":"%s"' % ("v" * 4097)
    most = ",".join('"%d":"v"' % key for key in range(10, 73))
    cases = [
        (start % longest, '{"execution":1}'),
        (ask % 1, '{"parameters":{%s}}' % longest),
        (start % long_value, TOO_LONG),
        (start % ('"%s":""' % ("k" * 257)), TOO_LONG),
        (start % (most + ',"k":""'), '{"execution":2}'),
        (ask % 2, '{"parameters":{%s,"k":""}}' % most),
        (start % (most + ',"k":"","l":""'), TOO_LONG),
        # A key that is given twice counts once, and its first value has no bound.
        (start % (most + ',"k":"1","k":""'), '{"execution":3}'),
        (ask % 3, '{"parameters":{%s,"k":""}}' % most),
        (start % ('"k":"%s","k":""' % ("v" * 5000)), '{"execution":4}'),
        (ask % 4, '{"parameters":{"k":""}}'),
        (stop, '{"done":true}'),
        (restart % longest, '{"execution":5}'),
        (restart % long_value, TOO_LONG),
        (restart % (most + ',"k":"","l":""'), TOO_LONG),
    ]
    return [ONE_JOB] + [line for line, _ in cases], [reply for _, reply in cases]


def lines_of_many_lengths() -> tuple[list[str], list[str]]:
    """The spaces behind a line are no part of what it says."""
    lengths = range(300)
    return [ONE_JOB] + [START + " " * length for length in lengths], ['{"execution":%d}' % (n + 1) for n in lengths]


def catalogues_of_many_lengths() -> tuple[list[str], list[str]]:
    """Nor are those before a catalogue."""
    scripts = [text([" " * length + '{"jobs":[]}', '{"ask":"job_names"}']) for length in range(300)]
    return ["\n".join(scripts).removesuffix("\n")], ["\n".join('{"names":[]}\n' for _ in scripts).removesuffix("\n")]


def job_of(elements: str) -> str:
    return '{"jobs":[{"id":"j","elements":[%s]}]}' % elements


def a_thousand_elements() -> tuple[list[str], list[str]]:
    """A job of 1,000 elements is taken, and one of 1,001 refused."""
    decisions = ['{"kind":"decision","id":"%d","ref":"a"}' % number for number in range(1001)]
    script = [job_of(",".join(decisions[:1000])), '{"ask":"job_names"}', "", job_of(",".join(decisions))]
    return script, ['{"names":[]}', "", '{"fault":"TooMany","job":0}']


def jobs_of_a_catalogue() -> tuple[list[str], list[str]]:
    """A catalogue of 256 jobs is taken, and one of 257 refused."""
    jobs = ['{"id":"%d","elements":[%s]}' % (number, DECISION) for number in range(257)]
    fits, many = ('{"jobs":[%s]}' % ",".join(jobs[:count]) for count in (256, 257))
    script = [fits, '{"do":"start","by":1,"at":0,"job":"255"}', '{"ask":"job_names"}', "", many]
    return script, ['{"execution":1}', '{"names":["255"]}', "", '{"fault":"TooMany","job":256}']


def sixty_four_partitions() -> tuple[list[str], list[str]]:
    """A step of the most partitions: each is handed out once, by rising number, and a restart runs the last one again."""
    numbers = range(64)
    step = '{"kind":"step","id":"s","partitions":64,"batchlet":{"ref":"ok"}}'
    work = '{"work":{"element":"s","execution":%d,"kind":"batchlet","partition":%d,"ref":"ok","work":%d}}'
    finish = '{"do":"finish","by":1,"at":%d,"work":%d,"outcome":"%s"}'
    ended = (
        '{"step_executions":[{"end":%d,"execution":%d,"exit":"%s","metrics":{},"start":0,"status":"%s",'
        '"step":"s","work":%d}]}'
    )
    script = ['{"jobs":[{"id":"a","elements":[%s]}]}' % step, START] + [CLAIM for _ in numbers] + [CLAIM]
    replies = ['{"execution":1}'] + [work % (1, n, n + 1) for n in numbers] + ['{"nothing":true}']
    script += [finish % (n, n + 1, "COMPLETED") for n in numbers[:63]] + [finish % (63, 64, "FAILED")]
    replies += ['{"done":true}' for _ in numbers]
    script += ['{"ask":"step_executions","execution":1}', '{"do":"restart","by":1,"at":0,"execution":1}', CLAIM, CLAIM]
    replies += [ended % (63, 1, "FAILED", "FAILED", 1), '{"execution":2}', work % (2, 63, 65), '{"nothing":true}']
    script += [finish % (9, 65, "COMPLETED"), '{"ask":"step_executions","execution":2}']
    replies += ['{"done":true}', ended % (9, 2, "COMPLETED", "COMPLETED", 65)]
    return script, replies


CASES = {
    "three_hundred_executions.script": three_hundred_executions,
    "parameters_at_their_bounds.script": parameters_at_their_bounds,
    "lines_of_many_lengths.script": lines_of_many_lengths,
    "catalogues_of_many_lengths.scripts": catalogues_of_many_lengths,
    "a_thousand_elements.scripts": a_thousand_elements,
    "jobs_of_a_catalogue.scripts": jobs_of_a_catalogue,
    "sixty_four_partitions.script": sixty_four_partitions,
}


def main() -> int:
    differs = False
    for name, case in CASES.items():
        script, replies = case()
        for path, wanted in [(DATA / name, text(script)), (DATA / (name.partition(".")[0] + ".replies"), text(replies))]:
            if path.read_text() == wanted:
                continue
            differs = True
            if "--check" in sys.argv:
                print(f"{path.relative_to(ROOT)}: differs")
            else:
                path.write_text(wanted)
    return 1 if differs and "--check" in sys.argv else 0


if __name__ == "__main__":
    sys.exit(main())
