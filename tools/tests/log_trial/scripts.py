"""Scripts over a log are answered as without one, in one run or in many."""

from __future__ import annotations

from collections.abc import Iterator
from pathlib import Path

from log_trial.samples import night_of, padded_starts, path_of, sample_scripts
from log_trial.script import Script, script_of, want_log
from program import DONE, Ended, Program, want

# A script is cut at each of its lines, but at most at so many places, which are evenly spaced.
MOST_CUTS = 12
JOB_EXECUTIONS = 300


def check_faulty(program: Program, name: str, text: bytes, log: Path, wanted: Ended) -> None:
    """A catalogue that is refused makes no log, and reads none."""
    want(f"{name}, over a log", program.over(log, text), wanted)
    want(f"{name}: a log was made", log.exists(), False)
    log.write_bytes(b"no log")
    want(f"{name}, over another file", program.over(log, text), wanted)
    want_log(name, log, b"no log")


def check_whole(program: Program, script: Script, log: Path) -> None:
    """The script in one run; then the log is opened again with no line."""
    want(f"{script.name}, over a log", program.over(log, script.text()), Ended(DONE, script.told()))
    want_log(script.name, log, script.log)
    want(f"{script.name}, opened again", program.over(log, script.text(0, 0)), Ended(DONE))
    want_log(f"{script.name}, opened again", log, script.log)


def check_sample(program: Program, name: str, text: bytes, folder: Path) -> Script | None:
    """A script with and without a log. Gives it if its catalogue is taken."""
    log = path_of(folder)
    plain = program.script(text)
    if plain.status != DONE:
        check_faulty(program, name, text, log, plain)
        return None
    script = script_of(program, name, text)
    check_whole(program, script, log)
    return script


def check_cut(program: Program, script: Script, cut: int, log: Path) -> None:
    """The script in two runs over one log. The input of the first lacks its last line feed at each other cut."""
    name = f"{script.name}, cut behind {cut} lines"
    first = program.over(log, script.text(0, cut, b"\n" * (cut % 2)))
    second = program.over(log, script.text(cut))
    want(name, (first, second), (Ended(DONE, script.told(0, cut)), Ended(DONE, script.told(cut))))
    want_log(name, log, script.log)


def check_lines(program: Program, script: Script, log: Path) -> None:
    """The script over one log, a line a run."""
    for number in range(len(script.lines)):
        found = program.over(log, script.text(number, number + 1))
        want(f"{script.name}, line {number} alone", found, Ended(DONE, script.told(number, number + 1)))
    want_log(f"{script.name}, a line a run", log, script.log)


def cuts_of(script: Script) -> list[int]:
    """Behind how many lines the script is cut."""
    count = len(script.lines)
    return sorted({count * place // MOST_CUTS for place in range(MOST_CUTS + 1)} if count > MOST_CUTS else range(count + 1))


def check_all(program: Program, name: str, text: bytes, folder: Path) -> None:
    """A sample script as a whole, cut in two, and cut into its lines."""
    script = check_sample(program, name, text, folder / "whole")
    if script is None or not script.lines:
        return
    for cut in cuts_of(script):
        check_cut(program, script, cut, path_of(folder / f"cut-{cut}"))
    if len(script.lines) <= MOST_CUTS:
        check_lines(program, script, path_of(folder / "lines"))


def large_scripts() -> Iterator[tuple[str, bytes]]:
    yield "lines as long as they may be", padded_starts()
    yield "a night", night_of(JOB_EXECUTIONS)


def scripts_to_check() -> list[tuple[str, bytes]]:
    return [*sample_scripts(), *large_scripts()]
