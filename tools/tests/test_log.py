"""`batchctl script --log` keeps what it acknowledges, whatever happens to it and to its file (docs/TESTING.md, "A log on the
disk"). The file is read by a reader of the tests' own (log_trial/log_file.py).

The trials of locks are made alone: a process that begins holds all open files for a moment.
"""

from __future__ import annotations

import os
from collections.abc import Callable
from concurrent.futures import ThreadPoolExecutor
from functools import partial
from pathlib import Path

import pytest

from log_trial import catalogues, compacted_files, compactions, files, left_jobs, tags
from log_trial.copies import check_copies
from log_trial.damages import check_damage, check_long_end, check_opening, damages_of, sample_of
from log_trial.failures import check_full_disk, failures, small_disk
from log_trial.faults import Refusal, check_refusal, refusals
from log_trial.kills import WAYS, check_kill, seconds_of
from log_trial.samples import night_of, path_of
from log_trial.script import script_of
from log_trial.scripts import check_all, scripts_to_check
from program import Program, side_by_side

# How many job executions a night has whose program is killed, by the ways of killing.
NIGHTS = {"by_lines": 40, "by_pieces": 200, "at_full_speed": 1000}
REFUSALS = refusals()
Tell = Callable[[str], None]


def name_of(trial: Callable[..., object]) -> str:
    return trial.__name__


@pytest.mark.parametrize("trial", [*files.OF_A_LOG, *files.OF_FOLDERS], ids=name_of)
def test_the_file_of_a_log(program: Program, folder: Path, trial: Callable[[Program, Path], None]) -> None:
    trial(program, path_of(folder / "files") if trial in files.OF_A_LOG else folder / "files")


@pytest.mark.skipif(os.geteuid() == 0, reason="root may open each file")
def test_permissions_of_a_log(program: Program, folder: Path) -> None:
    files.check_permissions(program, folder / "permissions")


def test_scripts_over_a_log(program: Program, folder: Path, pool: ThreadPoolExecutor, tell: Tell) -> None:
    trials = [partial(check_all, program, *script, folder / str(at)) for at, script in enumerate(scripts_to_check())]
    tell(f"scripts over a log: {side_by_side(pool, trials)}")


@pytest.mark.parametrize("way", WAYS, ids=name_of)
def test_kills(
    program: Program,
    folder: Path,
    pool: ThreadPoolExecutor,
    seed: int,
    way: Callable[..., bytes],
    pytestconfig: pytest.Config,
    tell: Tell,
) -> None:
    count = NIGHTS[way.__name__]
    night = script_of(program, f"a night of {count} job executions", night_of(count))
    seconds = seconds_of(program, night, way, path_of(folder / "whole" / "log"))
    trials = [
        partial(check_kill, program, night, way, seconds, path_of(folder / str(number) / "log"), f"{seed} {number}")
        for number in range(pytestconfig.getoption("--kills"))
    ]
    tell(f"kills, {way.__name__}: {side_by_side(pool, trials)}")


def test_copies(program: Program, folder: Path, seed: int) -> None:
    check_copies(
        program, script_of(program, "a night that is copied", night_of(200)), seed, path_of(folder / "copies" / "whole")
    )


def test_damages(program: Program, folder: Path, pool: ThreadPoolExecutor, seed: int, tell: Tell) -> None:
    sample = sample_of(program)
    check_opening(program, sample, path_of(folder / "unharmed"))
    check_long_end(program, sample, path_of(folder / "long-end"))
    trials = [
        partial(check_damage, program, sample, law, f"seed {seed}, {what}", file, folder / str(number))
        for number, (law, what, file) in enumerate(damages_of(sample, seed))
    ]
    tell(f"damages of a log: {side_by_side(pool, trials)}")


@pytest.mark.parametrize("case", REFUSALS, ids=[case.name for case in REFUSALS])
def test_faults_of_a_log(program: Program, folder: Path, case: Refusal) -> None:
    check_refusal(program, case, folder / "log")


@pytest.mark.parametrize("trial", catalogues.TRIALS, ids=name_of)
def test_other_catalogues(program: Program, folder: Path, trial: Callable[[Program, Path], None]) -> None:
    trial(program, path_of(folder / "catalogues"))


@pytest.mark.parametrize("trial", tags.TRIALS, ids=name_of)
def test_tags(program: Program, folder: Path, trial: Callable[[Program, Path], None]) -> None:
    trial(program, path_of(folder / "tags"))


def test_compactions_of_scripts(program: Program, folder: Path, pool: ThreadPoolExecutor, tell: Tell) -> None:
    scripts = enumerate(compactions.scripts_to_compact())
    trials = [partial(compactions.check_script, program, *script, folder / str(at)) for at, script in scripts]
    tell(f"scripts whose log is compacted: {side_by_side(pool, trials)}")


def test_compactions_at_random(
    program: Program, folder: Path, pool: ThreadPoolExecutor, seed: int, pytestconfig: pytest.Config, tell: Tell
) -> None:
    count = pytestconfig.getoption("--histories")
    trials = [partial(compactions.check_drawn, program, f"{seed} {at}", folder / str(at)) for at in range(count)]
    tell(f"histories that are compacted: {side_by_side(pool, trials)}")


@pytest.mark.parametrize("trial", left_jobs.TRIALS, ids=name_of)
def test_jobs_that_leave(program: Program, folder: Path, trial: Callable[[Program, Path], None]) -> None:
    trial(program, path_of(folder / "jobs"))


def test_jobs_that_leave_at_random(
    program: Program, folder: Path, pool: ThreadPoolExecutor, seed: int, pytestconfig: pytest.Config, tell: Tell
) -> None:
    count = pytestconfig.getoption("--histories")
    trials = [partial(left_jobs.check_drawn, program, f"{seed} {at}", folder / str(at)) for at in range(count)]
    tell(f"histories whose catalogue loses a job: {side_by_side(pool, trials)}")


@pytest.mark.parametrize("trial", compacted_files.TRIALS, ids=name_of)
def test_files_of_compacted_logs(program: Program, folder: Path, trial: Callable[[Program, Path], None]) -> None:
    trial(program, path_of(folder / "compacted"))


@pytest.mark.parametrize("trial", compactions.TRIALS, ids=name_of)
def test_bases_that_are_none(program: Program, folder: Path, trial: Callable[[Program, Path], None]) -> None:
    trial(program, path_of(folder / "bases"))


def test_failures(program: Program, folder: Path, pool: ThreadPoolExecutor, tell: Tell) -> None:
    tell(f"files, replies and lines that fail: {side_by_side(pool, failures(program, folder))}")


def test_a_full_disk(program: Program, folder: Path) -> None:
    with small_disk(folder / "disk") as mounted:
        if not mounted:
            pytest.skip("only root may have a disk of its own")
        check_full_disk(program, folder / "disk" / "log")
