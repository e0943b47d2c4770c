"""`jobhost catalogue`: check, line, from-jsl, diagram and diff."""

from __future__ import annotations

import argparse
import gc
import json
import os
import sys
from collections.abc import Callable, Sequence
from pathlib import Path
from typing import TextIO

from job_host.catalogue import jsl, jsl_text
from job_host.catalogue.check import Checked, check, jobs_in
from job_host.catalogue.diagram import draw
from job_host.catalogue.diff import compare
from job_host.catalogue.faults import Fault, Note, NoVerdict
from job_host.catalogue.file import CatalogueFile, read_data, read_jsl
from job_host.catalogue.folder import JobFolder, read_folder
from job_host.catalogue.growth import changed_jobs, is_begun_by
from job_host.catalogue.schema import schema_of_catalogues
from job_host.catalogue.text import laid_out, one_line, plain
from job_host.catalogue.tree import count_elements
from job_host.catalogue.verdicts import Verdict, ask
from job_host.commands.program import find_batchctl
from job_host.protocol.lines import compact
from job_host.protocol.printable import printable

ACCEPTED, REFUSED, WRONG_WORDS = 0, 1, 2
STANDARD_INPUT = "-"
Subcommands = argparse._SubParsersAction  # argparse has no public name for it


class WrongWords(Exception):
    """What is asked for can't be done."""


def tell(file: CatalogueFile, notes: Sequence[Fault | Note], to: TextIO) -> None:
    """Prints faults and notes, a line each, with their places."""
    for note in notes:
        print(printable(f"{file.source.name}:{file.source.place(note.at)}: {note}"), file=to)


def verdict_of(checked: Checked) -> str:
    """What is said of a file in the end."""
    name = checked.file.source.name
    if checked.is_accepted:
        jobs = checked.file.root.members["jobs"].value.items if checked.file.root is not None else []
        return f"{name}: accepted, jobs: {len(jobs)}, elements: {sum(map(count_elements, jobs))}"
    if checked.verdict is not None and checked.verdict.answer is not None:
        return f"{name}: refused by batchctl, {compact(dict(sorted(checked.verdict.answer.items()))).decode()}"
    return f"{name}: refused, as its JSL is no catalogue"


def report_json(checked: Checked, to: TextIO) -> None:
    """The same as objects, a line each: faults and notes with their places, and the verdict at the end."""
    source = checked.file.source
    notes: list[Fault | Note] = [*checked.faults, *checked.file.refused, *checked.file.told, *checked.warnings]
    for note in notes:
        place = source.place(note.at)
        told = {"file": source.name, "line": place.line, "column": place.column, **note.members}
        print(json.dumps(told), file=to)
    print(json.dumps({"file": source.name, "accepted": checked.is_accepted}), file=to)


def report(checked: Checked, to: TextIO) -> None:
    tell(checked.file, [*checked.faults, *checked.file.refused], to)
    tell(checked.file, [*checked.file.told, *checked.warnings], to)
    print(printable(verdict_of(checked)), file=to)


def bytes_of(name: str) -> bytes:
    try:
        return sys.stdin.buffer.read() if name == STANDARD_INPUT else Path(name).read_bytes()
    except OSError as fault:
        raise WrongWords(f"{name}: {fault.strerror}") from fault


def read(name: str, given: argparse.Namespace) -> CatalogueFile:
    return read_data(name, bytes_of(name), given.allow)


def accepted(name: str, given: argparse.Namespace) -> CatalogueFile | None:
    """The file, if batchctl takes it; else what is wrong is told."""
    checked = check(read(name, given), find_batchctl(given.batchctl))
    if checked.is_accepted:
        return checked.file
    report(checked, sys.stderr)
    return None


FORMATS = {"text": report, "json": report_json}


def check_files(given: argparse.Namespace) -> int:
    if given.artifacts is not None and not given.artifacts.is_dir():
        raise WrongWords(f"--artifacts {given.artifacts} is no folder")
    batchctl = find_batchctl(given.batchctl)
    if given.jobs:
        folders = [folder_of(name, given) for name in given.files]
        return max([check_folder(folder, batchctl, given) for folder in folders])
    status = ACCEPTED
    for file in [read(name, given) for name in given.files]:
        checked = check(file, batchctl, given.artifacts)
        FORMATS[given.format](checked, sys.stdout)
        status = status if checked.is_accepted else REFUSED
    return status


def folder_of(name: str, given: argparse.Namespace) -> JobFolder:
    try:
        return read_folder(Path(name), given.allow)
    except OSError as fault:
        raise WrongWords(f"{name}: {fault.strerror}") from fault


def check_folder(folder: JobFolder, batchctl: Sequence[str], given: argparse.Namespace) -> int:
    """Checks each file of a folder, and tells what no file has by itself.

    batchctl is asked of all files at once: if it takes them, it takes each.
    """
    verdicts = list[bool]()
    taken = Verdict(None) if not folder.refused and ask(batchctl, folder.line).answer is None else None
    for file in folder.files:
        checked = check(file, batchctl, given.artifacts, taken)
        FORMATS[given.format](checked, sys.stdout)
        verdicts.append(checked.is_accepted)
    for line in folder.beside:
        print(json.dumps({"file": str(folder.path), "told": line}) if given.format == "json" else printable(line))
    return ACCEPTED if all(verdicts) and not folder.beside else REFUSED


def schema(given: argparse.Namespace) -> int:
    print(laid_out(schema_of_catalogues()))
    return ACCEPTED


def line_of_folder(given: argparse.Namespace) -> int:
    """Writes the line of all jobs of a folder, as `jobhost serve --jobs` has it."""
    folder = folder_of(given.file, given)
    for told in [*folder.refused, *folder.told]:
        print(printable(told), file=sys.stderr)
    if folder.refused:
        return REFUSED
    sys.stdout.buffer.write(folder.line + b"\n")
    return ACCEPTED


def line(given: argparse.Namespace) -> int:
    """Writes the line of a file. JSON is not looked at: that is batchctl's, at the end of the pipe."""
    if given.file != STANDARD_INPUT and Path(given.file).is_dir():
        return line_of_folder(given)
    data = bytes_of(given.file)
    if not jsl_text.is_xml(data):
        sys.stdout.buffer.write(one_line(data) + b"\n")
        return ACCEPTED
    file = read_jsl(given.file, data, given.allow)
    tell(file, [*file.refused, *file.told], sys.stderr)
    if file.line is None or file.refused:
        return REFUSED
    sys.stdout.buffer.write(file.line + b"\n")
    return ACCEPTED


def from_jsl(given: argparse.Namespace) -> int:
    """Writes a catalogue of all files, if each is accepted, and if they are accepted together."""
    batchctl = find_batchctl(given.batchctl)
    made = [check(read_jsl(name, bytes_of(name), given.allow), batchctl) for name in given.files]
    for checked in made:
        tell(checked.file, [*checked.faults, *checked.file.refused, *checked.file.told], sys.stderr)
    if not all(checked.is_accepted for checked in made):
        return REFUSED
    jobs = [job for checked in made if checked.file.root is not None for job in plain(checked.file.root)["jobs"]]
    answer = ask(batchctl, compact({"jobs": jobs})).answer
    if answer is not None:
        print(f"jobhost catalogue: the files together are refused by batchctl, {json.dumps(answer)}", file=sys.stderr)
        return REFUSED
    print(laid_out({"jobs": jobs}))
    return ACCEPTED


def diagram(given: argparse.Namespace) -> int:
    file = accepted(given.file, given)
    if file is None or file.root is None:
        return REFUSED
    jobs = [job for job in jobs_in(file.root) if given.job in (None, job.id)]
    if given.job is not None and not jobs:
        raise WrongWords(f"{given.file} has no job {given.job}")
    sys.stdout.buffer.write(draw(jobs))
    return ACCEPTED


def diff(given: argparse.Namespace) -> int:
    """Status 2 says that one of the files is none that could be compared."""
    files = [accepted(name, given) for name in (given.old, given.new)]
    jobs = [plain(file.root)["jobs"] for file in files if file is not None and file.root is not None]
    if len(jobs) < 2:
        return WRONG_WORDS
    batchctl, (before, after) = find_batchctl(given.batchctl), jobs
    lines = compact({"jobs": before}), compact({"jobs": after})
    changed = changed_jobs(batchctl, *lines)
    is_in_order = not changed and is_begun_by(batchctl, *lines)
    compared = compare(before, after, changed, is_in_order)
    for told in [*compared.lines, f"{given.new}: {compared.verdict()}"]:
        print(printable(told))
    return ACCEPTED if compared.is_taken else REFUSED


def run(command: Callable[[argparse.Namespace], int]) -> Callable[[argparse.Namespace], int]:
    """A command whose own failures end with a line on standard error, and status 2."""

    def ran(given: argparse.Namespace) -> int:
        for stream in (sys.stdout, sys.stderr):
            if hasattr(stream, "reconfigure"):
                stream.reconfigure(errors="backslashreplace")
        # A large catalogue is a million values and no garbage: to look for some takes half of the time.
        gc.disable()
        try:
            status = command(given)
            sys.stdout.flush()
            return status
        except BrokenPipeError:
            os.dup2(os.open(os.devnull, os.O_WRONLY), sys.stdout.fileno())
            return REFUSED
        except (WrongWords, NoVerdict) as fault:
            print(printable(f"jobhost catalogue: {fault}"), file=sys.stderr)
            return WRONG_WORDS
        finally:
            gc.enable()

    return ran


def add_command(
    commands: Subcommands[argparse.ArgumentParser], name: str, command: Callable[[argparse.Namespace], int], told: str
) -> argparse.ArgumentParser:
    parser = commands.add_parser(name, help=told, description=told)
    parser.add_argument(
        "--allow",
        action="append",
        default=[],
        choices=sorted(jsl.REFUSED),
        metavar="NAME",
        help="a form of JSL to leave out (default: none): " + ", ".join(sorted(jsl.REFUSED)),
    )
    if command not in (line, schema):
        batchctl = "the program batchctl (default: JOBHOST_BATCHCTL, else the path's, else this clone's)"
        parser.add_argument("--batchctl", metavar="PROGRAM", help=batchctl)
    parser.set_defaults(run=run(command))
    return parser


def add_catalogue(subcommands: Subcommands[argparse.ArgumentParser]) -> None:
    told = "checks, converts, draws and compares catalogues"
    parser = subcommands.add_parser("catalogue", help=told, description=told)
    commands = parser.add_subparsers(required=True, metavar="COMMAND")
    a_file = f"a catalogue in JSON, or JSL; {STANDARD_INPUT} is standard input"
    checking = add_command(
        commands, "check", check_files, "says where a catalogue is at fault, and warns of what is seldom meant"
    )
    checking.add_argument("files", nargs="+", metavar="FILE", help=a_file)
    jobs = "each FILE is a folder of jobs, as of `jobhost serve --jobs`"
    checking.add_argument("--jobs", action="store_true", help=jobs)
    checking.add_argument("--artifacts", type=Path, metavar="DIR", help="the workers' folder of executables (default: none)")
    checking.add_argument("--format", choices=FORMATS, default="text", help="how it is told (default: text)")
    add_command(commands, "schema", schema, "writes a JSON Schema of catalogues, for an editor")
    add_command(commands, "line", line, "writes a catalogue as one line, for a pipe").add_argument(
        "file", metavar="FILE", help=f"{a_file}; or a folder of jobs, as of `jobhost serve --jobs`"
    )
    turning = add_command(commands, "from-jsl", from_jsl, "turns JSL into a catalogue; a file has one job")
    turning.add_argument("files", nargs="+", metavar="FILE", help="a job in JSL")
    drawing = add_command(commands, "diagram", diagram, "draws a catalogue's jobs as SVG")
    drawing.add_argument("file", metavar="FILE", help=a_file)
    drawing.add_argument("--job", metavar="ID", help="the one job to draw (default: all jobs)")
    comparing = add_command(commands, "diff", diff, "says what a new catalogue adds, changes and drops beside an old one")
    comparing.add_argument("old", metavar="OLD", help=a_file)
    comparing.add_argument("new", metavar="NEW", help=a_file)
