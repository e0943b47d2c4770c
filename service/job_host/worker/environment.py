"""What an artifact finds in its environment, and the files with its parameters and its properties."""

from __future__ import annotations

import json
import os
import re
import resource
import tempfile
from collections.abc import Callable, Iterable, Mapping, Sequence
from contextlib import suppress
from pathlib import Path
from typing import Any

PARAMETERS_VARIABLE = "BATCH_PARAMETERS"
PARAMETERS_FILE_VARIABLE = "BATCH_PARAMETERS_FILE"
PROPERTIES_VARIABLE = "BATCH_PROPERTIES"
PROPERTIES_FILE_VARIABLE = "BATCH_PROPERTIES_FILE"
# The properties of the job, and those of the step, as its contexts have them in Java.
AROUND = {"job": "BATCH_JOB_PROPERTIES", "step": "BATCH_STEP_PROPERTIES"}
WORD = re.compile(r"[A-Za-z_][A-Za-z0-9_]*")

# Linux's bounds of the words and the environment of a program (execve(2)): one string, with its end; and all together a
# quarter of the stack's limit, within these. Each string has a pointer.
STRING_BYTES = 32 * os.sysconf("SC_PAGE_SIZE")
LEAST_BYTES, MOST_BYTES = 131_072, 6 * 1_048_576
POINTER_BYTES = 8
# So much is left to the words of the program, and to those of what it starts.
RESERVE_BYTES = 32_768

Texts = Mapping[str, str]


class TextsFile:
    """Texts by their names as one object of JSON in a file of their own, which its owner alone can read."""

    def __init__(self, variable: str, name: str, texts: Texts) -> None:
        """Makes the file, whose path a variable tells. Raises OSError if it can't."""
        descriptor, path = tempfile.mkstemp(prefix=f"jobhost-{name}-")
        self.path, self._variable = Path(path), variable
        try:
            with open(descriptor, "w", encoding="ascii") as file:
                json.dump(texts, file)
        except OSError:
            self.remove()
            raise

    def variables(self) -> dict[str, str]:
        return {self._variable: str(self.path)}

    def remove(self) -> None:
        with suppress(OSError):
            self.path.unlink(missing_ok=True)


class WorkFiles:
    """The files of a work item: its parameters, and the properties of each of its artifacts if it has properties at all."""

    def __init__(self, claimed: Mapping[str, Any], uses: Iterable[str]) -> None:
        """Makes the files. Raises OSError if it can't."""
        self._files: dict[str, TextsFile] = {}
        try:
            self._files[""] = TextsFile(PARAMETERS_FILE_VARIABLE, "parameters", claimed.get("jobParameters", {}))
            for use in uses if "properties" in claimed else ():
                self._files[use] = TextsFile(PROPERTIES_FILE_VARIABLE, "properties", claimed["properties"].get(use, {}))
        except OSError:
            self.remove()
            raise

    @property
    def paths(self) -> list[Path]:
        return [file.path for file in self._files.values()]

    def variables(self, use: str) -> dict[str, str]:
        """The paths that an artifact is told."""
        return {name: path for key in ("", use) if key in self._files for name, path in self._files[key].variables().items()}

    def remove(self) -> None:
        for file in self._files.values():
            file.remove()


def use_of(work: Mapping[str, Any]) -> str:
    """The use of the one artifact of a batchlet's or a decision's work item."""
    return "decider" if work["kind"] == "decision" else "batchlet"


def texts_of(claimed: Mapping[str, Any], use: str) -> dict[str, str]:
    """The variables of parameters, and of the properties of an artifact. Those whose names are words have their own."""
    parameters = claimed.get("jobParameters", {})
    wanted = {PARAMETERS_VARIABLE: json.dumps(parameters)}
    wanted |= {f"BATCH_PARAMETER_{name}": value for name, value in parameters.items() if WORD.fullmatch(name)}
    if "properties" in claimed:
        properties = claimed["properties"]
        own = properties.get(use, {})
        wanted |= {name: json.dumps(properties[around]) for around, name in AROUND.items() if around in properties}
        wanted[PROPERTIES_VARIABLE] = json.dumps(own)
        wanted |= {f"BATCH_PROPERTY_{name}": value for name, value in own.items() if WORD.fullmatch(name)}
    return wanted


def is_of_properties(name: str) -> bool:
    """Whether a variable tells of properties. A worker may itself be an artifact, with others."""
    known = (PROPERTIES_VARIABLE, PROPERTIES_FILE_VARIABLE, *AROUND.values())
    return name in known or name.startswith("BATCH_PROPERTY_")


def environment(claimed: Mapping[str, Any], use: str, files: Mapping[str, str], say: Callable[[str], None]) -> dict[str, str]:
    """What an artifact finds in its environment, beside that of the worker. It is said what the environment can't hold.

    Parameters and properties are objects of JSON. One whose name is a word is a variable of its own, too.
    """
    work = claimed["work"]
    told = {
        "BATCH_JOB": claimed.get("jobName", ""),
        "BATCH_INSTANCE": str(claimed.get("instanceId", "")),
        "BATCH_EXECUTION": str(work["execution"]),
        "BATCH_STEP": work["element"],
        "BATCH_WORK": str(work["work"]),
        **files,
    }
    if "partition" in work:
        told["BATCH_PARTITION"] = str(work["partition"])
    wanted = texts_of(claimed, use)
    known = {name: value for name, value in os.environ.items() if name not in wanted and not is_of_properties(name)}
    known |= {name: value for name, value in told.items() if "\0" not in value}
    held = what_fits(wanted, bytes_in_all() - sum(size(*pair) or 0 for pair in known.items()))
    say_left_out([name for name in wanted if name not in held], say)
    return {**known, **held}


def say_left_out(names: Sequence[str], say: Callable[[str], None]) -> None:
    """Says which variables the environment can't hold, and where else the texts are."""
    places = {"BATCH_PARAMETER": f": the file {PARAMETERS_FILE_VARIABLE} has all parameters"}
    places |= {"BATCH_PROPERT": f": the file {PROPERTIES_FILE_VARIABLE} has all properties of the artifact"}
    places |= dict.fromkeys(AROUND.values(), ": a property of the artifact may name one of them by jobProperties")
    for begin, place in places.items():
        some = [name for name in names if name.startswith(begin)]
        if some:
            say(f"the environment can't hold {', '.join(some)}{place}")


def what_fits(wanted: Mapping[str, str], room: int) -> dict[str, str]:
    """The variables for which there is room: the smallest come first."""
    sizes = {name: found for name, value in wanted.items() if (found := size(name, value)) is not None}
    held = {}
    for name in sorted(sizes, key=sizes.__getitem__):
        room -= sizes[name]
        if room >= 0:
            held[name] = wanted[name]
    return held


def size(name: str, value: str) -> int | None:
    """The bytes that a variable takes. It is none if no environment can hold it."""
    try:
        string = len(os.fsencode(name)) + len(os.fsencode(value)) + len("=\0")
    except UnicodeEncodeError:
        return None
    return None if string > STRING_BYTES or "\0" in value else string + POINTER_BYTES


def bytes_in_all() -> int:
    """The bytes that all variables may take."""
    stack, _ = resource.getrlimit(resource.RLIMIT_STACK)
    most = MOST_BYTES if stack == resource.RLIM_INFINITY else min(stack // 4, MOST_BYTES)
    return max(most, LEAST_BYTES) - RESERVE_BYTES
