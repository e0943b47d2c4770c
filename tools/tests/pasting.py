"""Pastes the blocks of README.md and docs/SERVICE.md into a shell, as a newcomer with a new clone does.

Each page has one shell, in a copy of the repository's files. Its path has what Debian brings and `rt`, and no `jobhost` or
`batchctl` but those that the blocks install. Its home is new. If root runs the tests, the shell is `nobody`'s.

- A command of an `sh` block succeeds. In docs/SERVICE.md the block without a word below it is what the commands print, to
  standard error too; `..` in it stands for any text. Without such a block they print nothing. README doesn't show it.
- A command of an `sh build` block succeeds, whatever it prints.
- A `conf` block is part of a file. An `sh machines` block is for several machines, and an `sh database` block for a service
  over PostgreSQL: service/tests/test_three_machines.py and service/tests/test_procedures.py run them. Other blocks are refused,
  except README's script with its replies (pages.py).
- The commands of INSTEAD would take too long, or need other machines. Others run in their place. A command of this list that
  no page has is told.

The service listens on its usual port. If the system allows it, the shells have a network of their own, which is loopback alone.
Otherwise the port has to be free.
"""

from __future__ import annotations

import os
import pwd
import re
import shutil
import signal
import socket
import subprocess
import tempfile
import time
from collections.abc import Iterable, Iterator
from dataclasses import dataclass
from functools import cache
from pathlib import Path

from page_blocks import Block, Command, Difference, blocks_in, commands_in, first_difference, is_whole, numbered, unknown_blocks
from program import Program, Wrong
from repository import ROOT

SERVICE = ROOT / "docs" / "SERVICE.md"
BUILT = '"$BUILT_BATCHCTL"'
SCRIPT = "crates/batchctl/stdin"
# The first line of a command without its comment, and what runs in its place. `:` does nothing.
INSTEAD = {
    # These prove or build for minutes or hours.
    "(cd crates/batchctl && rt try -- script < stdin)": f"{BUILT} script < {SCRIPT}",
    "(cd crates/value_tests && rt try --test)": ":",
    "(cd crates/batchctl && rt run -- script < stdin)": f"install -D {BUILT} crates/batchctl/out/batchctl",
    ".ci/run": ":",
    # These measure for minutes or hours. The first one's shell is in the folder of the page's night.
    "service/install.sh --development": 'cd "$OLDPWD" && service/install.sh --development',
    "benches/service_calls.py": "benches/service_calls.py --help > /dev/null",
    "benches/write_counts.py": "benches/write_counts.py --help > /dev/null",
    "benches/waiting_slots.py": "benches/waiting_slots.py --help > /dev/null",
    "benches/fleet.py": "benches/fleet.py --help > /dev/null",
    "service/check_catalogues.py": "service/check_catalogues.py --help > /dev/null",
    "service/soak.py postgres --kills 200": "service/soak.py --help > /dev/null",
    "service/soak.py standby --kills 20": ":",
    "service/soak.py embedded --kills 200": ":",
    "service/soak.py embedded --kills 200 --queues": ":",
    "service/soak_changes.py": "service/soak_changes.py --help > /dev/null",
    "service/soak_fleet.py": "service/soak_fleet.py --help > /dev/null",
    "service/soak_nights.py embedded": "service/soak_nights.py --help > /dev/null",
    "service/soak_nights.py postgres": ":",
    "benches/console_lists.py": "benches/console_lists.py --help > /dev/null",
    "benches/console_tabs.py": "benches/console_tabs.py --help > /dev/null",
    "service/screenshots.py": "test -x service/screenshots.py",
    "service/check.sh": ":",
    # These need a PostgreSQL server: service/tests/test_each_group_once.py runs them.
    "psql \"$DATABASE\" <<'END'": "mkdir artifacts",
    # The worker gives an executable this file.
    'echo "exit-status: 120 ROWS" >> "$BATCH_EXIT_STATUS_FILE"': ":",
}
# Blocks that tests of the service run.
ELSEWHERE = ("sh machines", "sh database")
WORDS = ("sh", "sh build", *ELSEWHERE, "conf")
# The folders of Debian's programs.
DEBIAN = [Path("/usr/bin"), Path("/bin"), Path("/usr/sbin"), Path("/sbin")]
OURS = {"batchctl", "jobhost"}
PORT = 8570
PORT_SECONDS = 60.0
MOST_SECONDS = 300.0
NOBODY = "nobody"
# Runs the words after these with no network but a loopback of its own; for root, and for others.
LOOPBACK = ["--net", "--", "sh", "-c", 'ip link set lo up && exec "$@"', "sh"]
OWN_NETWORK = ["unshare", *LOOPBACK]
OWN_NETWORK_OF_USER = ["unshare", "--map-current-user", "--keep-caps", *LOOPBACK]
# After each command: a byte that no command prints, its status, and this byte again.
COMMAND_END = "\nprintf '\\0%d\\0' \"$?\"\n"
ANY_TEXT = ".."


@dataclass(frozen=True)
class Done:
    """What a command printed, and its exit status, if the shell hasn't ended before."""

    printed: str
    status: int | None


class Place:
    """A new home, a copy of the repository, and a path with nothing of the clone on it. It begins in the copy."""

    def __init__(self, folder: Path, program: Program, files: Iterable[str]) -> None:
        self.folder = folder
        self.copy = folder / "clone"
        for name in ("home", "temporary"):
            (folder / name).mkdir()
        # The program is copied, since `nobody` need not be able to reach the clone.
        shutil.copy(program.path, folder / "batchctl-that-was-built")
        self.copy.mkdir()
        for name in files:
            (self.copy / name).parent.mkdir(parents=True, exist_ok=True)
            shutil.copy(ROOT / name, self.copy / name, follow_symlinks=False)
        self.words = own_network()
        if os.getuid() == 0:
            self._give_to_nobody()

    def _give_to_nobody(self) -> None:
        nobody = pwd.getpwnam(NOBODY)
        self.words = [*self.words, "setpriv", f"--reuid={nobody.pw_uid}", f"--regid={nobody.pw_gid}", "--clear-groups", "--"]
        for path in [self.folder, self.folder / "home", self.folder / "temporary", self.copy, *self.copy.rglob("*")]:
            os.chown(path, nobody.pw_uid, nobody.pw_gid, follow_symlinks=False)

    def around(self, is_installed: bool) -> dict[str, str]:
        """The variables of a shell. After README's blocks its `export` holds, as in each new shell of a Debian user."""
        home, path = self.folder / "home", programs().name
        return {
            "HOME": str(home),
            "PATH": f"{home}/.local/bin:{path}" if is_installed else path,
            "TMPDIR": str(self.folder / "temporary"),
            "LANG": "C.UTF-8",
            "BUILT_BATCHCTL": str(self.folder / "batchctl-that-was-built"),
        }


def own_network() -> list[str]:
    """The words that run a command in a network of its own; none if the system doesn't allow it."""
    words = OWN_NETWORK if os.getuid() == 0 else OWN_NETWORK_OF_USER
    if shutil.which(words[0]) is None:
        return []
    return words if subprocess.run([*words, "true"], capture_output=True, check=False).returncode == 0 else []


@cache
def programs() -> tempfile.TemporaryDirectory[str]:
    """A folder with links to Debian's programs and to `rt`."""
    made = tempfile.TemporaryDirectory(prefix="paste-path-")
    folder, kit = Path(made.name), shutil.which("rt")
    folder.chmod(0o755)
    for program in (program for place in DEBIAN if place.is_dir() for program in place.iterdir()):
        if program.name not in OURS and not (folder / program.name).is_symlink():
            (folder / program.name).symlink_to(program)
    if kit is not None:
        (folder / "rt").symlink_to(kit)
    return made


def run_commands(texts: list[str], place: Place, is_installed: bool) -> list[Done]:
    """Runs these in one shell, and ends whatever they leave running."""
    script = place.folder / "temporary" / "commands"
    script.write_text("exec 2>&1\n" + "".join(text.rstrip("\n") + COMMAND_END for text in texts))
    script.chmod(0o644)
    words = [*place.words, "bash", str(script)]
    with tempfile.TemporaryFile() as output:
        shell = subprocess.Popen(
            words,
            cwd=place.copy,
            env=place.around(is_installed),
            stdin=subprocess.DEVNULL,
            stdout=output,
            start_new_session=True,
        )
        try:
            shell.wait(MOST_SECONDS)
        except subprocess.TimeoutExpired:
            pass
        end_group(shell.pid)
        shell.wait()
        output.seek(0)
        parts = output.read().decode(errors="replace").split("\0")
    done = [Done(told, int(status)) for told, status in zip(parts[:-1:2], parts[1::2])]
    return done + [Done(parts[-1] if len(done) == number else "", None) for number in range(len(done), len(texts))]


def end_group(group: int) -> None:
    """Ends what a shell has left running."""
    try:
        os.killpg(group, signal.SIGKILL)
    except ProcessLookupError:
        return


def faults_of(command: Command, done: Done) -> Iterator[Difference]:
    """A command that failed, or that a shell never came to."""
    if done.status is None:
        yield Difference(command.page, command.number, "a shell that goes on", f"the shell has ended: {done.printed[-500:]}")
    elif done.status != 0:
        found = f"status {done.status}: {done.printed[-500:].strip()}"
        yield Difference(command.page, command.number, f"success of {command.first_line}", found)


def check_printed(commands: Block, done: list[Done], below: Block | None) -> Iterator[Difference]:
    """What the commands of a block print is what stands below them."""
    found = "".join(one.printed for one in done).splitlines()
    wanted = [] if below is None else numbered(below)
    for number, (of_page, line) in enumerate(zip(wanted, found)):
        if matches(of_page[1], line):
            found[number] = of_page[1]
    yield from first_difference(commands.page, wanted, found, commands.number)


def matches(wanted: str, found: str) -> bool:
    """Whether a line of a page is this one. `..` stands for any text."""
    return re.fullmatch(".*".join(map(re.escape, wanted.split(ANY_TEXT))), found) is not None


def pasted(blocks: list[Block]) -> list[Block]:
    return [block for block in blocks if block.word in ("sh", "sh build")]


def paste(page: str, text: str, has_output: bool, place: Place, is_installed: bool) -> Iterator[Difference]:
    """All that is wrong with the blocks of a page."""
    blocks = list(blocks_in(page, text))
    shown = ("sh", *ELSEWHERE) if has_output else ("", *WORDS)
    yield from unknown_blocks(blocks, "a block that is pasted", WORDS, shown)
    of_block = [(block, commands_in(block)) for block in pasted(blocks)]
    commands = [command for _, found in of_block for command in found]
    partial = [command for command in commands if not is_whole(command.text)]
    for command in partial:
        yield Difference(page, command.number, "a whole command", command.first_line)
    if partial:
        return
    done = run_commands([INSTEAD.get(command.first_line, command.text) for command in commands], place, is_installed)
    for command, one in zip(commands, done):
        yield from faults_of(command, one)
        if one.status is None:
            return
    if has_output:
        for block, found in of_block:
            ran, done = done[: len(found)], done[len(found) :]
            below = next((after for before, after in zip(blocks, blocks[1:]) if before is block and after.word == ""), None)
            if block.word == "sh":
                yield from check_printed(block, ran, below)


def unused(texts: list[str]) -> Iterator[Difference]:
    """Commands of INSTEAD that no page has."""
    found = {
        command.first_line for text in texts for block in pasted(list(blocks_in("", text))) for command in commands_in(block)
    }
    for command in INSTEAD:
        if command not in found:
            yield Difference("tools/tests/pasting.py", 1, f"a page with {command}", "none")


def files_of_the_repository() -> list[str]:
    """Those that git has or would take, as they stand now."""
    words = ["git", "ls-files", "-z", "--cached", "--others", "--exclude-standard"]
    told = subprocess.run(words, cwd=ROOT, stdout=subprocess.PIPE, check=True).stdout.decode()
    return [name for name in told.split("\0") if name and (ROOT / name).is_file()]


def wait_for_port() -> None:
    """Returns after nothing listens on the service's usual port."""
    deadline = time.monotonic() + PORT_SECONDS
    while True:
        with socket.socket() as asking:
            if asking.connect_ex(("127.0.0.1", PORT)) != 0:
                return
        if time.monotonic() > deadline:
            raise Wrong(f"another program listens on port {PORT}, where the service of the pages would")
        time.sleep(0.5)
