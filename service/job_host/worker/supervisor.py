"""Supervises one artifact, so that all that it has started ends with it, and with its worker.

    python3 -I -S supervisor.py CONTROL EXECUTABLE [FILE ..]

CONTROL is a socket of packets to the worker. The worker is told `begun N`, the artifact's process id, then `started 0` or
`fault N`, an errno, and at last `ended N`, an exit code, or the number of a signal with a minus in front. The supervisor ends
the artifact after the worker has shut its side of the socket, which the kernel does for a worker that was killed. It hands
SIGTERM on to the artifact's group. For a worker that has ended it removes the FILEs.

The artifact is a session leader, as without a supervisor. The supervisor is its subreaper, so each descendant whose parent has
ended becomes a child of the supervisor, also one in a session of its own. At the end it kills its children by SIGKILL, until it
has none. Three things are left: if the supervisor itself is killed, the artifact and its group are killed alone; a descendant
under another user id can't be killed; and what an artifact has told another program to start, as `at`, is no descendant.

It is a program of its own, since a worker has threads. It imports no more than it needs, since it starts with each artifact.
"""

import ctypes
import os
import select
import signal
import sys
import time

PR_SET_PDEATHSIG = 1
PR_SET_CHILD_SUBREAPER = 36
PAUSE = 0.001
LONGEST_PAUSE = 0.05
LIBC = ctypes.CDLL(None)


def note(number: int, frame: object) -> None:
    """A signal is told by the wakeup descriptor."""


def start(path: str, control: int, dispositions: dict[int, object]) -> tuple[int, int]:
    """Starts the executable. Returns its process id, and an errno or 0."""
    faults, told = os.pipe()
    artifact = os.fork()
    if artifact == 0:
        try:
            become(path, control, dispositions)
        except OSError as fault:
            os.write(told, str(fault.errno).encode())
        os._exit(127)
    os.close(told)
    number = os.read(faults, 16)
    os.close(faults)
    return artifact, int(number or b"0")


def become(path: str, control: int, dispositions: dict[int, object]) -> None:
    """In the child: has the signals that the worker's child has, and executes. Raises OSError if it can't."""
    os.setsid()
    tell(control, "begun", os.getpid())
    LIBC.prctl(PR_SET_PDEATHSIG, signal.SIGKILL, 0, 0, 0)
    signal.set_wakeup_fd(-1)
    for number, disposition in dispositions.items():
        signal.signal(number, disposition)  # type: ignore[arg-type]
    for number in (signal.SIGPIPE, signal.SIGXFSZ):
        signal.signal(number, signal.SIG_DFL)
    os.execv(path, [path])


def ended_child(kind: int = os.P_ALL, process: int = 0) -> int | None:
    """A child that has ended, if there is one. It stays a zombie. Raises ChildProcessError if there are no such children."""
    ended: os.waitid_result | None = os.waitid(kind, process, os.WEXITED | os.WNOHANG | os.WNOWAIT)
    return None if ended is None else ended.si_pid


def has_ended(artifact: int) -> bool:
    """Whether the artifact has ended. It keeps its process id until its group is killed. Other children are forgotten."""
    while (child := ended_child()) is not None:
        if child == artifact:
            return True
        os.waitpid(child, 0)
    return False


def watch(artifact: int, control: int, woken: int) -> bool:
    """Waits for the end of the artifact or of the worker, or for its order. Returns whether SIGHUP told the worker's end."""
    poll = select.poll()
    poll.register(control, select.POLLIN)
    poll.register(woken, select.POLLIN)
    while not has_ended(artifact):
        ready = [descriptor for descriptor, _ in poll.poll()]
        numbers = os.read(woken, 4096) if woken in ready else b""
        if control in ready or signal.SIGHUP in numbers:
            return signal.SIGHUP in numbers
        if signal.SIGTERM in numbers:
            signal_group(artifact, signal.SIGTERM)
    return False


def signal_group(artifact: int, number: int) -> None:
    try:
        os.killpg(artifact, number)
    except (ProcessLookupError, PermissionError):
        pass


def is_child(process: int) -> bool:
    """Whether it is a child that hasn't ended."""
    try:
        return ended_child(os.P_PID, process) is None
    except ChildProcessError:
        return False


def kill_children() -> bool:
    """Kills the children that there are. Returns whether any could be killed."""
    is_any = False
    names = os.listdir("/proc") if os.path.isdir("/proc") else []
    for child in filter(is_child, map(int, filter(str.isdecimal, names))):
        try:
            os.kill(child, signal.SIGKILL)
            is_any = True
        except PermissionError:
            pass
    return is_any


def end_all(artifact: int) -> int:
    """Kills the artifact's group and all descendants, and waits for their ends. Returns how the artifact ended."""
    code, pause = -int(signal.SIGKILL), PAUSE
    signal_group(artifact, signal.SIGKILL)
    while True:
        try:
            child, status = os.waitpid(-1, os.WNOHANG)
        except ChildProcessError:
            return code
        if child == artifact:
            code = os.waitstatus_to_exitcode(status)
        elif child == 0:
            if not kill_children():
                return code
            time.sleep(pause)
            pause = min(2 * pause, LONGEST_PAUSE)


def tell(control: int, word: str, number: int) -> bool:
    """Tells the worker. Returns whether it is there."""
    try:
        os.write(control, f"{word} {number}".encode())
    except OSError:
        return False
    return True


def remove(files: list[str]) -> None:
    for path in files:
        try:
            os.unlink(path)
        except OSError:
            pass


def main() -> None:
    control, path, files = int(sys.argv[1]), sys.argv[2], sys.argv[3:]
    os.set_inheritable(control, False)
    LIBC.prctl(PR_SET_CHILD_SUBREAPER, 1, 0, 0, 0)
    LIBC.prctl(PR_SET_PDEATHSIG, signal.SIGHUP, 0, 0, 0)
    woken, wake = os.pipe()
    os.set_blocking(wake, False)
    signal.set_wakeup_fd(wake, warn_on_full_buffer=False)
    handled = (signal.SIGTERM, signal.SIGHUP, signal.SIGCHLD)
    artifact, fault = start(path, control, {number: signal.signal(number, note) for number in handled})
    # Its outputs end, and its input has no reader, when the artifact's do.
    null = os.open("/dev/null", os.O_RDWR)
    for descriptor in range(3):
        os.dup2(null, descriptor)
    tell(control, "fault" if fault else "started", fault)
    if not fault:
        has_worker_ended = watch(artifact, control, woken)
        if not tell(control, "ended", end_all(artifact)) or has_worker_ended:
            remove(files)
    os._exit(0)


if __name__ == "__main__":
    main()
