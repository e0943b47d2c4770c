"""Executables that tests run as artifacts."""

from __future__ import annotations

from pathlib import Path

# A reader of numbers, a processor that drops the even ones, and a writer that appends. While there is a file `fail-at`, the
# writer fails at the group that it names.
CHUNK_PART = """#!/usr/bin/python3
import json, os, sys, time
from pathlib import Path
here = Path(__file__).resolve().parent
use, place, groups = Path(sys.argv[0]).name, 0, 0
for line in sys.stdin:
    told = json.loads(line)
    do, answer = told["do"], {}
    if do == "open":
        place = int(told["checkpoint"] or 0)
        print(f"{use} opened at {place} in {os.environ['BATCH_STEP']}", file=sys.stderr, flush=True)
    elif do == "read":
        if (here / "slow").exists():
            time.sleep(0.1)
        answer = {"item": place + 1} if place < int(os.environ["BATCH_PARAMETER_items"]) else {"end": True}
        place += 1 if "item" in answer else 0
    elif do == "checkpoint":
        answer = {"checkpoint": str(place)}
    elif do == "process":
        answer = {"item": told["item"]} if told["item"] % 2 else {}
    elif do == "write":
        groups += 1
        fails = here / "fail-at"
        if fails.exists() and groups == int(fails.read_text()):
            answer = {"fault": "disk full"}
        else:
            with open(here / "written", "a") as written:
                written.write(json.dumps(told["items"]) + "\\n")
    print(json.dumps(answer), flush=True)
"""

BATCHLETS = {
    "says": "#!/bin/sh\necho SENT\necho more\n",
    "silent": "#!/bin/sh\n:\n",
    "empty": "#!/bin/sh\necho\n",
    "no-feed": "#!/bin/sh\nprintf GOOD\n",
    "most": "#!/bin/sh\nprintf '%0256d\\n' 0\n",
    "long": "#!/bin/sh\nprintf '%0257d\\n' 0\n",
    "bytes": "#!/bin/sh\nprintf '\\377\\n'\n",
    "both": "#!/bin/sh\nprintf 'one, '\nprintf 'two, ' >&2\necho first\necho second >&2\necho third\nprintf fourth\n",
    "prints": "#!/usr/bin/python3\nfor line in ['READ', *range(1_000)]:\n    print(line)\n",
    "three": "#!/bin/sh\necho oops >&2\nexit 3\n",
    "signal": "#!/bin/sh\nkill -9 $$\n",
    "flood": "#!/bin/sh\nhead -c 300000 /dev/zero | tr '\\0' x >&2\necho end >&2\nyes | head -n 100000\n",
    "tells": """#!/bin/sh
echo PRINTED
echo 'exit-status: FIRST' >> "$BATCH_EXIT_STATUS_FILE"
printf '120 rows\\nexit-status: LOADED 120' >> "$BATCH_EXIT_STATUS_FILE"
""",
    "tells-empty": "#!/bin/sh\necho PRINTED\necho exit-status: > $BATCH_EXIT_STATUS_FILE\n",
    "tells-failure": "#!/bin/sh\necho 'exit-status: DISK FULL' > $BATCH_EXIT_STATUS_FILE\nexit 4\n",
    "tells-long": "#!/bin/sh\necho PRINTED\nprintf 'exit-status: %0257d\\n' 0 > $BATCH_EXIT_STATUS_FILE\n",
    "tells-other": "#!/bin/sh\necho PRINTED\necho LOADED > $BATCH_EXIT_STATUS_FILE\n",
    "tells-signal": "#!/bin/sh\necho exit-status: GOOD > $BATCH_EXIT_STATUS_FILE\nkill -9 $$\n",
    "removes": "#!/bin/sh\nrm $BATCH_EXIT_STATUS_FILE\necho SENT\n",
    "environment": """#!/bin/sh
echo "$BATCH_JOB $BATCH_EXECUTION $BATCH_INSTANCE $BATCH_STEP $BATCH_PARTITION $BATCH_PARAMETERS" >&2
""",
    "counted": """#!/bin/sh
echo "$BATCH_WORK" >> begun
sleep "${BATCH_PARAMETER_seconds:-0}"
echo "$BATCH_WORK" >> ended
echo DONE
""",
    "nested": "#!/bin/sh\necho begun >> begun\n(setsid sh -c 'sleep 2; echo late >> late' &)\nsleep 3\necho ended >> ended\n",
    "patient": "#!/bin/sh\ntrap 'echo BROKEN-OFF; exit 0' TERM\ntouch is-running\nwhile :; do sleep 0.05; done\n",
    "stubborn": "#!/bin/sh\ntouch is-running\nwhile [ ! -e go-on ]; do sleep 0.05; done\necho WHOLE\n",
}


def write(folder: Path) -> None:
    """All executables of the tests."""
    folder.mkdir()
    for name, text in {**BATCHLETS, "rows": CHUNK_PART, "odd": CHUNK_PART, "table": CHUNK_PART}.items():
        path = folder / name
        path.write_text(text)
        path.chmod(0o755)
    (folder / "patient.stoppable").touch()
    (folder / "not-executable").write_text("#!/bin/sh\n")


def jobs() -> list[dict[str, object]]:
    """A job for each batchlet, of its name, and one for the chunk."""
    names = [*BATCHLETS, "missing", "not-executable", "../outside"]
    made: list[dict[str, object]] = [
        {"id": name, "elements": [{"kind": "step", "id": "only", "batchlet": {"ref": name}}]} for name in names
    ]
    chunk = {"item-count": 2, "reader": {"ref": "rows"}, "processor": {"ref": "odd"}, "writer": {"ref": "table"}}
    made.append({"id": "copy", "elements": [{"kind": "step", "id": "copy", "chunk": chunk}]})
    made.append({"id": "day", "elements": [{"kind": "decision", "id": "day", "ref": "says"}]})
    return made
