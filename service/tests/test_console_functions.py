"""Functions of the console without a browser: what each returns, shows or asks. Wrong bodies of them have to be noticed."""

from __future__ import annotations

import json
import shutil
import subprocess
from collections.abc import Sequence
from pathlib import Path
from typing import Any

import pytest
from catalogue_samples import ROOT

CONSOLE = ROOT / "service" / "job_host" / "service" / "console"
RUNNER = Path(__file__).with_name("console_functions.js")

SIX = "'2026/11/27 06:30:00.250 +0000'"
LATER = "'2026/11/27 06:30:01.750 +0000'"
TOMORROW = "'2026/11/28 08:32:05.250 +0000'"
TIMES: list[tuple[str, Any]] = [
    ("lasting(0)", "0.0 s"),
    ("lasting(9.94)", "9.9 s"),
    ("lasting(10)", "10 s"),
    ("lasting(59.7)", "59 s"),
    ("lasting(60)", "1 min 0 s"),
    ("lasting(3599)", "59 min 59 s"),
    ("lasting(3600)", "1 h 0 min"),
    ("lasting(7384)", "2 h 3 min"),
    ("lasting(90061)", "25 h 1 min"),
    (f"span({SIX}, {LATER})", "1.5 s"),
    (f"span({SIX}, {TOMORROW})", "26 h 2 min"),
    (f"span({LATER}, {SIX})", "0.0 s"),
    (f"span(null, {SIX})", ""),
    (f"date({SIX})", "2026-11-27T06:30:00.250Z"),
    ("date('2026/11/27 06:30:00.250 +0100')", None),
    ("date('1234567890123456789')", None),
    (f"text(when({TOMORROW}))", "2026-11-28 08:32:05"),
    (f"when({TOMORROW}).attributes.datetime", "2026-11-28T08:32:05.250Z"),
    ("text(when('1234567890123456789'))", "1234567890123456789"),
    ("when(null)", ""),
]
LISTS: list[tuple[str, Any]] = [
    ("count(1, 'worker')", "1 worker"),
    ("count(0, 'worker')", "0 workers"),
    ("count(1234, 'entry', 'entries')", "1,234 entries"),
    ("pageOf(new URLSearchParams('page=3'))", 3),
    ("pageOf(new URLSearchParams('page=-1'))", 0),
    ("pageOf(new URLSearchParams('page=x'))", 0),
    ("pageOf(new URLSearchParams('page=3&items=2'), 'items')", 2),
    ("all(pager('', 0, false, String), 'a').length", 0),
    ("all(pager('', 3, true, String), 'a').map((one) => [text(one), one.attributes.href])", [["Newer", "2"], ["Older", "4"]]),
    ("text(facts([['Epoch', '7'], ['Leader', ''], ['Ended', null]]))", "Epoch7"),
    ("text(badge('STOPPED'))", "\u25a0 STOPPED"),
    ("all(table('', [{name: 'A'}, {name: 'B'}], [{cells: ['1', '2']}], ''), 'div').map(text)", ["1", "2"]),
    ("all(table('', [{name: 'A'}, {name: 'B'}], [{cells: ['1', '2']}], ''), 'td').map((one) => text(one))", ["2"]),
    ("all(table('All', [{name: 'A'}], Array(501).fill({cells: ['1']}), ''), 'tr').length", 501),
    ("text(all(table('All', [{name: 'A'}], Array(501).fill({cells: ['1']}), ''), 'caption'))", "All: the first 500 of 501"),
    ("text(table('All', [{name: 'A'}], [], 'None.'))", "None."),
]

# Each read tells how many operations its tab has seen. So no read goes back.
SEEN = """(async () => {
  service.replies = [7, 5, 0].map((operations) => ({ operations }));
  for (const path of ["/a", "/b", "/c"]) await read(path);
  service.replies = [{ body: "a log" }];
  await readText("/d");
  return service.asked.map((one) => one.headers["Batch-At-Least"]);
})()"""
# A change is asked again by its key until it is answered. It has the token of a new page if the old one is refused.
AGAIN = """(async () => {
  service.asked.length = 0;
  const forged = { status: 403, body: { title: "ForgedRequest" } };
  const page = { body: '<meta name="forgery-token" content="token 2">' };
  service.replies = [{ status: 503 }, forged, page, { body: { executionId: 8 } }];
  const answer = await operate("PUT", "/e", { some: "words" }, "key 1");
  const words = (one) => [one.path, one.headers["Idempotency-Key"], one.headers["Batch-Forgery-Token"], one.body];
  return [answer.executionId, ...service.asked.map(words)];
})()"""
BEARER = """(async () => {
  setToken("secret");
  service.replies = [{ status: 401 }];
  const fault = await read("/f", { page: 2 }).catch((thrown) => thrown);
  const { path, headers } = service.asked.pop();
  return [path, headers.Authorization, fault instanceof TokenNeeded, hasToken()];
})()"""
REQUESTS: list[tuple[str, Any]] = [
    (SEEN, ["0", "7", "7", "7"]),
    ("both([1, 5], [2, 3, 4])", [2, 5, 4]),
    ("numbersIn('12,0,7')", [12, 0, 7]),
    (
        AGAIN,
        [
            8,
            ["/e", "key 1", "token 1", '{"some":"words"}'],
            ["/e", "key 1", "token 1", '{"some":"words"}'],
            ["/", None, None, None],
            ["/e", "key 1", "token 2", '{"some":"words"}'],
        ],
    ),
    (BEARER, ["/f?page=2", "Bearer secret", True, True]),
    ("passes(new Error('the connection is lost'))", True),
    ("passes(new Refused(503, {title: 'Busy'}))", True),
    ("passes(new Refused(503, {title: 'HistoryAlmostFull'}))", False),
    ("passes(new Refused(409, {title: 'JobRestartException'}))", False),
    ("/^[0-9a-f]{32}$/.test(requestKey()) && requestKey() !== requestKey()", True),
]

ONE_OF_MANY = "partitionsBar(64, new Map([['FAILED', 63], ['LOST', 1]]))"
ALL_BUT_ONE = "partitionsBar(64, new Map([['COMPLETED', 63], ['FAILED', 1]]))"
GROUPS = "partitionsBar(4, new Map([['COMPLETED', 1], ['FAILED', 2]]), ', on this page')"
PAST = f"tookBar({{startTime: {SIX}, endTime: {LATER}, past: {{median: 3, longest: 6}}}})"
SHORT_PAST = f"tookBar({{startTime: {SIX}, endTime: {LATER}, past: {{median: 0.5, longest: 1}}}})"


def parts(bar: str) -> str:
    """The parts of a bar: the kind of each, where it begins, and how long it is. The whole bar is 1 long."""
    part = "({attributes: {class: kind, x, width}}) => [kind, x / whole, width / whole]"
    return f"((found, whole = found[0].attributes.width) => found.map({part}))(all({bar}, 'rect'))"


BARS: list[tuple[str, Any]] = [
    (parts(GROUPS), [["whole", 0, 1], ["status-FAILED", 0, 0.5], ["status-COMPLETED", 0.5, 0.25]]),
    (parts(ONE_OF_MANY), [["whole", 0, 1], ["status-LOST", 0, 4 / 56], ["status-FAILED", 4 / 56, 52 / 56]]),
    (parts(ALL_BUT_ONE), [["whole", 0, 1], ["status-FAILED", 0, 4 / 56], ["status-COMPLETED", 4 / 56, 52 / 56]]),
    (f"text(all({GROUPS}, 'title'))", "4 partitions, on this page: 1 COMPLETED, 2 FAILED"),
    ("text(all(partitionsBar(1, new Map()), 'title'))", "1 partition: none was claimed"),
    (f"{parts(PAST)}.slice(0, 2)", [["whole", 0, 1], ["took", 0, 0.25]]),
    (f"{parts(PAST)}[2].slice(0, 2)", ["median", 0.5]),
    (f"text({PAST})", "usually 3.0 s, at most 6.0 s"),
    (f"{parts(SHORT_PAST)}[1]", ["longer", 0, 1]),
    (f"text({SHORT_PAST})", "longer than before: usually 0.5 s, at most 1.0 s"),
]

FLOW = "{kind: 'flow', id: 'f', elements: [{kind: 'step', id: 'a'}, {kind: 'step', id: 'b', chunk: {}, partitions: 2}]}"
STATES = "new Map([['a', {status: 'COMPLETED', text: ''}], ['b', {status: 'FAILED', text: 'FAILED: 3'}]])"
WAYS = "ways: [{path: 'M0 0', tip: [100, 50]}]"


def arrow(is_downwards: str) -> str:
    """The corners of the arrow of the way, in a picture that runs downwards or to the right."""
    picture = f"{{picture: {{width: 9, height: 9, items: [], {WAYS}}}, folded: [], isDownwards: {is_downwards}}}"
    return f"all(picture({{id: 'j', elements: []}}, {picture}, new Map(), 90), 'polygon')[0].attributes.points"


PICTURES: list[tuple[str, Any]] = [
    # The tip, and the two other corners before it.
    (arrow("false"), "100,50 92,46 92,54"),
    (arrow("true"), "100,50 96,42 104,42"),
    (f"numbered([{FLOW}]).map((one) => one.id)", ["f", "a", "b"]),
    (f"runnables([{FLOW}]).map(kindOf)", ["batchlet", "chunk, 2 partitions"]),
    (f"kindOf({FLOW})", "flow, 2 steps"),
    (f"stateOf({FLOW}, {STATES})", {"status": "FAILED", "text": "1 of 2 FAILED"}),
    ("[50, 80, 200].map((room) => scaleOf({picture: {width: 100}}, room))", [1, 0.8, 1]),
]

ONE = """{executionId: 7, instanceId: 3, jobName: 'nightly', batchStatus: 'FAILED', exitStatus: 'NO PAPER',
  createTime: null, startTime: null, endTime: null, jobParameters: {}, stepExecutions: [
    {stepName: 'load', batchStatus: 'COMPLETED', exitStatus: 'COMPLETED', startTime: SIX, endTime: TOMORROW,
     metrics: {READ_COUNT: 1200, WRITE_SKIP_COUNT: 3}},
    {stepName: 'print', batchStatus: 'FAILED', exitStatus: 'NO PAPER', startTime: SIX, endTime: LATER, metrics: {}}]}"""
ONE = ONE.replace("SIX", SIX).replace("TOMORROW", TOMORROW).replace("LATER", LATER)
OPERATIONS = f"""[{{operation: 9, action: 'finish', work: 2, client: 'w1', time: {SIX}}},
  {{operation: 8, action: 'restart', made: 7, client: 'ops/anna', token: 'ops', address: '::1', time: {SIX}}},
  {{operation: 7, action: 'lose', work: 1, client: '', token: null, address: null, time: {SIX}}}]"""
ITEM = f"{{stepName: 'load', partition: 0, outcome: 'COMPLETED', exitStatus: '', client: 'w1', since: {SIX}, until: {LATER}}}"
PAGE = f"""(async () => {{
  const path = "/batch/jobexecutions/7";
  service.documents = {{
    [path]: {ONE}, "/batch/jobinstances/3": {ONE}, "/batch/jobinstances/3/jobexecutions": [{ONE}],
    [`${{path}}/workitems`]: [{{ work: 1, ...{ITEM} }}], [`${{path}}/operations`]: {OPERATIONS},
    [`${{path}}/causes`]: {{ causes: [], moreCauses: 0 }},
    [`${{path}}/joblogs`]: [{{ work: 1, stepName: "load", partition: null, size: 4 }},
      {{ work: 2, stepName: "print", partition: null, size: 2048 }}],
    "/batch/work/1/log": {{ log: "120 rows" }}, "/batch/work/2/log": {{ log: "no paper" }},
    "/batch/catalogue": {{ id: "nightly", elements: [{{ kind: "step", id: "load", partitions: 2 }}] }},
    "/batch/catalogue/picture": {{ folded: [], picture: null, ways: 9, mostWays: 1 }},
  }};
  const route = {{ number: "7", query: new URLSearchParams() }};
  service.page = execution.draw(await execution.load(route), route, () => false);
  return service.asked.length;
}})()"""


def cells(nodes: str) -> str:
    """The texts of the cells of a table, row by row."""
    return f"all(all({nodes}, 'tbody'), 'tr').map((row) => row.children.map(text))"


def rows(section: str) -> str:
    """The texts of the cells of a section's table, row by row."""
    return cells(f"all(service.page, 'section').filter((one) => one.attributes['data-key'] === '{section}')")


def links(nodes: str) -> str:
    """What the links say, and where they lead."""
    return f"all({nodes}, 'a').map((one) => [text(one), one.attributes.href])"


BEGUN = "2026-11-27 06:30:00"
# The label of the bar, and what stands beside it.
BAR = "2 partitions: 1 COMPLETED 2"
EXECUTIONS: list[tuple[str, Any]] = [
    # It asks for eight documents, for two logs and for a picture.
    (PAGE, 11),
    (
        rows("Steps"),
        [
            ["load", "\u2713 COMPLETED", "", BAR, BEGUN, "2026-11-28 08:32:05", "26 h 2 min", "read 1,200write skip 3"],
            ["print", "\u2715 FAILED", "NO PAPER", "", BEGUN, "2026-11-27 06:30:01", "1.5 s", ""],
        ],
    ),
    (rows("Work items"), [["1", "load", "0", "\u2713 COMPLETED", "", "w1", BEGUN, "2026-11-27 06:30:01", "1.5 s"]]),
    (
        rows("Who did what"),
        [
            ["9", "finish, work item 2", "w1", "", "", BEGUN],
            ["8", "restart", "ops/anna", "ops", "::1", BEGUN],
            ["7", "lose, work item 1", "the service, as its lease ran out", "", "", BEGUN],
        ],
    ),
    (
        "all(service.page, 'details').map((one) => [text(all(one, 'summary')), text(all(one, 'pre'))])",
        [["load, work item 1, 4 bytes", "120 rows"], ["print, work item 2, 2 KiB", "no paper"]],
    ),
]

PRINTED = "{work: 7, stepName: 'print', partition: 0, outcome: 'FAILED', exitStatus: 'NO PAPER', logEnd: 'page 3'}"
SENT = "{work: 9, stepName: 'send', partition: null, outcome: 'LOST', exitStatus: 'FAILED', logEnd: null}"
BROKEN = f"""{{executionId: 8, instanceId: 3, jobName: 'nightly', batchStatus: 'FAILED', endTime: {LATER},
  causes: [{PRINTED}, {SENT}], moreCauses: 1200}}"""
STEP = "{work: null, stepName: 'send', partition: null, outcome: 'FAILED', exitStatus: 'FAILED', logEnd: null}"
HALTED = f"""{{executionId: 5, instanceId: 2, jobName: 'hourly', batchStatus: 'STOPPED', endTime: {SIX},
  causes: [], moreCauses: 0}}"""
LATE = "executionId: 6, work: 31, stepName: 'load', partition: 2, client: 'w1', leaseRemaining: 4.2"
LOOK = f"""lookSection({{
  long: [{{jobName: 'nightly', executionId: 4, seconds: 7384, longestBefore: 600}}],
  late: [{{jobName: 'hourly', {LATE}}}, {{jobName: null, {LATE}}}],
  waiting: [{{jobName: 'weekly', executionId: 9, lastUpdatedTime: {SIX}}}]}})"""


def opened(found: str, words: str = "", may: str = "true", more: str = "false") -> str:
    """What is shown of these job instances to restart, at an address with these words."""
    query = f"new URLSearchParams('{words}')"
    return f"openSection({{jobInstances: {found}, more: {more}}}, {query}, () => {may}, (page) => `#/?page=${{page}}`)"


BOTH = f"[{BROKEN}, {HALTED}]"
WHY = "print, partition 0: NO PAPERpage 3send: LOST, FAILED1,200 more work items."
UNWORKED = opened(f"[{{...{BROKEN}, causes: [{STEP}, {STEP}]}}]")
OPEN: list[tuple[str, Any]] = [
    (
        f"causesSection('Why it failed', {BROKEN}).children.map(text)",
        [
            "Why it failed",
            "print, partition 0 is FAILED, exit status NO PAPERpage 3",
            "send is LOST, exit status FAILED",
            "1,200 more work items.",
        ],
    ),
    # The order is the service's: the newest first.
    (
        cells(opened(BOTH)),
        [
            ["8", "nightly", "\u2715 FAILED", WHY, "2026-11-27 06:30:01", "Restart"],
            ["5", "hourly", "\u25a0 STOPPED", "", BEGUN, "Restart"],
        ],
    ),
    # A button restarts the job execution of its row. Who may only read has none.
    (
        f"[true, false].map((may) => all({opened(BOTH, may='may')}, 'button').map((one) => one.attributes['data-execution']))",
        [["8", "5"], []],
    ),
    # The logs of a few job instances are open at once. Those of more are closed.
    (f"[3, 4].map((many) => all({opened(f'Array(many).fill({BROKEN})')}, 'details')[0].attributes.open)", ["", None]),
    # Causes without a work item stay apart as the page is drawn again.
    (f"new Set(all({UNWORKED}, 'p').map((one) => one.attributes['data-key'])).size", 3),
    # What is late may be on a further page, though no job instance is. Each page but the first has one before it.
    (links(f"all({opened('[]', more='true')}, 'nav')"), [["Older", "#/?page=1"]]),
    (links(f"all({opened(f'[{HALTED}]', 'page=2')}, 'nav')"), [["Newer", "#/?page=1"]]),
    (
        f"[{opened('[]')}, {opened('[]', 'status=FAILED')}, {opened('[]', 'page=1')}].map((one) => text(all(one, 'p')))",
        ["No job instance is FAILED or STOPPED.", "No job instance is FAILED.", "None on this page."],
    ),
    (
        f"all({LOOK}, 'li').map(text)",
        [
            "nightly: job execution 4 has run for 2 h 3 min; the longest before took 10 min 0 s.",
            "hourly: job execution 6, load, partition 2: no sign of its worker w1, 4.2 s of its lease are left.",
            "A job: job execution 6, load, partition 2: no sign of its worker w1, 4.2 s of its lease are left.",
            f"weekly: job execution 9 waits since {BEGUN}: no worker asks for work.",
        ],
    ),
    # A follower doesn't know what is late or waits.
    ("lookSection({long: [], late: null, waiting: null})", None),
]

FULL = "{operations: 1500, mostOperations: 2000, warnFrom: 1000, refuseFrom: 1500}"
# Of the 70 that are FAILED two are open: the others were restarted.
COUNTS = "{STARTED: 1234, STOPPED: 6, FAILED: 70}"
ENDED = """[['FAILED', true], ['FAILED', false], ['STOPPED', false], ['ABANDONED', false]].map(
  ([batchStatus, mostRecent]) => ({executionId: 7, jobName: 'nightly', batchStatus, exitStatus: batchStatus, mostRecent}))"""


def jobs_at(words: str) -> str:
    """The page of the jobs, at an address with these words."""
    found = "{jobInstances: [], long: [], late: [], waiting: [], counts: {FAILED: 2, STOPPED: 1}}"
    runs = f"{{jobExecutions: [], statusCounts: {COUNTS}, more: false}}"
    data = f"{{open: {found}, runs: {runs}, catalogue: {{jobs: []}}, history: {{...{FULL}, role: 'leader', epoch: 1}}}}"
    return f"jobs.draw({data}, {{query: new URLSearchParams('{words}')}}, () => false)"


def executions_at(words: str) -> str:
    """The page of the job executions, at an address with these words."""
    data = f"{{jobExecutions: {ENDED}, statusCounts: {COUNTS}, more: false, total: null}}"
    return f"executions.draw({data}, {{query: new URLSearchParams('{words}')}}, () => false)"


def tiles(page: str) -> str:
    """The counts at the head of a page, each a link."""
    return f"all(all({page}, 'ul').filter((one) => one.attributes.class === 'tiles'), 'a')"


PAGES: list[tuple[str, Any]] = [
    (
        links(tiles(jobs_at(""))),
        [
            ["2 FAILED, open", "#/?status=FAILED"],
            ["1 STOPPED, open", "#/?status=STOPPED"],
            ["0 STARTING", "#/executions?status=STARTING"],
            ["1,234 STARTED", "#/executions?status=STARTED"],
            ["0 STOPPING", "#/executions?status=STOPPING"],
        ],
    ),
    # The chosen one leads back to all.
    (links(f"{tiles(jobs_at('status=STOPPED'))}.filter((one) => one.attributes['aria-current'])"), [["1 STOPPED, open", "#/"]]),
    # They stay within what is searched.
    (
        links(tiles(executions_at("search=paper&status=FAILED"))),
        [
            ["1,310 all", "#/executions?search=paper"],
            ["0 STARTING", "#/executions?search=paper&status=STARTING"],
            ["1,234 STARTED", "#/executions?search=paper&status=STARTED"],
            ["0 STOPPING", "#/executions?search=paper&status=STOPPING"],
            ["6 STOPPED", "#/executions?search=paper&status=STOPPED"],
            ["70 FAILED", "#/executions?search=paper&status=FAILED"],
            ["0 COMPLETED", "#/executions?search=paper&status=COMPLETED"],
            ["0 ABANDONED", "#/executions?search=paper&status=ABANDONED"],
        ],
    ),
    # Only what is FAILED or STOPPED is marked as restarted, unless it is the newest of its job instance.
    (
        f"{cells(executions_at(''))}.map((row) => row[2])",
        ["\u2715 FAILED", "\u2715 FAILED restarted", "\u25a0 STOPPED restarted", "\u2298 ABANDONED"],
    ),
    (
        f"warningOf({FULL})",
        "The history is almost full: 1,500 of 2,000 operations (75.00 %). Nothing can be started or restarted any more."
        " Begin a new one soon.",
    ),
    (f"warningOf({{...{FULL}, warnFrom: 1501}})", ""),
    ("based({operations: 20000, rows: 1234, behind: 5678})", "a base of 1,234 rows, and 5,678 operations behind it"),
    (
        f"text(compacted({{begun: {SIX}, seconds: 1234.5, isOver: true, callsWait: true, failure: null}}))",
        "2026-11-27 06:30:00: calls waited for 1,234.5 seconds",
    ),
    (
        f"text(compacted({{begun: {SIX}, seconds: 1234.5, isOver: true, callsWait: false, failure: null}}))",
        "2026-11-27 06:30:00: it took 1,234.5 seconds, and no call waited",
    ),
    (
        f"text(compacted({{begun: {SIX}, seconds: 2, isOver: true, failure: 'no memory'}}))",
        "2026-11-27 06:30:00: it failed after 2 seconds: no memory",
    ),
    (
        f"text(compacted({{begun: {SIX}, seconds: 0, isOver: false, callsWait: true, failure: null}}))",
        "2026-11-27 06:30:00: it goes on, and calls wait",
    ),
    (
        f"text(compacted({{begun: {SIX}, seconds: 0, isOver: false, callsWait: false, failure: null}}))",
        "2026-11-27 06:30:00: it goes on",
    ),
]
HELD = f"""{{work: 7, stepName: 'load', partition: null, executionId: 3, client: 'w1', since: {SIX}, leaseRemaining: 20.4}}"""
PAGES.append(
    (
        f"{cells(f'work.draw([{HELD}, {{...{HELD}, draining: true}}], {{query: new URLSearchParams()}}, () => false)')}"
        ".map((row) => row[7])",
        ["20 s", "20 s, draining"],
    )
)
# What a worker holds, whether its claim waits, and whether it drains.
WORKERS: list[tuple[str, Any]] = [
    (f"asks({{work: {work}, waits: {waits}, draining: {draining}}})", said)
    for work, waits, draining, said in (
        ("[1]", "true", "false", "yes"),
        ("[1]", "false", "false", "no"),
        ("[1]", "null", "null", "the leader knows"),
        ("[1]", "false", "true", "no, it is draining"),
        ("[]", "false", "true", "no, it has drained"),
    )
]
MANY: list[tuple[str, Any]] = [
    (f"mayBeChosen({{batchStatus: '{status}', mostRecent: {recent}}})", may)
    for status, recent, may in (
        ("FAILED", "true", True),
        ("STOPPED", "true", True),
        ("STARTED", "true", True),
        ("FAILED", "false", False),
        ("COMPLETED", "true", False),
    )
]
CASES = {
    "dom.js": TIMES + LISTS,
    "service.js": REQUESTS,
    "bars.js": BARS,
    "picture.js": PICTURES,
    "execution.js": EXECUTIONS,
    "open.js": OPEN,
    "pages.js": PAGES,
    "many.js": MANY,
    "workers.js": WORKERS,
}
# Wrong bodies, by the file whose expressions notice them: the file that has it, what stands there, and what is wrong.
PLANTS = {
    "dom.js": [
        ("dom.js", "seconds.toFixed(1)", "seconds.toFixed(2)"),
        ("dom.js", "seconds < 10)", "seconds < 60)"),
        ("dom.js", "seconds < 60)", "seconds <= 60)"),
        ("dom.js", "Math.floor(seconds / 60) % 60", "Math.floor(seconds / 60)"),
        ("dom.js", "seconds / 3600", "seconds / 360"),
        ("dom.js", "${hours} h ${minutes} min", "${minutes} h ${hours} min"),
        ("dom.js", "(ended - begun) / 1000", "(ended - begun) / 100"),
        ("dom.js", "ended - begun", "begun - ended"),
        ("dom.js", "!begun || !ended", "!ended"),
        ("dom.js", r"\+0000$", r"\+\d{4}$"),
        ("dom.js", ".${parts[5]}Z", ".000Z"),
        ("dom.js", "Z`) : null", "Z`) : new Date(0)"),
        ("dom.js", "text.slice(11, 19)", "text.slice(14, 19)"),
        ("dom.js", 'if (moment === null || moment === undefined) return "";', ""),
        ("dom.js", "number === 1 ?", "number !== 1 ?"),
        ("dom.js", 'query.get(name) || "0"', 'query.get("page") || "0"'),
        ("dom.js", 'query.get(name) || "0"', '"0"'),
        ("dom.js", "Math.max(0, Number", "Math.max(1, Number"),
        ("dom.js", "to(page - 1), before", "to(page + 1), before"),
        ("dom.js", "hasMore ? link", "!hasMore ? link"),
        ("dom.js", 'value !== "" && value !== null', 'value !== ""'),
        ("dom.js", r'STOPPED: "\u25a0"', r'STOPPED: "\u2713"'),
        ("dom.js", 'place === 0 ? "th" : "td"', '"th"'),
        ("dom.js", 'element("div", {}, cell)', 'element("div", {}, column.name)'),
        ("dom.js", "rows.slice(0, MOST_ROWS)", "rows"),
        ("dom.js", "first ${MOST_ROWS} of ${rows.length}", "first ${rows.length} of ${MOST_ROWS}"),
        ("dom.js", 'if (!rows.length) return element("p", { class: "empty" }, empty);', ""),
    ],
    "service.js": [
        ("service.js", 'TAB, "Batch-At-Least": seenText() });\n}', 'TAB, "Batch-At-Least": "0" });\n}'),
        ("service.js", 'TAB, "Batch-At-Least": seenText() });\n  const', "TAB });\n  const"),
        ("service.js", "seen = both(seen, ", "seen = both([], "),
        ("service.js", "Math.max(one.length, other.length)", "one.length"),
        ("service.js", 'text.split(",").map(Number)', "[Number.parseInt(text, 10)]"),
        ("service.js", '"Idempotency-Key": key', '"Idempotency-Key": requestKey()'),
        ("service.js", "forgeryToken = found[1]", "forgeryToken = found[0]"),
        ("service.js", "`Bearer ${token}`", "token"),
        ("service.js", "!(fault instanceof Refused) ||", "fault instanceof Refused &&"),
        ("service.js", "502, 503, 504", "502, 504"),
        ("service.js", "PASSING.includes(fault.status) &&", ""),
        ("service.js", "&& !LASTING.includes(fault.title)", ""),
        ("service.js", "new Uint8Array(16)", "new Uint8Array(8)"),
    ],
    "bars.js": [
        ("bars.js", "x += width;", ""),
        ("bars.js", "const LEAST = 4;", "const LEAST = 0;"),
        ("bars.js", ".sort(isDrawnBefore)", ""),
        ("bars.js", '(outcome === "COMPLETED") - (other === "COMPLETED") || ', ""),
        ("bars.js", "${number} ${outcome}", "${outcome} ${number}"),
        ("bars.js", 'words || "none was claimed"', "words"),
        ("bars.js", "place(past.median)", "place(past.longest)"),
        ("bars.js", "took > past.longest", "took < past.longest"),
    ],
    "picture.js": [
        ("picture.js", "${x - 8},${y - 4} ${x - 8},${y + 4}", "${x + 8},${y - 4} ${x + 8},${y + 4}"),
        ("picture.js", "${x - 4},${y - 8} ${x + 4},${y - 8}", "${x - 4},${y + 8} ${x + 4},${y + 8}"),
        ("picture.js", "[one, ...numbered(inside(one))]", "[...numbered(inside(one)), one]"),
        ("picture.js", 'element.chunk ? "chunk"', 'element.chunk ? "batchlet"'),
        ("picture.js", 'steps === 1 ? "step"', 'steps === 2 ? "step"'),
        ("picture.js", '"FAILED", "LOST", "STOPPING"', '"LOST", "STOPPING"'),
        ("picture.js", "scale < LEAST_SCALE ? 1", "scale < LEAST_SCALE ? LEAST_SCALE"),
    ],
    "execution.js": [
        ("execution.js", "UNFINISHED.includes(one.batchStatus) && isWhole.items", "isWhole.items"),
        ("execution.js", 'number.toLocaleString("en")', '"0"'),
        ("execution.js", "span(step.startTime, step.endTime)", "span(one.startTime, one.endTime)"),
        ("execution.js", "span(item.since, item.until)", "span(item.since, item.since)"),
        ("execution.js", "`, work item ${work}`", "`, work item ${made}`"),
        ("execution.js", 'client === ""', 'client !== ""'),
        ("logs.js", "const known = texts.get(work);", "const known = [...texts.values()][0];"),
        ("logs.js", "`/batch/work/${log.work}/log`", "`/batch/work/1/log`"),
    ],
    "open.js": [
        ("open.js", "partition === null ?", "!partition ?"),
        ("open.js", "const rows = data.jobInstances;", "const rows = [];"),
        ("open.js", "columns, shown,", "columns, shown.reverse(),"),
        ("open.js", "execution: row.executionId", "execution: row.instanceId"),
        ("open.js", "rows.length <= MOST_WITH_LOG", "rows.length < MOST_WITH_LOG"),
        ("open.js", "page || data.more ?", "data.more ?"),
        ("open.js", "page, data.more, to", "page, false, to"),
        ("open.js", "`step ${number}`", "`step`"),
        ("open.js", 'one.jobName === null ? "A job" : ', ""),
        ("open.js", 'query.get("status") || ', ""),
        ("open.js", "lasting(one.longestBefore)", "lasting(one.seconds)"),
        ("open.js", "...(late || [])", "...late"),
    ],
    "workers.js": [
        ("workers.js", "if (draining) return", "if (draining && work.length) return"),
        ("workers.js", "if (draining) return", "if (draining !== false) return"),
        ("workers.js", 'work.length ? "no, it is', '!work.length ? "no, it is'),
        ("workers.js", 'waits === null ? "the leader knows" : ', ""),
        ("workers.js", 'waits ? "yes" : "no"', '"no"'),
        ("workers.js", 'waits ? "yes" : "no"', 'waits === false ? "yes" : "no"'),
    ],
    "pages.js": [
        ("pages.js", 'one.draining ? ", draining" : ""', '!one.draining ? ", draining" : ""'),
        ("pages.js", "open[status], status", "statusCounts[status], status"),
        ("pages.js", 'status === current ? "#/" : ', ""),
        ("pages.js", "sum + number", "sum + 1"),
        ("pages.js", "{ ...query, ...(status", "{ ...(status"),
        ("pages.js", " && !row.mostRecent", ""),
        ("pages.js", "RESTARTABLE.includes(row.batchStatus) && ", ""),
        ("pages.js", "[rows, behind]", "[behind, rows]"),
        ("pages.js", "if (!isOver)", "if (isOver)"),
        ("pages.js", "failure ? told(failure) : null", "null"),
        ("pages.js", "failure ? `: it failed", "!failure ? `: it failed"),
        ("pages.js", "100 * history.operations", "history.operations"),
        ("pages.js", 'if (history.operations < history.warnFrom) return "";', ""),
    ],
    "many.js": [
        ("many.js", '["FAILED", "STOPPED"]', '["COMPLETED"]'),
        ("many.js", " && row.mostRecent", ""),
        ("many.js", "(row) => UNFINISHED.includes(row.batchStatus)", "() => false"),
    ],
}


@pytest.fixture
def scripts(tmp_path: Path) -> Path:
    """A folder for copies of the console's files. Node.js takes these for modules only if it is told."""
    shutil.copy(RUNNER, tmp_path)
    (tmp_path / "package.json").write_text('{"type": "module"}')
    return tmp_path


def copied(folder: Path) -> Path:
    folder.mkdir()
    for file in CONSOLE.glob("*.js"):
        shutil.copy(file, folder)
    return folder


def wrong_values(scripts: Path, name: str, folders: Sequence[Path]) -> list[set[str]]:
    """The expressions on a file that don't come to what is due, for each folder."""
    expressions = [expression for expression, _ in CASES[name]]
    words = ["node", RUNNER.name, name, *(folder.name for folder in folders)]
    done = subprocess.run(words, cwd=scripts, input=json.dumps(expressions), stdout=subprocess.PIPE, check=True, text=True)
    return [
        {expression for (expression, due), value in zip(CASES[name], json.loads(line), strict=True) if value != due}
        for line in done.stdout.splitlines()
    ]


@pytest.mark.parametrize("name", CASES)
def test_functions_do_what_is_due(scripts: Path, name: str) -> None:
    assert wrong_values(scripts, name, [copied(scripts / "right")]) == [set()]


def planted(folder: Path, file: str, right: str, wrong: str) -> Path:
    script = copied(folder) / file
    text = script.read_text()
    assert text.count(right) == 1, right
    script.write_text(text.replace(right, wrong))
    return folder


@pytest.mark.parametrize("name", CASES)
def test_wrong_bodies_are_noticed_and_each_expression_notices_one(scripts: Path, name: str) -> None:
    folders = [planted(scripts / f"wrong{number}", *plant) for number, plant in enumerate(PLANTS[name])]
    found = wrong_values(scripts, name, folders)
    assert len(found) == len(folders)
    assert [plant for plant, noticed in zip(PLANTS[name], found, strict=True) if not noticed] == []
    assert set[str]().union(*found) == {expression for expression, _ in CASES[name]}
