"""Properties of jobs: what they come to at a claim, what a worker completes, and what an artifact finds in its environment."""

from __future__ import annotations

import json
import random
import string
import time
from pathlib import Path
from types import SimpleNamespace
from typing import Any, cast

import pytest

from job_host.catalogue.folder import read_folder
from job_host.catalogue.jsl_substitution import OPERATORS, Resolved, resolve
from job_host.catalogue.properties import MOST_CHARACTERS, ElementProperties, JobProperties, Pairs, TooLarge
from job_host.protocol.late_texts import Late, completed, joined
from job_host.worker.chunks import Chunk
from job_host.worker.environment import WorkFiles, environment
from job_host.worker.output import Tail
from job_host.worker.worker import Batchlet, Told, Worker

WORK = {"work": 1, "execution": 1, "element": "s", "kind": "batchlet", "ref": "shows"}
SYSTEM = "#{systemProperties['home']}"


def one(value: str, *before: tuple[str, str], **parameters: str) -> Late:
    """What the value of a batchlet's property comes to, in a job with these properties."""
    job = JobProperties(before, {"s": ElementProperties(artifacts={"batchlet": (("p", value),)})})
    return job.at_claim(WORK, parameters)["batchlet"]["p"]


@pytest.mark.parametrize(
    ("value", "expected"),
    [
        ("plain", "plain"),
        # The examples of "Job XML Substitution".
        ("#{jobParameters['infile.name']}", "postings"),
        ("#{jobParameters['unresolving.prop']}?:#{jobParameters['infile.name']}.txt;", "postings.txt"),
        (
            "#{jobParameters['unresolving.prop']}?:#{jobProperties['separator']};#{jobParameters['infile.name']}.txt",
            "/postings.txt",
        ),
        (
            "#{jobProperties['separator']}test#{jobProperties['separator']}#{jobParameters['infile.name']}.txt",
            "/test/postings.txt",
        ),
        ("#{jobProperties['unresolving.prop']}", ""),
        ("a#{partitionPlan['x']}b", "ab"),
        ("#{jobProperties['empty']}?:default;", "default"),
        ('#{jobParameters["infile.name"]}', "postings"),
        ("#{ jobParameters [ 'infile.name' ] }", "postings"),
        # What a parameter says is no expression.
        ("#{jobParameters['sly']}", "#{systemProperties['home']}?:x;"),
        ("#{jobParameters['none']}?:#{jobParameters['sly']};", "#{systemProperties['home']}?:x;"),
    ],
)
def test_what_a_value_comes_to(value: str, expected: str) -> None:
    parameters = {"infile.name": "postings", "sly": "#{systemProperties['home']}?:x;"}
    assert one(value, ("separator", "/"), ("empty", ""), **parameters) == expected


PIECES = [
    *("a", "b", "#", "{", "}", "?:", ";", "#{", "'", " "),
    *(f"#{{{operator}['{name}']}}" for operator in OPERATORS for name in ("a", "b", "none", "")),
    *("#{jobProperties['a']}?:d;", "#{systemProperties['a']}?:#{jobProperties['b']};", "#{partitionPlan['b']}?:;"),
]


def test_random_texts_come_to_the_same_as_before_a_start() -> None:
    """Without parameters, a plan and system properties, a claim finds what is written out of attributes."""
    for seed in range(2_000):
        draw = random.Random(seed)
        pairs = tuple(
            (draw.choice(["a", "b", "".join(draw.choices(PIECES, k=2))]), "".join(draw.choices(PIECES, k=draw.randrange(7))))
            for _ in range(6)
        )
        known, scope = dict[str, str](), dict[str, Resolved]()
        for name, value in pairs:
            key = resolve(name, scope).text
            scope[key] = resolve(value, scope)
            known[key] = scope[key].text
        if all(not resolve(text, scope).wrong for pair in pairs for text in pair):
            found = JobProperties(pairs).at_claim(WORK, {}).get("job", {})
            assert {name: completed(text, {}) for name, text in found.items()} == known, pairs


SCOPES = JobProperties(
    (("a", "job"), ("b", "#{jobProperties['a']}-#{jobProperties['c']}"), ("c", "later")),
    {
        "s": ElementProperties(
            (("a", "step of #{jobProperties['a']}"), ("plan", "#{partitionPlan['file']}?:none;")),
            {
                "reader": (("a", "reader of #{jobProperties['a']}"), ("again", "#{jobProperties['a']}, #{jobProperties['b']}")),
                "writer": (("out", "#{jobProperties['plan']} #{partitionPlan['file']} #{jobProperties['file']}"),),
            },
            {0: (("file", "f0 of #{jobProperties['plan']}"),), 1: (("file", "f1"), ("more", "#{jobProperties['file']}"))},
        )
    },
)


def test_properties_are_resolved_at_their_own_element() -> None:
    """An earlier property there comes first, then those around it. The readers' aren't known to the writer."""
    told = SCOPES.at_claim({**WORK, "partition": 1}, {})
    assert told == {
        "job": {"a": "job", "b": "job-", "c": "later"},
        "step": {"a": "step of job", "plan": "f1"},
        "reader": {"a": "reader of step of job", "again": "reader of step of job, job-"},
        "writer": {"out": "f1 f1 "},
    }


def test_each_partition_has_the_properties_of_its_own_plan() -> None:
    told = [SCOPES.at_claim({**WORK, "partition": number}, {}).get("writer") for number in (0, 2)]
    assert told == [{"out": "f0 of none f0 of none "}, {"out": "none  "}]
    assert SCOPES.at_claim({**WORK, "element": "other"}, {}) == {"job": {"a": "job", "b": "job-", "c": "later"}}
    assert JobProperties().at_claim(WORK, {}) == {}


@pytest.mark.parametrize(
    ("value", "told", "known", "unknown"),
    [
        (SYSTEM, [{"systemProperties": "home"}], "/home/x", ""),
        (f"{SYSTEM}/in", [{"systemProperties": "home"}, "/in"], "/home/x/in", "/in"),
        (f"{SYSTEM}?:/tmp;", [{"value": [{"systemProperties": "home"}], "default": "/tmp"}], "/home/x", "/tmp"),
        (
            f"a#{{jobProperties['none']}}?:{SYSTEM};b",
            ["a", {"systemProperties": "home"}, "b"],
            "a/home/xb",
            "ab",
        ),
        ("#{jobProperties['dir']}?:/tmp;", ["in", {"systemProperties": "home"}], "in/home/x", "in"),
    ],
)
def test_a_system_property_is_left_to_the_worker(value: str, told: Late, known: str, unknown: str) -> None:
    found = one(value, ("dir", f"in{SYSTEM}"))
    assert found == told and json.loads(json.dumps(found)) == told
    assert (completed(found, {"home": "/home/x"}), completed(found, {})) == (known, unknown)


def test_texts_are_joined() -> None:
    part: Late = [{"systemProperties": "x"}]
    assert joined([]) == "" and joined(["", ""]) == "" and joined(["a", "", "b"]) == "ab"
    assert joined(["a", "b", part, "", part, "c", "d"]) == ["ab", *part, *part, "cd"]


def doubling(count: int, first: str) -> Pairs:
    return (("p0", first), *((f"p{n}", f"#{{jobProperties['p{n - 1}']}}" * 2) for n in range(1, count)))


@pytest.mark.parametrize(
    ("pairs", "parameters"),
    [
        (doubling(60, "lol"), {}),
        (doubling(60, SYSTEM), {}),
        ((("p", "#{jobParameters['x']}" * 100),), {"x": "x" * (MOST_CHARACTERS // 50)}),
        ((("p0", SYSTEM), *((f"p{n}", f"#{{jobProperties['p{n - 1}']}}?:x;") for n in range(1, 1_000))), {}),
    ],
    ids=["doubled", "doubled system properties", "a large parameter", "nested defaults"],
)
def test_what_comes_to_too_much_is_no_claim_s_answer(pairs: Pairs, parameters: dict[str, str]) -> None:
    begun = time.process_time()
    with pytest.raises(TooLarge):
        JobProperties(pairs).at_claim(WORK, parameters)
    assert time.process_time() - begun < 2


def jsl(properties: str, batchlet: str = '<batchlet ref="b"/>', plan: str = "", job: str = "") -> str:
    plan = plan and f"<partition><plan partitions='2'>{plan}</plan></partition>"
    return f'<job id="a">{job}\n<step id="s">\n{properties}\n{batchlet}{plan}</step></job>'


def refused(folder: Path, text: str, *allowed: str) -> list[str]:
    """The faults of a job file, without its name."""
    (folder / "job.xml").write_text(text)
    return [line.replace(f"{folder}/job.xml:", "") for line in read_folder(folder, allowed).refused]


def properties(*pairs: tuple[str, str], partition: str = "") -> str:
    told = "".join(f'<property name="{name}" value="{value}"/>' for name, value in pairs)
    return f"<properties{partition and f' partition={partition!r}'}>{told}</properties>"


IN_STEP = 'JSL in job "a", step "s": '
ALLOWED = " (--allow %s takes it for not given)"
FAULTS = [
    (jsl(properties(("p", "#{jobParameter['x']}"))), f"3:38: {IN_STEP}expected an expression such as "),
    (jsl(properties(("p", "#{x"))), f"3:38: {IN_STEP}expected an expression such as "),
    (jsl("<properties><property name='p'/></properties>"), f'3:13: {IN_STEP}expected "value" in <property>, found none'),
    (
        jsl(properties((SYSTEM, "v"))),
        f'3:28: {IN_STEP}the substitution of systemProperties in "name" has no place in a catalogue: '
        f"a system property is known only after the start{ALLOWED % 'systemProperties'}",
    ),
    (jsl("", plan=properties(("p", "v"))), f'4:52: {IN_STEP}expected "partition" in <properties> of <plan>, found none'),
    (jsl("", plan=properties(partition="x")), f'4:74: {IN_STEP}expected a whole number as "partition", found "x"'),
    (
        jsl("", plan=properties(partition="2")),
        f'4:74: {IN_STEP}expected a partition of the plan\'s 2, from 0, as "partition", found 2',
    ),
    (
        jsl("", plan=properties(partition="1") * 2),
        f"4:113: {IN_STEP}expected one <properties> of the partition 1, found another one",
    ),
    (
        jsl("", "<batchlet ref=\"#{jobParameters['x']}?:b;\"/>"),
        f'4:15: {IN_STEP}the substitution of jobParameters in "ref" has no place in a catalogue: '
        f"a job parameter is known only after the start{ALLOWED % 'jobParameters'}",
    ),
    (
        jsl("", job=properties(*((f"p{n}", f"#{{jobProperties['p{n - 1}']}}" * 2 if n else "lol") for n in range(40)))),
        '"value" comes to more than 262144 characters, with what stands before it',
    ),
]


@pytest.mark.parametrize(("text", "fault"), FAULTS)
def test_a_fault_of_properties_has_its_place(tmp_path: Path, text: str, fault: str) -> None:
    told = refused(tmp_path, text)
    assert told and fault in told[0]


def test_properties_that_come_to_nothing_are_soon_read(tmp_path: Path) -> None:
    """Each names the one before it twice, and the first one names one that isn't there."""
    pairs = [("p0", "#{jobProperties['none']}"), *((f"p{n}", f"#{{jobProperties['p{n - 1}']}}" * 2) for n in range(1, 60))]
    begun = time.process_time()
    assert refused(tmp_path, jsl(properties(*pairs), "<batchlet ref=\"b#{jobProperties['p59']}\"/>")) == []
    assert read_folder(tmp_path, ()).for_workers["a"].properties.at_claim(WORK, {})["step"] == {f"p{n}": "" for n in range(60)}
    assert time.process_time() - begun < 2


def test_an_attribute_may_have_a_default_that_counts(tmp_path: Path) -> None:
    """The catalogue is fixed before a job is started."""
    told = [
        refused(tmp_path, jsl("", f"<batchlet ref=\"b#{{jobParameters['x']}}{end}\"/>"), "jobParameters")
        for end in ("?:c;", "")
    ]
    lost = 'the substitution of jobParameters in "ref" has no place in a catalogue, and it has no default'
    assert told == [[], [f"4:15: {IN_STEP}{lost}"]]


ODD = {
    **{f"p{number}": mark for number, mark in enumerate(string.punctuation + " \t\n\r é表😀\u202e\ufeff\x7f\x85\u2028")},
    "": "no name",
    "no word": "n w",
    "é": "é",
    "with=sign": "=",
    "path": "/usr/bin:$(rm -rf /)`id`",
    "empty": "",
}
SHOWS = """#!/usr/bin/python3
import json, os, sys
from pathlib import Path
told = {name: value for name, value in os.environ.items() if name.startswith(("BATCH_PROP", "BATCH_JOB_P", "BATCH_STEP_P"))}
with open(os.environ["BATCH_PROPERTIES_FILE"]) as file:
    told["file"] = json.load(file)
told["mode"] = os.stat(os.environ["BATCH_PROPERTIES_FILE"]).st_mode & 0o777
Path(Path(sys.argv[0]).name + ".shown").write_text(json.dumps(told))
for line in sys.stdin:
    do = json.loads(line)["do"]
    print(json.dumps({"read": {"end": True}, "checkpoint": {"checkpoint": "0"}}.get(do, {})), flush=True)
"""


def attribute(value: str) -> str:
    """A text as an attribute of XML, of ASCII alone."""
    return "".join(mark if mark.isalnum() and mark.isascii() else f"&#{ord(mark)};" for mark in value)


async def run(folder: Path, work: dict[str, Any], told: dict[str, Any]) -> tuple[str, dict[str, dict[str, Any]], str]:
    """How a work item with these properties ended, what each of its artifacts has shown, and its log."""
    names = [work[use] for use in ("ref", "reader", "processor", "writer") if use in work]
    for name in names:
        (folder / name).write_text(SHOWS)
        (folder / name).chmod(0o755)
    claimed, tail = {"work": work, "properties": told}, Tail()
    if work["kind"] == "chunk":

        async def report(mark: str, metrics: dict[str, int]) -> bool:
            return False

        chunk = Chunk(folder, claimed, tail, report)
        ended = await chunk.run()
        await chunk.close()
    else:
        ended = await Batchlet(folder, claimed, tail, Told()).run()
    shown = [folder / f"{name}.shown" for name in names]
    return ended.outcome, {path.stem: json.loads(path.read_text()) for path in shown if path.exists()}, tail.text()


async def test_properties_with_odd_characters_arrive(tmp_path: Path) -> None:
    """XML can hold each of these as a reference to its character."""
    odd = {name: value for name, value in ODD.items()}
    text = jsl("", f'<batchlet ref="b">{properties(*((attribute(n), attribute(v)) for n, v in odd.items()))}</batchlet>')
    assert refused(tmp_path, text) == []
    told = read_folder(tmp_path, ()).for_workers["a"].properties.at_claim(WORK, {})
    assert told == {"batchlet": odd}
    outcome, shown, log = await run(tmp_path, WORK, told)
    assert (outcome, log) == ("COMPLETED", "")
    assert shown["shows"]["file"] == odd == json.loads(shown["shows"]["BATCH_PROPERTIES"]) and shown["shows"]["mode"] == 0o600
    own = {name: value for name, value in shown["shows"].items() if name.startswith("BATCH_PROPERTY_")}
    words = {name: value for name, value in odd.items() if name.isascii() and name.isalnum()}
    assert own == {f"BATCH_PROPERTY_{name}": value for name, value in words.items()} and len(words) > 40


async def test_a_value_that_no_environment_holds_is_in_the_file(tmp_path: Path) -> None:
    """XML has no NUL, but a parameter may."""
    own = {"zero": one("a#{jobParameters['x']}", x="\0"), "large": "l" * 200_000, "small": "s"}
    outcome, shown, log = await run(tmp_path, WORK, {"batchlet": own, "job": {"large": "l" * 200_000}})
    assert outcome == "COMPLETED" and shown["shows"]["file"] == own and own["zero"] == "a\0"
    assert {name for name in shown["shows"] if name.startswith("BATCH_PROPERTY_")} == {"BATCH_PROPERTY_small"}
    lost = "BATCH_PROPERTIES, BATCH_PROPERTY_zero, BATCH_PROPERTY_large: the file BATCH_PROPERTIES_FILE has all properties of"
    assert f"jobhost: the environment can't hold {lost} the artifact\n" in log
    assert "can't hold BATCH_JOB_PROPERTIES: a property of the artifact may name one of them by jobProperties" in log


async def test_a_thousand_properties_arrive(tmp_path: Path) -> None:
    text = jsl(properties(*((f"p{number}", f"value {number}") for number in range(1_000))), job=properties(("n", "1")))
    assert refused(tmp_path, text) == []
    job = read_folder(tmp_path, ()).for_workers["a"].properties
    job.elements["s"].artifacts["batchlet"] = job.elements["s"].own
    begun = time.process_time()
    told = job.at_claim(WORK, {})
    assert time.process_time() - begun < 0.5
    outcome, shown, log = await run(tmp_path, WORK, told)
    assert (outcome, log) == ("COMPLETED", "")
    assert {f"BATCH_PROPERTY_p{n}": f"value {n}" for n in range(1_000)}.items() <= shown["shows"].items()
    assert len(json.loads(shown["shows"]["BATCH_STEP_PROPERTIES"])) == 1_000
    assert json.loads(shown["shows"]["BATCH_JOB_PROPERTIES"]) == {"n": "1"}


async def test_each_part_of_a_chunk_has_its_own(tmp_path: Path) -> None:
    chunk = {"kind": "chunk", "item-count": 2, "checkpoint": None, "reader": "r", "processor": "p", "writer": "w"}
    work = {name: value for name, value in WORK.items() if name != "ref"} | chunk
    told = {"step": {"s": "1"}, "reader": {"from": "in", "n": "1"}, "writer": {"to": "out", "n": "2"}}
    outcome, shown, _ = await run(tmp_path, work, told)
    assert outcome == "COMPLETED"
    assert {name: one["file"] for name, one in shown.items()} == {"r": told["reader"], "p": {}, "w": told["writer"]}
    assert [shown[name].get("BATCH_PROPERTY_n") for name in "rpw"] == ["1", None, "2"]
    assert {one["BATCH_STEP_PROPERTIES"] for one in shown.values()} == {'{"s": "1"}'}
    assert "BATCH_JOB_PROPERTIES" not in shown["r"]


def test_no_property_of_another_work_item_is_found(monkeypatch: pytest.MonkeyPatch) -> None:
    """A worker may itself be an artifact. Without properties nothing tells of such."""
    for name in ("BATCH_PROPERTIES", "BATCH_PROPERTIES_FILE", "BATCH_PROPERTY_old", "BATCH_JOB_PROPERTIES"):
        monkeypatch.setenv(name, "old")
    files = WorkFiles({"work": WORK}, ["batchlet"])
    found = environment({"work": WORK}, "batchlet", files.variables("batchlet"), print)
    files.remove()
    assert [name for name in found if "PROPERT" in name] == [] and len(files.paths) == 1


async def test_only_system_properties_that_are_named_are_told(tmp_path: Path, monkeypatch: pytest.MonkeyPatch) -> None:
    monkeypatch.setenv("home", "/home/x")
    monkeypatch.setenv("SECRET", "secret")
    worker = Worker(cast(Any, SimpleNamespace(operate=None)), tmp_path, 1, ["home", "none"])
    claimed = {"properties": {"batchlet": {n: one(f"<#{{systemProperties['{n}']}}>") for n in ("home", "none", "SECRET")}}}
    worker._complete(claimed)
    assert claimed == {"properties": {"batchlet": {"home": "</home/x>", "none": "<>", "SECRET": "<>"}}}
