"""The image and the manifests of `deploy`: what they say of the program is so. No image is built, and no cluster is asked."""

from __future__ import annotations

import json
import os
import re
import shutil
import subprocess
import sys
from collections.abc import Callable, Iterator, Mapping, Sequence
from dataclasses import dataclass, field
from pathlib import Path
from typing import Any

import pytest
import yaml
from catalogue_samples import ROOT
from instances import Caller, listening

from job_host.catalogue.jobs import jobs_of
from job_host.commands.command_line import make_parser, run_worker, serve_settings
from job_host.protocol.addresses import DEFAULT_PORT
from job_host.service.metrics import Metrics
from job_host.service.server import LIVE_PROBE, READY_PROBE, Service
from job_host.service.settings import HistoryBounds
from job_host.worker import worker
from job_host.worker.draining import CUT_OFF_SECONDS

DEPLOY = ROOT / "deploy"
CONTAINERFILE = DEPLOY / "Containerfile"
MANIFESTS = DEPLOY / "kubernetes"
# What the service has for its end: two times 10 seconds for what is in hand, and some for batchctl.
SERVICE_END_SECONDS = 30
# The paths that need no token.
OPEN_PATHS = {LIVE_PROBE, READY_PROBE}


class OnceLoader(yaml.SafeLoader):  # type: ignore[misc] # Debian has no types of it
    """A member that comes twice is a fault: the last one would count, and nobody would see it."""

    def construct_mapping(self, node: Any, deep: bool = False) -> dict[Any, Any]:
        names = [self.construct_object(name, deep=True) for name, _ in node.value]
        if len(names) != len(set(map(str, names))):
            raise yaml.constructor.ConstructorError(None, None, f"a member comes twice in {names}", node.start_mark)
        return dict(super().construct_mapping(node, deep))


@dataclass
class Faults:
    """What is wrong in manifests."""

    documents: list[dict[str, Any]]
    found: list[str] = field(default_factory=list)

    def expect(self, holds: bool, told: str) -> None:
        if not holds:
            self.found.append(told)

    def named(self, kind: str, name: str) -> dict[str, Any] | None:
        same = (one for one in self.documents if one["kind"] == kind and one["metadata"]["name"] == name)
        return next(same, None)


def documents_in(folder: Path) -> list[dict[str, Any]]:
    texts = [path.read_text() for path in sorted(folder.glob("*.yaml"))]
    return [one for text in texts for one in yaml.load_all(text, OnceLoader)]


def pods_in(documents: Sequence[Mapping[str, Any]]) -> Iterator[tuple[str, Mapping[str, Any]]]:
    """The templates of pods, by the names of what makes them."""
    for one in documents:
        if "template" in one.get("spec", {}):
            yield f"{one['kind']} {one['metadata']['name']}", one["spec"]["template"]


def parsed(faults: Faults, name: str, words: Sequence[str]) -> Any:
    """What a command line comes to, if the program knows its words."""
    try:
        return make_parser(words[0]).parse_args(list(words))
    except SystemExit:
        faults.expect(False, f"{name}: jobhost doesn't know these words: {words}")
        return None


def faults_in(documents: list[dict[str, Any]]) -> list[str]:
    faults = Faults(documents)
    for name, template in pods_in(documents):
        spec = template["spec"]
        (container,) = spec["containers"]
        given = parsed(faults, name, container["args"])
        if given is not None:
            (check_service if container["args"][0] == "serve" else check_worker)(faults, name, spec, given)
        check_files(faults, name, spec, container)
        check_user(faults, name, spec)
    check_names(faults)
    check_scaling(faults)
    return faults.found


def check_service(faults: Faults, name: str, spec: Mapping[str, Any], given: Any) -> None:
    """Ports, probes and times of the service."""
    settings = serve_settings(given)
    (container,) = spec["containers"]
    ports = {one["name"]: one["containerPort"] for one in container["ports"]}
    faults.expect(bool(settings.postgres), f"{name}: a pod keeps no log of its own")
    faults.expect(settings.host == "0.0.0.0" and settings.tokens is not None, f"{name}: it isn't reached with tokens")
    faults.expect(spec["terminationGracePeriodSeconds"] >= SERVICE_END_SECONDS, f"{name}: it is killed before its end")
    faults.expect(set(ports.values()) == {settings.port}, f"{name}: the port isn't the one on which it listens")
    scheme = "HTTPS" if settings.certificate else "HTTP"
    for probe in ("startupProbe", "livenessProbe", "readinessProbe"):
        got = container[probe]["httpGet"]
        faults.expect(got["path"] in OPEN_PATHS, f"{name}: {probe}: no path that needs no token: {got['path']}")
        faults.expect(got["port"] in ports and got.get("scheme", "HTTP") == scheme, f"{name}: {probe}: no such port")
    host = settings.advertise.split("//")[1].split(":")[0]
    service = faults.named("Service", host)
    told = [] if service is None else service["spec"]["ports"]
    urls = [f"{scheme.lower()}://{host}:{one['port']}" for one in told if one["targetPort"] in ports]
    faults.expect(urls == [settings.advertise], f"{name}: workers don't find it at {settings.advertise}")


def check_worker(faults: Faults, name: str, spec: Mapping[str, Any], given: Any) -> None:
    """The times of a worker, and where it finds the service."""
    least = given.grace + CUT_OFF_SECONDS
    faults.expect(spec["terminationGracePeriodSeconds"] >= least, f"{name}: it is killed before {least:g} seconds are over")
    faults.expect(spec.get("shareProcessNamespace") is True, f"{name}: process 1 has no signals before its handlers")
    service = next((one for one in faults.documents if one["kind"] == "Service"), None)
    url = None if service is None else f"https://{service['metadata']['name']}:{service['spec']['ports'][0]['port']}"
    faults.expect(given.url == url, f"{name}: the service isn't at {given.url}")
    is_job = name.startswith("Job ")
    faults.expect(given.once == is_job, f"{name}: a Job's pod runs one work item, and no other does")
    faults.expect(not is_job or spec["restartPolicy"] == "Never", f"{name}: its pod begins again")


def check_files(faults: Faults, name: str, spec: Mapping[str, Any], container: Mapping[str, Any]) -> None:
    """Each file that a command line names lies in a volume that has it, or in the image."""
    volumes = {one["name"]: one for one in spec["volumes"]}
    places = {one["mountPath"]: volumes.get(one["name"]) for one in container["volumeMounts"]}
    faults.expect(None not in places.values(), f"{name}: a volume that isn't there is mounted")
    for path in re.findall(r"/etc/jobhost/[\w./-]+", " ".join(container["args"])):
        folder, _, file = path.rpartition("/")
        faults.expect(file in files_of(faults, places.get(folder)), f"{name}: nothing brings {path}")


def files_of(faults: Faults, volume: Mapping[str, Any] | None) -> Sequence[str]:
    """The files of a volume: those of a secret whole are TLS's."""
    if volume is None:
        return ()
    if "configMap" in volume:
        return list((faults.named("ConfigMap", volume["configMap"]["name"]) or {"data": {}})["data"])
    items = volume["secret"].get("items")
    return ("tls.crt", "tls.key", "ca.crt") if items is None else [one["path"] for one in items]


def check_user(faults: Faults, name: str, spec: Mapping[str, Any]) -> None:
    user = re.search(r"^USER (\d+)$", CONTAINERFILE.read_text(), re.MULTILINE)
    context = spec["securityContext"]
    same = user is not None and context["runAsUser"] == int(user[1]) and context["runAsNonRoot"] is True
    faults.expect(same, f"{name}: it isn't the image's user")
    faults.expect(spec["automountServiceAccountToken"] is False, f"{name}: it needs no token of the cluster")


def check_names(faults: Faults) -> None:
    """Selectors find their pods, and each name is there once."""
    names = [(one["kind"], one["metadata"]["name"]) for one in faults.documents]
    faults.expect(len(names) == len(set(names)), "a name is there twice")
    labels = [template["metadata"]["labels"] for _, template in pods_in(faults.documents)]
    selectors = [one["spec"]["selector"] for one in faults.documents if "selector" in one.get("spec", {})]
    for selector in selectors:
        wanted = selector.get("matchLabels", selector)
        faults.expect(any(wanted.items() <= one.items() for one in labels), f"nothing has the labels {wanted}")


def check_scaling(faults: Faults) -> None:
    """The autoscaler's target is there, has as many slots as it counts with, and its metric is made of some that are shown."""
    shown = {one.name for one in Metrics(HistoryBounds(3, 1, 2)).registry.collect()}
    for one in (each for each in faults.documents if each["kind"] == "HorizontalPodAutoscaler"):
        (metric,) = one["spec"]["metrics"]
        found = faults.named("Deployment", one["spec"]["scaleTargetRef"]["name"])
        rule = rule_of(faults.documents, metric["external"]["metric"]["name"])
        made_of = set(re.findall(r"jobhost_\w+", rule))
        words = {} if found is None else found["spec"]["template"]["spec"]["containers"][0]["args"]
        slots = f"--slots={metric['external']['target']['averageValue']}"
        faults.expect(slots in words, f"the autoscaler's target hasn't {slots}")
        faults.expect({"jobhost_queue_busy", "jobhost_queue_ready_at_least"} == made_of, "busy and ready aren't counted")
        faults.expect(made_of <= shown, f"not all of {made_of} is shown")


def rule_of(documents: Sequence[Mapping[str, Any]], name: str) -> str:
    """The query of the adapter's rule that makes a metric."""
    maps = [one["data"]["rules.yaml"] for one in documents if "rules.yaml" in one.get("data", {})]
    rules = [rule for text in maps for rule in yaml.load(text, OnceLoader)["externalRules"]]
    return next((str(rule["metricsQuery"]) for rule in rules if rule["name"]["as"] == name), "")


def test_the_manifests_fit_the_program() -> None:
    documents = documents_in(MANIFESTS)
    assert sorted(one["kind"] for one in documents) == [
        *("ConfigMap", "ConfigMap", "Deployment", "Deployment", "HorizontalPodAutoscaler", "Job", "Service"),
    ]
    assert faults_in(documents) == []
    (catalogue,) = [one["data"]["catalogue.json"] for one in documents if "catalogue.json" in one.get("data", {})]
    assert list(jobs_of(json.dumps(json.loads(catalogue)))) == ["nightly"]


# What is planted: the file, what stands there, what is wrong, and what is said.
PLANTS = [
    ("worker.yaml", "terminationGracePeriodSeconds: 340", "terminationGracePeriodSeconds: 330", "killed before 340 seconds"),
    ("worker.yaml", "--grace=300", "--grace=301", "killed before 341 seconds"),
    ("worker.yaml", "--grace=300", "--graze=300", "doesn't know these words"),
    ("worker.yaml", "--slots=4", "--slots=8", "hasn't --slots=4"),
    ("worker.yaml", "https://jobhost:8570", "https://jobhost:8571", "the service isn't at"),
    ("worker.yaml", "shareProcessNamespace: true", "shareProcessNamespace: false", "process 1"),
    ("worker.yaml", "path: worker", "path: token", "nothing brings /etc/jobhost/token/worker"),
    ("worker.yaml", "      app: jobhost-worker\n  template", "      app: workers\n  template", "nothing has the labels"),
    ("once.yaml", "            - --once\n            - --wait=60\n", "", "a Job's pod runs one work item"),
    ("once.yaml", "restartPolicy: Never", "restartPolicy: OnFailure", "begins again"),
    ("once.yaml", "--grace=300", "--grace=600", "killed before 640 seconds"),
    ("service.yaml", "containerPort: 8570", "containerPort: 8080", "isn't the one on which it listens"),
    ("service.yaml", "path: /readyz", "path: /health/ready", "no path that needs no token: /health/ready"),
    (
        "service.yaml",
        "              path: /readyz\n              port: https",
        "              path: /readyz\n              port: http",
        "no such port",
    ),
    ("service.yaml", "--advertise=https://jobhost:8570", "--advertise=https://jobhost", "workers don't find it"),
    ("service.yaml", "terminationGracePeriodSeconds: 60", "terminationGracePeriodSeconds: 10", "killed before its end"),
    ("service.yaml", "runAsUser: 10001", "runAsUser: 0", "isn't the image's user"),
    ("service.yaml", "tokens/tokens\n", "tokens/token\n", "nothing brings /etc/jobhost/tokens/token"),
    ("autoscaler.yaml", "max(jobhost_queue_busy{<<.LabelMatchers>>}) + ", "", "busy and ready aren't counted"),
    ("autoscaler.yaml", "name: jobhost_queue_work_items", "name: jobhost_backlog", "busy and ready aren't counted"),
    ("autoscaler.yaml", "    name: jobhost-worker\n  minReplicas", "    name: jobhost\n  minReplicas", "hasn't --slots=4"),
]


@pytest.mark.parametrize(("file", "right", "wrong", "told"), PLANTS)
def test_a_manifest_at_fault_is_noticed(tmp_path: Path, file: str, right: str, wrong: str, told: str) -> None:
    for path in MANIFESTS.glob("*.yaml"):
        text = path.read_text()
        assert path.name != file or text.count(right) >= 1
        (tmp_path / path.name).write_text(text.replace(right, wrong) if path.name == file else text)
    assert told in "\n".join(faults_in(documents_in(tmp_path)))


def test_a_member_that_comes_twice_is_a_fault() -> None:
    with pytest.raises(yaml.constructor.ConstructorError, match="comes twice"):
        yaml.load("spec: {replicas: 1}\nspec: {replicas: 2}\n", OnceLoader)


async def test_the_probes_of_the_manifests_need_no_token(idle: Callable[..., Service], tmp_path: Path) -> None:
    tokens = tmp_path / "tokens"
    tokens.write_text(f"reader board {'r' * 20}\n")
    async with listening(idle(tokens=tokens)) as service:
        caller = Caller(f"http://127.0.0.1:{service.port}")
        told = {path: (await caller.ask("GET", path)).status for path in (*OPEN_PATHS, "/health/live", "/health/ready")}
    assert told == {LIVE_PROBE: 200, READY_PROBE: 503, "/health/live": 401, "/health/ready": 401}


def in_places(word: str, places: Mapping[str, str]) -> str:
    """A word of a command line with other paths."""
    option, _, value = word.partition("=")
    return f"{option}={places[value]}" if value in places else word


def test_the_words_of_the_workers_are_taken(monkeypatch: pytest.MonkeyPatch, tmp_path: Path) -> None:
    """As far as they need no cluster: with a folder and a token of the test."""
    told: list[worker.WorkerSettings] = []

    async def work(address: Any, settings: worker.WorkerSettings) -> int:
        told.append(settings)
        return 0

    monkeypatch.setattr(worker, "work", work)
    (tmp_path / "worker").write_text("w" * 20)
    places = {"/srv/artifacts": str(tmp_path), "/etc/jobhost/token/worker": str(tmp_path / "worker")}
    for name, template in pods_in(documents_in(MANIFESTS)):
        words = [in_places(word, places) for word in template["spec"]["containers"][0]["args"]]
        assert words[0] == "serve" or run_worker(make_parser("worker").parse_args(words)) == 0, name
    assert sorted((one.slots, one.grace, one.once) for one in told if one.once) == [(1, 300.0, 60.0)]
    assert [(one.slots, one.grace) for one in told if one.once is None] == [(4, 300.0)]


def copied_as_told(folder: Path) -> None:
    """The files of the image, as far as the clone has them: batchctl is left out."""
    for sources, place in re.findall(r"^COPY (?:--\S+ )?(.+) (\S+)$", CONTAINERFILE.read_text(), re.MULTILINE):
        for source in (one for one in sources.split() if not one.startswith("crates/")):
            path, target = ROOT / source, folder / place.lstrip("/")
            target.parent.mkdir(parents=True, exist_ok=True)
            if path.is_dir():
                shutil.copytree(path, target)
            else:
                target.mkdir(exist_ok=True)
                shutil.copy(path, target)


def test_the_image_has_all_that_the_program_loads(tmp_path: Path) -> None:
    """Its files alone, elsewhere than in the clone."""
    copied_as_told(tmp_path)
    command = tmp_path / "opt" / "jobhost" / "service" / "jobhost"
    around = {**os.environ, "JOBHOST_BATCHCTL": "/usr/bin/true"}
    told = [
        subprocess.run([sys.executable, str(command), *words], env=around, capture_output=True, text=True, check=True).stdout
        for words in (["--version"], ["serve", "--help"], ["worker", "--help"])
    ]
    assert told[0].startswith("jobhost 1.") and "--postgres" in told[1] and "--grace" in told[2]
    console = tmp_path / "opt" / "jobhost" / "service" / "job_host" / "service" / "console" / "index.html"
    assert console.is_file()


def test_the_containerfile_says_what_the_service_needs() -> None:
    text = CONTAINERFILE.read_text()
    assert re.findall(r"^FROM (\S+)", text, re.MULTILINE) == ["debian:bookworm-slim"]
    assert "install.sh /usr/local/bin python3-asyncpg" in text and "--postgres" not in text
    assert re.findall(r"^EXPOSE (\d+)", text, re.MULTILINE) == [str(DEFAULT_PORT)]
    assert re.findall(r"^ENTRYPOINT (.+)", text, re.MULTILINE) == ['["jobhost"]']
    (user,) = re.findall(r"^USER (\d+)", text, re.MULTILINE)
    assert int(user) > 0 and f"--uid {user} " in text
    assert "COPY --chmod=0755 crates/batchctl/out/batchctl /usr/local/bin/batchctl" in text
