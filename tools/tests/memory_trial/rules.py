"""What a call may do that was refused memory. It must answer that it was refused memory, and then:

- What can be read of its object is as it is before the call, but that a walk which was kept may be dropped, and that the
  session of a refused call may have been shown the operations before it.
- The call is made again, with memory. Its answer, what can be read then, and all later answers are those of the whole run.

`EXCEPTIONS` lists the calls of which more is allowed, each with its reason. `SWALLOWED` lists the calls that may do without a
request: then the object shows what it gave up, or the call asks for more instead.
"""

from __future__ import annotations

import re
from collections.abc import Callable, Iterable
from dataclasses import dataclass

from memory_trial.alike import alike, are_as_before, has_between, is_as_before, see_what_there_is, tells_the_same, without_lists
from memory_trial.calls import REFUSED, Part, Refuser, Run
from memory_trial.single_calls import Case, cases
from program import Wrong

# Lines of a walk's script that the program does not echo.
NOT_ECHOED = ("walk", "swap")


@dataclass(frozen=True)
class Refusal:
    """A case, its whole run, and the number of a request. `run` refuses it, in a script that makes the call once more."""

    program: Refuser
    case: Case
    whole: Run
    number: int
    run: Run

    def fail(self, what: str) -> Wrong:
        return Wrong(f"{self.case.name}, request {self.number} of {self.whole.requests}: {what}")

    def place(self) -> int:
        """The place of the call among the parts of a run."""
        before = [line for line in self.case.before if line not in NOT_ECHOED]
        return 1 + len(before) + len(self.case.looks) if self.case.line else 0

    def answer(self) -> Part:
        """What the call answered that was refused memory."""
        return self.run.parts[min(self.place(), len(self.run.parts) - 1)]

    def is_refused(self) -> bool:
        return any(line in REFUSED for line in self.answer().said)

    def now(self) -> list[str]:
        """What could be read behind the refusal."""
        looks = self.run.parts[self.place() + 1 :][: len(self.case.looks)]
        return [line for part in looks for line in part.said]

    def before(self) -> list[str]:
        """What could be read before the call."""
        looks = self.whole.parts[self.place() - len(self.case.looks) : self.place()]
        return [line for part in looks for line in part.said]

    def after(self) -> list[str]:
        """What could be read behind the call that was not refused."""
        looks = self.whole.parts[self.place() + 1 :][: len(self.case.looks)]
        return [line for part in looks for line in part.said]

    def once(self) -> Run:
        """A run of the script that makes the call once, in which the same request is refused."""
        run = self.program.run(self.case.script(False), self.number)
        if run.status != 0 or run.faults:
            raise self.fail(f"status {run.status}, {run.faults!r}")
        return run

    def goes_on_alike(self) -> None:
        """What stands ahead of the refusal, and from the call that is made again on, is as in the whole run."""
        place = self.place()
        if self.run.parts[:place] != self.whole.parts[:place]:
            raise self.fail("other lines before the refusal")
        again = self.run.parts[place + 1 + len(self.case.looks) :]
        if not alike(again, self.whole.parts[place:]):
            pairs = zip(again, self.whole.parts[place:])
            differ = next((pair for pair in pairs if not alike(pair[:1], pair[1:])), "a count of lines")
            raise self.fail(f"it goes on otherwise: {differ}")


def leaves_all(refusal: Refusal) -> None:
    """What can be read is as before the call, but that a session may have been shown the operations before a refusal."""
    if not are_as_before(refusal.now(), refusal.before()) or not see_what_there_is(refusal.now()):
        raise refusal.fail(f"what can be read then is not as before: {refusal.now()}, {refusal.before()}")
    refusal.goes_on_alike()


def is_made_again(refusal: Refusal) -> None:
    """An object that could not be made is made from the beginning, and all goes on as in the whole run."""
    first, whole = refusal.run.parts[0], refusal.whole.parts
    if first.said != ("Err(OutOfMemory)", *whole[0].said) or refusal.run.parts[1:] != whole[1:]:
        raise refusal.fail(f"it goes on otherwise: {first}")


def has_a_beginning(refusal: Refusal) -> None:
    """A read copy has at least what it had and at most what it was to have; all else is as before."""
    now, before, after = refusal.now(), refusal.before(), refusal.after()
    if not len(now) == len(before) == len(after) or not all(map(has_between, now, before, after)):
        raise refusal.fail(f"{now}, which is not between {before} and {after}")
    refusal.goes_on_alike()


def has_a_step(refusal: Refusal) -> None:
    """A world is as before, or as once its copy has taken in some of the operations, one by one."""
    shown = [
        part.said
        for case in cases()
        if re.fullmatch(r"world\.step_by_step\.([6-9]|10)", case.name)
        for part in refusal.program.run(case.script(False)).parts
        if part.line == "show"
    ]
    states = refusal.before() + [line for said in shown for line in said]
    now = refusal.now()
    if len(now) != 1 or not any(is_as_before(now[0], state) for state in states):
        raise refusal.fail(f"a world that no publish of single operations comes to: {now}")
    refusal.goes_on_alike()


# How a script may end. A text in memory can't be written if memory for it is refused.
ENDS = {"run_script": ("Err(OutOfMemory)",), "answer_script": ("Err(OutOfMemory)", "Err(Write)")}


def replies_before(refusal: Refusal) -> list[str] | None:
    """The replies that a script has written whose request was refused; none if it did without it, or couldn't write them."""
    head = refusal.run.lines()[: -len(refusal.whole.lines())]
    if not head or head[0] == "Err(Write)":
        return None
    return head[2 if refusal.case.kind == "program" else 1 :]


def wrote_a_beginning(refusal: Refusal) -> None:
    """A script answers that memory was refused, after the replies to some lines; then it runs anew."""
    found, wanted = refusal.run.lines(), refusal.whole.lines()
    rest = found[len(found) - len(wanted) :]
    head = found[: len(found) - len(wanted)]
    if rest != wanted or not head or head[0] not in ENDS[refusal.case.kind] or head[1:] != wanted[1 : len(head)]:
        raise refusal.fail(f"{head} is not the replies to the lines before, or it runs otherwise then")


def have_all_replies_before(refusals: list[Refusal]) -> None:
    """No request leaves fewer replies than an earlier one, and some request leaves each number of them."""
    most, seen = 0, set()
    for refusal in refusals:
        if (replies := replies_before(refusal)) is not None:
            if len(replies) < most:
                raise refusal.fail(f"{len(replies)} replies, and {most} at an earlier request")
            most = len(replies)
            seen.add(most)
    if missed := set(range(len(refusals[0].whole.lines()) - 1)) - seen:
        raise refusals[-1].fail(f"no request was refused behind {sorted(missed)} replies")


def read_a_beginning(refusal: Refusal) -> None:
    """A reader of lines answers so behind the lines before; then they are read anew."""
    found, wanted = refusal.run.lines(), refusal.whole.lines()
    number = int(refusal.case.first)
    head = [*wanted[: max(number - 1, 0)], "Err(OutOfMemory)"]
    if found != head + wanted:
        raise refusal.fail(f"{found} is not the lines before, and then all of them")


def ended_rightly(refusal: Refusal) -> None:
    """The program ends with 2 if the command line was refused memory, and with 5 if its script was."""
    of_words = refusal.program.run(Case("", "arguments", "script").script(False)).requests
    found, wanted = refusal.run.lines(), refusal.whole.lines()
    if found == wanted:
        return goes_on_without(refusal)
    rest = found[len(found) - len(wanted) :]
    status, fault, *written = found[: len(found) - len(wanted)]
    if refusal.number <= of_words:
        if (status, fault, written) != ("status 2", "error: out of memory", []):
            raise refusal.fail(f"a refused command line ends with {status}, {fault}, {written}")
    elif (status, fault) != ("status 5", "batchctl: out of memory") or written != wanted[1 : 1 + len(written)]:
        raise refusal.fail(f"it ends with {status}, {fault}, and {written}, which is not the replies to the lines before")
    if rest != wanted:
        raise refusal.fail("it runs otherwise then")


def is_added_again(refusal: Refusal) -> None:
    """Rows are as before the call, and then as in the whole run."""
    found, wanted = refusal.run.parts[1].said, list(refusal.whole.parts[1].said)
    place = next(number for number, line in enumerate(wanted) if line.startswith("Ok("))
    before = wanted[:place]
    if not are_as_before(found, [*before, "Err(OutOfMemory)", *before, *wanted[place:]]):
        raise refusal.fail(f"it left {found}, and not {wanted}")


def is_stored_again(refusal: Refusal) -> None:
    """A checkpoint stays as it was, and is stored by the next call."""
    found, wanted = refusal.run.parts[1].said, list(refusal.whole.parts[1].said)
    anew = refusal.case.line.endswith("11")
    shown = 2 if anew else 1
    before, size = wanted[:shown], len(wanted)
    if found[:shown] != tuple(before) or found[shown] != "Err(OutOfMemory)":
        raise refusal.fail(f"it left {found}")
    if found[shown + 1] != before[-1] or list(found[shown + 2 :]) != wanted[shown + 2 : size]:
        raise refusal.fail(f"it left {found}, and not {wanted}")


def is_added_to_the_kit_again(refusal: Refusal) -> None:
    """A kit takes the artifact then, and runs it."""
    if refusal.run.parts[1].said != ("Err(OutOfMemory)", *refusal.whole.parts[1].said):
        raise refusal.fail(f"it left {refusal.run.parts[1].said}")


def reports_in(lines: Iterable[str]) -> list[str]:
    return [line for line in lines if line.startswith(("Checkpoint", "Finish"))]


def failed_finish(rolled_back: int) -> str:
    """The report of a work item whose artifact faulted."""
    counts = "read_count: 0, write_count: 0, commit_count: 0, rollback_count: {}, read_skip_count: 0"
    others = "process_skip_count: 0, filter_count: 0, write_skip_count: 0"
    step = f"MetricStep {{ {counts.format(rolled_back)}, {others} }}"
    return f"Finish {{ work: WorkId {{ number: 1 }}, outcome: Failed, exit: None, step: {step}, at: 0 }}"


def reported_a_beginning(refusal: Refusal) -> None:
    """Some groups were reported and no more, and nothing was lost."""
    head, losses, *found = refusal.answer().said
    wanted = reports_in(refusal.whole.parts[1].said)
    if (head, losses) != ("Err(OutOfMemory)", "0 losses") or len(found) >= len(wanted) or found != wanted[: len(found)]:
        raise refusal.fail(f"it went on to {refusal.answer().said}")
    if refusal.run.parts[2:] != refusal.whole.parts[1:]:
        raise refusal.fail(f"it runs otherwise then: {refusal.run.parts[2:]}")


def reported_a_beginning_or_failed(refusal: Refusal) -> None:
    """Some groups were reported and no more, or the work item is FAILED since an artifact was refused memory."""
    if refusal.is_refused():
        return reported_a_beginning(refusal)
    said, whole = refusal.answer().said, refusal.whole.parts[1].said
    found, wanted = reports_in(said), reports_in(whole)
    if refusal.run.parts[2:] != refusal.whole.parts[1:]:
        raise refusal.fail(f"it runs otherwise then: {refusal.run.parts[2:]}")
    groups = len(found) - 1
    ends = {failed_finish(0), failed_finish(1)} if groups == 0 else {failed_finish(1)}
    if said[:2] != ("Ok(Failed)", "0 losses") or found[:-1] != wanted[:groups] or found[-1] not in ends:
        raise refusal.fail(f"it went on to {said}")


def were_refused_in_each_group(refusals: list[Refusal]) -> None:
    """Ahead of each group's report some request was refused to the worker itself, which said so."""
    seen = {len(reports_in(refusal.answer().said)) for refusal in refusals if refusal.is_refused()}
    groups = [report for report in reports_in(refusals[0].whole.parts[1].said) if report.startswith("Checkpoint")]
    if missed := set(range(len(groups))) - seen:
        raise refusals[-1].fail(f"the worker was refused no request behind {sorted(missed)} reports")


def gave_up_its_work(refusal: Refusal) -> None:
    """A worker gives up a work item that it has claimed, once; nothing else is reported."""
    if refusal.answer().said != ("Err(OutOfMemory)", "1 losses") or refusal.run.parts[2:] != refusal.whole.parts[1:]:
        raise refusal.fail(f"it left {refusal.run.parts[1:]}")


def counts(**some: int) -> str:
    names = ("starting", "started", "stopping", "stopped", "failed", "completed", "abandoned")
    told = ", ".join(f"{name}: {some.get(name, 0)}" for name in names)
    return f"Ok(StatusCounts(CountsByStatus {{ {told} }}))"


def left_to_the_next_pool(refusal: Refusal) -> None:
    """A pool has claimed nothing, or has lost or finished its work item. The next one runs what is left, and the new job."""
    said = refusal.once().lines()
    ways = [
        ["Err(OutOfMemory)", counts(starting=1), "Ok(PoolReport { items: 2, gave_up: 0 })", counts(completed=2)],
        ["Err(OutOfMemory)", counts(failed=1), "Ok(PoolReport { items: 1, gave_up: 0 })", counts(failed=1, completed=1)],
        ["Err(OutOfMemory)", counts(completed=1), "Ok(PoolReport { items: 1, gave_up: 0 })", counts(completed=2)],
    ]
    if said not in ways:
        raise refusal.fail(f"it left {said}")


# Cases of which more is allowed than that all is left, with the reason.
EXCEPTIONS: list[tuple[str, Callable[[Refusal], None]]] = [
    # Nothing can be read of an object that was not made.
    (r"\w+\.\w+\.new|events\.\w+", is_made_again),
    # A publish takes in one operation after the other, and keeps what it took in.
    (r"operator\.three_starts\.4|operator\.copies\.5|copies\.lagging\.(4|5|6|13|14|15|21|24)", has_a_beginning),
    (r"world\.at_once\.6", has_a_step),
    # A script writes the replies to its lines as it goes, and a reader of lines that failed reads no more.
    (r"run_script|answer_script", wrote_a_beginning),
    (r"lines\.\d+", read_a_beginning),
    (r"program", ended_rightly),
    # These cases show what can be read, and make the call again, of their own.
    (r"rows\.add_\w+", is_added_again),
    (r"rows\.set_checkpoint.*", is_stored_again),
    (r"workers\.kit\.add.*", is_added_to_the_kit_again),
    # Each report of a work item is an operation of its own. A built-in artifact that is refused memory faults; those of the
    # others take none.
    (r"workers\.run_\w+\.chunk", reported_a_beginning_or_failed),
    (r"workers\.run_\w+\.\w+", reported_a_beginning),
    (r"workers\.worker\..*", gave_up_its_work),
    (r"pool", left_to_the_next_pool),
]

# Rules of cases whose script makes the call again by itself, or begins anew.
OF_ONE_CALL = (
    *(is_made_again, wrote_a_beginning, read_a_beginning, ended_rightly, is_added_again, is_stored_again),
    *(is_added_to_the_kit_again, left_to_the_next_pool),
)

# What must be so of all requests of a call together, by the rule of each.
OF_ALL_REQUESTS: dict[Callable[[Refusal], None], Callable[[list[Refusal]], None]] = {
    wrote_a_beginning: have_all_replies_before,
    ended_rightly: have_all_replies_before,
    reported_a_beginning: were_refused_in_each_group,
    reported_a_beginning_or_failed: were_refused_in_each_group,
}

# Rules that see for themselves what a call answered.
OF_ANY_ANSWER = (reported_a_beginning, reported_a_beginning_or_failed, ended_rightly)

# Calls that collect a list: it asks for room for all at once, or else grows as it is filled. So do ranks in the search for a
# job's loops, and what clap says of an unknown command.
COLLECTS = r"jobs\.\w+|readings\.read_catalogue\.\d+|arguments\.walk"

# Calls that do without some requests, with the reason.
SWALLOWED = [
    # A repository gives up its lists of unfinished job executions, and goes over all rows from then on; or it doesn't keep a
    # walk, and walks anew the next time.
    r"(full_)?(book|repository|desk|preview)\.\w+\.\d+|(operator|world|copies|states)\.\w+\.\d+",
    r"events\.\w+|rows\.add_(instance|execution)",
    # A script, a program and a pool have a repository.
    r"run_script|answer_script|program|pool",
    COLLECTS,
]

# Cases that show all of their object, so that what it gave up can be seen.
SHOWS_ALL = r"(full_)?(book|repository|preview)\.|world\.|states\.entered\.|rows\."

# A publish of several operations may give a walk up behind one, and ask for it once more behind a later one.
GIVES_UP_FOR_A_WHILE = r"world\.at_once\.6"

# Calls that are made once. If one did without a request, the line that makes it again finds no operation, and the program ends.
MADE_ONCE = r"states\.\w+\.\d+"


def goes_on_without(refusal: Refusal) -> None:
    """The call does without a request: its answer and all later ones are as in the whole run."""
    name = refusal.case.name
    if not any(re.fullmatch(pattern, name) for pattern in SWALLOWED):
        raise refusal.fail(f"the call doesn't say that it was refused memory: {refusal.answer()}")
    run, wanted = refusal.once(), refusal.whole.lines()
    found = run.lines()
    if len(found) != len(wanted) or not all(tells_the_same(now, without_lists(line, now)) for now, line in zip(found, wanted)):
        raise refusal.fail("the call goes on without a request, and otherwise")
    asks_for_more = run.requests > refusal.whole.requests
    if re.match(SHOWS_ALL, name) and found == wanted and not (re.fullmatch(GIVES_UP_FOR_A_WHILE, name) and asks_for_more):
        raise refusal.fail("the call doesn't say that it was refused memory, and gave up nothing")
    if re.match(COLLECTS, name) and not asks_for_more:
        raise refusal.fail("the call doesn't say that it was refused memory, and asked for no more instead")


def rule_of(case: Case) -> Callable[[Refusal], None]:
    return next((rule for pattern, rule in EXCEPTIONS if re.fullmatch(pattern, case.name)), leaves_all)


def judge(refusal: Refusal) -> bool:
    """Says whether the call did without the request, if the run is as it may be."""
    run, rule = refusal.run, rule_of(refusal.case)
    is_done = re.fullmatch(MADE_ONCE, refusal.case.name) and not refusal.is_refused()
    if not is_done and (run.status != 0 or run.faults):
        raise refusal.fail(f"status {run.status}, {run.faults!r}")
    if run.requests < refusal.number:
        raise refusal.fail(f"there were {run.requests} requests")
    if rule in OF_ANY_ANSWER or refusal.is_refused():
        rule(refusal)
        return run.lines() == refusal.whole.lines()
    goes_on_without(refusal)
    return True
