"""The ways of a list of elements, for the words of a loop: batchctl says that a job has one, and here is which."""

from __future__ import annotations

from job_host.catalogue.text import Member
from job_host.catalogue.tree import Element, Job, Listing, listings_of

# The elements of a way, each with the member that leads on.
Way = list[tuple[Element, Member]]


def loop_in(job: Job) -> Way:
    """The elements of a way that leads round in a list of the job. Empty if there is none."""
    return next(filter(None, map(cycle_in, listings_of(job))), [])


def arcs_of(listing: Listing) -> dict[int, Way]:
    """Where each element of a list leads, by its number: the first element of that id, and the member that names it."""
    by_id = listing.ids
    return {
        element.number: [
            (by_id[target.value.held], target)
            for target in element.targets()
            if isinstance(target.value.held, str) and target.value.held in by_id
        ]
        for element in listing.elements
    }


def cycle_in(listing: Listing) -> Way:
    arcs = arcs_of(listing)
    done = set[int]()
    for element in listing.elements:
        found = cycle_from(element, arcs, done)
        if found:
            return found
    return []


def cycle_from(start: Element, arcs: dict[int, Way], done: set[int]) -> Way:
    """Looks depth first, without recursion: a list may have a thousand elements. `done` has those that lead nowhere round."""
    way: Way = []
    on_way = {start.number: 0}
    waiting = [(start, iter(arcs[start.number]))]
    while waiting:
        element, leads = waiting[-1]
        target, member = next(leads, (None, None))
        if target is None or member is None:
            waiting.pop()
            on_way.pop(element.number, None)
            done.add(element.number)
            del way[-1:]
        elif target.number in on_way:
            return [*way[on_way[target.number] :], (element, member)]
        elif target.number not in done:
            way.append((element, member))
            on_way[target.number] = len(way)
            waiting.append((target, iter(arcs[target.number])))
    return []
