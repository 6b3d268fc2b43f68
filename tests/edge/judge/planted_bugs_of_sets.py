"""Bugs that are planted in long histories of a set: how many operations judge lists of each.

A history has 4,000 calls on 100 elements, 16 of them at once, of which two in a hundred are pending. Each call takes effect at a moment that
is drawn, on a set that is right except for one call. The bug counts where a second look, at the calls on its element alone, shows that no order
is valid."""
import random

from ..brute_force import has_order
from ..running import at_once
from ..text_writers import info, invoke, lines, ok
from ..verify.reasons import explained_in, why_not_explained
from ..worked_rows import HISTORY

CALLS, ELEMENTS, CLIENTS = 4000, 100, 16
# How many histories there are of each bug, how many operations a reason is to list at most, and for what share of the histories.
OF_EACH, MOST_OPERATIONS, LEAST_SHARE = 67, 4, 0.95
BUGS = ("an addition is lost", "an element is added twice", "an older state is seen")


def replied(f, is_there):
    return is_there != (f == "add")


class BuggySet:
    """A set in which one call, of those of a bug's function, goes wrong."""

    def __init__(self, rng, bug):
        self.rng, self.bug, self.content, self.left, self.element = rng, bug, {}, rng.randrange(20, 150), None

    def is_due(self, applies):
        """Whether the bug is to happen now: once, after some calls to which it applies."""
        self.left -= applies
        return applies and self.left == 0

    def done(self, f, element):
        """What the set replies."""
        is_there, before = self.content.get(element, (False, False))
        applies = {"an addition is lost": f == "add" and not is_there, "an element is added twice": f == "add" and is_there}
        if self.is_due(applies.get(self.bug, f == "contains" and is_there != before)):
            self.element = element
            # A lost addition replies as if it had taken place; of a contains the state before the last change is the reply.
            return True if f == "add" else before
        if f != "contains" and is_there == (f == "remove"):
            self.content[element] = (f == "add", is_there)
        return replied(f, is_there)


def history_of(bug, seed):
    """The events of a history with a bug, and the element of the bug."""
    rng = random.Random(f"{bug} {seed}")
    at, names, running, events, begun = BuggySet(rng, bug), list(range(CLIENTS)), {}, [], 0
    while begun < CALLS or running:
        place = rng.randrange(CLIENTS)
        process = names[place]
        if process not in running:
            if begun < CALLS:
                begun += 1
                running[process] = [rng.choice(("add", "remove", "contains")), rng.randrange(ELEMENTS), None]
                events.append((process, "invoke", *running[process][:2]))
        elif running[process][2] is None:
            running[process][2] = at.done(*running[process][:2])
        else:
            f, element, reply = running.pop(process)
            is_pending = rng.random() < 0.02
            events.append((process, "info", f, element) if is_pending else (process, "ok", f, reply))
            if is_pending:
                names[place] = max(names) + 1
    return events, at.element


def calls_on(events, element):
    """The events of the calls on one element."""
    of, kept = {}, []
    for process, kind, f, value in events:
        if kind == "invoke":
            of[process] = value
        if of[process] == element:
            kept.append((process, kind, f, value))
    return kept


def text_of(events):
    write = {"invoke": invoke, "ok": ok, "info": info}
    return lines(*[write[kind](process, f, value, 0) for process, kind, f, value in events])


def bugs_of_sets(program, report):
    """judge shows nearly each bug by a few operations, and every reason is valid."""
    for bug in BUGS:
        shown, counted = 0, 0
        drawn = [history_of(bug, seed) for seed in range(OF_EACH)]
        bad = [events for events, element in drawn if not has_order(calls_on(events, element))]
        texts = [text_of(events) for events in bad]
        runs = at_once(lambda number: program.run("judge", program.write(f"{number}.{HISTORY}", texts[number])), range(len(texts)))  # noqa: B023
        for text, ran in zip(texts, runs):
            report.equal(f"judge: {bug}: why", None, why_not_explained(program, text, ran), ran)
            explained, _ = explained_in(ran.out)
            counted += 1
            shown += len(explained) == 1 and len(explained[0][1]) <= MOST_OPERATIONS
        name = f"judge: {bug}: of {counted} bugs {shown} are shown by {MOST_OPERATIONS} operations"
        report.holds(name, counted > 20 and shown >= LEAST_SHARE * counted)


PARTS = (bugs_of_sets,)
