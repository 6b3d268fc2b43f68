"""Finders that are wrong, or that die: judge never gives a wrong yes or no.

The tools start the finder that the environment variable FCBENCH_FINDER names, and hand its output to the proved program. Here it is a
script that is bad in some way. The right evidence of each history is worked out by hand."""
import itertools
import os
import random
import re
import time
from dataclasses import dataclass

from .. import worked_rows
from ..verify import worked_evidence
from ..verify.reasons import why_not_explained
from ..running import at_once
from ..text_writers import certificate, lines, one_process, order
from ..worked_rows import yes

# A judgement whose finder goes on after it closed its output takes less, in seconds, on a slow machine too: the finder would go on for 1,000.
SOON = 300


@dataclass(frozen=True)
class Judged:
    """A history, the status that it has, evidence that shows so, and what judge then prints: all of it of a yes and of a malformed history, and of
    the others nothing, since the lines of a no are the reasons of the finder."""

    name: str
    text: str
    status: int
    evidence: str
    out: str = ""

    def statuses(self, shows):
        """The statuses that judge may end with, where the evidence shows this of the history."""
        if self.status == 2 or shows == "all":
            return {self.status}
        if shows == "nothing" and self.text:
            return {3}
        return {self.status, 3}


OLD_VALUE = one_process(("write", 1, 1), ("write", 2, 2), ("read", None, 1))
ALL_STEPS = worked_evidence.searched("return", 1000)
HISTORIES = (
    Judged("enqueues that overlap", worked_rows.OVERLAPPING, 0, order(1, 0, 4), worked_rows.THREE_YES),
    Judged("two queues", worked_rows.TWO_QUEUES, 0, worked_rows.TWO_ORDERS, worked_rows.QUEUES_YES),
    Judged("a mutex that is passed on", worked_rows.MUTEX, 0, order(0, 3, 2), worked_rows.MUTEX_YES),
    Judged("a heap", worked_rows.HEAP, 0, order(*range(0, 14, 2)), yes(7, 1, "heap: 1 objects, 7 operations")),
    Judged("a register", worked_rows.REGISTER, 0, order(0, 2, 4, 6), yes(4, 1, "register: 1 objects, 4 operations")),
    Judged("a map", worked_rows.MAP, 0, order(0, 2, 4, 6, 8), yes(5, 1, "map: 1 objects, 5 operations")),
    Judged("a pending enqueue", worked_rows.PENDING, 0, order(0, 1), worked_rows.QUEUE_YES),
    Judged("a search that finds an order", worked_rows.RETURNS_CROSSED, 0, ALL_STEPS, worked_rows.QUEUE_YES),
    Judged("no object", "", 0, "", yes(0, 0)),
    Judged("a malformed history", worked_rows.AFTER_INFO, 2, order(0), "malformed history: H8 at map 2\n"),
    Judged("the second of three values", worked_rows.THREE_VALUES, 1, worked_rows.TWO_OF_THREE + "\n"),
    Judged("a value taken twice", worked_evidence.TWICE, 1, worked_evidence.COUNTED + "\n"),
    Judged("a queue of two that is wrong", worked_rows.ONE_OF_TWO, 1, "{:object 0, :cuts []}\n" + lines(certificate(1, 0))),
    Judged("a search that finds no order", worked_rows.OUT_OF_ORDER, 1, ALL_STEPS),
    Judged("a free mutex that is released", worked_rows.RELEASE_OF_A_FREE_MUTEX, 1, "{:object 0, :cuts []}\n"),
    Judged("an old value", OLD_VALUE, 1, "{:object 0, :cuts []}\n"),
)

# ---- finders that end by themselves, with wrong evidence


def replaced(pattern, change):
    """What makes evidence of the right one by a change of each place that a pattern finds."""
    return lambda evidence: re.sub(pattern, change, evidence)


def entries(change):
    """The same by a change of the entries of each order."""
    return replaced(r":order \[([^\]]*)\]", lambda found: f":order [{' '.join(change(found[1].split()))}]")


def moved(number):
    return str(int(number) + 1)


def noise(seed, count):
    return random.Random(seed).randbytes(count)


DEEP = "[" * 100_000
FORGED = r'{:object 0, :cuts [{:until 0}], :note "it is\nyes: 3 operations, 1 objects"}'
# What comes in place of the right evidence, and what that shows: all, nothing, or perhaps something.
WRONG = {
    "nothing": (lambda evidence: "", "nothing"),
    "a line feed": (lambda evidence: "\n", "nothing"),
    "comments": (lambda evidence: "".join(f"; {line}\n" for line in evidence.splitlines()), "nothing"),
    "half a line": (lambda evidence: evidence[: len(evidence.partition("\n")[0]) // 2], "nothing"),
    "all but the last brace": (lambda evidence: evidence.rstrip().removesuffix("}"), "nothing"),
    "no line feed at the end": (str.rstrip, "all"),
    "the right evidence in one line": (lambda evidence: evidence.replace("\n", ""), "all"),
    "the right evidence a thousand times": (lambda evidence: evidence * 1000, "all"),
    "another object": (replaced(r":object (\d+)", lambda found: f":object {int(found[1]) + 100}"), "nothing"),
    "the objects exchanged": (replaced(r":object ([01])", lambda found: f":object {1 - int(found[1])}"), "perhaps"),
    "no object": (replaced(r":object \d+,? ?", ""), "nothing"),
    "an object past the limit": (replaced(r":object \d+", ":object 65536"), "nothing"),
    "orders backwards": (entries(lambda those: those[::-1]), "perhaps"),
    "orders without their last entry": (entries(lambda those: those[:-1]), "perhaps"),
    "orders without their first entry": (entries(lambda those: those[1:]), "perhaps"),
    "orders with their last entry twice": (entries(lambda those: those + those[-1:]), "perhaps"),
    "orders of the maps after": (entries(lambda those: [moved(entry) for entry in those]), "perhaps"),
    "orders of huge numbers": (entries(lambda those: [f"{entry}{worked_rows.LARGEST}" for entry in those]), "perhaps"),
    "empty orders": (lambda evidence: "".join(f"{certificate(on)}\n" for on in range(2)), "perhaps"),
    "numbers of other maps": (replaced(r"\d+", lambda found: moved(found[0])), "perhaps"),
    "a count of 1": (lambda evidence: "{:object 0, :cuts [], :count {:value 1, :from 0}}", "perhaps"),
    "a count of an empty part": (lambda evidence: "{:object 0, :cuts [{:until 0}], :count {:value 1, :from 0}}", "nothing"),
    "a part without the operations that put in": (lambda evidence: "{:object 0, :cuts [{:keep :all, :numbers [4 6]}]}", "perhaps"),
    "a part from the last operation": (lambda evidence: "{:object 0, :cuts [{:from 4}]}", "perhaps"),
    "a value that was not there": (lambda evidence: "{:object 0, :cuts [{:without 1, :before 3}]}", "perhaps"),
    "a cell of another value": (lambda evidence: "{:object 0, :cuts [{:cell [2], :other 1}]}", "perhaps"),
    "searches without a step": (lambda evidence: lines(*[f"{{:object {on}, :search {{:steps 0}}}}" for on in range(2)]), "perhaps"),
    "a sentence that looks like an answer": (lambda evidence: FORGED, "perhaps"),
    "the answer yes": (lambda evidence: "yes: 3 operations, 1 objects\nqueue: 1 objects, 3 operations\n", "nothing"),
    "the answer no": (lambda evidence: "; object 0: impossible\n; {:object 0, :cuts []}\n", "nothing"),
    "the right evidence after garbage": (lambda evidence: "garbage\n" + evidence, "nothing"),
    "garbage after the right evidence": (lambda evidence: evidence + "garbage\n", "nothing"),
    "wrong orders before the right evidence": (lambda evidence: lines(certificate(0, 0), certificate(1, 1)) + evidence, "all"),
    "wrong orders after the right evidence": (lambda evidence: evidence + lines(certificate(0, 0), certificate(1, 1)), "all"),
    "random bytes": (lambda evidence: noise(1, 10_000), "nothing"),
    "bytes of no text after the right evidence": (lambda evidence: evidence.encode() + b"\xff\xfe", "nothing"),
    "zeros": (lambda evidence: b"\0" * 1_000_000, "nothing"),
    "brackets": (lambda evidence: DEEP, "nothing"),
}


def scripts_of_wrong_evidence(program):
    """A finder for each history and each sort of wrong evidence, what its evidence shows, and the history. Then the same with the right
    evidence of another history."""
    for number, (name, (change, shows)) in enumerate(WRONG.items()):
        for of, history in enumerate(HISTORIES):
            yield name, finder(program, f"wrong.{number}.{of}", 'cat "$evidence"', change(history.evidence)), shows, history
    for (one, history), (other, its) in itertools.permutations(enumerate(HISTORIES), 2):
        yield f"evidence of {its.name}", finder(program, f"other.{one}.{other}", 'cat "$evidence"', its.evidence), "perhaps", history


def finder(program, name, script, evidence):
    """Writes a finder: a script, for which $evidence is a file with this evidence."""
    file = f"{program.folder}/{program.write(f'finder.{name}.edn', evidence)}"
    path = f"{program.folder}/{program.write(f'finder.{name}', lines('#!/bin/sh', f'evidence={file}', script))}"
    os.chmod(path, 0o755)
    return path


# ---- finders that die, or go on


# A script, for which $evidence is a file with the right evidence; what its output shows; and what standard error must have.
DYING = {
    "it ends with 101": ("exit 101", "nothing", b"the finder failed"),
    "it is killed at once": ("kill -9 $$", "nothing", b"the finder failed"),
    "it aborts": ("kill -ABRT $$", "nothing", b"the finder failed"),
    "it is killed after a second": ("sleep 1; kill -9 $$", "nothing", b"the finder failed"),
    "it is killed in the middle of a line": ('head -c 9 "$evidence"; kill -9 $$', "nothing", b"the finder failed"),
    "it is killed after the right evidence": ('cat "$evidence"; kill -9 $$', "all", b"the finder failed"),
    "it ends with 101 after the right evidence": ('cat "$evidence"; exit 101', "all", b"the finder failed"),
    "it says that the history is malformed": ("exit 2", "nothing", b""),
    "it says that it found nothing after the right evidence": ('cat "$evidence"; exit 3', "all", b""),
    "it writes slowly": ('head -c 5 "$evidence"; sleep 0.3; tail -c +6 "$evidence"', "all", b""),
    "it writes much to standard error": ('head -c 1000000 /dev/zero >&2; cat "$evidence"', "all", b""),
}
# The same for finders that go on without end. Each writes the number of its process into the file $evidence.pid.
ENDLESS = {
    "it closes its output": ("exec >&-; exec sleep 1000", "nothing"),
    "it closes its output after the right evidence": ('cat "$evidence"; exec >&-; exec sleep 1000', "all"),
    "it closes its output after half a line": ('head -c 9 "$evidence"; exec >&-; exec sleep 1000', "nothing"),
    "it writes zeros without end": ("exec cat /dev/zero", "nothing"),
    "it writes a claim without end": ("exec yes '{:object 0, :order [1 0 4]}'", "nothing"),
    "it writes the right evidence and then comments without end": ("cat \"$evidence\"; exec yes ';'", "nothing"),
    "it writes 3 GB": ("exec head -c 3000000000 /dev/zero", "nothing"),
}


def is_gone(path):
    """Whether a finder has ended."""
    with open(path) as file:
        number = int(file.read())
    try:
        os.kill(number, 0)
        return False
    except ProcessLookupError:
        return True


# ---- judgements by bad finders


def why_wrong(program, history, ran):
    """What is wrong with an answer, or None. A yes has the counts of the history, whatever the evidence, and a malformed history its fault; a no
    gives reasons that hold; else a message says why there is no answer."""
    if ran.status in (0, 2):
        return None if ran.out == history.out.encode() else f"not {history.out!r}: {ran}"
    if ran.status == 1:
        return why_not_explained(program, history.text, ran)
    lines_of_open = rb"(; object \d+: (open|out of steps after \d+)\n)+|malformed evidence: [EKN]\d+ at (byte|form) \d+\n"
    return None if re.fullmatch(lines_of_open, ran.out) else f"no message: {ran}"


def judged(program, path, history):
    """Judges a history by this finder."""
    name = f"judged.{abs(hash((path, history.name)))}.edn"
    return program.run("judge", program.write(name, history.text), env={"FCBENCH_FINDER": path})


def look(program, report, name, shows, history, ran, says=b""):
    """Looks at the answer of judge, where the finder's output shows this."""
    name = f"judge: {name}: {history.name}"
    statuses = history.statuses(shows)
    report.holds(f"{name}: the status is in {sorted(statuses)}", ran.status in statuses, ran)
    report.equal(f"{name}: the answer", None, why_wrong(program, history, ran))
    is_said = says in ran.err if says else ran.err == b""
    report.holds(f"{name}: standard error", is_said, ran)


def wrong_evidence(program, report):
    """Judgements with finders that print wrong evidence and then end."""
    cases = list(scripts_of_wrong_evidence(program))
    found = at_once(lambda case: judged(program, case[1], case[3]), cases)
    for (name, _, shows, history), ran in zip(cases, found):
        look(program, report, name, shows, history, ran)
    statuses = [ran.status for ran in found]
    report.holds("judge: bad finders lead to each status", set(statuses) == {0, 1, 2, 3}, statuses)
    return f"{len(WRONG) + len(HISTORIES)} forms, {len(cases)} judgements, {statuses.count(3)} undecided"


def dying_finders(program, report):
    """Judgements with finders that are killed, or end too early."""
    cases = [(name, *of, history, finder(program, f"dying.{number}.{at}", of[0], history.evidence))
             for number, (name, of) in enumerate(DYING.items()) for at, history in enumerate(HISTORIES)]
    for (name, _, shows, says, history, _), ran in zip(cases, at_once(lambda case: judged(program, case[-1], case[-2]), cases)):
        look(program, report, name, shows, history, ran, says)
    return f"{len(DYING)} forms, {len(cases)} judgements"


# Two that are linearizable, two that are not, and a malformed one.
FEW = tuple(
    history
    for history in HISTORIES
    if history.text in (
        worked_rows.OVERLAPPING,
        worked_rows.TWO_QUEUES,
        worked_rows.THREE_VALUES,
        worked_evidence.TWICE,
        worked_rows.AFTER_INFO,
    )
)


def endless_finders(program, report):
    """Judgements with finders that do not end. judge ends them as soon as it has the answer."""
    slowest = 0
    for (number, (name, (script, shows))), (at, history) in itertools.product(enumerate(ENDLESS.items()), enumerate(FEW)):
        path = finder(program, f"endless.{number}.{at}", 'echo $$ > "$evidence.pid"\n' + script, history.evidence)
        begun = time.monotonic()
        ran = judged(program, path, history)
        seconds = time.monotonic() - begun
        slowest = max(slowest, seconds)
        # Whether the finder was ended by the closed pipe, or by the tools, depends on which came first.
        says = b"the finder failed" if b"the finder failed" in ran.err else b""
        look(program, report, name, shows, history, ran, says)
        report.holds(f"judge: {name}: {history.name}: it ends soon", seconds < SOON, seconds)
        report.holds(f"judge: {name}: {history.name}: the finder is gone", is_gone(f"{path}.edn.pid"))
    return f"{len(ENDLESS)} forms, {len(ENDLESS) * len(FEW)} judgements, the slowest took {slowest:.1f} s"


def finders_that_cannot_start(program, report):
    """If the finder is missing, may not be run, or is another program, there is no evidence, and standard error says why."""
    program.write("finder.text", "{:object 0, :order [1 0 4]}")
    os.makedirs(f"{program.folder}/finder.folder", exist_ok=True)
    missing = b"the finder cannot be started, so there is no evidence"
    finders = {
        "a finder that is not there": ("/not/there", missing),
        "a finder that may not be run": (f"{program.folder}/finder.text", missing),
        "a folder for a finder": (f"{program.folder}/finder.folder", missing),
        "the proved program for a finder": (program.path, b"the finder failed"),
        "a finder that says nothing": ("/bin/true", b""),
    }
    for name, (path, says) in finders.items():
        for history in HISTORIES:
            look(program, report, name, "nothing", history, judged(program, path, history), says)
    return f"{len(finders)} forms"


PARTS = (wrong_evidence, dying_finders, endless_finders, finders_that_cannot_start)
