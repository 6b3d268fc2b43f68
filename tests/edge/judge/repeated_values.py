"""Histories in which values repeat, or that need a pending call: an order is found of each alone, and after more calls than a search
takes."""
import json
import os
import subprocess
import sys

from .. import brute_force
from .long_histories import IDLE, PAIRS
from ..verify.reasons import maps_of, value_of
from ..worked_rows import HISTORY
from ..running import ROOT
from ..text_writers import invoke, lines, ok
from ..timing import least_seconds

# Queues, stacks and heaps that have an order, and why it is not easily found.
VALUES = (
    (
        "stack",
        "each pending pop takes what has to be gone next",
        lines(
            invoke(0, "push", 1),
            ok(0, "push", 1),
            invoke(0, "push", 2),
            ok(0, "push", 2),
            invoke(0, "push", 3),
            ok(0, "push", 3),
            invoke(0, "push", 4),
            ok(0, "push", 4),
            invoke(1, "pop"),
            invoke(0, "pop"),
            ok(0, "pop", 3),
            invoke(2, "pop"),
            invoke(0, "pop"),
            ok(0, "pop", 1),
        ),
    ),
    (
        "heap",
        "each pending extract takes what has to be gone next",
        lines(
            invoke(0, "insert", 100),
            ok(0, "insert", 100),
            invoke(0, "insert", 1),
            ok(0, "insert", 1),
            invoke(0, "insert", 50),
            ok(0, "insert", 50),
            invoke(0, "insert", 200),
            ok(0, "insert", 200),
            invoke(1, "extract-min"),
            invoke(0, "extract-min"),
            ok(0, "extract-min", 50),
            invoke(2, "extract-min"),
            invoke(0, "extract-min"),
            ok(0, "extract-min", 200),
        ),
    ),
    (
        "queue",
        "a pending dequeue takes a value before the queue is found empty",
        lines(
            invoke(0, "enqueue", 1),
            ok(0, "enqueue", 1),
            invoke(1, "dequeue"),
            invoke(2, "enqueue", 2),
            ok(2, "enqueue", 2),
            invoke(3, "dequeue"),
            invoke(0, "dequeue"),
            ok(0, "dequeue", 1),
            ok(1, "dequeue"),
        ),
    ),
    (
        "heap",
        "an insert that runs all the time comes after an equal one",
        lines(
            invoke(0, "insert", 5),
            invoke(1, "insert", 5),
            ok(1, "insert", 5),
            invoke(1, "insert", 9),
            ok(1, "insert", 9),
            invoke(1, "extract-min"),
            ok(1, "extract-min", 5),
            invoke(1, "extract-min"),
            ok(1, "extract-min", 9),
            invoke(1, "extract-min"),
            ok(1, "extract-min", 5),
            ok(0, "insert", 5),
        ),
    ),
    (
        "queue",
        "an enqueue that runs all the time comes after an equal one",
        lines(
            invoke(0, "enqueue", 5),
            invoke(1, "enqueue", 5),
            ok(1, "enqueue", 5),
            invoke(1, "enqueue", 9),
            ok(1, "enqueue", 9),
            invoke(1, "dequeue"),
            ok(1, "dequeue", 5),
            invoke(1, "dequeue"),
            ok(1, "dequeue", 9),
            invoke(1, "dequeue"),
            ok(1, "dequeue", 5),
            ok(0, "enqueue", 5),
        ),
    ),
    (
        "stack",
        "a pop takes the value whose push runs, since an equal one is below another value",
        lines(
            invoke(0, "push", 1),
            ok(0, "push", 1),
            invoke(0, "push", 2),
            ok(0, "push", 2),
            invoke(1, "push", 1),
            invoke(2, "pop"),
            ok(2, "pop", 1),
            ok(1, "push", 1),
            invoke(0, "pop"),
            ok(0, "pop", 2),
            invoke(0, "pop"),
            ok(0, "pop", 1),
        ),
    ),
    (
        "queue",
        "a dequeue that runs long leaves the value to one that has no other",
        lines(
            invoke(0, "enqueue", 7),
            invoke(1, "dequeue"),
            ok(0, "enqueue", 7),
            invoke(2, "dequeue"),
            invoke(3, "dequeue"),
            ok(2, "dequeue"),
            ok(3, "dequeue", 7),
            invoke(0, "enqueue", 7),
            ok(1, "dequeue", 7),
            ok(0, "enqueue", 7),
        ),
    ),
    (
        "queue",
        "a pending dequeue takes the first of two equal values",
        lines(
            invoke(0, "enqueue", 1),
            ok(0, "enqueue", 1),
            invoke(1, "dequeue"),
            invoke(0, "dequeue"),
            ok(0, "dequeue"),
            invoke(0, "enqueue", 1),
            ok(0, "enqueue", 1),
            invoke(0, "dequeue"),
            ok(0, "dequeue", 1),
            invoke(0, "dequeue"),
            ok(0, "dequeue"),
        ),
    ),
    (
        "heap",
        "a pending extract takes the first of two equal values",
        lines(
            invoke(0, "insert", 1),
            ok(0, "insert", 1),
            invoke(1, "extract-min"),
            invoke(0, "extract-min"),
            ok(0, "extract-min"),
            invoke(0, "insert", 1),
            ok(0, "insert", 1),
            invoke(0, "extract-min"),
            ok(0, "extract-min", 1),
            invoke(0, "extract-min"),
            ok(0, "extract-min"),
        ),
    ),
    (
        "stack",
        "a pending pop takes the first of two equal values",
        lines(
            invoke(0, "push", 1),
            ok(0, "push", 1),
            invoke(1, "pop"),
            invoke(0, "pop"),
            ok(0, "pop"),
            invoke(0, "push", 1),
            ok(0, "push", 1),
            invoke(0, "pop"),
            ok(0, "pop", 1),
            invoke(0, "pop"),
            ok(0, "pop"),
        ),
    ),
    (
        "stack",
        "a pop that runs long takes the value that was there before the stack was empty",
        lines(
            invoke(0, "push", 2),
            ok(0, "push", 2),
            invoke(1, "pop"),
            invoke(2, "pop"),
            ok(2, "pop"),
            invoke(0, "push", 2),
            ok(0, "push", 2),
            invoke(0, "push", 3),
            ok(1, "pop", 2),
            ok(0, "push", 3),
        ),
    ),
    (
        "heap",
        "an extract that runs long leaves the value to one that has no other",
        lines(
            invoke(1, "extract-min"),
            invoke(0, "insert", 1),
            ok(0, "insert", 1),
            invoke(2, "extract-min"),
            ok(2, "extract-min", 1),
            invoke(0, "insert", 2),
            ok(0, "insert", 2),
            invoke(2, "extract-min"),
            ok(2, "extract-min", 2),
            invoke(0, "insert", 1),
            ok(0, "insert", 1),
            ok(1, "extract-min", 1),
        ),
    ),
)

# Registers and maps, and whether they have an order.
CELLS = (
    # The compare-and-set fails only where the write of 1 is the later one.
    (
        "register",
        True,
        lines(
            invoke(0, "write", 1),
            invoke(1, "write", 2),
            ok(0, "write", 1),
            ok(1, "write", 2),
            invoke(0, "cas", (2, 9)),
            ok(0, "cas", False),
        ),
    ),
    # It fails only where the pending write took effect.
    (
        "register",
        True,
        lines(
            invoke(0, "write", 1),
            ok(0, "write", 1),
            invoke(1, "write", 2),
            invoke(0, "cas", (1, 9)),
            ok(0, "cas", False),
        ),
    ),
    # The same without the pending write.
    (
        "register",
        False,
        lines(
            invoke(0, "write", 1),
            ok(0, "write", 1),
            invoke(0, "cas", (1, 9)),
            ok(0, "cas", False),
        ),
    ),
    # It fails before 10 is read, of two values that are written meanwhile.
    (
        "register",
        True,
        lines(
            invoke(0, "write", 5),
            ok(0, "write", 5),
            invoke(0, "cas", (5, 12)),
            invoke(1, "write", 10),
            invoke(2, "write", 4),
            ok(0, "cas", False),
            invoke(0, "read"),
            ok(0, "read", 10),
            ok(2, "write", 4),
            invoke(0, "read"),
            ok(0, "read", 4),
        ),
    ),
    (
        "register",
        True,
        lines(
            invoke(0, "write", 1),
            ok(0, "write", 1),
            invoke(0, "write", 1),
            ok(0, "write", 1),
            invoke(0, "read"),
            ok(0, "read", 1),
        ),
    ),
    # Both writes of 1 are over before that of 2, which is read before 1.
    (
        "register",
        False,
        lines(
            invoke(0, "write", 1),
            invoke(1, "write", 1),
            ok(0, "write", 1),
            ok(1, "write", 1),
            invoke(0, "write", 2),
            invoke(1, "read"),
            ok(1, "read", 2),
            invoke(1, "read"),
            ok(1, "read", 1),
            ok(0, "write", 2),
        ),
    ),
    # A pending put that is read.
    (
        "map",
        True,
        lines(
            invoke(0, "put", (1, 7)),
            invoke(1, "get", 1),
            ok(1, "get", 7),
        ),
    ),
    # The value is gone only where the pending del took effect.
    (
        "map",
        True,
        lines(
            invoke(0, "put", (1, 7)),
            ok(0, "put"),
            invoke(1, "del", 1),
            invoke(0, "get", 1),
            ok(0, "get"),
        ),
    ),
    (
        "map",
        True,
        lines(
            invoke(0, "put", (1, 7)),
            ok(0, "put"),
            invoke(0, "del", 1),
            ok(0, "del", 7),
            invoke(0, "put", (1, 7)),
            ok(0, "put"),
        ),
    ),
    # The same beside another key, which is read before and after its put.
    (
        "map",
        True,
        lines(
            invoke(0, "put", (1, 7)),
            invoke(1, "put", (2, 7)),
            invoke(2, "get", 2),
            ok(0, "put"),
            invoke(0, "del", 1),
            ok(2, "get"),
            invoke(2, "get", 2),
            ok(0, "del", 7),
            ok(2, "get", 7),
            invoke(0, "put", (1, 7)),
            ok(1, "put"),
            ok(0, "put"),
        ),
    ),
    # The second put finds nothing, though nothing was taken away.
    (
        "map",
        False,
        lines(
            invoke(0, "put", (1, 7)),
            ok(0, "put"),
            invoke(0, "put", (1, 7)),
            ok(0, "put"),
        ),
    ),
)


def idle_calls(kind):
    """4,098 calls of a process of its own that leave a new object as it is."""
    return lines(*[event for f, argument in IDLE[kind] for event in (invoke(100, f, argument), ok(100, f))]) * PAIRS


def is_valid(history):
    """Whether some order of a history is valid, by force."""
    return brute_force.has_order([(event["process"], event["type"][1:], event["f"][1:], value_of(event.get("value"))) for event in maps_of(history)])


def repeated_values(program, report):
    """search answers each row as expected, and find finds an order if there is one."""
    rows = [(kind, True, why, history) for kind, why, history in VALUES]
    rows += [(kind, valid, f"row {number}", history) for number, (kind, valid, history) in enumerate(CELLS)]
    for kind, valid, why, history in rows:
        report.equal(f"by force: a {kind}: {why}", valid, is_valid(history))
        program.write(HISTORY, history)
        is_searched(program, report, f"search: a {kind}: {why}", valid)
        is_found(program, report, f"find: a {kind}: {why}", valid)
        is_judged(program, report, f"judge: a {kind}: {why}", valid)
        program.write(HISTORY, idle_calls(kind) + history)
        is_found(program, report, f"find: a {kind}: {why}, after idle calls", valid)
        is_judged(program, report, f"judge: a {kind}: {why}, after idle calls", valid)


def is_judged(program, report, name, valid):
    """Whether judge decides as it should."""
    ran = program.run("judge", HISTORY)
    report.equal(name, 0 if valid else 1, ran.status, ran)


def is_searched(program, report, name, valid):
    """Whether an order is printed that check accepts, or else that there is none."""
    words = ("search",)
    if valid:
        told = brute_force.of_orders(program, name, words, HISTORY, 1)
    else:
        told = brute_force.of_each(program, name, words, HISTORY, 1, "impossible", 1)
    for comparison in told:
        report.equal(*comparison)


def is_found(program, report, name, valid):
    """Whether an order is printed that check accepts, or else no order."""
    told = brute_force.of_orders(program, name, ("find",), HISTORY, 1) if valid else brute_force.of_no_orders(program, name, HISTORY, 1)
    for comparison in told:
        report.equal(*comparison)


# Histories of gen.py in which 5 % of the calls failed and others are pending. Stacks of different values, where pending
# pops must be given to values in time, and a register of 100 values, where a pending write that is used too early is
# missing later.
GENERATED = (
    ("stack", "--unique --calls 4096 --concurrency 100 --info 0.05 --seed 6"),
    ("stack", "--unique --calls 4096 --concurrency 100 --info 0.05 --seed 17"),
    ("stack", "--unique --calls 4096 --concurrency 100 --info 0.1 --seed 107"),
    ("stack", "--unique --calls 4096 --concurrency 1000 --info 0.05 --seed 101"),
    ("register", "--values 100 --calls 20000 --concurrency 100 --info 0.02 --seed 2"),
)
MOST_SECONDS = 1


def generated(program, kind, words):
    """Makes a history and returns its name, and the answer for it."""
    folder = f"{program.folder}/generated"
    os.makedirs(folder, exist_ok=True)
    words = ["--kind", kind, "--fail", "0.05", *words.split()]
    subprocess.run([sys.executable, f"{ROOT}/bench/gen.py", "history", folder, *words], check=True, stdout=subprocess.DEVNULL)
    with open(f"{folder}/expect.json", encoding="utf-8") as file:
        return f"{folder}/history.edn", json.load(file)


def pending_calls(program, report):
    """find finds an order of each generated history, in at most a second of processor time."""
    slowest = 0
    for kind, words in GENERATED:
        name, expected = generated(program, kind, words)
        seconds = least_seconds(program, MOST_SECONDS, "judge", name)
        slowest = max(slowest, seconds)
        report.answers(f"judge: a {kind} {words}", program.run("judge", name), expected["check"], expected["status"])
        report.holds(f"judge: a {kind} {words}: decided in {MOST_SECONDS} s", seconds <= MOST_SECONDS, seconds)
    return f"{len(GENERATED)} histories, the slowest took {slowest:.2f} s"


PARTS = (repeated_values, pending_calls)
