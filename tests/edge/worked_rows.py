"""Worked rows: words, the texts of the files, and the exact output and exit status.

The expected values are worked out by hand from the definitions of the objects, of a valid order and of the formats.
None is taken from the program's output."""
from dataclasses import dataclass

from .text_writers import certificate, fail, info, invoke, lines, ok, one_process, order

HISTORY, CERTIFICATES, SCHEDULE, REASONS, EVIDENCE = "history.edn", "certificates.edn", "schedule.edn", "reasons.edn", "evidence.edn"


@dataclass(frozen=True)
class Row:
    """What a command must answer. The texts are those of its files, in the order in which it reads them."""

    name: str
    words: tuple
    texts: tuple
    out: str
    status: int

    def files(self):
        """The names of the files with their texts."""
        first = SCHEDULE if self.words[0] == "simulate" else HISTORY
        second = {"refute": REASONS, "verify": EVIDENCE}.get(self.words[0], CERTIFICATES)
        return tuple(zip((first, second), self.texts))


def check(name, history, certificates, out, status):
    return Row(f"check: {name}", ("check", HISTORY, CERTIFICATES), (history, certificates), out, status)


def search(name, history, out, status, *options):
    return Row(f"search: {name}", ("search", *options, HISTORY), (history,), out, status)


def find(name, history, out, status):
    return Row(f"find: {name}", ("find", HISTORY), (history,), out, status)


def judge(name, history, out, status, *options):
    return Row(f"judge: {name}", ("judge", *options, HISTORY), (history,), out, status)


def refute(name, history, reasons, out, status, *options):
    return Row(f"refute: {name}", ("refute", *options, HISTORY, REASONS), (history, reasons), out, status)


def verify(name, history, evidence, out, status, *options):
    return Row(f"verify: {name}", ("verify", *options, HISTORY, EVIDENCE), (history, evidence), out, status)


def simulate(name, schedule, out, status):
    return Row(f"simulate: {name}", ("simulate", SCHEDULE), (schedule,), out, status)


def exact_steps(name, history, steps, out, status, *options):
    """A search of one object that takes exactly this number of steps, and with one fewer is out of steps."""
    name = " ".join((name, *options))
    rows = [search(f"{name}, in {steps} steps", history, out, status, *options, "--steps", str(steps))]
    if steps:
        fewer = f"; object 0: out of steps after {steps - 1}\n"
        rows.append(search(f"{name}, with a step fewer", history, fewer, 3, *options, "--steps", str(steps - 1)))
    return rows


def yes(operations, objects, *kinds):
    return lines(f"yes: {operations} operations, {objects} objects", *kinds)


# Histories.

ENQUEUE_DEQUEUE = one_process(("enqueue", 1, 1), ("dequeue", None, 1))

OVERLAPPING = lines(
    invoke(0, "enqueue", 1),
    invoke(1, "enqueue", 2),
    ok(0, "enqueue", 1),
    ok(1, "enqueue", 2),
    invoke(0, "dequeue"),
    ok(0, "dequeue", 2),
)

# The enqueue of 1 returned before that of 2 began, and 2 comes out first.
OUT_OF_ORDER = lines(
    invoke(0, "enqueue", 1),
    ok(0, "enqueue", 1),
    invoke(1, "enqueue", 2),
    ok(1, "enqueue", 2),
    invoke(0, "dequeue"),
    ok(0, "dequeue", 2),
)

TWO_QUEUES = lines(
    invoke(0, "dequeue", None, 0),
    invoke(1, "dequeue", None, 1),
    invoke(2, "enqueue", 7, 0),
    invoke(3, "enqueue", 8, 1),
    ok(0, "dequeue", 7, 0),
    ok(1, "dequeue", 8, 1),
    ok(2, "enqueue", 7, 0),
    ok(3, "enqueue", 8, 1),
)
TWO_ORDERS = lines(certificate(1, 3, 1), certificate(0, 2, 0))

PENDING = lines(invoke(0, "enqueue", 9), invoke(1, "dequeue"), ok(1, "dequeue", 9))

FAILED = lines(invoke(0, "enqueue", 5), fail(0, "enqueue", 5))

AFTER_INFO = lines(invoke(0, "enqueue", 1), info(0, "enqueue", 1), invoke(0, "enqueue", 2))

NEMESIS = lines("{:process :nemesis}", "{:process :nemesis}") + ENQUEUE_DEQUEUE

HEAP = one_process(
    ("insert", 5, 5),
    ("insert", 5, 5),
    ("insert", -3, -3),
    ("extract-min", None, -3),
    ("extract-min", None, 5),
    ("extract-min", None, 5),
    ("extract-min", None, None),
)

BAG_WITH_EQUALS = one_process(
    ("insert", 3, 3),
    ("insert", 1, 1),
    ("insert", 2, 2),
    ("extract-min", None, 1),
    ("insert", 1, 1),
    ("insert", 1, 1),
    ("extract-min", None, 1),
    ("extract-min", None, 1),
    ("extract-min", None, 2),
    ("extract-min", None, 3),
    ("extract-min", None, None),
)

# Twelve writes overlap, and the first comes last: else a cas would find its value. The finder gives up before it finds that.
WRITERS = range(12)
FIRST_WRITE_LAST = lines(
    *[invoke(process, "write", process + 1) for process in WRITERS],
    *[ok(process, "write", process + 1) for process in WRITERS],
    *[event for of in WRITERS[1:] for event in (invoke(0, "cas", (of + 1, 99)), ok(0, "cas", False))],
)

REGISTER = one_process(("cas", (1, 2), False), ("write", 1, 1), ("cas", (1, 2), (1, 2)), ("read", None, 2))

MAP = one_process(
    ("put", (1, 10), None),
    ("put", (1, 11), 10),
    ("get", 1, 11),
    ("del", 1, 11),
    ("get", 1, None),
)

MUTEX = lines(
    invoke(0, "acquire"),
    ok(0, "acquire"),
    invoke(1, "acquire"),
    invoke(0, "release"),
    ok(0, "release"),
    ok(1, "acquire"),
)

RELEASE_OF_A_FREE_MUTEX = one_process(("release", None, None))

# Both enqueues put in a 1, so a 2 never comes out. The two orders of the enqueues lead to one content.
EQUAL_ENQUEUES = lines(
    invoke(0, "enqueue", 1),
    invoke(1, "enqueue", 1),
    ok(0, "enqueue", 1),
    ok(1, "enqueue", 1),
    invoke(0, "dequeue"),
    ok(0, "dequeue", 2),
)

# A queue gives what was never put in, and another one is used well.
ONE_OF_TWO = lines(
    invoke(0, "enqueue", 1, 1),
    ok(0, "enqueue", 1, 1),
    invoke(0, "dequeue", None, 0),
    ok(0, "dequeue", 5, 0),
)

# What is invoked first returns last.
RETURNS_CROSSED = lines(
    invoke(0, "enqueue", 1),
    invoke(1, "enqueue", 2),
    ok(1, "enqueue", 2),
    ok(0, "enqueue", 1),
)

# Of three objects, one has a failed operation alone, one an operation that returned, and one a pending one.
ON_THREE_OBJECTS = lines(
    invoke(0, "push", 5, 9),
    invoke(1, "write", 5, 2),
    fail(0, "push", 5, 9),
    invoke(0, "read", None, 65535),
    ok(1, "write", 5, 2),
)

LARGEST, LEAST = 9223372036854775807, -9223372036854775808
# Pending operations, none of which need be in the order, after one that failed.
PENDING_4096, PENDING_4097 = [FAILED + lines(*[invoke(1 + number, "dequeue") for number in range(count)]) for count in (4096, 4097)]
TOO_MANY_TO_SEARCH = one_process(*[("enqueue", 1, 1)] * 4097)



def refused_swaps(before, writers):
    """Swaps are refused after writes that overlap, though one of their values is there. After many other writes no reason is found for
    that."""
    return one_process(*[("write", 1, 1)] * before) + lines(
        *[invoke(process, "write", process + 1) for process in range(writers)],
        *[ok(process, "write", process + 1) for process in range(writers)],
        *[event for of in range(writers) for event in (invoke(0, "cas", (of + 1, 99)), ok(0, "cas", False))],
    )


# Of 16 writes that overlap a search would take some millions of steps. There are 10,032 operations.
MANY_SWAPS = refused_swaps(10_000, 16)

# Schedules.

HEADER = "{:kind :queue, :objects 1, :clients 2, :quota 1}"
ONE_CLIENT = "{:kind :queue, :objects 1, :clients 1, :quota 1}"


def step(client, name, more=""):
    return f"{{:client {client}, :step :{name}{more}}}"


SERVED_BY_ANOTHER = lines(
    HEADER,
    step(0, "draw", ", :object 0, :f :enqueue, :value 1"),
    step(1, "draw", ", :object 0, :f :enqueue, :value 2"),
    step(0, "post"),
    step(1, "post"),
    step(1, "win", ", :object 0"),
    step(1, "pick", ", :row 0"),
    step(1, "answer"),
    step(1, "pick", ", :row 1"),
    step(1, "answer"),
    step(1, "release"),
    step(1, "take"),
    step(1, "draw"),
    step(0, "end"),
    step(1, "end"),
)

SERVED_LINES = """\
{:process 0, :type :invoke, :f :enqueue, :value 1, :object 0}
{:process 1, :type :invoke, :f :enqueue, :value 2, :object 0}
{:process 1, :type :ok, :f :enqueue, :value 2, :object 0}
; refused steps: 0
; {:object 0, :order [0 1]}
; yes: 2 operations, 1 objects
; queue: 1 objects, 2 operations
"""

# The second acquire is put back until the mutex is released.
PUT_BACK = lines(
    "{:kind :mutex, :objects 1, :clients 2, :quota 2}",
    step(0, "draw", ", :object 0, :f :acquire"),
    step(0, "post"),
    step(0, "win", ", :object 0"),
    step(0, "pick", ", :row 0"),
    step(0, "put-back"),
    *[step(0, name) for name in ("answer", "release", "take", "draw")],
    step(1, "draw", ", :object 0, :f :acquire"),
    step(1, "post"),
    step(1, "win", ", :object 0"),
    step(1, "pick", ", :row 1"),
    step(1, "answer"),
    step(1, "put-back"),
    step(0, "draw", ", :object 0, :f :release"),
    step(0, "post"),
    step(1, "pick", ", :row 0"),
    step(1, "answer"),
    step(1, "pick", ", :row 1"),
    step(1, "answer"),
    step(1, "release"),
    *[step(client, name) for client in (0, 1) for name in ("take", "draw", "end")],
)

PUT_BACK_LINES = """\
{:process 0, :type :invoke, :f :acquire, :value nil, :object 0}
{:process 0, :type :ok, :f :acquire, :value nil, :object 0}
{:process 1, :type :invoke, :f :acquire, :value nil, :object 0}
{:process 0, :type :invoke, :f :release, :value nil, :object 0}
{:process 0, :type :ok, :f :release, :value nil, :object 0}
{:process 1, :type :ok, :f :acquire, :value nil, :object 0}
; refused steps: 2
; {:object 0, :order [0 3 2]}
; yes: 3 operations, 1 objects
; mutex: 1 objects, 3 operations
"""

# Rows.

QUEUE_YES = yes(2, 1, "queue: 1 objects, 2 operations")
THREE_YES = yes(3, 1, "queue: 1 objects, 3 operations")
QUEUES_YES = yes(4, 2, "queue: 2 objects, 4 operations")
MUTEX_YES = yes(3, 1, "mutex: 1 objects, 3 operations")

YES = [
    check("empty texts", "", "", yes(0, 0), 0),
    check("an enqueue and a dequeue", ENQUEUE_DEQUEUE, order(0, 2), QUEUE_YES, 0),
    check("the later of two enqueues takes effect first", OVERLAPPING, order(1, 0, 4), THREE_YES, 0),
    check("two queues", TWO_QUEUES, TWO_ORDERS, QUEUES_YES, 0),
    check(
        "two queues, and their certificates in rising number", TWO_QUEUES, lines(certificate(0, 2, 0), certificate(1, 3, 1)), QUEUES_YES, 0
    ),
    check(
        "three objects",
        ON_THREE_OBJECTS,
        lines(certificate(9), certificate(2, 1), certificate(65535)),
        yes(2, 3, "stack: 1 objects, 0 operations", "register: 2 objects, 2 operations"),
        0,
    ),
    check("a pending enqueue has happened", PENDING, order(0, 1), QUEUE_YES, 0),
    check("a failed enqueue alone", FAILED, order(), yes(0, 1, "queue: 1 objects, 0 operations"), 0),
    check("maps of the nemesis are counted", NEMESIS, order(2, 4), QUEUE_YES, 0),
    check("a heap", HEAP, order(0, 2, 4, 6, 8, 10, 12), yes(7, 1, "heap: 1 objects, 7 operations"), 0),
    check(
        "a heap with equals",
        BAG_WITH_EQUALS,
        order(*range(0, 22, 2)),
        yes(11, 1, "heap: 1 objects, 11 operations"),
        0,
    ),
    check("a register", REGISTER, order(0, 2, 4, 6), yes(4, 1, "register: 1 objects, 4 operations"), 0),
    check("a map", MAP, order(0, 2, 4, 6, 8), yes(5, 1, "map: 1 objects, 5 operations"), 0),
    check("a mutex is passed on", MUTEX, order(0, 3, 2), MUTEX_YES, 0),
    check("the record of one client that serves another", SERVED_LINES, order(0, 1), QUEUE_YES, 0),
    check("the record of a mutex that is passed on", PUT_BACK_LINES, order(0, 3, 2), MUTEX_YES, 0),
    check("the first three maps alone", lines(*ENQUEUE_DEQUEUE.splitlines()[:3]), order(0, 2), QUEUE_YES, 0),
    check(
        "a refused call is no operation",
        lines(invoke(0, "enqueue", 1), fail(0, "enqueue", 1), invoke(0, "dequeue"), ok(0, "dequeue")),
        order(2),
        yes(1, 1, "queue: 1 objects, 1 operations"),
        0,
    ),
    check("minus nothing is 0", ENQUEUE_DEQUEUE, "{:object -0, :order [-0 +2]}", QUEUE_YES, 0),
    check(
        "the least and the largest integer",
        one_process(("enqueue", LEAST, LEAST), ("enqueue", LARGEST, LARGEST), ("dequeue", None, LEAST)),
        order(0, 2, 4),
        THREE_YES,
        0,
    ),
]

NO = [
    check("the earlier enqueue first", OVERLAPPING, order(0, 1, 4), "no: C6 object 0: 4 gives 1\n", 1),
    check(
        "an enqueue after one that it precedes",
        OUT_OF_ORDER,
        order(2, 0, 4),
        "no: C5 object 0: 0 returned before 2 was invoked\n",
        1,
    ),
    check("the wrong one comes out", OUT_OF_ORDER, order(0, 2, 4), "no: C6 object 0: 4 gives 1\n", 1),
    check("the pending enqueue is left out", PENDING, order(1), "no: C6 object 0: 1 gives nil\n", 1),
    check("a failed operation in the order", FAILED, order(0), "no: C3 object 0: 0 is no operation\n", 1),
    check("an entry twice", ENQUEUE_DEQUEUE, order(0, 0, 2), "no: C4 object 0: 0 stands twice\n", 1),
    check("a return is left out", ENQUEUE_DEQUEUE, order(0), "no: C7 object 0: 2 is left out\n", 1),
    check("the number of a map of the nemesis", NEMESIS, order(0, 2), "no: C3 object 0: 0 is no operation\n", 1),
    check("no certificate", ENQUEUE_DEQUEUE, "", "no: C1 object 0 has no certificate\n", 1),
    check("a strange object", "", lines(certificate(3)), "no: C2 object 3 is not in the history\n", 1),
    check(
        "one of two certificates", TWO_QUEUES, lines(certificate(1, 3, 1)), "no: C1 object 0 has no certificate\n", 1
    ),
    check(
        "a third certificate",
        TWO_QUEUES,
        TWO_ORDERS + lines(certificate(2)),
        "no: C2 object 2 is not in the history\n",
        1,
    ),
    check(
        "the first of two faults is that of the least object",
        TWO_QUEUES,
        lines(certificate(1, 1), certificate(0, 0)),
        "no: C6 object 0: 0 gives nil\n",
        1,
    ),
    check(
        "a compare-and-set that cannot succeed",
        one_process(("cas", (1, 2), (1, 2))),
        order(0),
        "no: C6 object 0: 0 gives false\n",
        1,
    ),
    check("a mutex is acquired twice", MUTEX, order(0, 2, 3), "no: C9 object 0: 2 is not possible\n", 1),
    check("a free mutex is released", RELEASE_OF_A_FREE_MUTEX, order(0), "no: C9 object 0: 0 is not possible\n", 1),
    check(
        "the first two maps alone",
        lines(*ENQUEUE_DEQUEUE.splitlines()[:2]),
        order(0, 2),
        "no: C3 object 0: 2 is no operation\n",
        1,
    ),
    check(
        "the first map alone",
        lines(*ENQUEUE_DEQUEUE.splitlines()[:1]),
        order(0, 2),
        "no: C3 object 0: 2 is no operation\n",
        1,
    ),
    check("no map", "", order(0, 2), "no: C2 object 0 is not in the history\n", 1),
    check(
        "a huge entry", ENQUEUE_DEQUEUE, order(0, LARGEST), f"no: C3 object 0: {LARGEST} is no operation\n", 1
    ),
    check("a negative entry", ENQUEUE_DEQUEUE, order(-1), "no: C3 object 0: -1 is no operation\n", 1),
    check("a sign is read", ENQUEUE_DEQUEUE, order("+7,8"), "no: C3 object 0: 7 is no operation\n", 1),
    check("a comma separates", ENQUEUE_DEQUEUE, order("8,+7"), "no: C3 object 0: 8 is no operation\n", 1),
    check(
        "the largest integer is told",
        one_process(("enqueue", LARGEST, LARGEST), ("dequeue", None, 1)),
        order(0, 2),
        f"no: C6 object 0: 2 gives {LARGEST}\n",
        1,
    ),
]


def malformed(name, history, fault):
    return check(name, history, "", f"malformed history: {fault}\n", 2)


def malformed_certificates(name, certificates, fault):
    return check(name, ENQUEUE_DEQUEUE, certificates, f"malformed certificates: {fault}\n", 2)


MALFORMED = [
    malformed("a process goes on after info", AFTER_INFO, "H8 at map 2"),
    malformed(
        "info and then a return",
        lines(invoke(0, "enqueue", 1), info(0, "enqueue", 1), ok(0, "enqueue", 1)),
        "H8 at map 2",
    ),
    malformed("two kinds", one_process(("enqueue", 1, 1)) + lines(invoke(0, "push", 2)), "H4 at map 2"),
    malformed("two calls of one process", lines(invoke(0, "dequeue"), invoke(0, "dequeue")), "H5 at map 1"),
    malformed("no value in a return", lines(ok(0, "enqueue")), "H3 at map 0"),
    malformed("another function returns", lines(invoke(0, "enqueue", 1), ok(0, "dequeue")), "H7 at map 1"),
    malformed("a function of another kind returns", lines(invoke(0, "enqueue", 1), ok(0, "push", 1)), "H4 at map 1"),
    malformed("a number replied to a cas", lines(invoke(0, "cas", (1, 2)), ok(0, "cas", 7)), "H3 at map 1"),
    malformed("the largest integer, which is no map", str(LARGEST), "H1 at map 0"),
    malformed("the least integer, which is no map", str(LEAST), "H1 at map 0"),
    malformed("one past the largest integer", str(LARGEST + 1), "E4 at byte 0"),
    malformed("a leading zero", "007", "E3 at byte 0"),
    malformed("a fraction", "1.5", "E9 at byte 0"),
    malformed("a map that is not closed", "{:process 0, :type :invoke", "E2 at byte 26"),
    malformed("a key twice", "{:f :enqueue, :f :enqueue}", "E5 at byte 14"),
    malformed("17 brackets", "[" * 17, "E8 at byte 16"),
    malformed("16 vectors in one another, which are no map", "[" * 16 + "]" * 16, "H1 at map 0"),
    malformed_certificates("two for one object", lines(certificate(0, 0, 2), certificate(0)), "K2 at form 1"),
    malformed_certificates("a vector alone", "[0 2]", "K1 at form 0"),
    malformed_certificates("an object past the limit", lines(certificate(65536)), "K1 at form 0"),
    malformed_certificates("a leading zero", "007", "E3 at byte 0"),
]

SEARCHES = [
    search("no order, as many steps as it likes", OUT_OF_ORDER, "; object 0: impossible\n", 1),
    search("the later enqueue first, as many steps as it likes", OVERLAPPING, order(1, 0, 4), 0),
    *exact_steps("no order", OUT_OF_ORDER, 3, "; object 0: impossible\n", 1),
    search("no order, one step", OUT_OF_ORDER, "; object 0: out of steps after 1\n", 3, "--steps", "1"),
    *exact_steps("the later enqueue first", OVERLAPPING, 6, order(1, 0, 4), 0),
    *exact_steps("a failed enqueue alone", FAILED, 0, order(), 0),
    search("two queues", TWO_QUEUES, lines(certificate(0, 2, 0), certificate(1, 3, 1)), 0, "--steps", "3"),
    search(
        "two queues, with a step fewer",
        TWO_QUEUES,
        lines("; object 0: out of steps after 2", "; object 1: out of steps after 2"),
        3,
        "--steps",
        "2",
    ),
    search("the least number is tried first", RETURNS_CROSSED, order(0, 1), 0, "--first", "number"),
    search("the least return is tried first", RETURNS_CROSSED, order(1, 0), 0, "--first", "return"),
    search("4,097 operations", TOO_MANY_TO_SEARCH, "; object 0: too large\n", 3),
    *exact_steps("a mutex is passed on", MUTEX, 3, order(0, 3, 2), 0),
    *exact_steps("a free mutex is released", RELEASE_OF_A_FREE_MUTEX, 0, "; object 0: impossible\n", 1),
    *exact_steps("equal enqueues", EQUAL_ENQUEUES, 5, "; object 0: impossible\n", 1),
    search("a malformed history", AFTER_INFO, "malformed history: H8 at map 2\n", 2),
    search("empty text", "", "", 0),
]

# How many steps other searches take.
STEPS = [
    *exact_steps("an enqueue and a dequeue", ENQUEUE_DEQUEUE, 2, order(0, 2), 0),
    *exact_steps("a pending enqueue has happened", PENDING, 2, order(0, 1), 0),
    *exact_steps("a heap", HEAP, 7, order(0, 2, 4, 6, 8, 10, 12), 0),
    *exact_steps("a register", REGISTER, 4, order(0, 2, 4, 6), 0),
    *exact_steps("a map", MAP, 5, order(0, 2, 4, 6, 8), 0),
    *exact_steps("the later enqueue first", OVERLAPPING, 6, order(1, 0, 4), 0, "--first", "return"),
    *exact_steps("no order", OUT_OF_ORDER, 3, "; object 0: impossible\n", 1, "--first", "return"),
    # The dequeue is tried first, and gives nil.
    *exact_steps("a pending enqueue has happened", PENDING, 3, order(0, 1), 0, "--first", "return"),
    *exact_steps("a failed enqueue alone", FAILED, 0, order(), 0, "--first", "return"),
    *exact_steps("a mutex is passed on", MUTEX, 3, order(0, 3, 2), 0, "--first", "return"),
    search("no step", OVERLAPPING, "; object 0: out of steps after 0\n", 3, "--steps", "0"),
    search("4,096 pending operations, and no step", PENDING_4096, order(), 0, "--steps", "0"),
    search("4,097 pending operations, and no step", PENDING_4097, "; object 0: too large\n", 3, "--steps", "0"),
]

# The orders of these are the only valid ones. What is found of others is evidence of another sort:
# tests/edge/verify/any_evidence.py hands it to verify.
FINDINGS = [
    find("empty text", "", "", 0),
    find("an enqueue and a dequeue", ENQUEUE_DEQUEUE, order(0, 2), 0),
    find("the later enqueue first", OVERLAPPING, order(1, 0, 4), 0),
    find("two queues", TWO_QUEUES, lines(certificate(0, 2, 0), certificate(1, 3, 1)), 0),
    find("a mutex is passed on", MUTEX, order(0, 3, 2), 0),
]

JUDGEMENTS = [
    judge("empty text", "", yes(0, 0), 0),
    judge("an enqueue and a dequeue", ENQUEUE_DEQUEUE, QUEUE_YES, 0),
    judge("the later enqueue first", OVERLAPPING, THREE_YES, 0),
    judge("two queues", TWO_QUEUES, QUEUES_YES, 0),
    judge("a heap", HEAP, yes(7, 1, "heap: 1 objects, 7 operations"), 0),
    judge("a register", REGISTER, yes(4, 1, "register: 1 objects, 4 operations"), 0),
    judge("a map", MAP, yes(5, 1, "map: 1 objects, 5 operations"), 0),
    judge("a mutex is passed on", MUTEX, MUTEX_YES, 0),
    judge("an order that takes a search", FIRST_WRITE_LAST, "; object 0: out of steps after 0\n", 3, "--steps", "0"),
    judge("an order that a search finds", FIRST_WRITE_LAST, yes(23, 1, "register: 1 objects, 23 operations"), 0),
    judge(
        "an order of many that a search finds",
        one_process(*[("write", 1, 1)] * 4100) + FIRST_WRITE_LAST,
        yes(4123, 1, "register: 1 objects, 4123 operations"),
        0,
    ),
    judge("100 steps for each operation of many", MANY_SWAPS, "; object 0: out of steps after 1003200\n", 3),
    judge("fewer steps for many operations", MANY_SWAPS, "; object 0: out of steps after 1000\n", 3, "--steps", "1000"),
    judge("a malformed history", AFTER_INFO, "malformed history: H8 at map 2\n", 2),
]

# Histories that are not linearizable, with the options of a judgement. A reason takes no steps.
NOT_LINEARIZABLE = [
    ("the later enqueue comes out first", OUT_OF_ORDER),
    ("the later enqueue comes out first, and no step", OUT_OF_ORDER, "--steps", "0"),
    ("the first of two objects, and no step", ONE_OF_TWO, "--steps", "0"),
    ("equal enqueues", EQUAL_ENQUEUES),
    ("a free mutex is released", RELEASE_OF_A_FREE_MUTEX),
    ("a queue gives a value before it is put in", one_process(("dequeue", None, 1), ("enqueue", 1, 1))),
    ("a queue gives a value twice", one_process(("enqueue", 7, 7), ("dequeue", None, 7), ("dequeue", None, 7))),
    ("a stack gives the lower value", one_process(("push", 1, 1), ("push", 2, 2), ("pop", None, 1))),
    ("a heap gives the larger value", one_process(("insert", 1, 1), ("insert", 2, 2), ("extract-min", None, 2))),
    ("a register gives an old value", one_process(("write", 1, 1), ("write", 2, 2), ("read", None, 1))),
    ("a register refuses its value", one_process(("write", 1, 1), ("cas", (1, 2), False))),
    ("one of two values is there, and swaps of both are refused, after many writes", refused_swaps(4100, 2), "--steps", "0"),
    ("a map loses a value", one_process(("put", (1, 10), None), ("put", (2, 20), None), ("get", 1, None))),
    ("a map gives a value that was removed", one_process(("put", (1, 10), None), ("del", 1, 10), ("get", 1, 10))),
    ("a mutex is acquired twice", one_process(("acquire", None, None), ("acquire", None, None))),
    (
        "the second of two objects",
        lines(invoke(0, "enqueue", 1, 0), ok(0, "enqueue", 1, 0), invoke(0, "pop", None, 3), ok(0, "pop", 5, 3)),
    ),
]

# A queue of three values, of which the second comes out first.
THREE_VALUES = one_process(("enqueue", 1, 1), ("enqueue", 2, 2), ("enqueue", 3, 3), ("dequeue", None, 2))
TWO_OF_THREE = "{:object 0, :cuts [{:keep [1 2], :numbers [0 2 6]}]}"


def refutation(part, whole, *operations):
    return lines(f"not linearizable: object 0: {part} of {whole} operations have no valid order", *operations)


ENQUEUE_1 = "events 0 and 1: process 0, :enqueue 1, :ok 1"
ENQUEUE_2 = "events 2 and 3: process 0, :enqueue 2, :ok 2"
ENQUEUE_3 = "events 4 and 5: process 0, :enqueue 3, :ok 3"
DEQUEUE_2 = "events 6 and 7: process 0, :dequeue nil, :ok 2"
REFUTATIONS = [
    refute("no reason", THREE_VALUES, "", "", 3),
    refute("the whole", THREE_VALUES, "{:object 0}", refutation(4, 4, ENQUEUE_1, ENQUEUE_2, ENQUEUE_3, DEQUEUE_2), 1),
    refute("two of three values", THREE_VALUES, TWO_OF_THREE, refutation(3, 4, ENQUEUE_1, ENQUEUE_2, DEQUEUE_2), 1),
    refute(
        "a prefix, in which a call is pending",
        THREE_VALUES + lines(invoke(0, "dequeue"), ok(0, "dequeue", 1)),
        "{:object 0, :cuts [{:keep [1 2], :numbers [0 2 6 8]} {:until 9}]}",
        refutation(4, 5, ENQUEUE_1, ENQUEUE_2, DEQUEUE_2, "event 8: process 0, :dequeue nil, pending"),
        1,
    ),
    refute(
        "a count",
        one_process(("enqueue", 7, 7), ("dequeue", None, 7), ("enqueue", 1, 1), ("dequeue", None, 7)),
        "{:object 0, :cuts [{:keep [7], :numbers [0 2 6]}], :count {:value 7, :from 0}}",
        refutation(
            3,
            4,
            "events 0 and 1: process 0, :enqueue 7, :ok 7",
            "events 2 and 3: process 0, :dequeue nil, :ok 7",
            "events 6 and 7: process 0, :dequeue nil, :ok 7",
        ),
        1,
    ),
    refute(
        "a register of which some values are one other",
        one_process(("write", 1, 1), ("write", 5, 5), ("read", None, 1)),
        "{:object 0, :cuts [{:cell [1], :other 9, :numbers [2 4]}]}",
        refutation(
            3,
            3,
            "events 0 and 1: process 0, :write 1, :ok 1",
            "events 2 and 3: process 0, :write 5, :ok 5, counted as :write 9, :ok 9",
            "events 4 and 5: process 0, :read nil, :ok 1",
        ),
        1,
    ),
    refute(
        "a key of a map as a register",
        one_process(("put", (3, 7), None), ("del", 3, 7), ("get", 3, 7)),
        "{:object 0, :cuts [{:cell [7], :key 3, :other 9, :numbers [2 4]}]}",
        refutation(
            3,
            3,
            "events 0 and 1: process 0, :put [3 7], :ok nil, counted as :write 7, :ok 7",
            "events 2 and 3: process 0, :del 3, :ok 7, counted as :cas [7 9], :ok [7 9]",
            "events 4 and 5: process 0, :get 3, :ok 7, counted as :read nil, :ok 7",
        ),
        1,
    ),
    refute(
        "two reasons",
        THREE_VALUES,
        "{:object 7}" + TWO_OF_THREE,
        "object 7: not shown: it is not in the history\n" + refutation(3, 4, ENQUEUE_1, ENQUEUE_2, DEQUEUE_2),
        1,
    ),
    refute(
        "two reasons in the other order",
        THREE_VALUES,
        TWO_OF_THREE + " {:object 4}",
        refutation(3, 4, ENQUEUE_1, ENQUEUE_2, DEQUEUE_2) + "object 4: not shown: it is not in the history\n",
        1,
    ),
    refute("an object that is not there", THREE_VALUES, "{:object 7}", "object 7: not shown: it is not in the history\n", 3),
    refute(
        "a part that is not closed",
        THREE_VALUES,
        "{:object 0, :cuts [{:keep [1 2], :numbers [0 6]}]}",
        "object 0: not shown: the cuts name no part\n",
        3,
    ),
    refute(
        "a part without the call that takes a value",
        THREE_VALUES,
        "{:object 0, :cuts [{:keep [1 2], :numbers [0 2]}]}",
        "object 0: not shown: the cuts name no part\n",
        3,
    ),
    refute(
        "a part that has an order",
        THREE_VALUES,
        "{:object 0, :cuts [{:keep [2], :numbers [2 6]}]}",
        "object 0: not shown: the part has a valid order\n",
        3,
    ),
    refute(
        "a count that is not exceeded",
        THREE_VALUES,
        "{:object 0, :count {:value 2}}",
        "object 0: not shown: the count is not exceeded\n",
        3,
    ),
    refute("no step", THREE_VALUES, TWO_OF_THREE, "object 0: not shown: out of steps after 0\n", 3, "--steps", "0"),
    refute("the whole, and no step", THREE_VALUES, "{:object 0}", "object 0: not shown: out of steps after 0\n", 3, "--steps", "0"),
    refute("a history that is linearizable", OVERLAPPING, "{:object 0}", "object 0: not shown: the part has a valid order\n", 3),
    refute("more than `search` takes", TOO_MANY_TO_SEARCH, "{:object 0}", "object 0: not shown: the part has a valid order\n", 3),
    refute("a malformed history", AFTER_INFO, "{:object 0}", "malformed history: H8 at map 2\n", 2),
    refute("reasons that spell no forms", THREE_VALUES, "{:object 0", "malformed reasons: E2 at byte 10\n", 2),
    refute("a form that is no reason", THREE_VALUES, "{:object 0} 7", "malformed reasons: N1 at form 1\n", 2),
    refute("a reason without an object", THREE_VALUES, "{:cuts []}", "malformed reasons: N1 at form 0\n", 2),
    refute("both texts are malformed", "7", "7", "malformed history: H1 at map 0\n", 2),
]

SIMULATIONS = [
    simulate("one client serves another", SERVED_BY_ANOTHER, SERVED_LINES, 0),
    simulate(
        "a step that is not possible is counted",
        lines(ONE_CLIENT, step(0, "post"), step(0, "end")),
        lines("; refused steps: 1", "; yes: 0 operations, 0 objects"),
        0,
    ),
    simulate("a request is put back", PUT_BACK, PUT_BACK_LINES, 0),
    simulate(
        "no such client, object or row",
        ONE_CLIENT
        + " {:client 31, :step :end} {:client 0, :step :win, :object 15} {:client 0, :step :win, :object 0}"
        + " {:client 0, :step :pick, :row 31} {:client 0, :step :release} {:client 0, :step :end}",
        lines("; refused steps: 3", "; yes: 0 operations, 0 objects"),
        0,
    ),
    simulate(
        "an operation of another kind",
        "{:kind :mixed, :objects 1, :clients 1, :quota 1} {:client 0, :step :draw, :object 0, :f :pop} {:client 0, :step :end}",
        lines("; refused steps: 1", "; yes: 0 operations, 0 objects"),
        0,
    ),
    simulate(
        "keys that have no meaning",
        "{:kind :queue, :objects 1, :clients 1, :quota 0, :seed 7} {:client 0, :step :end, :row 99, :note \"done\"}",
        lines("; refused steps: 0", "; yes: 0 operations, 0 objects"),
        0,
    ),
    simulate("a client has not ended", lines(ONE_CLIENT), "client 0 has not ended\n", 2),
    simulate(
        "the least of the clients that have not ended",
        "{:kind :queue, :objects 1, :clients 4, :quota 1} {:client 0, :step :end} {:client 2, :step :end}",
        "client 1 has not ended\n",
        2,
    ),
    simulate(
        "17 objects",
        lines("{:kind :queue, :objects 17, :clients 1, :quota 1}"),
        "malformed schedule: S1 at form 0\n",
        2,
    ),
    simulate("no header", "", "malformed schedule: S1 at form 0\n", 2),
    simulate("no such step", lines(ONE_CLIENT, step(0, "jump")), "malformed schedule: S2 at form 1\n", 2),
    simulate("a leading zero", " 007", "malformed schedule: E3 at byte 1\n", 2),
]

ROWS = YES + NO + MALFORMED + SEARCHES + FINDINGS + JUDGEMENTS + REFUTATIONS + SIMULATIONS
