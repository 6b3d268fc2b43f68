"""Orders of operations, and what check says of them; and orders that find must find.

The expected values are worked out by hand from the definitions of the objects and of a valid order."""
from ..worked_rows import check, find, yes
from ..text_writers import certificate, fail, invoke, lines, ok, one_process, order

# In these a value that is nil is not written.

# One process that enqueues and dequeues.
IN_TURN = """
    {:process 0 :type :invoke :f :enqueue :value 1}
    {:process 0 :type :ok :f :enqueue :value 1}
    {:process 0 :type :invoke :f :dequeue}
    {:process 0 :type :ok :f :dequeue :value 1}"""

# Two values are enqueued one after the other, and the second goes out.
ONE_BY_ONE = """
    {:process 0 :type :invoke :f :enqueue :value 1}
    {:process 0 :type :ok :f :enqueue :value 1}
    {:process 1 :type :invoke :f :enqueue :value 2}
    {:process 1 :type :ok :f :enqueue :value 2}
    {:process 0 :type :invoke :f :dequeue}
    {:process 0 :type :ok :f :dequeue :value 2}"""

# The operation of process 0 spans two others, which come one after the other.
SPANNED = """
    {:process 0 :type :invoke :f :enqueue :value 1}
    {:process 1 :type :invoke :f :enqueue :value 2}
    {:process 1 :type :ok :f :enqueue :value 2}
    {:process 2 :type :invoke :f :enqueue :value 3}
    {:process 2 :type :ok :f :enqueue :value 3}
    {:process 0 :type :ok :f :enqueue :value 1}"""

# What is dequeued was enqueued by an operation that is pending.
PENDING = """
    {:process 0 :type :invoke :f :enqueue :value 9}
    {:process 1 :type :invoke :f :dequeue}
    {:process 1 :type :ok :f :dequeue :value 9}"""

PENDING_ALONE = "{:process 0 :type :invoke :f :enqueue :value 9}"

HEAP = """
    {:process 0 :type :invoke :f :insert :value 5} {:process 0 :type :ok :f :insert :value 5}
    {:process 0 :type :invoke :f :insert :value 5} {:process 0 :type :ok :f :insert :value 5}
    {:process 0 :type :invoke :f :insert :value -3} {:process 0 :type :ok :f :insert :value -3}
    {:process 0 :type :invoke :f :extract-min} {:process 0 :type :ok :f :extract-min :value -3}
    {:process 0 :type :invoke :f :extract-min} {:process 0 :type :ok :f :extract-min :value 5}
    {:process 0 :type :invoke :f :extract-min} {:process 0 :type :ok :f :extract-min :value 5}
    {:process 0 :type :invoke :f :extract-min} {:process 0 :type :ok :f :extract-min :value nil}"""

REGISTER = """
    {:process 0 :type :invoke :f :cas :value [1 2]} {:process 0 :type :ok :f :cas :value false}
    {:process 0 :type :invoke :f :write :value 1} {:process 0 :type :ok :f :write :value 1}
    {:process 0 :type :invoke :f :cas :value [1 2]} {:process 0 :type :ok :f :cas :value [1 2]}
    {:process 0 :type :invoke :f :read} {:process 0 :type :ok :f :read :value 2}"""

# The second process waits until the first has released.
MUTEX = """
    {:process 0 :type :invoke :f :acquire} {:process 0 :type :ok :f :acquire}
    {:process 1 :type :invoke :f :acquire}
    {:process 0 :type :invoke :f :release} {:process 0 :type :ok :f :release}
    {:process 1 :type :ok :f :acquire}"""

SECOND_WAITS = """
    {:process 0 :type :invoke :f :acquire} {:process 0 :type :ok :f :acquire}
    {:process 1 :type :invoke :f :acquire} {:process 1 :type :info :f :acquire}"""

TWO_QUEUES = """
    {:process 0 :type :invoke :f :dequeue :object 0}
    {:process 1 :type :invoke :f :dequeue :object 1}
    {:process 2 :type :invoke :f :enqueue :value 7 :object 0}
    {:process 3 :type :invoke :f :enqueue :value 8 :object 1}
    {:process 0 :type :ok :f :dequeue :value 7 :object 0}
    {:process 1 :type :ok :f :dequeue :value 8 :object 1}
    {:process 2 :type :ok :f :enqueue :value 7 :object 0}
    {:process 3 :type :ok :f :enqueue :value 8 :object 1}"""

# Orders of object 0 that are valid, with the verdict.
VALID = (
    ("use in turn", IN_TURN, (0, 2), yes(2, 1, "queue: 1 objects, 2 operations")),
    ("two operations spanned by one: it is the second", SPANNED, (1, 0, 3), yes(3, 1, "queue: 1 objects, 3 operations")),
    ("two operations spanned by one: it is the last", SPANNED, (1, 3, 0), yes(3, 1, "queue: 1 objects, 3 operations")),
    ("a mutex is passed on", MUTEX, (0, 3, 2), yes(3, 1, "mutex: 1 objects, 3 operations")),
    ("a pending operation put in", PENDING_ALONE, (0,), yes(1, 1, "queue: 1 objects, 1 operations")),
    ("a pending operation left out", PENDING_ALONE, (), yes(1, 1, "queue: 1 objects, 1 operations")),
    ("an acquire that waits is left out", SECOND_WAITS, (0,), yes(2, 1, "mutex: 1 objects, 2 operations")),
)

# Orders of object 0 that are not, with the first fault.
FAULTS = (
    ("a return's number", IN_TURN, (0, 1, 2), "C3 object 0: 1 is no operation"),
    ("a negative entry after another", IN_TURN, (0, -1), "C3 object 0: -1 is no operation"),
    ("another negative entry", IN_TURN, (-7,), "C3 object 0: -7 is no operation"),
    ("an entry past 32 bits", IN_TURN, (4294967296,), "C3 object 0: 4294967296 is no operation"),
    ("a pending operation twice", PENDING, (0, 0, 1), "C4 object 0: 0 stands twice"),
    ("the wrong reply comes before the late ones", ONE_BY_ONE, (4, 2, 0), "C6 object 0: 4 gives nil"),
    # The greatest invocation is not that of the entry before.
    ("an operation after a later one", SPANNED, (3, 0, 1), "C5 object 0: 1 returned before 3 was invoked"),
    ("an operation after the next but one", SPANNED, (0, 3, 1), "C5 object 0: 1 returned before 3 was invoked"),
    ("a pending acquire of a held mutex", SECOND_WAITS, (0, 2), "C9 object 0: 2 is not possible"),
    ("an extraction before the least is in", HEAP, (0, 2, 6), "C6 object 0: 6 gives 5"),
    ("a compare-and-set before the write", REGISTER, (4,), "C6 object 0: 4 gives false"),
    (
        "a compare-and-set that succeeds",
        one_process(("write", 1, 1), ("cas", (1, -2), False)),
        (0, 2),
        "C6 object 0: 2 gives [1 -2]",
    ),
    ("nothing in the order", IN_TURN, (), "C7 object 0: 0 is left out"),
    ("nothing in the order, and one pending", PENDING, (), "C7 object 0: 1 is left out"),
    ("two of seven are left out", HEAP, (0, 2, 4, 6, 8), "C7 object 0: 10 is left out"),
    ("an acquire that returned is left out", MUTEX, (0, 3), "C7 object 0: 2 is left out"),
)

# Certificates of several objects, with the first fault.
SEVERAL = (
    (
        "the operation of another object",
        TWO_QUEUES,
        "{:object 0 :order [2 0]} {:object 1 :order [3 0]}",
        "C3 object 1: 0 is no operation",
    ),
    ("no certificate comes before a later object's fault", TWO_QUEUES, "{:object 1 :order [1 3]}", "C1 object 0 has no certificate"),
    ("no certificate comes after an earlier object's fault", TWO_QUEUES, "{:object 0 :order [2 2]}", "C4 object 0: 2 stands twice"),
    ("an operation of each is left out", TWO_QUEUES, "{:object 1 :order [3]} {:object 0 :order [2]}", "C7 object 0: 0 is left out"),
    # Strange objects come last, and the least of them is named.
    (
        "three strange objects",
        IN_TURN,
        "{:object 65535 :order []} {:object 4 :order [0]} {:object 0 :order [0 2]} {:object 9 :order []}",
        "C2 object 4 is not in the history",
    ),
    ("a strange object and a fault", IN_TURN, "{:object 4 :order []} {:object 0 :order [0]}", "C7 object 0: 2 is left out"),
    (
        "a strange object before one without a certificate",
        "{:process 0 :type :invoke :f :pop :object 5}",
        "{:object 4 :order []}",
        "C1 object 5 has no certificate",
    ),
)

# A queue, used at these maps, and a stack. Each process makes one call, and all calls overlap.
OVERLAPPING_CALLS = {
    1: ("push", 1, 1, 5),
    2: ("enqueue", 1, 1, 4),
    3: ("enqueue", 2, 2, 4),
    4: ("push", 2, 2, 5),
    5: ("enqueue", 3, 3, 4),
    6: ("pop", None, 2, 5),
    7: ("dequeue", None, 1, 4),
    8: ("pop", None, 1, 5),
    11: ("dequeue", None, 2, 4),
    13: ("dequeue", None, 3, 4),
}


def invocation_at(number):
    """The invocation at this map, or a map of the nemesis."""
    if number not in OVERLAPPING_CALLS:
        return "{:process :nemesis}"
    f, argument, _, on = OVERLAPPING_CALLS[number]
    return invoke(number, f, argument, on)


QUEUE_AND_STACK = lines(
    *[invocation_at(process) for process in range(14)], *[ok(process, f, reply, on) for process, (f, _, reply, on) in OVERLAPPING_CALLS.items()]
)

READ = [
    check(
        "other keys of a certificate are ignored",
        "{:process :nemesis} {:process :nemesis} {:process 0 :type :invoke :f :pop :object 4} {:process 0 :type :ok :f :pop :object 4}",
        '{:by "x", :order [2], :f 1, :object 4}, ; x',
        yes(1, 1, "stack: 1 objects, 1 operations"),
        0,
    ),
    check(
        "an order is that of the whole element, whatever else the map has",
        QUEUE_AND_STACK,
        "{:by {:order [9 [9]]}, :order [2 3 5 7 11 13], :to [[:order 1] 2 3 4], :object 4} {:object 5, :order [1 4 6 8]}",
        yes(10, 2, "stack: 1 objects, 4 operations", "queue: 1 objects, 6 operations"),
        0,
    ),
]

ROWS = [
    *[check(name, history, order(*entries), verdict, 0) for name, history, entries, verdict in VALID],
    *[check(name, history, order(*entries), f"no: {fault}\n", 1) for name, history, entries, fault in FAULTS],
    *[check(name, history, certificates, f"no: {fault}\n", 1) for name, history, certificates, fault in SEVERAL],
    *READ,
]

# Histories that need a certain choice, and what the finder finds.
FOUND = [
    find(
        "the second dequeue returns what the first enqueue, which runs long, puts in after the second",
        lines(
            invoke(0, "enqueue", 1),
            invoke(1, "enqueue", 2),
            ok(1, "enqueue", 2),
            invoke(1, "dequeue"),
            ok(1, "dequeue", 2),
            ok(0, "enqueue", 1),
            invoke(1, "dequeue"),
            ok(1, "dequeue", 1),
            invoke(1, "dequeue"),
            ok(1, "dequeue"),
        ),
        order(1, 0, 3, 6, 8),
        0,
    ),
    find(
        "two extracts of which the one that is invoked later takes the lesser value",
        lines(
            invoke(0, "insert", 7),
            ok(0, "insert", 7),
            invoke(1, "extract-min"),
            invoke(0, "insert", 3),
            invoke(2, "extract-min"),
            ok(0, "insert", 3),
            ok(1, "extract-min", 7),
            ok(2, "extract-min", 3),
            invoke(2, "extract-min"),
            ok(2, "extract-min"),
        ),
        order(0, 2, 3, 4, 8),
        0,
    ),
    find(
        "the release of a process lets another acquire before it has returned",
        lines(
            invoke(0, "acquire"),
            invoke(1, "acquire"),
            ok(0, "acquire"),
            invoke(0, "release"),
            ok(1, "acquire"),
            ok(0, "release"),
        ),
        order(0, 3, 1),
        0,
    ),
    find(
        "one value put in twice at the same time, and taken twice",
        lines(
            invoke(0, "enqueue", 1),
            invoke(1, "enqueue", 1),
            ok(0, "enqueue", 1),
            ok(1, "enqueue", 1),
            invoke(0, "dequeue"),
            ok(0, "dequeue", 1),
            invoke(0, "dequeue"),
            ok(0, "dequeue", 1),
        ),
        order(0, 1, 4, 6),
        0,
    ),
    find(
        "a value that is set twice in a register",
        lines(
            invoke(0, "write", 1),
            ok(0, "write", 1),
            invoke(0, "write", 1),
            ok(0, "write", 1),
        ),
        order(0, 2),
        0,
    ),
    find(
        "a read of 2 that runs while 2 is written and is over before 3 is; a compare-and-set that fails in between",
        lines(
            invoke(0, "write", 1),
            invoke(1, "read"),
            ok(0, "write", 1),
            invoke(0, "write", 2),
            invoke(2, "cas", (1, 3)),
            ok(1, "read", 2),
            ok(0, "write", 2),
            fail(2, "cas", (1, 3)),
            invoke(2, "cas", (2, 3)),
            ok(2, "cas", (2, 3)),
            invoke(1, "read"),
            ok(1, "read", 3),
        ),
        order(0, 3, 1, 8, 10),
        0,
    ),
    find(
        "two keys: each is set and taken away, and one is seen to be empty in between",
        lines(
            invoke(0, "put", (1, 10)),
            ok(0, "put"),
            invoke(1, "put", (2, 20)),
            invoke(0, "get", 1),
            ok(0, "get", 10),
            ok(1, "put"),
        ),
        order(0, 2, 3),
        0,
    ),
    find(
        "two values of which the lower one is pushed after the begin of the other push, and one that comes and goes between",
        lines(
            invoke(0, "push", 1),
            invoke(1, "push", 2),
            ok(0, "push", 1),
            ok(1, "push", 2),
            invoke(0, "pop"),
            ok(0, "pop", 1),
            invoke(0, "push", 3),
            invoke(1, "pop"),
            ok(1, "pop", 3),
            ok(0, "push", 3),
            invoke(1, "pop"),
            ok(1, "pop", 2),
            invoke(0, "pop"),
            ok(0, "pop"),
        ),
        order(1, 0, 4, 6, 7, 10, 12),
        0,
    ),
]
ROWS += FOUND

# A mutex on each of four objects whose numbers are multiples of 4; on the last one an operation that fails, and nothing is
# known of the other.
FOUR_MUTEXES = """
    {:process 0, :type :invoke, :f :acquire, :object 0}
    {:process 1, :type :invoke, :f :acquire, :object 8}
    {:process 2, :type :invoke, :f :acquire, :object 4}
    {:process 3, :type :invoke, :f :acquire, :object 12}
    {:process 0, :type :ok, :f :acquire, :object 0}
    {:process 3, :type :fail, :f :acquire, :object 12}
    {:process 1, :type :ok, :f :acquire, :object 8}
    {:process 0, :type :invoke, :f :release, :object 8}
    {:process 3, :type :invoke, :f :acquire, :object 12}
    {:process 0, :type :ok, :f :release, :object 8}
    {:process 3, :type :info, :f :acquire, :object 12}"""

# Two values are put into a queue, the second after the first was in.
ONE_AFTER_ANOTHER = """
    {:process 0, :type :invoke, :f :enqueue, :value 1, :object 4}
    {:process 0, :type :ok, :f :enqueue, :value 1, :object 4}
    {:process 1, :type :invoke, :f :enqueue, :value 2, :object 4}
    {:process 1, :type :ok, :f :enqueue, :value 2, :object 4}"""

MUTEXES_YES = yes(5, 4, "mutex: 4 objects, 5 operations")


def of_mutexes(answer, **orders):
    """A row of the four mutexes, with an order for each that has a certificate: a is object 0, b is 4, c is 8, d is 12, e is 2."""
    numbers = dict(a=0, b=4, c=8, d=12, e=2)
    return FOUR_MUTEXES, lines(*[certificate(numbers[on], *entries) for on, entries in orders.items()]), answer


# Histories and certificates that each number of workers answers alike. Each object, and each of its operations, is told from any other.
OF_ALL_WORKERS = (
    (TWO_QUEUES, "{:object 1, :order [3 1]} {:object 0, :order [2 0]}", yes(4, 2, "queue: 2 objects, 4 operations")),
    (TWO_QUEUES, "{:object 1, :order [1]} {:object 0, :order [0]}", "no: C6 object 0: 0 gives nil\n"),
    (TWO_QUEUES, "{:object 0, :order [2 0]}", "no: C1 object 1 has no certificate\n"),
    (TWO_QUEUES, "{:object 1, :order [3 1]}", "no: C1 object 0 has no certificate\n"),
    (
        TWO_QUEUES,
        "{:object 1, :order [3 1]} {:object 0, :order [2 0]} {:object 9, :order []} {:object 7, :order []}",
        "no: C2 object 7 is not in the history\n",
    ),
    (TWO_QUEUES, "{:object 1, :order [3]} {:object 0, :order [2 0]} {:object 7, :order []}", "no: C7 object 1: 1 is left out\n"),
    # What is pending on 4 and 12 is left out, and put in.
    of_mutexes(MUTEXES_YES, a=(0,), b=(), c=(1, 7), d=()),
    of_mutexes(MUTEXES_YES, a=(0,), b=(2,), c=(1, 7), d=(8,)),
    # No object is forgotten.
    of_mutexes("no: C1 object 0 has no certificate\n", b=(), c=(1, 7), d=()),
    of_mutexes("no: C1 object 4 has no certificate\n", a=(0,), c=(1, 7), d=()),
    of_mutexes("no: C1 object 8 has no certificate\n", a=(0,), b=(), d=()),
    of_mutexes("no: C1 object 12 has no certificate\n", a=(0,), b=(), c=(1, 7)),
    # None is made up.
    of_mutexes("no: C2 object 2 is not in the history\n", a=(0,), b=(), c=(1, 7), d=(), e=()),
    # No operation that returned is forgotten.
    of_mutexes("no: C7 object 0: 0 is left out\n", a=(), b=(), c=(), d=()),
    of_mutexes("no: C7 object 8: 1 is left out\n", a=(0,), b=(), c=(), d=()),
    of_mutexes("no: C7 object 8: 7 is left out\n", a=(0,), b=(), c=(1,), d=()),
    # Operations of another object, and one that failed.
    of_mutexes("no: C3 object 0: 1 is no operation\n", a=(0, 1), b=(), c=(1, 7), d=()),
    of_mutexes("no: C3 object 4: 0 is no operation\n", a=(0,), b=(0,), c=(1, 7), d=()),
    of_mutexes("no: C3 object 12: 3 is no operation\n", a=(0,), b=(), c=(1, 7), d=(3,)),
    # What each operation is.
    of_mutexes("no: C9 object 8: 7 is not possible\n", a=(0,), b=(), c=(7, 1), d=()),
    of_mutexes("no: C4 object 4: 2 stands twice\n", a=(0,), b=(2, 2), c=(1, 7), d=()),
    of_mutexes("no: C4 object 12: 8 stands twice\n", a=(0,), b=(), c=(1, 7), d=(8, 8)),
    # It is known when each operation returned.
    (ONE_AFTER_ANOTHER, "{:object 4, :order [0 2]}", yes(2, 1, "queue: 1 objects, 2 operations")),
    (ONE_AFTER_ANOTHER, "{:object 4, :order [2 0]}", "no: C5 object 4: 0 returned before 2 was invoked\n"),
    # There may be nothing to share.
    ("", "", yes(0, 0)),
    ("", "{:object 0, :order []}", "no: C2 object 0 is not in the history\n"),
    # The history alone is malformed, or the certificates are.
    (IN_TURN, "[0 2]", "malformed certificates: K1 at form 0\n"),
    ("7", "[0 2]", "malformed history: H1 at map 0\n"),
    ("{", "}", "malformed history: E2 at byte 1\n"),
    (IN_TURN, order(0, 2), yes(2, 1, "queue: 1 objects, 2 operations")),
    (IN_TURN, order(2, 0), "no: C6 object 0: 2 gives nil\n"),
)
STATUSES = {"yes": 0, "no:": 1, "mal": 2}
