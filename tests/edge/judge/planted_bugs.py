"""Planted bugs: the sentence that judge gives of each, and how many operations it tells.

A number in a sentence is that of an event. What the part says is checked by all orders, and by refute."""
import re

from ..verify.reasons import explained_in, why_not_explained
from ..worked_rows import HISTORY, OUT_OF_ORDER
from ..text_writers import fail, invoke, lines, ok, one_process

# What a sentence says after the pattern: where the part begins, and the first event that leaves no order.
AFTER = re.compile(r"(?<=.); (?:before that, event |event \d+ is the first|the first event) ?.*$")

# Value 7 is taken twice, and put in once.
TAKEN_TWICE = lines(
    invoke(0, "enqueue", 6),
    ok(0, "enqueue", 6),
    invoke(0, "enqueue", 7),
    ok(0, "enqueue", 7),
    invoke(0, "dequeue"),
    ok(0, "dequeue", 6),
    invoke(0, "dequeue"),
    ok(0, "dequeue", 7),
    invoke(1, "dequeue"),
    ok(1, "dequeue", 7),
)

# Value 9 is taken, and no call puts it in.
NEVER_PUT = lines(
    invoke(0, "enqueue", 6),
    ok(0, "enqueue", 6),
    invoke(0, "dequeue"),
    ok(0, "dequeue", 9),
)

# Value 5 is taken before it is put in.
TAKEN_TOO_EARLY = lines(
    invoke(0, "dequeue"),
    ok(0, "dequeue", 5),
    invoke(0, "enqueue", 5),
    ok(0, "enqueue", 5),
)

# Value 5 is put in twice, and taken three times.
TAKEN_TOO_OFTEN = lines(
    invoke(0, "push", 5),
    ok(0, "push", 5),
    invoke(0, "push", 5),
    ok(0, "push", 5),
    invoke(0, "pop"),
    ok(0, "pop", 5),
    invoke(0, "pop"),
    ok(0, "pop", 5),
    invoke(0, "pop"),
    ok(0, "pop", 5),
)

# Values 3, 1 and 2 are put in, and 2 is taken before 1.
WRONG_ORDER = lines(
    invoke(0, "enqueue", 3),
    ok(0, "enqueue", 3),
    invoke(0, "enqueue", 1),
    ok(0, "enqueue", 1),
    invoke(1, "enqueue", 2),
    ok(1, "enqueue", 2),
    invoke(0, "dequeue"),
    ok(0, "dequeue", 3),
    invoke(0, "dequeue"),
    ok(0, "dequeue", 2),
    invoke(0, "dequeue"),
    ok(0, "dequeue", 1),
)

# Nothing is found while 1 is in the queue.
NOT_EMPTY = lines(
    invoke(0, "enqueue", 1),
    ok(0, "enqueue", 1),
    invoke(0, "dequeue"),
    ok(0, "dequeue"),
    invoke(0, "dequeue"),
    ok(0, "dequeue", 1),
)

# A pending call may have taken 1 before 2 is taken.
PENDING_TAKING = lines(
    invoke(0, "enqueue", 1),
    ok(0, "enqueue", 1),
    invoke(0, "enqueue", 2),
    ok(0, "enqueue", 2),
    invoke(1, "dequeue"),
    invoke(0, "dequeue"),
    ok(0, "dequeue", 2),
)

# Value 2 is put on 1, and 1 is taken before it.
LOWER_FIRST = lines(
    invoke(0, "push", 1),
    ok(0, "push", 1),
    invoke(0, "push", 2),
    ok(0, "push", 2),
    invoke(0, "pop"),
    ok(0, "pop", 1),
    invoke(0, "pop"),
    ok(0, "pop", 2),
)

# Value 2 is put on 1, and is there when 1 is taken.
LEFT_ABOVE = lines(
    invoke(0, "push", 1),
    ok(0, "push", 1),
    invoke(0, "push", 2),
    ok(0, "push", 2),
    invoke(0, "pop"),
    ok(0, "pop", 1),
)

# Value 2 is extracted while 1 is in the heap.
GREATER_FIRST = lines(
    invoke(0, "insert", 1),
    ok(0, "insert", 1),
    invoke(0, "insert", 2),
    ok(0, "insert", 2),
    invoke(0, "extract-min"),
    ok(0, "extract-min", 2),
    invoke(0, "extract-min"),
    ok(0, "extract-min", 1),
)

# Value 5 is extracted while first 1 and then 2 definitely is in the heap.
UNDER_TWO = lines(
    invoke(0, "insert", 5),
    ok(0, "insert", 5),
    invoke(0, "insert", 1),
    ok(0, "insert", 1),
    invoke(1, "extract-min"),
    invoke(0, "insert", 2),
    ok(0, "insert", 2),
    invoke(0, "extract-min"),
    ok(0, "extract-min", 1),
    ok(1, "extract-min", 5),
)

# Value 9 is read, and no call writes it.
# A read, a swap or a removal gives what only operations wrote that failed, or were refused.
DIRTY_READ = lines(invoke(0, "write", 9), fail(0, "write", 9), invoke(0, "read"), ok(0, "read", 9))
DIRTY_SWAP = lines(invoke(0, "write", 9), fail(0, "write", 9), invoke(0, "cas", (9, 4)), ok(0, "cas", (9, 4)))
DIRTY_READS = lines(*[event for _ in range(3) for event in (invoke(0, "write", 9), fail(0, "write", 9))], invoke(0, "read"), ok(0, "read", 9))
READ_OF_A_REFUSED_SWAP = lines(invoke(0, "cas", (1, 9)), ok(0, "cas", False), invoke(0, "read"), ok(0, "read", 9))
READ_OF_A_REFUSED_CREATION = lines(
    invoke(0, "create", 0), ok(0, "create", True), invoke(0, "create", 1), ok(0, "create", False), invoke(0, "read"), ok(0, "read", 1),
)
GOT_REFUSED = lines(
    invoke(0, "put-if-absent", (7, 4)), ok(0, "put-if-absent", True), invoke(0, "put-if-absent", (7, 5)), ok(0, "put-if-absent", False),
    invoke(0, "get", 7), ok(0, "get", 5),
)
TWICE_REFUSED = lines(
    invoke(0, "create", 0), ok(0, "create", True), invoke(0, "create", 9), ok(0, "create", False), invoke(0, "cas", (1, 9)), ok(0, "cas", False),
    invoke(0, "read"), ok(0, "read", 9),
)
# A swap that replies other values than it was given expects the value of its argument.
SWAPPED_OTHERS = lines(invoke(0, "cas", (0, 0)), ok(0, "cas", (-1, 1)))
DEQUEUED_FAILED = lines(invoke(0, "enqueue", 9), fail(0, "enqueue", 9), invoke(0, "dequeue"), ok(0, "dequeue", 9))
GOT_FAILED = lines(invoke(0, "put", (7, 5)), fail(0, "put", (7, 5)), invoke(0, "get", 7), ok(0, "get", 5))
# The failed put is one of another key.
GOT_ELSEWHERE = lines(invoke(0, "put", (6, 5)), fail(0, "put", (6, 5)), invoke(0, "get", 7), ok(0, "get", 5))
SWAPPED_UNSET = one_process(("write", 1, 1), ("cas", (9, 2), (9, 2)))
SWAPPED_STALE = one_process(("write", 1, 1), ("write", 2, 2), ("cas", (1, 3), (1, 3)))
NEVER_WRITTEN = lines(
    invoke(0, "write", 1),
    ok(0, "write", 1),
    invoke(0, "read"),
    ok(0, "read", 9),
)

# Value 1 is read after 2 was written over it.
STALE = lines(
    invoke(0, "write", 1),
    ok(0, "write", 1),
    invoke(0, "write", 2),
    ok(0, "write", 2),
    invoke(1, "read"),
    ok(1, "read", 1),
)

# Nothing is read after 1 was written.
STALE_NIL = lines(
    invoke(0, "write", 1),
    ok(0, "write", 1),
    invoke(1, "read"),
    ok(1, "read"),
)

# Two writes run all the time. Value 1 is read before 2, and after it.
CROSSED = lines(
    invoke(0, "write", 1),
    invoke(1, "write", 2),
    invoke(2, "read"),
    ok(2, "read", 1),
    invoke(2, "read"),
    ok(2, "read", 2),
    invoke(2, "read"),
    ok(2, "read", 1),
    ok(0, "write", 1),
    ok(1, "write", 2),
)

# Two swaps that overlap expect 1, which is written once, and both are done.
SWAPPED_TWICE = lines(
    invoke(0, "write", 1),
    ok(0, "write", 1),
    invoke(0, "cas", (1, 2)),
    invoke(1, "cas", (1, 3)),
    ok(0, "cas", (1, 2)),
    ok(1, "cas", (1, 3)),
)

# A swap is refused while the value that it expects is there.
REFUSED = lines(
    invoke(0, "write", 2),
    ok(0, "write", 2),
    invoke(0, "write", 1),
    ok(0, "write", 1),
    invoke(1, "cas", (1, 2)),
    ok(1, "cas", False),
)

# Value 5 is seen under key 7, and no call puts it there.
NEVER_STORED = lines(
    invoke(0, "put", (7, 1)),
    ok(0, "put"),
    invoke(0, "put", (8, 5)),
    ok(0, "put"),
    invoke(0, "get", 7),
    ok(0, "get", 5),
)

# Value 1 is seen under key 7 after it was removed.
REMOVED = lines(
    invoke(0, "put", (7, 1)),
    ok(0, "put"),
    invoke(0, "put", (8, 1)),
    ok(0, "put"),
    invoke(0, "del", 7),
    ok(0, "del", 1),
    invoke(1, "get", 7),
    ok(1, "get", 1),
)

# Value 1 is put under key 7 once, and two removals that overlap give it.
REMOVED_TWICE = lines(
    invoke(0, "put", (7, 1)),
    ok(0, "put"),
    invoke(0, "del", 7),
    invoke(1, "del", 7),
    ok(0, "del", 1),
    ok(1, "del", 1),
)

# Key 7 is found without a value by two puts that overlap.
FOUND_NONE = lines(
    invoke(0, "put", (7, 1)),
    invoke(1, "put", (7, 2)),
    ok(0, "put"),
    ok(1, "put"),
)

# A mutex that two hold at the end.
TWO_HOLD = lines(
    invoke(0, "acquire"),
    ok(0, "acquire"),
    invoke(0, "release"),
    ok(0, "release"),
    invoke(1, "acquire"),
    ok(1, "acquire"),
    invoke(0, "acquire"),
    ok(0, "acquire"),
)

# A mutex that is released twice.
RELEASED_TWICE = lines(
    invoke(0, "acquire"),
    ok(0, "acquire"),
    invoke(0, "release"),
    ok(0, "release"),
    invoke(1, "release"),
    ok(1, "release"),
)

# A mutex is released by another process.
PASSED_ON = lines(
    invoke(0, "acquire"),
    ok(0, "acquire"),
    invoke(1, "release"),
    ok(1, "release"),
    invoke(1, "acquire"),
    ok(1, "acquire"),
    invoke(0, "release"),
    ok(0, "release"),
)

# Under key 3 value 1 is replaced by 2, which returns late, and 2 by 9, which returns before 1 is seen.
REPLACED_IN_A_CHAIN = lines(
    invoke(0, "put", (3, 1)),
    invoke(1, "put", (3, 2)),
    invoke(2, "put", (3, 9)),
    ok(2, "put", 2),
    ok(0, "put"),
    invoke(0, "get", 3),
    ok(0, "get", 1),
    ok(1, "put", 1),
)

# Under key 3 value 1 is put twice. While the second put goes on 1 is replaced, and seen after that.
SEEN_AFTER_IT_WAS_TAKEN = lines(
    invoke(0, "put", (3, 1)),
    ok(0, "put"),
    invoke(0, "put", (3, 4)),
    ok(0, "put", 1),
    invoke(1, "put", (3, 1)),
    invoke(0, "put", (3, 5)),
    ok(0, "put", 1),
    invoke(0, "get", 3),
    ok(0, "get", 1),
    ok(1, "put", 4),
)

# The same of a register, in which 3 is written between two reads of 1.
SEEN_AFTER_ANOTHER = lines(
    invoke(0, "write", 1),
    ok(0, "write", 1),
    invoke(0, "write", 2),
    ok(0, "write", 2),
    invoke(1, "write", 1),
    invoke(0, "read"),
    ok(0, "read", 1),
    invoke(0, "write", 3),
    ok(0, "write", 3),
    invoke(0, "read"),
    ok(0, "read", 1),
    ok(1, "write", 1),
)

# ---- long histories with one planted bug near their end

ROUNDS = range(1, 10_001)

LONG_QUEUE = lines(
    invoke(0, "enqueue", 0),
    ok(0, "enqueue", 0),
    *[of for number in ROUNDS for of in (invoke(0, "enqueue", number), invoke(1, "dequeue"), ok(0, "enqueue", number), ok(1, "dequeue", number - 1))],
    invoke(0, "enqueue", -2),
    ok(0, "enqueue", -2),
    invoke(0, "dequeue"),
    ok(0, "dequeue", -2),
)

LONG_STACK = lines(
    invoke(0, "push", 0),
    ok(0, "push", 0),
    *[of for number in ROUNDS for of in (invoke(0, "push", number), invoke(1, "pop"), ok(0, "push", number), ok(1, "pop", number - 1))],
    invoke(0, "push", -2),
    ok(0, "push", -2),
    invoke(0, "pop"),
    ok(0, "pop", 10000),
)

LONG_HEAP = lines(
    invoke(0, "insert", 0),
    ok(0, "insert", 0),
    *[of for n in ROUNDS for of in (invoke(0, "insert", n), invoke(1, "extract-min"), ok(0, "insert", n), ok(1, "extract-min", n - 1))],
    invoke(0, "insert", 20000),
    ok(0, "insert", 20000),
    invoke(0, "extract-min"),
    ok(0, "extract-min", 20000),
)

LONG_REGISTER = lines(
    invoke(0, "write", 0),
    ok(0, "write", 0),
    *[of for number in ROUNDS for of in (invoke(0, "write", number), invoke(1, "read"), ok(0, "write", number), ok(1, "read", number - 1))],
    invoke(0, "read"),
    ok(0, "read", 7),
)

LONG_MAP = lines(
    invoke(0, "put", (5, 0)),
    ok(0, "put"),
    *[of for number in ROUNDS for of in (invoke(0, "put", (5, number)), invoke(1, "get", 5), ok(0, "put", number - 1), ok(1, "get", number - 1))],
    invoke(0, "get", 5),
    ok(0, "get", 7),
)

# Two reads that overlap find two values, which are written twice each, and not after both reads begin.
LONG_READS = lines(
    *[of for number in range(100) for of in (invoke(0, "write", number), ok(0, "write", number))],
    invoke(0, "write", 1),
    invoke(1, "write", 2),
    ok(0, "write", 1),
    ok(1, "write", 2),
    invoke(0, "read"),
    invoke(1, "read"),
    ok(0, "read", 1),
    ok(1, "read", 2),
)

LONG_MUTEX = lines(
    *[of for number in ROUNDS for of in (invoke(0, "acquire"), ok(0, "acquire"), invoke(1, "release"), ok(1, "release"))],
    invoke(0, "acquire"),
    ok(0, "acquire"),
    invoke(1, "acquire"),
    ok(1, "acquire"),
)

# A history, what judge says of it, and how many operations it tells.
SMALL = (
    (TAKEN_TWICE, "value 7 was enqueued once and dequeued twice", 3),
    (NEVER_PUT, "value 9 was dequeued and never enqueued", 1),
    (TAKEN_TOO_EARLY, "value 5 was dequeued before it was enqueued", 1),
    (TAKEN_TOO_OFTEN, "value 5 was popped 3 times and by then pushed 2 times", 5),
    (WRONG_ORDER, "value 1 was enqueued before value 2 and dequeued after it", 3),
    (OUT_OF_ORDER, "value 2 was dequeued while value 1, which was enqueued before it, was still in the queue", 3),
    (NOT_EMPTY, "the queue was definitely not empty when event 2 found nothing: value 1 was in it (dequeued later, by event 4)", 2),
    (LOWER_FIRST, "value 1 was popped before value 2, which was pushed on it", 3),
    (LEFT_ABOVE, "value 1 was popped while value 2, which was pushed on it, was still in the stack", 3),
    (GREATER_FIRST, "value 2 was extracted while the smaller value 1 was definitely in the heap", 3),
    (UNDER_TWO, "value 5 was extracted while some smaller value was definitely in the heap", 5),
    (NEVER_WRITTEN, "value 9 was read and never written", 1),
    (DIRTY_READ, "value 9 was read and only written by event 0, which failed", 1),
    (DIRTY_SWAP, "value 9 was expected by an accepted :cas and only written by event 0, which failed", 1),
    (DIRTY_READS, "value 9 was read and only written by 3 operations that failed, the first of them event 0", 1),
    (READ_OF_A_REFUSED_SWAP, "value 9 was read and only written by the :cas of event 0, which was refused", 1),
    (READ_OF_A_REFUSED_CREATION, "value 1 was read and only written by the :create of event 2, which was refused", 1),
    (GOT_REFUSED, "key 7: value 5 was seen and only put by the :put-if-absent of event 2, which was refused", 1),
    (TWICE_REFUSED, "value 9 was read and only written by 2 operations that were refused, the first of them event 2", 1),
    (SWAPPED_OTHERS, "value 0 was expected by an accepted :cas and never written", 1),
    (DEQUEUED_FAILED, "value 9 was dequeued and only enqueued by event 0, which failed", 1),
    (GOT_FAILED, "key 7: value 5 was seen and only put by event 0, which failed", 1),
    (GOT_ELSEWHERE, "key 7: value 5 was seen and never put", 1),
    (SWAPPED_UNSET, "value 9 was expected by an accepted :cas and never written", 1),
    (SWAPPED_STALE, "value 1 was expected by an accepted :cas after another content had replaced it", 2),
    (STALE, "value 1 was read after another content had replaced it", 2),
    (STALE_NIL, "nil was read after another content had replaced it", 2),
    (CROSSED, "each of the values 1 and 2 was read before the other, and each was written once", 4),
    (SWAPPED_TWICE, "value 1 was written once and replaced by :cas twice", 3),
    (REFUSED, "value 1 was definitely there when the :cas of event 4, which expects it, was refused", 2),
    (NEVER_STORED, "key 7: value 5 was seen and never put", 1),
    (REMOVED, "key 7: value 1 was seen after it had been replaced or removed", 1),
    (REPLACED_IN_A_CHAIN, "key 3: value 1 was seen after it had been replaced or removed", 4),
    (SEEN_AFTER_IT_WAS_TAKEN, "key 3: value 1 was seen after it had been replaced or removed", 4),
    (SEEN_AFTER_ANOTHER, "value 1 was read after another content had replaced it", 5),
    (REMOVED_TWICE, "key 7: value 1 was put once and replaced or removed twice", 3),
    (FOUND_NONE, "key 7: nil was seen more often than the key can have been without a value", 2),
    (TWO_HOLD, "the lock was acquired more often than it can have been free", 2),
    (RELEASED_TWICE, "the lock was released more often than it can have been held", 3),
)
# The most operations of a reason of these.
LONG = (
    (LONG_QUEUE, "value -2 was dequeued while value 10000, which was enqueued before it, was still in the queue", 3),
    (LONG_STACK, "value 10000 was popped while value -2, which was pushed on it, was still in the stack", 3),
    (LONG_HEAP, "value 20000 was extracted while the smaller value 10000 was definitely in the heap", 3),
    (LONG_REGISTER, "value 7 was read after another content had replaced it", 2),
    (LONG_MAP, "key 5: value 7 was seen after it had been replaced or removed", 3),
    (LONG_READS, "the following operations have no valid order", 4),
    (LONG_MUTEX, "the lock was acquired more often than it can have been free", 2),
)
# The other sentences, and the sentences with other kinds of objects.
SENTENCES = (
    (one_process(("push", 6, 6), ("pop", None, 7), ("push", 7, 7)), "value 7 was popped before it was pushed"),
    (one_process(("insert", 7, 7), ("extract-min", None, 7), ("extract-min", None, 7)), "value 7 was inserted once and extracted twice"),
    (
        one_process(("enqueue", 7, 7), ("dequeue", None, 7), ("dequeue", None, 7), ("enqueue", 7, 7)),
        "value 7 was dequeued 2 times and by then enqueued once",
    ),
    (
        one_process(*[("dequeue", None, None)] * 5, ("enqueue", 1, 1), ("dequeue", None, None), ("dequeue", None, 1)),
        "the queue was definitely not empty when event 12 found nothing: value 1 was in it (dequeued later, by event 14)",
    ),
    (
        one_process(("insert", 3, 3), ("insert", 5, 5), ("extract-min", None, 5)),
        "value 5 was extracted while the smaller value 3 was definitely in the heap",
    ),
    (
        one_process(("enqueue", 1, 1), ("enqueue", -2, -2), ("dequeue", None, -2), ("dequeue", None, 1)),
        "value 1 was enqueued before value -2 and dequeued after it",
    ),
    (
        one_process(("push", 1, 1), ("push", -2, -2), ("pop", None, 1), ("pop", None, -2)),
        "value 1 was popped before value -2, which was pushed on it",
    ),
    (
        one_process(("enqueue", 1, 1), ("enqueue", -2, -2), ("dequeue", None, -2)),
        "value -2 was dequeued while value 1, which was enqueued before it, was still in the queue",
    ),
    (
        one_process(("push", 1, 1), ("push", -2, -2), ("pop", None, 1)),
        "value 1 was popped while value -2, which was pushed on it, was still in the stack",
    ),
    (one_process(("write", 7, 7), ("write", 8, 8), ("read", None, 7)), "value 7 was read after another content had replaced it"),
    (
        one_process(*[("read", None, None)] * 5, ("write", 5, 5)) + lines(invoke(1, "cas", (5, 6)), ok(1, "cas", False)),
        "value 5 was definitely there when the :cas of event 12, which expects it, was refused",
    ),
    (
        lines(
            *[of for process in (0, 1) for of in (invoke(process, "write", 5),)],
            *[ok(process, "write", 5) for process in (0, 1)],
            *[invoke(process, "cas", (5, process)) for process in (0, 1, 2)],
            *[ok(process, "cas", (5, process)) for process in (0, 1, 2)],
        ),
        "value 5 was replaced by :cas more often than it can have been there",
    ),
    (
        lines(
            invoke(0, "write", 1),
            invoke(1, "write", 2),
            ok(0, "write", 1),
            ok(1, "write", 2),
            *[of for value in (1, 2) for of in (invoke(0, "cas", (value, 9)), ok(0, "cas", False))],
        ),
        "the following operations have no valid order",
    ),
    (one_process(("put", (3, 5), None), ("get", 3, None)), "key 3: nil was seen after another content had replaced it"),
    (one_process(("put", (-3, 4), None), ("get", -3, 5)), "key -3: value 5 was seen and never put"),
    (
        lines(
            invoke(0, "put", (3, 5)), ok(0, "put"), invoke(0, "del", 3), invoke(1, "del", 3), ok(0, "del", 5), ok(1, "del", 5)
        ),
        "key 3: value 5 was put once and replaced or removed twice",
    ),
    # The second put replaces 5 by 5, so 5 was put twice.
    (
        lines(
            *[invoke(0, "put", (3, 5)), ok(0, "put"), invoke(0, "put", (3, 5)), ok(0, "put", 5)],
            *[invoke(0, "del", 3), invoke(1, "del", 3), ok(0, "del", 5), ok(1, "del", 5)],
        ),
        "key 3: value 5 was replaced or removed more often than it can have been there",
    ),
    (
        lines(invoke(0, "put", (3, 1)), invoke(1, "put", (3, 2)), ok(0, "put"), ok(1, "put")),
        "key 3: nil was seen more often than the key can have been without a value",
    ),
)
# Histories that are linearizable.
LINEARIZABLE = ((PENDING_TAKING, "yes: 4 operations, 1 objects"), (PASSED_ON, "yes: 4 operations, 1 objects"))


def planted_bugs(program, report):
    """judge says in a sentence what is wrong with each history, and lists a few operations, which have no valid order."""
    rows = [(history, sentence, size, size) for history, sentence, size in SMALL]
    rows += [(history, sentence, 1, most) for history, sentence, most in LONG]
    rows += [(history, sentence, 1, 1000) for history, sentence in SENTENCES]
    for number, (history, sentence, least, most) in enumerate(rows):
        name = f"judge: planted bug {number}: {sentence}"
        ran = program.run("judge", "--steps", "0", program.write(HISTORY, history))
        explained, _ = explained_in(ran.out)
        report.equal(name, (1, b"", f"; {sentence}"), (ran.status, ran.err, AFTER.sub("", ran.out.decode().splitlines()[1])))
        report.holds(f"{name}: its operations", least <= len(explained[0][1]) <= most, ran)
        report.equal(f"{name}: why", None, why_not_explained(program, history, ran), ran)
    for history, first_line in LINEARIZABLE:
        ran = program.run("judge", "--steps", "0", program.write(HISTORY, history))
        report.equal("judge: nothing is wrong", (0, first_line), (ran.status, ran.out.decode().splitlines()[0]))


PARTS = (planted_bugs,)
