"""Worked rows of verify: evidence, and what it shows of a history.

The expected values are worked out by hand from docs/formats.md. Where a search decides, how many steps it takes is that of a row of search."""
from .. import worked_rows
from ..worked_rows import (
    ENQUEUE_DEQUEUE, FIRST_WRITE_LAST, ONE_OF_TWO, OUT_OF_ORDER, OVERLAPPING, PENDING, QUEUES_YES, QUEUE_YES,
    THREE_VALUES, THREE_YES, TWO_QUEUES, verify,
)
from ..text_writers import certificate, lines, one_process, order

OPEN = "; object 0: open\n"
WHOLE = "{:object 0}\n"


def out_of_steps(steps, on=0):
    return f"; object {on}: out of steps after {steps}\n"


def searched(first, steps, on=0):
    """The claim that asks for the search of a whole object."""
    return f"{{:object {on}, :search {{:first :{first}, :steps {steps}}}}}\n"


def impossible(reason, *operations, note=None, on=0):
    """The lines on an object that has no valid order."""
    sentence = [] if note is None else [note]
    return lines(f"; object {on}: impossible", *[f"; {line}" for line in (*sentence, *operations, reason)])


# ---- orders

ORDERS = [
    verify("no evidence of no object", "", "", worked_rows.yes(0, 0), 0),
    verify("evidence of an object that is not there", "", lines(certificate(3)), worked_rows.yes(0, 0), 0),
    verify("no evidence", OVERLAPPING, "", OPEN, 3),
    verify("comments alone", OVERLAPPING, "; {:object 0, :order [1 0 4]}\n", OPEN, 3),
    verify("a valid order", OVERLAPPING, order(1, 0, 4), THREE_YES, 0),
    verify("an order that the object refuses", OVERLAPPING, order(0, 1, 4), OPEN, 3),
    verify("an order against the order of the history", OUT_OF_ORDER, order(2, 0, 4), OPEN, 3),
    verify("an order without an operation that returned", OVERLAPPING, order(1, 0), OPEN, 3),
    verify("an order with an operation twice", OVERLAPPING, order(1, 0, 4, 4), OPEN, 3),
    verify("an order of another object", ENQUEUE_DEQUEUE, lines(certificate(1, 0, 2)), OPEN, 3),
    verify("the number of no operation", OVERLAPPING, order(1, 0, 4, 5), OPEN, 3),
    verify("a huge number", OVERLAPPING, order(1, 0, 4, worked_rows.LARGEST), OPEN, 3),
    verify("a failed operation", worked_rows.FAILED, order(0), OPEN, 3),
    verify("a failed operation alone", worked_rows.FAILED, order(), worked_rows.yes(0, 1, "queue: 1 objects, 0 operations"), 0),
    verify("a pending operation has happened", PENDING, order(0, 1), QUEUE_YES, 0),
    verify("a valid order after a wrong one", OVERLAPPING, order(0, 1, 4) + order(1, 0, 4), THREE_YES, 0),
    verify("a wrong order after a valid one", OVERLAPPING, order(1, 0, 4) + order(0, 1, 4), THREE_YES, 0),
    verify("two objects, the later one first", TWO_QUEUES, worked_rows.TWO_ORDERS, QUEUES_YES, 0),
    verify("one of two objects", TWO_QUEUES, lines(certificate(1, 3, 1)), OPEN, 3),
    verify(
        "orders of two objects exchanged",
        TWO_QUEUES,
        lines(certificate(0, 3, 1), certificate(1, 2, 0)),
        "; object 0: open\n; object 1: open\n",
        3,
    ),
    verify("an object that is not there as well", OVERLAPPING, lines(certificate(7, 1)) + order(1, 0, 4) + "{:object 9}", THREE_YES, 0),
    verify("a heap", worked_rows.HEAP, order(*range(0, 14, 2)), worked_rows.yes(7, 1, "heap: 1 objects, 7 operations"), 0),
    verify("a register", worked_rows.REGISTER, order(0, 2, 4, 6), worked_rows.yes(4, 1, "register: 1 objects, 4 operations"), 0),
    verify("a map", worked_rows.MAP, order(*range(0, 10, 2)), worked_rows.yes(5, 1, "map: 1 objects, 5 operations"), 0),
    verify("a mutex", worked_rows.MUTEX, order(0, 3, 2), worked_rows.MUTEX_YES, 0),
    verify("keys that have no meaning", OVERLAPPING, "{:object 0, :order [1 0 4], :search 7, :note 7, :cuts 7}", THREE_YES, 0),
]

# ---- reasons

OPERATIONS = worked_rows.ENQUEUE_1, worked_rows.ENQUEUE_2, worked_rows.DEQUEUE_2
ALL_OPERATIONS = worked_rows.ENQUEUE_1, worked_rows.ENQUEUE_2, worked_rows.ENQUEUE_3, worked_rows.DEQUEUE_2
CUTS = ":cuts [{:keep [1 2], :numbers [0 2 6]}]"
OF_OUT_OF_ORDER = (
    "events 0 and 1: process 0, :enqueue 1, :ok 1",
    "events 2 and 3: process 1, :enqueue 2, :ok 2",
    "events 4 and 5: process 0, :dequeue nil, :ok 2",
)
TWO_OF_THREE = impossible(worked_rows.TWO_OF_THREE, *OPERATIONS)
DEQUEUE_5 = "events 2 and 3: process 0, :dequeue nil, :ok 5"
TWICE = one_process(("enqueue", 7, 7), ("dequeue", None, 7), ("enqueue", 1, 1), ("dequeue", None, 7))
COUNTED = "{:object 0, :cuts [{:keep [7], :numbers [0 2 6]}], :count {:value 7, :from 0}}"
TAKEN_TWICE = (
    "events 0 and 1: process 0, :enqueue 7, :ok 7",
    "events 2 and 3: process 0, :dequeue nil, :ok 7",
    "events 6 and 7: process 0, :dequeue nil, :ok 7",
)


def with_note(note):
    return f"{{:object 0, {CUTS}, :note {note}}}"


def said(name, note, printed):
    """A reason with this note, which is printed so, or not at all."""
    return verify(f"a note with {name}", THREE_VALUES, with_note(note), impossible(worked_rows.TWO_OF_THREE, *OPERATIONS, note=printed), 1)


REASONS = [
    verify("a reason", THREE_VALUES, worked_rows.TWO_OF_THREE, TWO_OF_THREE, 1),
    verify("the whole", THREE_VALUES, WHOLE, impossible("{:object 0, :cuts []}", *ALL_OPERATIONS), 1),
    verify("a count", TWICE, COUNTED, impossible(COUNTED, *TAKEN_TWICE), 1),
    verify("a count that is not exceeded", THREE_VALUES, "{:object 0, :count {:value 2}}", OPEN, 3),
    verify("a part that has an order", THREE_VALUES, "{:object 0, :cuts [{:keep [2], :numbers [2 6]}]}", OPEN, 3),
    verify("a part of a good history that has an order", OVERLAPPING, "{:object 0, :cuts [{:keep [1], :numbers [0]}]}", OPEN, 3),
    verify("the whole of a good history by a cut", OVERLAPPING, "{:object 0, :cuts [{:until 6}]}", OPEN, 3),
    verify("cuts that name no part", THREE_VALUES, "{:object 0, :cuts [{:keep [1 2], :numbers [0 6]}]}", OPEN, 3),
    verify("a reason of an object that is not there", THREE_VALUES, "{:object 7}", OPEN, 3),
    verify(
        "a reason after others that show nothing",
        THREE_VALUES,
        order(0, 2, 4, 6) + "{:object 0, :count {:value 2}}" + worked_rows.TWO_OF_THREE,
        TWO_OF_THREE,
        1,
    ),
    verify("the first of two reasons", THREE_VALUES, worked_rows.TWO_OF_THREE + WHOLE, TWO_OF_THREE, 1),
    verify(
        "the first of two reasons in the other order",
        THREE_VALUES,
        WHOLE + worked_rows.TWO_OF_THREE,
        impossible("{:object 0, :cuts []}", *ALL_OPERATIONS),
        1,
    ),
    verify("a reason, and another object is open", ONE_OF_TWO, WHOLE, impossible("{:object 0, :cuts []}", DEQUEUE_5) + "; object 1: open\n", 1),
    verify(
        "a reason, and another object has an order",
        ONE_OF_TWO,
        lines(certificate(1, 0)) + WHOLE,
        impossible("{:object 0, :cuts []}", DEQUEUE_5),
        1,
    ),
    verify("an order, and the object that has none is open", ONE_OF_TWO, lines(certificate(1, 0)), OPEN, 3),
    said("words", '"value 2 came out before value 1"', "value 2 came out before value 1"),
    said("nothing in it", '""', ""),
    said("quotes", r'"a \"queue\" \\ here"', 'a "queue" \\ here'),
    # What could be taken for another line of the answer, or could change how it is shown, is not printed.
    said("letters past ASCII", '"über → ①"', None),
    said("an escaped line feed", r'"x\nyes: 3 operations, 1 objects"', None),
    said("a line feed", '"x\nyes: 3 operations, 1 objects"', None),
    said("a carriage return", r'"x\ryes"', None),
    said("a tab", r'"x\ty"', None),
    said("the last control character", '"x\x7f"', None),
    said("the first control character", '"x\x00"', None),
    said("a number for a string", "7", None),
    verify("a note of an order is not printed", OUT_OF_ORDER, '{:object 0, :order [0 2 4], :note "it is"}', OPEN, 3),
    verify("a note of a reason that shows nothing is not printed", OVERLAPPING, '{:object 0, :note "it is"}', THREE_YES, 0),
]

# ---- searches

OF_THREE_STEPS = impossible("{:object 0, :cuts [], :search {:first :number, :steps 3}}", *OF_OUT_OF_ORDER)
SEARCHES = [
    verify("a search finds an order", OVERLAPPING, WHOLE, THREE_YES, 0),
    verify("a search of a mutex", worked_rows.MUTEX, WHOLE, worked_rows.MUTEX_YES, 0),
    verify("a search of as many steps as it takes", OVERLAPPING, searched("number", 6), THREE_YES, 0),
    verify("a search with a step fewer", OVERLAPPING, searched("number", 5), out_of_steps(5), 3),
    verify("a search by return", PENDING, searched("return", 3), QUEUE_YES, 0),
    verify("a search by return with a step fewer", PENDING, searched("return", 2), out_of_steps(2), 3),
    verify("a search by number takes a step fewer", PENDING, searched("number", 2), QUEUE_YES, 0),
    verify("a search by number with a step fewer", PENDING, searched("number", 1), out_of_steps(1), 3),
    verify("a search finds that there is no order", OUT_OF_ORDER, searched("number", 3), OF_THREE_STEPS, 1),
    verify("a search for that with a step fewer", OUT_OF_ORDER, searched("number", 2), out_of_steps(2), 3),
    verify("a search of a part", THREE_VALUES, f"{{:object 0, {CUTS}, :search {{:first :number, :steps 0}}}}", out_of_steps(0), 3),
    verify("the steps of --steps", FIRST_WRITE_LAST, WHOLE, out_of_steps(7), 3, "--steps", "7"),
    verify("no step", FIRST_WRITE_LAST, WHOLE, out_of_steps(0), 3, "--steps", "0"),
    verify("the steps of the claim come first", FIRST_WRITE_LAST, searched("number", 9), out_of_steps(9), 3, "--steps", "7"),
    verify("also where --steps allows more", FIRST_WRITE_LAST, searched("return", 9), out_of_steps(9), 3, "--steps", "1000000000"),
    verify("the most steps of a claim", OVERLAPPING, searched("number", 4_294_967_295), THREE_YES, 0),
    verify("an order after a search without an answer", OVERLAPPING, searched("number", 1) + order(1, 0, 4), THREE_YES, 0),
    verify("a wrong order after a search without an answer", OVERLAPPING, searched("number", 1) + order(0, 1, 4), out_of_steps(1), 3),
    verify(
        "a search that names no steps takes those of --steps",
        OVERLAPPING,
        "{:object 0, :search {:first :return}}",
        out_of_steps(5),
        3,
        "--steps",
        "5",
    ),
    verify("a search of nothing but its map", OVERLAPPING, "{:object 0, :search {}}", THREE_YES, 0),
    verify("more than `search` takes", worked_rows.TOO_MANY_TO_SEARCH, WHOLE, worked_rows.yes(4097, 1, "queue: 1 objects, 4097 operations"), 0),
    verify("two objects are searched", TWO_QUEUES, searched("number", 3, 1) + searched("number", 2), out_of_steps(2), 3),
    verify("a search of one, and an order of the other", TWO_QUEUES, searched("number", 3) + lines(certificate(1, 3, 1)), QUEUES_YES, 0),
]

# ---- what is no evidence

FAULTS = (
    ("{:object 0", "E2 at byte 10"),
    ("007", "E3 at byte 0"),
    ("{:object 9223372036854775808}", "E4 at byte 9"),
    ("{:object 0, :object 0}", "E5 at byte 12"),
    (b"\xff", "E1 at byte 0"),
    (b"{:object 0, :note \"\xc3\"}", "E1 at byte 19"),
    ("x", "E9 at byte 0"),
    ("[" * 17, "E8 at byte 16"),
    ("7", "N1 at form 0"),
    ("nil", "N1 at form 0"),
    ("[:object 0]", "N1 at form 0"),
    ("{}", "N1 at form 0"),
    ("{:cuts []}", "N1 at form 0"),
    ("{:object 65536}", "N1 at form 0"),
    ("{:object -1}", "N1 at form 0"),
    ("{:object nil}", "N1 at form 0"),
    ("{:object 0, :cuts 7}", "N1 at form 0"),
    ("{:object 0, :cuts [7]}", "N1 at form 0"),
    ("{:object 0, :count 7}", "N1 at form 0"),
    ("{:object 0, :count {:value nil}}", "N1 at form 0"),
    ("{:object 0, :search 7}", "N1 at form 0"),
    ("{:object 0, :search {:first :last}}", "N1 at form 0"),
    ("{:object 0, :search {:steps -1}}", "N1 at form 0"),
    ("{:object 0, :search {:steps 4294967296}}", "N1 at form 0"),
    ("{:object 0, :search {:steps nil}}", "N1 at form 0"),
    ("{:order [0 2]}", "K1 at form 0"),
    ("{:object 0, :order nil}", "K1 at form 0"),
    ("{:object 0, :order 0}", "K1 at form 0"),
    ("{:object 0, :order [nil]}", "K1 at form 0"),
    ("{:object 65536, :order []}", "K1 at form 0"),
    ("{:object 0, :cuts [], :order [[]]}", "K1 at form 0"),
    # An element before it does not help, nor does one after it.
    (order(1, 0, 4) + "7", "N1 at form 1"),
    ("7 " + order(1, 0, 4), "N1 at form 0"),
    (order(1, 0, 4) + "{:object 0, :order 7} 7", "K1 at form 1"),
    (order(1, 0, 4) + "{:object 0, :count 7} {:order []}", "N1 at form 1"),
    # Neither does what is wrong with a form come before what is wrong with the text.
    ("7 {:object 0", "E2 at byte 12"),
)


def name_of(evidence):
    return " ".join((evidence if isinstance(evidence, str) else repr(evidence)).split())


MALFORMED = [
    *[verify(f"no evidence: {name_of(evidence)}", OVERLAPPING, evidence, f"malformed evidence: {fault}\n", 3) for evidence, fault in FAULTS],
    verify(
        "no evidence of a history that is not linearizable",
        THREE_VALUES,
        worked_rows.TWO_OF_THREE + "}",
        f"malformed evidence: E3 at byte {len(worked_rows.TWO_OF_THREE)}\n",
        3,
    ),
    verify("a malformed history", worked_rows.AFTER_INFO, order(0), "malformed history: H8 at map 2\n", 2),
    verify("both texts are malformed", "7", "7", "malformed history: H1 at map 0\n", 2),
    verify("neither text spells forms", "007", "007", "malformed history: E3 at byte 0\n", 2),
]

ROWS = ORDERS + REASONS + SEARCHES + MALFORMED
