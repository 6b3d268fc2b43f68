"""The lines of the operations of a part: what each kind of call says, what is pending, and what is counted as another call."""
from ..answers import in_files
from ..worked_rows import HISTORY, refute
from ..text_writers import fail, invoke, lines, ok

# In each of these a call gives what was never put in: at the end, or at the beginning.


def at_end(number, history, f, of, reply):
    line = f"events {number} and {number + 1}: process 5, :{f} {of or 'nil'}, :ok {reply or 'nil'}"
    return history + lines(invoke(5, f, of), ok(5, f, reply)), line


QUEUE = lines(
    invoke(0, "enqueue", 7),
    "{:process :nemesis, :type :info, :f :kill, :value nil}",
    invoke(1, "enqueue", -8),
    ok(0, "enqueue", 7),
    invoke(12, "dequeue"),
    ok(12, "dequeue", 7),
    invoke(3, "dequeue"),
    fail(3, "dequeue"),
)
STACK = lines(invoke(0, "push", 40), ok(0, "push", 40), invoke(0, "pop"), ok(0, "pop", 40), invoke(0, "pop"), ok(0, "pop"))
HEAP = lines(invoke(0, "insert", 3), ok(0, "insert", 3), invoke(1, "extract-min"), ok(1, "extract-min", 3))
REGISTER = lines(
    invoke(0, "write", 9),
    ok(0, "write", 9),
    invoke(1, "read"),
    invoke(2, "cas", (9, 5)),
    ok(1, "read", 9),
    ok(2, "cas", (9, 5)),
    invoke(1, "cas", (9, 6)),
    ok(1, "cas", False),
    invoke(3, "cas", (9, 5)),
)
MAP = lines(
    invoke(0, "put", (3, 30)),
    ok(0, "put"),
    invoke(1, "put", (3, 31)),
    ok(1, "put", 30),
    invoke(0, "get", 3),
    ok(0, "get", 31),
    invoke(0, "del", 3),
    ok(0, "del", 31),
)
MUTEX = lines(invoke(0, "acquire"), ok(0, "acquire"), invoke(0, "release"), ok(0, "release"))
QUEUE_LINES = (
    "events 0 and 3: process 0, :enqueue 7, :ok 7",
    "event 2: process 1, :enqueue -8, pending",
    "events 4 and 5: process 12, :dequeue nil, :ok 7",
)
STACK_LINES = (
    "events 0 and 1: process 0, :push 40, :ok 40",
    "events 2 and 3: process 0, :pop nil, :ok 40",
    "events 4 and 5: process 0, :pop nil, :ok nil",
)
HEAP_LINES = ("events 0 and 1: process 0, :insert 3, :ok 3", "events 2 and 3: process 1, :extract-min nil, :ok 3")
REGISTER_LINES = (
    "events 0 and 1: process 0, :write 9, :ok 9",
    "events 2 and 4: process 1, :read nil, :ok 9",
    "events 3 and 5: process 2, :cas [9 5], :ok [9 5]",
    "events 6 and 7: process 1, :cas [9 6], :ok false",
    "event 8: process 3, :cas [9 5], pending",
)
MAP_LINES = (
    "events 0 and 1: process 0, :put [3 30], :ok nil",
    "events 2 and 3: process 1, :put [3 31], :ok 30",
    "events 4 and 5: process 0, :get 3, :ok 31",
    "events 6 and 7: process 0, :del 3, :ok 31",
)
MUTEX_LINES = ("events 0 and 1: process 0, :acquire nil, :ok nil", "events 2 and 3: process 0, :release nil, :ok nil")
# Object 2 is called between calls on object 1, and gives a value twice.
TWO_OBJECTS = lines(
    invoke(0, "enqueue", 1, 1),
    invoke(1, "push", 2, 2),
    ok(0, "enqueue", 1, 1),
    invoke(0, "enqueue", 3, 1),
    ok(1, "push", 2, 2),
    ok(0, "enqueue", 3, 1),
    invoke(4, "pop", None, 2),
    ok(4, "pop", 2, 2),
    invoke(4, "pop", None, 2),
    ok(4, "pop", 2, 2),
)
TWO_OBJECTS_LINES = (
    "events 1 and 4: process 1, :push 2, :ok 2",
    "events 6 and 7: process 4, :pop nil, :ok 2",
    "events 8 and 9: process 4, :pop nil, :ok 2",
)


def told(name, history, cuts, counts, *operations, on=0):
    """A part that has no valid order, how many operations of how many it has, and their lines."""
    reason = f"{{:object {on}, :cuts [{cuts}]}}"
    first = f"not linearizable: object {on}: {counts} operations have no valid order"
    return refute(name, history, reason, lines(first, *operations), 1)


def whole(name, history, those, counts, number, f, of, reply):
    """A whole history with a call at its end."""
    text, line = at_end(number, history, f, of, reply)
    return told(name, text, "", counts, *those, line)


ROWS = (
    whole("a queue, with a map that is not a client's and a call that failed", QUEUE, QUEUE_LINES, "4 of 4", 8, "dequeue", None, 99),
    whole("a stack", STACK, STACK_LINES, "4 of 4", 6, "pop", None, 99),
    whole("a heap", HEAP, HEAP_LINES, "3 of 3", 4, "extract-min", None, 99),
    whole("a register", REGISTER, REGISTER_LINES, "6 of 6", 9, "read", None, 99),
    whole("a map", MAP, MAP_LINES, "5 of 5", 8, "get", 3, 99),
    whole("a mutex", MUTEX, MUTEX_LINES, "3 of 3", 4, "release", None, None),
    told("the second of two objects", TWO_OBJECTS, "", "3 of 3", *TWO_OBJECTS_LINES, on=2),
    told(
        "what returned later than the part ends is pending",
        lines(invoke(9, "dequeue"), ok(9, "dequeue", 99)) + QUEUE,
        "{:until 7}",
        "4 of 4",
        "events 0 and 1: process 9, :dequeue nil, :ok 99",
        "events 2 and 5: process 0, :enqueue 7, :ok 7",
        "event 4: process 1, :enqueue -8, pending",
        "event 6: process 12, :dequeue nil, pending",
    ),
    told(
        "calls of a register that are counted as writes",
        lines(invoke(9, "read"), ok(9, "read", 5)) + REGISTER,
        "{:cell [5], :other 0, :numbers [0 2 4]}",
        "5 of 6",
        "events 0 and 1: process 9, :read nil, :ok 5",
        "events 2 and 3: process 0, :write 9, :ok 9, counted as :write 0, :ok 0",
        "events 4 and 6: process 1, :read nil, :ok 9, counted as :write 0, :ok 0",
        "events 5 and 7: process 2, :cas [9 5], :ok [9 5], counted as :write 5, :ok 5",
        "event 10: process 3, :cas [9 5], counted as :write 5, pending",
    ),
    told(
        "calls of a map that are counted as those of a register",
        lines(invoke(9, "get", 3), ok(9, "get", 31)) + MAP,
        "{:cell [30 31], :key 3, :other 0, :numbers [0 6]}",
        "4 of 5",
        "events 0 and 1: process 9, :get 3, :ok 31, counted as :read nil, :ok 31",
        "events 2 and 3: process 0, :put [3 30], :ok nil, counted as :write 30, :ok 30",
        "events 4 and 5: process 1, :put [3 31], :ok 30, counted as :cas [30 31], :ok [30 31]",
        "events 6 and 7: process 0, :get 3, :ok 31, counted as :read nil, :ok 31",
    ),
    told(
        "a part that begins with a put in an empty map",
        at_end(8, MAP, "get", 3, 99)[0],
        "{:from 2}",
        "4 of 5",
        "events 2 and 3: process 1, :put [3 31], :ok 30, counted as :put [3 31], :ok nil",
        "events 4 and 5: process 0, :get 3, :ok 31",
        "events 6 and 7: process 0, :del 3, :ok 31",
        "events 8 and 9: process 5, :get 3, :ok 99",
    ),
)

# ---- texts of reasons

# Texts that are no reasons, and the first form that is not a reason.
REFUSED = (
    ("[0]", 0),
    (":object", 0),
    ("{}", 0),
    ("{:cuts [{:until 4}]}", 0),
    ("{:object 65536}", 0),
    ("{:object -1}", 0),
    ("{:object nil}", 0),
    ("{:object 0, :cuts {:until 4}}", 0),
    ("{:object 0, :cuts [4]}", 0),
    ("{:object 0, :cuts [{}]}", 0),
    ("{:object 0, :cuts [{:before 4}]}", 0),
    ("{:object 0, :cuts [{:until -1}]}", 0),
    ("{:object 0, :cuts [{:until 4294967296}]}", 0),
    ("{:object 0, :cuts [{:until :end}]}", 0),
    ('{:object 0, :cuts [{:from "4"}]}', 0),
    ("{:object 0, :cuts [{:until nil, :from 4}]}", 0),
    ("{:object 0, :cuts [{:without 7}]}", 0),
    ("{:object 0, :cuts [{:without :all, :before 4}]}", 0),
    ("{:object 0, :cuts [{:without 7, :before -1}]}", 0),
    ("{:object 0, :cuts [{:keep [1 :two]}]}", 0),
    ("{:object 0, :cuts [{:keep :some}]}", 0),
    ("{:object 0, :cuts [{:keep 1}]}", 0),
    ("{:object 0, :cuts [{:keep [1], :numbers 4}]}", 0),
    ("{:object 0, :cuts [{:keep [1], :numbers [-4]}]}", 0),
    ("{:object 0, :cuts [{:cell [1]}]}", 0),
    ("{:object 0, :cuts [{:cell [1], :key 5}]}", 0),
    ("{:object 0, :cuts [{:cell [1], :other nil}]}", 0),
    ("{:object 0, :cuts [{:cell [1], :key :a, :other 9}]}", 0),
    ("{:object 0, :cuts [{:cell [1], :key nil, :other 9}]}", 0),
    ("{:object 0, :count 7}", 0),
    ("{:object 0, :count {}}", 0),
    ("{:object 0, :count {:from 4}}", 0),
    ("{:object 0, :count {:value 7, :from -1}}", 0),
    ("{:object 0, :count {:value 7, :key :x}}", 0),
    ('{:object 0, :count {:value "x", :held 1}}', 0),
    ("{:object 0} {:object 1, :cuts [{:until 4} {}]}", 1),
    ("{:object 0} {:object 0} {:object 1, :cuts 4} 5", 2),
)
# The part ends before the second value is put in. Keys without a meaning are ignored, and an absent `:from` is 0.
TAKEN_TWICE = lines(
    invoke(0, "dequeue", None, 3),
    invoke(1, "dequeue", None, 3),
    ok(0, "dequeue", 1, 3),
    ok(1, "dequeue", 1, 3),
    invoke(2, "enqueue", 1, 3),
    invoke(3, "enqueue", 1, 3),
)
OTHER_KEYS = '{:by "hand", :object 3, :cuts [{:why [1], :until 5}], :count {:value 1, :no :x}}'


def lines_of_operations(program, report):
    """refute prints the expected lines for the operations of each part; as comments, judge prints the same."""
    for row in ROWS:
        in_files(program, report, row)
    ran = program.run("judge", program.write(HISTORY, TWO_OBJECTS))
    wanted = [
        "; object 2: impossible",
        "; value 2 was pushed once and popped twice; event 9 is the first that leaves no order",
        *[f"; {line}" for line in TWO_OBJECTS_LINES],
    ]
    report.equal("judge: operations as comments", (1, wanted), (ran.status, ran.out.decode().splitlines()[:-1]))


def texts_of_reasons(program, report):
    """refute refuses texts that are no reasons, and ignores keys that have no meaning."""
    for text, form in REFUSED:
        in_files(program, report, refute(text, HEAP, text, f"malformed reasons: N1 at form {form}\n", 2))
    operations = (
        "events 0 and 2: process 0, :dequeue nil, :ok 1",
        "events 1 and 3: process 1, :dequeue nil, :ok 1",
        "event 4: process 2, :enqueue 1, pending",
    )
    out = lines("not linearizable: object 3: 3 of 4 operations have no valid order", *operations)
    in_files(program, report, refute("keys without a meaning", TAKEN_TWICE, OTHER_KEYS, out, 1))
    out = "object 3: not shown: the count is not exceeded\n"
    in_files(program, report, refute("the same without a cut", TAKEN_TWICE, "{:object 3, :count {:value 1}}", out, 3))
    in_files(program, report, refute("the same from map 1 on", TAKEN_TWICE, OTHER_KEYS.replace(":no :x", ":from 1"), out, 3))


PARTS = (lines_of_operations, texts_of_reasons)
