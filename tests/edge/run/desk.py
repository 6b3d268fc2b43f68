"""Refuses each allocation of the example of the desk in turn: a pass that gets no memory for its log serves nothing,
releases the object, and the next pass serves. A call that the object refuses for lack of memory is answered so. And
refuses each allocation of two tests of the combiner: a pass that gets no memory serves nothing, and a call whose own
pass gets none is outstanding."""
import os

from ..running import ROOT, alone, at_once

DESK = f"{ROOT}/crates/desk_example/out/desk_example"
TESTS = f"{ROOT}/crates/combiner_tests/out/combiner_tests_tests"

ENQUEUED = b"LogEntry { client: 0, ticket: 0, op: Enqueue(7), reply: Value(Some(7)) }"
DEQUEUED = b"LogEntry { client: 1, ticket: 2, op: Dequeue, reply: Value(Some(7)) }"
FOUND_NOTHING = b"LogEntry { client: 1, ticket: 2, op: Dequeue, reply: Value(None) }"
SERVED = b"Served { pass: 1, count: 1 }\n"
SERVED_LATER = b"NoMemory\nServed { pass: 2, count: 1 }\n"
ANSWERED = b"Some(Reply(Value(Some(7))))\nOk(Reply(Value(Some(7))))\n[" + ENQUEUED + b", " + DEQUEUED + b"]\n"
REFUSED = b"Some(Refused)\nOk(Reply(Value(None)))\n[" + FOUND_NOTHING + b"]\n"
OUT = b"Error: Kind(OutOfMemory)\n"


def refused_reserve(program, report):
    """Each allocation of the desk's example fails in a run of its own."""
    if not os.path.exists(DESK):
        report.holds("desk: the example is built", False, f"{DESK} is missing: rt run in crates/desk_example builds it")
        return None
    desk = alone(DESK, program.folder)
    whole, count, _ = desk.counts()
    report.answers("desk: with ample memory", whole, SERVED + ANSWERED, 0)
    numbers = range(1, count + 1)
    runs = at_once(lambda at: desk.run(faults={"REFUSE_AT": at}), numbers)
    ends = {
        (0, SERVED + ANSWERED, b""): "as with ample memory",
        (0, SERVED_LATER + ANSWERED, b""): "a pass without memory serves nothing, and the next one serves",
        (0, SERVED + REFUSED, b""): "a call for which the object gets no memory is refused",
        (1, b"", OUT): "there is no desk",
    }
    came = [ends.get((run.status, run.out, run.err)) for run in runs]
    for at, end, ran in zip(numbers, came, runs):
        report.holds(f"desk: allocation {at} of {count} is refused", end is not None, ran)
    for end in ends.values():
        if end != "as with ample memory":
            report.holds(f"desk: some run shows: {end}", end in came)
    return f"{count} allocations refused"


# The tests of a pass and of `call`, and the line that each prints when the room of its log is
# refused. Then the next pass answers, and the test passes.
REFUSED_PASSES = {
    "refused::a_pass_whose_log_cannot_grow_serves_nothing": b"the first pass served nothing\n",
    "refused::a_lone_call_whose_pass_gets_no_memory_is_answered_later": b"the first pass served nothing\n",
    "outstanding::a_call_whose_pass_gets_no_memory_is_outstanding": b"the call is outstanding\n",
}


def refused_passes(program, report):
    """Each allocation of these tests of the combiner fails in a run of its own."""
    if not os.path.exists(TESTS):
        report.holds("desk: the tests of the combiner are built", False, f"{TESTS} is missing: rt test in crates/combiner_tests builds it")
        return None
    tests, tried = alone(TESTS, program.folder), 0
    for name, line in REFUSED_PASSES.items():
        whole, count, _ = tests.counts(name)
        report.holds(f"desk: {name}: with ample memory", whole.status == 0 and line not in whole.out, whole)
        runs = at_once(lambda at: tests.run(name, faults={"REFUSE_AT": at}), range(1, count + 1))
        shown = [run for run in runs if line in run.out]
        report.holds(f"desk: {name}: some run shows it", shown != [])
        report.holds(f"desk: {name}: and the next pass answers", all(run.status == 0 for run in shown), shown)
        tried += count
    return f"{tried} allocations refused"


PARTS = (refused_reserve, refused_passes)
