"""What is drawn: the situations that the design of the pages was settled on, on inputs of their size and sort, and others."""
import gzip
import random
import re
from dataclasses import dataclass

from .. import histories, text_writers, worked_rows
from ..judge import like_recorded
from ..judge.like_recorded import ExpiringLock, LaggingRegister, RacyQueue, RacyRegister, ShardedQueue, played
from ..running import EXAMPLES

# The greatest value, and the greatest number of a process.
GREATEST = 2**63 - 1
LEAST = -(2**63)
# How many generated histories there are of each verdict.
OF_EACH = 50
# How often each sentence must be said.
OF_EACH_FORM = 5
# Of how many kinds there is a spoilt history with each seed.
SPOILT = 5
CONTAINERS = (("enqueue", "dequeue"), ("push", "pop"), ("insert", "extract-min"))
WITHOUT_TOKENS = tuple(kind for kind in histories.ALL_FUNCTIONS if kind not in histories.TOKENS)
PUTTERS = (*histories.REPLY_ARGUMENT, *histories.HOLDS, "put", "assoc", "put-if-absent", "create", "add", "fetch-add")


@dataclass(frozen=True)
class Case:
    """A history that is drawn, with the certificates by which it is checked, if there are some."""

    name: str
    history: object
    certificates: object = None
    options: tuple = ()
    shows: tuple = ()
    # In how many milliseconds the browser must load the page, if that is measured.
    loads: int = 0
    # Whether the sentences are read back, and which of them must be said.
    reads: bool = True
    says: tuple = ()

    def stem(self):
        return re.sub(r"\W", "_", self.name)


# ---- the situations


def example(stem, is_checked=True, *options):
    """A case of an example."""

    def read(name):
        with open(f"{EXAMPLES}/{stem}.{name}", "rb") as file:
            return file.read()

    certificates = read("certificates.edn") if is_checked else None
    return Case(f"example {stem} {'checked' if is_checked else 'judged'} {' '.join(options)}".strip(), read("history.edn"), certificates, options)


def checked(name, made, *options, **more):
    """A case of a history that was played, with its orders."""
    return Case(name, made.text(), made.certificates(), options, **more)


def around(maps, word, before, after):
    """The numbers of maps from this many before the first with this word on, to this many after it."""
    at = next(number for number, map_text in enumerate(maps) if word in map_text)
    return str(at - before), str(at + after)


def swapped(order, place):
    return [*order[:place], order[place + 1], order[place], *order[place + 2 :]]


def too_late(calls, order):
    """The order with an entry before one that had returned: an entry in its second half that puts a value in."""
    for place in range(len(order) // 2, len(order) - 1):
        late, early = calls[order[place]], calls[order[place + 1]]
        if early.f == "enqueue" and late.f == "dequeue" and late.at < early.number:
            return swapped(order, place)
    raise ValueError("no such entries")


def wrong_at(calls, order, place):
    """The order in which two entries from a place on, which overlap and are on one key, are the other way round."""
    for at in range(place, len(order) - 1):
        one, other = calls[order[at]], calls[order[at + 1]]
        is_put = {one.f, other.f} == {"put"} and one.argument[0] == other.argument[0]
        if is_put and one.end == other.end == "ok" and one.argument[1] != other.argument[1] and other.number < one.at:
            return swapped(order, at)
    raise ValueError("no such entries")


def without_acquire(calls, order, place):
    """The order without an acquire that stands at a place or after it."""
    at = next(at for at in range(place, len(order)) if calls[order[at]].f == "acquire")
    return order[:at] + order[at + 1 :]


def paused_map():
    with gzip.open(f"{EXAMPLES}/recorded/redis_map_paused.edn.gz") as file:
        return file.read().decode()


def orders_of(certificates):
    """The orders in a text of certificates, by their objects."""
    orders = re.findall(r"\{:object (\d+), :order \[([^\]]*)\]", certificates.decode() if isinstance(certificates, bytes) else certificates or "")
    return {int(on): [int(number) for number in order.split()] for on, order in orders}


def found_orders(program, name, history):
    """The orders that are found for a history."""
    return orders_of(program.run("find", program.write(f"{name}.{worked_rows.HISTORY}", history)).out)


WRONG_TURN = text_writers.one_process(
    ("enqueue", 1, 1),
    ("enqueue", 2, 2),
    ("enqueue", 3, 3),
    ("dequeue", None, 1),
    ("dequeue", None, 3),
    ("dequeue", None, 2),
)
WRONG_REPLY_OF_A_QUEUE = text_writers.one_process(*[("enqueue", number, number) for number in range(20)], ("dequeue", None, 7))
WRONG_REPLY_OF_A_MAP = text_writers.one_process(("put", (1, 10), None), ("put", (2, 20), None), ("get", 1, 20))
# The only one that puts in what the operation returned is the operation.
OWN_VALUE_OF_A_CAS = text_writers.one_process(("write", 1, 1), ("cas", (5, 5), (5, 5)))
OWN_VALUE_OF_A_PUT = text_writers.one_process(("put", (2, 5), None), ("put", (1, 5), 5))
PUT_AGAIN = text_writers.one_process(("put", (1, 5), None), ("del", 1, 5), ("put", (1, 5), 5))
# The second 5 is taken out by the pending one.
TAKEN_BY_A_PENDING_ONE = text_writers.lines(
    *text_writers.one_process(("enqueue", 5, 5), ("dequeue", None, 5), ("enqueue", 5, 5)).splitlines(),
    text_writers.invoke(1, "dequeue"),
    text_writers.info(1, "dequeue"),
    text_writers.invoke(0, "dequeue"),
    text_writers.ok(0, "dequeue", 5),
)
WRONG_REPLY_OF_AN_ENQUEUE = text_writers.one_process(("enqueue", 7, 7), ("enqueue", 1, 2))
ACQUIRED_TWICE = text_writers.one_process(("acquire", None, None), ("release", None, None), ("acquire", None, None), ("acquire", None, None))
SET_ANSWERS_WRONGLY = text_writers.one_process(("add", 5, True), ("add", 7, True), ("contains", 5, False))
COUNTER_TELLS_ANOTHER = text_writers.one_process(("fetch-add", 2, 0), ("get-count", None, 1))
COUNTER_PAST_ITS_END = text_writers.one_process(("fetch-add", GREATEST, 0), ("fetch-add", 1, GREATEST))
LOCK_OF_ANOTHER = text_writers.one_process(("lock", 3, None), ("unlock", 4, None))
LOCK_UNLOCKED_AGAIN = text_writers.one_process(("lock", 1, None), ("unlock", 1, None), ("unlock", 3, None))
BUSY = text_writers.lines(
    text_writers.invoke(0, "write", 1),
    text_writers.invoke(1, "read"),
    text_writers.ok(0, "write", 1),
    text_writers.ok(1, "read", 1),
    text_writers.invoke(0, "read"),
    text_writers.invoke(1, "write", 2),
    text_writers.invoke(0, "write", 3),
    text_writers.ok(0, "read", 1),
)
NOT_CLOSED = text_writers.lines(
    "{:process 0, :type :invoke, :f :enqueue, :value 1}",
    "{:process 0, :type :ok, :f :enqueue, :value 1",
    "{:process 0, :type :invoke, :f :dequeue}",
)
MIXED = ("queue", "stack", "heap", "register", "map") * 2


def of_yes():
    """Histories that are linearizable, as those of Redis that was paused, or refused some calls."""
    yield example("overlapping")
    yield example("jepsen")
    yield checked("a stack with failed operations", played(("stack",) * 2, 1000, 4, refused=280, nemeses=2))
    yield checked("ten objects of five kinds", played(MIXED, 1600, 8, lost=13, nemeses=4))
    yield checked("two mutexes", played(("mutex",) * 2, 1000, 5, lost=4, refused=1, nemeses=2))
    queue = played(("queue",) * 2, 1500, 8, lost=5, nemeses=2)
    since, until = around(queue.maps, ":nemesis", 17, 32)
    yield checked("a queue with a nemesis", queue, "--from", since, "--to", until)
    register = played(("register",), 1000, 8, lost=10, nemeses=4, values=5)
    yield checked("a register of 1 000", register)
    yield Case("a register of 1 000 judged", register.text())


def comes_too_late():
    """A queue whose order has an entry before one that had returned."""
    queue = played(("queue",), 600, 4)
    calls, _ = histories.calls_of(queue.text())
    return Case("an entry that comes too late", queue.text(), queue.certificates(lambda order: too_late(calls, order)), says=("c5",))


def never_put():
    """A map under whose greatest key a value is seen that was never put there. Labels have no room for the values."""
    calls = [("put", (LEAST, GREATEST), None), ("put", (LEAST, LEAST), GREATEST), ("get", GREATEST, LEAST)]
    return Case("a value that was never put", text_writers.one_process(*calls), says=("general",))


def of_no(program):
    """Orders that are refused."""
    for stem in ("no_certificate", "strange_object", "no_operation", "stands_twice", "left_out", "not_in_order", "wrong_reply", "not_possible"):
        yield example(stem)
    yield comes_too_late()
    queue = played(("queue",), 600, 4)
    order = queue.orders[0]
    yield Case("an entry that is no operation", queue.text(), text_writers.order(*order[:40], 999_999, *order[40:]), says=("c3 beyond",))
    yield Case("an entry that stands twice", queue.text(), text_writers.order(*order[:70], order[30], *order[70:]), says=("c4",))
    racy = played(("queue",), 400, 4, RacyQueue)
    by_return = text_writers.order(*racy.by_return()[0])
    yield Case("a racy queue in the order of returns", racy.text(), by_return, says=("c6 taken",))
    paused = paused_map()
    calls, _ = histories.calls_of(paused)
    order = wrong_at(calls, found_orders(program, "paused", paused)[0], 640)
    yield Case("a map that was paused, in a spoilt order", paused, text_writers.order(*order), says=("c6",))
    mutex = played(("mutex",), 400, 4)
    calls, _ = histories.calls_of(mutex.text())
    order = mutex.certificates(lambda entries: without_acquire(calls, entries, 198))
    yield Case("a mutex of 400 without an acquire", mutex.text(), order, says=("c9 free since",))
    yield Case("a queue gives another value", WRONG_REPLY_OF_A_QUEUE, text_writers.order(*range(0, 42, 2)), says=("c6 turn",))
    yield Case("a map gives another value", WRONG_REPLY_OF_A_MAP, text_writers.order(0, 2, 4))
    yield Case("a cas finds what it sets", OWN_VALUE_OF_A_CAS, text_writers.order(0, 2), says=("c6 no other",))
    yield Case("a put finds what it puts", OWN_VALUE_OF_A_PUT, text_writers.order(0, 2), says=("c6 no other",))
    yield Case("a put finds what was deleted", PUT_AGAIN, text_writers.order(0, 2, 4))
    yield Case("a value that a pending operation took out", TAKEN_BY_A_PENDING_ONE, text_writers.order(0, 2, 4, 6, 8), says=("c6 taken",))
    yield Case("an enqueue returns another value", WRONG_REPLY_OF_AN_ENQUEUE, text_writers.order(0, 2))
    yield Case("a mutex is acquired twice", ACQUIRED_TWICE, text_writers.order(0, 2, 4, 6), says=("c9 held",))
    yield Case("a set gives another answer", SET_ANSWERS_WRONGLY, text_writers.order(0, 2, 4), says=("c6 of a set", "c6 whether"))
    yield Case("a counter tells another number", COUNTER_TELLS_ANOTHER, text_writers.order(0, 2), says=("c6 of a counter",))
    yield Case("a counter is past its end", COUNTER_PAST_ITS_END, text_writers.order(0, 2), says=("past_end",))
    yield Case("a lock is unlocked by another", LOCK_OF_ANOTHER, text_writers.order(0, 2), says=("c9 of another owner",))


def of_two_values(count, processes, put="enqueue", take="dequeue"):
    """A history of a queue, or of a stack, of n values, each 0 or 1, of which two are taken out the other way round: no part shows that which leaves
    out something before."""
    rng = random.Random(f"two values {count}")
    values = [rng.randrange(2) for _ in range(count)]
    taken = values[::-1] if take == "pop" else list(values)
    at = next(number for number in range(count // 2, count) if taken[number] != taken[number + 1])
    taken[at], taken[at + 1] = taken[at + 1], taken[at]
    calls = [(put, value, value) for value in values] + [(take, None, reply) for reply in taken]
    return text_writers.lines(*[line for place, call in enumerate(calls) for line in one_call(place % processes, *call)])


def one_call(process, f, argument, reply):
    return text_writers.invoke(process, f, argument), text_writers.ok(process, f, reply)


def taken_again(count, put="enqueue", take="dequeue"):
    """A history of a queue, stack or heap in which one value is put in n times, and taken out once more."""
    calls = [(put, 7, 7), (take, None, 7)] * count + [(take, None, 7)]
    return text_writers.one_process(*calls)


def old_values():
    """Histories of a register and of a map in which an operation finds a value that was replaced, by the operation that replaced it."""
    register = [("write", 1, 1), ("write", 2, 2)]
    of_map = [("put", (5, 1), None), ("put", (5, 2), 1)]
    yield "a read", [*register, ("read", None, 1)]
    yield "a read after a read", [*register, ("read", None, 2), ("read", None, 1)]
    yield "a read of nothing", [("write", 1, 1), ("read", None, None)]
    yield "a cas", [*register, ("cas", (1, 3), (1, 3))]
    yield "a cas that sets the same", [*register, ("cas", (1, 1), (1, 1))]
    yield "a read after a cas", [("write", 1, 1), ("cas", (1, 2), (1, 2)), ("read", None, 1)]
    yield "a get", [*of_map, ("get", 5, 1)]
    yield "a put", [*of_map, ("put", (5, 3), 1)]
    yield "a put of the same", [*of_map, ("put", (5, 1), 1)]
    yield "a del", [*of_map, ("del", 5, 1)]
    yield "a get after a del", [*of_map, ("del", 5, 2), ("get", 5, 2)]
    yield "a get of nothing", [*of_map, ("get", 5, None)]
    yield "a read after a clear", [("write", 1, 1), ("clear", None, None), ("read", None, 1)]
    yield "a read after a create", [("create", 1, True), ("read", None, None)]
    yield "a get after an assoc", [("assoc", (5, 1), None), ("assoc", (5, 2), None), ("get", 5, 1)]
    yield "a get after a dissoc", [("assoc", (5, 1), None), ("dissoc", 5, None), ("get", 5, 1)]
    yield "a replace", [*of_map, ("replace", (5, 1, 3), True)]
    yield "a get after a replace", [*of_map, ("replace", (5, 2, 3), True), ("get", 5, 2)]


def of_impossible():
    """Histories without an order, of faulty objects."""
    for name, calls in old_values():
        yield Case(f"{name} finds an old value", text_writers.one_process(*calls), says=("out_of_date",))
    for calls in ([("write", 1, 1), ("create", 2, True)], [("assoc", (5, 1), None), ("put-if-absent", (5, 2), True)]):
        yield Case(f"a {calls[1][0]} finds nothing where a value is", text_writers.one_process(*calls), says=("general",))
    yield Case("a value taken out 301 times", taken_again(300), says=("too_often",))
    yield Case("a reason of 100 operations of 40 processes", of_two_values(50, 40), says=("general",))
    yield Case("a reason of 5 200 operations", of_two_values(2_600, 1), says=("general",))
    yield Case("a reason of 1 400 operations of 40 processes", of_two_values(700, 40, "push", "pop"), says=("general",))
    yield Case("a racy queue of 400", played(("queue",), 400, 4, RacyQueue).text(), says=("not_empty",))
    yield Case("a sharded queue of 240", played(("queue",), 240, 3, ShardedQueue).text(), says=("wrong_turn",))
    yield Case("a register of 500 with a racy cas", played(("register",), 500, 5, RacyRegister, values=5).text(), says=("general",))
    yield Case("a racy register of 400", played(("register",), 400, 4, RacyRegister, seed=10, values=5).text(), says=("general",))
    yield Case("a lagging register of 500", played(("register",), 500, 5, LaggingRegister).text(), says=("out_of_date",))
    for stem in ("postgres_queue", "sharded_queue", "redis_lock", "redis_replica", "racy_stack", "larger_first", "lost_put", "never_enqueued"):
        yield example(stem, False)
    yield Case("a queue gives the later value first", WRONG_TURN)
    yield never_put()


def of_open():
    """Histories of which nothing is found in so few steps."""
    for seed in range(3):
        yield Case(f"a short search {seed}", text_writers.lines(*histories.long_search(seed)), None, ("--steps", str(seed)), says=("left_open",))
    register = played(("register",), 1000, 8, lost=10, values=5)
    yield Case(
        "a register of 1 000 that is open",
        register.text() + text_writers.lines(*histories.long_search(1, 1)),
        None,
        ("--steps", "0"),
        says=("left_open",),
    )


def situations(program):
    """The situations that the design of the pages was settled on, and some beside."""
    yield from of_yes()
    yield from of_no(program)
    yield from of_impossible()
    yield from of_open()
    yield Case("a process that is busy", BUSY)
    yield example("after_info", False)
    yield Case("a map that is not closed", NOT_CLOSED)
    yield example("two_for_one")


def options_and_faults():
    """Pages of other objects and stretches, of other faults, and of nothing."""
    yield Case("no operations", "")
    yield example("two_queues")
    yield example("two_queues", True, "--object", "1")
    yield example("two_queues", True, "--object", "7")
    yield example("wrong_reply", True, "--object", "3")
    yield example("redis_lock", False, "--from", "10", "--to", "30")
    yield example("racy_stack", False, "--object", "0", "--from", "0")
    yield example("postgres_queue", False, "--to", "2")
    yield example("postgres_queue", False, "--from", "1000000")
    yield example("redis_lock", False, "--from", "0", "--to", "0")
    yield example("wrong_reply", True, "--from", "1000000")
    for stem in ("bad_number", "failed", "pending", "heap", "map", "mutex", "queue", "register", "stack"):
        yield example(stem)
        yield example(stem, False)
    yield Case(
        "an object without an order and one with",
        WRONG_TURN + text_writers.lines(text_writers.invoke(5, "push", 1, 4), text_writers.ok(5, "push", 1, 4)),
    )
    for row in worked_rows.MALFORMED:
        yield Case(row.name, *row.texts[:2])


def hostile():
    """Texts with markup, quotes, wide characters and control characters, in places where a text may have them."""
    markup = '"</script><script>alert(1)</script>&amp;\u202e\u3042\U0001f600\\n"'
    note = f":note {markup}, :error [:{'k' * 64} \"{'x' * 100_000}\"]"
    history = f"{{:process 0, :type :invoke, :f :enqueue, :value {GREATEST}, {note}}}\n{{:process 0, :type :ok, :f :enqueue, :value {GREATEST}}}\n"
    history += f"{{:process {GREATEST}, :type :invoke, :f :dequeue}}\n{{:process {GREATEST}, :type :info, :f :dequeue}}\n"
    history += f"{{:process :{'n' * 64}, :type :info, :f :{'f' * 64}}}\n"
    yield Case("long strings and keywords in keys that are ignored", history, reads=False)
    shows = ("</script><script>alert(1)</script>&amp;", "あ", "\U0001f600", "\\x1b", "→")
    both = text_writers.lines(
        text_writers.invoke(GREATEST, "push", 1),
        text_writers.ok(GREATEST, "push", 1),
        text_writers.invoke(1_000_000, "pop"),
        text_writers.ok(1_000_000, "pop", 1),
    )
    yield Case("long numbers of processes", both, text_writers.order(0, 2))
    yield Case("a faulty map of a process with a long number", both + text_writers.lines(text_writers.ok(GREATEST - 1, "pop", 1)))
    invoked_with_note = f"{{:process 0, :type :invoke, :f :pop, :note {markup[:-1]}\x1b\t<b>\"}}"
    bad = text_writers.lines(f"; {markup}", invoked_with_note, invoked_with_note)
    yield Case("a faulty map with markup", bad, shows=shows)
    yield Case("a fault in a line of markup", f"{{:process {markup} <b>}}\n", shows=("</script><script>alert(1)</script>&amp;",))
    yield Case("a text that is not UTF-8", b"{:process 0, :note \"\xff<b>\"}", shows=("\\xff<b>",))
    yield Case("a very long line", "[" * 16 + " " * 5000 + "x" * 5000 + "\n" * 3, shows=("…",))




def extreme():
    """Values and keys at the limits of 64 bits, alone and in pairs."""
    pairs = ((LEAST, GREATEST), (GREATEST, LEAST))
    register = [("write", LEAST, LEAST), ("cas", pairs[0], pairs[0]), ("read", None, GREATEST), ("cas", pairs[0], False), ("cas", pairs[1], pairs[1])]
    of_map = [
        ("put", (LEAST, GREATEST), None),
        ("put", (LEAST, LEAST), GREATEST),
        ("put", pairs[1], None),
        ("get", LEAST, LEAST),
        ("del", GREATEST, LEAST),
    ]
    yield Case("a register with values at the limits", text_writers.one_process(*register), text_writers.order(*range(0, 10, 2)))
    yield Case("a map with keys and values at the limits", text_writers.one_process(*of_map), text_writers.order(*range(0, 10, 2)))
    for name, calls in (("register", register), ("map", of_map)):
        yield Case(f"a {name} with values at the limits judged", text_writers.one_process(*calls))
        f, argument, reply = calls[-1]
        wrong = [*calls[:-1], (f, argument, False if f == "cas" else GREATEST)]
        yield Case(
            f"a {name} with values at the limits, one wrong",
            text_writers.one_process(*wrong),
            text_writers.order(*range(0, 10, 2)),
            says=("c6",),
        )
        yield Case(f"a {name} with values at the limits, impossible", text_writers.one_process(*wrong))
    for put, take in CONTAINERS:
        values = [GREATEST - number for number in range(12)] + [LEAST + number for number in range(12)]
        calls = [(put, value, value) for value in values] + [(take, None, values[5])]
        yield Case(f"24 values of 64 bits, {take}", text_writers.one_process(*calls), text_writers.order(*range(0, 50, 2)), says=("c6",))
        yield Case(f"24 values of 64 bits, {take}, judged", text_writers.one_process(*calls))


def many_objects():
    """As many objects as are drawn, with five-digit numbers, and operations with the longest values."""
    maps, orders = [], []
    for on in range(65_536 - 600, 65_536):
        orders.append(text_writers.certificate(on, len(maps)))
        maps += [text_writers.invoke(GREATEST - on, "put", (LEAST, LEAST + on), on), text_writers.ok(GREATEST - on, "put", None, on)]
    return Case("600 objects", text_writers.lines(*maps), text_writers.lines(*orders))


def forty_objects():
    """40 objects of five kinds, which must load in less than a second."""
    return checked("forty objects", played(MIXED * 4, 440, 8), loads=1_000)


# ---- generated histories


def mutated(rng, made, code):
    """Certificates for a made history that check refuses with this code, where it can be made so."""
    order = list(made.order)
    calls, _ = histories.calls_of(made.text())
    done = [number for number in order if calls[number].end == "ok"]
    if code == "C1" or not order or not done:
        return ""
    place = rng.randrange(len(order))
    if code == "C2":
        return text_writers.lines(text_writers.certificate(0, *order), text_writers.certificate(3))
    if code == "C3":
        numbers = [-1, len(made.maps) + 5]
        numbers += [call.at for call in calls.values() if call.at is not None]
        numbers += [number for number, call in calls.items() if call.end == "fail"]
        order.insert(place, rng.choice(numbers))
    if code == "C4":
        order.insert(rng.randrange(place, len(order)) + 1, order[place])
    if code == "C7":
        order.remove(rng.choice(done))
    if code in ("C5", "C6", "C9"):
        other = rng.randrange(len(order))
        order[place], order[other] = order[other], order[place]
    return text_writers.order(*order)


def without_one(rng, made):
    """The order without one that puts a value in, or with one of these at its end."""
    calls, _ = histories.calls_of(made.text())
    putters = [number for number in made.order if calls[number].f in PUTTERS]
    if not putters:
        return made.order
    gone = rng.choice(putters)
    return [number for number in made.order if number != gone] + rng.choice(([], [gone]))


def given_back_twice(seed, takes_hold="acquire"):
    """A history of a mutex, or of a lock, that processes hold in turn, and that another one gives back once more."""
    rng = random.Random(f"given back twice {seed}")
    calls = [(rng.randrange(3), is_taken) for _ in range(rng.randrange(2, 20)) for is_taken in (True, False)]
    at = 0 if seed < OF_EACH_FORM else rng.randrange(1, len(calls) // 2 + 1) * 2
    # A lock by another one than its owner, while it is held.
    at -= takes_hold == "lock" and at > 0
    calls.insert(at, (3, False))
    name = lambda is_taken: takes_hold if is_taken else histories.HOLDS[takes_hold]
    owner = lambda process: process if takes_hold == "lock" else None
    maps = [line for process, is_taken in calls for line in one_call(process, name(is_taken), owner(process), None)]
    if at > 0 and takes_hold == "acquire" and rng.random() < 0.5:
        # It overlaps the one before.
        maps[2 * at - 1], maps[2 * at] = maps[2 * at], maps[2 * at - 1]
    return text_writers.lines(*maps)


def past_its_end(seed):
    """A history of a counter of which one addition is possible only after another one, which the order has after it."""
    rng = random.Random(f"past its end {seed}")
    less = rng.randrange(1, 100)
    sign, more = rng.choice((1, -1)), rng.randrange(1, less + 1)
    start = GREATEST - rng.randrange(more) if sign > 0 else LEAST + rng.randrange(more)
    first, last = (-sign * less, start), (sign * more, start - sign * less)
    invocations = [text_writers.invoke(process, "fetch-add", amount) for process, (amount, _) in enumerate((first, last))]
    completions = [text_writers.ok(process, "fetch-add", reply) for process, (_, reply) in enumerate((first, last))]
    return histories.Made("counter", [*one_call(0, "fetch-add", start, 0), *invocations, *completions], [0, 3, 2])


def of_faults():
    """Histories that are wrong in each way, judged, and checked by the order that was right."""
    for sort, kinds in histories.FAULTS.items():
        for kind in kinds:
            for seed in range(14 if kind in histories.FUNCTIONS else 6):
                made = histories.faulty(sort, kind, seed)
                yield Case(f"{sort} {kind} {seed}", made.text())
                if made.order:
                    yield Case(f"{sort} {kind} {seed} checked", made.text(), text_writers.order(*made.order))
    for seed in range(20):
        yield Case(f"sharded {seed}", played(("queue",), 24, 3, ShardedQueue, seed=seed).text())
        yield Case(f"a mutex that is given back twice {seed}", given_back_twice(seed))
        kind = histories.TOKENS[seed % 2]
        yield Case(f"an expiring {kind} {seed}", played((kind,), 40, 3, ExpiringLock, seed=seed).text())
    for seed in range(2 * OF_EACH_FORM):
        lock = given_back_twice(seed, "lock")
        yield Case(f"a lock that is given back twice {seed}", lock)
        yield Case(f"a lock that is given back twice {seed} checked", lock, text_writers.order(*range(0, lock.count("\n"), 2)))
        counter = past_its_end(seed)
        yield Case(f"a counter past its end {seed}", counter.text(), text_writers.order(*counter.order))
    for put, take in CONTAINERS:
        yield Case(f"a value that {take} gives a third time", taken_again(2, put, take))
    for seed in range(60):
        rng = random.Random(f"without one {seed}")
        made = histories.made(rng.choice(tuple(histories.ALL_FUNCTIONS)), f"without {seed}", calls=20, processes=rng.choice((1, 2, 3)), values=1000)
        yield Case(f"without one {seed}", made.text(), text_writers.order(*without_one(rng, made)))


def of_several_objects():
    """Histories of two objects and a nemesis, with an entry that is no operation of the object, and other objects that are asked for."""
    for seed in range(40):
        rng = random.Random(f"several {seed}")
        made = played(rng.sample(WITHOUT_TOKENS, 2), 12, 3, seed=seed, lost=1, refused=1, nemeses=2)
        numbers = [number for number, map_text in enumerate(made.maps) if ":nemesis" in map_text] + made.orders.get(1, [])
        order = list(made.orders.get(0, []))
        order.insert(rng.randrange(len(order) + 1), rng.choice(numbers))
        yield Case(f"several {seed}", made.text(), made.certificates(lambda _, order=order: order))
        yield Case(f"several {seed} without", made.text(), None, ("--object", str(seed % 3)))
    for seed in range(8):
        yield Case(f"no operations {seed}", text_writers.lines(*[like_recorded.nemesis("stop") for _ in range(seed)]), rng.choice((None, "")))


def generated():
    """Histories of each verdict, several times as many as are wanted: which verdict it is, the program says."""
    yield from of_faults()
    yield from of_several_objects()
    kinds = tuple(histories.ALL_FUNCTIONS)
    for seed in range(3 * OF_EACH):
        rng = random.Random(f"generated {seed}")
        kind = kinds[seed % len(kinds)]
        made = histories.made(kind, seed, calls=rng.choice((4, 9, 20, 45)), processes=rng.choice((2, 3, 5)))
        yield Case(f"generated {kind} {seed}", made.text(), rng.choice((None, text_writers.order(*made.order))))
        for code in ("C1", "C2", "C3", "C4", "C5", "C6", "C7"):
            of = kind if code != "C6" else WITHOUT_TOKENS[seed % len(WITHOUT_TOKENS)]
            other = histories.made(of, seed, calls=rng.choice((4, 9, 20, 45)), processes=rng.choice((1, 2, 3)))
            yield Case(f"generated {code} {kind} {seed}", other.text(), mutated(rng, other, code))
        token = histories.made(histories.TOKENS[seed % 2], seed, calls=12, processes=2)
        yield Case(f"generated C9 {seed}", token.text(), mutated(rng, token, "C9"))
        for number in range(SPOILT * seed, SPOILT * (seed + 1)):
            kind = kinds[number % len(kinds)]
            yield Case(f"spoilt {kind} {seed}", text_writers.lines(*histories.spoilt(kind, seed)))
    for seed in range(OF_EACH + 10):
        yield Case(f"a long search {seed}", text_writers.lines(*histories.long_search(seed)), None, ("--steps", str(seed % 3)))
