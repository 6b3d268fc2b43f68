"""What find finds of histories that are too long for a search: after calls that leave the object as it is, only the way for the
kind of the object is left to find an order.

The numbers by chance are those of a generator whose multiplier and increment are told, so that the histories are always the same."""
import itertools

from .. import brute_force
from ..worked_rows import HISTORY
from .all_small_histories import find_both_sorts
from ..text_writers import invoke, lines, ok

KINDS = ("queue", "stack", "heap", "register", "map", "mutex")
# Two calls, one after the other, that leave a new object as it is.
IDLE = {
    "queue": (("dequeue", None), ("dequeue", None)),
    "stack": (("pop", None), ("pop", None)),
    "heap": (("extract-min", None), ("extract-min", None)),
    "register": (("read", None), ("read", None)),
    "map": (("get", 0), ("get", 0)),
    "mutex": (("acquire", None), ("release", None)),
}
NAMES = {"queue": ("enqueue", "dequeue"), "stack": ("push", "pop"), "heap": ("insert", "extract-min")}
# A search takes at most 4,096 operations. There are two in each pair.
PAIRS = 2_049


def idle_calls(kind):
    """The maps of 4,098 calls of a process of its own, and how many there are."""
    events = [event for f, argument in IDLE[kind] for event in ((89, "invoke", f, argument), (89, "ok", f, None))]
    return brute_force.template(events) * PAIRS, len(events) * PAIRS


# ---- calls in the order in which the object did them


def call_of_values(chance, values, kind, fresh):
    puts, takes = NAMES[kind]
    if chance.below(2) == 0:
        values.append(fresh)
        return puts, fresh, fresh
    if not values:
        return takes, None, None
    return takes, None, values.pop({"queue": 0, "stack": -1}.get(kind, values.index(min(values))))


def call_of_register(chance, cells, fresh):
    if chance.below(2) == 0:
        cells[0] = fresh
        return "write", fresh, fresh
    return "read", None, cells.get(0)


def call_of_map(chance, cells, fresh):
    key = chance.below(2)
    held, choice = cells.get(key), chance.below(3)
    if choice == 0:
        cells[key] = fresh
        return "put", (key, fresh), held
    if choice == 1:
        return "get", key, held
    cells.pop(key, None)
    return "del", key, held


def calls_in_order(chance, kind, count):
    """Calls in which each value is put in once."""
    values, cells, calls = [], {}, []
    for place in range(count):
        if kind == "register":
            calls.append(call_of_register(chance, cells, place + 10))
        elif kind == "map":
            calls.append(call_of_map(chance, cells, place + 10))
        elif kind == "mutex":
            calls.append((("acquire", "release")[place % 2], None, None))
        else:
            calls.append(call_of_values(chance, values, kind, place + 10))
    return calls


def calls_below(chance, kind, count, bound):
    """Calls on a queue, stack or heap, whose values are below this bound."""
    values, calls = [], []
    for _ in range(count):
        calls.append(call_of_values(chance, values, kind, chance.below(bound)))
    return calls


def cell_calls(chance, kind, count):
    """Calls on a register, or on the key 1 of a map, over three values."""
    held, calls = None, []
    for _ in range(count):
        new, choice = chance.below(3), chance.below(3)
        if kind == "register" and choice == 0:
            expected = chance.below(3)
            calls.append(("cas", (expected, new), (expected, new) if held == expected else False))
            held = new if held == expected else held
        elif choice == (1 if kind == "register" else 0):
            calls.append(("read", None, held) if kind == "register" else ("get", 1, held))
        elif choice == 1:
            calls.append(("del", 1, held))
            held = None
        else:
            calls.append(("write", new, new) if kind == "register" else ("put", (1, new), held))
            held = new
    return calls


# ---- histories


def first_comes_last(chance, calls):
    """The calls; half of all times the first of them comes last."""
    if chance.below(2) == 0 and len(calls) > 1:
        return calls[1:] + calls[:1]
    return calls


def history_of(chance, calls):
    """A history of these calls, each by a process of its own: each begins and returns around its turn."""
    moments = []
    for place in range(len(calls)):
        turn = 10 + 3 * place
        moments.append((max(0, turn - chance.below(9)), False, place))
        moments.append((turn + chance.below(9), True, place))
    events = []
    for _, returns, place in sorted(moments):
        f, argument, reply = calls[place]
        events.append((place, "ok", f, reply) if returns else (place, "invoke", f, argument))
    return events


def some_pending(chance, events):
    """The maps of a history; of its calls one in eight does not return."""
    return [event for event in events if event[1] != "ok" or chance.below(8) > 0]


def repeated_values(kind):
    chance = brute_force.Chance(2026)
    for turn in range(150):
        calls = first_comes_last(chance, cell_calls(chance, kind, 3 + turn % 8))
        yield some_pending(chance, history_of(chance, calls))


def each_value_once(kind, chance):
    for turn in range(150):
        yield history_of(chance, first_comes_last(chance, calls_in_order(chance, kind, 3 + turn % 6)))


def of_two_values(kind, pending):
    """Histories over two values; of the calls some do not return, if they may be pending."""
    chance = brute_force.Chance(37)
    for turn in range(100):
        events = history_of(chance, first_comes_last(chance, calls_below(chance, kind, 4 + turn % 8, 2)))
        yield some_pending(chance, events) if pending else events


def sorted_of(those):
    histories = brute_force.Sorted()
    for events in those:
        histories.add(events)
    return histories


def has_between(report, name, histories, least, most):
    """Some have an order, and some have none."""
    count, impossible = histories.counts()
    report.holds(f"{name}: some have an order, and some have none", least < count - impossible < most, (count, impossible))


def two_values(kind, pending):
    return f"find: drawn {kind}s over two values{', with pending calls' if pending else ''}"


def drawn_are_found(program, report):
    """find finds an order of each random short history that has one."""
    chance = brute_force.Chance(2026)
    for kind in KINDS:
        histories = sorted_of(each_value_once(kind, chance))
        has_between(report, f"find: drawn histories of a {kind}", histories, 40, 150)
        find_both_sorts(program, report, f"find: drawn histories of a {kind}", histories)
    for kind, pending in itertools.product(NAMES, (False, True)):
        name, histories = two_values(kind, pending), sorted_of(of_two_values(kind, pending))
        has_between(report, name, histories, 25, 100)
        find_both_sorts(program, report, name, histories)


def found_after_idle_calls(program, report):
    """find finds the orders also after more calls than a search takes, and if values repeat."""
    sorts = [(kind, "", each_value_once(kind, brute_force.Chance(2026)), 40, 150) for kind in KINDS]
    sorts += [(kind, ", where values repeat", repeated_values(kind), 40, 150) for kind in ("register", "map")]
    sorts += [(name, " over two values", of_two_values(name, False), 25, 100) for name in NAMES]
    sorts += [(name, " over two values with pending calls", of_two_values(name, True), 25, 100) for name in NAMES]
    for kind, more, those, least, most in sorts:
        name, histories = f"find: drawn histories of a {kind}{more}, after idle calls", sorted_of(those)
        has_between(report, name, histories, least, most)
        find_both_sorts(program, report, name, histories, *idle_calls(kind))
    for kind in KINDS:
        alone, _ = idle_calls(kind)
        program.write(HISTORY, alone.replace("@", "0"))
        ran = program.run("search", "--steps", "0", HISTORY)
        report.answers(f"search: idle calls of a {kind} are too many", ran, "; object 0: too large\n", 3)


def long_ones_are_found(program, report):
    """find finds an order of five thousand calls."""
    chance = brute_force.Chance(2026)
    long = [(kind, history_of(chance, calls_in_order(chance, kind, 5000))) for kind in KINDS]
    chance = brute_force.Chance(37)
    long.append(("stack over five values", history_of(chance, calls_below(chance, "stack", 5000, 5))))
    for kind, events in long:
        text = lines(*[{"invoke": invoke, "ok": ok}[of](process, f, value) for process, of, f, value in events])
        look = lambda history, _, count: brute_force.of_orders(program, f"find: five thousand calls of a {kind}", ("find",), history, count)
        brute_force.on_texts(program, report, [(text, 1)], look)


PARTS = (drawn_are_found, found_after_idle_calls, long_ones_are_found)
