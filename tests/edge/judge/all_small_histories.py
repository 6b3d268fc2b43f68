"""All small histories of some calls, and some larger ones that are drawn: what search, find and judge say of each."""
import itertools
import re

from .. import brute_force

PUTS_AND_TAKES = {"queue": ("enqueue", "dequeue"), "stack": ("push", "pop"), "heap": ("insert", "extract-min")}


def done(f, argument, reply):
    """A call that returns: its function, its argument and its completion."""
    return f, argument, ("ok", reply)


def unknown(f, argument):
    """A call of which nothing is known from some moment on."""
    return f, argument, ("info", argument)


# ---- search: two processes

# Calls, of which the last two have no known end.
SEARCHED = {
    "queue": (
        done("enqueue", 1, 1),
        done("enqueue", 2, 2),
        done("dequeue", None, 1),
        done("dequeue", None, 2),
        done("dequeue", None, None),
        unknown("enqueue", 1),
        unknown("dequeue", None),
    ),
    "register": (
        done("write", 1, 1),
        done("write", 2, 2),
        done("read", None, 1),
        done("read", None, 2),
        done("cas", (1, 2), (1, 2)),
        unknown("write", 1),
        unknown("cas", (1, 2)),
    ),
    # Two values that may or may not have come in.
    "queue of unknown values": (
        done("enqueue", 1, 1),
        done("enqueue", 2, 2),
        done("dequeue", None, 1),
        done("dequeue", None, 2),
        done("dequeue", None, None),
        unknown("enqueue", 1),
        unknown("enqueue", 2),
    ),
    # Reads of nil, and a compare-and-set that did not take place.
    "register not yet written": (
        done("write", 1, 1),
        done("write", 2, 2),
        done("read", None, None),
        done("read", None, 2),
        done("cas", (1, 2), False),
        unknown("write", 2),
        unknown("read", None),
    ),
}


def history_of(turns, calls):
    """The maps with these turns and calls. None where a process stays busy, or goes on where nothing is known of its call."""
    events, running, gone, calls = [], {}, set(), iter(calls)
    for process in turns:
        if process in gone:
            return None
        if process not in running:
            f, argument, _ = running[process] = next(calls)
            events.append((process, "invoke", f, argument))
            continue
        f, _, (kind, value) = running.pop(process)
        if kind == "info":
            gone.add(process)
        events.append((process, kind, f, value))
    return None if running else events


def searched_by_force(program, report):
    """Compares `search`, with either `--first`, with brute force on all histories of at most four operations."""
    counts = []
    for name, calls in SEARCHED.items():
        histories = brute_force.Sorted()
        for size in (2, 4, 6, 8):
            for turns in itertools.product((0, 1), repeat=size):
                # Process 0 begins, and both have an even number of maps.
                if turns[0] == 0 and sum(turns) % 2 == 0:
                    for chosen in itertools.product(calls, repeat=size // 2):
                        events = history_of(turns, chosen)
                        if events:
                            histories.add(events)
        counts.append(histories.counts())
        report.holds(f"search: {name}: there are histories with an order and without", 1000 < counts[-1][1] < counts[-1][0], counts)
        search_both_sorts(program, report, f"search: all small histories of a {name}", histories)
    return f"{sum(count[0] for count in counts)} histories"


def search_both_sorts(program, report, name, histories):
    """Searches in both orders of trying."""
    for first in ("number", "return"):
        words = ("search", "--first", first, "--steps", "1000000")
        of_others = lambda history, count: brute_force.of_each(  # noqa: B023
            program, f"{name}, by {first}, without an order", words, history, count, "impossible", 1
        )
        both_sorts(program, report, f"{name}, by {first}", histories, words, of_others)


def both_sorts(program, report, name, histories, words, of_others, more="", maps_of_more=0):
    """An order is printed of each history that has one, which check accepts. At the others another function looks."""
    look = lambda history, _, count: brute_force.of_orders(program, name, words, history, count)
    brute_force.on_texts(program, report, histories.texts(True, more, maps_of_more), look)
    brute_force.on_texts(program, report, histories.texts(False, more, maps_of_more), lambda history, _, count: of_others(history, count))


# ---- find: three processes


def calls_of_values(kind):
    puts, takes = PUTS_AND_TAKES[kind]
    return (done(puts, 1, 1), done(puts, 2, 2), done(takes, None, 1), done(takes, None, 2), done(takes, None, None))


FOUND = {
    **{kind: calls_of_values(kind) for kind in PUTS_AND_TAKES},
    "register": (
        done("write", 1, 1),
        done("write", 2, 2),
        done("read", None, 1),
        done("read", None, 2),
        done("read", None, None),
        done("cas", (1, 2), (1, 2)),
        done("cas", (2, 1), (2, 1)),
        done("cas", (1, 2), False),
    ),
    "map": (
        done("put", (0, 1), None),
        done("put", (0, 2), None),
        done("put", (0, 1), 2),
        done("put", (0, 2), 1),
        done("get", 0, 1),
        done("get", 0, 2),
        done("get", 0, None),
        done("del", 0, 1),
        done("del", 0, 2),
    ),
    "mutex": (done("acquire", None, None), done("release", None, None)),
}
# How often turns are drawn, of which one in a hundred or so are those of a history.
DRAWS = 20_000


def digits(number, radix, count):
    """The digits of a number, the lowest first."""
    return [number // radix**place % radix for place in range(count)]


def are_turns(turns):
    """Whether each process that has begun returns, processes are named as they come, and neighbours that both begin or both return
    are in the order of their names."""
    busy, named, before = [False] * 3, 0, (0, False)
    for process in turns:
        returns = busy[process]
        if process > named or before[0] > process and before[1] == returns:
            return False
        named = max(named, process + 1)
        busy[process] = not returns
        before = process, returns
    return not any(busy)


def found_by_force(program, report):
    """find finds an order, if there is one, of each history of at most three operations, and of random ones of four and five."""
    counts = []
    for kind, calls in FOUND.items():
        histories, chance = brute_force.Sorted(), None
        for size in (1, 2, 3):
            for turns in filter(are_turns, itertools.product(range(3), repeat=2 * size)):
                for chosen in itertools.product(calls, repeat=size):
                    histories.add(history_of(turns, chosen))
        for size in (4, 5):
            chance = brute_force.Chance(2026)
            for _ in range(DRAWS):
                turns = digits(chance.below(3 ** (2 * size)), 3, 2 * size)
                if are_turns(turns):
                    chosen = digits(chance.below(len(calls) ** size), len(calls), size)
                    histories.add(history_of(turns, [calls[operation] for operation in chosen]))
        counts.append(histories.counts())
        report.holds(f"find: {kind}: there are small histories with an order and without", 0 < counts[-1][1] < counts[-1][0], counts)
        find_both_sorts(program, report, f"find: small histories of a {kind}", histories)
    return f"{sum(count[0] for count in counts)} histories"


def find_both_sorts(program, report, name, histories, more="", maps_of_more=0):
    """Looks for orders of histories that have one, and of those that have none."""
    of_others = lambda history, count: brute_force.of_no_orders(program, name, history, count)
    both_sorts(program, report, name, histories, ("find",), of_others, more, maps_of_more)


# ---- judge: two processes, whose calls may fail or have no end

TAKEN = (1, 2, None)
# A call with the replies that it may have.
JUDGED = {
    **{
        kind: ((puts, 1, (1,)), (puts, 2, (2,)), (takes, None, TAKEN), (takes, None, TAKEN))
        for kind, (puts, takes) in PUTS_AND_TAKES.items()
    },
    "register": (
        ("write", 1, (1,)),
        ("write", 2, (2,)),
        ("read", None, (1, 2, None)),
        ("cas", (1, 2), ((1, 2), False)),
        ("cas", (2, 1), ((2, 1), False)),
    ),
    "map": (
        ("put", (7, 1), (None, 1, 2)),
        ("put", (7, 2), (None, 1, 2)),
        ("get", 7, (None, 1, 2)),
        ("del", 7, (None, 1, 2)),
        ("get", 8, (None,)),
    ),
    "mutex": (("acquire", None, (None,)), ("release", None, (None,))),
}
# The kind, how many of its calls there are to choose from, how many operations a history has at most, whether one is taken of each two
# that differ only by an exchange of the values 1 and 2, how many histories there are, and how many of them have no valid order. Without
# that choice the registers of 4 operations are 3,477,196, and the maps 5,392,676.
ALL = (
    ("queue", 3, 4, False, 381_588, 227_782),
    ("stack", 3, 4, False, 381_588, 225_442),
    ("heap", 3, 4, False, 381_588, 227_610),
    ("register", 5, 3, False, 62_092, 34_388),
    ("register", 5, 4, True, 1_739_512, 1_159_684),
    ("map", 4, 3, False, 84_260, 68_504),
    ("map", 4, 4, True, 2_709_991, 2_423_248),
    ("mutex", 2, 4, False, 27_306, 15_481),
)
# The same of sets, counters and locks, and of the functions that registers and maps were given later. Their reasons may need a search.
SEARCHED_FOR = {
    "set": (("add", 7, (True, False)), ("remove", 7, (True, False)), ("contains", 7, (True, False)), ("add", 8, (True,))),
    "counter": (("fetch-add", 1, (0, 1, 2)), ("fetch-add", 2, (0, 1, 2)), ("get-count", None, (0, 1, 2, 3))),
    "counter at its limit": (("fetch-add", 2**63 - 1, (0, 2**63 - 2)), ("fetch-add", -1, (0, 2**63 - 1)), ("get-count", None, (0, 2**63 - 1))),
    "lock": (("lock", 1, (None,)), ("lock", 2, (None,)), ("unlock", 1, (None,)), ("unlock", 2, (None,))),
    "register that is created": (
        ("create", 1, (True, False)),
        ("clear", None, (None,)),
        ("read", None, (1, 2, None)),
        ("write", 2, (2,)),
        ("cas", (1, 2), ((1, 2), False)),
    ),
    "map that tells whether it changed": (
        ("put-if-absent", (7, 1), (True, False)),
        ("replace", (7, 1, 2), (True, False)),
        ("get", 7, (None, 1, 2)),
        ("del", 7, (None, 1, 2)),
    ),
    "map that tells nothing": (
        ("assoc", (7, 1), (None,)),
        ("assoc", (7, 2), (None,)),
        ("dissoc", 7, (None,)),
        ("get", 7, (None, 1, 2)),
    ),
}
# The kind, how many of its calls there are to choose from, and how many operations a history has at most.
LATER = (
    ("set", 4, 3),
    ("set", 2, 4),
    ("counter", 3, 3),
    ("counter at its limit", 3, 3),
    ("lock", 4, 4),
    ("register that is created", 5, 3),
    ("map that tells whether it changed", 4, 3),
    ("map that tells nothing", 4, 3),
)
# How many histories are judged at a time.
LOT = 4 * brute_force.MOST_OBJECTS
WHOLE = re.compile(rb":cuts \[\]\}$", re.M)


def first_value(value):
    """The first of the values 1 and 2 that is named in an argument or a reply, or None."""
    named = value if isinstance(value, tuple) else (value,)
    return next((part for part in named if part in (1, 2)), None)


class Every:
    """All histories of at least one call and at most this many, in at most twice as many maps, a lot at a time. Process 0 makes
    the first step. Of two histories in which only the values 1 and 2 are exchanged the one that names 1 first can be taken alone."""

    def __init__(self, calls, operations, of_two, take):
        self.calls, self.steps, self.take, self.histories = calls, 2 * operations, take, brute_force.Sorted()
        self.count, self.without = 0, 0
        self.go_on("", 0, operations, (None, None), brute_force.NOTHING_DONE, not of_two)
        self.take_lot()

    def take_lot(self):
        """Hands on the histories that there are by now."""
        lot, without = self.histories.counts()
        self.count, self.without = self.count + lot, self.without + without
        self.take(self.histories)
        self.histories = brute_force.Sorted()

    def step(self, text, maps, left, waiting, state, is_named, event):
        """Goes on after one more map, unless it is the first to name a value, and names 2."""
        first = None if is_named else first_value(event[3])
        if first != 2:
            self.go_on(text + brute_force.map_of(event), maps + 1, left, waiting, brute_force.after(state, *event), is_named or first == 1)

    def go_on(self, text, maps, left, waiting, state, is_named):
        if maps:
            of = self.histories.of
            of[bool(state[0])].append((text, maps))
            if len(of[True]) + len(of[False]) == LOT:
                self.take_lot()
        if maps == self.steps:
            return
        for process, call in enumerate(waiting):
            if call:
                others = (None, waiting[1]) if process == 0 else (waiting[0], None)
                f, argument, replies = call
                for kind, value in (*[("ok", reply) for reply in replies], ("fail", argument)):
                    self.step(text, maps, left, others, state, is_named, (process, kind, f, value))
            elif left and (process == 0 or maps):
                for begun in self.calls:
                    others = (begun, waiting[1]) if process == 0 else (waiting[0], begun)
                    self.step(text, maps, left - 1, others, state, is_named, (process, "invoke", begun[0], begun[1]))


def judge_both_sorts(program, report, name, histories):
    """Judges histories, with no step of a search. A reason that keeps all operations without a count does not come from a pattern."""
    words = ("judge", "--steps", "0")

    def valid(history, text, count):
        ran = program.run(*words, history)
        expected = f"yes: {text.count(':type :invoke') - text.count(':type :fail')} operations, {count} objects\n".encode()
        return [(name, (0, b"", expected), (ran.status, ran.err, ran.out[: len(expected)]))]

    def impossible(history, _, count):
        ran = program.run(*words, history)
        of_objects = b"".join(line for line in ran.out.splitlines(True) if line.startswith(b"; object "))
        differs = brute_force.difference(brute_force.all_say(count, "impossible"), of_objects)
        reasons = ran.out.count(b"\n; {:object "), len(WHOLE.findall(ran.out))
        return [(f"{name}, without an order", (1, b"", None, (count, 0)), (ran.status, ran.err, differs, reasons))]

    brute_force.on_texts(program, report, histories.texts(True), valid)
    brute_force.on_texts(program, report, histories.texts(False), impossible)


def judged_by_force(program, report):
    """judge finds a reason for each small history that has no valid order, and for no other."""
    for kind, calls, operations, of_two, *counts in ALL:
        name = f"judge: all small histories of a {kind} of at most {operations} operations"
        every = Every(JUDGED[kind][:calls], operations, of_two, lambda lot: judge_both_sorts(program, report, name, lot))
        report.equal(f"{name}, and those without an order", tuple(counts), (every.count, every.without))
    return f"{sum(row[4] for row in ALL)} histories"


def search_and_judge_both_sorts(program, report, name, histories):
    """A search and a judgement find an order, or show that there is none; then refute accepts the reasons."""
    search_both_sorts(program, report, f"search: {name}", histories)

    def valid(history, text, count):
        ran = program.run("judge", history)
        expected = f"yes: {text.count(':type :invoke') - text.count(':type :fail')} operations, {count} objects\n".encode()
        return [(f"judge: {name}", (0, b"", expected), (ran.status, ran.err, ran.out[: len(expected)]))]

    def impossible(history, _, count):
        ran = program.run("judge", history)
        of_objects = b"".join(line for line in ran.out.splitlines(True) if line.startswith(b"; object "))
        differs = brute_force.difference(brute_force.all_say(count, "impossible"), of_objects)
        reasons = b"".join(line[2:] for line in ran.out.splitlines(True) if line.startswith(b"; {:object "))
        refuted = program.run("refute", history, program.write(f"{history}.reasons", reasons))
        shown = refuted.out.count(b"not linearizable: object ")
        return [(f"judge: {name}, without an order", (1, b"", None, (1, count)), (ran.status, ran.err, differs, (refuted.status, shown)))]

    brute_force.on_texts(program, report, histories.texts(True), valid)
    brute_force.on_texts(program, report, histories.texts(False), impossible)


def later_by_force(program, report):
    """Searches and judges all small histories of the kinds and functions that were added later."""
    judged = 0
    for kind, calls, operations in LATER:
        name = f"all small histories of a {kind} of at most {operations} operations"
        every = Every(
            SEARCHED_FOR[kind][:calls], operations, False, lambda lot: search_and_judge_both_sorts(program, report, name, lot)  # noqa: B023
        )
        report.holds(f"{name}: some have an order and some have none", 0 < every.without < every.count, (every.count, every.without))
        judged += every.count
    return f"{judged} histories"


def later_at_random(program, report):
    """Searches and judges random histories of these kinds, of up to six operations, some of which fail or are pending."""
    for kind, calls in SEARCHED_FOR.items():
        histories = drawn_histories(report, f"drawn histories of a {kind}", calls, 2000, 6)
        search_and_judge_both_sorts(program, report, f"drawn histories of a {kind}", histories)


def drawn(calls, chance, operations):
    """A history of at most this many operations of two processes, some of which fail or are pending."""
    events, waiting, over, left = [], {}, set(), operations
    for _ in range(4 * operations):
        process = chance.below(2)
        if process in over or process not in waiting and not left:
            continue
        if process not in waiting:
            call = waiting[process] = calls[chance.below(len(calls))]
            events.append((process, "invoke", call[0], call[1]))
            left -= 1
            continue
        f, argument, replies = waiting.pop(process)
        end = {0: "fail", 1: "info"}.get(chance.below(12), "ok")
        if end == "info":
            over.add(process)
        events.append((process, end, f, replies[chance.below(len(replies))] if end == "ok" else argument))
    return events


def drawn_histories(report, name, calls, count, operations):
    """This many histories that are drawn: with an order, and without."""
    histories, chance = brute_force.Sorted(), brute_force.Chance(2026)
    for _ in range(count):
        events = drawn(calls, chance, operations)
        if events:
            histories.add(events)
    report.holds(f"{name}: some have an order and some have none", 0 < histories.counts()[1] < histories.counts()[0])
    return histories


def judged_at_random(program, report):
    """judge finds a reason for each random small history that has no valid order: it tries a thousand of each kind."""
    for kind, calls in JUDGED.items():
        histories = drawn_histories(report, f"judge: drawn histories of a {kind}", calls, 1000, 4)
        judge_both_sorts(program, report, f"judge: drawn histories of a {kind}", histories)


PARTS = (searched_by_force, found_by_force, judged_by_force, judged_at_random, later_by_force, later_at_random)
