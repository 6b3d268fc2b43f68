"""Whether a history has a valid order, by all orders, and many small histories in one text.

All that is known of an object while its history is read is a set of contents, each with the calls that took effect
and have not returned. Where that set is empty, no order is valid."""
import functools

from .verify.reasons import NEXT
from .running import at_once
from .text_writers import lines, value as written

# The most objects of a history, and the most maps.
MOST_OBJECTS, MOST_MAPS = 65_536, 1_000_000
NOTHING_DONE = (frozenset([((), ())]), ())


class Chance:
    """Numbers by the multiplier and increment of Knuth's MMIX."""

    def __init__(self, seed):
        self.state = seed

    def below(self, bound):
        self.state = (self.state * 6_364_136_223_846_793_005 + 1_442_695_040_888_963_407) % 2**64
        return (self.state >> 33) % bound


def without(pairs, process):
    return tuple(pair for pair in pairs if pair[0] != process)


def effects(known, running):
    """All that can be so after some of the running calls took effect."""
    found, left = set(known), list(known)
    while left:
        content, done = left.pop()
        names = {call[0] for call in done}
        for process, f, argument in running:
            taken = process not in names and NEXT[f](content, f, argument)
            if taken:
                now = (taken[0], tuple(sorted((*done, (process, taken[1])), key=lambda call: call[0])))
                if now not in found:
                    found.add(now)
                    left.append(now)
    return found


@functools.lru_cache(maxsize=None)
def after(state, process, kind, f, value):
    """What is known after one more map."""
    known, running = state
    if kind == "invoke":
        return known, (*running, (process, f, value))
    if kind == "info":
        return state
    if kind == "fail":
        kept = frozenset(reached for reached in known if all(of[0] != process for of in reached[1]))
        return kept, without(running, process)
    done = (process, value)
    kept = frozenset((content, without(of, process)) for content, of in effects(known, running) if done in of)
    return kept, without(running, process)


def has_order(events):
    """Whether some order is valid of a history of one object: a process, a type, a function and a value for each map."""
    state = NOTHING_DONE
    for event in events:
        state = after(state, *event)
    return bool(state[0])


@functools.lru_cache(maxsize=None)
def map_of(event):
    """The map of an event. In it `@` is for the number of the object, with which its process, of two digits, ends too."""
    process, kind, f, value = event
    return f"{{:process {process + 10}@ :type :{kind} :f :{f} :value {written(value)} :object @}}\n"


def template(events):
    """The maps of a history."""
    return "".join(map(map_of, events))


class Sorted:
    """Histories of one object each, apart by whether they have an order, as templates with the number of their maps."""

    def __init__(self):
        self.of = {True: [], False: []}

    def add(self, events):
        """Adds a history, and says whether it has an order."""
        is_valid = has_order(events)
        self.of[is_valid].append((template(events), len(events)))
        return is_valid

    def counts(self):
        return len(self.of[True]) + len(self.of[False]), len(self.of[False])

    def texts(self, is_valid, more="", maps_of_more=0):
        """Texts of all histories of a sort, each with how many objects it has. More maps can come before each history."""
        text, maps = [], 0
        for one, count in self.of[is_valid]:
            if len(text) == MOST_OBJECTS or maps + count + maps_of_more > MOST_MAPS:
                yield "".join(text), len(text)
                text, maps = [], 0
            text.append((more + one).replace("@", str(len(text))))
            maps += count + maps_of_more
        if text:
            yield "".join(text), len(text)


def all_say(count, words):
    """What a command says that says the same of each object."""
    return lines(*[f"; object {number}: {words}" for number in range(count)]).encode()


def difference(expected, came):
    """The first line in which two outputs differ, or None."""
    if expected == came:
        return None
    for number, (first, second) in enumerate(zip(expected.splitlines(), came.splitlines())):
        if first != second:
            return f"line {number}: expected {first!r}, came {second!r}"
    return f"one ends after {min(expected.count(10), came.count(10))} lines"


def of_each(program, name, words, history, count, said, status):
    """What is to be said of each object, and what a run says."""
    ran = program.run(*words, history)
    return [(name, (status, b"", None), (ran.status, ran.err, difference(all_say(count, said), ran.out)))]


def of_no_orders(program, name, history, count):
    """Of each object find is to print a line, none of which is an order."""
    ran = program.run("find", history)
    counts = ran.out.count(b"\n"), ran.out.count(b":order [")
    return [(f"{name}, without an order", (3, b"", (count, 0)), (ran.status, ran.err, counts))]


def of_orders(program, name, words, history, count):
    """A certificate is to be printed for each object, which check accepts."""
    ran = program.run(*words, history)
    found = f"{name}: an order for each", (0, b"", count), (ran.status, ran.err, ran.out.count(b"\n"))
    checked = program.run("check", history, program.write(f"{history}.orders", ran.out))
    return [found, (f"{name}: check accepts them", (0, b"yes: "), (checked.status, checked.out[:5]))]


def on_texts(program, report, texts, look):
    """Looks at each of some texts of many objects, several at once."""

    def one(given):
        number, (text, count) = given
        return look(program.write(f"many.{number}.edn", text), text, count)

    for told in at_once(one, enumerate(texts)):
        for comparison in told:
            report.equal(*comparison)
