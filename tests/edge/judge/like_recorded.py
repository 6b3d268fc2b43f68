"""Histories like those that were recorded from real systems: as many clients, calls, objects, pending and failed calls, and maps of
a nemesis. Objects that are right have an order too; faulty ones are made faulty in the ways of real ones."""
import random
from dataclasses import dataclass, field

from .. import text_writers
from ..histories import ALL_FUNCTIONS, ARGUMENTS, HOLDS, REPLY_ARGUMENT, WITHOUT_ARGUMENT, calls_of
from ..verify.reasons import NEXT

# Calls that could not be done for this many turns of all clients are given up.
PATIENCE = 400


@dataclass
class Played:
    """The maps of a history, and for each object the numbers of its calls in the order in which they took effect."""

    maps: list = field(default_factory=list)
    orders: dict = field(default_factory=dict)

    def text(self):
        return text_writers.lines(*self.maps)

    def certificates(self, change=None):
        """The orders as a text, that of the first object changed."""
        orders = {on: list(order) for on, order in sorted(self.orders.items())}
        if change:
            first = min(orders)
            orders[first] = change(orders[first])
        return text_writers.lines(*[text_writers.certificate(on, *order) for on, order in orders.items()])

    def by_return(self):
        """For each object its calls that returned, in the order in which they did so."""
        calls, orders = calls_of(self.text())[0].values(), {}
        for call in sorted((call for call in calls if call.end == "ok"), key=lambda call: call.at):
            orders.setdefault(call.on, []).append(call.number)
        return orders


class Right:
    """Objects each of whose calls takes effect at one moment."""

    def __init__(self, played):
        self.played, self.contents = played, {}

    def call(self, number, process, on, f, argument):
        yield
        content = self.contents.get(on, ())
        while NEXT[f](content, f, argument) is None:
            yield
            content = self.contents.get(on, ())
        self.contents[on], reply = NEXT[f](content, f, argument)
        self.played.orders.setdefault(on, []).append(number)
        yield
        return reply


class RacyQueue:
    """A queue from which a call takes the first value by looking at it, and then taking the first one away."""

    def __init__(self, played):
        self.items = []

    def call(self, number, process, on, f, argument):
        yield
        if f == "enqueue":
            self.items.append(argument)
            return argument
        if not self.items:
            return None
        first = self.items[0]
        yield
        if self.items:
            self.items.pop(0)
        return first


class ExpiringLock:
    """A lock that is free after some turns, even while it is held, and that any client may give back."""

    def __init__(self, played):
        self.left = 0

    def call(self, number, process, on, f, argument):
        yield
        while f in HOLDS and self.left > 0:
            self.left -= 1
            yield
        self.left = 6 if f in HOLDS else 0
        yield


class ShardedQueue:
    """A queue in shards: each process puts into its own, and takes from its own, or else from the others in turn."""

    def __init__(self, played):
        self.shards = {}

    def call(self, number, process, on, f, argument):
        yield
        if f == "enqueue":
            self.shards.setdefault(process, []).append(argument)
            return argument
        for own in (process, *sorted(self.shards)):
            if self.shards.get(own):
                return self.shards[own].pop(0)
            yield
        return None


class RacyRegister:
    """A register whose compare-and-set reads, and then writes."""

    def __init__(self, played):
        self.value = None

    def call(self, number, process, on, f, argument):
        yield
        if f == "write":
            self.value = argument
            yield
            return argument
        found = self.value
        yield
        if f == "read":
            return found
        if found != argument[0]:
            return False
        self.value = argument[1]
        yield
        return argument


class LaggingRegister(RacyRegister):
    """The same, of which each process reads a copy that is renewed now and then."""

    def __init__(self, played):
        super().__init__(played)
        self.copies, self.calls = {}, 0

    def call(self, number, process, on, f, argument):
        self.calls += 1
        if self.calls % 7 == 0 or self.copies.get(process) is None:
            self.copies[process] = self.value
        if f != "read":
            return (yield from super().call(number, process, on, f, argument))
        yield
        return self.copies[process]


class Wishes:
    """What the clients call next."""

    def __init__(self, rng, kinds, functions, values):
        self.rng, self.kinds, self.functions, self.values = rng, kinds, functions, values
        self.held, self.last = {}, 0

    def value(self):
        self.last += 1
        return self.rng.randrange(self.values) if self.values else self.last

    def next(self, process):
        """An object, a function and its argument."""
        if process in self.held:
            return self.held.pop(process)
        on = self.rng.randrange(len(self.kinds))
        f = self.rng.choice(self.functions[self.kinds[on]])
        for takes_hold, lets_go in HOLDS.items():
            if f in (takes_hold, lets_go):
                owner = process if takes_hold == "lock" else None
                self.held[process] = on, lets_go, owner
                return on, takes_hold, owner
        return on, f, self.argument(f)

    def argument(self, f):
        if f in WITHOUT_ARGUMENT:
            return None
        if f in REPLY_ARGUMENT or f == "create":
            return self.value()
        if f == "cas":
            return self.value(), self.value()
        if f == "fetch-add":
            return self.rng.randrange(5) - 1
        key = self.rng.randrange(4)
        return (key, *[self.value() for _ in range(ARGUMENTS[f] - 1)]) if f in ARGUMENTS else key


def nemesis(word):
    return f"{{:process :nemesis, :type :info, :f :{word}}}"


class Play:
    """A history in the making, of clients that take turns at random."""

    def __init__(self, rng, wishes, system, played, processes, calls, lost, refused, nemeses):
        self.rng, self.wishes, self.system, self.played = rng, wishes, system, played
        self.names, self.running, self.begun, self.calls = list(range(processes)), {}, 0, calls
        numbers = rng.sample(range(calls), lost + refused)
        self.lost, self.refused = set(numbers[:lost]), set(numbers[lost:])
        self.pauses = sorted(rng.sample(range(calls), nemeses))

    def begin(self, place):
        if self.pauses and self.begun >= self.pauses[0]:
            self.played.maps.append(nemesis("stop-pause" if len(self.pauses) % 2 else "start-pause"))
            self.pauses.pop(0)
        process = self.names[place]
        on, f, argument = self.wishes.next(process)
        number = len(self.played.maps)
        self.played.maps.append(text_writers.invoke(process, f, argument, on))
        call = self.system.call(number, process, on, f, argument)
        self.running[place] = [call, process, on, f, argument, self.begun, 0]
        self.begun += 1

    def end(self, place, kind, reply=None):
        _, process, on, f, argument, _, _ = self.running.pop(place)
        write = {"ok": text_writers.ok, "fail": text_writers.fail, "info": text_writers.info}[kind]
        self.played.maps.append(write(process, f, reply if kind == "ok" else argument, on))
        if kind == "info":
            self.names[place] = max(self.names) + 1
        if f in HOLDS and kind != "ok":
            self.wishes.held.pop(process, None)

    def step(self, place):
        call, _, _, f, _, own, turns = self.running[place]
        self.running[place][6] += 1
        if own in self.refused and f not in HOLDS.values():
            return self.end(place, "fail")
        # A lock that was lost is not held, and one that is given back is free.
        if own in self.lost and (f in HOLDS or f not in HOLDS.values() and turns >= self.rng.randrange(3)):
            return self.end(place, "info")
        try:
            next(call)
        except StopIteration as ended:
            return self.end(place, "info" if own in self.lost else "ok", ended.value)
        if turns > PATIENCE and self.begun >= self.calls and f in HOLDS:
            self.end(place, "fail")

    def all(self):
        while self.begun < self.calls or self.running:
            place = self.rng.randrange(len(self.names))
            if place in self.running:
                self.step(place)
            elif self.begun < self.calls:
                self.begin(place)
        self.played.maps += [nemesis("stop-pause") for _ in self.pauses]


def played(kinds, calls, processes, system=Right, seed=1, lost=0, refused=0, nemeses=0, values=0):
    """A history of this many calls of this many processes on objects of these kinds, named as in ALL_FUNCTIONS, of which the given numbers are
    lost, and refused. Values are drawn from this many, or each is another."""
    rng, made = random.Random(f"played {kinds} {calls} {system.__name__} {seed}"), Played()
    wishes = Wishes(rng, kinds, ALL_FUNCTIONS, values)
    Play(rng, wishes, system(made), made, processes, calls, lost, refused, nemeses).all()
    return made
