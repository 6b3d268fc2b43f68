"""Histories that are made up, and the calls of any history, read by code that shares nothing with the program."""
import functools
import random
from dataclasses import dataclass

from . import text_writers
from .verify.reasons import NEXT, maps_of, value_of

FUNCTIONS = {
    "queue": ("enqueue", "dequeue"),
    "stack": ("push", "pop"),
    "heap": ("insert", "extract-min"),
    "register": ("write", "read", "cas"),
    "map": ("put", "get", "del"),
    "mutex": ("acquire", "release"),
}
# The kinds that came later, and the kinds that were given further functions.
LATER_FUNCTIONS = {
    "set": ("add", "remove", "contains"),
    "counter": ("fetch-add", "get-count"),
    "lock": ("lock", "unlock"),
    "register of all functions": (*FUNCTIONS["register"], "clear", "create"),
    "map of all functions": (*FUNCTIONS["map"], "assoc", "dissoc", "put-if-absent", "replace"),
}
# All of them: from these the generators of pages, shards and small histories draw. The first word of a name is that of the kind.
ALL_FUNCTIONS = {**FUNCTIONS, **LATER_FUNCTIONS}
KIND_OF = {f: kind.split()[0] for kind, functions in ALL_FUNCTIONS.items() for f in functions}
WITHOUT_ARGUMENT = ("dequeue", "pop", "extract-min", "read", "acquire", "release", "clear", "get-count")
ARGUMENTS = {"cas": 2, "put": 2, "assoc": 2, "put-if-absent": 2, "replace": 3}
# The kinds whose objects are held or free: what takes hold of one, and what lets it go.
TOKENS = ("mutex", "lock")
HOLDS = {"acquire": "release", "lock": "unlock"}
# The functions that reply their argument, that reply nil alone, and that reply whether they did, or found, what they ask for.
REPLY_ARGUMENT = ("enqueue", "push", "insert", "write")
REPLY_NIL = ("acquire", "release", "lock", "unlock", "clear", "assoc", "dissoc")
REPLY_WHETHER = ("create", "put-if-absent", "replace", "add", "remove", "contains")


@dataclass
class Call:
    """A call: the numbers of its invocation and of its completion, if it has one, and what became of it."""

    number: int
    process: str
    on: int
    f: str
    argument: object
    at: int = None
    end: str = "open"
    reply: object = None

    def is_live(self):
        return self.end != "fail"

    def returned(self):
        return self.at if self.end == "ok" else None


@functools.lru_cache(maxsize=16)
def calls_of(history):
    """The calls of a history, by their numbers, and how many maps it has."""
    calls, outstanding, maps = {}, {}, maps_of(history)
    for number, event in enumerate(maps):
        process = event["process"]
        if process.startswith(":"):
            continue
        if event["type"] == ":invoke":
            call = Call(number, process, int(event.get("object", 0)), event["f"][1:], value_of(event.get("value")))
            calls[number] = outstanding[process] = call
        else:
            call = outstanding.pop(process)
            call.at, call.end, call.reply = number, event["type"][1:], value_of(event.get("value"))
    return calls, len(maps)


@dataclass
class Made:
    """A history that is linearizable, of one object, and a valid order of it. The kind may be one of all functions."""

    kind: str
    maps: list
    order: list

    def text(self):
        return text_writers.lines(*self.maps)


def argument_for(rng, f, values):
    if f in WITHOUT_ARGUMENT:
        return None
    if f in ARGUMENTS:
        return tuple(rng.randrange(values) for _ in range(ARGUMENTS[f]))
    return rng.randrange(values)


def made(kind, seed, calls=12, processes=3, values=4, on=0):
    """A history of clients that take turns at random: each call takes effect at some moment between its two maps."""
    rng = random.Random(f"{kind} {seed}")
    content, running, maps, order, begun, names = (), {}, [], [], 0, list(range(processes))
    while begun < calls or running:
        place = rng.randrange(processes)
        process = names[place]
        if process not in running:
            if begun < calls:
                f = rng.choice(ALL_FUNCTIONS[kind])
                argument = argument_for(rng, f, values)
                running[process] = [len(maps), f, argument, None]
                maps.append(text_writers.invoke(process, f, argument, on))
                begun += 1
            continue
        number, f, argument, done = running[process]
        if done is None:
            taken = NEXT[f](content, f, argument)
            if taken and rng.random() < 0.95:
                content = taken[0]
                running[process][3] = taken
                order.append(number)
            elif rng.random() < 0.3:
                maps.append(text_writers.fail(process, f, argument, on))
                del running[process]
            continue
        del running[process]
        if rng.random() < 0.07:
            maps.append(text_writers.info(process, f, argument, on))
            names[place] = max(names) + 1
        else:
            maps.append(text_writers.ok(process, f, done[1], on))
    return Made(kind, maps, order)


def spoilt(kind, seed):
    """The maps of a made history in which one reply is another: it may be that no order is valid."""
    rng = random.Random(f"spoilt {kind} {seed}")
    history = made(kind, seed, calls=rng.choice((6, 10, 16)), values=3)
    calls, _ = calls_of(history.text())
    returned = [call for call in calls.values() if call.end == "ok" and (kind in TOKENS or call.f not in REPLY_NIL)]
    if not returned:
        return history.maps
    call = rng.choice(returned)
    maps = list(history.maps)
    if kind in TOKENS:
        del maps[call.number : call.at + 1]
        return maps
    maps[call.at] = text_writers.ok(call.process, call.f, other_reply(rng, call), call.on)
    return maps


def other_reply(rng, call):
    """A reply that the function of a call may have, in most cases another one."""
    reply = rng.choice((None, 0, 1, 2, 77))
    if call.f == "cas":
        return False if call.reply is not False else call.argument
    if call.f in REPLY_WHETHER:
        return not call.reply
    return reply if reply is not None or KIND_OF[call.f] != "counter" else -1


def long_search(seed, on=None):
    """The maps of a history with an order that takes a long search: of writes at once the one that returned first is the last, since
    none of the other values was found afterwards. It is of this object, or other objects may have other calls."""
    rng = random.Random(f"long search {seed}")
    others = made(rng.choice(tuple(ALL_FUNCTIONS)), f"beside {seed}", calls=rng.choice((0, 0, 5, 12)), on=0).maps if on is None else []
    on, writers = (1 if others else on or 0), rng.sample(range(100, 200), rng.randrange(12, 15))
    maps = [text_writers.invoke(process, "write", process, on) for process in writers]
    maps += [text_writers.ok(process, "write", process, on) for process in writers]
    checks = rng.sample(writers[1:], len(writers) - 1)
    maps += [event for of in checks for event in (text_writers.invoke(200, "cas", (of, 7), on), text_writers.ok(200, "cas", False, on))]
    if rng.random() < 0.5:
        maps += [text_writers.invoke(201, "read", None, on), text_writers.info(201, "read", None, on)]
    place = rng.randrange(len(maps) + 1)
    return maps[:place] + others + maps[place:]


# What goes wrong on an object of each kind.
FAULTS = {
    "never put": ("queue", "stack", "heap"),
    "found empty": ("queue", "stack", "heap"),
    "taken twice": ("queue", "stack", "heap"),
    "wrong turn": ("queue", "stack", "heap"),
    "out of date": ("register", "map", "counter", "register of all functions", "map of all functions"),
    "own value": ("register", "map"),
    "wrong answer": ("set", "register of all functions", "map of all functions"),
}


# The functions that reply what they found.
READERS = ("dequeue", "pop", "extract-min", "read", "get", "fetch-add", "get-count")


def wrong_replies(rng, sort, calls, replies):
    """Replies of which one or two are wrong in this way, where the calls can have such."""
    readers = [number for number in replies if calls[number].f in READERS]
    with_value = [number for number in readers if replies[number] is not None]
    setters = [number for number in replies if calls[number].f in ("cas", "put")]
    answers = [number for number in replies if calls[number].f in REPLY_WHETHER]
    if sort == "wrong answer":
        own = rng.choice(answers) if answers else None
        return {**replies, own: not replies[own]} if answers else replies
    if sort == "own value" and setters:
        own = rng.choice(setters)
        _, value = calls[own].argument
        return {**replies, own: (value, value) if calls[own].f == "cas" else value}
    if sort in ("never put", "found empty") and readers:
        return {**replies, rng.choice(with_value or readers): 5000 if sort == "never put" else None}
    if len(with_value) < 2:
        return replies
    one, other = sorted(rng.sample(with_value, 2))
    return {**replies, other: replies[one], one: replies[other] if sort == "wrong turn" else replies[one]}


def faulty(sort, kind, seed):
    """A made history of rarely the same value, if the kind is not of few, in which one or two replies are wrong, as a faulty object gives them, with
    the order of the right one."""
    rng = random.Random(f"faulty {sort} {kind} {seed}")
    values = 4 if kind in ("set", "map of all functions") else 1000
    right = made(kind, f"{sort} {seed}", calls=rng.choice((8, 14, 30)), processes=rng.choice((1, 2, 3)), values=values)
    calls, maps = calls_of(right.text())[0], list(right.maps)
    replies = {call.number: call.reply for call in calls.values() if call.end == "ok"}
    for number, reply in wrong_replies(rng, sort, calls, replies).items():
        call = calls[number]
        argument = (reply[0], call.argument[1]) if sort == "own value" and call.f == "cas" and reply not in (False, None) else call.argument
        maps[number] = text_writers.invoke(call.process, call.f, argument, call.on)
        maps[call.at] = text_writers.ok(call.process, call.f, reply, call.on)
    return Made(kind, maps, right.order)
