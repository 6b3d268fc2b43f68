"""What judge and refute say of histories that are not linearizable.

Each operation that is told must be one of the history, and the operations must have no valid order. Both are checked here
anew: the history is read, and all orders are tried, by code that shares nothing with the program."""
import functools
import os
import re
import threading

from .. import worked_rows
from ..running import EXAMPLES
from ..text_writers import lines

VALUE = r"nil|false|true|-?\d+|\[-?\d+(?: -?\d+)+\]"
TOLD = re.compile(
    rf"events? (\d+)(?: and (\d+))?: process (\d+), :([\w-]+) ({VALUE})(?:, :ok ({VALUE}))?"
    rf"(?:, counted as :([\w-]+) ({VALUE})(?:, :ok ({VALUE}))?)?(, pending)?"
)
IMPOSSIBLE = re.compile(r"; object (\d+): impossible")
OPEN = re.compile(r"; object (\d+): (open|out of memory|out of steps after \d+)")
# Of more operations than these not all orders are tried.
MOST_ORDERED = 12


def value_of(word):
    """The value that a word of EDN is: an integer, None for nil, a truth value, or a tuple."""
    if word in (None, "nil"):
        return None
    if word in ("false", "true"):
        return word == "true"
    numbers = tuple(int(digits) for digits in re.findall(r"-?\d+", word))
    return numbers if word.startswith("[") else numbers[0]


@functools.lru_cache(maxsize=16)
def maps_of(history):
    """The maps of a history, each with its process, type, function, value and object."""
    maps = []
    for text in re.findall(r"\{[^{}]*\}", history):
        fields = dict(re.findall(rf":(process|type|f|value|object) (:[\w-]+|{VALUE})", text))
        maps.append(fields)
    return maps


# ---- the objects


def next_of_queue(content, f, argument):
    if f == "enqueue":
        return content + (argument,), argument
    return content[1:], content[0] if content else None


def next_of_stack(content, f, argument):
    if f == "push":
        return content + (argument,), argument
    return content[:-1], content[-1] if content else None


def next_of_heap(content, f, argument):
    if f == "insert":
        return tuple(sorted(content + (argument,))), argument
    return content[1:], content[0] if content else None


def next_of_register(content, f, argument):
    now = content[0] if content else None
    if f == "read":
        return content, now
    if f == "write":
        return (argument,), argument
    if f == "clear":
        return (), None
    if f == "create":
        return ((argument,), True) if now is None else (content, False)
    return ((argument[1],), argument) if now == argument[0] else (content, False)


def next_of_map(content, f, argument):
    of = dict(content)
    key, *values = argument if isinstance(argument, tuple) else (argument,)
    before = of.get(key)
    if f == "put-if-absent" and before is not None or f == "replace" and before != values[0]:
        return content, False
    if f in ("del", "dissoc"):
        of.pop(key, None)
    elif f != "get":
        of[key] = values[-1]
    reply = {"put-if-absent": True, "replace": True, "assoc": None, "dissoc": None}.get(f, before)
    return tuple(sorted(of.items())), reply


def next_of_mutex(content, f, argument):
    if (f == "acquire") == bool(content):
        return None
    return (("held",) if f == "acquire" else ()), None


def next_of_set(content, f, argument):
    is_there = argument in content
    if f == "add":
        return tuple(sorted({*content, argument})), not is_there
    return (content if f == "contains" else tuple(element for element in content if element != argument)), is_there


def next_of_counter(content, f, argument):
    now = content[0] if content else 0
    if f == "get-count":
        return content, now
    return ((now + argument,), now) if -(2**63) <= now + argument < 2**63 else None


def next_of_lock(content, f, argument):
    if f == "lock":
        return None if content else ((argument,), None)
    return ((), None) if content == (argument,) else None


NEXT = {
    **dict.fromkeys(("enqueue", "dequeue"), next_of_queue),
    **dict.fromkeys(("push", "pop"), next_of_stack),
    **dict.fromkeys(("insert", "extract-min"), next_of_heap),
    **dict.fromkeys(("read", "write", "cas", "clear", "create"), next_of_register),
    **dict.fromkeys(("put", "get", "del", "assoc", "dissoc", "put-if-absent", "replace"), next_of_map),
    **dict.fromkeys(("acquire", "release"), next_of_mutex),
    **dict.fromkeys(("add", "remove", "contains"), next_of_set),
    **dict.fromkeys(("fetch-add", "get-count"), next_of_counter),
    **dict.fromkeys(("lock", "unlock"), next_of_lock),
}


def has_order(calls, before=()):
    """Whether some order of the calls is valid on an object that contains this before. A call is a number, a return or None, a function, its
    argument and its reply."""
    calls = tuple(calls)

    @functools.lru_cache(maxsize=None)
    def goes_on(left, content):
        ends = [calls[place][1] for place in left if calls[place][1] is not None]
        if not ends:
            return True
        for place in left:
            number, at, f, argument, reply = calls[place]
            if any(end < number for end in ends if end != at):
                continue
            taken = NEXT[f](content, f, argument)
            if taken and (at is None or taken[1] == reply) and goes_on(left - {place}, taken[0]):
                return True
        return False

    return goes_on(frozenset(range(len(calls))), before)


# ---- counts


def sets_and_takes(count, f, argument, reply, has_returned):
    """How often a call sets what is counted, and takes it away."""
    if "held" in count or "free" in count:
        gives, takes = ("acquire", "release") if "held" in count else ("release", "acquire")
        return f == gives, f == takes and has_returned
    took_place = not has_returned or reply is not False
    if count.get("key") is None:
        return sets_and_takes_value(count.get("value"), f, argument, reply, has_returned, took_place)
    return sets_and_takes_entry(count["key"], count.get("value"), f, argument, reply, has_returned, took_place)


def sets_and_takes_value(value, f, argument, reply, has_returned, took_place):
    """The same of a value in a queue, stack, heap or register."""
    sets = f in ("enqueue", "push", "insert", "write", "create") and argument == value and took_place
    sets |= f == "cas" and argument[1] == value and took_place
    takes = has_returned and f in ("dequeue", "pop", "extract-min") and reply == value
    return sets, takes or has_returned and f == "cas" and reply is not False and argument[0] == value


def sets_and_takes_entry(key, value, f, argument, reply, has_returned, took_place):
    """The same of a value under a key of a map, or of no value."""
    if f == "get" or (argument[0] if isinstance(argument, tuple) else argument) != key:
        return False, False
    if value is None:
        sets = f == "dissoc" or f == "del" and (not has_returned or reply is not None)
        return sets, has_returned and (f == "put" and reply is None or f == "put-if-absent" and reply is True)
    sets = f in ("put", "assoc", "put-if-absent", "replace") and argument[-1] == value and took_place
    takes = f in ("put", "del") and reply == value or f == "replace" and reply is True and argument[1] == value
    return sets, has_returned and takes


def is_overdrawn(count, calls):
    """Whether a content is taken away more often, in the calls from a number on, than it can have been there."""
    start, sets, takes = count["from"], 0, 0
    for number, at, f, argument, reply in calls:
        gives, takes_away = sets_and_takes(count, f, argument, reply, at is not None)
        sets += gives and not (at is not None and at < start)
        takes += takes_away and number >= start
    is_there_at_first = "free" in count or ("key" in count and "value" not in count)
    return takes > sets + (is_there_at_first if start == 0 else 1)


PUTS, REMOVALS = ("enqueue", "push", "insert"), ("dequeue", "pop", "extract-min")


def is_settled(f, found, start, puts):
    """Whether, where a pop found a value, each push of it had returned before a number."""
    return f != "pop" or found is None or all(at is not None and at < start for _, at, _, value, _ in puts if value == found)


def is_blocked(count, calls):
    """Whether more values definitely were ahead of what a removal found than others can have taken out before it."""
    puts, removals = [call for call in calls if call[2] in PUTS], [call for call in calls if call[2] in REMOVALS]
    own = next((removal for removal in removals if removal[0] == count["ahead"] and removal[1] is not None), None)
    start = count.get("from", 0)
    if own is None or not is_settled(own[2], own[4], start, puts):
        return False
    number, returned, f, _, found = own
    before = number
    if f == "dequeue" and found is not None:
        before = min(number, next((put[0] for put in puts if put[3] == found), 0))
    can_be_ahead = lambda value: f != "extract-min" or found is None or value < found
    ahead = [put for put in puts if can_be_ahead(put[3]) and put[1] is not None and put[1] < before and put[0] >= start]
    others = [removal for removal in removals if removal[0] != number and removal[0] <= returned]
    return len(ahead) > sum(at is None or reply is not None and can_be_ahead(reply) for _, at, _, _, reply in others)


def count_in(reason):
    """The count that a reason names, or None."""
    count = re.search(r":count \{([^}]*)\}", reason)
    if not count:
        return None
    return {name: value == "true" or int(value) for name, value in re.findall(r":(\w+) (true|-?\d+)", count[1])}


# ---- what is told


def has_failed(maps, number):
    """Whether the next map of the process that invoked the operation at this map says that it failed."""
    process = maps[number]["process"]
    return next((entry["type"] == ":fail" for entry in maps[number + 1 :] if entry["process"] == process), False)


def is_of_history(maps, told, on):
    """Whether the history has such a call, which did not fail: its invocation and its return at these maps, on this object."""
    number, at, process, f, argument, reply = (told[group] for group in range(1, 7))
    begun = maps[int(number)]
    is_begun = (begun["type"], begun["process"], begun["f"]) == (":invoke", process, f":{f}")
    is_begun &= value_of(begun.get("value")) == value_of(argument) and int(begun.get("object", 0)) == on
    if at is None:
        return is_begun and reply is None and told[10] is not None and not has_failed(maps, int(number))
    ended = maps[int(at)]
    is_ended = (ended["type"], ended["process"], ended["f"]) == (":ok", process, f":{f}")
    return is_begun and is_ended and value_of(ended.get("value")) == value_of(reply) and told[10] is None


def call_of(told):
    """The call as the part counts it."""
    f, argument, reply = (told[7], told[8], told[9]) if told[7] else (told[4], told[5], told[6])
    at = int(told[2]) if told[2] else None
    return int(told[1]), at, f, value_of(argument), value_of(reply)


def why_not_shown(history, on, operations, reason):
    """What is wrong with the operations that are told of an object, or None: they are of the history, and have no valid order."""
    maps, calls = maps_of(history), []
    for line in operations:
        told = TOLD.fullmatch(line)
        if not told:
            return f"no operation: {line}"
        if not is_of_history(maps, told, on):
            return f"not in the history: {line}"
        calls.append(call_of(told))
    count = count_in(reason)
    if count:
        is_exceeded = is_blocked if "ahead" in count else is_overdrawn
        return None if is_exceeded(count, calls) else "the count is not exceeded"
    if not calls or len(calls) <= MOST_ORDERED and has_order(calls):
        return "the operations have a valid order"
    return None


def explained_in(out):
    """The objects that a judgement calls impossible, each with its operations and its reason; and the lines besides."""
    found, others = [], []
    for line in out.decode().splitlines():
        if IMPOSSIBLE.fullmatch(line):
            found.append((int(IMPOSSIBLE.fullmatch(line)[1]), []))
        elif found and not OPEN.fullmatch(line):
            found[-1][1].append(line.removeprefix("; "))
        else:
            others.append(line)
    return [(on, without_sentence(told[:-1]), told[-1] if told else "") for on, told in found], others


def without_sentence(told):
    """The lines that are told of an object without the sentence, where it has one."""
    return told if not told or TOLD.fullmatch(told[0]) else told[1:]


def operations_on(history, on):
    """How many operations of an object did not fail."""
    open_calls, count = {}, 0
    for event in maps_of(history):
        if int(event.get("object", 0)) != on or not event["process"].isdigit():
            continue
        if event["type"] == ":invoke":
            count += 1
        count -= event["type"] == ":fail"
    return count


def refuted(history, on, operations):
    """What refute says of a reason whose part has these operations."""
    return lines(f"not linearizable: object {on}: {len(operations)} of {operations_on(history, on)} operations have no valid order", *operations)


def why_not_explained(program, history, ran):
    """What is wrong with a judgement that ends with 1, or None. Each of its reasons is also handed to refute."""
    found, others = explained_in(ran.out)
    if ran.status != 1 or not found or any(not OPEN.fullmatch(other) for other in others):
        return f"no judgement: {ran}"
    stem = f"explained.{os.getpid()}.{threading.get_ident()}"
    name = program.write(f"{stem}.history.edn", history)
    for on, operations, reason in found:
        wrong = why_not_shown(history, on, operations, reason)
        if wrong:
            return f"object {on}: {wrong}"
        again = program.run("refute", name, program.write(f"{stem}.reasons.edn", lines(reason)))
        if (again.status, again.out.decode()) != (1, refuted(history, on, operations)):
            return f"object {on}: refute says {again}"
    return None


def explanations(program, report):
    """If judge says that an object is impossible, the operations that it lists are in the history and have no valid order."""
    cases = [(name, history, options) for name, history, *options in worked_rows.NOT_LINEARIZABLE]
    for name in sorted(os.listdir(EXAMPLES)):
        stem, _, kind = name.partition(".")
        if kind == "refuted":
            with open(f"{EXAMPLES}/{stem}.history.edn") as file:
                cases.append((f"example {stem}", file.read(), ()))
    for name, history, options in cases:
        ran = program.run("judge", *options, program.write(worked_rows.HISTORY, history))
        report.equal(f"judge: {name}: why it is not linearizable", None, why_not_explained(program, history, ran), ran)
    report.holds("histories that are not linearizable are tried", len(cases) > 10, cases)


PARTS = (explanations,)
