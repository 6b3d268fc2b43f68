"""Checks the sentences of a page on the history that it is of, by code that shares nothing with the program."""
import itertools
import re

from ..histories import ALL_FUNCTIONS, HOLDS, KIND_OF, REPLY_ARGUMENT, REPLY_NIL, TOKENS, calls_of
from .pages import REF, found, spelled
from ..verify.reasons import OPEN, has_order, maps_of
from ..text_writers import value

PUTS = ("enqueue", "push", "insert", "write", "put", "cas")
TAKES = ("dequeue", "pop", "extract-min")
# The most rows of the table of objects.
MOST_OBJECTS = 64
# How many operations a sentence or a note names one by one at most.
FEW_NAMED = 12
TIMES = {"once": 1, "twice": 2}
ROLES = {
    **dict.fromkeys((*REPLY_ARGUMENT, "put", "assoc", "add", "fetch-add", *HOLDS), "put"),
    **dict.fromkeys((*TAKES, "del", "dissoc", "clear", "remove", *HOLDS.values()), "take"),
    **dict.fromkeys(("read", "get", "contains", "get-count"), "read"),
    **dict.fromkeys(("cas", "create", "put-if-absent", "replace"), "swap"),
}
# What sets a value, unless it replies false.
SETTERS = (*REPLY_ARGUMENT, "cas", "create", "put", "assoc", "put-if-absent", "replace", "add")
LEAST, GREATEST = -(2**63), 2**63 - 1
STATES = {"ok": "done", "fail": "failed", "info": "pending", "open": "pending"}


def number_in(text):
    return int(text.replace(" ", ""))


def grouped(number):
    """A count as a page has it."""
    return f"{number:,}".replace(",", " ")


def label_of(call):
    """The label of a call: its function, its argument, and what it returned where that says more."""
    text = call.f + ("" if call.argument is None else f" {value(call.argument)}")
    if call.end in ("open", "info"):
        return f"{text} → ?"
    is_said = call.f in REPLY_NIL or call.f in REPLY_ARGUMENT and call.reply == call.argument
    return text if call.end == "fail" or is_said else f"{text} → {value(call.reply)}"


def value_put(call):
    """The value that a call puts in, or sets, or None."""
    if call.f not in SETTERS or call.reply is False:
        return None
    return call.argument[-1] if isinstance(call.argument, tuple) else call.argument


def found_by(call):
    """What a register or a key contained before the call, by its reply; ... where that does not tell it."""
    if call.f in ("cas", "replace"):
        return ... if call.reply is False else call.argument[-2]
    if call.f in ("create", "put-if-absent"):
        return ... if call.reply is False else None
    return call.reply if call.f in ("read", "get", "put", "del") else ...


def left_by(call):
    """What a register or a key contained after the call, which returned; ... where that can't be told."""
    if call.f in ("read", "get"):
        return call.reply
    return None if call.f in ("del", "dissoc", "clear") else ... if value_put(call) is None else value_put(call)


def key_of(call):
    """The key of a call on a map, and the element of one on a set."""
    if KIND_OF[call.f] not in ("map", "set"):
        return None
    return call.argument[0] if isinstance(call.argument, tuple) else call.argument


def integers_of(call):
    """The integers that a call takes and replies."""
    those = [part for own in (call.argument, call.reply) for part in (own if isinstance(own, tuple) else (own,))]
    return {part for part in those if part is not None and not isinstance(part, bool)}


# What a call on a cell of a register, map or set replies where the cell contains this, or nothing, and what it then sets it to; ... where it sets
# nothing.
ON_CELL = {
    "write": lambda of, now: (of, of),
    "read": lambda of, now: (now, ...),
    "cas": lambda of, now: (of, of[1]) if now == of[0] else (False, ...),
    "create": lambda of, now: (True, of) if now is None else (False, ...),
    "clear": lambda of, now: (None, None),
    "put": lambda of, now: (now, of[1]),
    "get": lambda of, now: (now, ...),
    "del": lambda of, now: (now, None),
    "assoc": lambda of, now: (None, of[1]),
    "dissoc": lambda of, now: (None, None),
    "put-if-absent": lambda of, now: (True, of[1]) if now is None else (False, ...),
    "replace": lambda of, now: (True, of[2]) if now == of[1] else (False, ...),
    "add": lambda of, now: (True, of) if now is None else (False, ...),
    "remove": lambda of, now: (now is not None, None),
    "contains": lambda of, now: (now is not None, ...),
}


class Walked:
    """What an object contains after some entries of an order, with the numbers of the calls that put it there."""

    def __init__(self, kind):
        self.kind, self.items, self.holder, self.releaser = kind, [], None, None
        # Of a lock its owner; of a counter its number, and the last call that changed it.
        self.owner, self.number, self.changer = None, 0, None

    def take(self, call):
        """Takes in a call, and returns its reply."""
        if call.f in ON_CELL:
            return self.take_of_cell(call)
        if self.kind == "counter":
            return self.take_of_counter(call)
        if call.f in HOLDS:
            self.holder, self.owner = call.number, call.argument
            return None
        if call.f in HOLDS.values():
            self.holder, self.owner, self.releaser = None, None, call.number
            return None
        if call.f in TAKES:
            return self.items.pop(-1 if call.f == "pop" else 0)[0] if self.items else None
        self.items.append((call.argument, call.number))
        if call.f == "insert":
            self.items.sort()
        return call.argument

    def take_of_cell(self, call):
        own, found, key = self.entry_of(call), self.found(call), key_of(call)
        reply, left = ON_CELL[call.f](call.argument, found[0] if found else None)
        if left is not ...:
            self.items = [item for item in self.items if item is not own]
        if left is not ... and left is not None:
            self.items = sorted([*self.items, ((key, left) if self.kind == "map" else left, call.number)])
        return reply

    def take_of_counter(self, call):
        before, amount = self.number, call.argument if call.f == "fetch-add" else 0
        self.number += amount
        self.changer = call.number if amount else self.changer
        return before

    def is_possible(self, call):
        if call.f in HOLDS:
            return self.holder is None
        if call.f in HOLDS.values():
            return self.holder is not None and self.owner == call.argument
        return call.f != "fetch-add" or LEAST <= self.number + call.argument <= GREATEST

    def entry_of(self, call):
        """The item of the cell of a call, with its key if it has one, or None."""
        key = key_of(call)
        return next((item for item in self.items if key is None or (item[0][0] if self.kind == "map" else item[0]) == key), None)

    def found(self, call):
        """The item that the call finds, or None."""
        if call.f in ON_CELL:
            own = self.entry_of(call)
            return (own[0][1], own[1]) if own and self.kind == "map" else own
        if self.kind == "counter":
            return None if self.changer is None else (self.number, self.changer)
        return (self.items[-1] if self.kind == "stack" else self.items[0]) if self.items else None

    def state(self):
        """What it contains, without the calls that put it there."""
        return [item[0] for item in self.items], self.holder is None, self.owner, self.number

    def text(self):
        values = [item[0] for item in self.items]
        if self.kind == "counter":
            return str(self.number)
        if self.kind in TOKENS:
            return "free" if self.holder is None else "held" if self.kind == "mutex" else str(self.owner)
        if self.kind == "register":
            return value(values[0] if values else None)
        if self.kind in ("map", "set"):
            more = f", … {len(values) - 6} more" if len(values) > 6 else ""
            entries = [f"{item[0]} {item[1]}" if self.kind == "map" else str(item) for item in values[:6]]
            return "{" + ", ".join(entries) + more + "}"
        if len(values) > 11:
            first = 2 if self.kind == "stack" else 8
            shown = (" ".join(map(str, part)) for part in (values[:first], values[first - 10 :]))
            return "[" + f" … {len(values) - 10} more … ".join(shown) + "]"
        return "[" + " ".join(map(str, values)) + "]"


class Said:
    """What the sentences of a page say of a history, and of the orders that it was checked by."""

    def __init__(self, history, orders):
        self.calls, self.maps = calls_of(history)
        self.orders, self.processes = orders, [event["process"] for event in maps_of(history)]

    def on(self, x):
        return [call for call in self.calls.values() if call.on == x]

    def walked(self, x, order, k):
        """What the object contains before the k-th entry of the order."""
        kind = KIND_OF[self.on(x)[0].f]
        walk = Walked(kind)
        for number in order[: k - 1]:
            walk.take(self.calls[number])
        return walk

    # ---- a refusal

    def c1(self, x, n):
        return int(x) not in self.orders and number_in(n) == len(self.on(int(x)))

    def c2(self, x):
        return int(x) in self.orders and not self.on(int(x))

    def c3(self, k, x, number, why):
        x, number = int(x), int(re.sub(r"[⟨`]|\|.*|`", "", number))
        if self.orders[x][int(k) - 1] != number:
            return False
        call = self.calls.get(number)
        if why == "the number is negative":
            return number < 0
        there = re.fullmatch(r"it names no event of the history, which has ([\d ]+)", why)
        if there:
            return number >= self.maps == number_in(there[1])
        other = re.fullmatch(r"it is an operation on object (\d+)", why)
        if other:
            return call.on == int(other[1]) != x
        failed = re.fullmatch(r"it failed at event (\d+), so it did not happen", why)
        if failed:
            return (call.end, call.at, call.on) == ("fail", int(failed[1]), x)
        beside = re.fullmatch(r"event (\d+) is of the nemesis", why)
        if beside:
            return int(beside[1]) == number and self.processes[number].startswith(":")
        ended = re.fullmatch(r"event (\d+) is the completion of operation #(\d+)", why)
        return bool(ended) and int(ended[1]) == number and self.calls[int(ended[2])].at == number

    def c4(self, n, x, j, k):
        order = self.orders[int(x)]
        return int(j) < int(k) and order[int(j) - 1] == order[int(k) - 1] == int(n)

    def c5(self, b, n, own, r, again, at):
        early, late = self.calls[int(b)], self.calls[int(n)]
        order = self.orders[late.on]
        return (
            (int(own), int(again), int(at)) == (late.number, early.number, early.number)
            and late.returned() == int(r) < early.number
            and order.index(early.number) < order.index(late.number)
        )

    def c7(self, n, r, x):
        call = self.calls[int(n)]
        return call.returned() == int(r) and call.on == int(x) and call.number not in self.orders[call.on]

    def at_entry(self, k, n):
        call = self.calls[int(n)]
        order = self.orders[call.on]
        return call, order, order[int(k) - 1] == call.number, self.walked(call.on, order, int(k))

    def c9(self, k, n, kind, of, rule):
        call, order, is_there, walk = self.at_entry(k, n)
        held = re.fullmatch(r"held there, by ⟨(\d+)\|.*", of)
        since = re.fullmatch(r"free there, since ⟨(\d+)\|.*", of)
        is_so = is_there and not walk.is_possible(call) and (KIND_OF[call.f], RULES[call.f]) == (kind, rule)
        if held:
            return is_so and walk.holder == int(held[1])
        releaser = int(since[1]) if since else None
        return is_so and walk.holder is None and walk.releaser == releaser and (since or of == "free there, from the beginning")

    def past_end(self, k, n, number):
        call, _, is_there, walk = self.at_entry(k, n)
        return is_there and call.f == "fetch-add" and not walk.is_possible(call) and walk.number == int(number)

    def c6(self, k, n, gives, kind, content, returned, rest):
        call, order, is_there, walk = self.at_entry(k, n)
        found, text, given = walk.found(call), walk.text(), walk.take(call)
        is_so = is_there and (value(given), value(call.reply)) == (gives, returned) and call.end == "ok"
        is_so &= KIND_OF[call.f] == kind and text == content and given != call.reply
        giver = re.match(rf" (-?\d+) was put there by {REF}\.", rest)
        is_so &= bool(giver) == (found is not None and call.f not in REPLY_ARGUMENT)
        if giver:
            is_so &= found == (int(giver[1]), int(giver[2]))
            rest = rest[giver.end() :]
        return bool(is_so and (not rest or self.source(call, order, int(k), walk, rest)))

    def source(self, call, order, k, walk, rest):
        """Checks the sentence for the value that the call returned."""
        live = [other for other in self.on(call.on) if other.is_live() and other.number < call.at]
        same_key = [other for other in live if key_of(other) == key_of(call)]
        nothing = re.fullmatch(r" No (other )?operation that was invoked before event (\d+) put (-?\d+)\.", rest)
        if nothing:
            putters = [other.number for other in same_key if value_put(other) == int(nothing[3])]
            return int(nothing[2]) == call.at and putters == ([call.number] if nothing[1] else [])
        by = re.fullmatch(rf" (-?\d+) was put by {REF}, (.*)\.", rest)
        if not by or value_put(self.calls[int(by[2])]) != int(by[1]) or int(by[2]) == call.number:
            return False
        number, wanted, how = int(by[2]), int(by[1]), by[4]
        if how == "which the order leaves out":
            return number not in order
        place = order.index(number) + 1 if number in order else None
        after = re.fullmatch(r"which comes after it, as entry (\d+)", how)
        if after:
            return place == int(after[1]) > k
        entry = re.match(r"entry (\d+)", how)
        if not entry or place != int(entry[1]) or place >= k:
            return False
        how = how[entry.end() :]
        if how == ", and is not at its turn":
            return (wanted, number) in self.walked(call.on, order, k).items
        taken = re.fullmatch(rf", and taken out by {REF}, entry (\d+)", how)
        if taken:
            taker, rank = self.calls[int(taken[1])], int(taken[3])
            is_there = place < rank < k and order[rank - 1] == taker.number and taker.f in TAKES
            return is_there and self.walked(call.on, order, rank).found(taker) == (wanted, number)
        return how == "" and call.f in ON_CELL

    # ---- no order

    def none_valid(self, x, kind):
        return KIND_OF[self.on(int(x))[0].f] == kind

    def never_put(self, n, v, at, f, again):
        call = self.calls[int(n)]
        others = [other for other in self.on(call.on) if other.number < call.at and other.is_live()]
        is_so = (call.returned(), call.reply) == (int(at), int(v)) and v == again and call.f in TAKES
        return is_so and not any(other.f == f and other.argument == int(v) for other in others)

    def not_empty(self, n, kind, p, at, until, v):
        call, put = self.calls[int(n)], self.calls[int(p)]
        others = [other for other in self.on(call.on) if other.number < int(until) and other.f in TAKES and other.is_live()]
        is_so = call.reply is None and call.end == "ok" and put.returned() == int(at) < call.number
        is_so &= put.argument == int(v) and call.at == int(until)
        return is_so and not any(other.end != "ok" or other.reply == int(v) for other in others)

    def running_between(self, x, since, until):
        """The live calls on an object that were invoked before one event, and had not returned at an earlier one."""
        begun = [call for call in self.on(x) if call.is_live() and call.number < until]
        return [call for call in begun if call.returned() is None or call.returned() > since]

    def out_of_date(self, n, verb, v, by, how, at, first, last, again, so):
        later, earlier = self.calls[int(n)], self.calls[int(by)]
        found, left = found_by(later), left_by(earlier)
        is_so = later.end == earlier.end == "ok" and found is not Ellipsis and left is not Ellipsis and found != left
        is_so &= v == again == so == value(None if found is Ellipsis else found) and key_of(later) == key_of(earlier) and later.on == earlier.on
        is_so &= verb == ("returned" if later.f in ("read", "get") else "found")
        is_so &= how == self.left_in_words(earlier, value(None if left is Ellipsis else left))
        is_so &= earlier.returned() == int(at) < later.number and (earlier.number, later.at) == (int(first), int(last))
        between = self.running_between(later.on, earlier.number, later.at)
        others = [other for other in between if other.number != later.number and key_of(other) == key_of(later)]
        if found is None:
            return is_so and not any(other.f in ("del", "dissoc", "clear") for other in others)
        # What replaces a value by the same does not make it that again.
        keeps = [other for other in others if other.f in ("cas", "replace") and other.argument[-2:] == (found, found)]
        return is_so and not any(value_put(other) == found and other not in keeps for other in others)

    def left_in_words(self, call, left):
        """What a call left in its cell, in the words of a page."""
        if call.f == "clear":
            return "left nothing"
        if call.f in ("del", "dissoc"):
            return f"deleted key {key_of(call)}"
        under = "" if key_of(call) is None else f" under key {key_of(call)}"
        return f"{'found' if call.f in ('read', 'get') else 'set'} {left}{under}"

    def twice_released(self, first, last, a, b):
        one, two = self.calls[int(a)], self.calls[int(b)]
        is_so = one.f == two.f == "release" and one.end == two.end == "ok" and one.on == two.on
        is_so &= (min(one.number, two.number), max(one.at, two.at)) == (int(first), int(last))
        return is_so and not any(other.f == "acquire" for other in self.running_between(one.on, int(first), int(last)))

    def wrong_turn(self, a, at, b, v, w, t, again, until, once_more, then):
        one, two, taker = (self.calls[int(number)] for number in (a, b, t))
        others = [call for call in self.on(one.on) if call.number < int(until) and call.is_live()]
        is_so = one.returned() == int(at) < two.number and (one.argument, two.argument) == (int(v), int(w))
        is_so &= (taker.reply, taker.at) == (int(w), int(until)) and (again, once_more) == (w, v)
        is_so &= sum(other.f == "enqueue" and other.argument == int(w) for other in others) == 1
        if then is not None:
            after = self.calls[int(then)]
            is_so &= (after.f, after.reply, after.on) == ("dequeue", int(v), one.on) and after.number > int(until)
        return is_so and not any(other.f == "dequeue" and (other.end != "ok" or other.reply == int(v)) for other in others)

    def lost(self, n, took, count, lesser, place, how, most, values):
        call, found = self.calls[int(n)], None if took is None else int(took)
        live = [other for other in self.on(call.on) if other.is_live() and other.number != call.number]
        kind, named = KIND_OF[call.f], [(int(v), int(times or 1)) for v, times in re.findall(r"(-?\d+)(?: \((\d+) times\))?", values)]
        own = [other for other in live if other.f in PUTS and other.argument == found] if found is not None else []
        # From which number on a put counts, and before which number it must have returned.
        first = max((other.returned() or call.at for other in own), default=0) if kind == "stack" else 0
        # Of a queue it is that of the last one that may be meant: a part may leave out what was done with the found value before.
        limit = max((other.number for other in own if other.number < call.at), default=call.number) if kind == "queue" and own else call.number
        ahead = [other.argument for other in live if other.f in PUTS and other.number >= first and (other.returned() or call.at) < limit]
        taken = [other.reply for other in live if other.f in TAKES and other.end == "ok" and other.at < call.at]
        # What else may have taken one of the values: a removal that returned it late, or one that is pending, if no other took all of it.
        takers = [other for other in live if other.f in TAKES and other.number < call.at]
        late = sum(taker.end == "ok" and taker.at > call.at and taker.reply in dict(named) for taker in takers)
        replies = [other.reply for other in live if other.f in TAKES and other.end == "ok"]
        left = sum(sum(other.f in PUTS and other.argument == v for other in live) - replies.count(v) for v, _ in named)
        others = late + min(sum(taker.end != "ok" for taker in takers), left)
        places = {"heap": f"in the heap before {found} was found", "queue": f"enqueued before {found}", "stack": f"pushed on {found}"}
        is_so = (call.end, call.reply) == ("ok", found) and place == (f"in the {kind} before that" if found is None else places[kind])
        is_so &= (lesser is not None) == (found is not None and kind == "heap") and all(not lesser or v < found for v, _ in named)
        is_so &= all(times <= ahead.count(v) - taken.count(v) for v, times in named)
        most = int(most) if most else 0
        counted = sum(times for _, times in named)
        return is_so and counted > most >= min(others, counted) and (counted == int(count) or values.endswith(" and others"))

    def too_often(self, v, put, putters, taken, takers, f, again, until):
        named = [those and [int(ref[0]) for ref in re.findall(REF, those)] for those in (putters, takers)]
        counts = [TIMES.get(times, None) or number_in(times.removesuffix(" times")) for times in (put, taken)]
        by = [self.calls[number] for those in named if those for number in those]

        def is_so(x):
            live = [call for call in self.on(x) if call.is_live()]
            puts = [call.number for call in live if call.number < int(until) and call.f == f and call.argument == int(v)]
            takes = [call.number for call in live if call.f in TAKES and (call.reply, call.end) == (int(v), "ok") and call.at <= int(until)]
            are_named = all(those == own if those else len(own) > FEW_NAMED for those, own in zip(named, (puts, takes)))
            return are_named and counts == [len(puts), len(takes)] and len(takes) > len(puts)

        return v == again and any(is_so(x) for x in ({call.on for call in by} or {call.on for call in self.calls.values()}))

    def left_open(self, x, why):
        return bool(self.on(int(x))) and why in ("out of steps", "out of memory")

    def longest(self, n, m, rest):
        """The order is checked with its table."""
        return number_in(n) <= number_in(m)

    def has_order_until(self, x, until):
        """Whether what was invoked on an object before a number has an order, where what returned later is pending; None if it is much."""
        calls = [call for call in self.on(x) if call.number < until and call.is_live()]
        ended = [call.returned() if (call.returned() or until) < until else None for call in calls]
        few = len(calls) <= FEW_NAMED
        return has_order([(call.number, end, call.f, call.argument, call.reply) for call, end in zip(calls, ended)]) if few else None

    def first_event(self, n):
        x = next((call.on for call in self.calls.values() if call.returned() == int(n)), None)
        return x is not None and self.has_order_until(x, int(n) + 1) in (False, None) and self.has_order_until(x, int(n)) in (True, None)

    def first_events(self, least, most):
        returns = {call.returned(): call.on for call in self.calls.values() if call.returned() is not None}
        are_there = int(least) in returns and int(most) in returns and int(least) < int(most)
        return are_there and self.has_order_until(returns[int(most)], int(most) + 1) in (False, None)

    def contents(self, calls, has_window):
        """What the object may have contained before the part: nothing, or, where it is a window, any small content."""
        if not has_window:
            return [()]
        kind = KIND_OF[calls[0].f]
        seen = {number for call in calls for number in integers_of(call)} | {-99}
        if kind in ("map", "set"):
            return contents_by_keys(kind, calls)
        if kind == "counter":
            return contents_of_counter(calls)
        if kind in ("register", *TOKENS):
            return [(), *[(content,) for content in (("held",) if kind == "mutex" else seen)]]
        sizes = range(3)
        contents = [items for size in sizes for items in itertools.product(sorted(seen), repeat=size)]
        return [tuple(sorted(items)) if kind == "heap" else items for items in contents]

    def general(self, bars, begin, last, returned):
        """The operations that have bars have no valid order, and where one is named it is among them."""
        calls = [self.calls[bar] for bar in bars]
        if last is not None:
            call = self.calls[int(last)]
            if call not in calls or returned is not None and value(call.reply) != returned:
                return False
        since = None if begin is None else int(begin)
        return not any(self.has_order_from(calls, content, since) for content in self.contents(calls, begin is not None))

    def has_order_from(self, calls, content, since):
        """Whether some order of the calls is valid after this content. Those that began before the window need not be in it."""
        free = [call for call in calls if since is not None and call.number < since]
        for left_out in itertools.chain.from_iterable(itertools.combinations(free, size) for size in range(len(free) + 1)):
            kept = [call for call in calls if call not in left_out and call.is_live()]
            if has_order([(call.number, call.returned(), call.f, call.argument, call.reply) for call in kept], content):
                return True
        return False


def contents_by_keys(kind, calls):
    """What a map or a set may have contained before the calls, of their keys or elements: of each a value that they name, another one, or nothing."""
    keys = sorted({key_of(call) for call in calls})
    if kind == "set":
        return [those for size in range(len(keys) + 1) for those in itertools.combinations(keys, size)]
    values = [{number for call in calls if key_of(call) == key for number in integers_of(call)} | {-99, None} for key in keys]
    return [tuple((key, number) for key, number in zip(keys, those) if number is not None) for those in itertools.product(*values)]


def contents_of_counter(calls):
    """The numbers before the calls of which one may be told: before the first of them that returned some pending ones may have added."""
    pending = [call.argument for call in calls if call.returned() is None and call.f == "fetch-add"]
    sums = {sum(those) for size in range(len(pending) + 1) for those in itertools.combinations(pending, size)}
    return [(total,) for total in {call.reply - amount for call in calls if call.returned() is not None for amount in sums}]


VALID = (
    "The history is linearizable: (?:this order is|these orders, one for each object, are) valid. Each operation that returned has its "
    "place in the order between its invocation and its return, and each reply is what the object gives there."
)
KINDS = rf"({'|'.join(sorted({kind.split()[0] for kind in ALL_FUNCTIONS}))})"
REPLY = r"(nil|false|true|-?\d+|\[-?\d+ -?\d+\])"
# When an operation on an object that is held or free is possible.
RULES = {
    "acquire": "A mutex is acquired only while it is free",
    "release": "A mutex is released only while it is held",
    "lock": "A lock is locked only while it is free",
    "unlock": "A lock is unlocked only by its owner",
}
FORMS = {
    "c1": r"Object (\d+) has no certificate. The history has ([\d ]+) operations? on it, so it needs one: `\{:object \d+, :order \[..\]\}`.",
    "c2": r"The certificates give an order for object (\d+), and no invocation of the history names it. Each certificate must be of an "
    r"object of the history.",
    "c3": r"Entry (\d+) of the order for object (\d+) is (⟨[^⟩]*⟩|`-?\d+`), which is no operation that can be in it: (.*)\.",
    "c4": rf"{REF} stands twice in the order for object (\d+), as entry (\d+) and again as entry (\d+). An operation takes effect once.",
    "c5": rf"The order puts {REF} before {REF}. But #(\d+) returned at event (\d+), before #(\d+) was invoked at event (\d+). An operation that "
    r"returned before another began must stand before it.",
    "c6": rf"As entry (\d+) of the order, {REF} gives {REPLY}: the {KINDS} contains `([^`]*)` there. The history says that it returned "
    rf"{REPLY}\.(.*)",
    "c7": rf"{REF} returned at event (\d+), so it happened. But the order for object (\d+) leaves it out.",
    "c9": rf"As entry (\d+) of the order, {REF} is not possible: the {KINDS} is (.*)\. (A (?:mutex|lock) is .*)\.",
    "past_end": rf"As entry (\d+) of the order, {REF} is not possible: the counter contains `(-?\d+)` there, and the sum has more than 64 bits\.",
    "none_valid": rf"No order of the operations of object (\d+), a {KINDS}, is valid. So the history is not linearizable.",
    "never_put": rf"{REF} returned (-?\d+) at event (\d+), and no ([\w-]+) of (-?\d+) was invoked before that.",
    "not_empty": rf"{REF} found the {KINDS} empty. But {REF} had returned before \(event (\d+)\), and nothing that was invoked before event "
    r"(\d+) took (-?\d+) out again. So the \w+ contained -?\d+.",
    "out_of_date": rf"{REF} (returned|found) (nil|-?\d+). But {REF} ((?:set|found|deleted|left) [\w -]+) and returned "
    r"\(event (\d+)\) before that began, and nothing else that ran in between \(events (\d+) to (\d+)\) made it (nil|-?\d+) again. "
    r"So (nil|-?\d+) is out of date.",
    "twice_released": rf"Between event (\d+) and event (\d+) the mutex was released twice, by {REF} and {REF}, and no acquire ran in between.",
    "wrong_turn": rf"{REF} returned \(event (\d+)\) before {REF} was invoked, so (-?\d+) went in before (-?\d+). But {REF} took (-?\d+) out, "
    rf"and nothing invoked before event (\d+) took (-?\d+) out(?:\.|: only then {REF} began\.)",
    "lost": rf"{REF} (?:found nothing|took (-?\d+) out)\. But (\d+) (lesser )?values? (?:was|were) (in the \w+ before that|"
    r"in the heap before -?\d+ was found|enqueued before -?\d+|pushed on -?\d+), "
    r"and (none of them|at most (\d+) of them) can have been taken out by then: (.*)\.",
    "first_event": r"Event (\d+) is the first that leaves no order\.",
    "first_events": r"The first event that leaves no order is one from event (\d+) to event (\d+)\. They were not all tried\.",
    "left_open": r"No order was found for object (\d+), and none was excluded: ([\w ]+). So the history is not decided.",
    "longest": r"The longest order that was found for this page has ([\d ]+) of ([\d ]+) operations?\. "
    r"(It has each operation that returned, but the judge did not find it\.|After it comes .*\.)",
    "too_often": r"(-?\d+) was \w+ (once|twice|[\d ]+ times)(?:, by (.*))?, and \w+ (once|twice|[\d ]+ times)(?:, by (.*))?\. No other ([\w-]+) of "
    r"(-?\d+) was invoked before event (\d+).",
}
# Of each form that has operations, which of the groups are labels: those are checked apart.
GENERAL = re.compile(
    # What the finder says comes first, and is not checked.
    r"(?:[A-Z][^⟨]*\. )??(?:Whatever the \w+ contained before event (\d+)(?:, and in whatever order .* come|, and wherever .* comes|), |"
    r"In whatever order .* come, |Wherever .* comes, |Whatever comes before, )"
    rf"(?:⟨(\d+)\|[^⟩]*⟩ could not return {REPLY}\.|⟨(\d+)\|[^⟩]*⟩ is not possible\.|one of them does not fit(?:: the table says where each "
    r"order breaks)?\.)"
)
# A line that says no more than the general sentence, of any object or of an element of a set.
SAYS_NO_MORE = "the following operations have no valid order"
SAY_NO_MORE = r"the following operations(?: on value -?\d+)? have no valid order$"
# What is said beside.
ASIDES = (
    r"`--steps N` lets the last search of an object go further\.",
    r"This says nothing of the history\. `fcbench judge HISTORY` looks for an order\.",
    r"This refuses the order, and not the history: another order may be valid. `fcbench judge HISTORY` looks for one.",
    r"Not drawn: (?:object \d+|[\d ]+ objects). `--object \d+` draws object \d+.",
    r"The history is linearizable: it has no operations.",
    r"The history has no object \d+.",
    VALID,
)


# How sentences of some forms go on. A sentence may go on in several ways.
ENDINGS = {
    "c3 negative": ("c3", "the number is negative"),
    "c3 beyond": ("c3", "it names no event of the history"),
    "c3 other object": ("c3", "it is an operation on object"),
    "c3 failed": ("c3", "it failed at event"),
    "c3 nemesis": ("c3", "is of the nemesis"),
    "c3 completion": ("c3", "is the completion of operation"),
    "c6 giver": ("c6", " was put there by "),
    "c6 no": ("c6", " No operation that was invoked before event "),
    "c6 no other": ("c6", " No other operation that was invoked before event "),
    "c6 left out": ("c6", ", which the order leaves out."),
    "c6 after": ("c6", ", which comes after it, as entry "),
    "c6 turn": ("c6", ", and is not at its turn."),
    "c6 taken": ("c6", ", and taken out by "),
    "c6 entry": ("c6", r" was put by [^|]*\|[^⟩]*⟩, entry \d+\.$"),
    "c9 held": ("c9", "the mutex is held there, by "),
    "c9 free since": ("c9", "the mutex is free there, since "),
    "c9 free": ("c9", "the mutex is free there, from the beginning"),
    "c9 locked": ("c9", "the lock is held there, by .* only while it is free"),
    "c9 of another owner": ("c9", "the lock is held there, by .* only by its owner"),
    "c9 unlocked": ("c9", "the lock is free there, "),
    **{f"c6 of a {kind}": ("c6", f": the {kind} contains ") for kind in ("set", "counter")},
    "c6 whether": ("c6", " gives (?:true|false): .* returned (?:true|false)"),
    "too_often once": ("too_often", " (?:enqueued|pushed|inserted) once, by "),
    "too_often twice": ("too_often", " (?:enqueued|pushed|inserted) twice, by "),
    "out of steps": ("left_open", "out of steps"),
    "general in a window": ("general", "^Whatever the "),
    "general of the whole": ("general", "^In whatever order "),
    "general, no reply": ("general", " could not return "),
    "general, not possible": ("general", " is not possible"),
    "general, one of them": ("general", "one of them does not fit"),
}


def form_of(sentence):
    """The form of a sentence, or None."""
    forms = {**FORMS, "general": GENERAL, **{f"aside {number}": aside for number, aside in enumerate(ASIDES)}}
    return next((form for form, pattern in forms.items() if re.fullmatch(pattern, sentence)), None)


def forms_of(page):
    """The forms of the sentences of a page, and the ways in which they go on."""
    sentences = [(form_of(sentence), sentence) for sentence in page.said]
    ways = [way for form, sentence in sentences for way, (of, words) in ENDINGS.items() if of == form and re.search(words, sentence)]
    return [*[form for form, _ in sentences], *ways]


def groups_of(form, match):
    """The groups of a match without labels."""
    names = [group for group in re.finditer(r"\((?!\?)", FORMS[form].replace(r"\(", "  "))]
    labels = {number for number, group in enumerate(names, 1) if FORMS[form][group.start() :].startswith("([^⟩]*)")}
    return [match[number] for number in range(1, len(names) + 1) if number not in labels]


def why_false(page, history, orders):
    """What is false of the sentences of a page, or None."""
    said = Said(history, orders)
    for sentence in page.said:
        for number, label in re.findall(REF, sentence):
            if label_of(said.calls[int(number)]) != label:
                return f"no label of operation {number}: {label}"
        wrong = why_sentence_false(page, said, sentence)
        if wrong:
            return f"{wrong}: {sentence}"
    return None


def why_sentence_false(page, said, sentence):
    if any(re.fullmatch(aside, sentence) for aside in ASIDES):
        return None
    for form, pattern in FORMS.items():
        match = re.fullmatch(pattern, sentence)
        if match:
            return None if getattr(said, form)(*groups_of(form, match)) else f"false ({form})"
    match = GENERAL.fullmatch(sentence)
    if not match:
        return "no known sentence"
    bars, last = page.bars("zoom"), match[2] or match[4]
    counted = re.search(r"these ([\d\u202f\u2009\xa0 ]+) operations come, ", sentence)
    # The figure may leave some out, and says then of how many.
    all_of_them = number_in(re.match(r"([\d ]+) operations? of", spelled(page.by_id("zoom").find("figcaption")))[1])
    if counted and int(re.sub(r"\D", "", counted[1])) != all_of_them - (last is not None):
        return "false (general: the number of operations)"
    if len(bars) < all_of_them:
        return None if last is None else "false (general: an operation of very many)"
    is_so = said.general(bars, match[1], last, match[3])
    return None if is_so else "false (general)"


def line_of(page):
    """What the lines say of the object that is drawn, where it has no valid order."""
    drawn = next((figure.get("id")[3:] for figure in page.body.iter("figure") if re.fullmatch(r"fig\d+", figure.get("id", ""))), None)
    told = re.search(rf"^; object {drawn}: impossible\n; (?!events? \d|\{{)(.*)$", page.lines, re.M)
    return told[1] if told else SAYS_NO_MORE


def why_first_false(page):
    """The sentence on the first event that leaves no order that is missing, where the lines name that event, or None."""
    told = re.search(
        r"; (event \d+ is the first that leaves no order|the first event that leaves no order is one from event \d+ to event \d+)$",
        line_of(page),
    )
    if told is None:
        return None
    wanted = f"{told[1][0].upper()}{told[1][1:]}."
    return None if any(sentence.startswith(wanted) for sentence in page.said) else f"it does not say {wanted}"


def why_vague(page):
    """A general sentence that does not begin with what the lines say of the object, or None: a sentence of the page is never vaguer than the line."""
    explained = re.split(r"; (?:event \d+ is the first|the first event|before that, )", line_of(page))[0]
    if re.search(SAY_NO_MORE, explained):
        return None
    wanted = f"{explained[0].upper()}{explained[1:]}. "
    vague = [sentence for sentence in page.said if form_of(sentence) == "general" and not sentence.startswith(wanted)]
    return f"it does not say {wanted}: {vague}" if vague else None


def became(call):
    """What a bar says of how its call ended."""
    return {
        "ok": f"returned at event {call.at}",
        "fail": f"failed at event {call.at}: it did not happen",
        "info": f"pending: info at event {call.at}, it may have happened or not",
        "open": "pending: it has no completion",
    }[call.end]


def why_bars_false(figure, calls):
    """What is false of the bars of a figure, or None."""
    for bar in found(figure, "g", "op"):
        call = calls[int(bar.get("data-op"))]
        if bar.get("class").split()[1:3] != [ROLES[call.f], STATES[call.end]]:
            return f"the bar of operation {call.number} is {bar.get('class')}"
        title = re.sub(r"\nfrom .*", "", bar.find("title").text)
        if title != f"{label_of(call)}\nevent {call.number}, process {call.process}, object {call.on}\n{became(call)}":
            return f"the bar of operation {call.number} says {title}"
    return None


def counts_of(calls):
    """How many of the calls did not fail, are pending, and failed."""
    failed = sum(call.end == "fail" for call in calls)
    return len(calls) - failed, sum(call.end in ("info", "open") for call in calls), failed


def why_counts_false(page, history):
    """What is false of the counts of a page, or None."""
    calls, maps = calls_of(history)
    objects = sorted({call.on for call in calls.values()})
    live, pending, failed = counts_of(calls.values())
    ending = [f"{grouped(count)} {word}" for count, word in ((pending, "pending"), (failed, "failed")) if count]
    wanted = [f"{grouped(count)} {word}{'' if count == 1 else 's'}" for count, word in ((maps, "map"), (live, "operation"), (len(objects), "object"))]
    if page.facts.split(" · ")[1:] != wanted + ending:
        return f"the facts are {page.facts}"
    rows = page.rows("objects")
    more = len(objects) - MOST_OBJECTS
    left_out = ("skip", [f"{grouped(more)} more object{'' if more == 1 else 's'}"])
    if rows and more > 0 and rows.pop() != left_out or rows and len(rows) != min(len(objects), MOST_OBJECTS):
        return f"{len(rows)} objects are told of"
    for _, cells in rows:
        own = [call for call in calls.values() if f"object {call.on}" == cells[0]]
        if cells[1] != KIND_OF[own[0].f] or [number_in(cell) for cell in cells[2:5]] != list(counts_of(own)):
            return f"the row of {cells[0]} is {cells}"
    return None


def why_open_false(page, history, told):
    """What is false of a page that says that a history is open, by what judge told, or None."""
    objects = [OPEN.fullmatch(line) for line in told.splitlines()]
    x, why = next((int(match[1]), match[2]) for match in objects if match)
    sentence = f"No order was found for object {x}, and none was excluded: {re.sub(' after .*', '', why)}. So the history is not decided."
    if page.said[0] != sentence:
        return f"it says {page.said[0]}"
    calls, _ = calls_of(history)
    bars = page.bars(f"fig{x}")
    if not bars or any(calls[bar].on != x for bar in bars):
        return f"bars of {bars}"
    return why_longest_false(page, calls, x)


def why_longest_false(page, calls, x):
    """What is false of the longest order that a page of an open object has, or None: each entry has its reply, and what
    may come next does not fit."""
    longest = next((re.fullmatch(FORMS["longest"], sentence) for sentence in page.said if form_of(sentence) == "longest"), None)
    if not longest:
        return "there is no longest order"
    live = {number: other for number, other in calls.items() if other.on == x and other.is_live()}
    rows = page.rows(f"t{x}")
    numbers = [int(re.match(r"⟨(\d+)", cells[1])[1]) for name, cells in rows if name != "skip"]
    if number_in(longest[2]) != len(live) or len(numbers) > number_in(longest[1]):
        return f"the longest order has {len(numbers)} entries"
    if len(numbers) < number_in(longest[1]):
        return None if any(name == "skip" for name, _ in rows) else f"rows of {numbers}"
    walk, left = Walked(KIND_OF[next(iter(live.values())).f]), dict(live)
    for number in numbers:
        call = left.pop(number)
        ends = [other.returned() for other in left.values() if other.returned() is not None]
        if any(end < call.number for end in ends) or not walk.is_possible(call) or walk.take(call) != call.reply and call.end == "ok":
            return f"entry {number} of the longest order"
    ends = [other.returned() for other in left.values() if other.returned() is not None]
    following = sorted(other.number for other in left.values() if other.end == "ok" and not any(end < other.number for end in ends))
    named = sorted(int(digits) for digits, _ in re.findall(REF, longest[3]))
    if following and len(following) <= FEW_NAMED and named != following:
        return f"{following} may come next, and not {named}"
    return f"{longest[3]}" if bool(following) != longest[3].startswith("After") else None


def why_order_false(page, history):
    """What is false of the tables of orders of a page whose history is linearizable, or None."""
    said = Said(history, {})
    for x in sorted({other.on for other in said.calls.values()}):
        rows = page.rows(f"t{x}")
        walk, last, entries = Walked(KIND_OF[said.on(x)[0].f]), 0, []
        if any("skip" in name for name, _ in rows):
            continue
        for _, (rank, operation, content) in rows:
            number = int(re.match(r"⟨(\d+)", operation)[1])
            call = said.calls[number]
            if not walk.is_possible(call) or walk.take(call) != call.reply and call.end == "ok" or content != f"`{walk.text()}`":
                return f"entry {rank} of object {x}"
            last += 1
            entries.append(call)
            if int(rank) != last:
                return f"rank {rank} of object {x}"
        if any(a.returned() is not None and a.returned() < b.number for b, a in itertools.combinations(entries, 2)):
            return f"the order of object {x}"
        if rows and {other.number for other in said.on(x) if other.end == "ok"} - {entry.number for entry in entries}:
            return f"an operation is left out of object {x}"
    return None
