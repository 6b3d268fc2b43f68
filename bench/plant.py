"""Plants bugs into histories that gen.py makes.

    plant.py DIR --kind K [--calls N] [--concurrency C] [--rounds R] [--values V] [--type T] [--most M] [--seed S]

For each round one history is made, and each type of bug is planted into a copy of it; with --most, only M
types, which are drawn. Writes DIR/N.edn, a history for each bug, and DIR/planted.txt, with a line for each:
its number N and the type of its bug. Values are put in, or set, once each; with --values they are drawn
below V. The types that begin with `break` are those of `gen.py --break`.

A planted bug can be invisible: the history may still be linearizable.
"""
import argparse
import os
import random
import re
from types import SimpleNamespace

import gen

LINE = re.compile(r"\{:process (\d+), :type :(\S+), :f :(\S+), :value (.*)\}")
TAKES = {"dequeue", "pop", "extract-min", "read", "get", "del"}
SETS = {"write", "put"}
NOWHERE = 1_000_000_007


class Call:
    """A call: its places among the lines, and its words. One that has no end is pending."""

    def __init__(self, process, f, arg, begin):
        self.process, self.f, self.arg, self.begin = process, f, arg, begin
        self.end = self.reply = None

    def key(self):
        """The key of a call of a map."""
        words = self.arg.strip("[]").split()
        return words[0] if self.f in ("put", "get", "del") else None

    def new_value(self):
        """The value that a write, a put or an insertion leaves."""
        return self.arg.strip("[]").split()[-1]


def read(path):
    """The lines of a history without failed calls, and its calls."""
    calls, open_calls = [], {}
    with open(path) as text:
        lines = text.readlines()
    for place, line in enumerate(lines):
        process, kind, f, value = LINE.match(line).groups()
        if kind == "invoke":
            call = Call(int(process), f, value, place)
            calls.append(call)
            open_calls[process] = call
        else:
            call = open_calls.pop(process)
            call.end, call.reply = place, value
    return lines, calls


class Planter:
    """Plants one bug into calls. Each method says whether it could."""

    def __init__(self, calls, rng):
        self.calls, self.rng = calls, rng
        takes = [c for c in calls if c.f in TAKES and c.end is not None and c.reply != "nil"]
        self.takes = sorted(takes, key=lambda c: c.end)
        self.at = rng.randrange(2, len(takes) - 2) if len(takes) >= 8 else None

    def later(self):
        """The takes that begin after the chosen one has returned."""
        chosen = self.takes[self.at]
        return [c for c in self.takes[self.at + 1:] if c.begin > chosen.end]

    def answer(self, reply):
        self.takes[self.at].reply = reply
        return True

    def swap(self, others, place):
        """The chosen take and another one give each other's value."""
        if place >= len(others):
            return False
        chosen, other = self.takes[self.at], others[place]
        chosen.reply, other.reply = other.reply, chosen.reply
        return True

    def never_put(self):
        return self.answer(NOWHERE)

    def twice(self):
        return self.answer(self.takes[self.at - 1 - self.rng.randrange(2)].reply)

    def swap_near(self):
        return self.swap(self.later(), self.rng.randrange(4))

    def swap_far(self):
        return self.swap(self.later(), 49 + self.rng.randrange(500))

    def nothing(self):
        return self.answer("nil")

    def false_empty(self):
        """The chosen take finds nothing, and the next one takes its value."""
        later = self.later()
        if not later:
            return False
        later[0].reply = self.takes[self.at].reply
        return self.answer("nil")

    def future(self):
        """The chosen take gives a value that is put in later."""
        put = {c.arg: c.begin for c in self.calls if c.f in ("enqueue", "push", "insert")}
        end = self.takes[self.at].end
        others = [c for c in self.later() if put.get(c.reply, 0) > end]
        return self.swap(others, 0)

    def settings(self):
        """The calls that set a value where the chosen one reads."""
        key = self.takes[self.at].key()
        own = [c for c in self.calls if c.f in SETS and c.key() == key and c.end is not None]
        return sorted(own, key=lambda c: c.end)

    def stale(self, back):
        chosen = self.takes[self.at]
        before = [c for c in self.settings() if c.end < chosen.begin]
        return len(before) >= back and self.answer(before[-back].new_value())

    def stale_near(self):
        return self.stale(2 + self.rng.randrange(2))

    def stale_far(self):
        return self.stale(20 + self.rng.randrange(200))

    def future_value(self):
        later = [c for c in self.settings() if c.begin > self.takes[self.at].end]
        return bool(later) and self.answer(self.rng.choice(later[:5]).new_value())

    def refused_swap(self):
        """A swap that was refused."""
        refused = [c for c in self.calls if c.f == "cas" and c.reply == "false"]
        return self.rng.choice(refused) if refused else None

    def cas_lies(self):
        cas = self.refused_swap()
        if cas:
            cas.reply = cas.arg
        return bool(cas)

    def cas_refuses(self):
        """A refused swap expects the value that was written or read last before it."""
        cas = self.refused_swap()
        if cas is None:
            return False
        seen = [c for c in self.calls if c.f in ("write", "read") and c.end is not None
                and c.end < cas.begin and c.reply != "nil"]
        if not seen:
            return False
        last = max(seen, key=lambda c: c.begin)
        cas.arg = "[%s %s]" % (last.reply, cas.new_value())
        return True

    def put_gives(self, back):
        """A put gives what a put some places before it gave."""
        puts = [c for c in self.calls if c.f == "put" and c.reply not in (None, "nil")]
        if len(puts) < 100:
            return False
        put = self.rng.choice(puts[50:])
        before = [c.reply for c in puts if c.key() == put.key() and c.end < put.begin]
        if len(before) < back:
            return False
        put.reply = before[-back]
        return True

    def put_lies(self):
        return self.put_gives(1)

    def lost_put(self):
        return self.put_gives(2 + self.rng.randrange(5))

    def two_hold(self):
        """An acquire that waits returns before the release is invoked."""
        releases = [c for c in self.calls if c.f == "release"]
        for _ in range(50):
            at = self.rng.choice(releases).begin
            waits = [c for c in self.calls if c.f == "acquire" and c.end and c.begin < at < c.end]
            if waits:
                waits[0].end = at - 0.5
                return True
        return False

    def late_reply(self, broken):
        """What `gen.py --break` does."""
        ended = sorted((c for c in self.calls if c.end is not None), key=lambda c: c.end)
        change = gen.changed_reply(broken, 0.9, [(c.end, 0, c.reply) for c in ended if gen.is_take(c.f, c.reply)])
        if change is None:
            return False
        next(c for c in ended if c.end == change[0]).reply = str(change[3])
        return True

    def break_dup(self):
        return self.late_reply("dup")

    def break_lost(self):
        return self.late_reply("lost")

    def break_old(self):
        return self.late_reply("old")

    def renamed(self, f, name):
        """One call of this function is another one."""
        self.rng.choice([c for c in self.calls if c.f == f]).f = name
        return True

    def released_twice(self):
        return self.renamed("acquire", "release")

    def lost_release(self):
        return self.renamed("release", "acquire")


BREAK = {"break dup": Planter.break_dup, "break lost": Planter.break_lost, "break old": Planter.break_old}
CONTAINER = {
    "never put": Planter.never_put, "twice": Planter.twice, "swap near": Planter.swap_near,
    "swap far": Planter.swap_far, "lost": Planter.nothing, "false empty": Planter.false_empty,
    "future": Planter.future, **BREAK,
}
CELL = {
    "never set": Planter.never_put, "stale near": Planter.stale_near, "stale far": Planter.stale_far,
    "future": Planter.future_value, "false nil": Planter.nothing, **BREAK,
}
TYPES = {
    "queue": CONTAINER, "stack": CONTAINER, "heap": CONTAINER,
    "register": {**CELL, "cas lies": Planter.cas_lies, "cas refuses": Planter.cas_refuses},
    "map": {**CELL, "put lies": Planter.put_lies, "lost put": Planter.lost_put},
    "mutex": {
        "two hold": Planter.two_hold, "released twice": Planter.released_twice,
        "lost release": Planter.lost_release,
    },
}


def base(o, seed):
    """The lines and the calls of a history that gen.py makes."""
    words = SimpleNamespace(
        dir=o.dir, kind=o.kind, objects=1, processes=o.concurrency, concurrency=o.concurrency,
        maps=None, calls=o.calls, fail=0.0, info=0.0, nemesis=0.0, values=o.values or 100,
        keys=o.keys, unique=o.values is None, fill=0.5, time=False, index=False, broken=None, side_by_side=None, seed=seed)
    gen.history(words)
    path = os.path.join(o.dir, "history.edn")
    lines, calls = read(path)
    for name in (path, os.path.join(o.dir, "certs.edn"), os.path.join(o.dir, "expect.json")):
        os.remove(name)
    return lines, calls


def words_of(call):
    """What a bug may change of a call."""
    return call.f, call.arg, call.end, call.reply


def write_changed(path, lines, calls, before):
    """Writes a history in which some calls have changed, and puts them back."""
    own, more = list(lines), {}
    for call, old in zip(calls, before):
        if words_of(call) != old:
            own[call.begin] = "{:process %d, :type :invoke, :f :%s, :value %s}\n" % (call.process, call.f, call.arg)
            if call.end is not None:
                own[old[2]] = ""
                # A return that comes earlier is half a place before an invocation.
                at = int(call.end + 0.5)
                more[at] = "{:process %d, :type :ok, :f :%s, :value %s}\n" % (call.process, call.f, call.reply)
            call.f, call.arg, call.end, call.reply = old
    for at, line in more.items():
        own[at] = line + own[at]
    with open(path, "w") as history:
        history.writelines(own)


def plant(o):
    rng = random.Random(o.seed)
    types = {t: p for t, p in TYPES[o.kind].items() if o.type in (None, t)}
    if not types:
        raise SystemExit("plant.py: no type of bug of a %s: %s" % (o.kind, o.type))
    names = []
    for turn in range(o.rounds):
        lines, calls = base(o, o.seed * 1000 + turn)
        before = [words_of(c) for c in calls]
        drawn = rng.sample(sorted(types), min(o.most, len(types))) if o.most else types
        for name in drawn:
            planter = Planter(calls, rng)
            if (planter.at is not None or o.kind == "mutex") and types[name](planter):
                write_changed(os.path.join(o.dir, "%d.edn" % len(names)), lines, calls, before)
                names.append(name)
    with open(os.path.join(o.dir, "planted.txt"), "w") as planted:
        planted.writelines("%d %s\n" % pair for pair in enumerate(names))


def main():
    p = argparse.ArgumentParser(description=__doc__, formatter_class=argparse.RawDescriptionHelpFormatter)
    p.add_argument("dir")
    p.add_argument("--kind", choices=sorted(TYPES), default="queue")
    p.add_argument("--calls", type=int, default=4096)
    p.add_argument("--concurrency", type=int, default=16)
    p.add_argument("--rounds", type=int, default=7)
    p.add_argument("--values", type=int, help="values are below this; default: each is put in once")
    p.add_argument("--keys", type=int, default=32, help="keys of a map are below this")
    p.add_argument("--type", help="the only type of bug")
    p.add_argument("--most", type=int, help="how many types are drawn for a round; default: all")
    p.add_argument("--seed", type=int, default=0)
    o = p.parse_args()
    os.makedirs(o.dir, exist_ok=True)
    plant(o)


if __name__ == "__main__":
    main()
