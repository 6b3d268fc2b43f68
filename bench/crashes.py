#!/usr/bin/env python3
"""Histories of queues, stacks and heaps that crashed, and what a finder says of them.

    crashes.py make DIR [--count N] [--seed S] [--calls C]
    crashes.py measure PROGRAM DIR [--limit SECONDS]

A history is that of a run of N clients up to a crash: K of them are pending then, some with and some without effect. What the
object contained is kept, lost, or partly kept. New processes go on, and in the end one of them empties it. Values differ, or are
drawn below 2, 10 or 100. There are fewer than C calls before the crash, and a third of that after it. DIR gets N.edn and N.json,
which says what was drawn.

`measure` runs `PROGRAM find` on each and checks what it says by itself: an order is run on the object. A reason is cut out anew;
a count is counted anew, and a part that was searched is searched anew, by another search. The truth of what is kept is known: it
has an order. So is that of values which differ, if more are missing at the end than removals are pending, and that of few
operations, which are all searched. Prints a table in
Markdown; a wrong answer ends it."""
import argparse
import json
import os
import random
import re
import subprocess
import sys
import time
from collections import namedtuple

PUT = {"queue": "enqueue", "stack": "push", "heap": "insert"}
TAKE = {"queue": "dequeue", "stack": "pop", "heap": "extract-min"}
VALUES = {"once": None, "2": 2, "10": 10, "100": 100}
FATES = ("kept", "lost", "partly")

# An operation: the number of its invocation, its value if it puts one in, the number of its response, if it has one, and its reply.
Op = namedtuple("Op", "number value end reply")


def step(kind, content, value):
    """The content after a put of the value, or after a removal where it is None; and the reply."""
    if value is not None:
        after = content + (value,)
        return (tuple(sorted(after)) if kind == "heap" else after), value
    if not content:
        return content, None
    return (content[:-1], content[-1]) if kind == "stack" else (content[1:], content[0])


# ---- making histories


class Run:
    """A run of an object by clients, which writes its events."""

    def __init__(self, kind, values, rng):
        self.kind, self.values, self.rng = kind, values, rng
        self.content, self.lines, self.fresh, self.process = (), [], 0, 0

    def event(self, process, word, value, f):
        value = "nil" if value is None else value
        self.lines.append("{:process %d, :type :%s, :f :%s, :value %s}" % (process, word, f, value))

    def value(self):
        self.fresh += 1
        return self.fresh if self.values is None else self.rng.randrange(self.values)

    def name(self, value):
        return (TAKE if value is None else PUT)[self.kind]

    def phase(self, clients, calls, puts):
        """Calls of some clients, until this many have begun. What is open then is returned: each with its process and value."""
        first = self.process
        self.process += clients
        idle, open_calls = list(range(first, self.process)), []
        while calls or open_calls:
            if calls and idle and (not open_calls or self.rng.random() < 0.5):
                process = idle.pop(self.rng.randrange(len(idle)))
                value = self.value() if self.rng.random() < puts else None
                self.event(process, "invoke", value, self.name(value))
                open_calls.append([process, value, False, None])
                calls -= 1
                if not calls:
                    return open_calls
                continue
            call = self.rng.choice(open_calls)
            if not call[2]:
                self.content, call[3] = step(self.kind, self.content, call[1])
                call[2] = True
            else:
                open_calls.remove(call)
                idle.append(call[0])
                self.event(call[0], "ok", call[3], self.name(call[1]))
        return []

    def crash(self, open_calls, pending, fate):
        """Those that are open take effect or do not; this many stay pending, and the others return before. Then the content goes."""
        self.rng.shuffle(open_calls)
        for place, call in enumerate(open_calls):
            if not call[2] and (place >= pending or self.rng.random() < 0.5):
                self.content, call[3] = step(self.kind, self.content, call[1])
            if place >= pending:
                self.event(call[0], "ok", call[3], self.name(call[1]))
        if fate == "lost":
            self.content = ()
        elif fate == "partly":
            cut = self.rng.randrange(len(self.content) + 1)
            some = tuple(v for v in self.content if self.rng.random() < 0.5)
            self.content = self.rng.choice([self.content[:cut], self.content[cut:], some])

    def end(self):
        """All that is open returns, and one process takes what is left, until it finds nothing."""
        while True:
            self.content, found = step(self.kind, self.content, None)
            self.event(self.process, "invoke", None, TAKE[self.kind])
            self.event(self.process, "ok", found, TAKE[self.kind])
            if found is None:
                return


def history(kind, values, fate, most, rng):
    """The lines of a history, and what was drawn."""
    run = Run(kind, VALUES[values], rng)
    clients = rng.choice([2, 3, 4, 8, 16])
    pending = rng.randrange(clients + 1)
    calls = rng.randrange(most // 15 + 1, most)
    open_calls = run.phase(clients, calls, rng.choice([0.5, 0.55, 0.65]))
    run.crash(open_calls, pending, fate)
    run.crash(run.phase(clients, rng.randrange(1, most // 3 + 1), 0.5), 0, "kept")
    run.end()
    return run.lines, {"kind": kind, "values": values, "fate": fate, "clients": clients}


def make(folder, count, seed, calls):
    os.makedirs(folder, exist_ok=True)
    cells = [(kind, values, fate) for kind in PUT for values in VALUES for fate in FATES]
    for number in range(count):
        rng = random.Random("%d %d" % (seed, number))
        lines, drawn = history(*cells[number % len(cells)], calls, rng)
        with open(os.path.join(folder, "%d.edn" % number), "w") as text:
            text.write("\n".join(lines) + "\n")
        with open(os.path.join(folder, "%d.json" % number), "w") as text:
            json.dump(drawn, text)


# ---- the oracle

LINE = re.compile(r"\{:process (\d+), :type :(\S+), :f :(\S+), :value (\S+)\}")


def operations(path):
    """The operations of a history."""
    rows, open_rows = [], {}
    with open(path) as text:
        for number, line in enumerate(text):
            process, word, f, value = LINE.match(line).groups()
            value = None if value == "nil" else int(value)
            if word == "invoke":
                open_rows[process] = row = [number, value, None, None]
                rows.append(row)
            else:
                open_rows.pop(process)[2:] = number, value
    return [Op(*row) for row in rows]


def is_order(kind, ops, order):
    """Whether the numbers are a valid order of the operations."""
    by_number = {o.number: o for o in ops}
    content, greatest, ordered = (), -1, set(order)
    if len(ordered) < len(order) or not ordered <= set(by_number):
        return False
    for number in order:
        o = by_number[number]
        content, reply = step(kind, content, o.value)
        if o.end is not None and (o.reply != reply or o.end < greatest):
            return False
        greatest = max(greatest, number)
    return all(o.end is None or o.number in ordered for o in ops)


def search(kind, ops, most):
    """Whether the operations have an order; None if the search has no answer within its steps."""
    seen, steps = set(), 0
    full = frozenset(o.number for o in ops if o.end is not None)
    stack = [(frozenset(), ())]
    while stack:
        done, content = stack.pop()
        if full <= done:
            return True
        if (done, content) in seen:
            continue
        seen.add((done, content))
        left = [o for o in ops if o.number not in done]
        first = min(o.end for o in left if o.end is not None)
        for o in left:
            steps += 1
            if o.number > first:
                break
            after, reply = step(kind, content, o.value)
            if o.end is None or o.reply == reply:
                stack.append((done | {o.number}, after))
        if steps > most:
            return None
    return False


CUT = re.compile(r"\{:(keep|until|from|without) (\[[^]]*\]|:all|-?\d+)(?:, :(numbers|before) (\[[^]]*\]|\d+))?\}")


def keep(ops, values, numbers):
    """The operations with these numbers, of which the part by these values is closed."""
    puts = sum(o.value in values for o in ops if o.value is not None)
    taken = sum(o.value is None and o.end is not None and o.reply in values for o in ops)
    pending = [o.number for o in ops if o.value is None and o.end is None]
    for o in ops:
        on = o.value if o.value is not None else o.reply
        if on is not None and (on in values) != (o.number in numbers):
            return None
    if any(number not in numbers for number in pending[:max(0, puts - taken)]):
        return None
    return [o for o in ops if o.number in numbers]


def part_of(ops, cuts):
    """The part that the cuts leave; None where the cuts name no part."""
    for word, first, _, second in CUT.findall(cuts):
        numbers = [int(n) for n in re.findall(r"-?\d+", first)]
        if word == "keep":
            ops = keep(ops, set(numbers), {int(n) for n in re.findall(r"\d+", second)})
        elif word == "until":
            ops = [o._replace(end=o.end if o.end is not None and o.end < numbers[0] else None) for o in ops if o.number < numbers[0]]
        elif word == "from":
            at = next(o for o in ops if o.number == numbers[0])
            if at.value is not None or at.end is None or at.reply is not None:
                return None
            rest = [o for o in ops if o.number != at.number and (o.end is None or o.end > at.number)]
            ops = [o if o.number > at.end else o._replace(end=None) for o in rest]
        else:
            value, before = numbers[0], int(second)
            puts = {o.number for o in ops if o.value == value and o.number < before}
            takes = {o.number for o in ops if o.value is None and o.end is not None and o.end < before and o.reply == value}
            if len(puts) > len(takes):
                return None
            ops = [o for o in ops if o.number not in puts | takes]
        if ops is None:
            return None
    return ops


def is_blocked(kind, ops, number, start):
    """Whether more definitely was ahead of what a removal found than can have been taken out before it."""
    removal = next(o for o in ops if o.number == number)
    found, before = removal.reply, number
    own = [o for o in ops if found is not None and o.value == found]
    if removal.value is not None or removal.end is None:
        return False
    if found is not None and kind == "queue":
        before = min([number] + [o.number for o in own]) if own else 0
    if kind == "stack" and any(o.end is None or o.end >= start for o in own):
        return False
    has = (lambda v: v < found) if kind == "heap" and found is not None else (lambda v: True)
    puts = [o for o in ops if o.value is not None and has(o.value) and o.end is not None and o.end < before and o.number >= start]
    can = [o for o in ops if o.value is None and o.number not in (number,) and o.number <= removal.end]
    can = [o for o in can if o.end is None or (o.reply is not None and has(o.reply))]
    return len(puts) > len(can)


def why_wrong(kind, ops, line):
    """Why a reason does not hold, or None; and how many operations its part has."""
    part = part_of(ops, line.split(":note")[0])
    if part is None:
        return "no such part", 0
    ahead = re.search(r":count \{:ahead (\d+)(?:, :from (\d+))?\}", line)
    if ahead:
        holds = is_blocked(kind, part, int(ahead[1]), int(ahead[2] or 0))
        return (None if holds else "not blocked"), len(part)
    count = re.search(r":count \{:value (-?\d+), :from (\d+)\}", line)
    if count:
        value = int(count[1])
        puts = sum(o.value == value for o in part)
        taken = sum(o.value is None and o.end is not None and o.reply == value for o in part)
        return (None if taken > puts else "not exceeded"), len(part)
    answer = search(kind, part, 3_000_000)
    return ("it has an order" if answer else "not searched to the end" if answer is None else None), len(part)


# Of at most this many operations all orders are tried.
FEW = 16


def truth(ops, drawn):
    """Whether there is an order, as far as it is known from how the history was made."""
    if drawn["fate"] == "kept":
        return True
    if len(ops) <= FEW:
        return search(drawn["kind"], ops, 1_000_000)
    if drawn["values"] != "once":
        return None
    taken = {o.reply for o in ops if o.value is None and o.end is not None}
    missing = [o for o in ops if o.value is not None and o.end is not None and o.value not in taken]
    pending = [o for o in ops if o.value is None and o.end is None]
    return False if len(missing) > len(pending) else None


def judged(program, folder, number, limit):
    """The result for a history: the answer, the operations, the seconds."""
    path = os.path.join(folder, "%d.edn" % number)
    with open(os.path.join(folder, "%d.json" % number)) as text:
        drawn = json.load(text)
    ops, kind = operations(path), drawn["kind"]
    begun = time.monotonic()
    line = subprocess.run([program, "find", path], capture_output=True, text=True, timeout=limit).stdout.strip()
    seconds, known = time.monotonic() - begun, truth(ops, drawn)
    answer, size = "open", None
    if ":order" in line:
        order = [int(n) for n in line.split("[")[1].split("]")[0].split()]
        answer = "yes"
        if known is False or not is_order(kind, ops, order):
            raise SystemExit("%s: wrong: %s" % (path, line))
    elif ":cuts" in line:
        answer = "no"
        wrong, size = why_wrong(kind, ops, line)
        if known or (wrong and wrong != "not searched to the end"):
            raise SystemExit("%s: wrong, %s: %s" % (path, wrong, line))
        if wrong:
            print("%s: a part of %d operations is not searched to the end" % (path, size), file=sys.stderr)
    if answer == "open" or (size or 0) > 37:
        print("%s: %s, %s operations of %d: %s" % (path, answer, size, len(ops), json.dumps(drawn)), file=sys.stderr)
    return {**drawn, "answer": answer, "size": size, "seconds": seconds}


def measure(program, folder, limit):
    count = sum(name.endswith(".edn") for name in os.listdir(folder))
    rows = [judged(program, folder, number, limit) for number in range(count)]
    print("| kind | values | kept: yes | lost: no | yes | partly: no | yes | open | operations of a no: middle, most | longest time |")
    print("|---|---|---|---|---|---|---|---|---|---|")
    for kind in PUT:
        for values in VALUES:
            own = [row for row in rows if row["kind"] == kind and row["values"] == values]
            sizes = sorted(row["size"] for row in own if row["size"] is not None)
            of = lambda fate, answer: sum(row["fate"] == fate and row["answer"] == answer for row in own)
            cells = [kind, "each once" if values == "once" else values, of("kept", "yes"), of("lost", "no"), of("lost", "yes"),
                     of("partly", "no"), of("partly", "yes"), sum(row["answer"] == "open" for row in own),
                     "%d, %d" % (sizes[len(sizes) // 2], sizes[-1]) if sizes else "-", "%.2f s" % max(row["seconds"] for row in own)]
            print("| %s |" % " | ".join(map(str, cells)))


def main():
    words = argparse.ArgumentParser(description=__doc__, formatter_class=argparse.RawDescriptionHelpFormatter)
    commands = words.add_subparsers(dest="command", required=True)
    making = commands.add_parser("make")
    making.add_argument("dir")
    making.add_argument("--count", type=int, default=1000)
    making.add_argument("--seed", type=int, default=1)
    making.add_argument("--calls", type=int, default=300)
    measuring = commands.add_parser("measure")
    measuring.add_argument("program")
    measuring.add_argument("dir")
    measuring.add_argument("--limit", type=float, default=60)
    asked = words.parse_args()
    if asked.command == "make":
        make(asked.dir, asked.count, asked.seed, asked.calls)
    else:
        measure(asked.program, asked.dir, asked.limit)


if __name__ == "__main__":
    main()
