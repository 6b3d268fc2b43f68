"""Compares two programs on mutated texts.

    mutate.py PROGRAM_OLD PROGRAM_NEW [--texts 60000] [--seed 1] [--dir DIR]

Each text is a short history that gen.py's forms or Jepsen's would have, with certificates; none to six bytes or parts of one of the two are
changed. Both programs check it, and their lines, which name the first fault and its place, and exit statuses must be the same. A text on
which they differ is kept in DIR. Printed are how many texts were well formed, and how many differed; the status is 1 if any did."""
import argparse
import concurrent.futures
import os
import random
import subprocess
import sys
import tempfile

FUNCTIONS = {
    "queue": ("enqueue", "dequeue"),
    "stack": ("push", "pop"),
    "heap": ("insert", "extract-min"),
    "register": ("write", "read", "cas"),
    "map": ("put", "get", "del"),
    "mutex": ("acquire", "release"),
}
ONE = ("enqueue", "push", "insert", "write", "get", "del")
TWO = ("cas", "put")
NUMBERS = (0, 1, 2, 7, 10, 99, 65535, 65536, 999999999999999999, 9223372036854775807, -1)
# What is put in the place of a part, or between two.
PARTS = [
    *" ,\n\t{}[]();:\"\\0179-+", "00", "007", "nil", "false", "true", ":value 1", ", :value 2", ":process 0", ":type :ok", ":f :read", ":object 1",
    ", :time 5", ", :index 3", ":node 1, ", "; x\n", "[1 2]", "[1 2 3]", "{:a 1}", "{:a 1 :a 1}", "1.5", "9223372036854775808", "é", ":nemesis",
    ":invoke", ":ok", ":fail", ":info", "\"a\"",
]


def value(rng, f, fitting):
    if not fitting:
        return rng.choice(("nil", "false", "true", "[1 2]", "[1 2 3]", "\"a\"", "{:a 1}", str(rng.choice(NUMBERS))))
    if f in TWO:
        return f"[{rng.choice(NUMBERS)} {rng.choice(NUMBERS)}]"
    return str(rng.choice(NUMBERS)) if f in ONE else "nil"


def operation_map(rng, kind, process, f, on, number, form):
    """A map in one of the orders of keys."""
    pairs = [
        f":process {process}",
        f":type :{kind}",
        f":f :{f}",
        f":value {value(rng, f, rng.random() < 0.99)}",
    ]
    if form == "jepsen":
        pairs = [f":index {number}", f":time {number * 1000}", pairs[1], pairs[0], pairs[2], pairs[3]]
    if on:
        pairs.append(f":object {on}")
    if form == "time":
        pairs.append(f":time {number * 997}")
    if form == "note":
        pairs.insert(0, ":node 1")
    if form == "last":
        pairs.append(rng.choice((":node 1", ":source :a", ":note nil")))
    return "{" + ", ".join(pairs) + "}"


def history(rng):
    """Some operations of one to three processes, and an order of those of each object."""
    kind, form = rng.choice(list(FUNCTIONS)), rng.choice(("plain", "plain", "time", "time", "jepsen", "note", "last"))
    objects, maps, orders = rng.choice((1, 1, 2)), [], {}
    busy = {}
    for number in range(rng.choice((2, 4, 6, 10, 24))):
        process = rng.randrange(3)
        if process in busy:
            f, on = busy.pop(process)
            maps.append(operation_map(rng, rng.choice(("ok", "ok", "ok", "fail", "info")), process, f, on, number, form))
        else:
            f, on = rng.choice(FUNCTIONS[kind]), rng.randrange(objects)
            busy[process] = f, on
            orders.setdefault(on, []).append(str(number))
            maps.append(operation_map(rng, "invoke", process, f, on, number, form))
    order = "".join(f"{{:object {on}, :order [{' '.join(those)}]}}\n" for on, those in orders.items())
    return "\n".join(maps) + "\n", order


def mutated(rng, text):
    """The text with none to six changes, as bytes."""
    text = bytearray(text.encode())
    for _ in range(rng.choice((0, 0, 1, 1, 1, 2, 3, 6))):
        at = rng.randrange(len(text) + 1)
        part = rng.choice(PARTS).encode()
        change = rng.randrange(6)
        if change == 0:
            text[at:at] = part
        elif change == 1:
            text[at : at + 1] = b""
        elif change == 2:
            text[at : at + len(part)] = part
        elif change == 3:
            text[at : at + 1] = bytes([rng.randrange(256)])
        elif change == 4:
            end = min(len(text), at + rng.randrange(1, 30))
            text[at:at] = text[at:end]
        else:
            end = min(len(text), at + rng.randrange(1, 12))
            text[at:end] = b""
    return bytes(text)


def answer(program, folder, names):
    ran = subprocess.run([program, "check", *names], cwd=folder, capture_output=True, timeout=60)
    return ran.returncode, ran.stdout, ran.stderr


def compare(old, new, folder, seed, number):
    """Whether both say the same of one text, and the status."""
    rng = random.Random(f"{seed}.{number}")
    texts = history(rng)
    which = 0 if rng.random() < 0.8 else 1
    names = []
    for place, text in enumerate(texts):
        names.append(f"{number}.{'hc'[place]}.edn")
        with open(f"{folder}/{names[place]}", "wb") as file:
            file.write(mutated(rng, text) if place == which else text.encode())
    before, after = answer(old, folder, names), answer(new, folder, names)
    if before == after:
        for name in names:
            os.remove(f"{folder}/{name}")
    return before == after, before[0]


def main():
    p = argparse.ArgumentParser(description=__doc__, formatter_class=argparse.RawDescriptionHelpFormatter)
    p.add_argument("old")
    p.add_argument("new")
    p.add_argument("--texts", type=int, default=60000)
    p.add_argument("--seed", type=int, default=1)
    p.add_argument("--dir")
    o = p.parse_args()
    folder = o.dir or tempfile.mkdtemp(prefix="mutate-")
    os.makedirs(folder, exist_ok=True)
    old, new = os.path.realpath(o.old), os.path.realpath(o.new)
    statuses, differ = {}, 0
    with concurrent.futures.ThreadPoolExecutor(os.cpu_count()) as pool:
        for number, (same, status) in enumerate(pool.map(lambda which: compare(old, new, folder, o.seed, which), range(o.texts))):
            statuses[status] = statuses.get(status, 0) + 1
            if not same:
                differ += 1
                print(f"differs: {folder}/{number}.h.edn {folder}/{number}.c.edn", flush=True)
    print(f"{o.texts} texts, by status {dict(sorted(statuses.items()))}, {differ} differ")
    return 1 if differ else 0


if __name__ == "__main__":
    sys.exit(main())
