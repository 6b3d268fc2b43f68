"""Texts in the format of fcbench, which import takes as they are, and changed ones, of which it says what it does not take as it is."""
import os
import random
import re

from ..running import at_once

# How many texts are drawn. By hand: IMPORTED_TEXTS=20000 tests/run drawn_texts
TEXTS = int(os.environ.get("IMPORTED_TEXTS", 500))
# An argument of each function, and its replies, with numbers from a few for v. The functions of a kind.
KINDS = (
    {"enqueue": ("v", "="), "dequeue": ("nil", "v nil")},
    {"push": ("v", "="), "pop": ("nil", "v nil")},
    {"insert": ("v", "="), "extract-min": ("nil", "v nil")},
    {"write": ("v", "="), "read": ("nil", "v nil"), "cas": ("[v v]", "= false"), "clear": ("nil", "nil"), "create": ("v", "true false")},
    {"put": ("[v v]", "v nil"), "get": ("v", "v nil"), "del": ("v", "v nil"), "assoc": ("[v v]", "nil"), "replace": ("[v v v]", "true false")},
    {"acquire": ("nil", "nil"), "release": ("nil", "nil")},
    {"add": ("v", "true false"), "remove": ("v", "true false"), "contains": ("v", "true false")},
    {"fetch-add": ("v", "v"), "get-count": ("nil", "v")},
    {"lock": ("v", "nil"), "unlock": ("v", "nil")},
)


def number(rng, text):
    """A text with a number from a few for each v."""
    return re.sub(r"\bv\b", lambda _: str(rng.randrange(3)), text)


def line(event):
    """The line of an event, as import writes it."""
    process, kind, f, value, on, more = event
    return f"{{:process {process}, :type :{kind}, :f :{f}, :value {value}, :object {on}{more}}}"


def events_of(rng):
    """The events of a few processes on one or two objects, with replies that are drawn: some have an order, and some have none."""
    kinds, events, outstanding, processes = rng.choices(KINDS, k=rng.randrange(1, 3)), [], {}, list(range(rng.randrange(1, 4)))
    has_times = rng.random() < 0.3
    for place in range(rng.randrange(2, 15)):
        more = f", :time {place * 10}, :index {place}" if has_times else ""
        process = rng.choice(processes)
        if process not in outstanding:
            on = rng.randrange(len(kinds))
            f, (argument, replies) = rng.choice(list(kinds[on].items()))
            argument = number(rng, argument)
            outstanding[process] = f, argument, on, replies
            events.append([process, "invoke", f, argument, on, more])
            continue
        f, argument, on, replies = outstanding.pop(process)
        kind = rng.choices(("ok", "fail", "info"), (8, 1, 1))[0]
        reply = number(rng, rng.choice(replies.split()))
        value = "nil" if kind != "ok" else argument if reply == "=" else reply
        events.append([process, kind, f, value, on, more])
        if kind == "info":
            processes[processes.index(process)] = max(processes) + 1
    return events


# ---- changes of a text

def some(rng, events, is_meant):
    """One of the events that are meant, or the first event."""
    return rng.choice([it for it in events if is_meant(it)] or events[:1])


def completion(rng, events):
    return some(rng, events, lambda it: it[1] != "invoke")


def set_value(rng, events):
    """A value of another form, in any event."""
    rng.choice(events)[3] = rng.choice(("nil", "true", "false", '"OK"', ":ok", "[1 2]", "[1 nil]", '"a"', "7", "#a/b 1", "##NaN", "1.5"))


def set_owner(rng, events):
    """An owner of what acquires or releases, or a token in its reply."""
    some(rng, events, lambda it: it[2] in ("acquire", "release", "lock", "unlock"))[3] = rng.choice(("7", '"c1"', "nil", "true", "{:uid 7}"))


def go_on(rng, events):
    """A process that goes on after its operation timed out."""
    completion(rng, events)[1] = "info"


def set_object(rng, events):
    rng.choice(events)[4] = rng.choice(("nil", "70000", '"x"', "{:a 1}", "-1", "1"))


def set_process(rng, events):
    rng.choice(events)[0] = rng.choice(('"n1"', ":worker", ":nemesis", '"nemesis"', "0", "nil", "-1"))


def rename(rng, events):
    event = rng.choice(events)
    event[2] = {"lock": "acquire", "acquire": "lock", "unlock": "release", "release": "unlock"}.get(event[2], event[2].replace("-", "_"))


def add(rng, events):
    """A key that is not read, or a mark that is no integer."""
    event, more = rng.choice(events), rng.choice((":node :n1", ":rate ##NaN", ":m #{(1) {}}", ":error :lost", ":time 1.5", ":time -7", ":index nil"))
    if more.split()[0] not in event[5]:
        event[5] += f", {more}"


CHANGES = (set_value, set_value, set_owner, go_on, go_on, set_object, set_process, rename, add, add, lambda rng, events: rng.shuffle(events))
# The same text in other words: what is to be written otherwise in a line, and how.
SPELLINGS = (
    (r", :value", " #_ #_ 1 2, :value"),
    (r", :object", " #_ {:object 7} ,, :object"),
    (r"}$", " #_ [1 #_ 2]} ; {:process 0"),
    (r"^", "#jepsen.history.Op "),
    (r"^", "#_ {:process 0} "),
    (r"\[(.*)\]", r"(\1)"),
    (r" (\d+),", r" +\1N,"),
)


def drawn(seed):
    """The events of a text in the format of fcbench, and how they were changed: "", "spelled" or "changed"."""
    rng = random.Random(f"imported text {seed}")
    events = events_of(rng)
    how = rng.choice(("", "spelled", "changed", "changed"))
    text = "".join(f"{line(event)}\n" for event in events)
    if how == "spelled":
        lines = [re.sub(*rng.choice(SPELLINGS), it) for it in text.splitlines()]
        return text, "".join(f"{it}\n" for it in lines), how
    if how == "changed":
        for change in rng.sample(CHANGES, rng.randrange(1, 3)):
            change(rng, events)
    return text, "".join(f"{line(event)}\n" for event in events), how


def found(program, path):
    """The verdict on a text, by the evidence that is found: orders alone, a reason, or that it is malformed."""
    ran = program.run("find", path)
    is_impossible = b":cuts" in ran.out or b":without" in ran.out
    return {0: "yes", 2: "malformed"}.get(ran.status, "no" if is_impossible else f"open {ran}")


# The lines on failed operations that may be replies. They are in the text as they were.
OF_FAILED = re.compile(r"fcbench: warning: left out: \d+ failed .*")

# Why import refuses a reply that the verifier would judge: it may be a message of a client.
OTHER_REPLY = b"its argument"


EVENT = re.compile(r"({:process (.*), :type :(\w+), :f :[\w-]+, :value )(.*)(, :object .*)")


def without_ignored(text):
    """The lines of a text without what no command reads, and import leaves out in silence: errors, marks that are nil, the argument that a :fail or
    an :info repeats, and of the nemesis all but its function and its marks."""
    lines, arguments = [], {}
    for it in text.splitlines():
        event = re.sub(r", :error :\w+|, :index nil", "", it)
        begin, process, kind, value, end = EVENT.fullmatch(event).groups() if EVENT.fullmatch(event) else (event, None, "", "", "")
        if kind == "invoke":
            arguments[process] = value
        elif kind in ("fail", "info") and value == arguments.get(process):
            value = "nil"
        event = f"{begin}{value}{end}"
        if event.startswith("{:process :nemesis, "):
            event = re.sub(r", :type :\w+|, :value nil, :object .*?(?=, :time|, :index|}$)", "", event)
        lines.append(event)
    return lines


def wrong_import(program, seed, verdict):
    """What is wrong with the import of a drawn text, or None."""
    text, file, how = drawn(seed)
    path = program.write(f"drawn.{seed}.edn", file)
    ran = program.run("import", path)
    said = [it for it in ran.err.decode().splitlines() if not OF_FAILED.fullmatch(it)]
    if how != "changed" or (not said and ran.out.decode() == file):
        return None if (ran.status, ran.out.decode(), said) == (0, text if how != "changed" else file, []) else f"{file} {ran}"
    if ran.status == 0 and not said and without_ignored(ran.out.decode()) != without_ignored(file):
        return f"changed without a line on standard error: {file} {ran}"
    own = verdict(program, path)
    after = verdict(program, program.write(f"drawn.{seed}.text.edn", ran.out)) if ran.status == 0 else "malformed"
    is_told = any(re.search(r"line \d|--[a-z]", it) for it in said)
    is_well = own == after or (own == "malformed" and is_told) or (ran.status == 2 and OTHER_REPLY in ran.err)
    return None if is_well else f"{own}, after import {after}: {file} {ran}"


def drawn_texts(program, report):
    """A text that is taken as it is, in any spelling, is written as it was, without a line on standard error. One in which something was changed has
    the same verdict after import; or it was malformed, and import names the lines, or an option, by which it is judged. Nothing is written otherwise
    than in the text without a line on standard error."""
    for seed, wrong in enumerate(at_once(lambda seed: wrong_import(program, seed, found), range(TEXTS))):
        report.equal(f"import: drawn text {seed}", None, wrong)
    return f"{TEXTS} texts"


PARTS = (drawn_texts,)
