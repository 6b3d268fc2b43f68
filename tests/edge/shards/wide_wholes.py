"""Small histories whose objects get other numbers, past 65,535 too: what merge says of their shards is what verify says of the small one. And
a Jepsen store with more keys than a text may have objects."""
import random
import re
from dataclasses import dataclass, replace

from .dividing import MAP, NAMES, OBJECT, Folder, evidence_in_shards, judged, object_of
from .small_wholes import faults_of_answer, faults_of_split, on_all, whole
from ..text_writers import lines

# How many shards a wide whole has.
SHARDS = (2, 3, 5, 64)
# An object as it is spelled, and what may follow it in a map that is one.
INTEGER, END = re.compile(rb"[-+]?(0|[1-9]\d*)"), re.compile(rb"[\s,}]")


@dataclass(frozen=True)
class Wide:
    """A whole like a small history: its text, the number of each object of the small one, and after which bytes of that how many more come."""

    text: bytes
    numbers: dict
    longer: tuple

    def answer(self, ran):
        """The answer for this history, made of the answer for the small one: in its numbers, and in their order."""
        told = re.fullmatch(rb"malformed history: (E\d+) at byte (\d+)\n", ran.out)
        if told:
            at = int(told[2])
            return replace(ran, out=b"malformed history: %s at byte %d\n" % (told[1], at + sum(more for end, more in self.longer if end <= at)))
        head, *those = re.split(rb"^(?=; object \d+: )", ran.out, flags=re.M)
        return replace(ran, out=head + b"".join(text for _, text in sorted(map(self.of_object, those))))

    def of_object(self, text):
        """Of the lines on one object its number in this whole, and the lines with that number."""
        on = self.numbers[int(re.match(rb"; object (\d+)", text)[1])]
        return on, re.sub(rb"^(; object |; \{:object )\d+", rb"\g<1>%d" % on, text, flags=re.M)


def names_an_object(match, history):
    return INTEGER.fullmatch(match[1]) and 0 <= int(match[1]) < NAMES and END.match(history, match.end())


def other_numbers(rng, objects, shards, least):
    """Another number of at least this for each object. All fit this many shards, and often some of them have the same name in two shards."""
    names = sorted({0, 1, NAMES - 1, rng.randrange(NAMES), rng.randrange(NAMES)})
    with_names = [multiple * NAMES + name for multiple in range(shards) for name in names]
    few = [number for number in with_names if number >= least]
    among = few if len(few) >= len(objects) and rng.random() < 0.6 else range(least, shards * NAMES)
    return dict(zip(objects, rng.sample(among, len(objects))))


def widened(history, rng, shards):
    """A small history with other numbers for its objects. Where a map of a client has no `:object`, object 0 keeps its number."""
    history = history.encode()
    named = [match for match in OBJECT.finditer(history) if names_an_object(match, history)]
    keeps_0 = any(object_of(map_text) is not None and not OBJECT.search(map_text) for map_text in MAP.findall(history))
    objects = sorted({int(match[1]) for match in named})
    numbers = {**other_numbers(rng, objects, shards, 1 if keeps_0 else 0), **({0: 0} if keeps_0 else {})}
    parts, longer, begin = [], [], 0
    for match in named:
        number = b"%d" % numbers[int(match[1])]
        parts += [history[begin : match.start(1)], number]
        longer.append((match.end(), len(number) - len(match[1])))
        begin = match.end()
    return Wide(b"".join((*parts, history[begin:])), numbers, tuple(longer))


def look(program, number):
    """Splits, finds and merges one wide whole. Returns the status of the small one, its damage, and what is wrong, or None."""
    history, damage = whole(number)
    small, found = judged(program, f"small.{number}", history)
    rng = random.Random(f"wide {number}")
    shards = rng.choice(SHARDS)
    wide = widened(history, rng, shards)
    expected = wide.answer(small)
    folder = Folder(program, f"wide.{number}", shards)
    wrong = faults_of_split(folder, wide.text, expected, folder.split(program.write(f"wide.{number}.edn", wide.text)))
    if wrong is None and small.status != 2:
        wrong = faults_of_answer(folder, evidence_in_shards(found, wide.numbers, shards), expected)
    return small.status, damage, wrong


def wide_wholes(program, report):
    """Gives the objects of a thousand small histories numbers past 65,535: merge says of each, line for line, what verify says of the small one."""
    return on_all(report, "shards of wide whole", lambda number: look(program, number))


# How many keys a store has, and the one that is read as nil after it was written.
KEYS, STALE = 70_000, 68_123


def calls_on(key):
    """A write of a key, and a read of it."""
    for f, replied in (("write", 1), ("read", "nil" if key == STALE else 1)):
        for kind, value in (("invoke", 1 if f == "write" else "nil"), ("ok", replied)):
            yield f'{{:process 0, :type :{kind}, :f :{f}, :value ["k{key}" {value}]}}'


def imported_wholes(program, report):
    """Imports a store of 70,000 keys with a warning, and divides it: merge names the one object that is wrong, and the event that shows it."""
    store = program.write("store.edn", lines(*(text for key in range(KEYS) for text in calls_on(key))))
    ran = program.run("import", store)
    warning = b"fcbench: warning: there are %d objects, more than judge takes: use split\n" % KEYS
    warned = [line for line in ran.err.splitlines(keepends=True) if b": warning: " in line]
    report.equal("import: more keys than a text may have objects", (0, [warning]), (ran.status, warned))
    folder = Folder(program, "imported", 2)
    whole_text = program.write("imported.edn", ran.out)
    report.answers("split: an imported store", folder.split(whole_text), f"{4 * KEYS} maps in 2 shards\n", 0)
    folder.find_all()
    ran = folder.merge()
    is_named = re.search(rb"^; object %d: impossible$" % STALE, ran.out, re.M) and b"event %d is the first" % (4 * STALE + 3) in ran.out
    report.holds("merge: an imported store: the object and the event", ran.status == 1 and is_named, ran)
    report.equal("merge: an imported store: one object", 1, ran.out.count(b"impossible"), ran)


PARTS = (wide_wholes, imported_wholes)
