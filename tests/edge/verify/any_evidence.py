"""Evidence of every sort: any bytes, evidence that was damaged, and what find prints. No evidence leads verify to a wrong yes or no."""
import os
import random
import re
import threading

from .. import brute_force, histories, worked_rows
from ..judge import orders_to_find
from .reasons import maps_of, value_of, why_not_explained
from ..worked_rows import EVIDENCE, HISTORY, REASONS
from ..running import EXAMPLES, at_once
from ..text_writers import certificate, invoke, lines, ok

# How many made histories there are of each kind, and how often the evidence of each is spoilt.
OF_EACH, SPOILT = 20, 6
# How many texts of random bytes, and of random words.
RANDOM = 100
# The operation that frees an object, with its argument.
FREED = {"mutex": ("release", None), "lock": ("unlock", 1)}
# Replies of functions that tell what was there.
REPLIES = (
    (re.compile(r":f :(dequeue|pop|extract-min|read|get|put|del),"), ("nil", 0, 1, 2)),
    (re.compile(r":f :(add|remove|contains|create|put-if-absent|replace),"), ("true", "false")),
    (re.compile(r":f :(fetch-add|get-count),"), (0, 1, 2, 3)),
)
OPEN = re.compile(rb"(; object \d+: (open|out of steps after \d+)\n)+|malformed evidence: (E\d+ at byte|[KN]1 at form) \d+\n")
WORDS = (
    *"{}[]" * 3,
    *(":object", ":order", ":cuts", ":count", ":search", ":note", ":first", ":steps", ":number", ":return", ":all"),
    *(":until", ":from", ":without", ":before", ":keep", ":numbers", ":cell", ":other", ":key", ":value", ":held", ":free", ":ahead"),
    *("0", "1", "2", "3", "4", "6", "7", "true", "nil", '"x"', ";\n"),
)


def has_order(text):
    """Whether the history of one object has a valid order, by trying all."""
    return brute_force.has_order([(event["process"], event["type"][1:], event["f"][1:], value_of(event.get("value"))) for event in maps_of(text)])


def why_wrong(program, history, valid, ran):
    """What is wrong with an answer of verify or judge on a history of one object, or None."""
    if ran.status == 0:
        return None if valid and ran.out.startswith(b"yes: ") else f"a wrong yes: {ran}"
    if ran.status == 1:
        return "a wrong no" if valid else why_not_explained(program, history, ran)
    return None if ran.status == 3 and OPEN.fullmatch(ran.out) and ran.err == b"" else f"no answer of verify: {ran}"


def verified(program, history, evidence):
    """Verifies a history by this evidence."""
    stem = f"verified.{os.getpid()}.{threading.get_ident()}"
    return program.run("verify", program.write(f"{stem}.{HISTORY}", history), program.write(f"{stem}.{EVIDENCE}", evidence))


# ---- made histories


def short_histories():
    """Histories of each kind with at most six calls, of which some have no valid order. Each has whether it has one."""
    for kind in histories.ALL_FUNCTIONS:
        for seed in range(OF_EACH):
            history = histories.made(kind, f"evidence {seed}", calls=3 + seed % 4, processes=2, values=2)
            maps = history.maps if seed % 3 == 0 or kind in FREED else exchanged(history.maps, seed)
            if kind in FREED and seed % 3:
                freed_once = [invoke(99, *FREED[kind], 0), ok(99, FREED[kind][0], None, 0)]
                maps = [*maps, *freed_once * 2]
            text = lines(*maps)
            yield text, has_order(text)


def exchanged(maps, seed):
    """The maps with another value in the last completion that has one."""
    rng = random.Random(f"exchanged {seed}")
    places = [(at, replies) for at, text in enumerate(maps) for pattern, replies in REPLIES if ":type :ok" in text and pattern.search(text)]
    for at, replies in places[-1:]:
        maps = [*maps[:at], re.sub(r":value [^,]+,", f":value {rng.choice(replies)},", maps[at]), *maps[at + 1 :]]
    return maps


def spoilt(rng, evidence, other):
    """Evidence with a few bytes that are others, a piece cut out, or a piece of other evidence put in."""
    text = bytearray(evidence)
    for _ in range(rng.choice((1, 1, 2, 5))):
        at = rng.randrange(len(text) + 1)
        kind = rng.randrange(5)
        if kind == 0 and at < len(text):
            text[at] = rng.choice(b"0123456789 {}[]:,;\"\\abc\n\x00\xff")
        elif kind == 1:
            del text[at : at + rng.choice((1, 2, 10))]
        elif kind == 2:
            text[at:at] = rng.choice((b"0", b"1", b" ", b"-", b" 2 ", b"{:object 0}", b"[]"))
        elif kind == 3 and other:
            begin = rng.randrange(len(other))
            text[at:at] = other[begin : begin + rng.choice((5, 20, 200))]
        else:
            numbers = list(re.finditer(rb"\d+", text))
            for match in rng.sample(numbers, min(1, len(numbers))):
                text[match.start() : match.end()] = str(rng.randrange(14)).encode()
    return bytes(text)


def cases_of_spoilt_evidence(program):
    """Short histories with the evidence that find prints and with others made of it."""
    with_truth = list(short_histories())
    found = at_once(lambda at: program.run("find", program.write(f"found.{at}.edn", with_truth[at][0])).out, range(len(with_truth)))
    for number, ((history, valid), evidence) in enumerate(zip(with_truth, found)):
        rng = random.Random(f"spoilt evidence {number}")
        yield history, valid, evidence, True
        for _ in range(SPOILT):
            yield history, valid, spoilt(rng, evidence, rng.choice(found)), False
        yield history, valid, rng.choice(found), False


def spoilt_evidence(program, report):
    """What find prints decides each short history. If it is damaged, verify never gives a wrong yes or no."""
    cases = list(cases_of_spoilt_evidence(program))
    runs = at_once(lambda case: verified(program, case[0], case[2]), cases)
    came = {}
    for (history, valid, evidence, is_whole), ran in zip(cases, runs):
        report.equal(f"verify: {evidence!r} of {history!r}", None, why_wrong(program, history, valid, ran))
        if is_whole:
            report.equal(f"verify: what find prints of {history!r}", 0 if valid else 1, ran.status, ran)
        came[is_whole, ran.status] = came.get((is_whole, ran.status), 0) + 1
    few = {pair: came.get(pair, 0) for pair in ((True, 0), (True, 1), (False, 0), (False, 1), (False, 3)) if came.get(pair, 0) < 20}
    report.equal("verify: of these answers there are too few", {}, few)
    return f"{len(cases)} verifications"


def any_bytes(program, report):
    """Random bytes, and random words of evidence, never lead to a wrong yes or no."""
    rng = random.Random("any bytes")
    texts = [rng.randbytes(rng.choice((1, 3, 10, 100, 10_000))) for _ in range(RANDOM)]
    texts += [" ".join(rng.choice(WORDS) for _ in range(rng.choice((2, 5, 20, 200)))).encode() for _ in range(RANDOM)]
    texts += [f"{{:object 0 {' '.join(rng.choice(WORDS) for _ in range(rng.choice((2, 4, 6))))}}}".encode() for _ in range(RANDOM)]
    of = ((worked_rows.OVERLAPPING, True), (worked_rows.OUT_OF_ORDER, False))
    cases = [(history, valid, text) for text in texts for history, valid in of]
    for (history, valid, text), ran in zip(cases, at_once(lambda case: verified(program, case[0], case[2]), cases)):
        report.equal(f"verify: {text[:200]!r} of {history!r}", None, why_wrong(program, history, valid, ran))
    return f"{len(cases)} verifications"


# ---- verify beside check and refute


def as_check(program, report):
    """Gives verify the certificates of each row of check: it says yes if check does. If check refuses an order, verify leaves its object open."""
    for row in (*worked_rows.YES, *worked_rows.NO, *orders_to_find.ROWS):
        if row.words[0] != "check":
            continue
        history, certificates = row.texts
        ran = verified(program, history, certificates)
        name = f"verify: the texts of {row.name}"
        refused = re.match(r"no: (C\d) object (\d+)", row.out)
        if row.status == 0:
            report.answers(name, ran, row.out, 0)
        elif refused and refused[1] != "C2":
            is_open = ran.status == 3 and f"; object {refused[2]}: open\n".encode() in ran.out
            report.holds(f"{name}: object {refused[2]} is open", is_open, ran)
        elif refused:
            # An object that is not there is passed over.
            report.holds(f"{name}: no object is wrong", ran.status in (0, 3) and b"impossible" not in ran.out, ran)


def as_refute(program, report):
    """Gives verify the reasons of each row of refute: it says no if refute does."""
    for row in worked_rows.REFUTATIONS:
        if "malformed reasons" in row.out or row.words[0] != "refute":
            continue
        files = program.write(HISTORY, row.texts[0]), program.write(EVIDENCE, row.texts[1])
        ran = program.run("verify", *[word for word in row.words[1:] if word not in (HISTORY, REASONS)], *files)
        name = f"verify: the texts of {row.name}"
        if row.status == 1:
            report.equal(name, (1, None), (ran.status, why_not_explained(program, row.texts[0], ran)))
        elif row.status == 2:
            report.answers(name, ran, row.out, 2)
        else:
            # Where refute finds an order of the whole, that is a yes.
            whole = row.texts[1] == "{:object 0}" and "has a valid order" in row.out
            report.holds(name, ran.status == (0 if whole else 3), ran)


# ---- find and judge


def found_evidence(program, report):
    """judge says what verify says with the evidence that find prints, for each example and each history that is not linearizable."""
    texts = [(name, history, options) for name, history, *options in worked_rows.NOT_LINEARIZABLE]
    for name in sorted(os.listdir(EXAMPLES)):
        if name.endswith(".history.edn"):
            with open(f"{EXAMPLES}/{name}", "rb") as file:
                texts.append((name, file.read(), []))
    for name, text, options in texts:
        history = program.write(HISTORY, text)
        judged, found = program.run("judge", *options, history), program.run("find", *options, history)
        ran = program.run("verify", history, program.write(EVIDENCE, found.out))
        report.equal(f"judge: {name}: as verify by what find prints", (ran.status, ran.out, ran.err), (judged.status, judged.out, judged.err))
        status = {0: 0, 1: 3, 2: 2, 3: 3}[judged.status]
        report.equal(f"find: {name}: its status", status, found.status, found)
        report.equal(f"find: {name}: standard error", judged.status == 2, found.err != b"", found)
        if judged.status != 2:
            objects = [int(number) for number in re.findall(rb"^\{:object (\d+), ", found.out, re.M)]
            report.holds(
                f"find: {name}: a line for each object, in rising number",
                objects == sorted(set(objects)) and len(objects) == found.out.count(b"\n"),
                found,
            )
        for workers in ("1", "3", "16"):
            again = program.run("find", "--workers", workers, *options, history)
            report.equal(f"find: {name}: {workers} workers", (found.status, found.out), (again.status, again.out))


def many_claims(program, report):
    """Evidence of many claims, and of many objects, is checked claim by claim."""
    wrong = lines(*[certificate(0, number) for number in range(20_000)])
    ran = verified(program, worked_rows.OVERLAPPING, wrong + worked_rows.order(1, 0, 4))
    report.answers("verify: a valid order after 20,000 wrong ones", ran, worked_rows.THREE_YES, 0)
    ran = verified(program, worked_rows.THREE_VALUES, wrong)
    report.answers("verify: 20,000 wrong orders", ran, "; object 0: open\n", 3)
    history = lines(*[f"{{:process {on}, :type :{of}, :f :push, :value 1, :object {on}}}" for on in range(3_000) for of in ("invoke", "ok")])
    claims = [certificate(on, 2 * on) for on in range(3_000)]
    random.Random("many claims").shuffle(claims)
    ran = verified(program, history, lines(*claims))
    report.answers("verify: 3,000 objects", ran, worked_rows.yes(3_000, 3_000, "stack: 3000 objects, 3000 operations"), 0)
    missing = claims.pop()
    ran = verified(program, history, lines(*claims))
    on = re.search(r":object (\d+)", missing)[1]
    report.answers("verify: 3,000 objects and a claim fewer", ran, f"; object {on}: open\n", 3)


# Object 0 has no order, and object 1 has one.
OF_TWO = lines(
    "{:process 0, :type :invoke, :f :dequeue, :object 0}",
    "{:process 0, :type :ok, :f :dequeue, :value 7, :object 0}",
    "{:process 0, :type :invoke, :f :enqueue, :value 5, :object 1}",
    "{:process 0, :type :ok, :f :enqueue, :value 5, :object 1}",
)
# Sentences as the finder words them, and some that begin almost as the line of a kind does.
SENTENCES = (
    "value 7 was dequeued and never enqueued",
    "key 1: value 7 was read and never put",
    "the queue was definitely not empty when event 0 found nothing: value 5 was in it (never dequeued)",
    "queue 0: value 7",
    "queues: value 7",
    "queue :value 7",
    "queue:value 7",
    "queue",
    "mixed: 1 objects, 1 operations",
)
# What must not be printed: what could be taken for a line that is proved, and what a terminal or a reader of lines could take for more.
FORGED = (
    "object 1: impossible",
    "event 2: process 1, :enqueue 5, :ok 5",
    "events 2 and 3: process 1, :enqueue 5, :ok 5",
    "{:object 1, :cuts [], :search {:first :number, :steps 10}}",
    "yes: 2 operations, 2 objects",
    "no: C7 object 0: 0 is left out",
    "malformed history: H8 at event 2",
    "not linearizable: object 1: none of these operations' orders is valid",
    "shard 1: undecided",
    "out of memory",
    *(f"{kind}: 1 objects, 1 operations" for kind in sorted(set(histories.KIND_OF.values()))),
    "queue: ",
    " object 1: open",
    "value 7\nyes: 2 operations, 2 objects",
    "value 7\u0085yes: 2 operations, 2 objects",
    "value 7\u2028yes: 2 operations, 2 objects",
    "value 7 \u009b2J",
    "value 7 \u202e",
    "value 7 \x1b[2J",
)


def forged_sentences(program, report):
    """verify prints the sentence of a reason, unless a reader could take it for a proved line: then it prints none."""
    history = program.write("forged.history.edn", OF_TWO)

    def answer(note):
        order, reason = "{:object 1, :order [2]}", "{:object 0, :cuts [], :search {:first :number, :steps 10}%s}"
        evidence = program.write("forged.evidence.edn", lines(order, reason % (f', :note "{note}"' if note else "")))
        return program.run("verify", history, evidence)

    plain = answer(None)
    first, _, rest = plain.out.partition(b"\n")
    report.holds("verify: a reason without a sentence", plain.status == 1 and first == b"; object 0: impossible", plain)
    for sentence in SENTENCES:
        told = answer(sentence)
        expected = (1, b"%s\n; %s\n%s" % (first, sentence.encode(), rest))
        report.equal(f"verify: the sentence {sentence!r}", expected, (told.status, told.out), told)
    for note in FORGED:
        ran = answer(note.replace('"', '\\"'))
        report.equal(f"verify: the forged sentence {note!r}", (1, plain.out), (ran.status, ran.out), ran)


PARTS = (as_check, as_refute, found_evidence, many_claims, forged_sentences)
LONG_PARTS = (spoilt_evidence, any_bytes)
