"""Evidence of workers that lie, and missing evidence: merge never gives a wrong yes or no."""
import random
import re

from . import wholes
from .dividing import NAMES, Folder, judged
from .wide_wholes import widened
from .worked_wholes import MERGED, MERGED_YES, ORDERS
from ..running import at_once
from ..text_writers import lines

SHARDS = 3
# How many wholes are lied about.
WHOLES = 60
# What merge may say of a whole where workers lie, by what verify says of it.
ALLOWED = {0: (0, 3), 1: (1, 3), 3: (0, 1, 3)}


def another_shard(rng, found, shard):
    """The evidence of another shard."""
    return found[(shard + rng.randrange(1, SHARDS)) % SHARDS]


def changed_orders(rng, found, shard):
    """Each order reversed, or without one of its numbers, or with one twice."""

    def change(order):
        numbers = order[1].split()
        at = rng.randrange(max(1, len(numbers)))
        other = rng.choice((numbers[::-1], numbers[:at] + numbers[at + 1 :], numbers[: at + 1] + numbers[at:]))
        return b":order [%s]" % b" ".join(other)

    return re.sub(rb":order \[([^]]*)\]", change, found[shard])


def other_numbers(rng, found, shard):
    """Numbers that are less, as those of a worker that counts the maps of its shard."""
    return re.sub(rb"\d+", lambda digits: b"%d" % (int(digits[0]) * 2 // 3), found[shard])


def garbage(rng, found, shard):
    return rng.randbytes(rng.choice((1, 30, 1000)))


def cut_short(rng, found, shard):
    return found[shard][: rng.randrange(len(found[shard]) + 1)]


def names_in(found):
    """The objects that are named in evidence, and some others."""
    return sorted({*range(10), *(int(digits) for digits in re.findall(rb":object (\d+)", b"".join(found)))})


def orders_for_all(rng, found, shard):
    """An empty order of each object."""
    return b"".join(b"{:object %d, :order []}\n" % on for on in names_in(found))


def reasons_for_all(rng, found, shard):
    """A reason that says of each object that no order is valid."""
    return b"".join(b"{:object %d, :cuts [], :search {:first :number, :steps 1000}}\n" % on for on in names_in(found))


def all_shards(rng, found, shard):
    """The evidence of all shards, of which some may be on an object of this name, one claim after another in any order."""
    claims = b"".join(found).splitlines(keepends=True)
    return b"".join(rng.sample(claims, len(claims)))


def numbers_of_the_whole(rng, found, shard):
    """Names of objects as they may be in the whole, past those of a shard."""
    return re.sub(rb"(?<=:object )\d+", lambda digits: b"%d" % (int(digits[0]) + NAMES * rng.randrange(3)), found[shard])


def nothing(rng, found, shard):
    return b""


LIES_OF_WORKERS = (
    another_shard,
    changed_orders,
    other_numbers,
    garbage,
    cut_short,
    orders_for_all,
    reasons_for_all,
    all_shards,
    numbers_of_the_whole,
    nothing,
)


def lied_about(program, number, is_wide):
    """What verify says of a whole, and what merge says where one or two workers lie. The objects may get other numbers, past 65,535 too."""
    maps, damage = wholes.damaged(number) if number % 2 else (wholes.made(number), "none")
    history = lines(*maps)
    expected, _ = judged(program, f"lied.{number}", history)
    answers = []
    if expected.status != 2:
        if is_wide:
            wide = widened(history, random.Random(f"lied {number}"), SHARDS)
            history, expected = wide.text, wide.answer(expected)
        folder = Folder(program, f"lies.{number}", SHARDS)
        folder.make(history)
        evidence = folder.find_all()
        for lie in LIES_OF_WORKERS:
            rng = random.Random(f"{lie.__name__} {number}")
            liars = rng.sample(range(SHARDS), rng.choice((1, 2)))
            for shard in range(SHARDS):
                folder.write(f"{shard}.evidence", lie(rng, evidence, shard) if shard in liars else evidence[shard])
            answers.append((lie.__name__, folder.merge()))
    return expected, answers


def impossible(ran):
    """The objects that are said to have no valid order."""
    return {*re.findall(rb"^; object (\d+): impossible$", ran.out, re.M)}


def lying(program, report, is_wide):
    """What workers lead to that lie about wholes."""
    came = {}
    for number, (expected, answers) in enumerate(at_once(lambda seed: lied_about(program, seed, is_wide), range(WHOLES))):
        for name, ran in answers:
            is_well = ran.status in ALLOWED[expected.status] and (ran.status != 0 or expected.status != 0 or ran.out == expected.out)
            # An object that is open in the whole may be shown to be impossible by a search that a liar asks for.
            is_well = is_well and (impossible(ran) <= impossible(expected) or b": open\n" in expected.out or b": out of" in expected.out)
            report.holds(f"merge: {name} about {'wide ' if is_wide else ''}whole {number}", is_well, (expected, ran))
            came[expected.status, ran.status] = came.get((expected.status, ran.status), 0) + 1
    few = {statuses: came.get(statuses, 0) for statuses in ((0, 0), (0, 3), (1, 1), (1, 3)) if came.get(statuses, 0) < 10}
    report.equal("merge: of these answers there are too few", {}, few)
    return f"{sum(came.values())} merges"


def lying_workers(program, report):
    """Whatever evidence workers send, merge never says no to a linearizable whole, and never yes to another."""
    return lying(program, report, False)


def lying_workers_of_wide_wholes(program, report):
    """Whatever evidence workers send, merge never gives a wrong yes or no to wholes in which objects of two shards have the same name."""
    return lying(program, report, True)


def lies_by_hand(program, report):
    """One lie about objects with one valid order, which is known, leaves these objects open, and no others."""
    folder = Folder(program, "lies", 2)
    folder.make(MERGED)
    even = ORDERS[0] + ORDERS[2]
    folder.write("0.evidence", even)
    folder.write("1.evidence", ORDERS[1])
    report.answers("merge: no lie", folder.merge(), MERGED_YES, 0)
    rows = (
        ("the evidence of another shard", even, even, "; object 1: open\n"),
        ("an order that is reversed", b"{:object 0, :order [7 1]}\n" + ORDERS[2], ORDERS[1], "; object 0: open\n"),
        ("the numbers of the shard", b"{:object 0, :order [0 4]}\n" + ORDERS[2], ORDERS[1], "; object 0: open\n"),
        ("an order that is too short", b"{:object 0, :order [1]}\n" + ORDERS[2], ORDERS[1], "; object 0: open\n"),
        ("the order of another object", ORDERS[0] + b"{:object 2, :order [1]}\n", ORDERS[1], "; object 2: open\n"),
        ("a reason", even, b"{:object 1, :cuts [], :count {:value 1, :from 0}}\n", "; object 1: open\n"),
    )
    for name, first, second, out in rows:
        folder.write("0.evidence", first)
        folder.write("1.evidence", second)
        report.answers(f"merge: {name}", folder.merge(), out, 3)
    # Evidence that is no text of evidence leaves its shard undecided.
    folder.write("0.evidence", even)
    for name, text in (("garbage", b"\xff\x00"), ("half a map", b"{:object 1, :ord"), ("no claim", b"{:object 1, :order 7}\n")):
        folder.write("1.evidence", text)
        ran = folder.merge()
        is_told = re.fullmatch(rb"(.*\n)*shard 1: malformed evidence: (E\d+ at byte|[KN]1 at form) \d+\n(.*\n)*", ran.out)
        report.holds(f"merge: {name}: the shard is named", ran.status == 3 and is_told, ran)


def missing_evidence(program, report):
    """If the evidence of a shard is missing, its objects are open. A shard without objects needs no evidence."""
    folder = Folder(program, "missing", 4)
    folder.make(MERGED)
    for shard, text in ORDERS.items():
        folder.write(f"{shard}.evidence", text)
    report.answers("merge: a shard without maps needs no evidence", folder.merge(), MERGED_YES, 0)
    for on in ORDERS:
        one = Folder(program, f"missing.{on}", 4)
        one.make(MERGED)
        for shard, text in ORDERS.items():
            if shard != on:
                one.write(f"{shard}.evidence", text)
        report.answers(f"merge: no evidence for object {on}", one.merge(), f"; object {on}: open\n", 3)
    found = Folder(program, "no_evidence", 2)
    found.make(MERGED)
    report.answers("merge: no evidence at all", found.merge(), "; object 0: open\n; object 1: open\n; object 2: open\n", 3)


PARTS = (missing_evidence, lies_by_hand, lying_workers, lying_workers_of_wide_wholes)
