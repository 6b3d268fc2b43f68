"""Wholes of a few maps, with the files of their shards and the lines of split and merge. All expected values are worked out by hand."""
from dataclasses import dataclass

from .dividing import LAST_OBJECT, Folder, counts_text
from ..judge.like_recorded import nemesis
from ..running import at_once
from ..text_writers import fail, info, invoke, lines, ok

NEMESIS = '{:process :nemesis, :type :info, :f :kill, :value {:n1 "a } \\" ; {", :n2 [1 {:b nil}]}}'


@dataclass(frozen=True)
class Row:
    """A whole, among how many shards it is divided, and the maps of each with their places."""

    name: str
    whole: str
    shards: tuple

    def files(self):
        files = {"shards": counts_text([places.count("\n") for _, places in self.shards])}
        for shard, (maps, places) in enumerate(self.shards):
            files[f"{shard}.edn"], files[f"{shard}.places"] = maps.encode(), places.encode()
        return files

    def count(self):
        return sum(places.count("\n") for _, places in self.shards)


# Two queues: one process enqueues 7 into object 4, and another dequeues from object 5 while it does.
FOUR, FIVE = invoke(0, "enqueue", 7, 4), invoke(1, "dequeue", None, 5)
FOUR_OK, FIVE_OK = ok(0, "enqueue", 7, 4), ok(1, "dequeue", None, 5)
TWO_QUEUES = lines(FOUR, FIVE, FOUR_OK, FIVE_OK)

DIVIDED = (
    Row("two queues", TWO_QUEUES, ((lines(FOUR, FOUR_OK), "0\n2\n"), (lines(FIVE, FIVE_OK), "1\n3\n"))),
    Row("one shard", TWO_QUEUES, ((TWO_QUEUES, "0\n1\n2\n3\n"),)),
    Row("more shards than objects", TWO_QUEUES, ((lines(FIVE, FIVE_OK), "1\n3\n"), *(("", ""),) * 3, (lines(FOUR, FOUR_OK), "0\n2\n"))),
    Row("an empty text", "", (("", ""), ("", ""))),
    Row("a comment", "; no map\n", (("", ""),)),
    Row("the maps of a nemesis count, and are in no shard", lines(NEMESIS, FOUR, NEMESIS, FOUR_OK), ((lines(FOUR, FOUR_OK), "1\n3\n"),)),
    Row(
        "a failed call and one that stays pending",
        lines(invoke(0, "write", 1, 0), invoke(1, "push", 1, 1), fail(0, "write", 1, 0), info(1, "push", 1, 1), invoke(0, "push", 2, 1)),
        (
            (lines(invoke(0, "write", 1, 0), fail(0, "write", 1, 0)), "0\n2\n"),
            (lines(invoke(1, "push", 1, 1), info(1, "push", 1, 1), invoke(0, "push", 2, 1)), "1\n3\n4\n"),
        ),
    ),
    Row(
        "without :object it is object 0",
        "{:process 3 :type :invoke :f :read}{:process 3 :type :ok :f :read}",
        (("{:process 3 :type :invoke :f :read}\n{:process 3 :type :ok :f :read}\n", "0\n1\n"), ("", "")),
    ),
    Row(
        "maps on several lines, two on a line, and comments between and in them",
        "\n{:process 0,\n :type :invoke, ; here } and {\r\n :f :enqueue, :value 1, :note \"}\n{\", :more {:a [{}]}},,\t" + FIVE + "; {\n\n"
        "{:process 0, :type :ok, :f :enqueue, :value 1} " + FIVE_OK,
        (
            (
                "{:process 0,\n :type :invoke, ; here } and {\r\n :f :enqueue, :value 1, :note \"}\n{\", :more {:a [{}]}}\n"
                "{:process 0, :type :ok, :f :enqueue, :value 1}\n",
                "0\n2\n",
            ),
            (FIVE + "\n" + FIVE_OK + "\n", "1\n3\n"),
        ),
    ),
    Row(
        "the greatest object of a text",
        lines(invoke(0, "acquire", None, 65_535)),
        (("", ""), (lines(invoke(0, "acquire", None, 65_535)), "0\n"), *(("", ""),) * 5),
    ),
)

# Each shard is a history, and the whole is not. Object x is in shard x mod 2.
FAULTS = (
    (
        "busy in another shard",
        lines(invoke(3, "enqueue", 7, 1), invoke(3, "enqueue", 8, 2), ok(3, "enqueue", 7, 1), ok(3, "enqueue", 8, 2)),
        "H5 at map 1",
    ),
    ("busy in another shard, of another kind", lines(FOUR, invoke(0, "pop", None, 7), FOUR_OK), "H5 at map 1"),
    ("closed in another shard", lines(FOUR, info(0, "enqueue", 7, 4), invoke(0, "dequeue", None, 5)), "H8 at map 2"),
    ("closed in another shard, long before", lines(FOUR, info(0, "enqueue", 7, 4), FIVE, FIVE_OK, NEMESIS, invoke(0, "push", 1, 7)), "H8 at map 5"),
    ("completed on another object", lines(FOUR, ok(0, "enqueue", 7, 5)), "H7 at map 1"),
    ("completed without :object", lines(invoke(0, "enqueue", 7, 1), "{:process 0, :type :ok, :f :enqueue, :value 7}"), "H7 at map 1"),
    ("completed twice, once on each", lines(FOUR, FOUR_OK, ok(0, "enqueue", 7, 5)), "H6 at map 2"),
)

# Faults of one map, or of the text.
OTHER_FAULTS = (
    ("no map", "7", "H1 at map 0"),
    ("an object past the last", invoke(0, "read", None, LAST_OBJECT + 1), "H1 at map 0"),
    ("no function", lines(FOUR, invoke(1, "drain", None, 5)), "H2 at map 1"),
    ("no argument", lines(FOUR, invoke(1, "enqueue", None, 5)), "H3 at map 1"),
    ("another kind", lines(FOUR, invoke(1, "push", 1, 4)), "H4 at map 1"),
    ("never invoked", lines(NEMESIS, FOUR_OK), "H6 at map 1"),
    ("no integer", lines(FOUR, FOUR_OK) + "{:process 007}", "E3 at byte 130"),
    ("the end in a map", lines(FOUR, FOUR_OK) + "{:process 0", "E2 at byte 131"),
    ("the end in a string", '{:note "', "E2 at byte 8"),
    ("a bracket that closes nothing", FOUR + "\n}", "E3 at byte 62"),
)


def split(program, name, whole, shards):
    """Splits a whole, and returns the folder and what that gave."""
    folder = Folder(program, f"{name}.shards", shards)
    return folder, folder.split(program.write(f"{name}.edn", whole))


def same_files(report, name, expected, came):
    """Compares the files of a folder with those that are expected, and says which differ."""
    others = sorted(file for file in {*expected, *came} if expected.get(file) != came.get(file))
    report.equal(f"{name}: files that differ", {}, {file: (expected.get(file), came.get(file)) for file in others})


def is_divided(program, report, name, row):
    """Splits a whole, and compares the files."""
    folder, ran = split(program, name, row.whole, len(row.shards))
    report.answers(f"split: {row.name}", ran, f"{row.count()} maps in {len(row.shards)} shards\n", 0)
    if ran.status == 0:
        same_files(report, f"split: {row.name}", row.files(), folder.files())


def are_refused(program, report, rows):
    """Splits wholes with a fault into two shards each: it is named, and nothing is left of the split. Returns the folders."""
    runs = at_once(lambda at: split(program, f"fault.{at}", rows[at][1], 2), range(len(rows)))
    for (name, _, fault), (folder, ran) in zip(rows, runs):
        report.answers(f"split: {name}", ran, f"malformed history: {fault}\n", 2)
        report.equal(f"split: {name}: the files", {}, folder.files())
    return [folder for folder, _ in runs]


def divided_by_hand(program, report):
    """The files of the shards have the maps as they are written, with their places, and each map of a client is in one of them."""
    for number, row in enumerate(DIVIDED):
        is_divided(program, report, f"row.{number}", row)


def faults_of_the_whole(program, report):
    """The first fault of the whole is named, also if each shard alone is well-formed."""
    rows = (*FAULTS, *OTHER_FAULTS)
    for (name, whole, fault), folder in zip(rows, are_refused(program, report, rows)):
        checked = program.run("verify", program.write("faulty.edn", whole), program.write("nothing.edn", ""))
        report.answers(f"verify: {name}", checked, f"malformed history: {fault}\n", 2)
        report.holds(f"merge: {name}: there are no shards", folder.merge().status == 4)


def merged_on(queue, stack, register):
    """A history of one object of each of these kinds, which have these numbers."""
    return lines(
        invoke(0, "push", 1, stack),
        invoke(1, "enqueue", 5, queue),
        ok(1, "enqueue", 5, queue),
        ok(0, "push", 1, stack),
        nemesis("kill"),
        invoke(1, "write", 3, register),
        ok(1, "write", 3, register),
        invoke(0, "dequeue", None, queue),
        ok(0, "dequeue", 5, queue),
    )


MERGED = merged_on(0, 1, 2)
ORDERS = {0: b"{:object 0, :order [1 7]}\n", 1: b"{:object 1, :order [0]}\n", 2: b"{:object 2, :order [5]}\n"}
MERGED_YES = "yes: 4 operations, 3 objects\nstack: 1 objects, 1 operations\nqueue: 1 objects, 2 operations\nregister: 1 objects, 1 operations\n"


def merged_by_hand(program, report):
    """The answer of merge is that of the whole, with the kinds in the order of their first invocations there."""
    for shards in (1, 2, 3, 5):
        folder = Folder(program, f"merged.{shards}", shards)
        folder.make(MERGED)
        for shard in range(shards):
            folder.write(f"{shard}.evidence", b"".join(text for on, text in ORDERS.items() if on % shards == shard))
        report.answers(f"merge: {shards} shards", folder.merge(), MERGED_YES, 0)
    folder.write("1.evidence", b"")
    report.answers("merge: no evidence for object 1", folder.merge(), "; object 1: open\n", 3)
    folder.write("0.evidence", b"")
    report.answers("merge: no evidence for objects 0 and 1", folder.merge(), "; object 0: open\n; object 1: open\n", 3)


def refuted_on(queue, stack):
    """A history of a queue and a stack with these numbers: what is dequeued was never enqueued."""
    return lines(nemesis("kill"), invoke(0, "push", 1, stack), ok(0, "push", 1, stack), invoke(0, "dequeue", None, queue), ok(0, "dequeue", 7, queue))


NOTE = "value 7 was dequeued and never enqueued"


def reason_on(on):
    """The reason why that object is impossible."""
    return f'{{:object {on}, :cuts [{{:keep [7], :numbers [3]}} {{:until 5}}], :count {{:value 7, :from 0}}, :note "{NOTE}"}}\n'


def refuted_no(on):
    """The lines on that object."""
    return lines(
        f"; object {on}: impossible",
        f"; {NOTE}",
        "; events 3 and 4: process 0, :dequeue nil, :ok 7",
        f"; {{:object {on}, :cuts [{{:keep [7], :numbers [3]}} {{:until 5}}], :count {{:value 7, :from 0}}}}",
    )


def refuted_by_hand(program, report):
    """A reason for one shard makes merge say no, in the numbers of the whole. Objects without evidence do not change that."""
    folder = Folder(program, "refuted", 2)
    folder.make(refuted_on(3, 4))
    folder.write("0.evidence", b"{:object 4, :order [1]}\n")
    folder.write("1.evidence", reason_on(3).encode())
    report.answers("merge: one object is impossible", folder.merge(), refuted_no(3), 1)
    folder.write("0.evidence", b"")
    report.answers("merge: one is impossible, and one is open", folder.merge(), refuted_no(3) + "; object 4: open\n", 1)


PARTS = (divided_by_hand, faults_of_the_whole, merged_by_hand, refuted_by_hand)
