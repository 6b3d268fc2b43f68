"""Wholes of a few maps whose objects pass 65,535, with the files of their shards and what split and merge say. Expected values are worked out by
hand: with N shards object 65,536 a + b, with b up to 65,535, is in shard (a + b) mod N, by the name b there, and a must be less than N."""
import random

from .dividing import LAST_OBJECT, NAMES, Folder, counts_text, name_of, shard_of
from .worked_wholes import FOUR, MERGED_YES, NEMESIS, Row, are_refused, is_divided, merged_on, reason_on, refuted_no, refuted_on, same_files, split
from ..judge.like_recorded import nemesis
from ..text_writers import info, invoke, lines, ok


def with_maps(count, those):
    """The maps of this many shards and their places, where only these shards have some."""
    return tuple(those.get(shard, ("", "")) for shard in range(count))


def read(process, on):
    """A read that stays pending."""
    return invoke(process, "read", None, on)


ENDS = (65_535, 65_536, 131_071, 4_194_303)

DIVIDED = (
    Row(
        "the first and the last objects by their names",
        lines(*[read(process, on) for process, on in enumerate(ENDS)]),
        with_maps(
            64,
            {
                63: (lines(read(0, 65_535)), "0\n"),
                1: (lines(read(1, 0)), "1\n"),
                0: (lines(read(2, 65_535)), "2\n"),
                62: (lines(read(3, 65_535)), "3\n"),
            },
        ),
    ),
    Row("the first object for which 65 shards are needed, in 65", lines(read(0, 4_194_304)), with_maps(65, {64: (lines(read(0, 0)), "0\n")})),
    Row("the last object for which there are shards", lines(read(0, 655_359_999)), with_maps(10_000, {5_534: (lines(read(0, 65_535)), "0\n")})),
    Row(
        "0 and 65,536 at once, which neighbouring shards have by the same name",
        lines(invoke(0, "enqueue", 7, 0), invoke(1, "push", 8, 65_536), ok(0, "enqueue", 7, 0), ok(1, "push", 8, 65_536)),
        (
            (lines(invoke(0, "enqueue", 7, 0), ok(0, "enqueue", 7, 0)), "0\n2\n"),
            (lines(invoke(1, "push", 8, 0), ok(1, "push", 8, 0)), "1\n3\n"),
        ),
    ),
    Row(
        "three objects with one name, of three kinds, that one process calls in turn",
        lines(
            invoke(3, "push", 1, 131_079),
            ok(3, "push", 1, 131_079),
            nemesis("kill"),
            invoke(3, "insert", 2, 7),
            ok(3, "insert", 2, 7),
            invoke(3, "write", 3, 65_543),
            info(3, "write", 3, 65_543),
        ),
        (
            (lines(invoke(3, "push", 1, 7), ok(3, "push", 1, 7)), "0\n1\n"),
            (lines(invoke(3, "insert", 2, 7), ok(3, "insert", 2, 7)), "3\n4\n"),
            (lines(invoke(3, "write", 3, 7), info(3, "write", 3, 7)), "5\n6\n"),
        ),
    ),
    Row(
        "two objects of one shard, the later by the lesser name",
        lines(invoke(0, "push", 1, 10), invoke(1, "enqueue", 1, 65_536), ok(0, "push", 1, 10)),
        with_maps(3, {1: (lines(invoke(0, "push", 1, 10), invoke(1, "enqueue", 1, 0), ok(0, "push", 1, 10)), "0\n1\n2\n")}),
    ),
    Row(
        "the object of a map that is ignored may be any",
        "{:process :nemesis, :type :info, :f :kill, :object 99999999999}\n" + lines(read(0, 65_536)) + "{:process :nemesis, :object :all}\n",
        with_maps(2, {1: (lines(read(0, 0)), "1\n")}),
    ),
)

# Maps on object 70,000 as they are written, and in the shard, where its name is 4,464.
WRITTEN = (
    ("first", "{:object 70000, :process 0, :type :invoke, :f :read}", "{:object 4464, :process 0, :type :invoke, :f :read}"),
    ("in between", "{:process 0, :object 70000, :type :invoke, :f :read}", "{:process 0, :object 4464, :type :invoke, :f :read}"),
    ("last", "{:process 0 :type :invoke :f :read :object 70000}", "{:process 0 :type :invoke :f :read :object 4464}"),
    ("with a sign", "{:process +0, :type :invoke, :f :read, :object +70000}", "{:process +0, :type :invoke, :f :read, :object 4464}"),
    (
        "between separators of each sort",
        "{,:process 0\t:type :invoke,:f,:read\r\n:object,, \t\r\n70000,\n}",
        "{,:process 0\t:type :invoke,:f,:read\r\n:object,, \t\r\n4464,\n}",
    ),
    (
        "between comments that name others",
        "{:process 0 ; :object 70001\n :type :invoke :object ; 70000 } {:object 5\n;\n 70000;70000\n :f :read ; :object 0 \u00e9\n}",
        "{:process 0 ; :object 70001\n :type :invoke :object ; 70000 } {:object 5\n;\n 4464;70000\n :f :read ; :object 0 \u00e9\n}",
    ),
    (
        "after a string that names another",
        '{:note ":object 70000",:object 70000,:more"\\":object 70000, :a \\\\":process 0 :type :invoke :f :read}',
        '{:note ":object 70000",:object 4464,:more"\\":object 70000, :a \\\\":process 0 :type :invoke :f :read}',
    ),
    (
        "before and after maps that name others",
        "{:a {:object 70000}, :b [{:c {:object 70000}} :object 70000], :object 70000, :d {:object 70000} :process 0 :type :invoke :f :read}",
        "{:a {:object 70000}, :b [{:c {:object 70000}} :object 70000], :object 4464, :d {:object 70000} :process 0 :type :invoke :f :read}",
    ),
    (
        "beside the keyword as a value",
        "{:note :object, :object 70000, :more :object, :process 0 :type :invoke :f :read}",
        "{:note :object, :object 4464, :more :object, :process 0 :type :invoke :f :read}",
    ),
    (
        "beside keys that begin so, or are nearly the same",
        "{:objects 70000 :object-1 70000 :Object 70000 :an-object 70000 :object 70000 :object! 70000 :process 0 :type :invoke :f :read}",
        "{:objects 70000 :object-1 70000 :Object 70000 :an-object 70000 :object 4464 :object! 70000 :process 0 :type :invoke :f :read}",
    ),
    (
        "where the same number is elsewhere",
        "{:time 70000, :process 70000, :type :invoke, :f :write, :value 70000, :object 70000, :index 70000}",
        "{:time 70000, :process 70000, :type :invoke, :f :write, :value 70000, :object 4464, :index 70000}",
    ),
    (
        "close to a string, a comment and a bracket",
        '{:a"":object 70000;}\n:process 0 :b[]:type :invoke :f :read}',
        '{:a"":object 4464;}\n:process 0 :b[]:type :invoke :f :read}',
    ),
    (
        "in the deepest map",
        f"{{:object 70000 :process 0 :type :invoke :f :read :a {'[' * 15}{']' * 15}}}",
        f"{{:object 4464 :process 0 :type :invoke :f :read :a {'[' * 15}{']' * 15}}}",
    ),
)

# Faults of wholes, each divided among two shards.
FAULTS = (
    ("an object of 63 bits", read(0, 9_223_372_036_854_775_807), "H1 at map 0"),
    ("an object of 64 bits", read(0, 18_446_744_073_709_551_616), "E4 at byte 58"),
    ("an object below 0", read(0, -65_536), "H1 at map 0"),
    ("an object that begins with 0", read(0, "065536"), "E3 at byte 58"),
    ("no integer", read(0, "65536.0"), "E9 at byte 58"),
    ("completed on an object of the same name", lines(invoke(0, "enqueue", 7, 0), ok(0, "enqueue", 7, 65_536)), "H7 at map 1"),
    ("completed on the object by its name", lines(invoke(0, "enqueue", 7, 65_536), ok(0, "enqueue", 7, 0)), "H7 at map 1"),
    ("busy with an object of the same name", lines(invoke(0, "push", 7, 65_536), invoke(0, "push", 7, 0)), "H5 at map 1"),
    ("closed on an object of the same name", lines(invoke(0, "push", 7, 0), info(0, "push", 7, 0), read(0, 65_536)), "H8 at map 2"),
    ("another kind", lines(invoke(0, "push", 7, 65_536), invoke(1, "enqueue", 7, 65_536)), "H4 at map 1"),
    ("no function", lines(FOUR, NEMESIS, invoke(1, "drain", None, 65_537)), "H2 at map 2"),
    ("an earlier fault", lines(invoke(1, "drain", None, 0), read(0, 131_072)), "H2 at map 0"),
    ("a fault on the object before", lines(invoke(0, "push", None, 65_536), read(1, 5_000_000)), "H3 at map 0"),
    ("a fault of the map whose object does not fit", lines(FOUR, invoke(1, "drain", None, 5_000_000)), "H2 at map 1"),
    ("completed on an object that does not fit", lines(invoke(0, "enqueue", 7, 4), ok(0, "enqueue", 7, 131_076)), "H7 at map 1"),
    ("a fault of the text after an object that does not fit", lines(read(0, 5_000_000)) + "{:process 007}", "E3 at byte 77"),
)

# Wholes that need more shards: among how many they are divided, and which object is named.
TOO_FEW = (
    ("one shard has no object past 65,535", lines(read(0, 65_536)), 1, 65_536, 2),
    ("the first object that does not fit", lines(read(0, 4_194_304)), 64, 4_194_304, 65),
    ("far past it", lines(read(0, 5_000_000)), 64, 5_000_000, 77),
    ("the greatest object", lines(read(0, LAST_OBJECT)), 64, LAST_OBJECT, 65_536),
    ("the greatest object, by all shards that there may be", lines(read(0, LAST_OBJECT)), 10_000, LAST_OBJECT, 65_536),
    ("the first object for which there are no shards", lines(read(0, 655_360_000)), 10_000, 655_360_000, 10_001),
    ("of two the first", lines(read(0, 200_000), read(1, 900_000)), 2, 200_000, 4),
    ("of two the first, which is greater", lines(read(0, 900_000), read(1, 200_000)), 2, 900_000, 14),
    ("after others that fit", lines(FOUR, NEMESIS, read(1, 131_071), read(2, 131_072)), 2, 131_072, 3),
    ("before a fault", lines(FOUR, read(1, 131_072), invoke(2, "drain", None, 0)), 2, 131_072, 3),
    ("with a sign", "{:object +131072 :process 0 :type :invoke :f :read}", 2, 131_072, 3),
)


def objects_by_their_names(program, report):
    """Each object is in its shard under its name there, and all other bytes of its maps are those of the whole."""
    for number, row in enumerate(DIVIDED):
        is_divided(program, report, f"row.{number}", row)
    for number, (name, whole, own) in enumerate(WRITTEN):
        is_divided(program, report, f"written.{number}", Row(f"object 70000 {name}", whole, with_maps(2, {1: (f"{own}\n", "0\n")})))


def faults_of_wide_wholes(program, report):
    """The first fault of the whole is named, also of objects that have the same name in different shards."""
    are_refused(program, report, FAULTS)


def too_few_shards(program, report):
    """split names the first object that does not fit, with the number of shards that it needs, and leaves no files."""
    for number, (name, whole, shards, on, needed) in enumerate(TOO_FEW):
        folder, ran = split(program, f"few.{number}", whole, shards)
        report.answers(f"split: {name}", ran, f"object {on}: {needed} shards or more are needed\n", 3)
        report.equal(f"split: {name}: the files", {}, folder.files())
        report.holds(f"merge: {name}: there are no shards", folder.merge().status == 4)
        if needed <= 10_000 and "drain" not in whole:
            again = Folder(program, folder.name, max(needed, 14)).split(f"few.{number}.edn")
            report.holds(f"split: {name}: again, into {max(needed, 14)}", again.status == 0, again)


def entries(rng, process, on):
    """The keys of a map and their values, in any order, and where that of the object is among them."""
    others = rng.sample((":note", ":a", ":objects", ":object-", ":time"), rng.randrange(4))
    values = ("70000", '":object 5"', "{:object 70000}", "[:object 70000]", ":object", "nil", '"\\""', "{:a {:object 0}}", "+70000")
    those = [(key, rng.choice(values)) for key in others]
    those += [(":process", str(process)), (":type", ":invoke"), (":f", ":read"), (":object", rng.choice(("", "+")) + str(on))]
    rng.shuffle(those)
    return those


def gap(rng):
    return rng.choice((" ", " ", ", ", "\n", ",", "\t", "\r\n", " ; :object 7 }\n", " ;\n"))


def written_at_random(rng, process, on):
    """A map on an object, written in any way, and as it is in its shard."""
    whole, own = "{", "{"
    for key, value in entries(rng, process, on):
        before, between, after = rng.choice(("", gap(rng))), gap(rng), gap(rng)
        whole += f"{before}{key}{between}{value}{after}"
        is_renamed = key == ":object" and on >= NAMES
        own += f"{before}{key}{between}{name_of(on) if is_renamed else value}{after}"
    return whole + "}", own + "}"


def maps_as_they_are_written(program, report):
    """A thousand maps in any spelling, on objects up to the last, are in their shards as they are written, except for the object."""
    for shards in (1, 2, 7, 64):
        rng, parts = random.Random(f"written {shards}"), []
        files = {f"{shard}.{ending}": "" for shard in range(shards) for ending in ("edn", "places")}
        for place in range(250):
            on = rng.choice((rng.randrange(shards * NAMES), rng.randrange(shards) * NAMES + rng.choice((0, 7, 65_535))))
            whole, own = written_at_random(rng, place, on)
            parts.append(whole + rng.choice(("", "\n", " ; {\n", "\n\n")))
            files[f"{shard_of(on, shards)}.edn"] += f"{own}\n"
            files[f"{shard_of(on, shards)}.places"] += f"{place}\n"
        folder, ran = split(program, f"random.{shards}", "".join(parts), shards)
        report.answers(f"split: maps written in any way, {shards} shards", ran, f"250 maps in {shards} shards\n", 0)
        counts = [files[f"{shard}.places"].count("\n") for shard in range(shards)]
        expected = {name: text.encode() for name, text in files.items()} | {"shards": counts_text(counts)}
        same_files(report, f"split: maps written in any way, {shards} shards", expected, folder.files())


# Objects 0 (a queue), 65,536 (a stack) and 131,072 (a register), each in a shard of three, by the name 0.
MERGED = merged_on(0, 65_536, 131_072)
ORDERS = (b"{:object 0, :order [1 7]}\n", b"{:object 0, :order [0]}\n", b"{:object 0, :order [5]}\n")


def merged(program, name):
    """The shards of MERGED with the order of each object."""
    folder = Folder(program, name, 3)
    folder.make(MERGED)
    for shard, text in enumerate(ORDERS):
        folder.write(f"{shard}.evidence", text)
    return folder


def wide_shards_merged_by_hand(program, report):
    """Evidence uses the names that objects have in a shard. merge prints those of the whole, in their order."""
    folder = Folder(program, "without", 3)
    folder.make(MERGED)
    report.answers("merge: no evidence", folder.merge(), "; object 0: open\n; object 65536: open\n; object 131072: open\n", 3)
    folder = merged(program, "merged")
    report.answers("merge: three objects with one name", folder.merge(), MERGED_YES, 0)
    rows = (
        ("the number of the whole", b"{:object 65536, :order [0]}\n", "shard 1: malformed evidence: K1 at form 0\n"),
        ("the order of another object of that name", ORDERS[0], "; object 65536: open\n"),
        ("another name", b"{:object 1, :order [0]}\n", "; object 65536: open\n"),
    )
    for name, text, out in rows:
        folder.write("1.evidence", text)
        report.answers(f"merge: {name}", folder.merge(), out, 3)


def in_the_order_of_the_whole(program, report):
    """Lines on objects are in the order of their numbers in the whole, whatever their shards and names there."""
    of_one = Folder(program, "of_one", 3)
    of_one.make(lines(read(0, 10), read(1, 65_536)))
    report.answers("merge: two objects of one shard, the later by the lesser name", of_one.merge(), "; object 10: open\n; object 65536: open\n", 3)
    apart = Folder(program, "apart", 3)
    apart.make(lines(read(0, 65_538), read(1, 1), read(2, 131_074), read(3, 65_537)))
    expected = "; object 1: open\n; object 65537: open\n; object 65538: open\n; object 131074: open\n"
    report.answers("merge: four objects of three shards", apart.merge(), expected, 3)


def refuted(program, name):
    """The shards of a history whose object 65,539, which is in the first of two by the name 3, is impossible, with the reason."""
    folder = Folder(program, name, 2)
    folder.make(refuted_on(65_539, 65_540))
    folder.write("0.evidence", reason_on(3).encode())
    return folder


def wide_shards_refuted_by_hand(program, report):
    """A reason names an object by its name in the shard, and is printed with the number of the whole."""
    folder = refuted(program, "refuted")
    folder.write("1.evidence", b"{:object 4, :order [1]}\n")
    report.answers("merge: one object is impossible", folder.merge(), refuted_no(65_539), 1)
    folder.write("1.evidence", b"")
    report.answers("merge: one is impossible, and one is open", folder.merge(), refuted_no(65_539) + "; object 65540: open\n", 1)
    folder.write("0.evidence", reason_on(65_539).encode())
    out = "shard 0: malformed evidence: N1 at form 0\n; object 65540: open\n"
    report.answers("merge: the reason names the number of the whole", folder.merge(), out, 3)


PARTS = (
    objects_by_their_names,
    faults_of_wide_wholes,
    too_few_shards,
    maps_as_they_are_written,
    wide_shards_merged_by_hand,
    in_the_order_of_the_whole,
    wide_shards_refuted_by_hand,
)
