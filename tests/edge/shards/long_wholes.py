"""Wholes of several megabytes, which are read in pieces, and one that has more maps than a text may have."""
import re

from .dividing import Folder, counts_text, divided
from ..answers import through_pipes
from ..text_writers import fail, invoke, lines, ok

OBJECTS, SHARDS, MOST_MAPS = 100, 4, 1_000_000


def calls(count, begin=0):
    """The maps of writes, each on the next object."""
    operations = [(at % 7, "write", at, at % OBJECTS) for at in range(begin, begin + count)]
    return [event(*operation) for operation in operations for event in (invoke, ok)]


def spread(text):
    """A map on several lines, with a comment in it."""
    return text.replace(", :f", ",\n ; a comment ] \"\n :f").replace(", :object", "\n, :object")


def texts():
    """Wholes that are the same history, and are written in another way."""
    maps = calls(30_000)
    yield "a map on each line", lines(*maps)
    yield "maps on several lines", lines(*map(spread, maps))
    yield "all maps on one line", " ".join(maps)
    note = " ".join(["[1 2]\n"] * 200_000)
    at = len(maps) // 2
    yield "a map that is longer than a piece", lines(*maps[:at], maps[at].replace(", :type", f", :note [{note}], :type"), *maps[at + 1 :])


def long_wholes(program, report):
    """Maps in any spelling are in their shards as they are written, if split reads a file and if it reads a pipe."""
    for number, (name, text) in enumerate(texts()):
        folder = Folder(program, f"long.{number}", SHARDS)
        ran = folder.split(program.write("long.edn", text))
        report.answers(f"split: {name}", ran, f"60000 maps in {SHARDS} shards\n", 0)
        expected = divided(text, SHARDS)
        report.holds(f"split: {name}: the files", ran.status == 0 and folder.files() == expected)
        piped = Folder(program, f"piped.{number}", SHARDS)
        ran = through_pipes(program, (("pipe.edn", text),), ("split", "pipe.edn", piped.name, "--shards", str(SHARDS)), 60_001)
        report.answers(f"split: {name}, from a pipe", ran, f"60000 maps in {SHARDS} shards\n", 0)
        report.holds(f"split: {name}, from a pipe: the files", ran.status == 0 and piped.files() == expected)


def late_faults(program, report):
    """A fault after several megabytes is named with its place in the whole."""
    maps, late = calls(30_000), len(lines(*calls(30_000)))
    rows = (
        ("H6", (*maps, ok(0, "write", 1, 0)), "H6 at map 60000"),
        ("E3", (*maps, "{:process 00}"), f"E3 at byte {late + 10}"),
        ("E2", (*maps, "{:process"), f"E2 at byte {late + 10}"),
        ("E1", (*maps, "\udcff"), f"E1 at byte {late}"),
    )
    for name, those, fault in rows:
        program.write("late.edn", lines(*those).encode(errors="surrogateescape"))
        ran = Folder(program, f"late.{name}", SHARDS).split("late.edn")
        report.answers(f"split: a late {name}", ran, f"malformed history: {fault}\n", 2)


def too_many_maps(program, report):
    """A shard may have a million maps. split names one that has more, and merge says only that it is too large."""
    one_object = calls(MOST_MAPS // 2)
    text = re.sub(r":object \d+", ":object 1", lines(*one_object)) + lines(invoke(8, "push", 1, 2), ok(8, "push", 1, 2))
    folder = Folder(program, "most", 2)
    report.answers("split: a million maps in a shard", folder.split(program.write("most.edn", text)), f"{MOST_MAPS + 2} maps in 2 shards\n", 0)
    folder = Folder(program, "more", 2)
    program.write("more.edn", text + lines(invoke(0, "read", None, 1)))
    too_large = [f"{name} 1: {MOST_MAPS + 1} maps, too many for one text" for name in ("shard", "object")]
    too_many = lines(f"{MOST_MAPS + 3} maps in 2 shards", *too_large)
    report.answers("split: one more", folder.split("more.edn"), too_many, 3)
    folder.write("0.evidence", b"{:object 2, :order [%d]}\n" % MOST_MAPS)
    report.answers("merge: one more", folder.merge(), "shard 1: too large\n", 3)


# How many maps each of some objects has, among four shards. Objects 2 and 65,541 are in shard 2, and so is 65,537, which has a lesser name there;
# objects 3 and 196,608 are in shard 3.
LARGE = {65_537: MOST_MAPS + 2, 3: MOST_MAPS, 2: MOST_MAPS + 1, 65_541: 1, 196_608: 2, 4: 5}


def maps_of(on, count, process):
    """The maps of reads of one object by one process. The last may be pending, and some calls failed."""
    call = invoke(process, "read", None, on)
    pairs = lines(call, ok(process, "read", None, on)) * (count // 4) + lines(call, fail(process, "read", None, on)) * (count // 2 - count // 4)
    return pairs + lines(call) * (count % 2)


def large_objects(program, report):
    """split names the shards with more than a million maps, then the objects with more than a million, and none with exactly a million."""
    with open(f"{program.folder}/large.edn", "w", encoding="ascii") as file:
        for process, (on, count) in enumerate(LARGE.items()):
            file.write(maps_of(on, count, process))
    folder = Folder(program, "large", 4)
    expected = lines(
        f"{sum(LARGE.values())} maps in 4 shards",
        f"shard 2: {2 * MOST_MAPS + 4} maps, too many for one text",
        f"shard 3: {MOST_MAPS + 2} maps, too many for one text",
        f"object 2: {MOST_MAPS + 1} maps, too many for one text",
        f"object 65537: {MOST_MAPS + 2} maps, too many for one text",
    )
    report.answers("split: objects with more than a million maps", folder.split("large.edn"), expected, 3)
    counts = counts_text([5, 0, 2 * MOST_MAPS + 4, MOST_MAPS + 2])
    report.equal("split: objects with more than a million maps: the shards", counts, folder.files()["shards"])
    report.answers("merge: objects with more than a million maps", folder.merge(), "shard 2: too large\nshard 3: too large\n; object 4: open\n", 3)


PARTS = (long_wholes, late_faults, too_many_maps, large_objects)
