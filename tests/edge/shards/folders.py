"""Files and folders of shards: those that cannot be read or written, that are there before, pipes, and shards that were changed."""
import os
import re

from . import wide_objects
from .dividing import Folder
from .long_wholes import MOST_MAPS, maps_of
from .trusted_statuses import BELIEVED
from .worked_wholes import MERGED, MERGED_YES, ORDERS, TWO_QUEUES
from ..answers import through_pipes
from ..check.unreadable_files import AS_NOBODY
from ..running import at_once
from ..text_writers import lines, invoke, ok

TWO_SHARDS = "4 maps in 2 shards\n"
# The same maps on objects that have other names in their shards, of which one is in each of two.
WIDE_QUEUES = TWO_QUEUES.replace(":object 4", ":object 65540").replace(":object 5", ":object 65541")
# A whole that needs more than two shards, and what split says of it.
TOO_WIDE = TWO_QUEUES.replace(":object 5", ":object 131072")
THREE_NEEDED = "object 131072: 3 shards or more are needed\n"


def is_named(ran, name):
    """Whether it ends with 4, prints nothing, and says which file failed."""
    return (ran.status, ran.out) == (4, b"") and re.fullmatch(rb"fcbench: cannot (read|write) %s.*\n" % re.escape(name.encode()), ran.err)


def folders_that_are_there(program, report):
    """split makes the folder, or takes an empty one. It refuses one that has shards, and leaves its files as they are."""
    whole = program.write("whole.edn", TWO_QUEUES)
    folder = Folder(program, "made", 2)
    report.answers("split: a folder that is missing", folder.split(whole), TWO_SHARDS, 0)
    empty = Folder(program, "empty", 2)
    os.makedirs(empty.path())
    report.answers("split: an empty folder", empty.split(whole), TWO_SHARDS, 0)
    before = folder.files()
    for shards in (1, 2, 3):
        ran = program.run("split", whole, "made", "--shards", str(shards))
        report.holds(f"split: a folder that has shards, into {shards}", ran.status == 4 and ran.out == b"" and b"made" in ran.err, ran)
    report.equal("split: the files of the shards that are there", before, folder.files())
    # A split that was killed leaves no file `shards`.
    os.remove(folder.path("shards"))
    ran = program.run("split", whole, "made", "--shards", "3")
    report.holds("split: a folder that has some of the files", ran.status == 4 and ran.out == b"" and b"made" in ran.err, ran)
    del before["shards"]
    report.equal("split: some of the files, as they were", before, folder.files())


def files_that_are_there(program, report):
    """split refuses a folder that has one of the files: this file stays as it is, and there is no other one."""
    whole = program.write("whole.edn", TWO_QUEUES)
    for name in ("0.edn", "0.places", "5.edn", "5.places", "shards"):
        folder = Folder(program, f"with.{name}", 8)
        os.makedirs(folder.path())
        folder.write(name, b"of before\n")
        ran = folder.split(whole)
        report.holds(f"split: a folder that has {name}", is_named(ran, folder.name), ran)
        report.equal(f"split: a folder that has {name}: the files", {name: b"of before\n"}, folder.files())


def folders_that_cannot_be_written(program, report):
    """A folder that cannot be made or written is named, and so is a history that cannot be read."""
    whole = program.write("whole.edn", TWO_QUEUES)
    program.write("file", "")
    os.makedirs(f"{program.folder}/locked")
    os.chmod(f"{program.folder}/locked", 0o555)
    how = AS_NOBODY if os.geteuid() == 0 else {}
    for name, more in (("file", {}), ("locked", how), ("locked/shards", how)):
        ran = program.run("split", whole, name, **more)
        report.holds(f"split: into {name}", is_named(ran, name), ran)
    for name in ("missing.edn", "locked"):
        ran = program.run("split", name, "unread")
        report.answers(f"split: {name}, which cannot be read", ran, "", 4, f"fcbench: cannot read {name}\n")


def full_output_of_shards(program, report):
    """Where the output fails, split and merge end with 4."""
    whole = program.write("whole.edn", TWO_QUEUES)
    with open("/dev/full", "wb") as full:
        for name, history in (("full", whole), ("faulty", program.write("faulty.edn", TWO_QUEUES + "{}"))):
            ran = program.run("split", history, name, stdout=full)
            report.equal(f"split: the output is full: {name}", 4, ran.status, ran)
            report.equal(f"split: the output is full: {name}: the files", {}, Folder(program, name, 64).files())
            report.equal(f"merge: the output was full: {name}", 4, program.run("merge", name).status)
        folder = Folder(program, "merged", 1)
        folder.make(TWO_QUEUES)
        ran = folder.merge(stdout=full)
        report.equal("merge: the output is full", 4, ran.status, ran)


def wholes_through_pipes(program, report):
    """The history may be a pipe, and come in pieces of any size: the files are the same."""
    expected = Folder(program, "by_file", 2)
    report.answers("split: a file", expected.split(program.write("whole.edn", TWO_QUEUES)), TWO_SHARDS, 0)
    for size in (1, 7, 1000):
        folder = Folder(program, f"by_pipe.{size}", 2)
        ran = through_pipes(program, (("pipe.edn", TWO_QUEUES),), ("split", "pipe.edn", folder.name, "--shards", "2"), size)
        report.answers(f"split: a pipe, in pieces of {size}", ran, TWO_SHARDS, 0)
        report.equal(f"split: a pipe, in pieces of {size}: the files", expected.files(), folder.files())
    folder = Folder(program, "by_one_byte", 2)
    report.answers("split: reads of one byte", folder.split("whole.edn", faults={"READ_AT_MOST": 1}), TWO_SHARDS, 0)
    report.equal("split: reads of one byte: the files", expected.files(), folder.files())


def shards_through_pipes(program, report):
    """Any file of a shard may be a pipe, since each is read once: also the evidence and the status, which need not be there."""
    merged_with(program, "piped", {})
    for file in ("0.edn", "1.places", "2.evidence"):
        folder = Folder(program, "piped", 3)
        with open(folder.path(file), "rb") as opened:
            text = opened.read()
        ran = through_pipes(program, ((f"piped/{file}", text),), ("merge", "piped"))
        report.answers(f"merge: {file} is a pipe", ran, MERGED_YES, 0)
        folder.write(file, text)
    for shard in range(3):
        folder.write(f"{shard}.status", b"0\n")
    ran = through_pipes(program, (("piped/1.status", b"0\n"),), ("merge", "piped", "--trust-statuses"))
    report.answers("merge: a status is a pipe", ran, BELIEVED % 3 + "yes by statuses: 3 shards\n", 0)


def failing_reads_of_shards(program, report):
    """If one read fails, whichever, split and merge end with 4 and print nothing, and split leaves no files."""
    for name, whole in (("narrow", TWO_QUEUES), ("wide", WIDE_QUEUES)):
        program.write("whole.edn", whole)
        _, _, reads = program.counts("split", "whole.edn", f"counted.{name}", "--shards", "2")
        for at in range(1, reads + 1):
            folder = Folder(program, f"unread.{name}.{at}", 2)
            ran = folder.split("whole.edn", faults={"FAIL_READ_AT": at})
            report.answers(f"split: {name}: read {at} fails", ran, "", 4, "fcbench: cannot read whole.edn\n")
            report.equal(f"split: {name}: read {at} fails: the files", {}, folder.files())
    merged_with(program, "merged", {})
    _, _, reads = program.counts("merge", "merged")
    for at in range(1, reads + 1):
        ran = program.run("merge", "merged", faults={"FAIL_READ_AT": at})
        report.holds(f"merge: read {at} fails", (ran.status, ran.out) == (4, b"") and ran.err.startswith(b"fcbench: cannot read merged/"), ran)


def failing_writes_of_shards(program, report):
    """If one write to a file fails, whichever, split ends with 4, names the folder, and leaves no files."""
    for name, whole in (("narrow", TWO_QUEUES), ("wide", WIDE_QUEUES)):
        program.write("whole.edn", whole)
        writes = program.file_writes("split", "whole.edn", f"counted.{name}", "--shards", "2")
        report.holds(f"split: {name}: its writes are counted", writes > 1, writes)
        for at in range(1, writes + 1):
            folder = Folder(program, f"unwritten.{name}.{at}", 2)
            ran = folder.split("whole.edn", faults={"FAIL_FILE_WRITE_AT": at})
            # The last write is that of the file `shards`, after the line.
            line = TWO_SHARDS if at == writes else ""
            report.answers(f"split: {name}: write {at} fails", ran, line, 4, f"fcbench: cannot write {folder.name}\n")
            report.equal(f"split: {name}: write {at} fails: the files", {}, folder.files())


def refused_memory_of_shards(program, report):
    """If one allocation fails, whichever, split and merge say so, or give their answer."""
    for name, whole in (("narrow", TWO_QUEUES), ("wide", WIDE_QUEUES)):
        program.write("whole.edn", whole)
        for at in range(1, allocations_of(program, report, "split", "whole.edn", f"counted.{name}", "--shards", "2") + 1):
            folder = Folder(program, f"refused.{name}.{at}", 2)
            ran = folder.split("whole.edn", faults={"REFUSE_AT": at})
            # Where the line is written, and then the file `shards` cannot be made, it ends with 4 and leaves no files.
            answers = {0: TWO_SHARDS.encode(), 3: b"out of memory\n", 4: TWO_SHARDS.encode()}
            is_well = ran.out == answers.get(ran.status) and (ran.status != 4 or folder.files() == {})
            report.holds(f"split: {name}: allocation {at} fails", is_well and folder.is_whole() == (ran.status == 0), ran)
    wholes = {"merged": merged_with(program, "merged", {}), "wide": wide_objects.merged(program, "wide").merge()}
    wholes["refuted"] = wide_objects.refuted(program, "refuted").merge()
    report.equal("merge: with ample memory", [0, 0, 1], [ran.status for ran in wholes.values()], wholes)
    for name, whole in wholes.items():
        for at in range(1, allocations_of(program, report, "merge", name) + 1):
            ran = program.run("merge", name, faults={"REFUSE_AT": at})
            report.holds(f"merge: {name}: allocation {at} fails", ran == whole or ran.status == 3 and b"yes" not in ran.out, ran)


def allocations_of(program, report, *words):
    """How many allocations a run makes."""
    _, allocations, _ = program.counts(*words)
    report.holds(f"{' '.join(words)}: its allocations are counted", allocations > 0)
    return allocations


def refused_memory_of_what_does_not_fit(program, report):
    """If an allocation fails, split says that it is out of memory, or still names the object that does not fit, or those that are too large."""
    program.write("wide.edn", TOO_WIDE)
    for at in range(1, allocations_of(program, report, "split", "wide.edn", "counted", "--shards", "2") + 1):
        folder = Folder(program, f"refused.{at}", 2)
        ran = folder.split("wide.edn", faults={"REFUSE_AT": at})
        is_well = (ran.status, ran.err) == (3, b"") and ran.out in (THREE_NEEDED.encode(), b"out of memory\n")
        # Where an allocation fails while files are removed, some may be left.
        report.holds(f"split: too few shards: allocation {at} fails", is_well and not folder.is_whole(), ran)
    program.write("large.edn", maps_of(65_537, MOST_MAPS + 1, 0) + maps_of(1, 2, 1))
    whole = Folder(program, "large", 2).split("large.edn")
    count = allocations_of(program, report, "split", "large.edn", "counted.large", "--shards", "2")
    numbers = sorted({*range(1, count + 1, max(1, count // 20)), *range(max(1, count - 30), count + 1)})
    runs = at_once(lambda at: Folder(program, f"large.{at}", 2).split("large.edn", faults={"REFUSE_AT": at}), numbers)
    for at, ran in zip(numbers, runs):
        is_well = (ran.status, ran.out) in ((3, whole.out), (3, b"out of memory\n"), (4, whole.out))
        report.holds(f"split: an object that is too large: allocation {at} of {count} fails", is_well, ran)


# Changes to the files of the shards of MERGED among three: each file with another text, or None where it is not there.
CHANGED = {
    "a table that is cut": {"0.places": b"1\n2\n7\n"},
    "a table that does not rise": {"1.places": b"3\n0\n"},
    "a table of no numbers": {"1.places": b"a\nb\n"},
    "no table": {"1.places": None},
    "maps that are cut": {"0.edn": lines(invoke(1, "enqueue", 5, 0), ok(1, "enqueue", 5, 0)).encode()},
    "half a map": {"1.edn": b"{:process 0, :type"},
    "no maps": {"1.edn": None},
    "neither maps nor table": {"1.edn": None, "1.places": None},
    "nothing of a shard": {"1.edn": None, "1.places": None, "1.evidence": None},
    "a number of shards that is missing": {"shards": b""},
    "a number of shards that is cut": {"shards": b"3"},
    "a number of shards that is no number": {"shards": b"x\n"},
    "a number of shards below 0": {"shards": b"-1\n"},
    "more shards than there may be": {"shards": b"10001\n"},
}


def merged_with(program, name, changes):
    """What merge says of the shards of MERGED, with the evidence for each, where some files are changed."""
    folder = Folder(program, name, 3)
    folder.make(MERGED)
    for file, text in {**{f"{on}.evidence": text for on, text in ORDERS.items()}, **changes}.items():
        if text is None:
            if os.path.exists(folder.path(file)):
                os.remove(folder.path(file))
        else:
            folder.write(file, text)
    return folder.merge()


def shards_that_were_changed(program, report):
    """If a file of a shard is missing, cut short, or of another shard, merge never says yes."""
    report.answers("merge: shards as they were", merged_with(program, "as_they_were", {}), MERGED_YES, 0)
    for number, (name, changes) in enumerate(CHANGED.items()):
        ran = merged_with(program, f"changed.{number}", changes)
        report.holds(f"merge: {name}: no yes", ran.status in (2, 3, 4) and b"yes" not in ran.out, ran)
    ran = merged_with(program, "table", {"1.places": b"0\n3\n8\n"})
    report.answers("merge: a table that is too long: the shard is named", ran, "shard 1: its table does not fit\n", 2)
    report.holds("merge: a folder that is missing", is_named(program.run("merge", "nowhere"), "nowhere/shards"))


PARTS = (
    folders_that_are_there,
    files_that_are_there,
    folders_that_cannot_be_written,
    full_output_of_shards,
    wholes_through_pipes,
    shards_through_pipes,
    failing_reads_of_shards,
    failing_writes_of_shards,
    refused_memory_of_shards,
    refused_memory_of_what_does_not_fit,
    shards_that_were_changed,
)
