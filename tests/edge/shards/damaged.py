"""Folders of shards whose files were damaged: emptied, cut, taken away or exchanged. merge never says yes of one, nor no where it did not."""
import itertools
import os

from .dividing import Folder, counts_text
from .worked_wholes import MERGED, MERGED_YES, ORDERS, reason_on, refuted_on
from ..running import at_once
from ..text_writers import invoke, lines

# What merge says of a file `shards` without the numbers of maps.
UNCOUNTED = "it does not say how many maps each shard has, since it was changed, or an older split wrote it: split the history again"
# A linearizable whole and one that is not, how many shards each has, the evidence for its objects, and the status of merge. Each object is in a
# shard of its own. Shards 1 and 2 of the first whole have as many maps as each other, and no others.
REFUTED = refuted_on(3, 4) + lines(invoke(7, "push", 2, 4))
KINDS = ("edn", "places", "evidence")
WHOLES = {
    "linearizable": (MERGED, 3, ORDERS, 0),
    "refuted": (REFUTED, 2, {4: b"{:object 4, :order [1]}\n", 3: reason_on(3).encode()}, 1),
}


def files_of(program, name):
    """The files of a whole, with the evidence."""
    whole, shards, evidence, _ = WHOLES[name]
    folder = Folder(program, f"whole.{name}", shards)
    folder.make(whole)
    for on, text in evidence.items():
        folder.write(f"{on % shards}.evidence", text)
    return folder.files()


def maps_in(files, shard):
    """How many maps a shard has."""
    return files[f"{shard}.places"].count(b"\n")


def cut(files):
    """Each file up to each line, to its middle, and to its last byte. Without its last line feed a text that is no table lost nothing."""
    for name, text in files.items():
        least = 0 if name.endswith(".places") or name == "shards" else 1
        ends = [at + 1 for at, byte in enumerate(text) if byte == ord("\n")]
        lengths = {length for begin, end in zip([0, *ends], ends) for length in (begin, (begin + end) // 2, end - 1)}
        for length in sorted(lengths):
            if length < len(text) - least:
                yield f"{name} is cut to {length} bytes", {name: text[:length]}


def cut_alike(files, shards):
    """Both files of a shard, or all, without their last lines, however many, or without any."""
    for shard in range(shards):
        maps, places, evidence = (files[f"{shard}.{ending}"] for ending in ("edn", "places", "evidence"))
        for left in range(places.count(b"\n")):
            both = {f"{shard}.{ending}": b"".join(text.splitlines(True)[:left]) for ending, text in (("edn", maps), ("places", places))}
            yield f"shard {shard} has its first {left} maps alone", both
            yield f"shard {shard} has its first {left} maps alone, and no evidence", {**both, f"{shard}.evidence": b""}
    everything = {f"{shard}.{ending}": b"" for shard in range(shards) for ending in ("edn", "places")}
    yield "all texts and tables are empty", everything
    yield "all files of the shards are empty", {**everything, **{f"{shard}.evidence": b"" for shard in range(shards)}}


def exchange(files, one, other, endings):
    """These files of two shards, exchanged."""
    pairs = [(f"{one}.{ending}", f"{other}.{ending}") for ending in endings]
    return {to: files[of] for pair in pairs for to, of in (pair, pair[::-1])}


def exchanged(files, shards):
    """Some files of two shards, exchanged. All three are where the shards have other numbers of maps."""
    for one, other in itertools.combinations(range(shards), 2):
        is_alike = maps_in(files, one) == maps_in(files, other)
        for count in range(1, len(KINDS) + (not is_alike)):
            for some in itertools.combinations(KINDS, count):
                yield f"{', '.join(some)} of shards {one} and {other} are exchanged", exchange(files, one, other, some)


def taken_away(files):
    """Each file is not there."""
    for name in files:
        yield f"{name} is not there", {name: None}


def miscounted(files, shards):
    """The file `shards` of another split, of an older one, or with one number that is another."""
    counts = [maps_in(files, shard) for shard in range(shards)]
    yield "shards is that of an older split", {"shards": b"%d\n" % shards}
    for at, more in itertools.product(range(shards), (-1, 1)):
        yield f"shard {at} was given {more:+} maps", {"shards": counts_text([count + more * (shard == at) for shard, count in enumerate(counts)])}
    yield "shards has one shard more", {"shards": counts_text([*counts, 1])}
    yield "shards has its numbers turned round", {"shards": counts_text(counts[1:] + counts[:1])}
    for text in (b"+", b"0", b" "):
        yield f"shards begins with {text}", {"shards": text + files["shards"]}
    yield "shards has an empty line", {"shards": files["shards"] + b"\n"}


def damages(files, shards):
    """Each damage: what it is, and the files that it changes. None: the file is taken away."""
    return [*cut(files), *cut_alike(files, shards), *exchanged(files, shards), *taken_away(files), *miscounted(files, shards)]


def merged(program, name, files):
    """What merge says of a folder with these files."""
    folder = Folder(program, name, 0)
    os.makedirs(folder.path())
    for file, text in files.items():
        if text is not None:
            folder.write(file, text)
    return folder.merge()


def is_told(ran, folder):
    """Whether the answer names a file, or shards and objects alone."""
    if ran.status == 4:
        return ran.out == b"" and ran.err.startswith(b"fcbench: cannot read %s/" % folder.encode())
    return ran.out != b"" and all(line.startswith((b"shard ", b"; ")) for line in ran.out.splitlines())


def damaged_folders(program, report):
    """No damaged folder of a linearizable whole has a yes or a no, and none of a whole that is not linearizable a yes."""
    tried = 0
    for name, (_, shards, _, status) in WHOLES.items():
        files = files_of(program, name)
        report.equal(f"merge: {name}: as split made it", status, merged(program, f"{name}.made", files).status)
        rows = [(what, changes) for what, changes in damages(files, shards) if any(files[file] != text for file, text in changes.items())]
        runs = at_once(lambda at: merged(program, f"{name}.{at}", {**files, **rows[at][1]}), range(len(rows)))
        for at, ((what, _), ran) in enumerate(zip(rows, runs)):
            is_well = ran.status in (2, 3, 4) or ran.status == status == 1
            report.holds(f"merge: {name}: {what}", is_well and is_told(ran, f"{name}.{at}"), ran)
        tried += len(rows)
    return f"{tried} damaged folders"


def whole_shards_that_are_exchanged(program, report):
    """If all files of two shards with as many maps are exchanged, the answer on the full history is the same."""
    files = files_of(program, "linearizable")
    ran = merged(program, "alike", {**files, **exchange(files, 1, 2, KINDS)})
    report.answers("merge: two whole shards are exchanged", ran, MERGED_YES, 0)


def counts_are_compared(program, report):
    """A shard with another number of maps is named, with both numbers. The file `shards` of an older split is refused, with a sentence."""
    files = files_of(program, "linearizable")
    lost = {"0.edn": b"", "0.places": b"", "0.evidence": b""}
    report.answers("merge: a shard lost all", merged(program, "lost", {**files, **lost}), "shard 0: it has 0 maps, and not 4\n", 2)
    rows = (("older", b"3\n"), ("cut", files["shards"][:-2]), ("none", b"0\n"), ("of none", b""), ("no number", b"x\n"))
    for number, (name, text) in enumerate(rows):
        for option in ((), ("--trust-statuses",)):
            folder = Folder(program, f"uncounted.{number}.{len(option)}", 3)
            os.makedirs(folder.path())
            for file, content in {**files, "shards": text, "0.status": b"0\n", "1.status": b"0\n", "2.status": b"0\n"}.items():
                folder.write(file, content)
            refusal = f"fcbench: cannot read {folder.name}/shards: {UNCOUNTED}\n"
            report.answers(f"merge: the file shards: {name} {option}", folder.merge(*option), "", 4, refusal)


def files_of_another_split(program, report):
    """split refuses a folder with a file of another split, and says which one: also evidence and statuses, which merge would believe."""
    whole = program.write("whole.edn", refuted_on(3, 4))
    for shard, ending in itertools.product((0, 7), ("edn", "places", "evidence", "status")):
        folder = Folder(program, f"other.{shard}.{ending}", 8)
        os.makedirs(folder.path())
        folder.write(f"{shard}.{ending}", b"0\n")
        refusal = f"fcbench: cannot write {folder.name}: {folder.name}/{shard}.{ending} is there already, maybe of another split\n"
        report.answers(f"split: a folder with {shard}.{ending}", folder.split(whole), "", 4, refusal)
        report.equal(f"split: a folder with {shard}.{ending}: the files", {f"{shard}.{ending}": b"0\n"}, folder.files())
    folder = Folder(program, "other.statuses", 2)
    os.makedirs(folder.path())
    folder.write("0.status", b"0\n")
    folder.write("1.status", b"0\n")
    report.equal("split: a folder with the statuses of another history", 4, folder.split(whole).status)
    report.equal("merge: by these statuses", 4, folder.merge("--trust-statuses").status)


def synced_splits(program, report):
    """split that is killed at a sync leaves no file `shards` until all shards are on the disk. If a sync fails it ends with 4 and leaves no files."""
    program.write("whole.edn", MERGED)
    syncs = program.syncs("split", "whole.edn", "counted", "--shards", "4")
    # Both files of each shard that has maps, the names, the file shards, and its name.
    report.equal("split: its syncs", 2 * 3 + 1 + 2, syncs)
    for at in range(1, syncs + 1):
        killed = Folder(program, f"killed.{at}", 4)
        killed.split("whole.edn", faults={"KILL_AT_SYNC": at})
        report.equal(f"split: killed at sync {at}: it says how many shards there are", at > 7, killed.is_whole())
        if at <= 7:
            report.equal(f"merge: split was killed at sync {at}", 4, killed.merge().status)
        failed = Folder(program, f"unsynced.{at}", 4)
        ran = failed.split("whole.edn", faults={"FAIL_SYNC_AT": at})
        report.answers(f"split: sync {at} fails", ran, "8 maps in 4 shards\n", 4, f"fcbench: cannot write {failed.name}\n")
        report.equal(f"split: sync {at} fails: the files", {}, failed.files())


PARTS = (damaged_folders, whole_shards_that_are_exchanged, counts_are_compared, files_of_another_split, synced_splits)
