"""merge --trust-statuses, which believes the exit statuses of workers that judged a shard each: what it says, and what it reads."""
import itertools
import os
import random
import re

from .damaged import UNCOUNTED
from .dividing import Folder, counts_text, judged, shard_of
from .small_wholes import whole
from .wide_wholes import widened
from .worked_wholes import MERGED, ORDERS
from ..check.unreadable_files import AS_NOBODY
from ..running import at_once

TRUST = "--trust-statuses"
# What it says first of this many shards.
BELIEVED = "; not checked: the exit statuses of %d shards are believed\n"
# How many wholes workers judge.
WHOLES = 120
# What a shard is said to be by each text of its status. With every other one, and with no file, it has no status.
WORDS = {b"0\n": None, b"1\n": "no", b"2\n": "malformed", b"3\n": "undecided"}
# The statuses of a merge, the worst first, with the words for the shard that has it.
RANKS = ((2, {"malformed"}), (1, {"no"}), (3, {"undecided", "no status"}))
# Texts that are no status from 0 to 3: those of other statuses, those that are cut, and other bytes.
NO_STATUS = (
    *(b"%d\n" % status for status in (4, 64, 70, 137, 255, 256, -1, 2**32, 2**64)),
    *(b"", b"\n", b"0", b"1", b"+0\n", b"0\n\n", b"0\n1\n", b"0 \n", b" 0\n", b"0\r\n", b"0\x00\n", b"\x000\n", b"0;\n"),
    *(b"yes\n", b"x\n", b"\xff\n", b"0x0\n", b"0.0\n", b"\xef\xbb\xbf0\n", b"\xd9\xa0\n", b"0\n" * 100_000, b"0" * 100_000),
)


def trusted(texts):
    """What is to be said of shards with these texts of their statuses, and the status."""
    words = [WORDS.get(text, "no status") if text is not None else "no status" for text in texts]
    those = [f"; shard {shard}: {word}\n" for shard, word in enumerate(words) if word]
    status = next((status for status, of in RANKS if of & {*words}), 0)
    yes = "" if those else f"yes by statuses: {len(texts)} shards\n"
    return BELIEVED % len(texts) + "".join(those) + yes, status


def with_statuses(program, name, texts):
    """A folder that has nothing except the numbers of maps of its shards and these statuses."""
    folder = Folder(program, name, len(texts))
    os.makedirs(folder.path())
    folder.write("shards", counts_text([2] * len(texts)))
    for shard, text in enumerate(texts):
        if text is not None:
            folder.write(f"{shard}.status", text)
    return folder


def all_say_so(program, report, rows):
    """The answer of merge on a folder for each row of texts."""
    runs = at_once(lambda at: with_statuses(program, f"{len(rows)}.{at}", rows[at]).merge(TRUST), range(len(rows)))
    for texts, ran in zip(rows, runs):
        report.answers(f"merge {TRUST}: {[text if text is None else text[:20] for text in texts[:20]]}", ran, *trusted(texts))


def statuses_of_shards(program, report):
    """Tries all statuses of up to three shards, and texts that are no status: malformed outranks no, no undecided, and undecided yes."""
    two = with_statuses(program, "two", [b"0\n"] * 2)
    report.answers(f"merge {TRUST}: two shards, by hand", two.merge(TRUST), f"{BELIEVED % 2}yes by statuses: 2 shards\n", 0)
    out = "; shard 1: no\n; shard 2: malformed\n; shard 3: undecided\n; shard 4: no status\n"
    report.answers(f"merge {TRUST}: one of each, by hand", with_statuses(program, "five", [*WORDS, None]).merge(TRUST), BELIEVED % 5 + out, 2)
    for count in (1, 2, 3):
        all_say_so(program, report, list(itertools.product((*WORDS, b"64\n", None), repeat=count)))
    all_say_so(program, report, [place for text in NO_STATUS for place in ([text], [b"0\n", text], [text, b"0\n", b"1\n"])])


def statuses_of_many_shards(program, report):
    """Tries the greatest number of shards, of which a few are not yes."""
    rows = [[b"0\n"] * 64, [b"0\n"] * 10_000]
    for text in (b"1\n", b"2\n", b"3\n", None):
        row = [b"0\n"] * 1_000
        for place in (0, 1, 9, 10, 99, 100, 500, 999):
            row[place] = text
        rows.append(row)
    all_say_so(program, report, rows)


def nothing_else_is_read(program, report):
    """With the option only the statuses decide, whatever the other files say; without it they decide nothing."""
    folder = Folder(program, "merged", 3)
    folder.make(MERGED)
    for shard, text in ORDERS.items():
        folder.write(f"{shard}.evidence", text)
    before = folder.merge()
    report.equal("merge: a yes by evidence", 0, before.status)
    for status in (b"0\n", b"1\n", b"2\n", b"3\n"):
        for shard in range(3):
            folder.write(f"{shard}.status", status)
        report.answers(f"merge {TRUST}: each shard has {status}", folder.merge(TRUST), *trusted([status] * 3))
        report.answers(f"merge {TRUST} --steps 0: each shard has {status}", folder.merge(TRUST, "--steps", "0"), *trusted([status] * 3))
        report.equal(f"merge: each shard has {status}", before, folder.merge())
    for shard in range(3):
        folder.write(f"{shard}.status", b"0\n")
    for file in ("0.edn", "0.places", "0.evidence", "1.edn", "2.places"):
        folder.write(file, b"\xff{")
        report.answers(f"merge {TRUST}: {file} is other bytes", folder.merge(TRUST), *trusted([b"0\n"] * 3))
        os.remove(folder.path(file))
        report.answers(f"merge {TRUST}: without {file}", folder.merge(TRUST), *trusted([b"0\n"] * 3))


def folders_without_shards(program, report):
    """A folder that does not say how many shards it has is named, whatever statuses it has."""
    for number, text in enumerate((None, b"", b"2", b"x\n", b"0\n", b"2 \n", b"2\n", b"2\n2\n", b"2\n2\n2", b"2\n2\n2\n2\n")):
        folder = with_statuses(program, f"without.{number}", [b"0\n", b"0\n"])
        if text is None:
            os.remove(folder.path("shards"))
        else:
            folder.write("shards", text)
        refusal = f"fcbench: cannot read without.{number}/shards{f': {UNCOUNTED}' * (text is not None)}\n"
        report.answers(f"merge {TRUST}: the number of shards is {text}", folder.merge(TRUST), "", 4, refusal)
    folder = with_statuses(program, "more", [b"0\n"] * 2)
    folder.write("shards", b"10001\n")
    ran = folder.merge(TRUST)
    report.holds(f"merge {TRUST}: more shards than there may be: no yes", ran.status in (3, 4) and b"yes" not in ran.out, ran)
    refusal = "fcbench: cannot read nowhere/shards\n"
    report.answers(f"merge {TRUST}: a folder that is missing", program.run("merge", "nowhere", TRUST), "", 4, refusal)
    program.write("file", "")
    report.answers(f"merge {TRUST}: a file", program.run("merge", "file", TRUST), "", 4, "fcbench: cannot read file/shards\n")
    with open("/dev/full", "wb") as full:
        for number, texts in enumerate(([b"0\n"], [b"1\n"], [None])):
            ran = with_statuses(program, f"full.{number}", texts).merge(TRUST, stdout=full)
            report.equal(f"merge {TRUST}: the output is full: {texts}", 4, ran.status, ran)


def statuses_that_cannot_be_read(program, report):
    """A status file that cannot be read is named. A link that leads nowhere counts as missing."""
    folder = with_statuses(program, "unread", [b"0\n", b"0\n", b"1\n"])
    os.chmod(folder.path("1.status"), 0)
    how = AS_NOBODY if os.geteuid() == 0 else {}
    report.answers(f"merge {TRUST}: a status without permission", folder.merge(TRUST, **how), "", 4, "fcbench: cannot read unread/1.status\n")
    os.remove(folder.path("1.status"))
    os.makedirs(folder.path("1.status"))
    report.answers(f"merge {TRUST}: a status that is a folder", folder.merge(TRUST), "", 4, "fcbench: cannot read unread/1.status\n")
    os.rmdir(folder.path("1.status"))
    os.symlink("nowhere", folder.path("1.status"))
    report.answers(f"merge {TRUST}: a link that leads nowhere", folder.merge(TRUST), *trusted([b"0\n", None, b"1\n"]))


def refused_memory_of_statuses(program, report):
    """If one allocation or read fails, whichever, merge says so."""
    for number, texts in enumerate(([b"0\n"] * 3, [b"0\n", b"1\n", None], [b"3\n", b"64\n"])):
        folder = with_statuses(program, f"refused.{number}", texts)
        whole_run, allocations, reads = program.counts("merge", folder.name, TRUST)
        report.answers(f"merge {TRUST}: {texts}: counted", whole_run, *trusted(texts))
        report.holds(f"merge {TRUST}: {texts}: allocations and reads are counted", allocations > 0 and reads > 0)
        for fault, count in (("REFUSE_AT", allocations), ("FAIL_READ_AT", reads)):
            for at in range(1, count + 1):
                ran = folder.merge(TRUST, faults={fault: at})
                is_out = (ran.status, ran.out) == (3, b"out of memory\n") and fault == "REFUSE_AT"
                is_unread = (ran.status, ran.out) == (4, b"") and ran.err.startswith(f"fcbench: cannot read {folder.name}/".encode())
                report.holds(f"merge {TRUST}: {texts}: {fault} {at}", ran == whole_run or is_out or is_unread, ran)


def of_each_shard(ran, shards):
    """The status that a worker is to have which judges a shard alone, for each shard, by the answer for the whole."""
    of = [0] * shards
    for on, word in re.findall(rb"^; object (\d+): (\w+)", ran.out, re.M):
        shard = shard_of(int(on), shards)
        of[shard] = 1 if word == b"impossible" or of[shard] == 1 else 3
    return of


def look(program, number):
    """What verify says of a whole, the statuses of workers that judge its shards, which they are to have, and what merge says by them."""
    history, _ = whole(number)
    small, _ = judged(program, f"small.{number}", history)
    folder = Folder(program, f"judged.{number}", 1 + number % 4)
    if small.status == 2:
        return small, (), (), None
    wide = widened(history, random.Random(f"judged {number}"), folder.shards)
    folder.make(wide.text)
    came = [program.run("judge", f"{folder.name}/{shard}.edn", "--workers", "1").status for shard in range(folder.shards)]
    for shard, status in enumerate(came):
        folder.write(f"{shard}.status", b"%d\n" % status)
    return small, came, of_each_shard(wide.answer(small), folder.shards), folder.merge(TRUST)


def workers_that_judge(program, report):
    """Workers judge the shards of wide wholes, each alone, and end with the right statuses. With these merge ends as verify does on the whole."""
    for number, (small, came, expected, ran) in enumerate(at_once(lambda seed: look(program, seed), range(WHOLES))):
        if ran:
            report.equal(f"judge: the shards of whole {number}", expected, came)
            report.answers(f"merge {TRUST}: whole {number}", ran, *trusted([b"%d\n" % status for status in came]))
            report.equal(f"merge {TRUST}: whole {number}: the status of verify", small.status, ran.status, came)


PARTS = (
    statuses_of_shards,
    statuses_of_many_shards,
    nothing_else_is_read,
    folders_without_shards,
    statuses_that_cannot_be_read,
    refused_memory_of_statuses,
    workers_that_judge,
)
