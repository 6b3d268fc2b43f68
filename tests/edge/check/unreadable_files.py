"""Files that are long, that cannot be read, or that come in pieces."""
import os

from .. import worked_rows
from ..answers import through_pipes
from ..worked_rows import CERTIFICATES, EVIDENCE, HISTORY, REASONS, SCHEDULE
from ..running import OF_TOOLS, Program, Report

LONGEST = 268_435_456
AS_NOBODY = {"user": 65534, "group": 65534, "extra_groups": ()}
# The commands of the proved program of one file. judge is here too: what is wrong with the text of the file the proved program says.
OF_ONE_FILE = ("search", "judge", "simulate")

# What the second file of a command holds, and the status where that is malformed.
SECOND_TEXTS = {"check": ("certificates", 2), "refute": ("reasons", 2), "verify": ("evidence", 3)}


def fault_of(command, fault):
    return f"malformed {'schedule' if command == 'simulate' else 'history'}: {fault}\n"


def with_each_file(name):
    """The words of each command with this name in the place of each of its files."""
    yield "check", name, CERTIFICATES
    yield "check", HISTORY, name
    yield "refute", name, REASONS
    yield "refute", HISTORY, name
    yield "verify", name, EVIDENCE
    yield "verify", HISTORY, name
    yield from ((command, name) for command in OF_ONE_FILE)


def drawn_with(name):
    """The words of a drawing with this name in the place of each of its files."""
    yield "draw", name
    yield "draw", name, CERTIFICATES
    yield "draw", HISTORY, name


def is_named(ran, name):
    """Whether the tools say that this file cannot be read, and print nothing."""
    return (ran.status, ran.out) == (4, b"") and ran.err.startswith(f"fcbench: cannot read {name}: ".encode())


def write_good(program):
    """Writes the texts of a history that is linearizable, its certificates, which are evidence too, a reason and a schedule."""
    program.write(HISTORY, worked_rows.OVERLAPPING)
    program.write(CERTIFICATES, worked_rows.order(1, 0, 4))
    program.write(EVIDENCE, worked_rows.order(1, 0, 4))
    program.write(REASONS, worked_rows.TWO_OF_THREE)
    program.write(SCHEDULE, worked_rows.SERVED_BY_ANOTHER)


def good_runs():
    """Runs on good files whose answer rests on what the files hold: words, files that are read, output, status."""
    history, certificates = (HISTORY, worked_rows.OVERLAPPING), (CERTIFICATES, worked_rows.order(1, 0, 4))
    yield ("check", HISTORY, CERTIFICATES), (history, certificates), worked_rows.THREE_YES, 0
    yield ("search", HISTORY), (history,), worked_rows.order(1, 0, 4), 0
    yield ("find", HISTORY), (history,), worked_rows.order(1, 0, 4), 0
    yield ("judge", HISTORY), (history,), worked_rows.THREE_YES, 0
    refuted = next(row for row in worked_rows.REFUTATIONS if row.name == "refute: two of three values")
    yield ("refute", HISTORY, REASONS), refuted.files(), refuted.out, 1
    yield ("verify", HISTORY, EVIDENCE), (history, (EVIDENCE, worked_rows.order(1, 0, 4))), worked_rows.THREE_YES, 0
    yield ("simulate", SCHEDULE), ((SCHEDULE, worked_rows.SERVED_BY_ANOTHER),), worked_rows.SERVED_LINES, 0


def proved_runs():
    """Those of them that the proved program does alone."""
    return (run for run in good_runs() if run[0][0] not in OF_TOOLS)


def unreadable(program: Program, report: Report):
    """The first file that cannot be read is named, and nothing is printed."""
    write_good(program)
    os.makedirs(f"{program.folder}/folder", exist_ok=True)
    for name in ("missing.edn", "folder"):
        for words in with_each_file(name):
            ran = program.run(*words)
            if words[0] in OF_TOOLS:
                report.holds(f"{' '.join(words)}: the file is named, and the cause", is_named(ran, name) and ran.err.count(b"\n") == 1, ran)
            else:
                report.answers(" ".join(words), ran, "", 4, f"fcbench: cannot read {name}\n")
        for words in (("find", name), *drawn_with(name)):
            ran = program.run(*words)
            report.holds(f"{' '.join(words)}: the file is named", is_named(ran, name), ran)
    ran = program.run("check", "first.edn", "second.edn")
    report.answers("check: both files are missing", ran, "", 4, "fcbench: cannot read first.edn\n")
    # A pipe into which nothing is written: a program that opens it waits.
    os.mkfifo(f"{program.folder}/never.edn")
    ran = program.run("check", "missing.edn", "never.edn")
    report.answers("check: the history is read first", ran, "", 4, "fcbench: cannot read missing.edn\n")
    os.remove(f"{program.folder}/never.edn")
    program.write("bad.edn", "007")
    ran = program.run("check", "bad.edn", "missing.edn")
    message = "fcbench: cannot read missing.edn\n"
    report.answers("check: files are read before anything is judged", ran, "", 4, message)
    secret = program.write("secret.edn", worked_rows.OVERLAPPING)
    os.chmod(f"{program.folder}/{secret}", 0)
    # The superuser may read every file, so then the program runs as another user.
    how = AS_NOBODY if os.geteuid() == 0 else {}
    for words in with_each_file(secret):
        ran = program.run(*words, **how)
        if words[0] in OF_TOOLS:
            report.holds(f"{' '.join(words)}, without permission: the file is named, and the cause", is_named(ran, secret), ran)
        else:
            report.answers(f"{' '.join(words)}, without permission", ran, "", 4, f"fcbench: cannot read {secret}\n")
    for words in (("find", secret), *drawn_with(secret)):
        ran = program.run(*words, **how)
        report.holds(f"{' '.join(words)}, without permission: the file is named", is_named(ran, secret), ran)


def each_read_fails(program, report, words, names, reads):
    """Lets each of the reads fail in turn: the file is named, and nothing is printed."""
    named = [f"fcbench: cannot read {name}\n".encode() for name in names]
    for at in range(1, reads + 1):
        ran = program.run(*words, faults={"FAIL_READ_AT": at})
        is_well = ran.status == 4 and ran.out == b"" and ran.err in named
        report.holds(f"{' '.join(words)}, read {at} of {reads} fails", is_well, ran)


def failing_reads(program, report):
    """If one read fails, whichever, its file is named and nothing is printed."""
    for words, files, out, status in proved_runs():
        for name, text in files:
            program.write(name, text)
        ran, _, reads = program.counts(*words)
        report.answers(f"{' '.join(words)}, with its reads counted", ran, out, status)
        report.holds(f"{' '.join(words)} reads each file to its end", reads >= 2 * len(files), reads)
        each_read_fails(program, report, words, [name for name, _ in files], reads)
        for name, text in files:
            # The middle of a text that comes byte by byte, so that what was read before is not empty.
            at = len(text) // 2 + sum(len(text_before) + 1 for other, text_before in files if other == HISTORY != name)
            ran = program.run(*words, faults={"READ_AT_MOST": 1, "FAIL_READ_AT": at})
            message = f"fcbench: cannot read {name}\n"
            report.answers(f"{' '.join(words)}, a read fails in the middle of {name}", ran, "", 4, message)


# Of a judgement the most reads of a process.
MOST_READS = 12


def failing_reads_of_tools(program, report):
    """If one read fails, whichever, in each process, find and draw name the file. judge ends with 4, or says what verify says with the evidence
    that came."""
    program.write(HISTORY, worked_rows.OVERLAPPING)
    whole = program.run("judge", HISTORY)
    report.answers("judge, with no read that fails", whole, worked_rows.THREE_YES, 0)
    for words in (("find", HISTORY), ("draw", HISTORY)):
        good = program.run(*words)
        # What the number of processors is comes from a file too.
        runs = [program.run(*words, faults={"FAIL_READ_AT": at}) for at in range(1, MOST_READS + 1)]
        are_well = [is_named(ran, HISTORY) or ran.status >= 3 and ran.out == b"" or (ran.status, ran.out) == (good.status, good.out) for ran in runs]
        report.equal(f"{words[0]}: runs in which a read fails, and that are wrong", [], [ran for ran, is_well in zip(runs, are_well) if not is_well])
        report.holds(f"{words[0]}: where it cannot be read the file is named", any(is_named(run, HISTORY) for run in runs), runs)
    failed = 0
    for at in range(1, MOST_READS + 1):
        for more in ({}, {"READ_AT_MOST": 1}):
            ran = program.run("judge", HISTORY, faults={"FAIL_READ_AT": at, **more})
            is_unread = (ran.status, ran.out) == (4, b"") and ran.err.startswith(b"fcbench: cannot read ")
            is_open = (ran.status, ran.out) == (3, b"; object 0: open\n") or ran.status == 70 and ran.out == b""
            is_well = is_unread or is_open or (ran.status, ran.out) == (whole.status, whole.out)
            report.holds(f"judge, read {at} of each process fails {more or ''}", is_well, ran)
            failed += is_unread
    report.holds("judge: some reads fail", failed > 0, failed)


def failing_reads_of_long_texts(program, report):
    """If one read of a long history fails, whichever, the file is named, with one worker and with several: no read is tried again."""
    maps = "".join(f"{{:process 0, :type :{event}, :f :write, :value {n}}}\n" for n in range(12_000) for event in ("invoke", "ok"))
    program.write(HISTORY, maps)
    program.write(CERTIFICATES, worked_rows.order(*range(0, 24_000, 2)))
    report.holds("a long history", len(maps) >= 1_000_000, len(maps))
    for workers in ("1", "4"):
        words = "check", HISTORY, CERTIFICATES, "--workers", workers
        ran, _, reads = program.counts(*words)
        report.answers(f"check, {workers} workers, a long history", ran, worked_rows.yes(12_000, 1, "register: 1 objects, 12000 operations"), 0)
        report.holds(f"check, {workers} workers: a long history comes in pieces", reads > 10, reads)
        each_read_fails(program, report, words, (HISTORY, CERTIFICATES), reads)


def in_pieces(program, report):
    """Texts that come in pieces, with pauses, get the usual answer, and so does an empty pipe."""
    for words, files, out, status in (run for run in good_runs() if run[0][0] != "judge"):
        for size in (1, 50):
            ran = through_pipes(program, files, words, size, 0.0002 * size)
            report.answers(f"{' '.join(words)}, through pipes in pieces of {size}", ran, out, status)
    ran = through_pipes(program, ((HISTORY, ""), (CERTIFICATES, "")), ("check", HISTORY, CERTIFICATES))
    report.answers("check: two empty pipes", ran, worked_rows.yes(0, 0), 0)
    # Two programs read the history of judge and draw, so it is no pipe.
    os.mkfifo(f"{program.folder}/pipe.edn")
    for words in (("judge", "pipe.edn"), ("draw", "pipe.edn"), ("judge", "-"), ("draw", "-")):
        message = f"fcbench: cannot read {words[1]}: it is read twice, so it must be a file and not a pipe\n"
        report.answers(f"{' '.join(words)}: a pipe", program.run(*words), "", 4, message)
    os.remove(f"{program.folder}/pipe.edn")


def with_zeros(program, name, length, first=b""):
    """Makes a file of n bytes, which are zero after the first ones. They take no room on the disk."""
    with open(f"{program.folder}/{name}", "wb") as file:
        file.write(first)
        file.truncate(length)


def too_long(program, report):
    """A text that is one byte too long, and a device that never ends, are refused before their bytes are looked at."""
    write_good(program)
    with_zeros(program, "long.edn", LONGEST + 1, b"\xff")
    for name in ("long.edn", "/dev/zero"):
        for command, *files in with_each_file(name):
            out, status = fault_of(command, "E10 at byte 0"), 2
            if files[-1] == name and len(files) == 2:
                second, status = SECOND_TEXTS[command]
                out = f"malformed {second}: E10 at byte 0\n"
            report.answers(f"{command} {' '.join(files)}", program.run(command, *files), out, status)
        ran = program.run("find", name)
        report.holds(f"find {name}", (ran.status, ran.out) == (2, b"") and b"malformed history" in ran.err, ran)
        for words in drawn_with(name):
            ran = program.run(*words)
            is_said = ran.status == 2 and b"The text is longer than 268,435,456 bytes." in ran.out and len(ran.out) < 20_000
            report.holds(f"{' '.join(words)}: the page", is_said, ran.out[-500:])
    # One byte fewer is read, and a zero byte is no token.
    with_zeros(program, "long.edn", LONGEST)
    ran = program.run("check", "long.edn", CERTIFICATES)
    report.answers("check: zeros of the greatest length", ran, "malformed history: E9 at byte 0\n", 2)
    os.remove(f"{program.folder}/long.edn")


def longest(program, report):
    """A history of the greatest length is read to its last byte, and so is evidence. One byte more is a fault."""
    text = worked_rows.OVERLAPPING.encode()
    head, _, last = text.rstrip(b"\n").rpartition(b"\n")
    program.write(CERTIFICATES, worked_rows.order(1, 0, 4))
    with open(f"{program.folder}/longest.edn", "wb") as file:
        file.write(head + b"\n" + b" " * (LONGEST - len(head) - 1 - len(last)) + last)
    ran = program.run("check", "longest.edn", CERTIFICATES)
    report.answers("check: a history of the greatest length", ran, worked_rows.THREE_YES, 0)
    with open(f"{program.folder}/longest.edn", "ab") as file:
        file.write(b" ")
    ran = program.run("check", "longest.edn", CERTIFICATES)
    report.answers("check: a history one byte longer", ran, "malformed history: E10 at byte 0\n", 2)
    program.write(HISTORY, worked_rows.OVERLAPPING)
    evidence = worked_rows.order(1, 0, 4).encode()
    with open(f"{program.folder}/longest.edn", "wb") as file:
        file.write(b" " * (LONGEST - len(evidence)) + evidence)
    ran = program.run("verify", HISTORY, "longest.edn")
    report.answers("verify: evidence of the greatest length", ran, worked_rows.THREE_YES, 0)
    with open(f"{program.folder}/longest.edn", "ab") as file:
        file.write(b" ")
    ran = program.run("verify", HISTORY, "longest.edn")
    report.answers("verify: evidence one byte longer", ran, "malformed evidence: E10 at byte 0\n", 3)
    os.remove(f"{program.folder}/longest.edn")


def same_file_twice(program, report):
    """One file can serve as both texts."""
    program.write(HISTORY, "")
    ran = program.run("check", HISTORY, HISTORY)
    report.answers("check: one file twice", ran, worked_rows.yes(0, 0), 0)


PARTS = (unreadable, failing_reads, failing_reads_of_tools, failing_reads_of_long_texts, in_pieces, too_long, longest, same_file_twice)
