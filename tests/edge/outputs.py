"""Output that fails, and threads that cannot be started."""
import os
import resource
import signal

from . import worked_rows
from .run import schedules
from .verify import worked_evidence
from .answers import MUTEX_TWICE
from .check.unreadable_files import AS_NOBODY, good_runs, proved_runs, write_good
from .worked_rows import CERTIFICATES, EVIDENCE, HISTORY
from .running import OF_TOOLS, at_once

RUN = ("run", "--clients", "2", "--calls", "5")


def commands():
    """The words of each command, on good files."""
    yield from (words for words, _, _, _ in good_runs())
    yield RUN
    yield ("--help",)
    yield ("draw", HISTORY)
    yield ("judge", "--help")


def is_failed(words, ran, out=b""):
    """Whether a run that printed only this ended as one whose output failed. The tools say why, and the proved program says nothing."""
    says = words[0] in ("--help", *OF_TOOLS)
    is_said = ran.err.startswith(b"fcbench: the output failed: ") if says else ran.err == b""
    return (ran.status, ran.out) == (4, out) and is_said


def failing_output(program, report):
    """A full device and a closed pipe give the status 4, and the proved program says nothing else."""
    write_good(program)
    for words in commands():
        with open("/dev/full", "wb") as full:
            ran = program.run(*words, stdout=full)
            report.holds(f"{' '.join(words)} > /dev/full", is_failed(words, ran), ran)
        for action in (signal.SIG_DFL, signal.SIG_IGN):
            reading, writing = os.pipe()
            os.close(reading)
            ran = program.run(*words, stdout=writing, preexec_fn=lambda: signal.signal(signal.SIGPIPE, action))
            os.close(writing)
            report.holds(f"{' '.join(words)} to a closed pipe, {action.name}", is_failed(words, ran), ran)


def output_cut_short(program, report):
    """If the output takes n bytes and then fails, exactly these bytes are written, and the status is 4."""
    program.write(HISTORY, worked_rows.ENQUEUE_DEQUEUE)
    program.write(CERTIFICATES, worked_rows.order(0, 2))
    whole = worked_rows.QUEUE_YES.encode()

    def limit(room):
        signal.signal(signal.SIGXFSZ, signal.SIG_IGN)
        resource.setrlimit(resource.RLIMIT_FSIZE, (room, room))

    for room in (0, 1, 20, len(whole) - 1):
        path = f"{program.folder}/output"
        with open(path, "wb") as file:
            ran = program.run("check", HISTORY, CERTIFICATES, stdout=file, preexec_fn=lambda: limit(room))
        with open(path, "rb") as file:
            wrote = file.read()
        expected, came = (4, whole[:room], b""), (ran.status, wrote, ran.err)
        report.equal(f"check: an output with room for {room} bytes", expected, came)


# Evidence whose answers are cut.
CLAIMS = (worked_rows.order(1, 0, 4), worked_rows.TWO_OF_THREE, worked_evidence.COUNTED, worked_evidence.WHOLE)


def cut_rows():
    """Rows whose outputs are cut after each of their bytes: findings, verifications, records, and one of each other command. In a judgement the
    output of the finder would be cut too."""
    rows = [row for row in worked_evidence.ROWS if row.words[0] == "verify" and row.texts[1] in (*CLAIMS, "7")]
    rows += [row for row in worked_rows.SIMULATIONS if row.texts[0] in (worked_rows.SERVED_BY_ANOTHER, "")]
    rows += [row for row in schedules.ROWS if row.out == schedules.TWO_CLIENTS]
    for row in (*worked_rows.FINDINGS, *rows):
        if len(row.texts[0]) < 2000:
            yield row.words, row.files(), row.out
    yield ("run", "--kind", "mutex", "--clients", "1", "--calls", "5"), (), MUTEX_TWICE
    for words, files, out, _ in proved_runs():
        if words[0] in ("check", "search", "refute"):
            yield words, files, out


def beginnings_of_output(program, report):
    """For each n, if the output takes n bytes in all, exactly these bytes are written, and the status is 4."""
    for words, files, out in cut_rows():
        for name, text in files:
            program.write(name, text)
        whole = out.encode()
        run = lambda room: program.run(*words, faults={"WRITE_IN_ALL": room})
        for room, ran in enumerate(at_once(run, range(len(whole)))):
            report.holds(f"{' '.join(words)}: {room} of {len(whole)} bytes", is_failed(words, ran, whole[:room]), ran)


def short_writes(program, report):
    """If the output takes a few bytes at a time, all are written."""
    for words, files, out, status in good_runs():
        for name, text in files:
            program.write(name, text)
        ran = program.run(*words, faults={"WRITE_AT_MOST": 3})
        report.answers(f"{' '.join(words)}, three bytes a write", ran, out, status)


def no_thread(program, report):
    """If no thread can be started, a run says so, and a check by several workers does all in its own thread."""
    program.write(HISTORY, worked_rows.TWO_QUEUES)
    program.write(CERTIFICATES, worked_rows.TWO_ORDERS)
    how = {"preexec_fn": lambda: resource.setrlimit(resource.RLIMIT_NPROC, (1, 1))}
    if os.geteuid() == 0:
        # The superuser may start any number.
        how.update(AS_NOBODY)
    report.answers("run: no thread can be started", program.run(*RUN, **how), "no thread\n", 3)
    one = program.run("run", "--clients", "1", "--calls", "0", **how)
    report.answers("run: one client needs no thread", one, "; yes: 0 operations, 0 objects\n", 0)
    ran = program.run("check", "--workers", "2", HISTORY, CERTIFICATES, **how)
    report.answers("check: no thread can be started", ran, worked_rows.QUEUES_YES, 0)
    program.write(EVIDENCE, worked_rows.TWO_ORDERS)
    report.answers("verify: no thread can be started", program.run("verify", HISTORY, EVIDENCE, **how), worked_rows.QUEUES_YES, 0)
    ran = program.run("judge", HISTORY, **how)
    message = b"fcbench: the verifier cannot be started: "
    report.holds("judge: no process can be started", (ran.status, ran.out) == (70, b"") and ran.err.startswith(message), ran)


PARTS = (failing_output, output_cut_short, beginnings_of_output, short_writes, no_thread)
