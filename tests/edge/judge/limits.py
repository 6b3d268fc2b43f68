"""Judgements that are stopped, by --seconds or by SIGTERM: judge answers by what was found until then, and never gives a wrong yes or no."""
import itertools
import os
import re
import signal
import subprocess
import time

from .. import text_writers
from ..worked_rows import yes
from ..running import SECONDS, Ran, at_once
from ..terminals import on_terminal
from ..verify import worked_evidence
from .bad_finders import FEW, Judged, finder, is_gone, why_wrong

# A search of one object tries some 100,000 orders, so that of all of them takes many seconds of one worker.
WRITES, OBJECTS = 14, 300


def register(on):
    """The maps of a register that has one order, which is hard to find: of writes at once the one that returned first is the last, since none of
    the other values was there when they were looked for."""
    process = on * 100
    invocations = [text_writers.invoke(process + value, "write", value, on) for value in range(WRITES)]
    completions = [text_writers.ok(process + value, "write", value, on) for value in range(WRITES)]
    looked = [
        call
        for value in range(WRITES - 1, 0, -1)
        for call in (text_writers.invoke(process, "cas", (value, -1), on), text_writers.ok(process, "cas", False, on))
    ]
    return [*invocations, *completions, *looked]


def long_history(first):
    """A text of many such registers, and before them an object 0 of these maps."""
    return first + text_writers.lines(*[event for on in range(1, OBJECTS) for event in register(on)])


YES = text_writers.lines(text_writers.invoke(0, "enqueue", 1, 0), text_writers.ok(0, "enqueue", 1, 0))
LONG = (Judged("a long history", long_history(YES), 3, ""), Judged("a long history that is wrong", long_history(worked_evidence.TWICE), 1, ""))
DONE = rb"objects done: (\d+) of (\d+), after \d+ s\n"
STOPPED = b"fcbench: the finder is stopped\n"
WARNING = rb"fcbench: warning: .*\n"


def started(program, *words, env=None):
    """Starts a command, of a group of processes of its own."""
    own = {name: value for name, value in os.environ.items() if name not in ("FCBENCH", "FCBENCH_FINDER")}
    return subprocess.Popen(program.line(words), stdin=subprocess.DEVNULL, stdout=subprocess.PIPE, stderr=subprocess.PIPE,
                            env={**own, **(env or {})}, cwd=program.folder, start_new_session=True)


def ended(child):
    """What a command gave that was started."""
    out, err = child.communicate(timeout=SECONDS)
    return Ran(child.returncode, out, re.sub(WARNING, b"", err))


def by_option(program, path, seconds):
    """A judgement that is stopped by an option after some seconds. One worker takes the objects in turn."""
    return ended(started(program, "judge", "--workers", "1", "--seconds", str(seconds), path))


def by_signal(send):
    """The same by a signal."""
    def stopped(program, path, seconds):
        child = started(program, "judge", "--workers", "1", path)
        time.sleep(seconds)
        send(child)
        return ended(child)
    return stopped


# What stops a judgement. timeout sends the signal to all processes of the judgement.
STOPS = {
    "--seconds": by_option,
    "SIGTERM": by_signal(subprocess.Popen.terminate),
    "SIGTERM to all": by_signal(lambda child: os.killpg(child.pid, signal.SIGTERM)),
}
# The limits that are tried in turn, in seconds: on a slow machine the first ones may be over before anything is found.
LIMITS = (1, 2, 4, 8, 16)


def with_enough(run, is_enough):
    """What a run gives with the least of the limits that leaves it enough time."""
    for seconds in LIMITS:
        ran = run(seconds)
        if is_enough(ran):
            break
    return ran


def done_in(ran):
    """How many objects were done in a judgement that was stopped, and how many there are, as it says."""
    match = re.fullmatch(b"fcbench: stopped, " + DONE, ran.err)
    return (int(match[1]), int(match[2])) if match else (0, None)


def stopped_searches(program, report):
    """If a long search is stopped, the objects that it reached are decided, and the others are open."""
    most = 0
    for (number, history), (name, stop) in itertools.product(enumerate(LONG), STOPS.items()):
        path = program.write(f"stopped.{number}.edn", history.text)
        ran = with_enough(lambda seconds: stop(program, path, seconds), lambda ran: done_in(ran)[0] > 0)
        name = f"judge: {name}: {history.name}"
        done, objects = done_in(ran)
        report.equal(f"{name}: standard error", OBJECTS, objects, ran)
        most = max(most, done)
        report.holds(f"{name}: some objects were done, and some were not", 0 < done < OBJECTS, ran)
        report.equal(f"{name}: the status", history.status, ran.status, ran)
        report.equal(f"{name}: the answer", None, why_wrong(program, history, ran))
        open_objects = [int(on) for on in re.findall(rb"; object (\d+): open\n", ran.out)]
        report.equal(f"{name}: the objects that are open", list(range(done, OBJECTS)), open_objects, ran)
    return f"at most {most} of {OBJECTS} objects were done"


def stopped_finds(program, report):
    """find writes whole lines of what it has, and says how much that is. A limit that is not reached changes nothing."""
    path = program.write("stopped.edn", LONG[0].text)
    stop = lambda seconds: ended(started(program, "find", "--workers", "1", "--seconds", str(seconds), path))  # noqa: E731
    ran = with_enough(stop, lambda ran: ran.out)
    match = re.fullmatch(b"; stopped, " + DONE, ran.err)
    is_whole = re.fullmatch(rb"({:object \d+, :order \[[\d ]+\]}\n)+", ran.out)
    report.holds("find: --seconds", ran.status == 3 and match and is_whole and ran.out.count(b"\n") == int(match[1]), ran)
    one, none = program.write("one.edn", text_writers.lines(*register(0))), program.write("none.edn", "")
    calls = 2 * WRITES - 1
    report.answers(
        "judge: a limit that is not reached",
        program.run("judge", "--seconds", "100", one),
        yes(calls, 1, f"register: 1 objects, {calls} operations"),
        0,
    )
    report.answers("judge: a limit, and no object", program.run("judge", "--seconds", "1", none), yes(0, 0), 0)


# How a finder goes on after its evidence.
GOING_ON = {
    "it sleeps": "exec sleep 1000",
    "it takes no notice of SIGTERM": "trap '' TERM; while :; do sleep 0.1; done",
}


def stopped_finders(program, report):
    """Other finders are stopped too, and what they wrote is judged."""
    def stopped(case):
        (number, (name, script)), (at, history) = case
        path = finder(
            program,
            f"stopped.{number}.{at}",
            f'echo $$ > "$evidence.pid"\ncat "$evidence"\necho > "$evidence.told"\n{script}',
            history.evidence,
        )
        text = program.write(f"stopped.{number}.{at}.history.edn", history.text)
        stop = lambda seconds: ended(started(program, "judge", "--seconds", str(seconds), text, env={"FCBENCH_FINDER": path}))  # noqa: E731
        ran = with_enough(stop, lambda _: os.path.exists(f"{path}.edn.told"))
        return f"judge: --seconds: {name}: {history.name}", history, ran, is_gone(f"{path}.edn.pid")

    for name, history, ran, gone in at_once(stopped, itertools.product(enumerate(GOING_ON.items()), enumerate(FEW))):
        report.equal(f"{name}: the status", history.status, ran.status, ran)
        report.equal(f"{name}: standard error", STOPPED, ran.err)
        report.holds(f"{name}: the finder is gone", gone)


def told_in(ran):
    """What a judgement tells on a terminal: objects that are done, of how many, and after how many seconds."""
    lines = re.findall(rb"fcbench: (?:stopped, )?objects done: (\d+) of (\d+), after (\d+) s\r\n", ran.err)
    return [tuple(map(int, numbers)) for numbers in lines]


def is_in_time(ran):
    """Whether it is told after 2 and 4 seconds, and at the end. The finder begins a little later than judge, whose limit it is."""
    times = [at for _, _, at in told_in(ran)]
    return len(times) == 3 and times[:2] == [2, 4] and 4 <= times[2] <= 6


# How often it is tried whether it is told in time: other work on the machine may only delay it.
TRIES = 5


def progress(program, report):
    """On a terminal judge says how many objects are done, after 2 and 4 seconds; elsewhere it does not."""
    path = program.write("progress.edn", LONG[0].text)
    words = ("judge", "--workers", "1", "--seconds", "6", path)
    for _ in range(TRIES):
        ran, _ = on_terminal(program, words)
        if is_in_time(ran):
            break
    done = [count for count, _, _ in told_in(ran)]
    report.holds("judge: progress on a terminal: its times", is_in_time(ran), ran)
    report.equal("judge: progress on a terminal: all objects", {OBJECTS}, {all_objects for _, all_objects, _ in told_in(ran)}, ran)
    report.holds("judge: progress on a terminal: it rises", done == sorted(done) and done[:1] < done[-1:], ran)
    report.equal("judge: no progress elsewhere", 1, ended(started(program, *words)).err.count(b"objects done: "))


PARTS = (stopped_searches, stopped_finds, stopped_finders, progress)
