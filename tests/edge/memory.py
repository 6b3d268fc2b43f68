"""Refuses each allocation of a run in turn. The run must say that it is out of memory, or answer as it does with ample memory. And
measures how much memory a search takes at most."""
import multiprocessing
import os
import re
import resource
import subprocess
import sys
from dataclasses import dataclass

from .verify import reasons, worked_evidence
from . import worked_rows
from .run import workloads
from .answers import is_accepted
from .worked_rows import HISTORY
from .running import EXAMPLES, OF_TOOLS, ROOT, SECONDS, Program, at_once

OUT = b"out of memory\n"
NO_MEMORY = 3
# Of texts of this length or more, only some allocations are refused.
LONG = 2000
# Of texts of this length or more, few are.
MIDDLING = 10_000
# Of one client, the same allocations are made each time.
ONE_CLIENT = ("run", "--clients", "1", "--calls", "3")


@dataclass(frozen=True)
class Case:
    """A command whose allocations are refused. With a stride of n, each nth is, and the first and the last ten."""

    name: str
    words: tuple
    files: tuple = ()
    stride: int = 1


@dataclass(frozen=True)
class Refusal:
    """One run of a case, in which the allocation of this number is refused."""

    program: Program
    words: tuple
    at: int
    whole: tuple


def of_row(row, *more, stride=1):
    """A case of a worked row, whose files are its own."""
    name = f"{row.name} {' '.join(more)}".strip()
    stem = "".join(letter if letter.isalnum() else "_" for letter in name)
    names = {file: f"{stem}.{file}" for file, _ in row.files()}
    words = (row.words[0], *more, *[names.get(word, word) for word in row.words[1:]])
    return Case(name, words, tuple((names[file], text) for file, text in row.files()), stride)


def examples():
    """Each command on each example. Most are like worked rows, so only some of their allocations are refused."""
    names = sorted(os.listdir(EXAMPLES))
    for name in names:
        stem, _, kind = name.partition(".")
        if kind == "schedule.edn":
            yield of_example("simulate", name)
        if kind == "reasons.edn":
            yield of_example("refute", f"{stem}.history.edn", name)
        if kind == "history.edn":
            for evidence in (f"{stem}.certificates.edn", f"{stem}.reasons.edn"):
                if evidence in names:
                    yield of_example("verify", name, evidence)
            if f"{stem}.certificates.edn" in names:
                yield of_example("check", name, f"{stem}.certificates.edn")
            # A search that never ends by itself would take all its steps at each refusal.
            few = ("--steps", "1000") if f"{stem}.reasons.edn" in names else ()
            yield of_example("search", *few, name)


def of_example(*words):
    """A case of a command on examples."""
    files = []
    for name in words:
        if name.endswith(".edn"):
            with open(f"{EXAMPLES}/{name}", "rb") as file:
                files.append((name, file.read()))
    # A recorded history is long, and has many like allocations.
    stride = 5 if all(len(text) < MIDDLING for _, text in files) else 200
    return Case(f"example: {' '.join(words)}", words, tuple(files), stride)


def cases():
    """Every allocation of each worked row of the proved program and of runs of two clients, and some of examples and of longer ones."""
    for row in worked_rows.ROWS + worked_evidence.ROWS:
        if len(row.texts[0]) < LONG and row.words[0] not in OF_TOOLS:
            yield of_row(row)
    for name, history, *_ in (row for row in worked_rows.NOT_LINEARIZABLE if len(row[1]) < LONG):
        yield of_row(worked_rows.verify(name, history, "{:object 0} {:object 3}", "", 1), stride=3)
    yield of_row(next(row for row in worked_rows.YES if row.texts[0] == worked_rows.TWO_QUEUES), "--workers", "4")
    yield Case(" ".join(ONE_CLIENT), ONE_CLIENT)
    for kind in workloads.KINDS_OF_A_RUN:
        words = ("run", "--kind", kind, "--clients", "2", "--calls", "3")
        yield Case(" ".join(words), words)
    # A client that stopped with an acquire outstanding would make the other one wait forever.
    words = ("run", "--kind", "mutex", "--clients", "2", "--calls", "4")
    yield Case(" ".join(words), words)
    yield from examples()
    words = ("run", "--clients", "1", "--calls", "20", "--objects", "5", "--kind", "mixed")
    yield Case(" ".join(words), words, stride=5)
    history = worked_rows.one_process(*[("insert", 1, 1)] * 200)
    yield of_row(worked_rows.check("a longer history", history, worked_rows.order(*range(0, 400, 2)), "", 0), stride=5)
    yield of_row(worked_rows.search("a longer history", history, "", 0), stride=5)
    yield Case("help", ("check", "--help"), stride=3)
    yield Case("refused words", ("check", "one word"), stride=3)


def chosen(count, stride):
    """The numbers of the allocations that are refused: every stride, and the first and the last ten."""
    return sorted({*range(1, count + 1, stride), *range(1, min(10, count) + 1), *range(max(1, count - 9), count + 1)})


def object_is_out_of_memory(whole, ran):
    """Whether a search answers as with ample memory of some objects, and of the others that it was out of memory."""
    before, after = whole.out.splitlines(), ran.out.splitlines()
    if len(before) != len(after) or before == after:
        return False
    lines_without_memory = [f"; object {at}: out of memory".encode() for at in range(len(after))]
    are_well = all(new in (old, without) for old, new, without in zip(before, after, lines_without_memory))
    has_impossible = any(line.endswith(b": impossible") for line in after)
    return are_well and ran.status == (1 if has_impossible else NO_MEMORY)


def is_out_of_memory(command, whole, ran):
    """Whether a run ended in the way in which its command says that an allocation failed."""
    if (ran.status, ran.out) == (NO_MEMORY, OUT):
        return True
    if command == "search":
        return object_is_out_of_memory(whole, ran)
    if command == "verify":
        # It tells only the objects of which no order is shown.
        lines = rb"(; object \d+: (out of memory|open|out of steps after \d+)\n)+"
        return ran.status == NO_MEMORY and re.fullmatch(lines, ran.out) is not None and b": out of memory\n" in ran.out
    if command == "refute":
        return ran.status == NO_MEMORY and b": not shown: out of memory\n" in ran.out
    if command in ("run", "simulate") and ran.status == NO_MEMORY:
        return ran.out.endswith(b"; " + OUT) or command == "run" and ran.out == b"no thread\n"
    return False


def is_other_reason(program, words, whole, ran):
    """Whether a verification or judgement says no as it does with ample memory, and for a reason that holds."""
    history = next(word for word in words if word.endswith(HISTORY))
    with open(f"{program.folder}/{history}") as file:
        history = file.read()
    return (whole.status, reasons.why_not_explained(program, history, ran)) == (1, None)


def is_other_run(program, words, whole, ran):
    """Whether clients were served in another way, since a call was refused or the threads took other turns.

    Then each client made its first calls, as many as it came to, and check accepts the history."""
    if words[0] == "simulate":
        before, after = [answer.out.replace(b":fail", b":ok").splitlines()[:3] for answer in (whole, ran)]
        return ran.status == 0 and before == after and is_accepted(program, ran.out)
    if words[0] != "run" or ran.status != 0:
        return False
    options = dict(zip(words[1::2], words[2::2]))
    number = lambda name, other: int(options.get(name, other))
    given = options.get("--kind", "queue"), number("--objects", 1), number("--clients", 2), number("--calls", 100), 0
    wanted, made = workloads.calls_of_all(*given), workloads.calls_in(ran.out)
    is_beginning = all(wanted[on][: len(of)] == of for on, of in made.items())
    return is_beginning and is_accepted(program, ran.out)


def has_pending_call(out):
    """Whether some call of a run has no completion."""
    return out.count(b":type :invoke") != out.count(b":type :ok") + out.count(b":type :fail")


def refuse(refusal):
    """Refuses one allocation. Returns whether the run was out of memory, what it printed, and the run itself if it is wrong."""
    whole, (command, *_) = refusal.whole, refusal.words
    ran = refusal.program.run(*refusal.words, faults={"REFUSE_AT": refusal.at})
    is_out = is_out_of_memory(command, whole, ran)
    is_same = (ran.status, ran.out, ran.err) == (whole.status, whole.out, whole.err)
    is_quiet = ran.err == b"" or ran.err == whole.err
    is_other = is_other_reason if command == "verify" else is_other_run
    is_well = is_quiet and (is_same or is_out or is_other(refusal.program, refusal.words, whole, ran))
    return is_out, ran.out, None if is_well else ran


def refused_memory(program, report):
    """Each chosen allocation of each case fails in a run of its own, which says that it is out of memory, or answers as usual."""
    tried = 0
    with multiprocessing.get_context("fork").Pool(os.cpu_count()) as pool:
        for case in cases():
            for name, text in case.files:
                program.write(name, text)
            whole, count, _ = program.counts(*case.words)
            report.holds(f"memory: {case.name}: with ample memory", whole.status >= 0 and count > 0, whole)
            numbers = chosen(count, case.stride)
            runs = pool.map(refuse, [Refusal(program, case.words, at, whole) for at in numbers], chunksize=4)
            for at, (_, _, wrong) in zip(numbers, runs):
                report.holds(f"memory: {case.name}: allocation {at} of {count} is refused", wrong is None, wrong)
            report.holds(f"memory: {case.name}: some run is out of memory", any(is_out for is_out, _, _ in runs))
            if case.words[0] == "search" and whole.out.startswith((b"{", b"; object")) and b"[]" not in whole.out:
                says = any(b": out of memory" in out for _, out, _ in runs)
                report.holds(f"memory: {case.name}: the search itself says that it is out of memory", says)
            if case.words == ONE_CLIENT:
                says = any(b":type :fail" in out for _, out, _ in runs)
                report.holds(f"memory: {case.name}: some call is refused, and fails in the history", says)
            if case.words[0] == "run":
                # The logs have room for all calls before the first one, so no client stops at a call.
                stopped = [at for at, (_, out, _) in zip(numbers, runs) if has_pending_call(out)]
                report.holds(f"memory: {case.name}: no client stops at a call", not stopped, stopped)
            tried += len(numbers)
    return f"{tried} allocations refused"


# Histories that the tools judge without memory: two that are linearizable, and two that are not.
OF_THE_TOOLS = (worked_rows.OVERLAPPING, worked_rows.TWO_QUEUES, worked_rows.THREE_VALUES, worked_rows.ONE_OF_TWO)
# How many allocations of each are refused, at most.
MOST_REFUSED = 60


def is_well_without_memory(program, command, whole, ran):
    """Whether the tools gave no wrong yes or no when an allocation of each of their processes failed. A program in Rust that is refused
    memory is ended by a signal, and one that is refused a thread ends with 101."""
    if ran.status not in (0, 1):
        return ran.status in (NO_MEMORY, 4, 70, 101) or ran.status < 0
    if (ran.status, ran.out) == (whole.status, whole.out):
        return True
    return command == "judge" and is_other_reason(program, (HISTORY,), whole, ran)


def refused_memory_of_tools(program, report):
    """An allocation of each process of judge, find, draw and import fails: the status is 0 or 1 only if the answer is right."""
    tried, ended = 0, set()
    for text in OF_THE_TOOLS:
        program.write(HISTORY, text)
        for command in OF_TOOLS:
            whole, count, _ = program.counts(command, HISTORY)
            numbers = sorted({*range(1, 11), *range(1, count + 1, max(1, count // MOST_REFUSED))})
            runs = at_once(lambda at: program.run(command, HISTORY, faults={"REFUSE_AT": at}), numbers)
            for at, ran in zip(numbers, runs):
                is_well = is_well_without_memory(program, command, whole, ran)
                report.holds(f"memory: {command}: allocation {at} of each process is refused: {text[:60]!r}", is_well, ran)
            tried += len(numbers)
            ended |= {ran.status for ran in runs}
    report.holds("memory: the tools end in several ways", len(ended) >= 3, ended)
    return f"{tried} allocations refused"


# A search takes at most this much memory beyond its text and operations.
MOST_KIB = 1 << 20
# In this many steps a search that kept all it has seen would take several times that memory.
STEPS = "150000"


def events_of(*calls):
    """The lines of calls that overlap: all are invoked, and then all return."""
    lines = []
    for kind in ("invoke", "ok"):
        for process, (f, value, reply) in enumerate(calls):
            shown = value if kind == "invoke" else reply
            lines.append(f"{{:process {process}, :type :{kind}, :f :{f}, :value {shown}}}")
    return lines


def piled_up(put, take, lost):
    """A history with much content: 1,900 calls that put a value of 13 digits each, 20 at once, and a last one that finds what never came.
    Whatever order the 20 have, no order is valid."""
    lines = []
    for k in range(1900):
        lines += events_of(put(k))
    lines += events_of(*[put(k) for k in range(1900, 1920)])
    for k in range(1920 if take else 0):
        lines += events_of(take(k))
    return "\n".join(lines + events_of(lost)) + "\n"


def large(k):
    return 1_000_000_000_000 + k


def puts(name):
    return lambda k: (name, large(k), large(k))


# What a search of these histories keeps is content. The first has 7,682 maps.
PILED_UP = {
    "queue": (puts("enqueue"), lambda k: ("dequeue", "nil", large(k)), ("dequeue", "nil", 7)),
    "stack": (puts("push"), None, ("pop", "nil", 7)),
    "heap": (puts("insert"), None, ("extract-min", "nil", 7)),
    "map": (lambda k: ("put", f"[{large(k)} {large(k)}]", "nil"), None, ("get", 7, 7)),
}


def limit_time():
    resource.setrlimit(resource.RLIMIT_CPU, (SECONDS, SECONDS))


def peak_of(program, *words):
    """The status of a run, and how much memory each of its processes had at most, in KiB."""
    quiet = {"stdin": subprocess.DEVNULL, "stdout": subprocess.DEVNULL, "stderr": subprocess.DEVNULL}
    run = subprocess.Popen(program.line(words), cwd=program.folder, preexec_fn=limit_time, **quiet)
    _, status, usage = os.wait4(run.pid, 0)
    run.returncode = os.waitstatus_to_exitcode(status)
    return run.returncode, usage.ru_maxrss


def bounded_memory(program, report):
    """A search forgets some of what it has seen before it takes more memory than it may."""
    highest = 0
    for kind, (put, take, lost) in PILED_UP.items():
        name = program.write(f"piled_up_{kind}.edn", piled_up(put, take, lost))
        for first in ("number", "return"):
            status, peak = peak_of(program, "search", "--first", first, "--steps", STEPS, name)
            report.holds(f"memory: search of a {kind} by {first}: status {status}", status in (1, 3))
            report.holds(f"memory: search of a {kind} by {first}: {peak} KiB", peak < MOST_KIB)
            highest = max(highest, peak)
        status, peak = peak_of(program, "judge", "--steps", STEPS, name)
        report.holds(f"memory: judge of a {kind}: status {status}", status in (1, 3))
        report.holds(f"memory: judge of a {kind}: {peak} KiB", peak < MOST_KIB)
        highest = max(highest, peak)
    return f"at most {highest >> 10} MiB"


def pushes_at_once(count):
    """A stack with a pending pop, this many pushes at once, and then twice a value that is popped though another is on
    top. No order is valid, since the pending pop takes one of these two at most."""
    lines = events_of(*[("push", k, k) for k in range(count)])
    for k in (100, 200):
        lines += events_of(("push", k, k)) + events_of(("push", k + 1, k + 1)) + events_of(("pop", "nil", k))
    pending = "{:process 99, :type :invoke, :f :pop, :value nil}"
    return "\n".join([pending, *lines]) + "\n"


# As many pushes have 67,108,864 sets of those that may be done.
AT_ONCE = 26


def bounded_memory_of_calls_at_once(program, report):
    """A judgement of many calls at once takes no more memory than it may."""
    name = program.write("pushes_at_once.edn", pushes_at_once(AT_ONCE))
    status, peak = peak_of(program, "judge", name)
    report.holds(f"memory: judge of {AT_ONCE} pushes at once: status {status}", status in (1, 3))
    report.holds(f"memory: judge of {AT_ONCE} pushes at once: {peak} KiB", peak < MOST_KIB)
    return f"{peak >> 10} MiB"


# A stack of 500,000 calls over 5 values, 8 of them at once, some failed and some pending. It stays open, and takes the most memory of all kinds.
LONG_STACK = ["--kind", "stack", "--calls", "500000", "--concurrency", "8", "--values", "5", "--fail", "0.05", "--info", "0.02", "--seed", "1"]
def bounded_memory_of_long_histories(program, report):
    """A judgement of a long history takes no more memory than it may, in addition to its text."""
    folder = f"{program.folder}/long_stack"
    os.makedirs(folder)
    subprocess.run([sys.executable, f"{ROOT}/bench/gen.py", "history", folder, *LONG_STACK], check=True, stdout=subprocess.DEVNULL)
    history = f"{folder}/history.edn"
    status, peak = peak_of(program, "judge", history)
    beyond = peak - (os.path.getsize(history) >> 10)
    report.holds(f"memory: judge of a long stack: status {status}", status in (0, 3))
    report.holds(f"memory: judge of a long stack: {beyond} KiB beyond its text", beyond < MOST_KIB)
    return f"{beyond >> 10} MiB beyond the text"


PARTS = (refused_memory, refused_memory_of_tools, bounded_memory, bounded_memory_of_calls_at_once, bounded_memory_of_long_histories)
