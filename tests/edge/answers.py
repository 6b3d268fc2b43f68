"""What the commands answer: worked rows and examples, however the bytes of the files come."""
import os
import threading
import time

from .check import malformed_texts
from .judge import orders_to_find
from . import worked_rows
from .run import schedules, workloads
from .verify import worked_evidence
from .worked_rows import CERTIFICATES, HISTORY
from .running import EXAMPLES, OF_TOOLS, at_once
from .text_writers import certificate, invoke, lines, ok


# Two calls each of acquire and release, and no fifth.
MUTEX_TWICE = lines(
    *[event for f in ("acquire", "release") * 2 for event in (invoke(0, f, None, 0), ok(0, f, None, 0))],
    "; {:object 0, :order [0 2 4 6]}",
    "; yes: 4 operations, 1 objects",
    "; mutex: 1 objects, 4 operations",
)


def in_files(program, report, row, *more, **how):
    """Runs a row on plain files."""
    for name, text in row.files():
        program.write(name, text)
    ran = program.run(row.words[0], *more, *row.words[1:], **how)
    report.answers(" ".join((row.name, *more, str(how or ""))).strip(), ran, row.out, row.status)


def feed(path, text, size, pause=0.0):
    """Writes a text to a named pipe, in pieces."""
    try:
        with open(path, "wb", buffering=0) as pipe:
            for at in range(0, len(text), size):
                pipe.write(text[at : at + size])
                time.sleep(pause)
    except BrokenPipeError:
        # The program has read enough.
        pass


def end_feeder(path, feeder):
    """Waits for the feeder of a named pipe. Where the program did not open the pipe, this does, so that the feeder ends."""
    while feeder.is_alive():
        os.close(os.open(path, os.O_RDONLY | os.O_NONBLOCK))
        feeder.join(0.01)
    os.remove(path)


def through_pipes(program, files, words, size=7, pause=0.0, **how):
    """Runs the program while its files are named pipes, which are fed in pieces of n bytes."""
    threads = []
    for name, text in files:
        path = f"{program.folder}/{name}"
        if os.path.exists(path):
            os.remove(path)
        os.mkfifo(path)
        text = text if isinstance(text, bytes) else text.encode()
        threads.append(threading.Thread(target=feed, args=(path, text, size, pause)))
    for thread in threads:
        thread.start()
    ran = program.run(*words, **how)
    for (name, _), thread in zip(files, threads):
        end_feeder(f"{program.folder}/{name}", thread)
    return ran


def answers_of_worked_rows(program, report):
    """Runs each row on plain files, with reads of one byte, and on named pipes; a row of check also with four workers. The tools read a
    history twice, so they get no pipe."""
    for row in worked_rows.ROWS + worked_evidence.ROWS:
        in_files(program, report, row)
        if row.words[0] == "check":
            in_files(program, report, row, "--workers", "4")
        if len(row.texts[0]) < 2000:
            in_files(program, report, row, faults={"READ_AT_MOST": 1})
        if len(row.texts[0]) < 2000 and row.words[0] not in OF_TOOLS:
            ran = through_pipes(program, row.files(), row.words)
            report.answers(f"{row.name} (through pipes)", ran, row.out, row.status)


def rows_of_tables(program, report):
    """Runs the rows with malformed texts, orders, counts of steps and schedules, on plain files; a row of check also with two workers."""
    for row in malformed_texts.ROWS + orders_to_find.ROWS + worked_rows.STEPS + schedules.ROWS:
        in_files(program, report, row)
        if row.words[0] == "check":
            in_files(program, report, row, "--workers", "2")


def every_number_of_workers(program, report):
    """check, verify and judge give the same answer with 1 to 16 workers. verify gets the certificates as evidence, and says yes if check does."""
    for number, (history, certificates, out) in enumerate(orders_to_find.OF_ALL_WORKERS):
        first = program.write(f"shared.{number}.history.edn", history)
        second = program.write(f"shared.{number}.certificates.edn", certificates)
        said, status = " ".join(certificates.split()), orders_to_find.STATUSES[out[:3]]
        for words in (("check", first, second), ("verify", first, second), ("judge", first)):
            one, *others = at_once(lambda workers: program.run(*words, "--workers", str(workers)), range(1, 17))
            if words[0] == "check" or status == 0:
                report.answers(f"{words[0]}: 1 workers: {said}", one, out, status)
            for workers, ran in enumerate(others, 2):
                report.equal(f"{words[0]}: {workers} workers: {said}", one, ran)


def found_orders_are_valid(program, report):
    """If check says yes to a row, judge does too, and check also says yes by the orders that search and find print."""
    for row in worked_rows.YES:
        history = program.write(HISTORY, row.texts[0])
        report.answers(f"judge alone: {row.name}", program.run("judge", "--steps", "0", history), row.out, 0)
        for command in ("search", "find"):
            found = program.run(command, history)
            ran = program.run("check", history, program.write(CERTIFICATES, found.out))
            report.equal(f"{command} finds an order: {row.name}", (0, b""), (found.status, found.err))
            report.answers(f"what {command} found is valid: {row.name}", ran, row.out, 0)


def long_history(program, report):
    """A million maps are read, and one more is a fault."""
    pair = lines(invoke(0, "enqueue", 1), ok(0, "enqueue", 1))
    program.write(HISTORY, pair * 500_000)
    program.write(CERTIFICATES, lines(certificate(0, *range(0, 1_000_000, 2))))
    ran = program.run("check", HISTORY, CERTIFICATES)
    out = worked_rows.yes(500000, 1, "queue: 1 objects, 500000 operations")
    report.answers("check: a million maps", ran, out, 0)
    program.write(HISTORY, pair * 500_000 + lines(invoke(0, "enqueue", 1)))
    ran = program.run("check", HISTORY, CERTIFICATES)
    report.answers("check: a million maps and one", ran, "malformed history: H9 at map 1000000\n", 2)


def maps_of_no_client(program, report):
    """A history has at most a million maps, of which those of no client count too."""
    other, others = "{:process :x}\n", "{:process :x}\n" * 999_999
    popped = lines(certificate(0, 999_999)), worked_rows.yes(1, 1, "stack: 1 objects, 1 operations")
    for last, certificates, out in (("{:process :nemesis}", "", worked_rows.yes(0, 0)), ("{:process 0 :type :invoke :f :pop}", *popped)):
        program.write(CERTIFICATES, certificates)
        program.write(HISTORY, others + last)
        report.answers(f"check: {last} after 999,999 maps", program.run("check", HISTORY, CERTIFICATES), out, 0)
        program.write(HISTORY, others + other + last)
        ran = program.run("check", HISTORY, CERTIFICATES)
        report.answers(f"check: {last} after a million maps", ran, "malformed history: H9 at map 1000000\n", 2)


def beginnings(program, report):
    """Each prefix of a history, and of its certificates, gets an answer: a line, and the status that belongs to it."""
    history, certificates = worked_rows.TWO_QUEUES, worked_rows.TWO_ORDERS
    statuses = {b"yes: ": 0, b"no: C": 1, b"malfo": 2}

    def run(cut):
        of_history, of_certificates = cut
        first = program.write(f"beginning.{of_history}.{of_certificates}.edn", history[:of_history])
        second = program.write(f"orders.{of_history}.{of_certificates}.edn", certificates[:of_certificates])
        return program.run("check", first, second)

    cuts = [(number, len(certificates)) for number in range(len(history) + 1)]
    cuts += [(len(history), number) for number in range(len(certificates))]
    for cut, ran in zip(cuts, at_once(run, cuts)):
        is_well = statuses.get(ran.out[:5]) == ran.status and ran.err == b"" and ran.out.endswith(b"\n")
        report.holds(f"check: the first {cut[0]} and {cut[1]} bytes of the texts of two queues", is_well, ran)


def examples(program, report):
    """Each example gets the answer in the file beside it, and the order or reason that is found for it is valid."""

    def expected(name):
        with open(f"{EXAMPLES}/{name}") as file:
            text = file.read()
        out, _, status = text.rstrip("\n").rpartition("status ")
        return out, int(status)

    def answers(words, name):
        out, status = expected(name)
        report.answers(f"example {name}: {' '.join(words)}", program.run(*words), out, status)

    names = sorted(name for name in os.listdir(EXAMPLES) if os.path.isfile(f"{EXAMPLES}/{name}"))
    for name in names:
        with open(f"{EXAMPLES}/{name}", "rb") as file:
            program.write(name, file.read())
    for name in names:
        stem, _, kind = name.partition(".")
        if kind == "certificates.edn":
            name = f"{stem}.history.edn"
            texts = name, f"{stem}.certificates.edn"
            answers(("check", *texts), f"{stem}.expected")
            answers(("check", "--workers", "4", *texts), f"{stem}.expected")
            if expected(f"{stem}.expected")[1] == 0:
                for command in ("search", "find"):
                    found = program.run(command, name)
                    program.write(CERTIFICATES, found.out)
                    report.equal(f"example {stem}: {command}", 0, found.status, found)
                    answers(("check", name, CERTIFICATES), f"{stem}.expected")
        elif kind == "schedule.edn":
            answers(("simulate", name), f"{stem}.expected")
        elif kind == "judged":
            answers(("judge", f"{stem}.history.edn"), name)
        elif kind == "refuted":
            answers(("refute", f"{stem}.history.edn", f"{stem}.reasons.edn"), name)
    report.holds("there are examples", len(names) > 60, names)


def runs(program, report):
    """Runs of clients: the calls of each are its workload, and check says yes to the lines with the certificates."""
    nothing = program.run("run", "--calls", "0")
    report.answers("run: no call", nothing, "; yes: 0 operations, 0 objects\n", 0)
    for kind in workloads.KINDS_OF_A_RUN:
        words = ("run", "--kind", kind, "--clients", "1", "--calls", "50", "--objects", "5", "--seed", "7")
        out = workloads.output_of_one_client(kind, objects=5, calls=50, seed=7)
        report.answers(" ".join(words), program.run(*words), out, 0)
    ran = program.run("run", "--clients", "1", "--seed", str(2**64 - 1))
    report.answers("run: the largest seed", ran, workloads.output_of_one_client("queue", 1, 100, 2**64 - 1), 0)
    ran = program.run("run", "--kind", "mutex", "--clients", "1", "--calls", "5")
    report.answers("run: an odd number of calls on a mutex", ran, MUTEX_TWICE, 0)
    ran = program.run("run", "--kind", "stack", "--clients", "1", "--calls", "2")
    report.answers("run: two calls on a stack", ran, workloads.output_of_one_client("stack", 1, 2, 0), 0)
    for words, asked in runs_asked():
        is_well_run(program, report, words, *asked)


def runs_asked():
    """The words of runs of several clients, with the kind, the numbers of objects, clients and calls, and the seed that they ask for."""
    yield (), ("queue", 1, 2, 100, 0)
    yield ("--",), ("queue", 1, 2, 100, 0)
    asked = [(kind, *of) for kind in workloads.KINDS_OF_A_RUN for of in ((1, 2, 100, 0), (1, 4, 20, 0), (16, 32, 10, 0), (3, 4, 20, 7))]
    for of in (*asked, ("mixed", 16, 32, 200, 3), ("mutex", 1, 8, 100, 0)):
        names = ("--kind", "--objects", "--clients", "--calls", "--seed")
        yield tuple(str(part) for pair in zip(names, of) for part in pair), of


def is_well_run(program, report, words, kind, objects, clients, calls, seed):
    """Runs clients, and looks at what is printed."""
    ran = program.run("run", *words)
    name = " ".join(("run", *words))
    report.equal(f"{name}: status", (0, b""), (ran.status, ran.err))
    made = workloads.calls_of_all(kind, objects, clients, calls, seed)
    report.holds(f"{name}: each client makes its calls in order", workloads.calls_in(ran.out) == made, ran.out[-300:])
    report.holds(f"{name}: check gives the verdict that it ends with", is_accepted(program, ran.out), ran.out[-300:])
    all_made = [line for of in made.values() for line in of]
    on = {line.rpartition(":object ")[2] for line in all_made}
    counts = lines(f"; yes: {len(all_made)} operations, {len(on)} objects").encode()
    if kind == "mixed":
        report.holds(f"{name}: its calls are counted", counts in ran.out, ran.out[-300:])
    else:
        counts += lines(f"; {kind}: {len(on)} objects, {len(all_made)} operations").encode()
        report.equal(f"{name}: its calls are counted", counts, ran.out[-len(counts) :])


def long_run(program, report):
    """A run with the greatest number of each option."""
    words = ("--seed", str(2**64 - 1), "--kind", "mixed", "--calls", "10000", "--clients", "32", "--objects=16")
    is_well_run(program, report, words, "mixed", 16, 32, 10_000, 2**64 - 1)


def is_accepted(program, output):
    """Whether check gives the verdict that ends the output of a run, on the history and the certificates in it."""
    texts = output.decode().splitlines()
    history = [text for text in texts if not text.startswith(";")]
    certificates = [text[2:] for text in texts if text.startswith("; {")]
    comments = [text[2:] for text in texts if text.startswith("; ") and not text.startswith(("; {", "; refused steps"))]
    stem = f"accepted.{os.getpid()}.{threading.get_ident()}"
    first = program.write(f"{stem}.history.edn", lines(*history))
    second = program.write(f"{stem}.certificates.edn", lines(*certificates))
    ran = program.run("check", first, second)
    return (ran.status, ran.out.decode()) == (0, lines(*comments))


PARTS = (answers_of_worked_rows, rows_of_tables, every_number_of_workers, found_orders_are_valid, examples, runs)
LONG_PARTS = (long_history, maps_of_no_client, beginnings, long_run)
