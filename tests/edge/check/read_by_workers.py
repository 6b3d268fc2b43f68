"""Long histories, which several workers read in pieces: the verdict is the same as with one worker, which reads the text in one piece.

The histories are those of bench/gen.py, so that the lines of a verdict are known from outside."""
import functools
import json
import os
import re
import subprocess
import sys

from ..running import ROOT, at_once

# The commands that read a history by workers. Of orders as evidence verify answers the lines of check where it is yes, or the history is malformed.
COMMANDS = ("check", "verify")
# With one worker a text is one piece.
WORKERS = ("1", "2", "3", "4", "7", "16")
# The words of bench/gen.py: six of the nine kinds with calls that fail or stay pending, as Jepsen writes; objects of which each has many operations;
# more calls at once than there are pieces, on objects of which each is called in a part of the history; and short maps of a single object.
HISTORIES = {
    "mixed": "--kind all --objects 30 --calls 8000 --concurrency 24 --processes 40 --time --index --fail 0.05 --info 0.02 --nemesis 0.02",
    "few objects": "--kind mixed --objects 5 --calls 10000 --concurrency 8 --fail 0.02 --info 0.01 --time",
    "at once": "--kind all --objects 200 --side-by-side 50 --calls 11000 --concurrency 300 --processes 300 --index",
    "one queue": "--kind queue --calls 12000 --concurrency 4 --unique --fill 0.6",
}
# A text that is shorter is read as a whole by any number of workers.
LEAST_LENGTH = 1_000_000
# The maps that a history may have.
MOST_MAPS = 1_000_000
# A process and an object that no generated history has.
OTHER = 1_000_000, 60_000


@functools.cache
def generated(program, name, words, seed):
    """A history of bench/gen.py with its certificates, and the lines of the verdict."""
    folder = f"{program.folder}/pieces {name}"
    os.makedirs(folder, exist_ok=True)
    generator = [sys.executable, f"{ROOT}/bench/gen.py", "history", folder, *words.split(), "--seed", str(seed)]
    subprocess.run(generator, check=True, stdout=subprocess.DEVNULL)
    texts = []
    for file in ("history.edn", "certs.edn", "expect.json"):
        with open(f"{folder}/{file}", encoding="utf-8") as text:
            texts.append(text.read())
    return texts[0], texts[1], json.loads(texts[2])["check"]


def same_with_each(program, report, name, history, certificates, workers=WORKERS):
    """The verdict is the same with each number of workers, of check and of verify. Returns the one of a single worker."""
    files = program.write("pieces.history.edn", history), program.write("pieces.certificates.edn", certificates)
    lines = [(command, *files, "--workers", worker) for command in COMMANDS for worker in workers]
    whole, *others = at_once(lambda words: program.run(*words), lines)
    report.holds(f"pieces: {name}: one worker", whole.status in (0, 2) and whole.out and not whole.err, whole)
    for (command, *_, count), ran in zip(lines[1:], others):
        report.equal(f"pieces: {name}: {command}: {count} workers", whole, ran)
    return whole


def in_all(history, certificates):
    """The same with one operation more, on an object of its own: it is the first map and the last one."""
    head, tail = (f"{{:process {OTHER[0]}, :type :{event}, :f :read, :value nil, :object {OTHER[1]}}}\n" for event in ("invoke", "ok"))
    orders_alone = re.sub(r":object (\d+), :order", r":object=\1 :order", certificates)
    later = re.sub(r"(?<=[\[ ])\d+(?=[\] ])", lambda entry: str(int(entry[0]) + 1), orders_alone).replace(":object=", ":object ")
    return head + history + tail, f"{later}{{:object {OTHER[1]}, :order [0]}}\n"


def each(lines, at, of, change):
    """The lines, of which every n-th is changed, from a place on."""
    return [change(line) if number >= at and number % of == 0 else line for number, line in enumerate(lines)]


def spellings(history):
    """Other texts of the same maps. After the place 2,000 a text is no longer tried before it is cut."""
    lines = history.splitlines()
    text = lambda those: "\n".join(those) + "\n"
    yield "no line feed at the end", history.rstrip("\n")
    yield "line ends of two characters", history.replace("\n", "\r\n")
    yield "two maps on a line", re.sub(r"\}\n(?=.*\n.*\n)", "} ", history, count=3_000)
    yield "pairs on lines", "\n".join(" ".join(lines[at : at + 2]) for at in range(0, len(lines), 2))
    yield "blank lines", text(each(lines, 0, 3, lambda line: f"\n \t,{line}\n"))
    yield "comments", text(each(lines, 0, 5, lambda line: f"; {{:process 0 \"[\n{line} ; }}]"))
    yield "some maps on two lines, late", text(each(lines, 2_000, 90, lambda line: line.replace(", :f", ",\n:f")))
    yield "all maps on two lines, late", text(each(lines, 2_000, 1, lambda line: line.replace(", :f", ",\n:f")))
    yield "all maps on two lines", text(each(lines, 0, 1, lambda line: line.replace(", :f", ",\n:f")))
    yield "strings with line feeds", text(each(lines, 2_000, 40, lambda line: line[:-1] + ', :note "a\n{:process 0}\nb"}'))
    yield "a string of many lines", text(each(lines, 0, 9_000, lambda line: line[:-1] + ', :note "' + "\n}" * 200_000 + '"}'))
    yield "keys in another order", text(each(lines, 0, 2, lambda line: re.sub(r"\{(:process \S+), (:type \S+),", r"{\2 \1", line)))


def valid_texts_in_pieces(program, report):
    """Valid histories, in several spellings, are judged yes with each number of workers, and counted as they were made."""
    for seed, (name, words) in enumerate(HISTORIES.items()):
        history, certificates, lines = generated(program, name, words, seed)
        report.holds(f"pieces: {name}: is long", len(history) >= LEAST_LENGTH, len(history))
        whole = same_with_each(program, report, name, history, certificates)
        report.answers(f"pieces: {name}: verdict", whole, lines, 0)
        operations, objects = (int(group) for group in re.match(r"yes: (\d+) operations, (\d+) objects", lines).groups())
        whole = same_with_each(program, report, f"{name}: an operation over all pieces", *in_all(history, certificates))
        report.holds(f"pieces: {name}: one more", whole.out.startswith(f"yes: {operations + 1} operations, {objects + 1} objects\n".encode()), whole)
        if name == "mixed":
            for spelling, text in spellings(history):
                whole = same_with_each(program, report, f"{name}: {spelling}", text, certificates)
                report.answers(f"pieces: {name}: {spelling}: verdict", whole, lines, 0)


def faults_at_seams(program, report):
    """Faults that no piece shows alone are named with their places: a busy process, an idle one, and an object of another kind."""
    history, certificates, _ = generated(program, "mixed", HISTORIES["mixed"], 0)
    history, certificates = in_all(history, certificates)
    maps = history.count("\n")
    process, on = OTHER
    late = {
        "a process that is busy": (f"{{:process {process}, :type :invoke, :f :read, :object {on}}}\n", maps - 1),
        "a reply to another function": (f"{{:process {process}, :type :ok, :f :write, :value 1, :object {on}}}\n", maps - 1),
        "a reply of another object": (f"{{:process {process}, :type :ok, :f :read, :object {on + 1}}}\n", maps - 1),
        "a process that is idle": (f"{{:process {process + 1}, :type :ok, :f :read, :object {on}}}\n", maps - 1),
        "an object of another kind": (f"{{:process {process + 1}, :type :invoke, :f :pop, :object {on}}}\n", maps - 1),
    }
    begun = history[: history.rindex("\n", 0, -1) + 1]
    for name, (line, at) in late.items():
        whole = same_with_each(program, report, name, begun + line, certificates)
        report.holds(f"pieces: {name}: place", whole.status == 2 and f" {at}".encode() in whole.out, whole)
    for more, status in ((0, 0), (1, 2)):
        count = MOST_MAPS - history.count("\n") + more
        whole = same_with_each(program, report, f"{MOST_MAPS + more} maps", history + "{:process :n}\n" * count, certificates, ("1", "2", "7"))
        report.equal(f"pieces: {MOST_MAPS + more} maps: status", status, whole.status, whole)


def judgements_of_long_texts(program, report):
    """judge gives the same answer with each number of workers: yes, no, and malformed. Both halves of it read by workers."""
    yes, _, lines = generated(program, "one queue", HISTORIES["one queue"], list(HISTORIES).index("one queue"))
    no = yes + "".join(f"{{:process {OTHER[0]}, :type :{event}, :f :dequeue, :value {value}}}\n" for event, value in (("invoke", "nil"), ("ok", -1)))
    for name, history, status in (("yes", yes, 0), ("no", no, 1), ("malformed", yes + "{:process 0}\n", 2)):
        report.holds(f"pieces: judge: {name}: is long", len(history) >= LEAST_LENGTH, len(history))
        file = program.write(f"{name}.history.edn", history)
        one, *others = at_once(lambda count: program.run("judge", file, "--workers", count), WORKERS)
        report.holds(f"pieces: judge: {name}: one worker", one.status == status and one.out and not one.err, one)
        for workers, ran in zip(WORKERS[1:], others):
            report.equal(f"pieces: judge: {name}: {workers} workers", one, ran)
        if status == 0:
            report.answers("pieces: judge: yes: verdict", one, lines, 0)


def long_texts_are_read_in_pieces(program, report):
    """Sixteen workers read a long text in pieces. The verdict does not show it, but the number of allocations does: several for each piece."""
    words = "--kind all --objects 12 --calls 5200 --concurrency 24 --processes 40 --time --index"
    history, certificates, lines = generated(program, "not long", words, 5)
    orders = program.write("pieces.certificates.edn", certificates)
    counted = []
    for command in COMMANDS:
        counts = {}
        for length in (LEAST_LENGTH - 1, LEAST_LENGTH):
            name = program.write("pieces.history.edn", history + ";" * (length - len(history) - 1) + "\n")
            for workers in ("1", "16"):
                ran, allocations, _ = program.counts(command, name, orders, "--workers", workers)
                report.answers(f"pieces: {command}: {length} bytes, {workers} workers", ran, lines, 0)
                counts[length, workers] = allocations
        few, many = (counts[LEAST_LENGTH + more, "16"] for more in (-1, 0))
        whole, alone = (counts[LEAST_LENGTH + more, "1"] for more in (-1, 0))
        report.holds(f"pieces: {command}: a long text is read in pieces by 16 workers", many >= few + 16 * 10, counts)
        report.holds(f"pieces: {command}: a long text is read in one piece by one", abs(alone - whole) < 10, counts)
        counted.append(f"{command}: {few} and {many} allocations")
    return "; ".join(counted)


PARTS = (valid_texts_in_pieces, faults_at_seams, judgements_of_long_texts, long_texts_are_read_in_pieces)
