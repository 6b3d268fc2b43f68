"""Compares what two builds print, byte for byte: each command on many histories, with certificates, evidence and reasons that are right and spoilt.
The script tests/same_verdicts runs it with --bytes."""
import concurrent.futures
import gzip
import os
import random
import re
import shutil
import subprocess
import tempfile
from dataclasses import dataclass, field

from . import worked_rows
from .check import malformed_texts
from .judge import imported_texts, orders_to_find
from .run import schedules
from .running import EXAMPLES, PROGRAM_OF
from .verify import worked_evidence
from .worked_rows import CERTIFICATES, EVIDENCE, HISTORY, REASONS, SCHEDULE

COMMANDS = tuple(PROGRAM_OF)
# A run that takes longer hangs.
SECONDS = 1800
# Of standard error, and of what differs, this much is told.
ERRORS_TOLD, MOST_TOLD = 10, 300
# How many texts are spoilt of each sort for a history that is alone or long. For others each spoiling is tried.
FEW, LONG = 2, 200_000
SHARDS, NAMES_FILE = 3, "names.edn"
# With several clients the lines of a run depend on the threads.
RUNS = (
    ("--calls", "0"),
    ("--clients", "1"),
    ("--clients", "1", "--calls", "7", "--kind", "mutex"),
    *(("--clients", "1", "--calls", "50", "--objects", "5", "--seed", "7", "--kind", kind) for kind in ("queue", "heap", "map", "lock", "mixed")),
    ("--clients", "0"),
    ("--kind", "drawer"),
)
# A reason for a history of which none is known.
ANY_REASON = b'{:object 0, :cuts [{:keep [1], :numbers [0 2]} {:until 9}], :search {:first :return, :steps 100}}\n{:object 0, :cuts []}\n'


@dataclass(frozen=True)
class History:
    """A history by its name, with what is known of it. `few` says that only some spoilt texts are tried."""

    name: str
    text: bytes
    certificates: bytes = None
    reasons: bytes = None
    few: bool = False


@dataclass(frozen=True)
class Said:
    """What a run gave: its status, its output and the files that it made. Standard error is compared apart."""

    status: int
    out: bytes
    made: dict
    err: bytes = field(compare=False)


def text_of(path):
    """The bytes of a file, which may be compressed."""
    with (gzip.open if path.endswith(".gz") else open)(path, "rb") as file:
        return file.read()


def reasons_in(out):
    """The reasons that a judgement prints."""
    return b"".join(re.findall(rb"^; (\{:object .*\n)", out, re.M))


# ---- the builds


class Build:
    """A checkout, or a program or script that takes the words of ./fcbench. Of a checkout the verifier is the proved one if that is there and
    current, or else one without proofs; what is missing is built, as ./fcbench --quick does. Its tools/fcbench.sh knows which program has which
    command."""

    def __init__(self, path):
        own = ("FCBENCH", "FCBENCH_BENCH", "FCBENCH_TOOLS", "FCBENCH_FINDER")
        self.env = {name: value for name, value in os.environ.items() if name not in own}
        top = os.path.realpath(path)
        self.words = [top]
        if os.path.isdir(top):
            subprocess.run([f"{top}/tools/build"], check=True)
            self.words = [f"{top}/tools/fcbench.sh"]
            self.env.update(FCBENCH_TOOLS=f"{top}/tools/out/fcbench-tools", FCBENCH=self.built(top, "verifier"))
            if os.path.exists(f"{top}/crates/verifier"):
                self.env.update(FCBENCH_BENCH=self.built(top, "bench"))
        self.label = self.env.get("FCBENCH", top)

    @staticmethod
    def built(top, what):
        """A program of a checkout. Before there were two proved programs, the one had all commands."""
        has_two = os.path.exists(f"{top}/crates/verifier")
        crate, words = ("verifier" if has_two and what == "verifier" else "fcbench"), ([what] if has_two else [])
        if not subprocess.run([f"{top}/crates/build", "--is-proved", *words]).returncode:
            return f"{top}/crates/{crate}/out/{crate}"
        subprocess.run([f"{top}/crates/build", "--unproved", *words], check=True)
        return f"{top}/crates/{crate}/out/unproved"

    def run(self, words, folder):
        return subprocess.run([*self.words, *words], cwd=folder, env=self.env, stdin=subprocess.DEVNULL, capture_output=True, timeout=SECONDS)


class Place:
    """A folder in which both builds run, one after the other, so that what names files names the same ones. It knows what it has."""

    def __init__(self, folder):
        self.folder, self.has = folder, {}

    def put(self, files):
        """Makes these the files of the folder."""
        for name in [name for name, text in self.has.items() if files.get(name) is not text]:
            os.remove(f"{self.folder}/{name}")
            del self.has[name]
        for name, text in files.items():
            if name not in self.has:
                os.makedirs(os.path.dirname(f"{self.folder}/{name}"), exist_ok=True)
                with open(f"{self.folder}/{name}", "wb") as file:
                    file.write(text)
                self.has[name] = text

    def take(self):
        """Takes away the files that a run made, and folders without files."""
        made = {}
        for base, _, names in os.walk(self.folder, topdown=False):
            for path in (f"{base}/{name}" for name in names):
                name = os.path.relpath(path, self.folder)
                if name not in self.has:
                    made[name] = text_of(path)
                    os.remove(path)
            if base != self.folder and not os.listdir(base):
                os.rmdir(base)
        return made

    def run(self, build, words, files):
        self.put(files)
        ran = build.run(words, self.folder)
        return Said(ran.returncode, ran.stdout, self.take(), ran.stderr)


def told(old, new):
    """What differs, in a few words: the first byte of the output, or of a file, that does, and what follows."""
    if old.status != new.status:
        return f"status {old.status} {new.status}, {new.err[-MOST_TOLD:]}"
    texts = [("output", old.out, new.out), *((name, old.made.get(name), new.made.get(name)) for name in sorted({*old.made, *new.made}))]
    name, one, other = next((name, one, other) for name, one, other in texts if one != other)
    if one is None or other is None:
        return f"{name} was made by {'NEW' if one is None else 'OLD'} alone"
    at = len(os.path.commonprefix((one, other)))
    begin = max(0, at - 20)
    return f"{name} from byte {at}: {one[begin : at + MOST_TOLD]} {other[begin : at + MOST_TOLD]}"


class Comparison:
    """The runs on one history, each by both builds on the same files. It keeps of each whether it differed, and how."""

    def __init__(self, builds, commands, folder, name):
        self.builds, self.commands, self.place, self.name = builds, commands, Place(folder), name
        self.results, self.errors = [], []

    def run(self, words, files, label="", uses=()):
        """Compares a run. Where its command is not compared OLD alone runs it, if its output is used by a command that is. Returns what OLD said."""
        if not {words[0], *uses} & set(self.commands):
            return None
        old = self.place.run(self.builds[0], words, files)
        if words[0] in self.commands:
            new = self.place.run(self.builds[1], words, files)
            name = f"{self.name}: {' '.join(words)}{label and f' ({label})'}"
            self.results.append((words[0], name, "" if old == new else told(old, new)))
            if old.err != new.err:
                self.errors.append(f"{name}: {old.err[-MOST_TOLD:]} {new.err[-MOST_TOLD:]}")
        return old


# ---- texts that are spoilt


def cut(rng, text):
    return text[: rng.randrange(len(text))]


def other_byte(rng, text):
    at, byte = rng.randrange(len(text)), bytes([rng.choice(b"0123456789 {}[]()#:;,-\"\\ax\xff\n")])
    return text[:at] + rng.choice((byte, b"", byte + text[at : at + 1])) + text[at + 1 :]


def line_left_out(rng, text):
    lines = text.splitlines(keepends=True)
    del lines[rng.randrange(len(lines))]
    return b"".join(lines)


def line_twice(rng, text):
    lines = text.splitlines(keepends=True)
    return b"".join([*lines, rng.choice(lines)])


def wrong_order(rng, text):
    """Two entries of an order exchanged, or two numbers of a text without an order."""
    found = rng.choice(list(re.finditer(rb":order \[[^\]]*\d \d[^\]]*\]", text)) or [None])
    begin, end = found.span() if found else (0, len(text))
    numbers = list(re.finditer(rb"\d+", text[begin:end]))
    if len(numbers) < 2:
        return text + b"0"
    at = rng.randrange(len(numbers) - 1)
    one, other = numbers[at], numbers[rng.choice((at + 1, rng.randrange(at + 1, len(numbers))))]
    part = text[begin:end]
    return text[:begin] + part[: one.start()] + other[0] + part[one.end() : other.start()] + one[0] + part[other.end() :] + text[end:]


def other_number(rng, text):
    numbers = list(re.finditer(rb"\d+", text)) or list(re.finditer(rb".", text, re.S))
    number = rng.choice(numbers)
    return text[: number.start()] + rng.choice((b"0", b"1", b"2", b"7", b"-1", b"1000000", b"99999999999999999999")) + text[number.end() :]


SPOILINGS = (cut, other_byte, line_left_out, line_twice, wrong_order, other_number)


def spoilt(rng, text, few):
    """Texts that are spoilt, each with what was done to it: one for each spoiling, or for some."""
    for spoil in rng.sample(SPOILINGS, FEW) if few else SPOILINGS:
        yield spoil.__name__.replace("_", " "), spoil(rng, text) if text else b"{:object 0"


# ---- the commands on a history


def with_second_text(on, command, name, files, texts):
    """A command on the history and each of these texts."""
    for label, text in texts:
        on.run((command, HISTORY, name), {**files, name: text}, label)


def on_evidence(on, history, files, rng):
    """find, and verify, check and draw by what it finds."""
    found = on.run(("find", HISTORY), files, uses=("verify", "check", "draw"))
    if not found:
        return
    with_second_text(on, "verify", EVIDENCE, files, [("of find", found.out), ("none", b""), *spoilt(rng, found.out, history.few)])
    certificates = history.certificates
    if certificates is None:
        certificates = b"".join(line for line in found.out.splitlines(keepends=True) if b":order" in line)
    all_certificates = [("of find" if history.certificates is None else "its own", certificates), *spoilt(rng, certificates, history.few)]
    with_second_text(on, "check", CERTIFICATES, files, all_certificates)
    on.run(("check", "--workers", "4", HISTORY, CERTIFICATES), {**files, CERTIFICATES: certificates})
    with_second_text(on, "draw", CERTIFICATES, files, all_certificates[:2])


def on_reasons(on, history, files, rng):
    """judge, and refute by the reasons of its answer."""
    judged = on.run(("judge", HISTORY), files, uses=("refute",))
    on.run(("judge", "--workers", "1", "--steps", "50", "--at-least", "0", HISTORY), files)
    if judged:
        reasons = history.reasons or reasons_in(judged.out) or ANY_REASON
        with_second_text(on, "refute", REASONS, files, [("of judge", reasons), *spoilt(rng, reasons, history.few)])
        if b":object" in judged.out:
            with_second_text(on, "verify", EVIDENCE, files, [("reasons", reasons)])


def on_shards(on, text, rng, label=""):
    """split, find on each shard, and merge: with all evidence, with some that is spoilt, with a shard that is, and by statuses."""
    divided = on.run(("split", "--shards", str(SHARDS), HISTORY, "shards"), {HISTORY: text}, label, uses=("merge",))
    if not divided or "merge" not in on.commands:
        return
    files = divided.made
    for shard in range(SHARDS if "shards/shards" in files else 0):
        found = on.run(("find", f"shards/{shard}.edn", "--places", f"shards/{shard}.places"), files, label, uses=("merge",))
        files = {**files, f"shards/{shard}.evidence": found.out}
    on.run(("merge", "shards"), files, label)
    if not files:
        return
    spoil, name = rng.choice(SPOILINGS), f"shards/{rng.randrange(SHARDS)}.evidence"
    on.run(("merge", "shards"), {**files, name: spoil(rng, files[name]) if files[name] else b"{"}, f"{label} {spoil.__name__} in {name}")
    name = rng.choice(sorted(files))
    on.run(("merge", "shards"), {**files, name: cut(rng, files[name]) if files[name] else b"1\n"}, f"{label} cut {name}")
    statuses = {f"shards/{shard}.status": rng.choice((b"0\n", b"0\n", b"1\n", b"3\n", b"2", b"")) for shard in range(SHARDS)}
    on.run(("merge", "--trust-statuses", "shards"), {**files, **statuses}, label)


def on_history(on, history):
    """Every command on a history. What is drawn is a function of its name."""
    rng, files = random.Random(f"same bytes {history.name}"), {HISTORY: history.text}
    on_evidence(on, history, files, rng)
    on_reasons(on, history, files, rng)
    for options in ((), ("--steps", "50", "--first", "return")):
        on.run(("search", *options, HISTORY), files)
    on_shards(on, history.text, rng)
    on.run(("import", HISTORY), files)
    on.run(("import", "--names", NAMES_FILE, HISTORY), files)
    on.run(("draw", HISTORY), files)


def on_wide_objects(on, history):
    """split and merge where objects have numbers past 65,535."""
    text = re.sub(rb"(?<=:object )\d+", lambda found: b"%d" % (int(found[0]) % 100 * 70_001), history.text)
    on_shards(on, text, random.Random(f"wide {history.name}"), "wide objects")


def on_imported(on, number):
    """import of a text that is drawn, with a table of names, and judge and draw by both."""
    text = imported_texts.drawn(number)[1].encode()
    words = ("import", "--names", NAMES_FILE, HISTORY)
    imported = on.run(words, {HISTORY: text}, uses=("judge", "draw"))
    if imported and imported.status == 0:
        files = {HISTORY: imported.out, **imported.made}
        on.run(("judge", "--names", NAMES_FILE, HISTORY), files, "imported")
        on.run(("draw", "--names", NAMES_FILE, HISTORY), files, "imported")


def on_row(on, row):
    """The command of a worked row."""
    on.run(row.words, {name: text if isinstance(text, bytes) else text.encode() for name, text in row.files()})


def on_runs(on, _):
    """The runs, and the schedules of examples/, also spoilt."""
    for words in RUNS:
        on.run(("run", *words), {})
    for name in sorted(name for name in os.listdir(EXAMPLES) if name.endswith(".schedule.edn")):
        text = text_of(f"{EXAMPLES}/{name}")
        for label, schedule in [("", text), *spoilt(random.Random(f"same bytes {name}"), text, False)]:
            on.run(("simulate", SCHEDULE), {SCHEDULE: schedule}, f"{name} {label}".strip())


ROWS = (*worked_rows.ROWS, *worked_rows.STEPS, *worked_evidence.ROWS, *malformed_texts.ROWS, *orders_to_find.ROWS, *schedules.ROWS)


def works(all_histories, drawn_imports):
    """All that is compared: for each part its name, its function and what that takes."""
    yield "runs", on_runs, None
    for row in ROWS:
        if row.words[0] in COMMANDS:
            yield row.name, on_row, row
    for number in range(drawn_imports):
        yield f"imported text {number}", on_imported, number
    for history in all_histories:
        yield history.name, on_history, history
        if b":object 1" in history.text and len(history.text) < LONG:
            yield history.name, on_wide_objects, history


def compare(report, builds, commands, all_histories, drawn_imports, jobs):
    """Compares everything, and counts each run. Returns the differences on standard error."""
    counts, errors = dict.fromkeys(commands, 0), []

    def done(work):
        name, compare_it, what = work
        folder = tempfile.mkdtemp(prefix="fcbench-same-")
        try:
            on = Comparison(builds, commands, folder, name)
            compare_it(on, what)
            return on
        finally:
            shutil.rmtree(folder)

    with concurrent.futures.ThreadPoolExecutor(jobs) as pool:
        for number, on in enumerate(in_order(pool, done, works(all_histories, drawn_imports), 4 * jobs), 1):
            for command, name, difference in on.results:
                counts[command] += 1
                report.equal(name, "", difference)
            errors += on.errors
            if number % 200 == 0:
                print(f"  {number} texts, the last {on.name}: {report.last_line()}, standard error differs in {len(errors)}", flush=True)
    print(f"  runs by each build: {counts}", flush=True)
    return errors


def in_order(pool, call, values, at_once):
    """What a function returns for each of the values, in order. At most this many of them are taken ahead, since histories are long."""
    waiting = []
    for value in values:
        waiting.append(pool.submit(call, value))
        if len(waiting) >= at_once:
            yield waiting.pop(0).result()
    for each in waiting:
        yield each.result()
