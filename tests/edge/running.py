"""Runs the two programs under test, and counts what they passed."""
import concurrent.futures
import contextlib
import os
import re
import shutil
import subprocess
import tempfile
import time
from dataclasses import dataclass, field

# A run that takes longer hangs, on a slow machine too.
SECONDS = 600
ROOT = os.path.dirname(os.path.dirname(os.path.dirname(os.path.realpath(__file__))))
EXAMPLES = f"{ROOT}/examples"
# Of each command the program that does it. The tools refuse other words, but --version is one of the verifier.
with open(f"{ROOT}/tools/fcbench-tools/commands.txt") as file:
    PROGRAM_OF = {line.split("\t")[0]: line.split("\t")[1] for line in file}
OF_TOOLS, OF_VERIFIER, OF_BENCH = (tuple(name for name, own in PROGRAM_OF.items() if own == one) for one in ("tools", "verifier", "bench"))
# Those of them that count the operations that returned.
COUNTING = ("judge", "draw")


@dataclass(frozen=True)
class Ran:
    """What a run of the program gave. A negative status is the signal that ended it."""

    status: int
    out: bytes
    err: bytes
    seconds: float = field(default=0.0, compare=False)


def without_explanation(words, ran):
    """The output, without the lines by which judge explains a malformed history after the line of the verifier."""
    out = ran.stdout or b""
    if words[:1] != ("judge",) or ran.returncode != 2:
        return out
    return re.sub(rb"(?<=\n)(; (event|line) \d+[:,].*\n){1,2}(; it can be imported: .*\n)?\Z", b"", out)


def without_warnings(words, ran):
    """What is on standard error, without what judge says is suspicious in a history, and what to do where it is out of steps. Most histories of
    tests are short, and overlap little."""
    return re.sub(rb"^fcbench: (warning|out of steps): .*\n", b"", ran.stderr, flags=re.M) if words[:1] == ("judge",) else ran.stderr


@dataclass(frozen=True)
class Program:
    """The proved verifier under test, and the tools and the bench beside it, in a folder of their own that everybody may read."""

    path: str
    folder: str
    faults: str
    tools: str = None
    bench: str = None
    label: str = ""

    def line(self, words):
        """The command line of these words: the program whose command they are, and the words. Any number of operations of a history may have
        returned, if the words say nothing else, since many histories of tests are empty or pending."""
        if self.tools and words[:1] == ("help",):
            words = (*words[1:2], "--help")
        command, *rest = words or ("",)
        if not self.tools or command in ("--version", "-V", *OF_VERIFIER):
            return [self.path, *words]
        if command in OF_BENCH:
            return [self.bench, *words]
        says_least = any(str(word).startswith("--at-least") for word in rest)
        least = [] if command not in COUNTING or says_least else ["--at-least", "0"]
        return [self.tools, command, *least, *rest]

    def run(self, *words, stdout=subprocess.PIPE, faults=None, env=None, **how):
        """Runs the program of these words, with the faults that faults.c can make, and more in its environment. Faults are made in each
        process: judge and draw of the tools start others."""
        # The tools find the proved program beside them, and the finder in them.
        own = {name: value for name, value in os.environ.items() if name not in ("FCBENCH", "FCBENCH_FINDER")}
        # A backtrace of a program in Rust that lacks memory takes fifty times what the run takes.
        env = {**own, "RUST_BACKTRACE": "0", **(env or {})}
        if faults:
            env.update({name: str(value) for name, value in faults.items()}, LD_PRELOAD=self.faults)
        begun = time.monotonic()
        try:
            path, *rest = self.line(words)
            ran = subprocess.run(
                # The programs get the name by which fcbench.sh starts them.
                ["fcbench" if self.tools else path, *rest],
                executable=path,
                stdin=subprocess.DEVNULL,
                stdout=stdout,
                stderr=subprocess.PIPE,
                timeout=SECONDS,
                env=env,
                cwd=self.folder,
                **how,
            )
        except subprocess.TimeoutExpired:
            return Ran(-1, b"", f"not ended after {SECONDS} seconds".encode(), SECONDS)
        return Ran(ran.returncode, without_explanation(words, ran), without_warnings(words, ran), time.monotonic() - begun)

    def counted(self, *words):
        """Runs the program of these words, and returns also what faults.c counts of it: of several processes, of the last to end."""
        name = f"{self.folder}/counts.{os.getpid()}"
        ran = self.run(*words, faults={"COUNT_TO": name})
        with open(name) as file:
            return ran, [int(count) for count in file.read().split()]

    def counts(self, *words):
        """Runs the program of these words, and returns also how many allocations and reads it made."""
        ran, (allocations, reads, *_) = self.counted(*words)
        return ran, allocations, reads

    def file_writes(self, *words):
        """How many writes to files a run of these words makes."""
        return self.counted(*words)[1][2]

    def syncs(self, *words):
        """How often a run of these words waits until a file is on the disk."""
        return self.counted(*words)[1][3]

    def instructions(self, *words):
        """How many instructions a run takes, as valgrind counts them in each of its processes. Of its tools that count them this one takes the least
        time."""
        with tempfile.TemporaryDirectory(dir=self.folder) as folder:
            valgrind = ["valgrind", "--tool=cachegrind", "--cache-sim=no", "--trace-children=yes", f"--cachegrind-out-file={folder}/%p"]
            subprocess.run([*valgrind, *self.line(words)], cwd=self.folder, stdout=subprocess.DEVNULL, stderr=subprocess.DEVNULL)
            counted = 0
            for entry in os.scandir(folder):
                with open(entry.path, encoding="utf-8") as file:
                    counted += int(re.search(r"^(?:totals|summary): (\d+)", file.read(), re.M)[1])
            return counted

    def write(self, name, text):
        """Writes a file into the folder in which the program runs, and returns its name."""
        with open(f"{self.folder}/{name}", "wb") as file:
            file.write(text if isinstance(text, bytes) else text.encode())
        return name


def copied(path, folder, name):
    """Copies a program into a folder."""
    program = f"{folder}/{name}"
    shutil.copyfile(path, program)
    os.chmod(program, 0o755)
    return program


def faults_in(folder):
    """Compiles faults.c in a folder, unless it is there."""
    faults = f"{folder}/faults.so"
    if not os.path.exists(faults):
        compiler = next((name for name in ("cc", "gcc", "clang") if shutil.which(name)), "cc")
        source = f"{os.path.dirname(os.path.realpath(__file__))}/faults.c"
        subprocess.run([compiler, "-O2", "-shared", "-fPIC", "-o", faults, source], check=True)
    return faults


def alone(path, folder):
    """A program that is no fcbench, in a folder."""
    name = os.path.basename(path)
    return Program(copied(path, folder, name), folder, faults_in(folder), label=name)


@contextlib.contextmanager
def in_own_folder(build, tools, folder):
    """The verifier and the bench of a build and the tools beside each other in a new folder of this folder, as long as one part of the tests runs, so
    that no part finds a file of another one. The label is the name of the verifier. A part that needs no program gets the folder alone."""
    with tempfile.TemporaryDirectory(prefix="part-", dir=folder) as own:
        # Some runs are those of another user.
        os.chmod(own, 0o777)
        if build:
            verifier, bench = build
            others = copied(tools, own, "fcbench-tools"), bench and copied(bench, own, "fcbench-bench")
            yield Program(copied(verifier, own, "fcbench-verifier"), own, faults_in(folder), *others, os.path.basename(verifier))
        else:
            yield Program(None, own, None, label="no program:")


def at_once(call, values):
    """Calls a function on each of the values, several at once, and returns the results in order."""
    with concurrent.futures.ThreadPoolExecutor(os.cpu_count()) as pool:
        return list(pool.map(call, values))


# Of what was expected, and of what came, the most that is told.
MOST_TOLD = 3000


def told(value):
    """A value as it is told of a test that failed."""
    text = repr(value)
    return text if len(text) <= MOST_TOLD else f"{text[: MOST_TOLD // 2]} .. {text[-MOST_TOLD // 2 :]}"


class Report:
    """Counts the tests that passed, and keeps what the others expected and got. With a pattern it counts only those that have it in their names, and
    prints the names of those that passed."""

    def __init__(self, pattern=""):
        self.pattern = pattern
        self.passed = 0
        self.failed = []

    def holds(self, name, is_so, came=""):
        """Counts a test that passes where a condition holds."""
        self.equal(name, True, bool(is_so), came)

    def equal(self, name, expected, came, more=""):
        """Counts a test that passes where what came is what was expected."""
        if self.pattern not in name:
            return
        if expected == came:
            self.passed += 1
            if self.pattern:
                print(f"  passed {name}", flush=True)
        else:
            self.failed.append(f"FAILED {name}\n  expected: {told(expected)}\n  came:     {told(came)} {told(more) if more != '' else ''}".rstrip())

    def answers(self, name, ran, out, status, err=b""):
        """Counts a run that must give exactly this output and exit status, and this on standard error."""
        out = out.encode() if isinstance(out, str) else out
        err = err.encode() if isinstance(err, str) else err
        self.equal(name, Ran(status, out, err), ran)

    def last_line(self):
        """Returns the line with both counts, the last that a script prints."""
        return f"{self.passed} passed, {len(self.failed)} failed"
