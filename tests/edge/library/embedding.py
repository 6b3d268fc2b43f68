"""The library: its callers in C, C++, Rust, Python and Go, their recorders, and the checker for Jepsen in Clojure. A language that is missing
is skipped, and the line of the part says how to install it."""
import os
import re
import shutil
import signal
import subprocess
import sys

from ..building import BARE
from ..running import EXAMPLES, ROOT, Program, Ran, at_once

SOURCES = f"{ROOT}/callers"
OUT = f"{ROOT}/crates/embedding/out"
LIBRARY = f"{OUT}/libfcbench.a"
SHARED = f"{OUT}/libfcbench.so"
# The functions of the two halves, each an object of libfcbench.a.
HALVES = {"proved.o": ["fcbench_check", "fcbench_refute", "fcbench_verify"], "finder.o": ["fcbench_find", "fcbench_judge"]}
EXPORTS = sorted(sum(HALVES.values(), []))
# What the proved half calls of others.
CALLS = {"free", "malloc", "memcmp", "memcpy", "memmove", "memset", "realloc"}
# Data of the proved half that can be written: a byte of the kit's three functions over malloc, realloc and free. Where
# a block is refused they give its address, with a flag that says so.
OF_THE_KIT = {"nothing"}, {".bss": 1}
# A library with a state of each kind: with a value, without one, of a thread, and without a name outside.
WITH_STATE = """int valued = 1, zero; _Thread_local int of_a_thread;
int next(void) { static int hidden; return ++hidden + valued++ + zero++ + of_a_thread++; }
"""
WARNINGS = ("-O2", "-Wall", "-Wextra", "-Werror", f"-I{ROOT}/include")
C = ("gcc", "-std=c11", "-D_GNU_SOURCE", *WARNINGS)
CPP = ("g++", "-std=c++17", *WARNINGS)
VALGRIND = ("valgrind", "--quiet", "--leak-check=full", "--errors-for-leak-kinds=all", "--error-exitcode=9")
HELGRIND = ("valgrind", "--quiet", "--tool=helgrind", "--error-exitcode=9")
# Debian's package of each language or shell, where one is missing.
PACKAGES = {
    "bash": "bash",
    "gcc": "gcc",
    "g++": "g++",
    "valgrind": "valgrind",
    "cargo": "cargo",
    "go": "golang",
    "clojure": "clojure",
    "javac": "default-jdk-headless",
    "zsh": "zsh",
    "fish": "fish",
}
# Runs of each recorder: of a right queue, and of a wrong one.
RUNS = 100
# What takes longer hangs, on a slow machine too.
SECONDS = 1200
# Where the libraries below are not proved yet, the library takes this long.
SECONDS_TO_PROVE = 3600


def missing(*names):
    """Says which of these is missing and how to install it, or nothing."""
    lacks = [PACKAGES[name] for name in names if not shutil.which(name)]
    return f"SKIPPED: missing, apt-get update; apt-get install -y {' '.join(lacks)}" if lacks else ""


def done(report, name, words, says=None, seconds=SECONDS, **env):
    """Runs these words, which must end with 0, and must say this."""
    how = {"env": {**os.environ, **env}, "stdin": subprocess.DEVNULL, "stdout": subprocess.PIPE, "stderr": subprocess.STDOUT, "text": True}
    folder = how["env"].pop("FOLDER", None)
    try:
        ran = subprocess.run(words, timeout=seconds, cwd=folder, **how)
    except subprocess.TimeoutExpired as late:
        report.holds(f"embedding: {name}", False, f"not ended after {seconds} seconds: {late.output}")
        return ""
    is_well = ran.returncode == 0 and (says is None or says in ran.stdout)
    report.holds(f"embedding: {name}", is_well, f"status {ran.returncode}\n{ran.stdout[-4000:]}")
    return ran.stdout


def built(program, report, compiler, source, name):
    """Builds a caller with the library in the folder of the program, and returns its path."""
    path = f"{program.folder}/{name}"
    done(report, f"{name} is built", [*compiler, source, LIBRARY, "-lpthread", "-o", path])
    return path


def names_of(path, letters, *words):
    """The names in a library of these kinds, which are letters of nm."""
    symbols = subprocess.run(["nm", *words, path], capture_output=True, text=True, check=True).stdout
    return sorted(name.partition("@")[0] for kind, name in re.findall(r"^[0-9a-f]* +(\w) (\S+)$", symbols, re.M) if kind in letters)


def state_of(path):
    """The names of data that can be written in a library, and its parts that hold some, with their sizes. What is written once, as it is
    loaded, is no state."""
    names = {re.sub(r"[.]\d+$", "", name) for name in names_of(path, "bBcCdDgGsSuvV")}
    sections = subprocess.run(["readelf", "--sections", "--wide", path], capture_output=True, text=True, check=True).stdout
    parts = re.findall(r"\] (\S+) +\S+ +[0-9a-f]+ [0-9a-f]+ ([0-9a-f]+) [0-9a-f]+ +W", sections)
    return names, {part: int(size, 16) for part, size in parts if int(size, 16) and not part.startswith(".data.rel.ro")}


def uses_of(part, path):
    """The instructions that name a part of a library, and how many places in it name that part."""
    code = subprocess.run(["objdump", "-dr", "--no-show-raw-insn", path], capture_output=True, text=True, check=True).stdout
    places = subprocess.run(["objdump", "--reloc", path], capture_output=True, text=True, check=True).stdout
    return re.findall(rf"\t(\w+) [^\n]*\n\t+[0-9a-f]+: R_\w+\t{re.escape(part)}\b", code), len(re.findall(rf" {re.escape(part)}\b", places))


def library(program, report):
    """The library is built if it is missing, needs no kit then, and has five functions in two halves. The proved half calls only what allocates
    and copies, and has no state. A program that uses only its functions is linked with no other code."""
    done(report, "the library is built", [f"{SOURCES}/build"], seconds=SECONDS_TO_PROVE)
    ran = subprocess.run([sys.executable, f"{SOURCES}/build"], env={**os.environ, "PATH": BARE}, capture_output=True, text=True)
    report.equal("embedding: a library that is built, without the kit", (0, ""), (ran.returncode, ran.stderr))
    defined = "ABCDGRSTVWuvw"
    subprocess.run(["ar", "x", LIBRARY], cwd=program.folder, check=True)
    for name, exports in HALVES.items():
        exported = names_of(f"{program.folder}/{name}", defined, "-g", "--defined-only")
        report.equal(f"embedding: what {name} of libfcbench.a exports", exports, exported)
    report.equal("embedding: what libfcbench.so exports", EXPORTS, names_of(SHARED, defined, "-D", "--defined-only"))
    proved = f"{program.folder}/proved.o"
    name = "embedding: what the proved half calls besides malloc, realloc, free and copies: no thread, lock or file"
    report.equal(name, set(), set(names_of(proved, "U", "-g")) - CALLS)
    report.equal("embedding: what of the proved half can be written", OF_THE_KIT, state_of(proved))
    report.equal("embedding: of that only the address is taken", (["lea", "lea"], 2), uses_of(".bss", proved))
    if not missing("gcc"):
        path = f"{program.folder}/{program.write('with_state.c', WITH_STATE)}"
        done(report, "a library with a state is built", ["gcc", "-O2", "-c", path, "-o", f"{path}.o"])
        found = {"valued", "zero", "of_a_thread", "hidden"}, {".data": 4, ".bss": 8, ".tbss": 4}
        report.equal("embedding: a state of each kind is found", found, state_of(f"{path}.o"))
        proved_alone(program, report)
    return f"{os.path.getsize(LIBRARY)} bytes"


# A caller of a proved function alone.
CHECKS = """#include <fcbench.h>
int main(void) { size_t needed; return (int)fcbench_check(NULL, 0, NULL, 0, NULL, 0, &needed); }
"""


def proved_alone(program, report):
    """A program that calls proved functions alone is linked with the proved half alone."""
    path = f"{program.folder}/checks"
    done(report, "a caller of a proved function is built", [*C, f"{program.folder}/{program.write('checks.c', CHECKS)}", LIBRARY, "-o", path])
    done(report, "and runs", [path])
    symbols = subprocess.run(["nm", path], capture_output=True, text=True, check=True).stdout
    report.equal("embedding: functions of the library in it", HALVES["proved.o"], sorted(re.findall(r" T (fcbench_\w+)", symbols)))


def cases():
    """Each command of the library on each example."""
    names = set(os.listdir(EXAMPLES))
    for name in sorted(names):
        stem, _, kind = name.partition(".")
        if kind != "history.edn":
            continue
        yield ("judge", f"{EXAMPLES}/{name}")
        yield ("find", f"{EXAMPLES}/{name}")
        for command, other in (
            ("check", f"{stem}.certificates.edn"),
            ("refute", f"{stem}.reasons.edn"),
            ("verify", f"{stem}.certificates.edn"),
            ("verify", f"{stem}.reasons.edn"),
        ):
            if other in names:
                yield (command, f"{EXAMPLES}/{name}", f"{EXAMPLES}/{other}")


def answering(program, report):
    return Program(built(program, report, C, f"{ROOT}/tests/edge/library/answer.c", "answer"), program.folder, program.faults)


def of_the_program(program, words):
    """What the program answers. What is wrong with a history the proved program says, also where the command is find."""
    ran = program.run(*words)
    return program.run("check", words[1], "/dev/null") if words[0] == "find" and ran.status == 2 else ran


def as_the_program(program, report):
    """The library answers each example as the program does. If the buffer is too small, it gets the beginning of the answer."""
    if missing("gcc"):
        return missing("gcc")
    answer, every = answering(program, report), list(cases())
    told = at_once(lambda words: (answer.run(*words), of_the_program(program, words), answer.run(*words, "10")), every)
    for words, (came, wanted, short) in zip(every, told):
        name = " ".join([words[0], *map(os.path.basename, words[1:])])
        report.equal(f"embedding: {name}", (wanted.status, wanted.out), (came.status, came.out))
        report.equal(f"embedding: {name} into 10 bytes", Ran(wanted.status, wanted.out[:10], b""), short)
    return f"{len(every)} calls"


# A value is dequeued that was never enqueued.
NEVER_ENQUEUED = b"""{:process 0, :type :invoke, :f :enqueue, :value 1}
{:process 0, :type :ok, :f :enqueue, :value 1}
{:process 0, :type :invoke, :f :dequeue}
{:process 0, :type :ok, :f :dequeue, :value 2}"""
PENDING = b"{:process 0, :type :invoke, :f :enqueue, :value 1}"
# A command, its texts, and the status, the number of bytes of all lines where it is known, and their beginning.
ANSWERS = (
    ("check", (NEVER_ENQUEUED, b"{:object 0, :order [0 2]}"), 1, 27, b"no: C6 object 0: 2 gives 1\n"),
    ("judge", (NEVER_ENQUEUED,), 1, None, b"; object 0: impossible\n"),
    ("judge", (PENDING,), 0, 60, b"yes: 1 operations, 1 objects\nqueue: 1 objects, 1 operations\n"),
    ("refute", (NEVER_ENQUEUED, b"{:object 0, :cuts [{:keep [2], :numbers [2]}]}"), 1, None, b"not linearizable: object 0: 1 of 2 operations "),
    ("find", (NEVER_ENQUEUED,), 3, None, b"{:object 0, :cuts ["),
    ("find", (PENDING,), 0, 23, b"{:object 0, :order []}\n"),
    ("verify", (PENDING, b"{:object 0, :order []}"), 0, 60, b"yes: 1 operations, 1 objects\nqueue: 1 objects, 1 operations\n"),
    ("verify", (PENDING, b""), 3, 17, b"; object 0: open\n"),
    ("check", (b"{", b""), 2, 32, b"malformed history: E2 at byte 1\n"),
)


def answers_of_each_export(program, report):
    """Each function of the library gives the expected status and lines, and fills a buffer of 3 bytes, and of none, with their beginning."""
    if missing("gcc"):
        return missing("gcc")
    answer = answering(program, report)
    for command, texts, status, length, begins in ANSWERS:
        for name, text in zip(("first.edn", "second.edn"), texts):
            answer.write(name, text)
        words = (command, *("first.edn", "second.edn")[: len(texts)])
        whole, short, none = (answer.run(*words, *more) for more in ((), ("3",), ("0",)))
        report.holds(f"embedding: {command} answers as it is to", whole.status == status and whole.out.startswith(begins), whole)
        report.holds(f"embedding: {command} says how long its lines are", length in (None, len(whole.out)), whole)
        report.equal(f"embedding: {command} into 3 bytes", Ran(status, begins[:3], b""), short)
        report.equal(f"embedding: {command} into no bytes", Ran(status, b"", b""), none)
    return None


# How a process ends that lacks memory in Rust.
ABORTED = -signal.SIGABRT


def is_without_memory(command, whole, ran):
    """Whether a call that lacked memory answered what it may: 3, with a line that says so or an object that stays open; or as with ample memory. The
    finder may end the process. Where the check of what it found lacked memory, its lines come with 3."""
    if ran.status == ABORTED:
        return command in ("judge", "find")
    if ran.status == 3 and (command == "find" and ran.out == whole.out or ran.out.endswith((b"out of memory\n", b": open\n"))):
        return True
    return ran.status == whole.status and ran.out == whole.out


def refused_memory_of_calls(program, report):
    """Each allocation of a call fails in turn."""
    if missing("gcc"):
        return missing("gcc")
    answer, count = answering(program, report), 0
    for words in (case for case in cases() if re.search("/(queue|lost_put|overlapping|larger_first|two_for_one)[.]", case[1])):
        whole, allocations, _ = answer.counts(*words)
        runs = at_once(lambda at: answer.run(*words, faults={"REFUSE_AT": at}), range(1, allocations + 1))
        bad = [ran for ran in runs if not is_without_memory(words[0], whole, ran)]
        report.equal(f"embedding: {words[0]} {os.path.basename(words[1])} without memory", [], bad[:1])
        count += allocations
    return f"{count} allocations refused"


def c_callers(program, report):
    """The caller and the recorder in C pass their tests, without a leak or a wrong access."""
    if missing("gcc"):
        return missing("gcc")
    judge = built(program, report, C, f"{SOURCES}/c/test_judge.c", "c_judge")
    recorder = built(program, report, C, f"{SOURCES}/c/test_recorder.c", "c_recorder")
    done(report, "C: a yes, a no, a malformed text, a buffer too small, several threads", [judge], "passed")
    done(report, "C: queues are recorded and judged", [recorder, str(RUNS)], f"passed, {RUNS} runs")
    if missing("valgrind"):
        return missing("valgrind")
    done(report, "C: the caller under valgrind", [*VALGRIND, judge], "passed")
    done(report, "C: threads that call at once share no memory, says helgrind", [*HELGRIND, judge], "passed")
    done(report, "C: the recorder under valgrind", [*VALGRIND, recorder, "1"], "passed, 1 runs")
    return None


def cpp_callers(program, report):
    """The caller and the recorder in C++ pass their tests, without a leak or a wrong access."""
    if missing("g++"):
        return missing("g++")
    judge = built(program, report, CPP, f"{SOURCES}/cpp/test_judge.cpp", "cpp_judge")
    recorder = built(program, report, CPP, f"{SOURCES}/cpp/test_recorder.cpp", "cpp_recorder")
    example = built(program, report, CPP, f"{SOURCES}/cpp/test_two_threads.cpp", "cpp_two_threads")
    done(report, "C++: a yes, a no, a malformed text, a buffer too small, several threads", [judge], "passed")
    done(report, "C++: queues are recorded and judged", [recorder, str(RUNS)], f"passed, {RUNS} runs")
    done(report, "C++: the example of docs/embedding.md", [example], " % of the calls overlapped another one")
    without_the_library(program, report)
    return None


# A call that gives this.
NO_REPLY = """#include <recorder.hpp>
int main() {
    fcbench::Recorder recorder;
    fcbench::Journal journal = recorder.journal();
    journal.call("dequeue", std::nullopt, [] { return REPLY; });
}
"""
OF_NO_REPLY = "a reply is an integer, a std::optional of one, or fcbench::Value, and neither a pointer nor a bool: give the number of your element"


def without_the_library(program, report):
    """The recorder alone: it writes a history to a file, and the compiler says what a reply is."""
    folder = f"{program.folder}/to_file"
    os.mkdir(folder)
    done(report, "C++: a recorder without the library is built", [*CPP, f"{SOURCES}/cpp/test_to_file.cpp", "-pthread", "-o", f"{folder}/to_file"])
    done(report, "C++: it writes a history", [f"{folder}/to_file"], FOLDER=folder)
    judge = [dispatcher(program), "judge", f"{folder}/register.history.edn"]
    done(report, "C++: and the program judges it", judge, "yes: 403 operations, 1 objects\n")
    os.remove(f"{folder}/register.history.edn")
    os.symlink("/dev/full", f"{folder}/register.history.edn")
    ran = subprocess.run([f"{folder}/to_file"], cwd=folder, capture_output=True, text=True)
    report.equal("embedding: C++: on a full disk", (1, "register.history.edn cannot be written\n"), (ran.returncode, ran.stderr))
    for reply, status in (("static_cast<int *>(nullptr)", 1), ("true", 1), ("7", 0)):
        source = program.write("no_reply.cpp", NO_REPLY.replace("REPLY", reply))
        ran = subprocess.run([*CPP, f"-I{SOURCES}/cpp", "-fsyntax-only", f"{program.folder}/{source}"], capture_output=True, text=True)
        is_well = ran.returncode == status and (OF_NO_REPLY in ran.stderr) == (status == 1)
        report.holds(f"embedding: C++: what the compiler says about the reply {reply}", is_well, ran.stderr[-2000:])


def rust_callers(program, report):
    """The caller and the recorder in Rust, a package without dependencies, pass their tests."""
    if missing("cargo"):
        return missing("cargo")
    package = ["--quiet", "--offline", "--manifest-path", f"{SOURCES}/rust/Cargo.toml"]
    words, elsewhere = ["cargo", "test", *package], {**os.environ, "CARGO_TARGET_DIR": f"{program.folder}/cargo", "FCBENCH_LIB": EXAMPLES}
    output = done(
        report,
        "Rust: the tests of the package",
        words,
        CARGO_TARGET_DIR=f"{program.folder}/cargo",
        FCBENCH_LIB=OUT,
        FCBENCH_RUNS=str(RUNS),
        RUSTFLAGS="-D warnings",
    )
    report.equal("embedding: Rust: how many tests passed", 32, sum(map(int, re.findall(r"(\d+) passed", output))), output[-2000:])
    ran = subprocess.run(["cargo", "check", *package], env=elsewhere, capture_output=True, text=True)
    advice = f"libfcbench.a is not in {EXAMPLES}: run callers/build, or set FCBENCH_LIB to the absolute path of its folder"
    report.holds("embedding: Rust: what is said where the library is missing", ran.returncode != 0 and advice in ran.stderr, ran.stderr[-2000:])
    return None


def python_callers(program, report):
    """The caller and the recorder in Python, by ctypes, pass their tests."""
    output = ""
    for name in ("judge", "recorder"):
        output += done(
            report,
            f"Python: test_{name}.py",
            [f"{SOURCES}/python/test_{name}.py"],
            "\nOK",
            FCBENCH_SO=SHARED,
            FCBENCH_RUNS=str(RUNS),
            PYTHONDONTWRITEBYTECODE="1",
        )
    report.equal("embedding: Python: how many tests ran", ["10", "17"], re.findall(r"Ran (\d+) tests", output), output[-2000:])


def go_callers(program, report):
    """The caller and the recorder in Go, by cgo, pass their tests."""
    if missing("go", "gcc"):
        return missing("go", "gcc")
    env = {
        "CGO_CFLAGS": f"-O2 -I{ROOT}/include",
        "CGO_LDFLAGS": LIBRARY,
        "GOCACHE": f"{program.folder}/go",
        "GOFLAGS": "-mod=mod",
        "FCBENCH_RUNS": str(RUNS),
    }
    output = done(report, "Go: the tests of the package", ["go", "test", "-count=1", "-v", "."], "\nok ", FOLDER=f"{SOURCES}/go", **env)
    report.equal("embedding: Go: how many tests passed", 19, output.count("--- PASS"), output[-2000:])
    return None


def java_recorder(program, report):
    """The recorder in Java passes its tests, on a queue of the JDK and on one with a race."""
    if missing("javac"):
        return missing("javac")
    folder = f"{program.folder}/java"
    os.mkdir(folder)
    sources = [f"{SOURCES}/java/{name}.java" for name in ("Recorder", "RecorderTest")]
    done(report, "Java: the recorder is compiled without a warning", ["javac", "-Xlint:all", "-Werror", "-d", folder, *sources])
    with open(f"{ROOT}/docs/embedding.md") as page, open(sources[1]) as test:
        lines = [line for snippet in re.findall(r"^```java\n(.*?)^```$", page.read(), re.M | re.S) for line in snippet.splitlines()]
        report.holds("embedding: Java: the lines of docs/embedding.md are in the test", lines and {*lines} <= {line.strip() for line in test}, lines)
    words = ["java", "-cp", folder, "RecorderTest", dispatcher(program), str(RUNS), folder]
    done(report, "Java: queues are recorded and judged", words, f"passed, {RUNS} runs")
    return None


def dispatcher(program):
    """A program that has all commands, as ./fcbench and the installed one have them."""
    path = f"{program.folder}/dispatcher"
    with open(path, "w") as file:
        programs = f"FCBENCH={program.path} FCBENCH_BENCH={program.bench} FCBENCH_TOOLS={program.tools}"
        file.write(f"#!/bin/sh\n{programs} exec {ROOT}/tools/fcbench.sh \"$@\"\n")
    os.chmod(path, 0o755)
    return path


def clojure_checker(program, report):
    """The checker for Jepsen passes its tests, without Jepsen, on histories as a store of Jepsen has them."""
    if missing("clojure"):
        return missing("clojure")
    words = ["clojure", "-cp", f"{SOURCES}/clojure", f"{SOURCES}/clojure/fcbench_test.clj", dispatcher(program)]
    done(report, "Clojure: the converter and the checker", words, "0 failures, 0 errors")
    return None


# The commands of docs/tutorial.md on a queue of one's own, with the status and the beginning of the lines.
RECORDED = (
    ("docs/record_queue.py > queue.history.edn", 0, ""),
    ("./fcbench judge queue.history.edn", 1, "; object 0: impossible\n"),
    ("./fcbench draw queue.history.edn > page.html", 1, ""),
    ("./fcbench judge queue.history.edn | sed -n 's/^; {/{/p' > queue.reasons.edn", 0, ""),
    ("./fcbench refute queue.history.edn queue.reasons.edn", 1, "not linearizable: object 0: "),
    ("docs/record_queue.py --fixed > queue.history.edn", 0, ""),
    ("./fcbench judge queue.history.edn", 0, "yes: 200 operations, 1 objects\n"),
    ("callers/build", 0, ""),
    ("docs/record_queue.py --judge", 1, "; object 0: impossible\n"),
)
# The most runs of a queue with a bug until it shows.
MOST_RECORDED = 20
MOST_OPERATIONS = 5


def until_a_no(run, *lines):
    """Runs these lines, and again while the last one answers with a yes."""
    for _ in range(MOST_RECORDED):
        ran = [run(line) for line in lines][-1]
        if ran.returncode:
            break
    return ran


def tutorial(program, report):
    """The commands of docs/tutorial.md on a queue of one's own do what it says: the bug is found in the file and in
    place, the reason is accepted, and the queue without the bug is a yes."""
    folder = f"{program.folder}/tutorial"
    os.mkdir(folder)
    for name, path in (("docs", f"{ROOT}/docs"), ("callers", SOURCES), ("fcbench", dispatcher(program))):
        os.symlink(path, f"{folder}/{name}")
    how = {"cwd": folder, "env": {**os.environ, "PYTHONDONTWRITEBYTECODE": "1"}, "capture_output": True, "text": True, "timeout": SECONDS}
    run = lambda line: subprocess.run(["bash", "-c", line], **how)  # noqa: E731
    with open(f"{ROOT}/docs/tutorial.md") as file:
        text = file.read().partition("\n## With a queue of your own\n")[2]
    report.equal("tutorial: its commands", [line for line, _, _ in RECORDED], re.findall(r"^    ((?:docs|callers|[.])/.*)$", text, re.M))
    (record, _, _), (judge, _, _), *_, (in_place, _, _) = RECORDED
    full = run("docs/record_queue.py > /dev/full")
    report.holds("tutorial: a record on a full disk", full.returncode != 0 and "No space left on device" in full.stderr, full)
    until_a_no(run, record, judge)
    for line, status, begins in (*RECORDED[1:], (f"{in_place} --fixed", 0, "yes: 200 operations, 1 objects\n")):
        ran = until_a_no(run, line) if line == in_place else run(line)
        report.holds(f"tutorial: {line}", ran.returncode == status and ran.stdout.startswith(begins) and not ran.stderr, ran)
        if status == 1 and begins:
            operations = len(re.findall("^(?:; )?events? ", ran.stdout, re.M))
            report.holds(f"tutorial: {line}: the reason is small", 0 < operations <= MOST_OPERATIONS, ran.stdout)
    with open(f"{folder}/page.html") as file:
        report.holds("tutorial: the page says that it is impossible", "Not linearizable" in file.read())


CALLERS = (
    answers_of_each_export,
    as_the_program,
    refused_memory_of_calls,
    c_callers,
    cpp_callers,
    rust_callers,
    python_callers,
    go_callers,
    java_recorder,
    clojure_checker,
    tutorial,
)
PARTS = (library, *CALLERS)
