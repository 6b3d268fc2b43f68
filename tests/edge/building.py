"""./fcbench, ./install and the scripts build: what is built, what is current, what a signal ends, and what works if the kit is missing. In most
tests the kit and cargo are stubs."""
import contextlib
import os
import re
import select
import shutil
import signal
import subprocess
import sys
import time

from .running import EXAMPLES, OF_TOOLS, ROOT, SECONDS
from .stub_checkout import CRATES, LOGIC, Checkout
from .words import COMMANDS

sys.path.insert(0, f"{ROOT}/scripts")

from building import files_in, files_of_tools, keep, sums  # noqa: E402
from crates_list import sources_of  # noqa: E402

# Where no kit is.
BARE = "/usr/bin:/bin"
# A program of another source, and what it would print.
FOREIGN = "#!/bin/sh\necho 'yes: foreign'\n"


def checkout(program, name):
    """A checkout with a stub kit, in a folder of this name."""
    return Checkout(f"{program.folder}/{name}")


def proved_checkout(program, name):
    """The same, with all built of the code `1`: a copy of one, since a record names no folder."""
    built = f"{program.folder}/built"
    if not os.path.exists(built):
        first = Checkout(built)
        first.run("crates/build")
        first.run("callers/build")
        first.run("tools/build")
        first.calls()
    return Checkout(f"{program.folder}/{name}", like=built)


def answers(code):
    """The status of a check, and what it prints if the verifier was proved of this code."""
    return 0, f"verifier  {code}: check h c\n"


def put_old(made, path, text):
    """Writes a file of a checkout as if it had been written long ago."""
    made.write(path, text)
    os.utime(f"{made.top}/{path}", (0, 0))


def put_foreign(made, path):
    """Puts another program into the place of one that was built."""
    made.program(f"{made.top}/{path}", FOREIGN)


def put_elsewhere_built(made, path):
    """Puts a program and its record, as built of other code, into the place of one."""
    out = f"{made.top}/{path}"
    with open(f"{out}.sha256") as file:
        record = file.read()
    put_foreign(made, path)
    other_code = re.sub(r"\w{64}(?=  \w+/)", "0" * 64, record.partition("\n")[2])
    made.write(f"{path}.sha256", sums(os.path.dirname(out), [os.path.basename(out)]) + other_code)


# What is done to a checkout in which all is built; what is called then; and the code of which the answer is.
CHANGES_OF_PROVED = (
    ("nothing", lambda made: None, [], "1"),
    ("a source", lambda made: made.write("crates/verifier/src/mark", "2"), ["ci"], "2"),
    ("a source with an old time", lambda made: put_old(made, "crates/verifier/src/mark", "2"), ["ci"], "2"),
    ("the time of a source", lambda made: made.write("crates/verifier/src/mark", "1"), [], "1"),
    ("a source of a crate below", lambda made: put_old(made, "crates/low/src/lib.rt", "lower\n"), ["ci"], "1"),
    ("a new file", lambda made: put_old(made, "crates/low/proofs/New.antt", ""), ["ci"], "1"),
    ("crates.txt", lambda made: put_old(made, "crates.txt", CRATES.replace("low: history_commands", "low: history_commands seq")), ["ci"], "1"),
    ("a comment in crates.txt", lambda made: made.write("crates.txt", f"# Low\n{CRATES}"), [], "1"),
    ("the program, to a script", lambda made: put_foreign(made, "crates/verifier/out/verifier"), ["ci"], "1"),
    ("the program, to one with a record", lambda made: put_elsewhere_built(made, "crates/verifier/out/verifier"), ["ci"], "1"),
    ("the record, which is gone", lambda made: os.remove(f"{made.top}/crates/verifier/out/verifier.sha256"), ["ci"], "1"),
    ("the program, which is gone", lambda made: os.remove(f"{made.top}/crates/verifier/out/verifier"), ["ci"], "1"),
)


def proved_by_content(program, report):
    """The proved program is current if it and its sources are what they were at its proof, whatever their times. If not, it is proved again."""
    for number, (changed, change, calls, code) in enumerate(CHANGES_OF_PROVED):
        made = proved_checkout(program, f"proved_{number}")
        change(made)
        is_proved = made.run("crates/build", "--is-proved", "verifier").returncode == 0
        report.equal(f"building: is proved, after a change of {changed}", not calls, is_proved)
        report.equal(f"building: what is called, after a change of {changed}", calls, [call for call in builds_of(made) if call == "ci"])
        report.equal(f"building: the answer, after a change of {changed}", answers(code), made.answer("check", "h", "c"))
        report.equal(f"building: once more, after a change of {changed}", [], made.calls())


def each_program_alone(program, report):
    """A command builds the proved program that has it, and not the other one; each is current by its own sources."""
    made = checkout(program, "alone")
    report.equal("building: a check builds the verifier", answers("1"), made.answer("check", "h", "c"))
    there = [os.path.exists(f"{made.top}/crates/{path}") for path in ("verifier/out/verifier", "fcbench/out", "embedding/out")]
    report.equal("building: a check builds no bench and no library", [True, False, False], there)
    ran = made.answer("run", "--calls", "1")
    report.equal("building: run builds the bench, and is done by it", (0, "bench  1: run --calls 1\n"), ran)
    made.calls()
    made.write("crates/fcbench/src/mark", "2")
    report.equal("building: a change of the bench proves no verifier", (answers("1"), []), (made.answer("check", "h", "c"), made.calls()))
    report.equal("building: it proves the bench", (0, "bench  2: simulate s\n"), made.answer("simulate", "s"))


def builds_of(made):
    """What the stubs are called for by a check."""
    made.answer("check", "h", "c")
    return made.calls()


def unproved_by_content(program, report):
    """The unproved program is current in the same way."""
    made = checkout(program, "unproved")
    out = "crates/verifier/out/unproved"
    for changed, change, calls in (
        ("that it is missing", lambda: None, ["try"]),
        ("nothing", lambda: None, []),
        ("a source with an old time", lambda: put_old(made, "crates/verifier/src/mark", "2"), ["try"]),
        ("the program, to a script", lambda: put_foreign(made, out), ["try"]),
        ("the program, to one with a record", lambda: put_elsewhere_built(made, out), ["try"]),
    ):
        change()
        ran = made.run("crates/build", "--unproved", "verifier")
        report.equal(f"building: the unproved program, after a change of {changed}", (0, calls), (ran.returncode, made.calls()), ran)


def no_old_program(program, report):
    """If the verifier cannot be proved, ./fcbench ends with 70 and a message, and starts no old program."""
    old = lambda made: made.write("crates/verifier/src/mark", "2")  # noqa: E731
    for number, (what, prepare, says) in enumerate(
        (
            ("rt ci fails", lambda made: made.of_kit("ci.first", "exit 1"), "not proved: "),
            ("rt ci leaves no program", lambda made: made.of_kit("ci.first", "exit 0"), "not built: "),
            ("the kit is of another logic", lambda made: made.of_kit("logic", LOGIC[::-1]), "the kit is of another logic than "),
            ("HANDLES is missing", lambda made: os.remove(f"{made.top}/HANDLES"), "not built: "),
            ("the code names no logic", lambda made: made.write("crates/history_commands/src/version.rt", "//"), "says in another way which logic "),
            (
                "a source is changed meanwhile",
                lambda made: made.of_kit("ci.first", f"echo 3 >{made.top}/crates/verifier/src/mark"),
                "the code was changed meanwhile",
            ),
        )
    ):
        made = proved_checkout(program, f"old_{number}")
        old(made)
        prepare(made)
        ran = made.run("fcbench", "split", "h", "into")
        is_well = (ran.returncode, ran.stdout) == (70, "") and says in ran.stderr
        report.holds(f"building: {what}: 70, and no old program", is_well, ran)
        report.holds(f"building: {what}: it is not proved", made.run("crates/build", "--is-proved", "verifier").returncode != 0)
    made.of_kit("ci.first", "")
    report.equal("building: after a change meanwhile it is proved again", (0, "verifier  3: split h into\n"), made.answer("split", "h", "into"))


def changed_while_tools_are_built(program, report):
    """If the code of the verifier is changed while the tools are built, ./fcbench starts no program of the old code."""
    made = proved_checkout(program, "meanwhile")
    made.write("tools/finder/src/mark", "2")
    made.of_kit("cargo.first", f"echo 2 >{made.top}/crates/verifier/src/mark")
    ran = made.run("fcbench", "split", "h", "into")
    report.equal("building: a change while the tools are built", (0, "verifier  2: split h into\n"), (ran.returncode, ran.stdout), ran)
    calls = [call for call in made.calls() if call in ("cargo", "ci")]
    report.equal("building: it is proved after that, and the tools are built once", ["cargo", "ci"], calls)
    made = checkout(program, "meanwhile_at_first")
    made.of_kit("cargo.first", f"echo 2 >{made.top}/crates/verifier/src/mark")
    ran = made.run("fcbench", "split", "h", "into")
    is_well = (ran.returncode, ran.stdout) == (70, "") and "the code was changed meanwhile" in ran.stderr
    report.holds("building: a change while the tools are built after the first proof", is_well, ran)


def another_logic_unproved(program, report):
    """A kit of another logic builds nothing, without proofs too."""
    made = checkout(program, "logic")
    made.of_kit("logic", LOGIC[::-1])
    ran = made.run("crates/build", "--unproved", "verifier")
    report.holds("building: the kit is of another logic", ran.returncode == 70 and f"another logic than {LOGIC}" in ran.stderr, ran)
    report.equal("building: a kit of another logic is not called", [], made.calls())


def find_that_fails(program, report):
    """A `find` that fails hides no change."""
    made = proved_checkout(program, "find")
    made.program(f"{made.kit}/bin/find", "#!/bin/sh\nexit 1\n")
    made.write("crates/verifier/src/mark", "2")
    made.write("tools/finder/src/mark", "2")
    report.equal("building: a find that fails hides no change of the verifier", answers("2"), made.answer("check", "h", "c"))
    report.equal("building: a find that fails hides no change of the tools", (0, "tools 2: find h\n"), made.answer("find", "h"))


def tools_by_content(program, report):
    """The tools are current if they and their code are what they were when they were built, and cargo builds them in no other place."""
    tools = "tools/out/fcbench-tools"
    for number, (changed, change, code) in enumerate(
        (
            ("nothing", lambda made: None, "1"),
            ("a source with an old time", lambda made: put_old(made, "tools/finder/src/mark", "2"), "2"),
            ("Cargo.lock", lambda made: put_old(made, "tools/Cargo.lock", "# 2"), "1"),
            ("the program, to a script", lambda made: put_foreign(made, tools), "1"),
            ("the program, to one with a record", lambda made: put_elsewhere_built(made, tools), "1"),
        )
    ):
        made = proved_checkout(program, f"tools_{number}")
        change(made)
        elsewhere = {"CARGO_TARGET_DIR": f"{program.folder}/elsewhere"}
        report.equal(f"building: the tools, after a change of {changed}", (0, f"tools {code}: find h\n"), made.answer("find", "h", **elsewhere))
        report.equal(f"building: cargo is called, after a change of {changed}", ["cargo"] * (changed != "nothing"), made.calls())
        report.equal(f"building: the tools once more, after a change of {changed}", (0, f"tools {code}: find h\n"), made.answer("find", "h"))
        report.equal(f"building: cargo is not called again, after a change of {changed}", [], made.calls())
    for what, first in (("fails", "exit 1"), ("leaves nothing", "exit 0"), ("builds elsewhere", 'target="$kit/elsewhere"')):
        made = proved_checkout(program, f"tools_{what}")
        made.write("tools/finder/src/mark", "2")
        made.of_kit("cargo.first", first)
        report.equal(f"building: a cargo that {what}: 70, and no old tools", [(70, ""), (70, "")], [made.answer("find", "h") for _ in range(2)])


def library_by_content(program, report):
    """The library is current if it and its halves are what they were when they were joined."""
    out = "crates/embedding/out"
    for number, (changed, change, calls) in enumerate(
        (
            ("nothing", lambda made: None, set()),
            ("a source of the proved half", lambda made: put_old(made, "crates/embedding/src/mark", "2"), {"ci", "build", "join"}),
            ("a source of the finder", lambda made: put_old(made, "tools/finder/src/mark", "2"), {"cargo", "join"}),
            ("the proved half", lambda made: made.write(f"{out}/libembedding.a", "foreign"), {"ci", "build"}),
            ("the finder's half", lambda made: made.write("tools/out/libfcbench_c.a", "foreign"), {"cargo"}),
            ("the library", lambda made: made.write(f"{out}/libfcbench.so", "foreign"), {"join"}),
        )
    ):
        made = proved_checkout(program, f"library_{number}")
        change(made)
        elsewhere = {"CARGO_TARGET_DIR": f"{program.folder}/elsewhere"}
        ran = made.run("callers/build", **elsewhere)
        report.equal(f"building: the library, after a change of {changed}", (0, calls), (ran.returncode, set(made.calls())), ran)
        report.equal(f"building: the library once more, after a change of {changed}", (0, []), (made.run("callers/build").returncode, made.calls()))


def older_build_of_rattle(program, report):
    """The program as Rattle's own compiler builds it is there only if the last proof made one."""
    made = checkout(program, "by_rattle")
    out = "crates/verifier/out/verifier.by-rattle"
    for code, first, is_there in (("1", f"(cd crates/verifier && program verifier {out[len('crates/verifier/'):]})", True), ("2", "", False)):
        made.write("crates/verifier/src/mark", code)
        made.of_kit("ci.first", first)
        ran = made.run("crates/build")
        there = [os.path.exists(f"{made.top}/{path}") for path in (out, f"{out}.sha256")]
        report.equal(f"building: {out}, after the code {code}", (0, [is_there, is_there]), (ran.returncode, there), ran)


def installed_whole(program, report):
    """If ./install fails, it leaves the files of an older version as they are, and nothing else."""
    made, prefix = proved_checkout(program, "whole"), f"{program.folder}/prefix"
    report.equal("building: ./install", 0, made.run("install", prefix).returncode)
    older = {path: content(f"{prefix}/{path}") for path in files_in(prefix, ".")}
    made.write("crates/verifier/src/mark", "2")
    shutil.rmtree(f"{prefix}/share")
    with open(f"{prefix}/share", "w"):
        pass
    ran = made.run("install", prefix)
    report.holds("building: ./install into a PREFIX whose share is no folder", ran.returncode != 0 and not ran.stdout, ran)
    left = {path: content(f"{prefix}/{path}") for path in files_in(prefix, ".")}
    kept = {path: text for path, text in older.items() if not path.startswith("./share/")}
    report.equal("building: what ./install leaves then", kept | {"./share": b""}, left)
    os.remove(f"{prefix}/share")
    report.equal("building: ./install once more", 0, made.run("install", prefix).returncode)
    newer = {path: content(f"{prefix}/{path}") for path in files_in(prefix, ".")}
    report.equal("building: what ./install puts", sorted(older), sorted(newer))
    for own, path in (("verifier", "verifier/out/verifier"), ("bench", "fcbench/out/fcbench")):
        own_bytes = newer[f"./libexec/fcbench/fcbench-{own}"]
        report.equal(f"building: the {own} that ./install puts", content(f"{made.top}/crates/{path}"), own_bytes)


def content(path):
    """The bytes of a file."""
    with open(path, "rb") as file:
        return file.read()


def installed_into_checkout(program, report):
    """./install refuses the checkout as PREFIX, however it is written. ./fcbench never starts programs that were installed there."""
    made = proved_checkout(program, "prefix")
    os.symlink(made.top, f"{program.folder}/other_name")
    for prefix in (".", made.top, f"{made.top}/crates/..", f"{program.folder}/other_name"):
        ran = made.run("install", prefix)
        report.holds(f"building: ./install {prefix} is refused", ran.returncode == 64 and "PREFIX is this checkout" in ran.stderr, ran)
    for name in ("fcbench-verifier", "fcbench-tools"):
        put_foreign(made, f"libexec/fcbench/{name}")
    report.equal("building: libexec in the checkout, the verifier", answers("1"), made.answer("check", "h", "c"))
    report.equal("building: libexec in the checkout, the tools", (0, "verifier  1: verify h\n"), made.answer("judge", "h"))


def words_of_help(program, report):
    """A word after --, or in a file's name, asks for no help; and help starts no verifier, whatever is on the PATH. The tools decide whether a
    word asks for help. If they do not print it, they give no answer."""
    made = checkout(program, "help")
    put_foreign(made, "../kit/bin/fcbench")
    for words, status, says in (
        (("judge", "run -h 2.edn"), 0, "verifier  1: verify run -h 2.edn\n"),
        (("judge", "--", "-h"), 0, "verifier  1: verify --\n"),
        (("verify", "run --help 2.edn", "e.edn"), 0, "verifier  1: verify run --help 2.edn e.edn\n"),
        (("judge", "h.edn", "-h"), 0, "tools 1: judge h.edn -h\n"),
        (("judge", "--steps", "-h"), 70, ""),
        (("help", "judge"), 0, "tools 1: judge --help\n"),
        (("find", "h.edn"), 0, "tools 1: find h.edn\n"),
    ):
        for out in ("crates/verifier/out", "crates/embedding/out"):
            shutil.rmtree(f"{made.top}/{out}", ignore_errors=True)
        report.equal(f"building: ./fcbench {' '.join(words)}", (status, says), made.answer(*words))
    history = program.write("without_verifier.edn", "")
    for command in ("judge", "draw"):
        ran = program.run(command, history, env={"FCBENCH": "/dev/null"})
        report.equal(f"building: {command} without a verifier gives no answer", (70, b""), (ran.status, ran.out))


def quick_after_the_proof(program, report):
    """./fcbench --quick prints the proved answer if the verifier is proved, and otherwise an unproved one, on standard error."""
    made = checkout(program, "quick")
    ran = made.run("fcbench", "--quick", "check", "h", "c")
    is_well = (ran.returncode, ran.stdout) == (0, "") and "NOT PROVED YET\n" in ran.stderr and "verifier NOT PROVED 1: check h c" in ran.stderr
    report.holds("building: --quick before the proof", is_well, ran)
    made.run("crates/build")
    ran = made.run("fcbench", "--quick", "check", "h", "c")
    report.equal("building: --quick after the proof", (*answers("1"), ""), (ran.returncode, ran.stdout, ran.stderr))


@contextlib.contextmanager
def fifo(path):
    """Makes a FIFO, and opens it to read from it, without a wait for one who writes."""
    os.mkfifo(path)
    pipe = os.open(path, os.O_RDONLY | os.O_NONBLOCK)
    try:
        yield pipe
    finally:
        os.close(pipe)


def is_begun(pipe, process):
    """Whether something is written into a FIFO in time, while a process runs that does so."""
    end = time.monotonic() + SECONDS
    while process.poll() is None and time.monotonic() < end:
        if select.select([pipe], [], [], 0.1)[0]:
            return os.read(pipe, 100) != b""
    return False


def side_by_side(program, report):
    """Of two builds at the same moment one waits for the other, and builds nothing then. A build waits for a lock that is held."""
    for script, path, call in (("crates/build", "crates/verifier/out/verifier", "ci"), ("tools/build", "tools/out/fcbench-tools", "cargo")):
        made = checkout(program, f"beside_{call}")
        go_on = f"{made.kit}/go_on"
        os.mkfifo(go_on)
        # The first call waits until the second run has said something or ended.
        made.of_kit(f"{call}.first", 'if mkdir "$kit/first" 2>/dev/null; then echo >"$kit/begun"; read _ <"$kit/go_on"; fi')
        line, how = made.line(script)
        end_of_first = os.open(go_on, os.O_RDWR)
        with fifo(f"{made.kit}/begun") as begun, subprocess.Popen(line, stderr=subprocess.PIPE, **how) as first:
            report.holds(f"building: {script} begins", is_begun(begun, first))
            with subprocess.Popen(line, stderr=subprocess.PIPE, **how) as second:
                said = second.stderr.readline()
                os.write(end_of_first, b"\n")
                second.communicate()
            first.communicate()
        os.close(end_of_first)
        report.equal(f"building: {script} twice at once", (0, 0), (first.returncode, second.returncode))
        waits = f"fcbench: waiting for another run, which builds {made.top}/{path}\n"
        report.equal(f"building: {script} twice at once, what the second says", waits, said)
        report.equal(f"building: {script} twice at once, what is called", [call], [it for it in made.calls() if it == call])
        left = [name for name in os.listdir(os.path.dirname(f"{made.top}/{path}")) if name.endswith(".new")]
        report.equal(f"building: {script} twice at once, what is left", ([], []), (left, os.listdir(made.temporary)))


def is_ended(pipe):
    """Whether all processes that have the other end of a FIFO open end in time."""
    return bool(select.select([pipe], [], [], SECONDS)[0]) and not os.read(pipe, 100)


def ended_by_a_signal(program, report):
    """A signal to ./fcbench during the first build ends all that it started, and leaves nothing among the temporary files."""
    for name in (signal.SIGTERM, signal.SIGINT, signal.SIGHUP):
        for call, words in (("ci", ("split", "h", "into")), ("try", ("check", "h", "c")), ("cargo", ("find", "h"))):
            made = checkout(program, f"signal_{call}_{name}")
            never = f"{made.kit}/never"
            os.mkfifo(never)
            made.of_kit(f"{call}.first", 'exec 9>"$kit/alive"; echo >&9; (read _ <"$kit/never") & wait; exit 1')
            line, how = made.line("fcbench", *words)
            how |= {"stderr": subprocess.DEVNULL, "stdout": subprocess.DEVNULL}
            with fifo(f"{made.kit}/alive") as alive, subprocess.Popen(line, **how) as ran:
                is_well = is_begun(alive, ran)
                ran.send_signal(name)
                is_well = is_well and is_ended(alive)
                # What is still there, if something is, goes on.
                os.close(os.open(never, os.O_RDWR))
                ran.wait()
            report.equal(f"building: {name.name} during {call}", (True, 128 + name, []), (is_well, ran.returncode, os.listdir(made.temporary)))
            is_proved = made.run("crates/build", "--is-proved", "verifier").returncode == 0
            report.holds(f"building: {name.name} during {call} leaves nothing that is proved", not is_proved)


def odd_surroundings(program, report):
    """CDPATH, a standard input that is closed, and a TMPDIR whose name is a pattern change nothing."""
    made = checkout(program, "odd")
    how = {**made.line("fcbench")[1], "cwd": os.path.dirname(made.top), "capture_output": True}
    how["env"]["CDPATH"] = f".:{made.top}/crates"
    for words in (("checkout/fcbench", "check", "h", "c"), ("checkout/install", "prefix")):
        ran = subprocess.run(["bash", *words], stdin=subprocess.DEVNULL, **how)
        report.equal(f"building: {words[0]} with CDPATH", 0, ran.returncode, ran)
    shutil.rmtree(f"{made.top}/crates/verifier/out")
    ran = subprocess.run(["bash", "-c", "exec checkout/fcbench check h c <&-"], **how)
    report.equal("building: ./fcbench without standard input", answers("1"), (ran.returncode, ran.stdout))
    shutil.rmtree(f"{made.top}/crates/verifier/out")
    os.mkdir(f"{program.folder}/tmp[1]")
    for words in (("crates/build", "--unproved", "verifier"), ("crates/build",), ("tools/build",), ("callers/build",)):
        ran = made.run(*words, TMPDIR=f"{program.folder}/tmp[1]")
        report.equal(f"building: {' '.join(words)} with an odd TMPDIR", 0, ran.returncode, ran)
    report.equal("building: what is left in an odd TMPDIR", [], os.listdir(f"{program.folder}/tmp[1]"))


def not_built(program):
    """The folder of a repository whose tools are built, by cargo, and whose verifier is not."""
    made = checkout(program, "not_built")
    shutil.rmtree(f"{made.top}/tools")
    shutil.copytree(f"{ROOT}/tools", f"{made.top}/tools", ignore=shutil.ignore_patterns("target", "out"))
    keep(program.tools, f"{made.top}/tools/out/fcbench-tools", sums(made.top, files_of_tools(made.top)))
    return made.top


def script_of(top, path):
    """Runs ./fcbench of a repository with these words."""
    env = {**os.environ, "PATH": path}
    return lambda *words, **how: subprocess.run(["bash", f"{top}/fcbench", *words], env=env, capture_output=True, text=True, **how)


def not_named(text):
    """The commands that a text does not name."""
    return [command for command in (*COMMANDS, *OF_TOOLS) if not re.search(rf"\b{command}\b", text)]


def without_the_kit(program, report):
    """If the program must be built, ./fcbench says that the kit is missing. Help, find, and a program that is built need no kit."""
    if shutil.which("rt", path=BARE):
        return f"SKIPPED: rt is in one of {BARE}"
    top = not_built(program)
    run = script_of(top, BARE)
    advice = "fcbench: rt, the command of the Rattle kit, is not on the PATH\n"
    no_shards = "fcbench: split takes no --quick: an unproved build writes no folder of shards\n"
    for words, status, says in (
        (("--version",), 127, advice),
        (("--quick", "--version"), 127, advice),
        (("--quick", "split", "/not/there.edn", "shards"), 64, no_shards),
    ):
        ran = run(*words)
        report.equal(f"building: ./fcbench {' '.join(words)} without the kit", (status, "", says), (ran.returncode, ran.stdout, ran.stderr))
    for words in (("--help",), ("-h",), ("help",), ("check", "--help"), ("help", "check")):
        ran = run(*words)
        came = (ran.returncode, not_named(ran.stdout), ran.stderr)
        report.equal(f"building: ./fcbench {' '.join(words)} names each command, and needs no kit", (0, [], ""), came)
    for command in OF_TOOLS:
        own = program.run(command, "--help").out.decode()
        for words in ((command, "--help"), ("help", command)):
            ran = run(*words)
            report.equal(f"building: ./fcbench {' '.join(words)} needs no kit", (0, own, ""), (ran.returncode, ran.stdout, ran.stderr))
    ran = run()
    is_told = ran.stderr.startswith("error: a command is missing\n")
    report.holds("building: ./fcbench without a word needs no kit", (ran.returncode, ran.stdout) == (64, "") and is_told, ran)
    ran = run("verify", "h.edn", "e.edn", "--steps", "-h")
    came = (ran.returncode, ran.stdout, ran.stderr)
    report.equal("building: ./fcbench cannot tell without the verifier whether -h is a value", (127, "", advice), came)
    ran = run("find", f"{program.folder}/{program.write('of_find.edn', '')}")
    report.equal("building: ./fcbench find needs no kit", (0, ""), (ran.returncode, ran.stderr))
    keep(program.path, f"{top}/crates/verifier/out/verifier", sources_of("verifier", top))
    ran = run("--version")
    report.holds("building: ./fcbench that is built needs no kit", ran.returncode == 0 and ran.stdout and not ran.stderr, ran)
    return None


def nothing_to_prove(program, report):
    """If a command line is refused or a file cannot be read, ./fcbench says so and proves nothing. Otherwise it begins to prove the verifier,
    which fails here. It gives no first answer if a pipe is read. It prints the version of an unproved
    build."""
    top, folder = not_built(program), f"{program.folder}/with_rt"
    os.mkdir(folder)
    with open(f"{folder}/rt", "w") as file:
        file.write(f'#!/bin/sh\n[ "$1" = version ] && echo "stub logic {LOGIC}"\n')
    os.chmod(f"{folder}/rt", 0o755)
    keep(program.path, f"{top}/crates/verifier/out/unproved", sources_of("verifier", top))
    history = f"{program.folder}/{program.write('judged.edn', '')}"
    run = script_of(top, f"{folder}:{BARE}")
    for words, status in ((("judge",), 64), (("judge", "--json", history), 64), (("judge", "/not/there.edn"), 4), (("judge", history), 70)):
        ran = run(*words)
        is_first = ran.stdout == "" and "NOT PROVED YET" in ran.stderr
        is_well = ran.returncode == status and is_first and ("proving and building" in ran.stderr) == (status == 70)
        report.holds(f"building: ./fcbench {' '.join(words)} where the verifier is not proved", is_well, ran)
    ran = run("search", "/dev/stdin", input="")
    is_well = (ran.returncode, ran.stdout) == (70, "") and "no first answer" in ran.stderr and "NOT PROVED YET" not in ran.stderr
    report.holds("building: ./fcbench reads a pipe once", is_well and "proving and building" in ran.stderr, ran)
    with open(f"{EXAMPLES}/overlapping.history.edn") as file:
        ran = run("--quick", "search", "/dev/stdin", stdin=file)
    report.holds("building: ./fcbench --quick reads standard input", ran.returncode == 0 and ":order [" in ran.stderr, ran)
    ran = run("--version")
    is_well = (ran.returncode, ran.stderr) == (0, "") and ran.stdout.startswith("fcbench ")
    report.holds("building: ./fcbench --version proves nothing", is_well, ran)


PARTS = (
    proved_by_content, each_program_alone, unproved_by_content, no_old_program, changed_while_tools_are_built, another_logic_unproved,
    find_that_fails, tools_by_content, library_by_content, older_build_of_rattle, installed_whole, installed_into_checkout, words_of_help,
    quick_after_the_proof, side_by_side, ended_by_a_signal, odd_surroundings, without_the_kit, nothing_to_prove,
)
# Those that test the scripts alone, with stubs in place of the programs.
WITHOUT_PROGRAM = tuple(part for part in PARTS if part not in (words_of_help, without_the_kit, nothing_to_prove))
