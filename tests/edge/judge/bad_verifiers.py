"""Programs in place of the verifier: judge and draw print no answer of theirs, and end with no status of an answer. And what judge starts ends
with it, however that ends."""
import os
import shutil
import signal
import subprocess
import time

from .. import worked_rows
from ..running import SECONDS, without_warnings
from .bad_finders import finder
from .limits import ended, started

YES = "yes: 3 operations, 1 objects\nqueue: 1 objects, 3 operations\n"
NO = "; object 0: impossible\n; {:object 0, :cuts []}\n"
REFUSED = "no: C1 object 0 has no certificate\n"


def prints(lines, ends):
    """A script that prints these lines, and then ends so."""
    return f"printf '%s' '{lines}'; {ends}"


# Two operations that overlap, and no operation looks at what they did.
ONLY_PUT = worked_rows.lines(
    worked_rows.invoke(0, "enqueue", 1, 0),
    worked_rows.invoke(1, "enqueue", 2, 0),
    worked_rows.ok(0, "enqueue", 1, 0),
    worked_rows.ok(1, "enqueue", 2, 0),
)
# In place of the verifier: a script, and the status that judge and draw end with.
VERIFIERS = {
    "true": ("exec true", 70),
    "false": ("exec false", 70),
    "it prints nothing and ends with 3": ("exit 3", 70),
    "it prints a yes and ends with 1": (prints(YES, "exit 1"), 70),
    "it prints a yes and ends with 3": (prints(YES, "exit 3"), 70),
    "it prints a no and ends with 0": (prints(NO, "exit 0"), 70),
    "it prints the no of certificates and ends with 0": (prints(REFUSED, "exit 0"), 70),
    "it prints half a line and ends with 0": (prints("yes: 3 operat", "exit 0"), 70),
    "it prints a yes without its last line feed": (prints(YES[:-1], "exit 0"), 70),
    "it prints half a no and ends with 1": (prints(NO[:-4], "exit 1"), 70),
    "it prints an open object and ends with 1": (prints("; object 0: open\n", "exit 1"), 70),
    "it prints a yes and then a no, and ends with 0": (prints(YES + NO, "exit 0"), 70),
    "it prints other words and ends with 0": (prints("all is well\n", "exit 0"), 70),
    "it prints its arguments and ends with 0": ('exec echo "$@"', 70),
    "it prints bytes of no text and ends with 0": ("printf '\\377\\n'", 70),
    "it prints a yes and ends with 64": (prints(YES, "exit 64"), 70),
    "it prints a yes and ends with 70": (prints(YES, "exit 70"), 70),
    "it prints a yes and ends with 101": (prints(YES, "exit 101"), 70),
    "it prints a yes and aborts": (prints(YES, "kill -ABRT $$"), 3),
    "it prints a yes and is killed": (prints(YES, "kill -9 $$"), 3),
    "it is killed at once": ("kill -9 $$", 3),
    "it prints a yes, and says that a file failed": (prints(YES, "exit 4"), 4),
}


def script(program, name, body):
    """Writes a program, and returns its path."""
    path = f"{program.folder}/{program.write(name, f'#!/bin/sh{chr(10)}{body}{chr(10)}')}"
    os.chmod(path, 0o755)
    return path


def bad_verifiers(program, report):
    """judge, draw, and draw with certificates, of a history that is linearizable and of one that is not, by a program that is no verifier."""
    texts = {"good.edn": worked_rows.OVERLAPPING, "bad.edn": worked_rows.THREE_VALUES, "orders.edn": worked_rows.order(1, 0, 4)}
    for name, text in texts.items():
        program.write(name, text)
    lines = [(*words, history, *more) for history in ("good.edn", "bad.edn") for words, more in
             ((("judge",), ()), (("draw",), ()), (("draw",), ("orders.edn",)))]
    for number, (name, (body, wanted)) in enumerate(VERIFIERS.items()):
        path = script(program, f"verifier.{number}", body)
        for words in lines:
            ran = program.run(*words, env={"FCBENCH": path})
            report.equal(f"{' '.join(words)}: {name}", (wanted, b""), (ran.status, ran.out))
            report.holds(f"{' '.join(words)}: {name}: standard error", b"verifier" in ran.err or wanted == 4, ran)
    return f"{len(VERIFIERS)} programs, {len(VERIFIERS) * len(lines)} runs"


def number_in(path):
    """The number of the process that a script has written into this file, which it makes last."""
    until = time.monotonic() + SECONDS
    while not os.path.exists(path):
        if time.monotonic() > until:
            raise TimeoutError(path)
        time.sleep(0.01)
    with open(path, encoding="ascii") as file:
        return int(file.read())


def state(process):
    """The letter of the state of a process, or nothing if there is none. Z: it has ended, and how is not asked yet."""
    try:
        with open(f"/proc/{process}/stat", encoding="ascii") as file:
            return file.read().rpartition(")")[2].split()[0]
    except (FileNotFoundError, ProcessLookupError):
        return ""


def is_over(process):
    """Whether a process ends. It is waited for, since the system needs a moment."""
    until = time.monotonic() + SECONDS
    while state(process) not in ("", "Z", "X"):
        if time.monotonic() > until:
            return False
        time.sleep(0.01)
    return True


# A script writes the number of its process, as a whole, and then works without end.
ENDLESS = 'echo $$ >"$0.new"; mv "$0.new" "$0.pid"; exec sleep 100000'


def judges_that_are_killed(program, report):
    """If judge alone gets a signal that ends it, the finder and the verifier end too."""
    program.write("history.edn", worked_rows.OVERLAPPING)
    for number in (signal.SIGKILL, signal.SIGHUP, signal.SIGINT):
        finding, verifying = (script(program, f"{word}.{number}", ENDLESS) for word in ("finder", "verifier"))
        child = started(program, "judge", "history.edn", env={"FCBENCH_FINDER": finding, "FCBENCH": verifying})
        processes = [number_in(f"{path}.pid") for path in (finding, verifying)]
        os.kill(child.pid, number)
        ended(child)
        report.equal(f"judge: {number.name}: its finder and its verifier end", [True, True], [is_over(it) for it in processes])


def closed_output(program, report):
    """A command of the tools that has no standard output ends with 4 and says so, as one of the verifier does."""
    history, orders = program.write("history.edn", worked_rows.OVERLAPPING), program.write("orders.edn", worked_rows.order(1, 0, 4))
    for words in (("judge", history), ("find", history), ("draw", history), ("draw", history, orders), ("import", history), ("judge", "--help"),
                  ("check", history, orders)):
        ran = program.run("".join(words[:1]), *words[1:], stdout=None, preexec_fn=lambda: os.close(1))
        says = b"the output failed" if words[0] != "check" else b""
        report.holds(f"{' '.join(words)} >&-: 4", ran.status == 4 and says in ran.err, ran)
    to_nothing = program.run("judge", history, stdout=subprocess.DEVNULL)
    report.equal("judge >/dev/null: 0", 0, to_nothing.status)


def histories_of_open_files(program, report):
    """However a path leads to standard input, judge and draw judge the text that is there, or say that they cannot; never another one."""
    path = f"{program.folder}/{program.write('open.edn', worked_rows.OUT_OF_ORDER)}"
    os.symlink("/dev/stdin", f"{program.folder}/link.edn")
    lines = [(command, *words) for command in ("judge", "draw") for words in (("/dev/stdin",), ("//dev/stdin",), ("/dev/fd/0",), ("link.edn",))]
    for words in lines:
        for is_removed in (False, True):
            copy = shutil.copy(path, f"{program.folder}/copy.edn")
            with open(copy, "rb") as file:
                if is_removed:
                    os.remove(copy)
                ran = subprocess.run([program.tools, *words], stdin=file, cwd=program.folder, capture_output=True)
            said = b"it must be a file that has a name\n" if is_removed else b""
            wanted = (4, True) if is_removed else (1, False)
            is_well = (ran.returncode, ran.stdout == b"") == wanted and said in ran.stderr
            report.holds(f"{' '.join(words)} <{'a file that was removed' if is_removed else 'a file'}", is_well, ran)


def counted_operations(program, report):
    """In place of a yes, or of undecided, judge and draw end with 3 and print nothing if fewer operations returned than --at-least says, or none. A
    no and a malformed text are told all the same; verify and check count nothing."""
    pending = worked_rows.lines(worked_rows.invoke(0, "enqueue", 1, 0))
    failed = worked_rows.lines(worked_rows.invoke(0, "write", 1, 0), "{:process 0, :type :fail, :f :write, :value 1}")
    nemesis = "{:process :nemesis, :type :info, :f :kill}\n"
    none, three = b"fcbench: no operation returned\n", worked_rows.OVERLAPPING
    told = b"fcbench: 3 of at least 4 operations returned\n"
    for name, text, words, status, err in (
        ("an empty text", "", (), 3, none),
        ("a nemesis alone", nemesis, (), 3, none),
        ("a pending operation", pending, (), 3, none),
        ("a failed operation", failed, (), 3, none),
        ("a pending operation, 0", pending, ("--at-least", "0"), 0, b""),
        ("an empty text, 0", "", ("--at-least=0",), 0, b""),
        ("three operations", three, (), 0, b""),
        ("three operations, 3", three, ("--at-least", "3"), 0, b""),
        ("three operations, 4", three, ("--at-least", "4"), 3, told),
        ("a no, 4", worked_rows.OUT_OF_ORDER, ("--at-least", "500000"), 1, b""),
        ("a malformed text, 4", worked_rows.AFTER_INFO, ("--at-least", "500000"), 2, b""),
        ("undecided", worked_rows.FIRST_WRITE_LAST, ("--steps", "0", "--at-least", "500000"), 3, b"of at least 500000 operations returned\n"),
    ):
        history = program.write("counted.edn", text)
        for command in ("judge", "draw"):
            ran = subprocess.run([program.tools, command, *words, history], cwd=program.folder, capture_output=True)
            errors = without_warnings(("judge",), ran)
            is_well = ran.returncode == status and bool(errors) == bool(err) and errors.endswith(err) and not (err and ran.stdout)
            report.holds(f"{command}: {name}", is_well, ran)
    evidence = program.write("none.edn", "")
    report.equal("verify of an empty history", 0, program.run("verify", evidence, evidence).status)
    report.equal("check of an empty history", 0, program.run("check", evidence, evidence).status)


def strict_judgements(program, report):
    """With --strict there is no yes with a warning, whatever finder there is; other answers stay."""
    apart, together = worked_rows.ENQUEUE_DEQUEUE, worked_rows.OVERLAPPING
    bad = finder(program, "strict", "exit 3", "")
    good = finder(program, "orders", 'cat "$evidence"', worked_rows.order(0, 2))
    for name, text, status, env in (
        ("no two operations overlap", apart, 3, {}),
        ("no reply depends on the order", ONLY_PUT, 3, {}),
        ("the same, by a finder that says nothing", apart, 3, {"FCBENCH_FINDER": good}),
        ("the same, by one that finds nothing", apart, 3, {"FCBENCH_FINDER": bad}),
        ("operations that overlap", together, 0, {}),
        ("a no", worked_rows.OUT_OF_ORDER, 1, {}),
        ("a malformed text", worked_rows.AFTER_INFO, 2, {}),
    ):
        history = program.write("strict.edn", text)
        ran = program.run("judge", "--strict", history, env=env)
        report.equal(f"judge --strict: {name}", status, ran.status)
        if name != "the same, by one that finds nothing" and status == 3:
            says = b"fcbench: --strict: it is a yes, which is not printed, with a warning\n"
            report.equal(f"judge --strict: {name}: lines", (b"", says), (ran.out, ran.err))
            told = subprocess.run(program.line(("judge", "--strict", history)), cwd=program.folder, capture_output=True)
            report.holds(f"judge --strict: {name}: the reason", told.stderr.startswith(b"fcbench: warning: no "), told)
    three = script(program, "verifier.of_three", prints(YES, "exit 0"))
    ran = program.run("judge", "--at-least", "4", program.write("four.edn", worked_rows.TWO_QUEUES), env={"FCBENCH": three})
    report.equal("judge --at-least: no more have returned than the verifier has read", (3, b""), (ran.status, ran.out))


PARTS = (bad_verifiers, judges_that_are_killed, closed_output, histories_of_open_files, counted_operations, strict_judgements)
