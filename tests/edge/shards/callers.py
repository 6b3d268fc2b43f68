"""What looks for the evidence of shards side by side: the lines of docs/shards.md, and the client for Dask."""
import os
import re
import shlex
import shutil
import signal
import subprocess
import sys
import time

from .dividing import Folder, judged
from .trusted_statuses import BELIEVED, TRUST
from ..judge.like_recorded import played
from ..running import ROOT, SECONDS, Ran
from ..text_writers import lines
from ..words import DISPATCH

CLIENT = f"{ROOT}/callers/dask/fcbench_dask.py"
SHARDS = 12
# A scheduler of three workers, which prints its address and the processes of the workers, and ends with its input.
CLUSTER = """
import os, sys
from dask.distributed import Client, LocalCluster
if __name__ == "__main__":
    with LocalCluster(n_workers=3, threads_per_worker=1, memory_limit=0, dashboard_address=None) as cluster, Client(cluster) as client:
        print(cluster.scheduler_address, *client.run(os.getpid).values(), flush=True)
        sys.stdin.read()
"""


def whole(seed, wrong=False):
    """A history of objects of each kind. In one of them a reply may be wrong."""
    maps = played(("queue", "stack", "heap", "register", "map", "mutex") * 4, 600, 5, seed=f"callers {seed}", lost=3, refused=5, nemeses=2).maps
    if wrong:
        at = max(at for at, text in enumerate(maps) if ":type :ok, :f :dequeue" in text)
        maps[at] = re.sub(r"(?<=:value )(nil|\d+)", "100000", maps[at])
    return lines(*maps)


def installed(program, before_find=""):
    """A folder with a script fcbench, as an installed one, that may do something before each find."""
    os.makedirs(f"{program.folder}/bin", exist_ok=True)
    script = f"{program.folder}/bin/fcbench"
    with open(script, "w", encoding="utf-8") as file:
        file.write(f'#!/bin/sh\n[ "$1" != find ] || {{ {before_find or ":"}; }}\n')
        file.write(f"FCBENCH='{program.path}' FCBENCH_BENCH='{program.bench}' FCBENCH_TOOLS='{program.tools}' exec '{DISPATCH}' \"$@\"\n")
    os.chmod(script, 0o755)
    return f"{program.folder}/bin"


def in_shell(program, line, cwd):
    """Runs a line of shell, with fcbench on the path."""
    path = f"{installed(program)}:{os.environ['PATH']}"
    ran = subprocess.run(["sh", "-c", line], cwd=cwd, env={**os.environ, "PATH": path}, capture_output=True, timeout=SECONDS)
    return Ran(ran.returncode, ran.stdout, ran.stderr)


def by_statuses(folder, expected):
    """What merge says by the statuses of 64 workers, and what it is to say where verify says this of the whole."""
    ran = folder.merge(TRUST)
    yes = b"yes by statuses: 64 shards\n" if expected.status == 0 else b""
    head = (BELIEVED % 64).encode()
    is_well = ran.out == head + yes if yes else re.fullmatch(re.escape(head) + rb"(; shard \d+: no\n)+", ran.out)
    return (expected.status, True), (ran.status, bool(is_well))


def documented_lines(program, report):
    """The lines of shell in docs/shards.md that look for the evidence of 64 shards, or judge them, lead to what verify says of the whole."""
    with open(f"{ROOT}/docs/shards.md", encoding="utf-8") as file:
        found = dict(re.findall(r"^    (.*\b(xargs|make) .*)$", file.read(), re.M))
    report.equal("docs/shards.md: two lines with xargs, and one with make", ["make", "xargs", "xargs"], sorted(found.values()))
    skipped = {name for name in found.values() if not shutil.which(name)}
    for number, (line, name) in enumerate(found.items()):
        for wrong in (False, True) if name not in skipped else ():
            expected, _ = judged(program, "whole", whole(name, wrong))
            folder = Folder(program, f"{number}.{wrong}", 64)
            report.equal(f"{name}: split", 0, folder.split("whole.edn").status)
            in_shell(program, line, folder.path())
            if "fcbench judge" in line:
                report.equal(f"{name}: merge {TRUST}: {line}", *by_statuses(folder, expected))
            else:
                report.equal(f"{name}: merge: {line}", expected, folder.merge())
    return "".join(f"{name} is not there: SKIPPED" for name in sorted(skipped))


# ---- Dask


def python_with_dask():
    """A Python that has dask.distributed, or None: Debian's has it where python3-distributed is installed."""
    for python in (sys.executable, "/usr/bin/python3"):
        if os.path.exists(python) and subprocess.run([python, "-c", "import dask.distributed"], capture_output=True).returncode == 0:
            return python
    return None


class Cluster:
    """A scheduler and its workers in processes of their own."""

    def __init__(self, python, program):
        script = f"{program.folder}/{program.write('cluster.py', CLUSTER)}"
        pipes = {"stdin": subprocess.PIPE, "stdout": subprocess.PIPE, "stderr": subprocess.DEVNULL, "text": True}
        self.process = subprocess.Popen([python, script], cwd=program.folder, **pipes)
        self.address, *workers = self.process.stdout.readline().split()
        self.workers = [int(worker) for worker in workers]

    def __enter__(self):
        return self

    def __exit__(self, *_):
        self.process.stdin.close()
        self.process.wait(SECONDS)


def client_line(python, program, folder, *options):
    return [python, CLIENT, folder.path(), "--program", f"{program.folder}/bin/fcbench", *options]


def by_dask(python, program, folder, *options):
    """Runs the client on a folder."""
    ran = subprocess.run(client_line(python, program, folder, *options), capture_output=True, timeout=SECONDS)
    return Ran(ran.returncode, ran.stdout, ran.stderr)


def is_so_soon(is_so, seconds=60):
    """Waits until something is so, and returns whether it is."""
    until = time.monotonic() + seconds
    while not is_so() and time.monotonic() < until:
        time.sleep(0.02)
    return is_so()


def is_running(number):
    """Whether a process runs. One that has ended may still have a row until its parent asks."""
    try:
        with open(f"/proc/{number}/stat", encoding="utf-8", errors="replace") as file:
            return file.read().rpartition(")")[2].split()[0] != "Z"
    except OSError:
        return False


def evidence_in(folder):
    return [name for name in folder.names() if name.endswith(".evidence")]


def by_workers_of_one_machine(python, program, report):
    """By processes of one machine, by files and by texts that are sent: yes, no, and a second run, which has nothing left to find."""
    installed(program)
    for wrong in (False, True):
        expected, _ = judged(program, "whole", whole("local", wrong))
        for options in ((), ("--send",)):
            folder = Folder(program, f"local.{wrong}.{len(options)}", SHARDS)
            folder.split("whole.edn")
            ran = by_dask(python, program, folder, "--workers", "2", *options)
            report.equal(f"dask: wrong: {wrong}, {options}", (expected.status, expected.out), (ran.status, ran.out), ran.err)
            report.equal(f"dask: wrong: {wrong}, {options}: the evidence", SHARDS, len(evidence_in(folder)))
        ran = by_dask(python, program, folder, "--scheduler", "tcp://127.0.0.1:1")
        report.equal("dask: all evidence is there, so no worker is asked", (expected.status, expected.out), (ran.status, ran.out), ran.err)


def with_its_finder_killed(python, program, report):
    """If a process that runs a finder is killed, the finder ends too."""
    installed(program, f'echo $$ >"{program.folder}/finder"; exec sleep 60')
    look = (
        f"import sys; sys.path.insert(0, {os.path.dirname(CLIENT)!r}); import fcbench_dask; "
        f"fcbench_dask.find({program.folder + '/bin/fcbench'!r}, 'x', [])"
    )
    worker = subprocess.Popen([python, "-B", "-c", look])
    finder = f"{program.folder}/finder"
    is_so_soon(lambda: os.path.exists(finder) and os.path.getsize(finder) > 0)
    with open(finder, encoding="ascii") as file:
        number = int(file.read())
    report.holds("dask: a finder runs", is_running(number))
    worker.kill()
    worker.wait()
    report.holds("dask: the finder of a worker that was killed has ended", is_so_soon(lambda: not is_running(number)))


def with_a_worker_killed(python, program, report):
    """A worker that is killed by its process id while finders run changes nothing in the answer."""
    expected, _ = judged(program, "whole", whole("killed"))
    installed(program, "sleep 0.5")
    folder = Folder(program, "killed", SHARDS)
    folder.split("whole.edn")
    with Cluster(python, program) as cluster:
        client = subprocess.Popen(
            client_line(python, program, folder, "--scheduler", cluster.address, "--progress"), stdout=subprocess.PIPE, stderr=subprocess.PIPE
        )
        is_so_soon(lambda: evidence_in(folder))
        found = len(evidence_in(folder))
        os.kill(cluster.workers[0], signal.SIGKILL)
        out, err = client.communicate(timeout=SECONDS)
    report.holds("dask: the worker was killed while shards were left", 0 < found < SHARDS, found)
    report.equal("dask: a worker was killed", (expected.status, expected.out), (client.returncode, out), err)
    report.equal("dask: a worker was killed: the evidence", SHARDS, len(evidence_in(folder)))


def with_a_finder_that_fails(python, program, report):
    """Shards whose finder always fails are undecided, and the client says which."""
    judged(program, "whole", whole("failing"))
    installed(program, "case $2 in */3.edn) exit 9 ;; esac")
    folder = Folder(program, "failing", SHARDS)
    folder.split("whole.edn")
    ran = by_dask(python, program, folder, "--workers", "2")
    report.equal("dask: a finder fails: the evidence", SHARDS - 1, len(evidence_in(folder)))
    report.holds("dask: a finder fails: the shard is open", ran.status == 3 and b"; object 3: open\n" in ran.out, ran)
    report.holds("dask: a finder fails: the shard is named", b"fcbench_dask: shard 3: no evidence: " in ran.err, ran)


# What a program prints in place of the lines of merge, how it ends, and the status of the client.
BAD_MERGES = (
    ("", "exit 0", 70),
    ("", "exit 1", 70),
    ("yes: 1 operations, 1 objects\n", "exit 1", 70),
    ("yes: 1 opera", "exit 0", 70),
    ("; object 0: impossible\n", "exit 0", 70),
    ("; object 0: impossible\n", "exit 3", 70),
    ("; object 0: open\n", "exit 1", 70),
    ("all is well\n", "exit 0", 70),
    ("yes: 1 operations, 1 objects\n", "kill -9 $$", 3),
    ("yes: 1 operations, 1 objects\n", "exit 4", 4),
    ("yes: 1 operations, 1 objects\n", "exit 64", 70),
)


def with_another_program(python, program, report):
    """A program that is no fcbench gives no verdict, and neither does one that is missing, a folder that has no shards, or wrong words."""
    folder = Folder(program, "another", 1)
    judged(program, "whole", whole("another"))
    folder.split("whole.edn")
    folder.write("0.evidence", b"")
    client = lambda *words, options=(): subprocess.run([python, *options, CLIENT, *words], capture_output=True, timeout=SECONDS)  # noqa: E731
    for number, (said, ends, wanted) in enumerate(BAD_MERGES):
        path = f"{program.folder}/{program.write(f'merge.{number}', lines('#!/bin/sh', f'printf %s {shlex.quote(said)}', ends))}"
        os.chmod(path, 0o755)
        ran = client(folder.path(), "--program", path)
        report.equal(f"dask: a program that prints {said!r}: {ends}", (wanted, b""), (ran.returncode, ran.stdout), ran.stderr)
    for words, wanted in (
        ((folder.path(), "--program", "/there/is/none"), 4),
        ((program.folder,), 4),
        ((), 64),
        ((folder.path(), "--workers", "x"), 64),
    ):
        ran = client(*words)
        report.equal(f"dask: {words[1:]}", (wanted, b""), (ran.returncode, ran.stdout), ran.stderr)
    without = client(folder.path(), options=("-S",))
    report.equal("dask: without Dask", (70, b""), (without.returncode, without.stdout), without.stderr)


def shards_by_dask(program, report):
    """The client for Dask gets the evidence from workers on one machine, also if one of them is killed."""
    python = python_with_dask()
    if not python:
        return "SKIPPED: missing, apt-get update; apt-get install -y python3-distributed"
    by_workers_of_one_machine(python, program, report)
    with_its_finder_killed(python, program, report)
    with_a_worker_killed(python, program, report)
    with_a_finder_that_fails(python, program, report)
    with_another_program(python, program, report)


PARTS = (documented_lines, shards_by_dask)
