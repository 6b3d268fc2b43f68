#!/usr/bin/env python3
"""Judges a history in shards on the workers of Dask: they look for evidence, and `fcbench merge` checks it here.

    fcbench split HISTORY FOLDER
    fcbench_dask.py FOLDER [--scheduler ADDRESS | --workers N] [--send] [--steps N] [--progress] [--program FCBENCH]

Without an address N processes of this machine are the workers. They read the shards in FOLDER, which must then have the same path
everywhere; with --send they are sent the texts. FCBENCH is the program, here and on each worker. Evidence is written into FOLDER,
and a shard that has evidence is passed over, so a run that was stopped goes on. Lines and status are those of `fcbench merge FOLDER`, 3
if that was killed, or 70 if they are of no answer: no worker need be believed, and a shard without evidence is undecided.

This needs Dask: on Debian the package python3-distributed."""
import argparse
import collections
import contextlib
import os
import re
import shutil
import subprocess
import sys
import tempfile
import time
import zlib

# How find ends that has written evidence: each object has an order; or some have none. FAILED it is on some objects, or could not begin.
FOUND, FAILED = (0, 3), 70
MALFORMED = 2
# How often a shard is tried again after a finder that was killed or could not be started. That of a lost worker is given to another
# one by Dask itself.
RETRIES = 2
# How many shards are under way for each thread of the workers, so that none waits.
AHEAD = 2
BETWEEN_NOTES = 2.0
# What a `merge` that ends with a status prints, by the table of docs/commands.md. With 4 a file could not be read, as standard error says.
NO = r"(?m)^; object \d+: impossible$"
LINES = {
    0: r"\Ayes: \d+ operations, \d+ objects\n(\w+: \d+ objects, \d+ operations\n)*\Z",
    1: NO,
    2: r"(?m)^shard \d+: (malformed history: .*|its table does not fit|it has \d+ maps, and not \d+)$",
    3: r"(?m)^(; object \d+: (open|out of .*)|shard \d+: (malformed evidence: .*|too large)|out of memory)$",
}
UNDECIDED, UNREADABLE, WRONG_WORDS, NO_ANSWER = 3, 4, 64, 70
try:
    from dask.distributed import Client, LocalCluster, as_completed
except Exception as missing:  # Python would end with 1, which says that the history is not linearizable.
    print(f"fcbench_dask: {missing}", file=sys.stderr)
    sys.exit(NO_ANSWER)
# What a worker's finder is started by, if it is there: the finder is killed when the worker is.
TIED = ("setpriv", "--pdeathsig", "KILL")


def find(program, stem, steps):
    """Looks for the evidence of the shard in `stem.edn`. Returns it, or None if the shard is malformed, and what the finder says.
    Workers do this."""
    line = [program, "find", f"{stem}.edn", "--places", f"{stem}.places", "--workers", "1", *steps]
    if shutil.which(TIED[0]):
        line = [*TIED, *line]
    ran = subprocess.run(line, stdin=subprocess.DEVNULL, capture_output=True, check=False)
    said = ran.stderr.decode(errors="replace").strip()
    if ran.returncode in FOUND or ran.returncode == FAILED and ran.stdout:
        return ran.stdout, said
    if ran.returncode == MALFORMED:
        return None, said
    raise RuntimeError(f"{program} find ended with {ran.returncode}: {said}")


def find_sent(program, texts, steps):
    """The same for a shard that is sent: the texts of `.edn` and `.places`."""
    with tempfile.TemporaryDirectory() as folder:
        for ending, text in texts.items():
            with open(f"{folder}/shard.{ending}", "wb") as file:
                file.write(zlib.decompress(text))
        return find(program, f"{folder}/shard", steps)


class Shards:
    """The shards of a folder."""

    def __init__(self, folder):
        self.folder = os.path.abspath(folder)
        with open(f"{self.folder}/shards", encoding="ascii") as file:
            counts = file.read()
        if not counts.endswith("\n"):
            raise OSError(f"{self.folder}/shards is cut")
        self.count = int(counts.splitlines()[0])

    def stem(self, shard):
        return f"{self.folder}/{shard}"

    def without_evidence(self):
        return [number for number in range(self.count) if not os.path.exists(f"{self.stem(number)}.evidence")]

    def packed(self, shard):
        """The texts of a shard, as they are sent."""
        texts = {}
        for ending in ("edn", "places"):
            with open(f"{self.stem(shard)}.{ending}", "rb") as file:
                texts[ending] = zlib.compress(file.read(), 1)
        return texts

    def write_evidence(self, shard, text):
        """Writes the evidence of a shard, as a whole or not at all."""
        part = f"{self.stem(shard)}.evidence.part"
        with open(part, "wb") as file:
            file.write(text)
        os.replace(part, f"{self.stem(shard)}.evidence")


def note(text):
    print(text, file=sys.stderr, flush=True)


class Search:
    """The search for the evidence of all shards."""

    def __init__(self, client, shards, given, steps):
        self.client, self.shards, self.given, self.steps = client, shards, given, steps
        self.waiting = collections.deque(shards.without_evidence())
        self.under_way = {}
        self.begun = self.told = time.monotonic()

    def submit(self):
        """Gives the next shard to the workers."""
        shard = self.waiting.popleft()
        program, how = self.given.program, {"retries": RETRIES, "pure": False}
        if self.given.send:
            # The texts are arguments: scatter fails if the worker that it chooses was just lost.
            future = self.client.submit(find_sent, program, self.shards.packed(shard), self.steps, **how)
        else:
            future = self.client.submit(find, program, self.shards.stem(shard), self.steps, **how)
        self.under_way[future.key] = shard
        return future

    def threads(self):
        """How many threads the workers have that are there now."""
        return sum(self.client.nthreads().values())

    def next_ones(self):
        """As many shards as the workers have no room for yet, given to them."""
        room = AHEAD * max(1, self.threads()) - len(self.under_way)
        return [self.submit() for _ in range(min(room, len(self.waiting)))]

    def take(self, future):
        """Writes the evidence of a shard that is done."""
        shard = self.under_way.pop(future.key)
        try:
            evidence, said = future.result()
        except Exception as error:  # Whatever went wrong on a worker: the shard has no evidence.
            evidence, said = None, str(error) or type(error).__name__
        if evidence is None:
            note(f"fcbench_dask: shard {shard}: no evidence: {said}")
            return
        self.shards.write_evidence(shard, evidence)
        if said:
            note(f"fcbench_dask: shard {shard}: {said}")

    def tell(self):
        """Says how far it is, now and then."""
        if self.given.progress and time.monotonic() >= self.told + BETWEEN_NOTES:
            self.told = time.monotonic()
            done = self.shards.count - len(self.waiting) - len(self.under_way)
            seconds = int(self.told - self.begun)
            workers = len(self.client.nthreads())
            note(f"; shards done: {done} of {self.shards.count}, {workers} workers, after {seconds} s")

    def all(self):
        """Looks for the evidence of each shard that has none."""
        done = as_completed(self.next_ones())
        for future in done:
            self.take(future)
            self.tell()
            for more in self.next_ones():
                done.add(more)


@contextlib.contextmanager
def client_of(given):
    """A client of the workers: those of a scheduler, or processes of this machine."""
    if given.scheduler:
        with Client(given.scheduler) as client:
            yield client
    else:
        own = {"n_workers": given.workers, "threads_per_worker": 1, "memory_limit": 0, "dashboard_address": None}
        with LocalCluster(**own) as cluster, Client(cluster) as client:
            yield client


class Line(argparse.ArgumentParser):
    """A command line that is refused with the status of fcbench: that of argparse says that a text is malformed."""

    def error(self, message):
        self.print_usage(sys.stderr)
        self.exit(WRONG_WORDS, f"{self.prog}: error: {message}\n")


def words():
    """What the command line says."""
    line = Line(description=__doc__, formatter_class=argparse.RawDescriptionHelpFormatter, usage=argparse.SUPPRESS)
    line.add_argument("folder")
    workers = line.add_mutually_exclusive_group()
    workers.add_argument("--scheduler")
    workers.add_argument("--workers", type=int, default=os.cpu_count())
    line.add_argument("--send", action="store_true")
    line.add_argument("--steps", type=int)
    line.add_argument("--progress", action="store_true", default=sys.stderr.isatty())
    line.add_argument("--program", default="fcbench")
    return line.parse_args()


def is_answer(status, lines):
    """Whether a `merge` that ends with this status may have printed these lines. Of another program it is not."""
    fits = status in LINES and re.search(LINES[status], lines) and lines.endswith("\n")
    return bool(fits) and bool(re.search(NO, lines)) <= (status in (1, 2))


def merged(program, folder, steps):
    """Merges the shards of a folder, and prints the lines. Returns the status."""
    ran = subprocess.run([program, "merge", folder, *steps], stdout=subprocess.PIPE, check=False)
    lines = ran.stdout.decode(errors="replace")
    if is_answer(ran.returncode, lines):
        print(lines, end="", flush=True)
        return ran.returncode
    if ran.returncode == UNREADABLE:
        return UNREADABLE
    if ran.returncode < 0:
        note(f"fcbench_dask: {program} merge was killed by the signal {-ran.returncode}")
        return UNDECIDED
    note(f"fcbench_dask: {program} merge ended with {ran.returncode} and without the lines of such an answer: is it fcbench?")
    return NO_ANSWER


def main():
    given = words()
    steps = [] if given.steps is None else ["--steps", str(given.steps)]
    shards = Shards(given.folder)
    if shards.without_evidence():
        with client_of(given) as client:
            client.wait_for_workers(1)
            Search(client, shards, given, steps).all()
    return merged(given.program, shards.folder, steps)


if __name__ == "__main__":
    try:
        sys.exit(main())
    except Exception as error:  # Python would end with 1, which says that the history is not linearizable.
        note(f"fcbench_dask: {type(error).__name__}: {error}")
        sys.exit(UNREADABLE if isinstance(error, OSError) else NO_ANSWER)
