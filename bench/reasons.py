#!/usr/bin/env python3
"""Compares `judge` from start to end with a plain finder of reasons on histories of plant.py.

    reasons.py PROGRAM PLAIN DIR.. [--runs N] [--seconds S] [--plain-seconds S] [--together]

DIR is a folder of plant.py with the name KIND-CALLS-ATONCE-VALUES, where VALUES is `once` or a number. `PROGRAM judge FILE` and
`PLAIN find FILE` run in turn, N times, but once where a run takes a second, and the least processor time of each counts. Each may take as
many seconds of it as given. Answers are kept in DIR/answers.json, so that a run that was stopped can go on.

What `judge` says is checked by tests/edge/verify/reasons.py: the operations are of the history and have no valid order, or the count is exceeded.
Broken are the histories of which one of the two gives a reason; linearizable those for which one of the two found an order; of the others
nothing is known. The size is the number of operations that `judge` tells; that of a count is two. A row is printed for each
DIR; with --together for all numbers of calls at once together. The ratio is the middle of those of the histories for which both gave a reason."""
import argparse
import json
import os
import resource
import statistics
import subprocess
import sys
from collections import Counter

sys.dont_write_bytecode = True
HERE = os.path.dirname(os.path.realpath(__file__))
sys.path.insert(0, os.path.join(HERE, os.pardir, "tests"))

from edge.verify.reasons import TOLD, explained_in, why_not_shown  # noqa: E402


def ran(words, seconds):
    """The status of a run, what it wrote, and its processor time."""
    limit = lambda: resource.setrlimit(resource.RLIMIT_CPU, (seconds, seconds))
    run = subprocess.Popen(words, stdout=subprocess.PIPE, stderr=subprocess.DEVNULL, preexec_fn=limit)
    out = run.stdout.read()
    _, status, usage = os.wait4(run.pid, 0)
    run.returncode = os.waitstatus_to_exitcode(status)
    return run.returncode, out, usage.ru_utime + usage.ru_stime


def size_of(path, out):
    """The size of the reason that `judge` gives, which is checked."""
    explained, others = explained_in(out)
    if len(explained) != 1 or others:
        raise SystemExit("reasons.py: %s: no judgement: %r" % (path, out[:200]))
    on, operations, reason = explained[0]
    named = {int(group) for line in operations for group in TOLD.match(line).groups()[:2] if group}
    with open(path) as text:
        history = "".join(line if place in named else "{}" for place, line in enumerate(text))
    wrong = why_not_shown(history, on, operations, reason)
    if wrong:
        raise SystemExit("reasons.py: %s: %s" % (path, wrong))
    return 2 if ":count " in reason else len(operations)


def answers_on(asked, path):
    """What the two say of a history: the status and the seconds of each, and the size of the reason."""
    ours, plain = [], []
    for _ in range(asked.runs):
        ours.append(ran([asked.program, "judge", path], asked.seconds))
        plain.append(ran([asked.plain, "find", path, "--seconds", "600"], asked.plain_seconds))
        if ours[-1][2] + plain[-1][2] > 1:
            break
    status, out, _ = ours[0]
    if status == 0 and plain[0][0] == 1:
        raise SystemExit("reasons.py: %s: judge says yes, and the plain finder gives a reason" % path)
    return {
        "judge": status, "plain": plain[0][0], "size": size_of(path, out) if status == 1 else None,
        "seconds": min(run[2] for run in ours), "plain seconds": min(run[2] for run in plain),
    }


def answers(asked, folder):
    """The answers on all histories of a folder, each with the type of its bug."""
    kept = os.path.join(folder, "answers.json")
    if os.path.exists(kept):
        with open(kept) as text:
            return json.load(text)
    with open(os.path.join(folder, "planted.txt")) as text:
        names = [line.rstrip().split(" ", 1) for line in text]
    answered = [{"type": name, **answers_on(asked, os.path.join(folder, number + ".edn"))} for number, name in names]
    with open(kept, "w") as text:
        json.dump(answered, text)
    return answered


def seconds(time):
    return "%.0f ms" % (time * 1000) if time < 1 else "%.2f s" % time


def row(name, answered):
    """A row of the table."""
    broken = [answer for answer in answered if 1 in (answer["judge"], answer["plain"])]
    refuted = [answer for answer in broken if answer["judge"] == 1]
    linearizable = sum(0 in (answer["judge"], answer["plain"]) for answer in answered)
    sizes = [answer["size"] for answer in refuted]
    times = [answer["seconds"] for answer in broken]
    ratios = [answer["seconds"] / answer["plain seconds"] for answer in refuted if answer["plain"] == 1]
    missed = Counter(answer["type"] for answer in broken if answer["judge"] != 1)
    cells = [
        *name, len(answered), linearizable, len(answered) - linearizable - len(broken), len(broken), len(refuted),
        "%.0f %%" % (100 * len(refuted) / len(broken)) if broken else "-",
        "%g, %d" % (statistics.median(sizes), max(sizes)) if sizes else "-",
        "%s, %s" % (seconds(statistics.median(times)), seconds(max(times))) if times else "-",
        "%.1f" % statistics.median(ratios) if ratios else "-",
        ", ".join("%s %d" % pair for pair in missed.items()) or "-",
    ]
    return "| %s |" % " | ".join(str(cell) for cell in cells)


def main():
    words = argparse.ArgumentParser(description=__doc__, formatter_class=argparse.RawDescriptionHelpFormatter)
    words.add_argument("program")
    words.add_argument("plain")
    words.add_argument("dir", nargs="+")
    words.add_argument("--runs", type=int, default=3)
    words.add_argument("--seconds", type=int, default=20)
    words.add_argument("--plain-seconds", type=int, default=10)
    words.add_argument("--together", action="store_true")
    asked = words.parse_args()
    rows = {}
    for folder in asked.dir:
        kind, calls, at_once, values = os.path.basename(folder.rstrip("/")).split("-")
        values = "each once" if values == "once" else values
        name = (kind, "{:,}".format(int(calls)), values) if asked.together else (kind, "{:,}".format(int(calls)), at_once, values)
        rows.setdefault(name, []).extend(answers(asked, folder))
        if not asked.together:
            print(row(name, rows[name]), flush=True)
    if asked.together:
        for name, answered in rows.items():
            print(row(name, answered))


if __name__ == "__main__":
    main()
