#!/usr/bin/env python3
"""Counts what `judge` decides of histories that gen.py makes, with different numbers of values, of calls at once, and of calls.

    decide.py PROGRAM DIR [--calls N..] [--kinds K..] [--values N..] [--at-once N..] [--seeds N] [--seconds S] [--beside JUDGE [--its-seconds S]]

All of these histories are linearizable, so a decision is a yes. For each kind there is a row for each number of values and of calls at
once: how many of the seeds were decided, and the processor time of the middle one. A run that takes more than S seconds of processor time counts as
not decided. Rows are printed as Markdown. Histories have no failed and no pending calls, or 5 % and 2 % of them.

With JUDGE, the plain judge of judge_rs, each history is also searched by the algorithm of Wing, Gong and Lowe with memory, right after it is
judged: `judge search --wgl-hash --any-size`, with at most a billion steps, its S seconds, or else as many, and 6 GiB. A cell then has both,
ours first."""
import argparse
import os
import resource
import shutil
import statistics
import subprocess

HERE = os.path.dirname(os.path.realpath(__file__))
KINDS = ("queue", "stack", "heap", "register", "map", "mutex")


def history(folder, kind, values, at_once, calls, faulty, seed):
    """Makes a history and returns its name."""
    words = ["--kind", kind, "--calls", calls, "--concurrency", at_once, "--processes", at_once, "--seed", seed]
    words += ["--values", values] if values else ["--unique"]
    words += ["--fail", 0.05, "--info", 0.02] if faulty else ["--fail", 0, "--info", 0]
    subprocess.run(["python3", f"{HERE}/gen.py", "history", folder, *map(str, words)], check=True, stdout=subprocess.DEVNULL)
    return f"{folder}/history.edn"


def ran(words, seconds):
    """The status of a run, and its processor time. A run that takes too much of it, or of memory, ends with a signal."""

    def limit():
        resource.setrlimit(resource.RLIMIT_CPU, (seconds, seconds))
        resource.setrlimit(resource.RLIMIT_AS, (6 << 30, 6 << 30))

    before = resource.getrusage(resource.RUSAGE_CHILDREN)
    status = subprocess.run(words, stdout=subprocess.DEVNULL, stderr=subprocess.DEVNULL, preexec_fn=limit).returncode
    after = resource.getrusage(resource.RUSAGE_CHILDREN)
    return status, after.ru_utime - before.ru_utime + after.ru_stime - before.ru_stime


def cell(runs):
    """How many runs ended with yes, and the processor time of the middle one."""
    wrong = [status for status, _ in runs if status == 1]
    done = sum(status == 0 for status, _ in runs)
    middle = statistics.median(seconds for _, seconds in runs)
    return f"{done} of {len(runs)}, {middle:.2f} s" + (f", WRONG {wrong}" if wrong else "")


def row(asked, kind, values, calls, faulty):
    """The cells of one row."""
    cells = []
    for at_once in asked.at_once:
        ours, theirs = [], []
        for seed in range(1, asked.seeds + 1):
            folder = f"{asked.dir}/h"
            name = history(folder, kind, values, at_once, calls, faulty, seed)
            ours.append(ran([asked.program, "judge", name], asked.seconds))
            if asked.beside:
                plain = [asked.beside, "search", "--wgl-hash", "--any-size", "--steps", "1000000000", name]
                theirs.append(ran(plain, asked.its_seconds or asked.seconds))
            shutil.rmtree(folder)
        cells.append(cell(ours) + ("; " + cell(theirs) if theirs else ""))
    return cells


def main():
    words = argparse.ArgumentParser()
    words.add_argument("program")
    words.add_argument("dir")
    words.add_argument("--calls", type=int, nargs="+", default=[4096, 50_000])
    words.add_argument("--kinds", nargs="+", default=KINDS)
    words.add_argument("--values", type=int, nargs="+", default=[5, 100, 0], help="0: all different")
    words.add_argument("--at-once", type=int, nargs="+", default=[2, 8, 16, 100])
    words.add_argument("--seeds", type=int, default=3)
    words.add_argument("--seconds", type=int, default=20)
    words.add_argument("--beside", help="the plain judge of judge_rs")
    words.add_argument("--its-seconds", type=int)
    asked = words.parse_args()
    columns = [f"{n} at once" if n == asked.at_once[0] else str(n) for n in asked.at_once]
    print(f"| kind | calls | values | failed, pending | {' | '.join(columns)} |\n|{'---|' * (4 + len(columns))}")
    for kind in asked.kinds:
        for calls in asked.calls:
            for values in asked.values if kind != "mutex" else asked.values[:1]:
                for faulty in (False, True):
                    label = "-" if kind == "mutex" else values or "different"
                    cells = row(asked, kind, values, calls, faulty)
                    print(f"| {kind} | {calls:,} | {label} | {'5 %, 2 %' if faulty else '-'} | {' | '.join(cells)} |", flush=True)


if __name__ == "__main__":
    main()
