#!/usr/bin/env python3
"""Records a queue that four threads use, as a history for fcbench.

    docs/record_queue.py [--fixed] > queue.history.edn
    docs/record_queue.py [--fixed] --judge          judges it in place, by the library that callers/build makes. The
                                                    status is the verdict, or 70 without one

The queue is a list with two indices. Its dequeue reads the index of the head and then moves it: without a lock (the bug) two threads can
take the same value. With --fixed it holds a lock meanwhile."""
import os
import random
import sys
import threading
import time

sys.path.insert(0, os.path.join(os.path.dirname(os.path.abspath(__file__)), "..", "callers", "python"))
from recorder import Recorder  # noqa: E402

THREADS, CALLS = 4, 50


class Queue:
    """A queue in a list, whose dequeue has a bug where it takes no lock."""

    def __init__(self, is_fixed):
        self.values, self.head = [], 0
        self.enqueuing, self.dequeuing, self.is_fixed = threading.Lock(), threading.Lock(), is_fixed

    def enqueue(self, value):
        with self.enqueuing:
            self.values.append(value)
        return value

    def dequeue(self):
        if self.is_fixed:
            with self.dequeuing:
                return self.take()
        return self.take()

    def take(self):
        head = self.head
        if head == len(self.values):
            return None
        time.sleep(0.00005)  # another thread may come in between
        self.head = head + 1
        return self.values[head]


def work(number, queue, journal, begin):
    """The calls of one thread, which begins when all have come. Each value is enqueued once, so that a fault has a small reason."""
    draw = random.Random(number)
    begin.wait()
    for call in range(CALLS):
        if draw.random() < 0.5:
            value = number * CALLS + call
            journal.call("enqueue", value, lambda: queue.enqueue(value))
        else:
            journal.call("dequeue", None, queue.dequeue)


def record(is_fixed):
    queue, recorder = Queue(is_fixed), Recorder()
    journals = [recorder.journal() for _ in range(THREADS)]
    begin = threading.Barrier(THREADS)
    threads = [threading.Thread(target=work, args=(number, queue, journal, begin)) for number, journal in enumerate(journals)]
    for thread in threads:
        thread.start()
    for thread in threads:
        thread.join()
    return recorder.history(journals)


def main(*words):
    history = record("--fixed" in words)
    if "--judge" not in words:
        sys.stdout.write(history)
        return 0
    import fcbench

    answer = fcbench.judge(history)
    sys.stdout.write(answer.lines)
    return int(answer.verdict)


if __name__ == "__main__":
    try:
        sys.exit(main(*sys.argv[1:]))
    except Exception as error:  # Python would end with 1, which is a no.
        print(f"record_queue.py: {type(error).__name__}: {error}", file=sys.stderr)
        sys.exit(70)
