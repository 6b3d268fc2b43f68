#!/usr/bin/env python3
"""Drives a right queue and one with a race by 4 threads, records them, and judges the histories. FCBENCH_RUNS says how many runs of
each are made."""
import os
import queue as queues
import sys
import threading
import time
import unittest

import fcbench
from fcbench import Verdict
from recorder import Failed, Recorder

THREADS, CALLS, MOST_OPERATIONS = 4, 50, 5
# Of the calls of a right queue more overlap another one: all but some of the thread that ends last.
LEAST_OVERLAP = 0.5
# A thread waits no longer for others, in seconds: only if one of them has died.
PATIENCE = 60
RUNS = int(os.environ.get("FCBENCH_RUNS", "100"))
sys.setswitchinterval(0.00001)  # so that threads take turns often


class Queue:
    """Its dequeue reads the index of the head and then moves it."""

    def __init__(self, has_race):
        self.values, self.head, self.has_race = [], 0, has_race
        self.waiting, self.working, self.deadline = 0, THREADS, time.monotonic() + PATIENCE
        self.enqueuing, self.dequeuing, self.counting = threading.Lock(), threading.Lock(), threading.Lock()

    def enqueue(self, value):
        """In a right queue each call waits at first, so that calls overlap on each machine."""
        if not self.has_race:
            self.wait_for_another()
        with self.enqueuing:
            self.values.append(value)

    def dequeue(self):
        if self.has_race:
            return self.take()
        self.wait_for_another()
        with self.dequeuing:
            return self.take()

    def take(self):
        """The race: another thread may come in between and take the same value. A thread waits for one, so each run has the fault: the
        first two that come in take the same."""
        head = self.head
        if head == len(self.values):
            return None
        if self.has_race:
            self.wait_for_another()
        self.head = head + 1
        return self.values[head]

    def count(self, waiting=0, working=0):
        with self.counting:
            self.waiting += waiting
            self.working += working

    def wait_for_another(self):
        """Waits until another thread is here too, or no other one is at work. While a thread waits, the others need not, so they go on
        and end."""
        self.count(waiting=1)
        while self.waiting < 2 and self.working > 1 and time.monotonic() < self.deadline:
            time.sleep(0.00005)
        self.count(waiting=-1)


def work(queue, journal, client):
    for i in range(CALLS):
        value = client * CALLS + i
        if i % 2 == 0:
            journal.call("enqueue", value, lambda: queue.enqueue(value))
        else:
            journal.call("dequeue", None, queue.dequeue)
    queue.count(working=-1)


def record(has_race):
    queue, recorder = Queue(has_race), Recorder()
    journals = [recorder.journal() for _ in range(THREADS)]
    threads = [threading.Thread(target=work, args=(queue, journal, process)) for process, journal in enumerate(journals)]
    for thread in threads:
        thread.start()
    for thread in threads:
        thread.join()
    return recorder.history(journals), recorder.overlap(journals)


class Queues(unittest.TestCase):
    def test_right(self):
        for _ in range(RUNS):
            history, overlap = record(has_race=False)
            answer = fcbench.judge(history)
            self.assertEqual(answer.verdict, Verdict.YES, answer.lines)
            self.assertIn(overlap.at_once, range(1, THREADS + 1))
            self.assertGreater(overlap.share, LEAST_OVERLAP)

    def test_race(self):
        for _ in range(RUNS):
            answer = fcbench.judge(record(has_race=True)[0])
            operations = sum(line.startswith("; event") for line in answer.lines.splitlines())
            self.assertEqual(answer.verdict, Verdict.NO, answer.lines)
            self.assertIn(operations, range(1, MOST_OPERATIONS + 1), answer.lines)

    def test_pending_and_failed_calls(self):
        recorder = Recorder()
        journal = recorder.journal()

        def raise_it(error):
            raise error

        with self.assertRaises(TimeoutError):
            journal.call("write", 7, lambda: raise_it(TimeoutError()), number=3)
        with self.assertRaises(Failed):
            journal.call("cas", (7, 8), lambda: raise_it(Failed()), number=3)
        self.assertIs(journal.call("cas", (8, 9), lambda: False, number=3), False)
        wanted = """{:process 0, :type :invoke, :f :write, :value 7, :object 3}
{:process 0, :type :info, :f :write, :value 7, :object 3}
{:process 1, :type :invoke, :f :cas, :value [7 8], :object 3}
{:process 1, :type :fail, :f :cas, :value [7 8], :object 3}
{:process 1, :type :invoke, :f :cas, :value [8 9], :object 3}
{:process 1, :type :ok, :f :cas, :value false, :object 3}
"""
        self.assertEqual(recorder.history([journal]), wanted)

    def test_the_example_at_the_head(self):
        queue = queues.SimpleQueue()
        recorder = Recorder()
        journals = [recorder.journal(), recorder.journal()]  # before the threads, one for each
        journal = journals[0]
        journal.call("enqueue", 7, lambda: queue.put(7))

        def dequeue():
            try:
                return queue.get(block=False)
            except queues.Empty:
                return None

        journal.call("dequeue", None, dequeue)
        text = recorder.history(journals)
        wanted = """{:process 0, :type :invoke, :f :enqueue, :value 7, :object 0}
{:process 0, :type :ok, :f :enqueue, :value 7, :object 0}
{:process 0, :type :invoke, :f :dequeue, :value nil, :object 0}
{:process 0, :type :ok, :f :dequeue, :value 7, :object 0}
"""
        self.assertEqual(text, wanted)
        self.assertEqual(recorder.history(journals), wanted)
        self.assertIsNone(journal.call("dequeue", None, dequeue))
        self.assertIn(":type :ok, :f :dequeue, :value nil", recorder.history(journals))

    def test_lines_of_the_tutorial(self):
        recorder = Recorder()
        journals = [recorder.journal()]
        journals[0].call("enqueue", 7, lambda: None)
        answer = fcbench.judge(recorder.history(journals))
        assert answer.verdict is fcbench.Verdict.YES, answer.lines

    def test_journal_that_is_not_handed_in(self):
        """Without the calls of the lost journal the history says that 7 is dequeued and was never enqueued."""
        recorder = Recorder()
        lost, kept = recorder.journal(), recorder.journal()
        lost.call("enqueue", 7, lambda: None)
        lost.invoke("enqueue", 8)
        kept.call("dequeue", None, lambda: 7)
        for _ in range(2):
            with self.assertRaisesRegex(ValueError, "^3 events are missing: a journal is missing, or this recorder has already made a history$"):
                recorder.history([kept])
        with self.assertRaisesRegex(ValueError, "^a journal was handed in twice$"):
            recorder.history([kept, lost, kept])
        with self.assertRaisesRegex(ValueError, "^a journal of another recorder was handed in$"):
            Recorder().history([kept])
        self.assertTrue(fcbench.judge(recorder.history([kept, lost])).is_yes())

    def test_replies_of_calls_that_give_nothing(self):
        recorder = Recorder()
        journal = recorder.journal()
        for number, function in enumerate(["enqueue", "push", "insert", "write"]):
            journal.call(function, 7, lambda: None, number)
            journal.try_call(function, 8, lambda: None, [queues.Full], number)
        journal.call("acquire", None, lambda: None, 4)
        journal.call("release", None, lambda: None, 4)
        text = recorder.history([journal])
        self.assertEqual(text.count(":value nil"), 4, text)
        self.assertTrue(fcbench.judge(text).lines.startswith("yes: 10 operations"), text)

    def test_reply_that_is_not_the_argument(self):
        """As a length, or a bool that says that it was done."""
        for reply, said in ((2, "2"), (True, "true"), (False, "false")):
            recorder = Recorder()
            journal = recorder.journal()
            journal.call("enqueue", 7, lambda: None)
            journal.call("enqueue", 1, lambda: reply)
            with self.assertRaisesRegex(ValueError, f"^enqueue replied {said} and not its argument 1: let the call give None$"):
                recorder.history([journal])

    def test_swap_that_replies_true(self):
        """Many stores say whether a swap took place, and no more."""
        recorder = Recorder()
        journal = recorder.journal()
        journal.call("write", 1, lambda: None)
        self.assertIs(journal.call("cas", (1, 2), lambda: True), True)
        self.assertIs(journal.call("cas", (1, 3), lambda: False), False)
        text = recorder.history([journal])
        self.assertIn(":type :ok, :f :cas, :value [1 2]", text)
        self.assertTrue(fcbench.judge(text).is_yes(), text)

    def test_call_that_no_history_can_have(self):
        """It is refused before it is made, and the journal goes on."""
        recorder = Recorder()
        journal = recorder.journal()
        for function, argument, said in (
            ("insert_min", 1, "'insert_min' is not one of the functions enqueue, dequeue, "),
            ("put", 1, "1 cannot be the argument of put, which is a pair of integers$"),
            ("put", (1, 2, 3), r"\(1, 2, 3\) cannot be the argument of put, which is a pair of integers$"),
            ("write", True, "True cannot be the argument of write, which is an integer$"),
            ("write", 1.5, "1.5 cannot be the argument of write, which is an integer$"),
            ("dequeue", 1, "1 cannot be the argument of dequeue, which is None$"),
            ("write", "a", "'a' cannot be the argument of write: a history has integers, so number your strings$"),
            ("put", ("k", 1), r"\('k', 1\) cannot be the argument of put: a history has integers, so number your strings$"),
        ):
            with self.assertRaisesRegex(ValueError, f"^{said}"):
                journal.call(function, argument, lambda: self.fail("the call was made"))
            journal.invoke("read", None, 1)
            with self.assertRaisesRegex(ValueError, f"^{said}"):
                journal.returned_as(function, argument, None)
            journal.returned(None)
        self.assertTrue(fcbench.judge(recorder.history([journal])).lines.startswith("yes: 8 operations"))

    def test_reply_that_is_not_given(self):
        """Only a reply that says so says that nothing was there."""
        for function, argument in (("put", (1, 2)), ("del", 1), ("get", 1), ("dequeue", None), ("cas", (1, 2))):
            recorder = Recorder()
            journal = recorder.journal()
            journal.invoke(function, argument)
            journal.returned()
            with self.assertRaisesRegex(ValueError, f"^{function} was given no reply"):
                recorder.history([journal])
        recorder = Recorder()
        journal = recorder.journal()
        journal.invoke("put", (1, 2))
        journal.returned(None)
        self.assertTrue(fcbench.judge(recorder.history([journal])).is_yes())

    def test_sets_counters_and_locks(self):
        """Functions whose reply is a truth value, a number, or nothing."""
        recorder = Recorder()
        journal = recorder.journal()
        for number, function, argument, reply in (
            (0, "add", 5, True),
            (0, "add", 5, False),
            (0, "contains", 5, True),
            (0, "remove", 5, True),
            (1, "fetch-add", 2, 0),
            (1, "get-count", None, 2),
            (2, "lock", 7, True),
            (2, "unlock", 7, None),
            (3, "assoc", (1, 10), None),
            (3, "put-if-absent", (1, 11), False),
            (3, "replace", (1, 10, 12), True),
            (3, "dissoc", 1, None),
            (4, "create", 1, True),
            (4, "clear", None, None),
        ):
            journal.call(function, argument, lambda reply=reply: reply, number)
        text = recorder.history([journal])
        self.assertIn(":type :invoke, :f :replace, :value [1 10 12], :object 3", text)
        self.assertTrue(fcbench.judge(text).lines.startswith("yes: 14 operations, 5 objects"), text)

    def test_question_that_is_not_answered(self):
        """The reply of add is a truth value."""
        recorder = Recorder()
        journal = recorder.journal()
        journal.call("add", 5, lambda: None)
        with self.assertRaisesRegex(ValueError, "^add replied nil, and neither True nor False"):
            recorder.history([journal])

    def test_call_that_is_known_when_it_returned(self):
        """Put-if-absent twice on one key, and a fetch-and-add."""
        recorder, map_of = Recorder(yields=False), {}
        journal = recorder.journal()
        for value in (5, 6):
            journal.invoke("put", (1, value))
            found = map_of.setdefault(1, value)
            if found == value:
                journal.returned_as("put", (1, value), None)
            else:
                journal.returned_as("get", 1, found)
        journal.call("write", 3, lambda: None, number=1)
        journal.invoke("cas", (0, 1), number=1)
        journal.returned_as("cas", (3, 4), (3, 4))
        wanted = """{:process 0, :type :invoke, :f :put, :value [1 5], :object 0}
{:process 0, :type :ok, :f :put, :value nil, :object 0}
{:process 0, :type :invoke, :f :get, :value 1, :object 0}
{:process 0, :type :ok, :f :get, :value 5, :object 0}
{:process 0, :type :invoke, :f :write, :value 3, :object 1}
{:process 0, :type :ok, :f :write, :value 3, :object 1}
{:process 0, :type :invoke, :f :cas, :value [3 4], :object 1}
{:process 0, :type :ok, :f :cas, :value [3 4], :object 1}
"""
        text = recorder.history([journal])
        self.assertEqual(text, wanted)
        self.assertTrue(fcbench.judge(text).is_yes())

    def test_lists_that_change_later(self):
        """An argument and a reply are those of the moment of the call, even if their owner changes them later."""
        recorder = Recorder(False)
        journal, stored = recorder.journal(), {}
        pair = [1, 1]
        for value in (1, 2):
            pair[1] = value
            journal.call("assoc", pair, lambda: stored.update([pair]))
            journal.call("get", 1, lambda: stored[1])
        journal.call("write", 3, lambda: None, 1)
        pair[:] = 3, 4
        journal.call("cas", pair, lambda: pair, 1)
        journal.invoke("cas", (0, 0), 1)
        journal.returned_as("cas", pair, pair)
        pair[:] = 9, 9
        text = recorder.history([journal])
        self.assertEqual(text.count("[1 1]"), 1)
        self.assertEqual(text.count("[1 2]"), 1)
        self.assertEqual(text.count("[3 4]"), 4)
        self.assertNotIn("9", text)

    def test_overlap(self):
        """Of five calls the second and third overlap, and the fourth and the one that is pending."""
        recorder = Recorder()
        one, other = recorder.journal(), recorder.journal()
        one.call("enqueue", 1, lambda: None)
        one.invoke("enqueue", 2)
        other.call("enqueue", 3, lambda: one.returned(2))
        one.invoke("enqueue", 4)
        other.invoke("enqueue", 5)
        self.assertEqual(recorder.overlap([one, other]), (4 / 5, 2))
        self.assertEqual(Recorder().overlap([]), (0.0, 0))

    def test_steps(self):
        """A call in steps: one that timed out, one that failed, and one that returned."""
        recorder, full = Recorder(), queues.Queue(maxsize=1)
        journal = recorder.journal()
        journal.try_call("enqueue", 6, lambda: full.put(6, block=False), [queues.Full])
        with self.assertRaises(queues.Full):
            journal.try_call("enqueue", 7, lambda: full.put(7, block=False), [queues.Full])
        journal.invoke("enqueue", 7)
        journal.gave_up()
        journal.invoke("enqueue", 8)
        journal.failed()
        journal.invoke("dequeue", None)
        journal.returned(6)
        with self.assertRaisesRegex(ValueError, "^no call is outstanding$"):
            journal.returned(6)
        journal.invoke("enqueue", 9)
        journal.returned()
        journal.invoke("enqueue", 10)
        wanted = """{:process 0, :type :invoke, :f :enqueue, :value 6, :object 0}
{:process 0, :type :ok, :f :enqueue, :value 6, :object 0}
{:process 0, :type :invoke, :f :enqueue, :value 7, :object 0}
{:process 0, :type :fail, :f :enqueue, :value 7, :object 0}
{:process 0, :type :invoke, :f :enqueue, :value 7, :object 0}
{:process 0, :type :info, :f :enqueue, :value 7, :object 0}
{:process 1, :type :invoke, :f :enqueue, :value 8, :object 0}
{:process 1, :type :fail, :f :enqueue, :value 8, :object 0}
{:process 1, :type :invoke, :f :dequeue, :value nil, :object 0}
{:process 1, :type :ok, :f :dequeue, :value 6, :object 0}
{:process 1, :type :invoke, :f :enqueue, :value 9, :object 0}
{:process 1, :type :ok, :f :enqueue, :value 9, :object 0}
{:process 1, :type :invoke, :f :enqueue, :value 10, :object 0}
{:process 1, :type :info, :f :enqueue, :value 10, :object 0}
"""
        text = recorder.history([journal])
        self.assertEqual(text, wanted)
        self.assertTrue(fcbench.judge(text).is_yes())


if __name__ == "__main__":
    unittest.main()
