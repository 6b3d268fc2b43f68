#!/usr/bin/env python3
"""Calls the library: a yes, a no, a malformed text, and a buffer that is too small."""
import os
import subprocess
import sys
import threading
import unittest

import fcbench
from fcbench import Verdict

QUEUE = """{:process 0, :type :invoke, :f :enqueue, :value 1}
{:process 0, :type :ok, :f :enqueue, :value 1}
{:process 0, :type :invoke, :f :dequeue}
{:process 0, :type :ok, :f :dequeue, :value 1}
"""
YES_LINES = "yes: 2 operations, 1 objects\nqueue: 1 objects, 2 operations\n"
# The register contains 2 where 1 is read.
OLD_READ = """{:process 0, :type :invoke, :f :write, :value 1}
{:process 0, :type :ok, :f :write, :value 1}
{:process 0, :type :invoke, :f :write, :value 2}
{:process 0, :type :ok, :f :write, :value 2}
{:process 0, :type :invoke, :f :read}
{:process 0, :type :ok, :f :read, :value 1}
"""


class Calls(unittest.TestCase):
    def test_yes(self):
        self.assertEqual(fcbench.judge(QUEUE), (Verdict.YES, YES_LINES))
        found = fcbench.find(QUEUE.encode())
        self.assertEqual(found, (Verdict.YES, "{:object 0, :order [0 2]}\n"))
        self.assertEqual(fcbench.check(QUEUE, found.lines).verdict, Verdict.YES)
        self.assertEqual(fcbench.verify(QUEUE, found.lines), (Verdict.YES, YES_LINES))
        self.assertEqual(fcbench.verify(QUEUE, b""), (Verdict.UNDECIDED, "; object 0: open\n"))

    def test_no(self):
        answer = fcbench.judge(OLD_READ)
        self.assertEqual(answer.verdict, Verdict.NO)
        self.assertTrue(answer.is_no() and not answer.is_yes() and not fcbench.judge(QUEUE).is_no())
        self.assertTrue(answer.lines.startswith("; object 0: impossible\n"))
        reason = answer.lines.splitlines()[-1].removeprefix("; ")
        self.assertEqual(fcbench.refute(OLD_READ, reason).verdict, Verdict.NO)
        self.assertEqual(fcbench.refute(QUEUE, reason).verdict, Verdict.UNDECIDED)
        self.assertEqual(fcbench.verify(OLD_READ, reason).verdict, Verdict.NO)
        self.assertEqual(fcbench.verify(OLD_READ, fcbench.find(OLD_READ).lines), answer)
        self.assertEqual(fcbench.check(QUEUE, b""), (Verdict.NO, "no: C1 object 0 has no certificate\n"))

    def test_reasons(self):
        two = OLD_READ + OLD_READ.replace(":process 0", ":process 1").replace("}", ", :object 1}")
        answer = fcbench.judge(two, steps=fcbench.STEPS)
        reasons = answer.reasons()
        self.assertFalse(answer.is_yes())
        self.assertEqual([line[:11] for line in reasons.splitlines()], ["{:object 0,", "{:object 1,"], reasons)
        self.assertEqual(fcbench.refute(two, reasons, steps=fcbench.STEPS).verdict, Verdict.NO)
        self.assertEqual(fcbench.refute(QUEUE, fcbench.judge(OLD_READ).reasons()).verdict, Verdict.UNDECIDED)
        self.assertTrue(fcbench.judge(QUEUE).is_yes())
        self.assertEqual(fcbench.judge(QUEUE).reasons(), "")

    def test_empty_history(self):
        self.assertEqual(fcbench.judge(""), (Verdict.YES, "yes: 0 operations, 0 objects\n"))

    def test_missing_library(self):
        """The last line of the error says what to do."""
        here = os.path.dirname(os.path.abspath(__file__))
        env = {**os.environ, "FCBENCH_SO": f"{here}/no.so"}
        ran = subprocess.run([sys.executable, "-c", "import fcbench"], env=env, cwd=here, capture_output=True, text=True)
        self.assertEqual(ran.returncode, 1)
        last = ran.stderr.splitlines()[-1]
        self.assertTrue(last.startswith("ImportError: ") and f"{here}/no.so" in last, last)
        self.assertTrue(last.endswith(": run callers/build, or set FCBENCH_SO to the file libfcbench.so"), last)

    def test_malformed(self):
        self.assertEqual(fcbench.judge("{:process 0"), (Verdict.MALFORMED, "malformed history: E2 at byte 11\n"))

    def test_what_cannot_be_passed_on(self):
        """Steps that C would cut, and what is no text, are refused."""
        for steps in (2**32, -1, True, 1.0):
            for call in (lambda: fcbench.judge(QUEUE, steps), lambda: fcbench.judge_into(QUEUE, steps, 10), lambda: fcbench.refute(QUEUE, "", steps)):
                self.assertRaises(ValueError, call)
        for text in (5, None, ["a"]):
            self.assertRaises(TypeError, lambda: fcbench.judge(text))
            self.assertRaises(TypeError, lambda: fcbench.check(QUEUE, text))

    def test_buffer_too_small(self):
        length = len(YES_LINES)
        self.assertEqual(fcbench.judge_into(QUEUE, fcbench.STEPS, 10), (Verdict.YES, b"yes: 2 ope", length))
        self.assertEqual(fcbench.judge_into(QUEUE, fcbench.STEPS, 0), (Verdict.YES, b"", length))

    def test_lines_longer_than_the_first_buffer(self):
        history = "".join(f"{{:process {x}, :type :invoke, :f :enqueue, :value 1, :object {x}}}\n" for x in range(40))
        found = fcbench.find(history)
        self.assertEqual((found.verdict, len(found.lines.splitlines())), (Verdict.YES, 40))

    def test_several_threads_at_once(self):
        """Each thread gets the answers of a call alone. ctypes lets other threads run during a call."""
        answers, no = [], fcbench.judge(OLD_READ)
        work = lambda: answers.extend(fcbench.judge(text) for text in (QUEUE, OLD_READ) * 50)  # noqa: E731
        threads = [threading.Thread(target=work) for _ in range(4)]
        for thread in threads:
            thread.start()
        for thread in threads:
            thread.join()
        self.assertEqual((answers.count((Verdict.YES, YES_LINES)), answers.count(no), no.verdict), (200, 200, Verdict.NO))


if __name__ == "__main__":
    unittest.main()
