"""What a terminal sees while a command is under way."""
import os
import subprocess
import threading
import time

from . import worked_rows
from .answers import end_feeder, feed, through_pipes
from .worked_rows import CERTIFICATES, HISTORY
from .running import SECONDS, Ran

# A pseudo-terminal writes a carriage return before a line feed.
UNDER_WAY = b"fcbench: under way\r\n"
# A pause that makes a command take more than a second. It is told before that.
LONG = 1.4
# So long it is waited for what is told, on a slow machine too.
LATEST = 60
# The most that a terminal may add to a short command. The program must add less than 0.05.
MOST = 0.025
# The fewest and the most runs by which a time is told: other work on the machine only adds to it.
FEWEST, TRIES = 15, 200
LONG_TRIES = 5


def read_all(end, got):
    """Reads a pseudo-terminal until the program's end of it is closed, and notes when each piece came."""
    while True:
        try:
            piece = os.read(end, 4096)
        except OSError:
            return
        if not piece:
            return
        got.append((time.monotonic(), piece))


def on_terminal(program, words, got=None):
    """Runs the program with a pseudo-terminal as standard error. Returns also the seconds at which it wrote there. What it writes is put into the
    list, where one is given, as it comes."""
    own, its = os.openpty()
    got = [] if got is None else got
    begun = time.monotonic()
    try:
        started = subprocess.Popen(
            program.line(words), stdin=subprocess.DEVNULL, stdout=subprocess.PIPE, stderr=its, cwd=program.folder
        )
        os.close(its)
        reader = threading.Thread(target=read_all, args=(own, got))
        reader.start()
        out = started.communicate(timeout=SECONDS)[0]
        seconds = time.monotonic() - begun
        reader.join()
    finally:
        os.close(own)
    ran = Ran(started.returncode, out, b"".join(part for _, part in got), seconds)
    return ran, [at - begun for at, _ in got]


def feed_when_told(pipe, text, got):
    """Writes a text to a named pipe when the terminal has got something."""
    late = time.monotonic() + LATEST
    while not got and time.monotonic() < late:
        time.sleep(0.01)
    feed(pipe, text, 100)


def waits_until_it_tells(program):
    """A command whose history comes when it has told something, and the seconds at which it did."""
    pipe, got = f"{program.folder}/late.edn", []
    os.mkfifo(pipe)
    late = threading.Thread(target=feed_when_told, args=(pipe, worked_rows.OVERLAPPING.encode(), got))
    late.start()
    ran, times = on_terminal(program, ("check", "late.edn", CERTIFICATES), got)
    end_feeder(pipe, late)
    return ran, times


def long_command(program, report):
    """A command of more than a second says once that it is under way, if standard error is a terminal."""
    program.write(CERTIFICATES, worked_rows.order(1, 0, 4))
    for _ in range(LONG_TRIES):
        ran, times = waits_until_it_tells(program)
        if times and times[0] < LONG:
            break
    report.answers("a long command on a terminal", ran, worked_rows.THREE_YES, 0, UNDER_WAY)
    report.holds("it says so after a second", times and 0.9 < times[0] < LONG, times)
    files = ((HISTORY, worked_rows.OVERLAPPING), (CERTIFICATES, worked_rows.order(1, 0, 4)))
    pause = LONG / len(worked_rows.OVERLAPPING)
    ran = through_pipes(program, files, ("check", HISTORY, CERTIFICATES), 1, pause)
    report.answers("a long command elsewhere says nothing", ran, worked_rows.THREE_YES, 0)
    report.holds("it was a long one", ran.seconds > 1.1, ran)


def short_command(program, report):
    """A short command says nothing on a terminal, and takes no longer there."""
    program.write(HISTORY, worked_rows.OVERLAPPING)
    program.write(CERTIFICATES, worked_rows.order(1, 0, 4))
    for words in (("check", HISTORY, CERTIFICATES), ("run", "--clients", "1", "--calls", "500"), ("--help",)):
        there, elsewhere, more = [], [], MOST
        while len(there) < FEWEST or len(there) < TRIES and more >= MOST:
            elsewhere.append(program.run(*words))
            there.append(on_terminal(program, words)[0])
            more = min(run.seconds for run in there) - min(run.seconds for run in elsewhere)
        report.equal(f"{words[0]}: a short command is answered alike on a terminal", [elsewhere[0]] * len(there), there)
        report.holds(f"{words[0]}: a short command takes no longer on a terminal", more < MOST, more)


PARTS = (long_command, short_command)
