"""Records the calls of threads on concurrent objects, as a history for fcbench. Copy this file.

    recorder = Recorder()
    journals = [recorder.journal(), recorder.journal()]  # before the threads, one for each
    # in a thread, which has its journal:
    journal.call("enqueue", 7, lambda: queue.put(7))
    journal.call("dequeue", None, dequeue)
    # after the threads have ended:
    text = recorder.history(journals)

An empty queue is a reply and no error, so a `get` that raises at an empty queue is called by a function that gives None:

    def dequeue():
        try:
            return queue.get(block=False)
        except queues.Empty:
            return None

A counter gives a ticket before each call and one after it: next() of itertools.count is one step in CPython. A thread writes into its own
journal and takes no lock. The events in the order of their tickets are the history: if it shows one call returning before another was invoked,
that is what happened. So a history that is not linearizable shows that the object is not.

A journal that is not handed to `history` takes its calls with it: `history` raises ValueError then.

Calls that never overlap show no fault. So after one ticket of an invocation in eight the thread yields, which leaves room for
another thread: Recorder(yields=False) turns this off. `overlap` says how much the calls of the journals overlapped.

The reply of enqueue, push, insert and write is their argument: if the call gives None, the argument is written. `history` raises
ValueError if it returns anything else, such as a length. The reply of cas is True, or its pair, if it swapped, else False. That of put and del is
what was there before, or None if nothing was: a store that does not tell it has assoc and dissoc. The reply of these, of clear, and of
acquire, release, lock and unlock is None, or True, as threading.Lock has it. That of add, remove, contains, create, put-if-absent and replace
is True or False. That of fetch-add is the number before.

What a call was may be known only when it has returned, as a put-if-absent that gives the value that it found, which is a get then. `invoke` it
as put-if-absent, since if it times out, it may have put, and end it with returned_as("put-if-absent", (k, v), True) or
returned_as("get", k, found).

A call that does not return, such as one that raises or times out, may have happened: its operation ends with :info, and the journal goes on
as a new process, as Jepsen's threads do. One that definitely did not happen raises Failed, or one of the errors that are given to try_call: its
operation ends with :fail. If a call that timed out is written as failed, a correct queue gets a no."""
import collections
import itertools
import time

# How many numbers the argument of each function has.
ARGUMENTS = {
    **{"enqueue": 1, "dequeue": 0, "push": 1, "pop": 0, "insert": 1, "extract-min": 0, "acquire": 0, "release": 0, "lock": 1, "unlock": 1},
    **{"write": 1, "read": 0, "cas": 2, "create": 1, "clear": 0, "add": 1, "remove": 1, "contains": 1, "fetch-add": 1, "get-count": 0},
    **{"put": 2, "get": 1, "del": 1, "assoc": 2, "dissoc": 1, "put-if-absent": 2, "replace": 3},
}
SHAPES = ("None", "an integer", "a pair of integers", "three integers")
PUTS = ("enqueue", "push", "insert", "write")
# The reply of these is nil.
SILENT = ("acquire", "release", "lock", "unlock", "assoc", "dissoc", "clear")
# The reply of these is true or false.
QUESTIONS = ("add", "remove", "contains", "create", "put-if-absent", "replace")
# A thread yields after one ticket of an invocation in this many.
CALLS_TO_A_YIELD = 8

# What share of the calls overlapped another one, from 0 to 1, and how many were outstanding at once at most.
Overlap = collections.namedtuple("Overlap", "share at_once")


class NotGiven:
    """No reply was given."""


class Failed(Exception):
    """The call definitely did not happen."""


def text_of(value):
    """An argument or a reply: None, a truth value, a number, or a vector of numbers."""
    if value is None or value is NotGiven:
        return "nil"
    if isinstance(value, bool):
        return str(value).lower()
    if isinstance(value, (tuple, list)):
        return f"[{' '.join(map(str, value))}]"
    return str(value)


def written(value):
    """The text of an argument or a reply. Raises ValueError for one that no history can have."""
    if value is not None and value is not NotGiven and not isinstance(value, bool):
        numbers = value if isinstance(value, (tuple, list)) else (value,)
        if any(isinstance(number, bool) or not isinstance(number, int) for number in numbers):
            raise ValueError(f"{value!r} is neither an integer, nor integers, nor None, True or False")
    return text_of(value)


def check_call(function, argument):
    """Raises ValueError for a function or an argument that no history can have."""
    if function not in ARGUMENTS:
        raise ValueError(f"{function!r} is not one of the functions {', '.join(ARGUMENTS)}")
    numbers = () if argument is None else argument if isinstance(argument, (tuple, list)) else (argument,)
    if any(isinstance(number, (str, bytes)) for number in numbers):
        raise ValueError(f"{argument!r} cannot be the argument of {function}: a history has integers, so number your strings")
    if len(numbers) != ARGUMENTS[function] or any(isinstance(number, bool) or not isinstance(number, int) for number in numbers):
        raise ValueError(f"{argument!r} cannot be the argument of {function}, which is {SHAPES[ARGUMENTS[function]]}")


def copied(value):
    """An argument or a reply that its owner may change later, as it is now."""
    return tuple(value) if isinstance(value, list) else value


def written_reply(function, argument, reply):
    """What a history has for this reply: the argument, if the call says no more than that it took place."""
    if reply is True and function in SILENT:
        return None
    took_place = reply is True and function == "cas" or reply in (None, NotGiven) and function in PUTS
    return argument if took_place else reply


def mixed(ticket):
    """A number that looks drawn, for each ticket."""
    return ticket * 0x9E3779B97F4A7C15 % 2**64 >> 32


class Journal:
    """What one thread did."""

    def __init__(self, recorder):
        self.recorder, self.process, self.events, self.is_pending = recorder, next(recorder.processes), [], False

    def call(self, function, argument, act, number=0):
        """Makes the call on the object of this number, and records it: act makes it and gives its reply."""
        return self.try_call(function, argument, act, (), number)

    def try_call(self, function, argument, act, errors, number=0):
        """Makes a call that may fail, and records it. act raises Failed, or one of these errors, only if the call definitely did not
        happen."""
        self.invoke(function, argument, number)
        try:
            reply = act()
        except (Failed, *errors):
            self.failed()
            raise
        except BaseException:
            self.gave_up()
            raise
        self.returned(reply)
        return reply

    def invoke(self, function, argument, number=0):
        """Call it just before a call, if `call` does not suit, as in asynchronous code. Then call one of returned, failed and gave_up;
        if there is none before the next invoke, it is gave_up."""
        argument = copied(argument)
        check_call(function, argument)
        if self.is_pending:
            self.gave_up()
        self.is_pending = True
        ticket = next(self.recorder.tickets)
        self.events.append((ticket, self.process, "invoke", function, argument, number))
        if self.recorder.yields and mixed(ticket) % CALLS_TO_A_YIELD == 0:
            time.sleep(0)

    def returned(self, reply=NotGiven):
        """Call it just after the call returned, with its reply, which may be None. Only functions whose reply is known need none."""
        reply = copied(reply)
        ticket, function, argument, number = self._ended()
        self._end(ticket, "ok", function, written_reply(function, argument, reply), number)

    def returned_as(self, function, argument, reply):
        """Like `returned`, if it is known only now what the call was: its invocation is written with this function and argument."""
        argument, reply = copied(argument), copied(reply)
        check_call(function, argument)
        ended = self._ended()
        self.events[-1] = (*self.events[-1][:3], function, argument, ended[3])
        self._end(ended[0], "ok", function, written_reply(function, argument, reply), ended[3])

    def failed(self):
        """Call it only if the call definitely did not happen: it is written with :fail. A timeout is gave_up."""
        ticket, function, argument, number = self._ended()
        self._end(ticket, "fail", function, argument, number)

    def gave_up(self):
        """Call it if the call may have happened, or may still happen, as after a timeout: it is written with :info, and what follows is
        of another process."""
        ticket, function, argument, number = self._ended()
        self._end(ticket, "info", function, argument, number)
        self.process = next(self.recorder.processes)

    def _ended(self):
        """The ticket of a return, which is drawn before what follows."""
        if not self.is_pending:
            raise ValueError("no call is outstanding")
        return next(self.recorder.tickets), *self.events[-1][3:]

    def _want_replies(self):
        """Raises ValueError if the reply of a call is missing, or is to be its argument and is not."""
        for call, end in zip(self.events, self.events[1:]):
            _, _, kind, function, reply, _ = end
            if kind == "ok" and reply is NotGiven and function not in SILENT:
                raise ValueError(f"{function} was given no reply: returned(None) says that nothing was there")
            said, wanted = text_of(reply), text_of(call[4])
            if kind == "ok" and function in SILENT and said != "nil":
                raise ValueError(f"{function} replied {said}, and its reply is None: one that did not take place is a call that failed")
            if kind == "ok" and function in QUESTIONS and not isinstance(reply, bool):
                raise ValueError(f"{function} replied {said}, and neither True nor False")
            if kind == "ok" and function not in (*QUESTIONS, *PUTS) and reply is True:
                raise ValueError(f"{function} replied True, and its reply is no truth value")
            if kind == "ok" and function in PUTS and said != wanted:
                raise ValueError(f"{function} replied {said} and not its argument {wanted}: let the call give None")

    def _end(self, ticket, kind, function, value, number):
        self.events.append((ticket, self.process, kind, function, value, number))
        self.is_pending = False


class Recorder:
    """Gives the tickets, and the numbers of processes. One recorder makes one history."""

    def __init__(self, yields=True):
        self.tickets, self.processes, self.own_tickets, self.yields = itertools.count(), itertools.count(), 0, yields

    def journal(self):
        """A journal for one thread."""
        return Journal(self)

    def history(self, journals):
        """The history, each event at the place of its ticket. A thread that is still in a call has left it pending. It takes each journal
        of this recorder once, also those of a history that it made before: without the calls of one of them a correct object could get a
        no."""
        journals = list(journals)
        if any(journal.recorder is not self for journal in journals):
            raise ValueError("a journal of another recorder was handed in")
        if len({id(journal) for journal in journals}) < len(journals):
            raise ValueError("a journal was handed in twice")
        for journal in journals:
            if journal.is_pending:
                journal.gave_up()
            journal._want_replies()
        events = sorted((event for journal in journals for event in journal.events), key=lambda event: event[0])
        missing = self._drawn() - len(events)
        if missing:
            raise ValueError(f"{missing} events are missing: a journal is missing, or this recorder has already made a history")
        return "".join(
            f"{{:process {process}, :type :{kind}, :f :{function}, :value {written(value)}, :object {number}}}\n"
            for _, process, kind, function, value, number in events
        )

    def overlap(self, journals):
        """How much the calls of these journals overlapped. If the share is small, the history could hardly have failed."""
        events = sorted((event for journal in journals for event in journal.events), key=lambda event: event[0])
        calls, outstanding, at_once, overlapped = 0, {}, 0, set()
        for ticket, process, kind, *_ in events:
            if kind != "invoke":
                outstanding.pop(process, None)
                continue
            calls, outstanding[process] = calls + 1, ticket
            at_once = max(at_once, len(outstanding))
            if len(outstanding) > 1:
                overlapped.add(ticket)
            if len(outstanding) == 2:
                overlapped.update(outstanding.values())
        return Overlap(len(overlapped) / calls if calls else 0.0, at_once)

    def _drawn(self):
        """How many tickets the journals drew. It takes one itself, which is counted apart."""
        drawn = next(self.tickets) - self.own_tickets
        self.own_tickets += 1
        return drawn
