"""Malformed texts, with the codes and the places that must be named.

Each code and each place is worked out from the tables of docs/formats.md and docs/machine.md."""
from .. import worked_rows
from ..worked_rows import judge, malformed, malformed_certificates, search, simulate

UNFINISHED = "{:process 0, :type :invoke"
BUSY = "{:process 0, :type :invoke, :f :dequeue} {:process 0, :type :invoke, :f :dequeue}"

# Histories, with the first fault.
HISTORIES = (
    # No operation of a client.
    ("{:process :nemesis} 5 7", "H1 at map 1"),
    ("{:type :invoke :f :pop}", "H1 at map 0"),
    ("{:process -1 :type :invoke :f :pop}", "H1 at map 0"),
    ('{:process "0" :type :invoke :f :pop}', "H1 at map 0"),
    ("{:process 0 :type :begin :f :pop}", "H1 at map 0"),
    ('{:process 0 :type :invoke :f "pop"}', "H1 at map 0"),
    ("{:process 0 :type :invoke :f :pop :object 65536}", "H1 at map 0"),
    ("{:process 0 :type :invoke :f :pop :object nil}", "H1 at map 0"),
    # The function.
    ("{:process 0 :type :invoke :f :peek}", "H2 at map 0"),
    # The value's shape.
    ("{:process 0 :type :invoke :f :push}", "H3 at map 0"),
    ("{:process 0 :type :invoke :f :pop :value 1}", "H3 at map 0"),
    ("{:process 0 :type :invoke :f :cas :value [1 2 3]}", "H3 at map 0"),
    ("{:process 0 :type :invoke :f :push :value 1} {:process 0 :type :ok :f :push}", "H3 at map 1"),
    # The kind of the object, which is seen before the process is.
    ("{:process 0 :type :invoke :f :dequeue} {:process 0 :type :invoke :f :pop}", "H4 at map 1"),
    # An invocation while one is outstanding.
    ("{:process 0 :type :invoke :f :pop} {:process 0 :type :invoke :f :pop :object 1} 5", "H5 at map 1"),
    # A completion of nothing.
    ("{:process 0 :type :ok :f :dequeue}", "H6 at map 0"),
    (
        "{:process 0 :type :invoke :f :dequeue} {:process 0 :type :fail :f :dequeue}"
        "{:process :nemesis} {:process 0 :type :info :f :dequeue}",
        "H6 at map 3",
    ),
    # A completion of another operation.
    ("{:process 0 :type :invoke :f :enqueue :value 1} {:process 0 :type :ok :f :dequeue :value 1}", "H7 at map 1"),
    ("{:process 0 :type :invoke :f :pop} {:process 0 :type :info :f :pop :object 1}", "H7 at map 1"),
    # A map of a closed process.
    (
        "{:process 0 :type :invoke :f :enqueue :value 1} {:process 0 :type :info :f :enqueue}"
        "{:process 0 :type :invoke :f :enqueue :value 2}",
        "H8 at map 2",
    ),
    (
        "{:process 0 :type :invoke :f :pop} {:process 0 :type :info :f :pop} {:process 0 :type :ok :f :pop}",
        "H8 at map 2",
    ),
    # What is wrong with the map itself comes before.
    (
        "{:process 0 :type :invoke :f :pop} {:process 0 :type :info :f :pop} {:process 0 :type :ok :f :peek}",
        "H2 at map 2",
    ),
    (
        "{:process 0 :type :invoke :f :pop} {:process 0 :type :info :f :pop} {:process 0 :type :ok :f :pop :value []}",
        "H3 at map 2",
    ),
    (
        "{:process 0 :type :invoke :f :pop} {:process 0 :type :info :f :pop} {:process 0 :type :ok :f :dequeue}",
        "H4 at map 2",
    ),
    # What is wrong with the text comes before what is wrong with an earlier map.
    ("{:process 0 :type :ok :f :pop} [", "E2 at byte 32"),
    ("5 {:process 0 :process 1}", "E5 at byte 14"),
    ("5 6 )", "E9 at byte 4"),
    ("{:process 0 :value 9223372036854775808}", "E4 at byte 19"),
)

# Certificates, with the first fault.
CERTIFICATES = (
    ("nil", "K1 at form 0"),
    ("{:order [0 2]}", "K1 at form 0"),
    ("{:object 0}", "K1 at form 0"),
    ("{:object nil, :order []}", "K1 at form 0"),
    ("{:object -1, :order []}", "K1 at form 0"),
    ("{:object 0, :order 0}", "K1 at form 0"),
    ("{:object 0, :order [0 [1]]}", "K1 at form 0"),
    ("{:object 0, :order [0 2 4 6 8 nil]}", "K1 at form 0"),
    ("{:object 0, :order [0 2 4 6 8 {}]}", "K1 at form 0"),
    ("{:object 0, :by {:order [0]}}", "K1 at form 0"),
    ("{:object 0, :by :order, :than [0]}", "K1 at form 0"),
    ("{:object [0], :order [0]}", "K1 at form 0"),
    ("{:object 3, :order []} {:object 0, :order []} {:object 3, :order []} 5", "K2 at form 2"),
    ("{:object 3, :order []} 5 {:object 3, :order []}", "K1 at form 1"),
    ("{:object 0, :order [9223372036854775808]}", "E4 at byte 20"),
    # What is wrong with the text comes first.
    ("{:object 0, :order [0 2}", "E3 at byte 23"),
    ("{:object 0, :order [0 2", "E2 at byte 23"),
    ("5 {:object 0, :order [007]}", "E3 at byte 22"),
    ("{:object 0, :order []} {:object 0, :order []} (", "E9 at byte 46"),
    ("{:object 65536, :order []} {:order 1, :order []}", "E5 at byte 38"),
)

# Schedules after the header of one client of a queue, with the first fault.
STEPS = (
    ("an unknown function", "{:client 0, :step :draw, :object 0, :f :jump, :value 1}", "S2 at form 1"),
    ("a value of another shape", "{:client 0, :step :draw, :object 0, :f :enqueue, :value [1 2]}", "S2 at form 1"),
    ("no value where the function asks for one", "{:client 0, :step :draw, :object 0, :f :enqueue}", "S2 at form 1"),
    ("a function without an object", "{:client 0, :step :draw, :f :enqueue, :value 1}", "S2 at form 1"),
    ("nil for a function", "{:client 0, :step :draw, :f nil}", "S2 at form 1"),
    (
        "the first of two faults",
        "{:client 0, :step :post} {:client 32, :step :post} {:client 0, :step :jump}",
        "S2 at form 2",
    ),
)
HEADERS = (
    ("no map for a header", "nil {:client 0, :step :jump}", "S1 at form 0"),
    ("an unknown kind", "{:kind :deque, :objects 1, :clients 1, :quota 1}", "S1 at form 0"),
    ("a bad token", "{:kind :queue 007", "E3 at byte 14"),
)


def first_words(text):
    """A text in one line, as a name."""
    return " ".join(text.split())


ROWS = [
    *[malformed(first_words(text), text, fault) for text, fault in HISTORIES],
    *[malformed_certificates(text, text, fault) for text, fault in CERTIFICATES],
    search("a text that spells no forms", UNFINISHED, "malformed history: E2 at byte 26\n", 2),
    judge("a text that spells no forms", UNFINISHED, "malformed history: E2 at byte 26\n", 2, "--steps", "7"),
    judge("a number alone", "7", "malformed history: H1 at map 0\n", 2, "--steps", "7"),
    judge("two calls of one process", BUSY, "malformed history: H5 at map 1\n", 2, "--steps", "7"),
    *[simulate(name, worked_rows.ONE_CLIENT + " " + text, f"malformed schedule: {fault}\n", 2) for name, text, fault in STEPS],
    *[simulate(name, text, f"malformed schedule: {fault}\n", 2) for name, text, fault in HEADERS],
]
