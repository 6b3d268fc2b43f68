"""Schedules, and the records that come of them.

The expected values are worked out by hand from the definition of the machine, docs/machine.md."""
from ..worked_rows import simulate

# Two clients at one queue.
QUEUE = "{:kind :queue, :objects 1, :clients 2, :quota 4}\n"

# The same, at objects of five kinds.
MIXED = "{:kind :mixed, :objects 5, :clients 2, :quota 4}\n"

# Two clients enqueue at the same time, and one of them dequeues.
OVERLAPPING_STEPS = """\
{:client 0, :step :draw, :object 0, :f :enqueue, :value 1}
{:client 1, :step :draw, :object 0, :f :enqueue, :value 2}
{:client 0, :step :post} {:client 1, :step :post}
{:client 1, :step :win, :object 0}
{:client 1, :step :pick, :row 1} {:client 1, :step :answer}
{:client 1, :step :pick, :row 0} {:client 1, :step :answer}
{:client 1, :step :release}
{:client 0, :step :take} {:client 0, :step :draw}
{:client 1, :step :take} {:client 1, :step :draw}
{:client 0, :step :draw, :object 0, :f :dequeue}
{:client 0, :step :post} {:client 0, :step :win, :object 0}
{:client 0, :step :pick, :row 0} {:client 0, :step :answer}
{:client 0, :step :release} {:client 0, :step :take} {:client 0, :step :draw}
{:client 0, :step :end} {:client 1, :step :end}
"""

TWO_CLIENTS = """\
{:process 0, :type :invoke, :f :enqueue, :value 1, :object 0}
{:process 1, :type :invoke, :f :enqueue, :value 2, :object 0}
{:process 0, :type :ok, :f :enqueue, :value 1, :object 0}
{:process 1, :type :ok, :f :enqueue, :value 2, :object 0}
{:process 0, :type :invoke, :f :dequeue, :value nil, :object 0}
{:process 0, :type :ok, :f :dequeue, :value 2, :object 0}
; refused steps: 0
; {:object 0, :order [1 0 4]}
; yes: 3 operations, 1 objects
; queue: 1 objects, 3 operations
"""

RECORDS = (
    (
        "two clients whose calls overlap",
        QUEUE,
        OVERLAPPING_STEPS,
        TWO_CLIENTS,
    ),
    (
        "a client that ends before it takes its answer",
        QUEUE,
        """\
{:client 0, :step :draw, :object 0, :f :enqueue, :value 9}
{:client 0, :step :post} {:client 0, :step :end}
{:client 1, :step :draw, :object 0, :f :dequeue}
{:client 1, :step :post} {:client 1, :step :win, :object 0}
{:client 1, :step :pick, :row 0} {:client 1, :step :answer}
{:client 1, :step :pick, :row 1} {:client 1, :step :answer}
{:client 1, :step :release} {:client 1, :step :take}
{:client 1, :step :draw} {:client 1, :step :end}
""",
        """\
{:process 0, :type :invoke, :f :enqueue, :value 9, :object 0}
{:process 1, :type :invoke, :f :dequeue, :value nil, :object 0}
{:process 1, :type :ok, :f :dequeue, :value 9, :object 0}
; refused steps: 0
; {:object 0, :order [0 1]}
; yes: 2 operations, 1 objects
; queue: 1 objects, 2 operations
""",
    ),
    (
        "objects of two kinds",
        MIXED,
        """\
{:client 0, :step :draw, :object 0, :f :enqueue, :value 1}
{:client 1, :step :draw, :object 1, :f :push, :value 2}
{:client 0, :step :post} {:client 1, :step :post}
{:client 1, :step :win, :object 1}
{:client 1, :step :pick, :row 1} {:client 1, :step :answer}
{:client 1, :step :release} {:client 1, :step :take} {:client 1, :step :draw}
{:client 0, :step :win, :object 0}
{:client 0, :step :pick, :row 0} {:client 0, :step :answer}
{:client 0, :step :release} {:client 0, :step :take} {:client 0, :step :draw}
{:client 0, :step :end} {:client 1, :step :end}
""",
        """\
{:process 0, :type :invoke, :f :enqueue, :value 1, :object 0}
{:process 1, :type :invoke, :f :push, :value 2, :object 1}
{:process 1, :type :ok, :f :push, :value 2, :object 1}
{:process 0, :type :ok, :f :enqueue, :value 1, :object 0}
; refused steps: 0
; {:object 0, :order [0]}
; {:object 1, :order [1]}
; yes: 2 operations, 2 objects
; queue: 1 objects, 1 operations
; stack: 1 objects, 1 operations
""",
    ),
    (
        "values of a register; the objects that no journal names have no certificate",
        MIXED,
        """\
{:client 0, :step :draw, :object 3, :f :cas, :value [1 2]}
{:client 0, :step :post} {:client 0, :step :win, :object 3}
{:client 0, :step :pick, :row 0} {:client 0, :step :answer}
{:client 0, :step :release} {:client 0, :step :take} {:client 0, :step :draw}
{:client 0, :step :draw, :object 3, :f :write, :value 1}
{:client 0, :step :post} {:client 0, :step :win, :object 3}
{:client 0, :step :pick, :row 0} {:client 0, :step :answer}
{:client 0, :step :release} {:client 0, :step :take} {:client 0, :step :draw}
{:client 0, :step :draw, :object 3, :f :cas, :value [1 2]}
{:client 0, :step :post} {:client 0, :step :win, :object 3}
{:client 0, :step :pick, :row 0} {:client 0, :step :answer}
{:client 0, :step :release} {:client 0, :step :take} {:client 0, :step :draw}
{:client 0, :step :draw, :object 3, :f :read}
{:client 0, :step :post} {:client 0, :step :win, :object 3}
{:client 0, :step :pick, :row 0} {:client 0, :step :answer}
{:client 0, :step :release} {:client 0, :step :take} {:client 0, :step :draw}
{:client 0, :step :end} {:client 1, :step :end}
""",
        """\
{:process 0, :type :invoke, :f :cas, :value [1 2], :object 3}
{:process 0, :type :ok, :f :cas, :value false, :object 3}
{:process 0, :type :invoke, :f :write, :value 1, :object 3}
{:process 0, :type :ok, :f :write, :value 1, :object 3}
{:process 0, :type :invoke, :f :cas, :value [1 2], :object 3}
{:process 0, :type :ok, :f :cas, :value [1 2], :object 3}
{:process 0, :type :invoke, :f :read, :value nil, :object 3}
{:process 0, :type :ok, :f :read, :value 2, :object 3}
; refused steps: 0
; {:object 3, :order [0 2 4 6]}
; yes: 4 operations, 1 objects
; register: 1 objects, 4 operations
""",
    ),
    (
        "nothing is done",
        QUEUE,
        """\
{:client 0, :step :end} {:client 1, :step :end}
""",
        """\
; refused steps: 0
; yes: 0 operations, 0 objects
""",
    ),
)

ROWS = [simulate(name, header + steps, out, 0) for name, header, steps, out in RECORDS]
