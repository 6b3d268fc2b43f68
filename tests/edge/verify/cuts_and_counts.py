"""Parts of histories by cuts, and counts over parts: each rule on the histories that a laxer one would take for impossible."""
from ..answers import in_files
from .reasons import why_not_shown
from ..worked_rows import HISTORY, REASONS, refute
from ..text_writers import invoke, lines, ok, one_process

# Histories of one object each. A number in a cut is that of a map.

# Values 1 and 2 are put in, a taking is pending, and 2 is taken.
PENDING_TAKING = lines(
    invoke(0, "enqueue", 1),
    ok(0, "enqueue", 1),
    invoke(0, "enqueue", 2),
    ok(0, "enqueue", 2),
    invoke(1, "dequeue"),
    invoke(0, "dequeue"),
    ok(0, "dequeue", 2),
)

# Values 1 and 2 are put in, two takings are pending, and 2 is taken.
TWO_PENDING = lines(
    invoke(0, "enqueue", 1),
    ok(0, "enqueue", 1),
    invoke(0, "enqueue", 2),
    ok(0, "enqueue", 2),
    invoke(1, "dequeue"),
    invoke(0, "dequeue"),
    ok(0, "dequeue", 2),
    invoke(2, "dequeue"),
)

# A put and a taking are pending, and then nothing is found.
BOTH_PENDING = lines(
    invoke(0, "enqueue", 1),
    invoke(1, "dequeue"),
    invoke(2, "dequeue"),
    ok(2, "dequeue"),
)

# Value 1 is taken, and only a pending call put it in.
PENDING_PUT = lines(
    invoke(0, "enqueue", 1),
    invoke(1, "dequeue"),
    ok(1, "dequeue", 1),
)

# A third value, then 1 and 2, are put in; a taking is pending, 2 is taken before 1, and then
# there is nothing.
WRONG_ORDER = lines(
    invoke(0, "enqueue", 3),
    ok(0, "enqueue", 3),
    invoke(0, "enqueue", 1),
    ok(0, "enqueue", 1),
    invoke(1, "enqueue", 2),
    ok(1, "enqueue", 2),
    invoke(2, "dequeue"),
    invoke(0, "dequeue"),
    ok(0, "dequeue", 3),
    invoke(0, "dequeue"),
    ok(0, "dequeue", 2),
    invoke(0, "dequeue"),
    ok(0, "dequeue", 1),
    invoke(0, "dequeue"),
    ok(0, "dequeue"),
)

# A swap fails, since the value that it expects was overwritten.
FAILED_SWAP = one_process(("write", 2, 2), ("write", 1, 1), ("cas", (2, 3), False))

# Value 3 comes by a swap from 1, and is read.
SWAPPED = one_process(("write", 2, 2), ("write", 1, 1), ("cas", (1, 3), (1, 3)), ("read", None, 3))

# A pending swap sets the value from which another swap goes on.
PENDING_SWAP = lines(
    invoke(0, "write", 2),
    ok(0, "write", 2),
    invoke(1, "cas", (2, 12)),
    invoke(0, "cas", (12, 3)),
    ok(0, "cas", (12, 3)),
)

# Value 1 is read again after 7 was read, and was written once.
SEEN_AFTER_ANOTHER = lines(
    invoke(0, "write", 1),
    ok(0, "write", 1),
    invoke(1, "write", 7),
    invoke(2, "read"),
    ok(2, "read", 7),
    invoke(2, "read"),
    ok(2, "read", 1),
    ok(1, "write", 7),
)

# Values repeat; at the end 1 is written, and then 2 is read.
STALE_READ = lines(
    invoke(0, "write", 2),
    ok(0, "write", 2),
    invoke(0, "write", 1),
    ok(0, "write", 1),
    invoke(0, "cas", (1, 2)),
    ok(0, "cas", (1, 2)),
    invoke(1, "read"),
    invoke(0, "write", 1),
    ok(0, "write", 1),
    ok(1, "read", 1),
    invoke(0, "read"),
    ok(0, "read", 2),
    invoke(0, "write", 3),
    ok(0, "write", 3),
)

# Two writes overlap; 1 is read, then 3 is written, and then 1 is read again.
OVERLAPPING = lines(
    invoke(0, "write", 1),
    invoke(1, "write", 2),
    ok(0, "write", 1),
    ok(1, "write", 2),
    invoke(2, "read"),
    ok(2, "read", 1),
    invoke(1, "write", 3),
    ok(1, "write", 3),
    invoke(2, "read"),
    ok(2, "read", 1),
)

# A read overlaps the second write, and shows the value before it.
OVERLAPPING_READ = lines(
    invoke(0, "write", 5),
    ok(0, "write", 5),
    invoke(1, "read"),
    invoke(0, "write", 1),
    ok(0, "write", 1),
    ok(1, "read", 5),
)

# A taking of 7 overlaps one that finds nothing.
OVERLAPPING_TAKING = lines(
    invoke(0, "enqueue", 7),
    ok(0, "enqueue", 7),
    invoke(1, "dequeue"),
    invoke(0, "dequeue"),
    ok(0, "dequeue"),
    ok(1, "dequeue", 7),
)

# A value is taken before the call that put it in returns.
LATE_RETURN = lines(
    invoke(0, "enqueue", 1),
    invoke(1, "dequeue"),
    ok(1, "dequeue", 1),
    ok(0, "enqueue", 1),
)

# Value 7 is put in once and taken twice; a second put of it is pending.
TAKEN_TWICE = lines(
    invoke(0, "enqueue", 7),
    ok(0, "enqueue", 7),
    invoke(0, "dequeue"),
    ok(0, "dequeue", 7),
    invoke(0, "dequeue"),
    ok(0, "dequeue", 7),
    invoke(1, "enqueue", 7),
)

# Two swaps go on from one write.
SWAPPED_TWICE = lines(
    invoke(0, "write", 1),
    ok(0, "write", 1),
    invoke(0, "cas", (1, 2)),
    ok(0, "cas", (1, 2)),
    invoke(0, "cas", (1, 3)),
    ok(0, "cas", (1, 3)),
    invoke(1, "cas", (3, 1)),
)

# A mutex that two hold at the end.
TWO_HOLD = lines(
    invoke(0, "acquire"),
    ok(0, "acquire"),
    invoke(0, "release"),
    ok(0, "release"),
    invoke(1, "acquire"),
    ok(1, "acquire"),
    invoke(0, "acquire"),
    ok(0, "acquire"),
)

# Each acquires once and releases once, but a release is another's.
CROSSED = lines(
    invoke(0, "acquire"),
    ok(0, "acquire"),
    invoke(1, "release"),
    ok(1, "release"),
    invoke(1, "acquire"),
    ok(1, "acquire"),
    invoke(0, "release"),
    ok(0, "release"),
)

# The value under key 7 was removed, and is read afterwards.
REMOVED = one_process(("put", (7, 1), None), ("put", (8, 1), None), ("del", 7, 1), ("get", 8, 1), ("get", 7, 1))

# Key 7 is found without a value by two puts and one removal, and has one value at a time.
REMOVED_ONCE = one_process(("put", (7, 1), None), ("del", 7, 1), ("put", (7, 2), None), ("put", (7, 3), None))

# A stack that gives the lower of two values first.
STACK = one_process(("push", 1, 1), ("push", 5, 5), ("push", 2, 2), ("pop", None, 1), ("pop", None, 2))

# A heap that gives the greater of two values first.
HEAP = one_process(("insert", 1, 1), ("insert", 5, 5), ("insert", 2, 2), ("extract-min", None, 2), ("extract-min", None, 1))

# Key 7 is removed, and then has no value.
GONE = one_process(("put", (7, 1), None), ("del", 7, 1), ("get", 7, None))

# Two puts under key 7 find value 1, which was put there once.
FOUND_TWICE = one_process(("put", (7, 1), None), ("put", (7, 2), 1), ("put", (7, 3), 1))

# Value 5 under key 7 is seen, and then 1, which a pending call put there.
PENDING_ENTRY = lines(
    invoke(0, "put", (7, 5)),
    ok(0, "put"),
    invoke(0, "get", 7),
    ok(0, "get", 5),
    invoke(1, "put", (7, 1)),
    invoke(0, "get", 7),
    ok(0, "get", 1),
)

# A put of 2 and a get overlap the put of 1, which the get does not see; 2 is found, and then 5, which both puts have replaced.
OVERLAPPING_PUTS = lines(
    invoke(0, "put", (7, 5)),
    ok(0, "put"),
    invoke(1, "put", (7, 2)),
    invoke(2, "get", 7),
    invoke(0, "put", (7, 1)),
    ok(0, "put", 5),
    ok(2, "get", 5),
    ok(1, "put", 1),
    invoke(0, "get", 7),
    ok(0, "get", 2),
    invoke(0, "get", 7),
    ok(0, "get", 5),
)

# No value is found under key 7, and then value 1, which was put there before.
SEEN_AFTER_NONE = lines(
    invoke(0, "put", (7, 1)),
    ok(0, "put"),
    invoke(1, "del", 7),
    invoke(0, "get", 7),
    ok(0, "get"),
    invoke(0, "get", 7),
    ok(0, "get", 1),
)

# Value 1 is put in and taken, then 2 and again 1 are put in, and 1 is taken before 2.
AGAIN = lines(
    invoke(0, "enqueue", 1),
    ok(0, "enqueue", 1),
    invoke(0, "dequeue"),
    ok(0, "dequeue", 1),
    invoke(0, "enqueue", 2),
    ok(0, "enqueue", 2),
    invoke(1, "enqueue", 1),
    ok(1, "enqueue", 1),
    invoke(0, "dequeue"),
    ok(0, "dequeue", 1),
)

# Value 1 is put in twice, 2 while the second put is under way, and then 1, 2 and 1 are taken.
TWICE_IN = lines(
    invoke(0, "enqueue", 1),
    invoke(1, "enqueue", 1),
    ok(0, "enqueue", 1),
    invoke(0, "enqueue", 2),
    ok(0, "enqueue", 2),
    invoke(0, "dequeue"),
    ok(0, "dequeue", 1),
    ok(1, "enqueue", 1),
    invoke(0, "dequeue"),
    ok(0, "dequeue", 2),
    invoke(0, "dequeue"),
    ok(0, "dequeue", 1),
)

# Value 1 is pushed and popped, then 1 and 2 are pushed, and 1 is popped.
POPPED_AGAIN = lines(
    invoke(0, "push", 1),
    ok(0, "push", 1),
    invoke(0, "pop"),
    ok(0, "pop", 1),
    invoke(0, "push", 1),
    ok(0, "push", 1),
    invoke(0, "push", 2),
    ok(0, "push", 2),
    invoke(1, "pop"),
    ok(1, "pop", 1),
)

# Value 1 is put in twice and taken once, a taking is pending, and then there is nothing.
MAYBE_GONE = lines(
    invoke(0, "insert", 1),
    ok(0, "insert", 1),
    invoke(1, "extract-min"),
    invoke(0, "insert", 1),
    ok(0, "insert", 1),
    invoke(0, "extract-min"),
    ok(0, "extract-min", 1),
    invoke(0, "extract-min"),
    ok(0, "extract-min"),
)

# Element 1 is added twice, each time as one that was not in the set.
ADDED_TWICE = one_process(("add", 1, True), ("add", 2, True), ("add", 1, True))

# Each operation of element 1 that can fail does so once.
IN_AND_OUT = one_process(
    ("add", 1, True),
    ("add", 1, False),
    ("contains", 1, True),
    ("remove", 1, True),
    ("remove", 1, False),
    ("contains", 1, False),
)

# Element 1 is in the set, and then a removal does not find it.
NOT_FOUND = one_process(("add", 1, True), ("add", 1, False), ("remove", 1, False))

# A pending removal lets element 1 be added again.
PENDING_REMOVAL = lines(
    invoke(0, "add", 1),
    ok(0, "add", True),
    invoke(1, "remove", 1),
    invoke(0, "add", 1),
    ok(0, "add", True),
)

# A counter is at 5, and then at 4.
COUNTED_DOWN = one_process(("fetch-add", 2, 0), ("fetch-add", 3, 2), ("get-count", None, 5), ("get-count", None, 4))

# Two additions overlap; the one that was invoked first comes second.
OVERLAPPING_ADDITIONS = lines(
    invoke(1, "fetch-add", 1),
    invoke(0, "fetch-add", 2),
    ok(0, "fetch-add", 0),
    ok(1, "fetch-add", 2),
    invoke(0, "get-count"),
    ok(0, "get-count", 3),
)

# The second addition has a sum past 64 bits.
PAST_64_BITS = one_process(("fetch-add", 2**63 - 1, 0), ("fetch-add", 1, 2**63 - 1))

# A lock that owner 1 takes while owner 2 has it.
TAKEN_FROM_ANOTHER = one_process(("lock", 1, None), ("unlock", 1, None), ("lock", 2, None), ("lock", 1, None))

# Owner 2 frees a lock that owner 1 has.
FREED_BY_ANOTHER = one_process(("lock", 1, None), ("unlock", 2, None))

# A value is created, another one is not, and the first is created again after a clear.
CREATED = one_process(("create", 1, True), ("create", 2, False), ("clear", None, None), ("create", 1, True), ("read", None, 1))

# A second value is created where one is.
CREATED_TWICE = one_process(("create", 1, True), ("create", 2, True))

# Value 1 is created once, since the second creation is refused, and swapped twice.
SWAPPED_FROM_TWICE = one_process(("create", 1, True), ("create", 1, False), ("cas", (1, 2), (1, 2)), ("cas", (1, 3), (1, 3)))

# Value 1 is read after a clear.
CLEARED = one_process(("write", 1, 1), ("clear", None, None), ("read", None, 1))

# Key 7 gets a value where it has none, another value in place of it, and is removed.
REPLACED = one_process(
    ("put-if-absent", (7, 1), True),
    ("replace", (7, 1, 2), True),
    ("replace", (7, 1, 3), False),
    ("get", 7, 2),
    ("dissoc", 7, None),
    ("get", 7, None),
)

# Value 1 under key 7 is replaced twice, and was put there once.
REPLACED_TWICE = one_process(("assoc", (7, 1), None), ("replace", (7, 1, 2), True), ("replace", (7, 1, 3), True))

# Key 7 has no value twice, and a removal is pending at the end.
ABSENT_TWICE = one_process(("put-if-absent", (7, 1), True), ("put-if-absent", (7, 2), True)) + lines(invoke(1, "dissoc", 7))

NO_PART = "object 0: not shown: the cuts name no part\n"
POSSIBLE = "object 0: not shown: the part has a valid order\n"
NOT_EXCEEDED = "object 0: not shown: the count is not exceeded\n"
IMPOSSIBLE = "not linearizable: object 0: "

# Projections of containers with pending takings and puts. The row before a part that a laxer rule would take is its whole, which has an order.
PENDING_CALLS = (
    (PENDING_TAKING, "", POSSIBLE),
    (PENDING_TAKING, "{:keep [1 2], :numbers [0 2 5]}", NO_PART),
    (PENDING_TAKING, "{:keep [1 2], :numbers [0 2 4 5]}", POSSIBLE),
    (PENDING_TAKING, "{:keep [2], :numbers [2 5]}", POSSIBLE),
    # One value is left for the pending takings, so the first of them is kept.
    (TWO_PENDING, "", POSSIBLE),
    (TWO_PENDING, "{:keep [1 2], :numbers [0 2 4 5]}", POSSIBLE),
    (TWO_PENDING, "{:keep [1 2], :numbers [0 2 5 7]}", NO_PART),
    (TWO_PENDING, "{:keep [1 2], :numbers [0 2 5]}", NO_PART),
    (TWO_PENDING, "{:keep [2], :numbers [2 5]}", POSSIBLE),
    (BOTH_PENDING, "{:keep [1], :numbers [0 2]}", NO_PART),
    (BOTH_PENDING, "{:keep [1], :numbers [0 1 2]}", POSSIBLE),
    (BOTH_PENDING, "{:keep [], :numbers [2]}", POSSIBLE),
    (PENDING_PUT, "", POSSIBLE),
    (PENDING_PUT, "{:keep [1], :numbers [1]}", NO_PART),
)

# Projections of containers, maps and mutexes.
PROJECTIONS = (
    # As many were put in as were taken, so the pending taking, number 6, may be left out.
    (WRONG_ORDER, "{:keep [1 2], :numbers [2 4 9 11]}", IMPOSSIBLE),
    (WRONG_ORDER, "{:keep [1 2], :numbers [2 4 6 9 11]}", IMPOSSIBLE),
    (WRONG_ORDER, "{:keep [1 2], :numbers [4 9 11]}", NO_PART),
    (WRONG_ORDER, "{:keep [1 2], :numbers [2 4 9]}", NO_PART),
    (WRONG_ORDER, "{:keep [1 2], :numbers [0 2 4 9 11]}", NO_PART),
    # Before 11 value 1 can have been taken by the pending call.
    (WRONG_ORDER, "{:until 11} {:keep [1 2], :numbers [2 4 6 9]}", POSSIBLE),
    (WRONG_ORDER, "{:until 11} {:keep [1 2], :numbers [2 4 9]}", NO_PART),
    (STACK, "{:keep [1 2], :numbers [0 4 6 8]}", IMPOSSIBLE),
    (HEAP, "{:keep [1 2], :numbers [0 4 6 8]}", IMPOSSIBLE),
    (REMOVED, "{:keep [7], :numbers [0 4 8]}", IMPOSSIBLE),
    (REMOVED, "{:until 8}", POSSIBLE),
    (REMOVED, "{:until 8} {:keep [7], :numbers [0]}", NO_PART),
    (GONE, "{:keep [7], :numbers [0 4]}", NO_PART),
    (GONE, "{:keep [7], :numbers [0 2 4]}", POSSIBLE),
    (CROSSED, "", POSSIBLE),
    (CROSSED, "{:keep :all, :numbers [2 4]}", NO_PART),
)

# Projections of registers.
REGISTERS = (
    (FAILED_SWAP, "", POSSIBLE),
    (FAILED_SWAP, "{:keep [2 3], :numbers [0 4]}", NO_PART),
    (FAILED_SWAP, "{:keep :all, :numbers [0 2 4]}", POSSIBLE),
    (FAILED_SWAP, "{:keep :all, :numbers [0 4]}", NO_PART),
    (FAILED_SWAP, "{:cell [2 3], :other 0, :numbers [0 4]}", POSSIBLE),
    (SWAPPED, "", POSSIBLE),
    (SWAPPED, "{:keep [3], :numbers [6]}", NO_PART),
    (SWAPPED, "{:keep [2 3], :numbers [0 4 6]}", NO_PART),
    (SWAPPED, "{:keep [1], :numbers [6]}", NO_PART),
    (SWAPPED, "{:cell [3], :other 0, :numbers [6]}", POSSIBLE),
    (SWAPPED, "{:cell [2 3], :other 0, :numbers [6]}", POSSIBLE),
    (SWAPPED, "{:cell [], :other 0, :numbers [6]}", POSSIBLE),
    (PENDING_SWAP, "", POSSIBLE),
    (PENDING_SWAP, "{:keep [3 12], :numbers [3]}", NO_PART),
    # The pending swap expects 2, which is left out.
    (PENDING_SWAP, "{:keep [3 12], :numbers [2 3]}", NO_PART),
    (PENDING_SWAP, "{:keep [3 12], :numbers [0 2 3]}", NO_PART),
    (PENDING_SWAP, "{:keep [2 3 12], :numbers [0 2 3]}", POSSIBLE),
    (PENDING_SWAP, "{:cell [3 12], :other 0}", POSSIBLE),
    # The read of 7 shows that 1 was over; the write of 7 is not needed.
    (SEEN_AFTER_ANOTHER, "{:cell [1], :other 0, :numbers [3 5]}", IMPOSSIBLE),
    (SEEN_AFTER_ANOTHER, "{:cell [1], :other 0, :numbers [5]}", POSSIBLE),
    (SEEN_AFTER_ANOTHER, "{:keep [1], :numbers [0 5]}", POSSIBLE),
    (SEEN_AFTER_ANOTHER, "{:keep [1], :numbers [0 3 5]}", NO_PART),
)

# Keys of maps as registers.
ENTRIES = (
    (GONE, "", POSSIBLE),
    # The removal is left out, and that there is no value is no read of it.
    (GONE, "{:cell [1], :key 7, :other 0, :numbers [4]}", POSSIBLE),
    (GONE, "{:cell [1], :key 7, :other 0, :numbers [2 4]}", POSSIBLE),
    (GONE, "{:cell [], :key 7, :other 0, :numbers [0 2 4]}", POSSIBLE),
    (PENDING_ENTRY, "", POSSIBLE),
    # A get of 5, which is not kept, is no read of it, and each put of 1 stays.
    (PENDING_ENTRY, "{:cell [1], :key 7, :other 0, :numbers [2 5]}", POSSIBLE),
    (PENDING_ENTRY, "{:cell [5], :key 7, :other 0, :numbers [2 5]}", POSSIBLE),
    (FOUND_TWICE, "{:cell [1], :key 7, :other 0, :numbers [2 4]}", IMPOSSIBLE),
    (FOUND_TWICE, "{:cell [1 2 3], :key 7, :other 0}", IMPOSSIBLE),
    (FOUND_TWICE, "{:cell [1], :key 7, :other 0, :numbers [2]}", POSSIBLE),
    (FOUND_TWICE, "{:cell [2 3], :key 7, :other 0}", POSSIBLE),
    (FOUND_TWICE, "{:cell [1], :key 8, :other 0, :numbers [2 4]}", POSSIBLE),
    (SEEN_AFTER_NONE, "{:cell [1], :key 7, :other 0, :numbers [3 5]}", IMPOSSIBLE),
    (SEEN_AFTER_NONE, "{:cell [1], :key 7, :other 0, :numbers [5]}", POSSIBLE),
    # The get under key 8 says nothing of key 7.
    (REMOVED, "{:until 8} {:cell [1], :key 7, :other 0, :numbers [4 6]}", POSSIBLE),
    (REMOVED, "{:cell [1], :key 8, :other 0, :numbers [4 6 8]}", POSSIBLE),
    (REMOVED, "{:cell [1], :key 7, :other 0, :numbers [4 8]}", IMPOSSIBLE),
    (REMOVED, "{:cell [1], :key 7, :other 0, :numbers [8]}", POSSIBLE),
    # A suffix of an entry, as of a register.
    (REMOVED, "{:cell [1], :key 7, :other 0, :numbers [4 8]} {:from 4}", IMPOSSIBLE),
    # Of another kind nothing stays.
    (TWO_HOLD, "{:cell [1], :key 7, :other 0, :numbers [0]}", POSSIBLE),
)

# Prefixes and suffixes.
WINDOWS = (
    # The put had not returned at 3, and stays as pending.
    (LATE_RETURN, "{:until 3}", POSSIBLE),
    (STALE_READ, "{:from 7} {:until 12}", IMPOSSIBLE),
    (STALE_READ, "{:from 7} {:until 12} {:keep :all, :numbers [7 10]}", IMPOSSIBLE),
    # No call has the number 5.
    (STALE_READ, "{:from 5}", NO_PART),
    (STALE_READ, "{:keep [2], :numbers [0 4 10]}", NO_PART),
    # The write of 1 overlaps that of 2 and returned, so it is not done after the write of
    # 3.
    (OVERLAPPING, "{:from 1}", IMPOSSIBLE),
    (OVERLAPPING, "{:from 6}", IMPOSSIBLE),
    (OVERLAPPING, "{:from 1} {:until 8}", POSSIBLE),
    (OVERLAPPING_READ, "", POSSIBLE),
    (OVERLAPPING_READ, "{:from 3}", POSSIBLE),
    (OVERLAPPING_TAKING, "", POSSIBLE),
    (OVERLAPPING_TAKING, "{:from 3}", POSSIBLE),
    # The reply of an enqueue does not tell what the queue contains.
    (OVERLAPPING_TAKING, "{:from 0}", NO_PART),
    (TWO_HOLD, "{:from 4}", IMPOSSIBLE),
    (TWO_HOLD, "{:from 2}", IMPOSSIBLE),
    (TWO_HOLD, "{:from 2} {:until 6}", POSSIBLE),
    # A suffix of a map is on one key.
    (REMOVED, "{:from 4}", NO_PART),
    (REMOVED, "{:keep [7], :numbers [0 4 8]} {:from 4}", IMPOSSIBLE),
    # A put and a get that overlap the first call may be left out, and the put may also be done after it, whatever it found.
    (OVERLAPPING_PUTS, "{:until 10}", POSSIBLE),
    (OVERLAPPING_PUTS, "{:from 4} {:until 10}", POSSIBLE),
    (OVERLAPPING_PUTS, "{:from 4}", IMPOSSIBLE),
    (OVERLAPPING_PUTS, "{:from 3} {:until 10}", POSSIBLE),
    (OVERLAPPING_PUTS, "{:from 3}", IMPOSSIBLE),
    # The same with no cut at all.
    (TWO_HOLD, "", IMPOSSIBLE),
)

# Sets, counters and locks.
SETS_COUNTERS_LOCKS = (
    (ADDED_TWICE, "{:keep [1], :numbers [0 4]}", IMPOSSIBLE),
    (ADDED_TWICE, "{:keep [1], :numbers [4]}", NO_PART),
    (ADDED_TWICE, "{:keep [2], :numbers [2]}", POSSIBLE),
    (ADDED_TWICE, "{:keep [2], :numbers [0 2]}", NO_PART),
    # A suffix of a set is on one element.
    (ADDED_TWICE, "{:from 0}", NO_PART),
    (ADDED_TWICE, "{:keep [1], :numbers [0 4]} {:from 0}", IMPOSSIBLE),
    (IN_AND_OUT, "", POSSIBLE),
    # What failed may be left out, and what did not may not.
    (IN_AND_OUT, "{:keep [1], :numbers [0 6]}", POSSIBLE),
    (IN_AND_OUT, "{:keep [1], :numbers [0 2 4 6 8 10]}", POSSIBLE),
    (IN_AND_OUT, "{:keep [1], :numbers [0 10]}", NO_PART),
    (IN_AND_OUT, "{:keep [1], :numbers [6]}", NO_PART),
    (IN_AND_OUT, "{:keep [2], :numbers [2]}", NO_PART),
    *[(IN_AND_OUT, f"{{:from {number}}}", POSSIBLE) for number in (0, 2, 4, 6, 8, 10)],
    (NOT_FOUND, "{:from 2}", IMPOSSIBLE),
    (NOT_FOUND, "{:from 4}", POSSIBLE),
    (PENDING_REMOVAL, "", POSSIBLE),
    (PENDING_REMOVAL, "{:keep [1], :numbers [0 3]}", NO_PART),
    (PENDING_REMOVAL, "{:keep [1], :numbers [0 2 3]}", POSSIBLE),
    (COUNTED_DOWN, "{:keep [], :numbers [0 2 6]}", IMPOSSIBLE),
    (COUNTED_DOWN, "{:keep [], :numbers [0 2 4]}", POSSIBLE),
    (COUNTED_DOWN, "{:keep :all, :numbers [2 6]}", NO_PART),
    (COUNTED_DOWN, "{:from 2}", IMPOSSIBLE),
    (COUNTED_DOWN, "{:from 4}", IMPOSSIBLE),
    (COUNTED_DOWN, "{:from 2} {:until 6}", POSSIBLE),
    (COUNTED_DOWN, "{:from 6}", POSSIBLE),
    (OVERLAPPING_ADDITIONS, "", POSSIBLE),
    (OVERLAPPING_ADDITIONS, "{:from 0}", POSSIBLE),
    (OVERLAPPING_ADDITIONS, "{:from 1}", POSSIBLE),
    (PAST_64_BITS, "{:from 0}", IMPOSSIBLE),
    (PAST_64_BITS, "{:from 2}", NO_PART),
    (TAKEN_FROM_ANOTHER, "{:from 2}", IMPOSSIBLE),
    (TAKEN_FROM_ANOTHER, "{:from 4}", IMPOSSIBLE),
    (TAKEN_FROM_ANOTHER, "{:from 2} {:until 6}", POSSIBLE),
    (TAKEN_FROM_ANOTHER, "{:keep :all, :numbers [4 6]}", NO_PART),
    (FREED_BY_ANOTHER, "{:from 0}", IMPOSSIBLE),
    (FREED_BY_ANOTHER, "{:from 2}", POSSIBLE),
)

# The operations of registers and maps that reply whether they took place, or whose reply tells nothing.
CHANGES = (
    (CREATED, "", POSSIBLE),
    (CREATED, "{:keep [1], :numbers [0 4 6 8]}", POSSIBLE),
    (CREATED, "{:keep [1], :numbers [0 6 8]}", NO_PART),
    (CREATED, "{:keep [1], :numbers [4 6 8]}", NO_PART),
    # Value 2, which is left out, may be what the failed creation found.
    (CREATED, "{:keep [1], :numbers [0 2 4 6 8]}", NO_PART),
    (CREATED, "{:keep :all, :numbers [0 2 4 6 8]}", POSSIBLE),
    (CREATED, "{:keep :all, :numbers [0 4 6 8]}", POSSIBLE),
    (CREATED, "{:cell [1], :other 0, :numbers [2 8]}", POSSIBLE),
    (CREATED, "{:from 2}", NO_PART),
    (CREATED, "{:from 4}", POSSIBLE),
    (CREATED, "{:from 6}", POSSIBLE),
    (CREATED_TWICE, "{:keep [2], :numbers [2]}", POSSIBLE),
    (CREATED_TWICE, "{:keep [2], :numbers [0 2]}", IMPOSSIBLE),
    (CREATED_TWICE, "{:cell [2], :other 0}", POSSIBLE),
    (CREATED_TWICE, "{:cell [2], :other 0, :numbers [0]}", IMPOSSIBLE),
    (CREATED_TWICE, "{:cell [], :other 0, :numbers [0]}", POSSIBLE),
    (CREATED_TWICE, "{:cell [], :other 0, :numbers [0 2]}", IMPOSSIBLE),
    (CREATED_TWICE, "{:from 0}", IMPOSSIBLE),
    (CLEARED, "{:from 2}", IMPOSSIBLE),
    (CLEARED, "{:keep [1], :numbers [0 2 4]}", IMPOSSIBLE),
    (CLEARED, "{:keep [1], :numbers [0 4]}", NO_PART),
    # A clear stays in a cell, and the read is a chosen one.
    (CLEARED, "{:cell [1], :other 0, :numbers [4]}", IMPOSSIBLE),
    (CLEARED, "{:cell [1], :other 0}", POSSIBLE),
    (REPLACED, "", POSSIBLE),
    (REPLACED, "{:keep [7], :numbers [0 2 6 8]}", POSSIBLE),
    (REPLACED, "{:keep [7], :numbers [0 2 4 6 8 10]}", POSSIBLE),
    (REPLACED, "{:keep [7], :numbers [0 6 8]}", NO_PART),
    (REPLACED, "{:keep [7], :numbers [0 2 6]}", NO_PART),
    (REPLACED, "{:from 2}", POSSIBLE),
    (REPLACED, "{:from 4}", NO_PART),
    (REPLACED, "{:from 8}", POSSIBLE),
    (REPLACED, "{:cell [2], :key 7, :other 0, :numbers [0 4 6 8 10]}", POSSIBLE),
    (REPLACED_TWICE, "{:cell [1], :key 7, :other 0, :numbers [2 4]}", IMPOSSIBLE),
    (REPLACED_TWICE, "{:cell [1 2 3], :key 7, :other 0}", IMPOSSIBLE),
    (REPLACED_TWICE, "{:cell [1], :key 7, :other 0, :numbers [2]}", POSSIBLE),
    (REPLACED_TWICE, "{:cell [1], :key 8, :other 0, :numbers [2 4]}", POSSIBLE),
    (REPLACED_TWICE, "{:from 0}", IMPOSSIBLE),
    (REPLACED_TWICE, "{:from 2}", IMPOSSIBLE),
)

# Parts without what was done with a value before it definitely was not in.
VALUES_THAT_ARE_ABSENT = (
    (AGAIN, "", IMPOSSIBLE),
    (AGAIN, "{:without 1, :before 4}", IMPOSSIBLE),
    (AGAIN, "{:without 1, :before 6} {:until 10}", IMPOSSIBLE),
    # Before 3 the removal had not returned, and after 6 the value may be in again.
    (AGAIN, "{:without 1, :before 3}", NO_PART),
    (AGAIN, "{:without 1, :before 7}", NO_PART),
    (AGAIN, "{:without 2, :before 10}", NO_PART),
    (AGAIN, "{:without 2, :before 4}", IMPOSSIBLE),
    (AGAIN, "{:without 7, :before 10}", IMPOSSIBLE),
    (AGAIN, "{:without 1, :before 10} {:until 6}", POSSIBLE),
    # Both puts of 1 were invoked before 7, and one removal had returned. Without all of
    # these the last removal would have no put.
    (TWICE_IN, "", POSSIBLE),
    (TWICE_IN, "{:without 1, :before 7}", NO_PART),
    (TWICE_IN, "{:without 1, :before 12}", POSSIBLE),
    (POPPED_AGAIN, "{:without 1, :before 4}", IMPOSSIBLE),
    (POPPED_AGAIN, "{:without 1, :before 5}", NO_PART),
    # The pending taking can have taken the first 1: its reply is not known.
    (MAYBE_GONE, "", POSSIBLE),
    (MAYBE_GONE, "{:without 1, :before 3}", NO_PART),
    (MAYBE_GONE, "{:without 1, :before 7}", NO_PART),
    # Of another kind nothing is put in, and all stays.
    (TWO_HOLD, "{:without 1, :before 4}", IMPOSSIBLE),
    (STALE_READ, "{:without 1, :before 4}", IMPOSSIBLE),
)

# A history, where the part ends, the count, and whether it is exceeded.
COUNTS = (
    # Two acquires from 4 on, and the mutex was free once before. The release returned at 3.
    (TWO_HOLD, 100, "{:free true, :from 4}", True),
    (TWO_HOLD, 100, "{:free true, :from 0}", True),
    (TWO_HOLD, 100, "{:free true, :from 3}", False),
    (TWO_HOLD, 100, "{:free true, :from 5}", False),
    # The last acquire returns at 7.
    (TWO_HOLD, 7, "{:free true, :from 4}", False),
    (TWO_HOLD, 100, "{:held true, :from 0}", False),
    # The pending put may have put it in once more.
    (SWAPPED_FROM_TWICE, 100, "{:value 1, :from 0}", True),
    (SWAPPED_FROM_TWICE, 6, "{:value 1, :from 0}", False),
    (TAKEN_TWICE, 6, "{:value 7, :from 0}", True),
    (TAKEN_TWICE, 7, "{:value 7, :from 0}", False),
    (TAKEN_TWICE, 5, "{:value 7, :from 0}", False),
    # How many a queue contained before is not known.
    (TAKEN_TWICE, 6, "{:value 7, :from 1}", False),
    (TAKEN_TWICE, 6, "{:value 8, :from 0}", False),
    (SWAPPED_TWICE, 6, "{:value 1, :from 0}", True),
    (SWAPPED_TWICE, 6, "{:value 1, :from 2}", True),
    (SWAPPED_TWICE, 6, "{:value 1, :from 1}", False),
    # The pending swap may have set it once more.
    (SWAPPED_TWICE, 7, "{:value 1, :from 0}", False),
    # Three puts found no value, and one removal can have left none.
    (REMOVED_ONCE, 100, "{:key 7, :from 0}", True),
    (REMOVED_ONCE, 100, "{:key 7, :from 4}", True),
    (REMOVED_ONCE, 100, "{:key 7, :from 3}", False),
    (REMOVED_ONCE, 100, "{:key 8, :from 0}", False),
    (REMOVED_ONCE, 100, "{:key 7, :value 1, :from 0}", False),
    # Value 1 was put there once.
    (REPLACED_TWICE, 100, "{:key 7, :value 1, :from 0}", True),
    (REPLACED_TWICE, 4, "{:key 7, :value 1, :from 0}", False),
    (REPLACED_TWICE, 100, "{:key 7, :value 2, :from 0}", False),
    (REPLACED, 100, "{:key 7, :value 1, :from 0}", False),
    # Two puts found no value; the pending removal may have left none.
    (ABSENT_TWICE, 4, "{:key 7, :from 0}", True),
    (ABSENT_TWICE, 5, "{:key 7, :from 0}", False),
    # Nothing is counted at a set.
    (ADDED_TWICE, 100, "{:value 1, :from 0}", False),
    (ADDED_TWICE, 100, "{:value 1, :from 1}", False),
)

FREE = "{:free true, :from 4}"
# The windows of one history, each with its count or none, the most steps, and how many operations of how many the part has, or what is
# said of it.
ANSWERS = (
    (4, 8, None, 100, "2 of 4"),
    (4, 7, None, 100, POSSIBLE),
    (4, 8, None, 0, "object 0: not shown: out of steps after 0\n"),
    (5, 8, None, 100, NO_PART),
    (0, 8, FREE, 0, "4 of 4"),
    (0, 7, FREE, 0, NOT_EXCEEDED),
)


# Sentences of docs/formats.md that were once other ones, each on a history that tells them apart.
# A write of 5, a pending swap from it to 7, and a read of 7: the swap may not be kept without 5.
PENDING_SWAP = lines(*[invoke(0, "write", 5), ok(0, "write", 5), invoke(1, "cas", (5, 7)), invoke(0, "read"), ok(0, "read", 7)])
# A pending write of 2 and a refused swap are never in a cell of 1, even if the numbers have them; a read of nothing is.
CELL_OF_ONE = lines(
    invoke(0, "write", 1), invoke(1, "write", 2), invoke(2, "cas", (1, 5)), ok(0, "write", 1), ok(2, "cas", False), invoke(0, "read"), ok(0, "read"),
)
REFUSED_ADDITION = lines(invoke(0, "add", 1), ok(0, "add", False))
ENQUEUED_AND_PENDING = lines(invoke(0, "enqueue", 1), ok(0, "enqueue", 1), invoke(1, "dequeue"))
TOOK_ANOTHER = lines(invoke(0, "enqueue", 1), ok(0, "enqueue", 1), invoke(1, "dequeue"), ok(1, "dequeue", 7))
AS_THE_PAGE = (
    (PENDING_SWAP, "{:keep [7], :numbers [2 3]}", None, NO_PART),
    (PENDING_SWAP, "{:keep [5 7], :numbers [0 2 3]}", None, POSSIBLE),
    (CELL_OF_ONE, "{:cell [1], :other 9, :numbers [1 2 5]}", None, f"{IMPOSSIBLE}2 of 4 operations"),
    (REFUSED_ADDITION, "{:without 1, :before 9}", None, f"{IMPOSSIBLE}1 of 1 operations"),
    (REFUSED_ADDITION, "{:cell [1], :other 9}", None, POSSIBLE),
    (ENQUEUED_AND_PENDING, "{:keep [1], :numbers [0]}", None, NO_PART),
    (ENQUEUED_AND_PENDING, "{:keep [1], :numbers [0 2]}", None, POSSIBLE),
    (TOOK_ANOTHER, "", "{:value 7, :from 0}", f"{IMPOSSIBLE}2 of 2 operations"),
    (TOOK_ANOTHER, "", "{:value 7, :from 1}", NOT_EXCEEDED),
    (TOOK_ANOTHER, "", "{:ahead 2}", NOT_EXCEEDED),
)


def reason(cuts, count=None, on=0):
    more = f", :count {count}" if count else ""
    return f"{{:object {on}, :cuts [{cuts}]{more}}}"


def window(start, end):
    return (f"{{:from {start}}} " if start else "") + f"{{:until {end}}}"


def is_answered(program, report, name, history, text, steps, wanted, on=0):
    """Whether refute says what is wanted. An operation that it tells is of the history, and all that it tells have no valid order."""
    ran = program.run("refute", "--steps", str(steps), program.write(HISTORY, history), program.write(REASONS, text))
    if not wanted.startswith(IMPOSSIBLE):
        report.answers(name, ran, wanted, 3)
        return
    told = ran.out.decode().splitlines()
    report.equal(name, (1, b"", wanted), (ran.status, ran.err, told[0][: len(wanted)]), ran)
    report.equal(f"{name}: what it tells", None, why_not_shown(history, on, told[1:], text), ran)


def parts_of_histories(program, report):
    """refute answers each part of a history as expected."""
    for table in (PENDING_CALLS, PROJECTIONS, REGISTERS, ENTRIES, WINDOWS, SETS_COUNTERS_LOCKS, CHANGES, VALUES_THAT_ARE_ABSENT):
        for number, (history, cuts, wanted) in enumerate(table):
            is_answered(program, report, f"refute: row {number}: {cuts}", history, reason(cuts), 1000, wanted)
    for history, cuts, count, wanted in AS_THE_PAGE:
        is_answered(program, report, f"refute: {cuts} {count}: as formats.md says", history, reason(cuts, count), 1000, wanted)
    for history, end, count, is_exceeded in COUNTS:
        text = reason(window(0, end), count)
        is_answered(program, report, f"refute: {text}", history, text, 1000, IMPOSSIBLE if is_exceeded else NOT_EXCEEDED)
    for start, end, count, steps, wanted in ANSWERS:
        text = reason(window(start, end), count)
        is_answered(
            program,
            report,
            f"refute: {text} in {steps} steps",
            TWO_HOLD,
            text,
            steps,
            IMPOSSIBLE + wanted if " of " in wanted[:6] else wanted,
        )
    text = reason("{:keep :all, :numbers [0 2 5]}")
    is_answered(program, report, "refute: a projection that is not closed", PENDING_TAKING, text, 100, NO_PART)
    text = reason("{:cell [1], :key 7, :other 0, :numbers [2 4]}", "{:value 1, :from 0}")
    is_answered(program, report, "refute: a count over a key of a map", FOUND_TWICE, text, 0, f"{IMPOSSIBLE}3 of 3 operations")


def several_reasons(program, report):
    """refute answers several reasons in their order, each for the object that it names."""
    text = lines(*[reason(window(start, end), None, on) for on, start, end in ((0, 4, 7), (1, 4, 8), (0, 4, 8), (0, 5, 8))])
    row = refute(
        "four reasons",
        TWO_HOLD,
        text,
        POSSIBLE
        + "object 1: not shown: it is not in the history\n"
        + lines(
            f"{IMPOSSIBLE}2 of 4 operations have no valid order",
            "events 4 and 5: process 1, :acquire nil, :ok nil",
            "events 6 and 7: process 0, :acquire nil, :ok nil",
        )
        + NO_PART,
        1,
    )
    in_files(program, report, row)


PARTS = (parts_of_histories, several_reasons)
