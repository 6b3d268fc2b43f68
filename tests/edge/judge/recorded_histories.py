"""Histories that were recorded from real systems: examples/recorded.md says how. Each is decided, and soon."""
import gzip
import os

from ..verify.reasons import why_not_explained
from ..running import EXAMPLES
from ..timing import least_seconds

FOLDER = f"{EXAMPLES}/recorded"
# What each is, and how many operations it has, of which none failed.
LINEARIZABLE = {
    "redis_register": ("register", 100_000),
    "redis_map": ("map", 100_000),
    "postgres_register": ("register", 1_000),
    "redis_map_paused": ("map", 1_000),
    "skip_list_set": ("set", 20_000),
    "atomic_counter": ("counter", 10_000),
}
NOT_LINEARIZABLE = ("redis_replica_long", "sharded_queue_long", "unvalidated_list_set", "racy_counter")
SHORT = ("postgres_queue", "redis_lock", "redis_replica", "racy_stack", "sharded_queue")
MOST_SECONDS = 2


def yes(kind, count):
    """The answer for a history of one object."""
    return f"yes: {count} operations, 1 objects\n{kind}: 1 objects, {count} operations\n"


def recorded_histories(program, report):
    """Each recorded history is decided as it should be, in at most two seconds of processor time."""
    texts = {name: gzip.open(f"{FOLDER}/{name}.edn.gz").read() for name in (*LINEARIZABLE, *NOT_LINEARIZABLE)}
    for name in SHORT:
        with open(f"{EXAMPLES}/{name}.history.edn", "rb") as file:
            texts[name] = file.read()
    report.equal("recorded: every file is asked about", sorted(f"{name}.edn.gz" for name in texts if name not in SHORT), sorted(os.listdir(FOLDER)))
    slowest = 0
    for name, text in texts.items():
        file = program.write(f"{name}.edn", text)
        seconds = least_seconds(program, MOST_SECONDS, "judge", file)
        slowest = max(slowest, seconds)
        ran = program.run("judge", file)
        report.holds(f"recorded {name}: decided in {MOST_SECONDS} s", seconds <= MOST_SECONDS, seconds)
        if name in LINEARIZABLE:
            report.answers(f"recorded {name}: linearizable", ran, yes(*LINEARIZABLE[name]), 0)
            order = program.run("find", file)
            again = program.run("check", file, program.write("found.edn", order.out))
            report.equal(f"recorded {name}: check accepts the order", (0, ran.out), (again.status, again.out))
        else:
            report.equal(f"recorded {name}: why it is not linearizable", None, why_not_explained(program, text.decode(), ran), ran)
    return f"{len(texts)} histories, the slowest took {slowest:.2f} s"


PARTS = (recorded_histories,)
