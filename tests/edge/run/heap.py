"""Refuses each allocation of two tests of the pairing heap in turn. A comparison that gets no memory for its copies compares value by value, and
an insert that gets none leaves what went in before. And counts the allocations of a test: extracted values leave their memory to later ones."""
import os

from ..running import ROOT, alone, at_once

TESTS = f"{ROOT}/crates/object_tests/out/object_tests_tests"
COMPARES, LEAVES = "heaps::compares_bags", "heaps::refused_insert_leaves_the_bag"
# Both have five values at most at a time. The second inserts two thousand.
FEW, MANY = "heaps::hands_out_the_least", "heaps::uses_freed_nodes_again"


def refused_heaps(program, report):
    """Each allocation of two tests of the pairing heap fails in a run of its own; and two thousand inserts make no more allocations than a few."""
    if not os.path.exists(TESTS):
        report.holds("heap: the tests of objects are built", False, f"{TESTS} is missing: rt test in crates/object_tests builds it")
        return None
    tests, tried = alone(TESTS, program.folder), 0
    for name in (COMPARES, LEAVES):
        whole, count, _ = tests.counts(name)
        report.holds(f"heap: {name}: with ample memory", whole.status == 0, whole)
        runs = at_once(lambda at: tests.run(name, faults={"REFUSE_AT": at}), range(1, count + 1))
        # The heaps that are compared have to be made first.
        failed = [run for run in runs if run.status != 0 and b"AllocError" not in run.err]
        report.equal(f"heap: {name}: no other answer where memory is refused", [], failed)
        report.holds(f"heap: {name}: some run goes on without", any(run.status == 0 for run in runs), runs)
        tried += count
    counts = [tests.counts(number)[1] for number in (FEW, MANY)]
    report.holds("heap: later values take the memory of those that were extracted", counts[1] <= counts[0] + 1, counts)
    return f"{tried} allocations refused"


PARTS = (refused_heaps,)
