"""Whether pages leave nothing out silently: of histories with few and many processes and pending operations, drawn in
each way, the operations with bars and those that gaps count are all."""
import random

from .. import histories
from .tables_and_boxes import shown_counts, stretches_of
from .drawings import at_once, run
from .pages import Drawn
from .drawn_inputs import Case
from ..judge.like_recorded import played

# How many pages are looked at. 500 are by tests/run --pages 500.
PAGES = 40
PROCESSES = (2, 3, 8, 24, 25, 60, 200, 1_000)
KINDS = tuple(histories.ALL_FUNCTIONS)


def case_of(seed):
    """A history with 2 to 1,000 processes and up to 40 % of pending operations, checked by its order, or by none."""
    rng = random.Random(f"whole {seed}")
    processes = PROCESSES[seed % len(PROCESSES)]
    calls = max(rng.choice((5, 40, 120, 400)), processes + rng.randrange(50))
    lost = calls * rng.choice((0, 5, 20, 40)) // 100
    kind = rng.choice([kind for kind in KINDS if not lost or kind not in histories.TOKENS])
    made = played((kind,), calls, processes, seed=seed, lost=lost, refused=rng.choice((0, 3)), nemeses=rng.choice((0, 2)))
    options = () if rng.random() < 0.6 else ("--from", str(rng.randrange(2 * calls)))
    return Case(f"case {seed}", made.text(), rng.choice((made.certificates(), "")), options)


def why_something_is_left_out(page, history):
    """The figure of the object, and each other stretch, whose operations are not all drawn or counted, or None."""
    calls, _ = histories.calls_of(history)
    figures = [("the figure", page.by_id("fig0"))] + [(f"the stretch {stretch}", figure) for stretch, figure in stretches_of(page, 0)]
    for name, figure in figures:
        drawn, counted = shown_counts(figure)
        if figure is None or drawn + counted != len(calls) and drawn > 0:
            return f"{name}: {drawn} operations are drawn, {counted} are in gaps, and there are {len(calls)}"
    return None


def nothing_is_left_out(program, report):
    """The operations with bars on a page, and those that its gaps count, are all operations of the object."""

    def draw(seed):
        case = case_of(seed)
        drawn, _, _ = run(program, case)
        return case, why_something_is_left_out(Drawn(drawn.out), case.history)

    for case, wrong in at_once(draw, range(PAGES)):
        report.equal(f"draw: {case.name}: each operation is drawn or counted", None, wrong)
    return f"{PAGES} pages"


PARTS = (nothing_is_left_out,)
