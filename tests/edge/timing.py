"""How long a run takes on a processor, and how slow that processor is."""
import resource
import statistics
import time

# What the loop of `slowness` takes where the bounds of time were chosen, in seconds of the processor.
LOOP_SECONDS = 0.021
# The most runs by which a time is told: what else the machine does changes a time, and mostly adds to it.
TRIES = 10


def processor_seconds(program, *words):
    """How long a processor works on a run. What else the machine does changes that least."""
    spent = lambda: sum(resource.getrusage(resource.RUSAGE_CHILDREN)[:2])  # noqa: E731
    begun = spent()
    program.run(*words)
    return spent() - begun


def loop_seconds():
    begun = time.thread_time()
    sum(number * number % 7 for number in range(200_000))
    return time.thread_time() - begun


def slowness():
    """How many times slower than there a processor is now, and at least 1."""
    return max(1, statistics.median(loop_seconds() for _ in range(5)) / LOOP_SECONDS)


def least_seconds(program, most, *words):
    """The least time of several runs, in seconds of the processor as they would be where the bounds of time were
    chosen. It is tried again where it is more than the most that it may be."""
    least = most + 1
    for _ in range(TRIES):
        least = min(least, processor_seconds(program, *words) / slowness())
        if least <= most:
            break
    return least
