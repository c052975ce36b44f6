#!/usr/bin/env python3
"""Judge and generator: the eight readers of a session's replays (02 d), reckoned for tools/vectors.py; run by itself, it makes vectors/readers.log.

The session is that of tools/churn_vectors.py: a list of eight numbers, of which a drain moves the asking reader's alone.
"""
import random
import sys

import logs
import usage
from churn_vectors import READERS, commands, drain, opened, response, update

COMMANDS = commands()


def whole(reader, changes):
    """A reader's drains to none."""
    return [drain(reader)] * (changes + 1)


def one_by_one():
    yield "# ==== three pushes wait, the second like the first: two changes for each reader, in its own time"
    yield from [opened(), drain(0), update(1, 2, 0, 1), update(1, 2, 0, 1), update(1, 3, 1), drain(7)]
    yield from [response(1, 1, 0, 9), *whole(0, 2), *whole(7, 2), drain(0), *whole(3, 2)]
    yield "# no reader: 8 and more"
    yield from map(drain, (8, 9, 255, 256, (1 << 64) - 1))
    yield "# reader 1 stops behind its first; an update goes ahead of what is left for it, which it is handed all the same"
    yield from [drain(1), update(1, 4, 1, 2), drain(1), drain(1), drain(0)]


def set_to_zero():
    yield "# ==== a response to a registered session leaves no queue, for no reader"
    yield from [response(1, 5, 3), *map(drain, range(READERS))]
    yield "# begin leaves none, and the next queue is every reader's from its start; invalidate too"
    for link, end in ((2, "invalidate"), (3, logs.line("begin", 4)), (5, "invalidate")):
        epoch = 2 * link + 2
        yield from [logs.line("begin", link), update(link, epoch, 4), update(link, epoch + 1, 4, 5), response(link, epoch, 4)]
        yield from [*whole(7, 1), drain(2), end, *map(drain, (2, 7, 5))]


def interleaved(rng):
    yield "# ==== queues of random lists, drained by all readers in a random order, some of them further than others"
    epoch = 20
    for link in range(6, 16):
        yield logs.line("begin", link)
        baseline = epoch
        for _ in range(rng.randrange(1, 9)):
            epoch += rng.randrange(2)
            yield update(link, epoch, *rng.sample(range(4), rng.randrange(3)))
        yield response(link, baseline, *rng.sample(range(4), 2))
        asking = [reader for reader in range(READERS) for _ in range(rng.randrange(11))]
        rng.shuffle(asking)
        yield from map(drain, asking)


def made():
    head = "# The eight readers of a session's replays, as a log of station, written and reckoned by tools/reader_vectors.py."
    return logs.made("readers", [head, *one_by_one(), *set_to_zero(), *interleaved(random.Random("reader vectors"))])


if __name__ == "__main__":
    sys.exit(usage.generate(__doc__, made))
