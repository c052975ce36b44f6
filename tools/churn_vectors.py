#!/usr/bin/env python3
"""Judge and generator: the lost counts of a session's latest 256 deltas (02 n), reckoned for tools/vectors.py; run by
itself, it makes vectors/churn.log.

The session is read from the specification's words, as far as the log goes. The counts are a plain list, added up anew
each time.
"""
import random
import sys

import logs
import usage
from assignment_vectors import Assignment, Segment, contents, difference, number_field, pack_assignment, part_field, taken, to_pb
from assignment_vectors import whole_assignment
from name_vectors import Refused

READERS = 8
QUEUE = 6144
LENGTH = 2
LATEST = 256
CHURN = "churn"


class Session:
    """What the calls of a log have come to."""

    def __init__(self):
        self.lost = []

    def open(self, consumer, incarnation, topic, subscription, name, kind):
        if len(topic) + len(subscription) + len(name) > 2041:
            raise Refused(8)
        self.consumer, self.incarnation, self.topic, self.floor = consumer, incarnation, topic, None
        return self.unlinked()

    def unlinked(self):
        self.baseline, self.held, self.queue, self.drained, self.lost = None, None, [], [0] * READERS, []
        return "accepted"

    def checked(self, incarnation, field, message):
        """The list of a message that the link may send."""
        if incarnation != self.incarnation:
            raise Refused(23, incarnation, self.incarnation)
        if field == 2 and (consumer := contents(1, (0,), message)[-1]) != self.consumer:
            raise Refused(24, consumer, self.consumer)
        return whole_assignment(taken(field, self.topic, message))

    def raise_floor(self, epoch):
        self.floor = max(epoch, self.floor or 0)

    def changed(self, old, new, is_new=True):
        """What a delta is told as; the count of a new one is kept."""
        delta = difference(old, new)
        if is_new:
            self.lost.append(len(delta.lost))
        return f"epoch {delta.epoch} lost {len(delta.lost)} gained {len(delta.gained)}"

    def update(self, incarnation, message):
        new, old = self.checked(incarnation, 2, message), self.held
        if old is None:
            if self.floor is not None and new.epoch < self.floor:
                raise Refused(26, new.epoch, self.floor)
            self.queue.append(new)
            return "none"
        if new == old:
            return "none"
        if new.epoch < old.epoch:
            raise Refused(27, new.epoch, old.epoch)
        self.held = new
        self.raise_floor(new.epoch)
        return "delta " + self.changed(old, new)

    def response(self, incarnation, message):
        new = self.checked(incarnation, 4, message)
        if self.floor is not None and new.epoch < self.floor:
            raise Refused(26, new.epoch, self.floor)
        queue = [] if self.held else self.queue
        for old, later in zip([new, *queue], queue):
            if later.epoch < old.epoch:
                raise Refused(27, later.epoch, old.epoch)
        self.baseline, self.queue, self.drained = new, queue, [0] * READERS
        self.held = [new, *queue][-1]
        self.raise_floor(self.held.epoch)
        return f"accepted baseline epoch {new.epoch} segments {len(new.segments)}"

    def drain(self, reader):
        if reader >= READERS:
            raise Refused(33)
        furthest = max(self.drained)
        while self.held and self.drained[reader] < len(self.queue):
            place = self.drained[reader]
            self.drained[reader] += 1
            old, new = [self.baseline, *self.queue][place], self.queue[place]
            if new != old:
                before = sum(LENGTH + len(pack_assignment(earlier)) for earlier in self.queue[:place])
                return f"replay at {QUEUE + before + LENGTH} {self.changed(old, new, furthest <= place)}"
        return "none"

    def begin(self, incarnation):
        if incarnation <= self.incarnation:
            raise Refused(25, incarnation, self.incarnation)
        self.incarnation = incarnation
        return self.unlinked()

    def invalidate(self):
        return self.unlinked()

    def churn(self):
        latest = self.lost[-LATEST:]
        return f"lost {sum(latest)} largest {max(latest, default=0)}"


def commands():
    """The calls of one session, which starts before it is opened."""
    session = Session()
    forms = {"open": "nnbbbb", "update": "nb", "response": "nb", "drain": "n", "begin": "n", "invalidate": "", CHURN: ""}
    return {name: (form, getattr(session, name)) for name, form in forms.items()}


COMMANDS = commands()

# ---- the vectors

TOPIC = b"topic://a/b/c"
CONSUMER = 7


def segments(*numbers):
    """Segments side by side; a number of 1,000 and more is that of its last digits with a bucket, which alters it."""
    return [segment(number % 1000, number >= 1000) for number in sorted(numbers, key=lambda number: number % 1000)]


def segment(number, has_bucket):
    start, end = 256 * number, 256 * number + 255
    return Segment(number, start, end, ((start, end),) if has_bucket else ())


def listed(field, head, epoch, *numbers):
    return number_field(1, head) + part_field(field, to_pb(Assignment(epoch, segments(*numbers)), TOPIC))


def opened(name="n"):
    return logs.line("open", CONSUMER, 1, TOPIC.decode(), "s", name, "stream")


def update(link, epoch, *numbers):
    return logs.line("update", link, listed(2, CONSUMER, epoch, *numbers))


def response(link, epoch, *numbers):
    return logs.line("response", link, listed(4, 1, epoch, *numbers))


def drain(reader):
    return logs.line("drain", reader)


def asked(lines):
    """After each line the counts."""
    for line in lines:
        yield line
        yield CHURN


def first_link():
    yield "# ==== no session, a session without a delta, pushes that wait"
    yield CHURN
    yield from asked([opened(), update(1, 2, 0, 1, 2), update(1, 3, 1), update(1, 3, 1), update(1, 4), drain(0)])
    yield "# a response; the replays, each counted once, whoever is handed it first; none is left"
    yield from asked([response(1, 1, 0, 8, 9), *map(drain, (0, 7, 7, 0, 0, 7, 0, 7, 3))])
    yield "# segments gained, altered, lost; the same list again; an epoch alone, which is a delta that loses none"
    altered = (0, 1, 1002, 1003, 4, 5)
    yield from asked([update(1, 5, *range(6)), update(1, 5, *range(6)), update(1, 6, *altered), update(1, 7, *altered)])
    yield "# refused: an older epoch, another link, another consumer, a link that does not advance"
    other = logs.line("update", 1, listed(2, 8, 9))
    yield from asked([update(1, 6), update(2, 8), other, logs.line("begin", 1), update(1, 8, 0)])
    yield "# a response to a registered session leaves the counts"
    yield from asked([response(1, 8, *range(9)), drain(0), update(1, 9, 8)])


def clearings():
    yield "# ==== an accepted begin clears them, an accepted invalidate too; a refused call does not; an accepted open does"
    yield from asked([logs.line("begin", 2), response(2, 9, 1, 2, 3), update(2, 10, 3), "invalidate"])
    yield from asked(["invalidate", response(2, 10, 1, 2), update(2, 11), opened("x" * 2040), logs.line("begin", 2)])
    yield from asked([opened(), response(1, 1, *range(4)), update(1, 2)])


def turned_over(rng):
    yield "# ==== 145 lost at once, the most that a list can hold: 255 deltas later they still count, 256 later they do not"
    yield logs.line("begin", 2)
    yield from asked([response(2, 2, *range(145)), update(2, 3)])
    for number in range(254):
        yield update(2, 4 + number, *[3] * (number % 2 == 0))
    yield from asked([update(2, 258, 3), update(2, 259), update(2, 259, 3)])
    yield "# lists at random: the window turns over once more"
    for epoch in range(260, 560):
        numbers = rng.sample(range(6), rng.choice((0, 0, 1, 1, 2, 3)))
        yield update(2, epoch, *(rng.choice((number, number, 1000 + number)) for number in numbers))
        if rng.random() < 0.25:
            yield CHURN
    yield from asked(["invalidate"])


def made():
    head = "# The lost counts of a session's latest 256 deltas, as a log of station, written and reckoned by "
    head += "tools/churn_vectors.py."
    return logs.made("churn", [head, *first_link(), *clearings(), *turned_over(random.Random("churn vectors"))])


if __name__ == "__main__":
    sys.exit(usage.generate(__doc__, made))
