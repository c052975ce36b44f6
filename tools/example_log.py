#!/usr/bin/env python3
"""Generator: the example of the program `station`, crates/station/stdin: a pass of a station as a log of calls.

The messages are put into bytes by tools/assignment_vectors.py, the hostile ones here, field by field.
"""
import sys

import usage
from assignment_vectors import Assignment, Delta, Segment, name_of, number_field, pack_delta, pack_segment, part_field, segment_message, to_pb
from attach_log_vectors import attach, detach, packed_entry, packed_log
from hours_vectors import at, of_week, packed
from vectors import CRATES

PARENT = b"topic://polar/uplink/contacts"
PATH = b"polar/uplink/contacts"
CONSUMER = 7

# the segments of the pass
NORTH = Segment(0, 0x0000, 0x3FFF, ())
NORTH_LOW = Segment(3, 0x0000, 0x1FFF, ())
NORTH_HIGH = Segment(4, 0x2000, 0x3FFF, ())
EAST = Segment(1, 0x4000, 0x7FFF, ((0x4000, 0x5FFF), (0x6000, 0x7FFF)))
EAST_LOW = Segment(1, 0x4000, 0x7FFF, ((0x4000, 0x5FFF),))
EAST_WHOLE = Segment(1, 0x4000, 0x7FFF, ((0x4000, 0x7FFF),))
SOUTH = Segment(2, 0x8000, 0xBFFF, ())
WEST = Segment(9, 0xC000, 0xFFFF, ())

# its contract, around the leap day of 2024
PASS, LAST_PASS = (2024, 2, 29), (2024, 3, 7)
WINDOWS = [(of_week("Thursday", 6), of_week("Thursday", 9)), (of_week("Saturday"), of_week("Saturday", 1))]
CONTRACT = packed([(at(*PASS), at(*LAST_PASS, 8))], WINDOWS)


def assignment(epoch, *segments):
    return to_pb(Assignment(epoch, segments), PARENT)


def update(epoch, *segments, consumer=CONSUMER):
    return number_field(1, consumer) + part_field(2, assignment(epoch, *segments))


def response(request, epoch, *segments):
    return number_field(1, request) + part_field(4, assignment(epoch, *segments))


def error(request, code, text):
    return number_field(1, request) + number_field(2, code) + part_field(3, text)


def of_segment(content, epoch=8):
    """An update whose one segment has that content."""
    return number_field(1, CONSUMER) + part_field(2, number_field(1, epoch) + part_field(2, content))


def named(segment, topic):
    return segment_message(segment.id, segment.start, segment.end, topic, segment.buckets)


def ranged(number, start, end, *buckets):
    """A segment's content whose ranges need be none."""
    return segment_message(number, start, end, name_of(PATH, number, start, end), buckets)


def hostile():
    whole = update(8, NORTH, EAST)
    below = (1 << 64) - 5
    yield "a message that is cut short", whole[:-1]
    yield "a segment's name that is not UTF-8", of_segment(named(NORTH, b"segment://polar/\xff"))
    yield "no epoch", number_field(1, CONSUMER) + part_field(2, part_field(2, named(NORTH, name_of(PATH, 0, 0, 0x3FFF))))
    yield "segment 0 under the name of segment 1", of_segment(named(NORTH, name_of(PATH, 1, 0, 0x3FFF)))
    yield "buckets that share a value", of_segment(ranged(1, 0x4000, 0x7FFF, (0x4000, 0x5FFF), (0x5FFF, 0x7FFF)))
    yield "a bucket beyond its segment's range", of_segment(ranged(1, 0x4000, 0x7FFF, (0x4000, 0x5FFF), (0x6000, 0x8000)))
    yield "a range that is reversed", of_segment(ranged(2, 0xBFFF, 0x8000))
    yield "a bucket that is negative", of_segment(ranged(2, 0x8000, 0xBFFF, (below, 3)))


def first_link():
    yield "# Before a session is open, no other call is run."
    yield "drain", 0
    yield "# The station opens its session: consumer 7, link 1 to the controller."
    yield "open", CONSUMER, 1, PARENT, b"passes", b"svalbard-2", b"stream"
    yield "# Two pushes come before the registration is answered: segment 0 at epoch 4, segments 0 and 1 at epoch 5. They wait in the queue."
    yield "update", 1, update(4, NORTH)
    yield "update", 1, update(5, NORTH, EAST)
    yield "# Nothing is handed out before the answer."
    yield "drain", 0
    yield "# The answer: segments 0 and 9 at epoch 3. The queue is replayed over it, so the list that is held is that of epoch 5."
    yield "response", 1, response(1, 3, NORTH, WEST)
    yield "# The uploader, reader 0, takes the queued pushes, one by one, until none is left."
    yield from [("drain", 0)] * 3
    yield "# The planning desk, reader 1, is handed the same. There is no reader 8."
    yield from [("drain", 1)] * 3
    yield "drain", 8


def pushes():
    latest = update(6, NORTH, EAST, SOUTH)
    yield "# A push at epoch 6: segment 2 is gained."
    yield "update", 1, latest
    yield "# The same push again: nothing changed."
    yield "update", 1, latest
    yield "# The same push through a relay that appends fields: consumer 9 is overridden at the end, the assignment comes in two parts."
    yield "update", 1, number_field(1, 9) + part_field(2, assignment(5, NORTH, EAST)) + part_field(2, assignment(6, SOUTH)) + number_field(1, CONSUMER)
    yield "# A rebalance at epoch 7: segment 0 is split into 3 and 4, the buckets of segment 1 are joined, segment 2 goes to another station."
    yield "update", 1, update(7, EAST_WHOLE, NORTH_LOW, NORTH_HIGH)
    yield "# A push that was overtaken: epoch 6 after 7."
    yield "update", 1, latest
    yield "# A push for consumer 8."
    yield "update", 1, update(8, NORTH, consumer=8)
    yield "# Hostile messages: each is refused, and the list stays."
    for comment, message in hostile():
        yield f"# {comment}"
        yield "update", 1, message
    yield "# How restless the layout is: of four deltas, two of them replays, which count once, one lost a segment and one three."
    yield "churn",


def second_link():
    yield "# The controller is not to be trusted any more: the station holds nothing."
    yield "invalidate",
    yield "churn",
    yield "# A new link has to have a higher number."
    yield "begin", 1
    yield "begin", 2
    yield "# A push of the old link."
    yield "update", 1, update(8, NORTH, EAST)
    yield "# An answer at epoch 6, below the highest that was accepted."
    yield "response", 2, response(2, 6, NORTH, EAST, SOUTH)
    yield "# The broker answers with an error; its text is hostile."
    yield "response", 2, error(2, 6, b'try "again" \\ later\x1b[2J\xc3\xa9')
    yield "# An answer without an assignment or an error."
    yield "response", 2, number_field(1, 3)
    yield "# The answer at epoch 8: the station holds segments again."
    yield "response", 2, response(4, 8, NORTH, EAST, SOUTH)


def damage():
    yield "# Damaged lines: the run goes on behind them."
    yield "udpate", 2, update(9, NORTH)
    yield "update", b"two", update(9, NORTH)
    yield b"update 2 0x0",
    yield b"update 2",
    yield "# The last push of the pass, at epoch 9."
    yield "update", 2, update(9, NORTH)


def questions():
    yield "# Segments 1 and 2 are gained again at epoch 10."
    yield "update", 2, update(10, NORTH, EAST, SOUTH)
    yield "# A planner types names of spacecraft. Their hashes are 10b7, 567c, baaf and c3a3."
    for name in (b"hubble", b"rosetta", b"cassini", b"voyager"):
        yield "segment", name
    yield "# No name."
    yield "segment",
    yield "# The integration desk wants a key that falls in each segment. Segment 3 is not held."
    for number in range(4):
        yield "key", number
    yield "# The key of segment 1 is found there."
    yield "segment", bytes.fromhex("00634fcb")
    yield "# No number."
    yield "key", b"one"
    yield "# A station that is not registered holds no segment."
    yield "invalidate",
    yield "segment", b"hubble"
    yield "key", 0


def charges():
    yield "# A renting operator is billed for segment 0, a quarter of the key space, at 2.50 euro an hour for all of it: an hour, then 11 seconds."
    yield "charge", pack_segment(NORTH), 3600, 2500000, 0
    yield "charge", pack_segment(NORTH), 11, 2500000, 0
    yield "# The remainder goes into the next holding, of the same length."
    yield "charge", pack_segment(NORTH), 11, 2500000, 170393600
    yield "# Of segment 1 one bucket is held."
    yield "charge", pack_segment(EAST_LOW), 3600, 2500000, 0
    yield "# More than 64 bits hold; a remainder that no holding leaves; a record that is cut short; no number."
    yield "charge", pack_segment(NORTH), 2**50, 2500000, 0
    yield "charge", pack_segment(NORTH), 0, 2500000, 235929600
    yield "charge", pack_segment(NORTH)[:-1], 3600, 2500000, 0
    yield "charge", pack_segment(NORTH), 3600, b"2.50", 0


def hours():
    yield "# The station may attach from Thursday 2024-02-29 to Thursday 2024-03-07 08:00: Thursdays 06:00 to 09:00, Saturdays until 01:00."
    yield "is_open", CONTRACT, at(*PASS, 6)
    yield "is_open", CONTRACT, at(*PASS, 9)
    yield "# The first second of all; the next behind Thursday's end, on Saturday; none behind the term's end."
    yield "earliest_open", CONTRACT, 0
    yield "earliest_open", CONTRACT, at(*PASS, 9)
    yield "earliest_open", CONTRACT, at(*LAST_PASS, 8)
    yield "# A contract that is cut short; no number."
    yield "is_open", CONTRACT[:-1], 0
    yield "is_open", CONTRACT, b"noon"


def uploads():
    deltas = pack_delta(Delta(6, [], [SOUTH])) + pack_delta(Delta(7, [0, 1, 2], [EAST_WHOLE, NORTH_LOW, NORTH_HIGH]))
    split = [*attach(2), *detach(2, 0, 1), *attach(1, 4, 3)]
    yield "# A customer's uploader sends its log of the pushes at epochs 6 and 7."
    yield "check_log", deltas, packed_log(split)
    yield "# Segment 4 is attached before segment 1 is detached; an entry is missing; a filling bit is set; a delta is cut short; no log."
    yield "check_log", deltas, packed_log([*attach(2), *detach(2, 0), *attach(4), *detach(1), *attach(1, 3)])
    yield "check_log", deltas, packed_log(split[:-1])
    yield "check_log", deltas, packed_log(split[:-1]) + packed_entry(split[-1], "0000001")
    yield "check_log", deltas[:-1], packed_log(split)
    yield "check_log", deltas


def shown(word):
    """A word of a line: plain texts as they stand, all other bytes in hexadecimal."""
    if not isinstance(word, bytes):
        return str(word)
    return word.decode() if word.isascii() and word.decode().isprintable() else "0x" + word.hex()


def line(step):
    return step if isinstance(step, str) else " ".join(map(shown, step))


def connection():
    push = update(10, NORTH)
    carried = part_field(75, push)
    yield "# What comes over the connection: a push, the answer to a registration, an update of the topics watch, each in its command."
    yield "command", number_field(1, 75) + carried
    yield "command", number_field(1, 74) + part_field(74, error(2, 6, b"later"))
    yield "command", number_field(1, 77) + part_field(77, number_field(1, 4))
    yield "# Another command, a ping; an unknown type; a push without its message, and one that a relay has split in two."
    yield "command", number_field(1, 18) + part_field(18, b"")
    yield "command", number_field(1, (1 << 64) - 1)
    yield "command", number_field(1, 75)
    yield "command", number_field(1, 75) + part_field(75, push[:2]) + part_field(75, push[2:])
    yield "# Hostile commands: cut short; the type as a text; no type."
    yield "command", (number_field(1, 75) + carried)[:-1]
    yield "command", part_field(1, b"75") + carried
    yield "command", carried


def made():
    head = "# A pass of the station svalbard-2 as a log of calls, written by tools/example_log.py. The answers stand in stdout."
    parts = [[head], first_link(), pushes(), second_link(), damage(), questions(), charges(), hours(), uploads(), connection()]
    text = "\n\n".join("\n".join(map(line, part)) for part in parts)
    return {CRATES / "station" / "stdin": text + "\n"}


if __name__ == "__main__":
    sys.exit(usage.generate(__doc__, made))
