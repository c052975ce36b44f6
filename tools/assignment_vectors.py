#!/usr/bin/env python3
"""Judge: packed assignments, deltas, the calls with an output and the intake, reckoned for tools/vectors.py. tools/assignment_lines.py makes the vectors.

The forms, what changed, apply, join, the writer and the order of refusals are read from the specification's words: bytes are taken apart into values and put
together again, ranges are sets of values, and rows of segments are dictionaries.
"""
import struct
from collections import namedtuple

import usage
from name_vectors import ROOM, Refused, key_range, parent_path, utf8
from wire_vectors import contents, int32

SLOT = 2048
LONGEST_DELTA = 3210

Segment = namedtuple("Segment", "id start end buckets")
Assignment = namedtuple("Assignment", "epoch segments")
Delta = namedtuple("Delta", "epoch lost gained")


class Malformed(Exception):
    """Bytes that are no packed form."""


# ---- the packed forms, from values to bytes


def pack_segment(segment):
    head = struct.pack(">QHHH", segment.id, segment.start, segment.end, len(segment.buckets))
    return head + b"".join(struct.pack(">HH", *bucket) for bucket in segment.buckets)


def pack_assignment(assignment):
    return struct.pack(">QH", assignment.epoch, len(assignment.segments)) + b"".join(map(pack_segment, assignment.segments))


def pack_delta(delta):
    head = struct.pack(">QHH", delta.epoch, len(delta.lost), len(delta.gained))
    return head + b"".join(struct.pack(">Q", lost) for lost in delta.lost) + b"".join(map(pack_segment, delta.gained))


def pack_fitting(assignment):
    if 10 + sum(14 + 4 * len(segment.buckets) for segment in assignment.segments) > SLOT:
        raise Refused(15)
    return pack_assignment(assignment)


# ---- and back


class Bytes:
    """Numbers taken from the front."""

    def __init__(self, data):
        self.data, self.at = data, 0

    def take(self, form):
        try:
            numbers = struct.unpack_from(form, self.data, self.at)
        except struct.error:
            raise Malformed from None
        self.at += struct.calcsize(form)
        return numbers


def shared(ranges):
    """Two of the ranges have a value in common."""
    values = [value for start, end in ranges for value in range(start, end + 1)]
    return len(values) > len(set(values))


def rising(ids):
    return all(low < high for low, high in zip(ids, ids[1:]))


def take_segment(data):
    number, start, end, count = data.take(">QHHH")
    buckets = tuple(data.take(">HH") for _ in range(count))
    if any(low > high for low, high in [(start, end), *buckets]) or shared(buckets):
        raise Malformed
    return Segment(number, start, end, buckets)


def take_segments(data, count):
    segments = [take_segment(data) for _ in range(count)]
    if not rising([segment.id for segment in segments]):
        raise Malformed
    return segments


def front_assignment(data):
    """The packed assignment in a slot, and how many bytes it has there."""
    data = Bytes(data[:SLOT])
    epoch, count = data.take(">QH")
    return Assignment(epoch, take_segments(data, count)), data.at


def whole_assignment(data):
    """The packed assignment that is lent alone."""
    assignment, size = front_assignment(data)
    if size != len(data):
        raise Malformed
    return assignment


def take_delta(data):
    """The delta at the front."""
    epoch, losses, gains = data.take(">QHH")
    lost = [data.take(">Q")[0] for _ in range(losses)]
    gained = take_segments(data, gains)
    if not rising(lost):
        raise Malformed
    return Delta(epoch, lost, gained)


def whole_delta(data):
    data = Bytes(data)
    delta = take_delta(data)
    if data.at != len(data.data):
        raise Malformed
    return delta


# ---- what changed, apply and join


def difference(old, new):
    lost = [segment.id for segment in old.segments if segment not in new.segments]
    gained = [segment for segment in new.segments if segment not in old.segments]
    return Delta(new.epoch, lost, gained)


def by_id(segments):
    return [segments[number] for number in sorted(segments)]


def apply(assignment, delta):
    segments = {segment.id: segment for segment in assignment.segments}
    for number in delta.lost:
        segments.pop(number, None)
    segments.update((segment.id, segment) for segment in delta.gained)
    return Assignment(delta.epoch, by_id(segments))


def join(first, second):
    named = {*second.lost, *(segment.id for segment in second.gained)}
    gained = {segment.id: segment for segment in first.gained if segment.id not in named}
    gained.update((segment.id, segment) for segment in second.gained)
    return Delta(second.epoch, sorted({*first.lost, *second.lost}), by_id(gained))


# ---- messages


def varint(value):
    low, rest = value % 128, value // 128
    return bytes([low + 128]) + varint(rest) if rest else bytes([low])


def number_field(number, value):
    return varint(8 * number) + varint(value)


def part_field(number, part):
    return varint(8 * number + 2) + varint(len(part)) + part


def name_of(path, number, start, end):
    return b"segment://" + path + b"/%04x-%04x-%d" % (start, end, number)


def segment_message(number, start, end, topic, buckets):
    rows = b"".join(part_field(5, number_field(1, low) + number_field(2, high)) for low, high in buckets)
    return number_field(1, number) + number_field(2, start) + number_field(3, end) + part_field(4, topic) + rows


def test_inside(number, start, end, buckets):
    """Every value of every bucket is one of the segment's (02 e)."""
    for index, (low, high) in enumerate(buckets):
        if not {low, high} <= set(range(start, end + 1)):
            raise Refused(34, number, index)


def to_pb(assignment, parent):
    for segment in assignment.segments:
        test_inside(*segment)
    if assignment.segments and not utf8(parent):
        raise Refused(7)
    path = parent_path(parent) if assignment.segments else None
    message = number_field(1, assignment.epoch)
    for number, start, end, buckets in assignment.segments:
        message += part_field(2, segment_message(number, start, end, name_of(path, number, start, end), buckets))
    return message


def last(found, default):
    return found[-1] if found else default


def bucket_values(part):
    return tuple(int32(last(contents(field, (0,), part), 0)) for field in (1, 2))


def taken_segment(part, parent):
    """The segment in a part of a message, or what is wrong with it by itself."""
    number, *ends = (last(contents(field, (0,), part), 0) for field in (1, 2, 3))
    start, end = (value % (1 << 32) for value in ends)
    try:
        key_range(start, end)
    except Refused as refusal:
        raise Refused(9, number, *refusal.args[1:]) from None
    buckets = tuple(bucket_values(bucket) for bucket in contents(5, (2,), part))
    for index, (low, high) in enumerate(buckets):
        if not 0 <= low <= high <= 0xFFFF:
            raise Refused(10, number, index, low, high)
    if shared(buckets):
        raise Refused(11, number)
    test_inside(number, start, end, buckets)
    if last(contents(4, (2,), part), b"") != name_of(parent_path(parent), number, start, end):
        raise Refused(13, number)
    return Segment(number, start, end, buckets)


def taken(field, parent, message):
    """The assignment of a message: several are merged."""
    epoch, segments = 0, {}
    for assignment in contents(field, (2,), message):
        epoch = last(contents(1, (0,), assignment), epoch)
        for part in contents(2, (2,), assignment):
            segment = taken_segment(part, parent)
            if segment.id in segments:
                raise Refused(14, segment.id)
            segments[segment.id] = segment
    return pack_fitting(Assignment(epoch, by_id(segments)))


# ---- the answers


def told(reader, counts):
    """A command that reads bytes: their numbers, or that they are malformed."""
    def command(data):
        assert len(data) <= ROOM
        try:
            return " ".join(map(str, counts(reader(data))))
        except Malformed:
            return "malformed"
    return command


def written(result):
    return f"written {len(result)} 0x{result.hex()} same"


def with_output(command):
    """A command with an output: 20, its own refusals, then the room."""
    def answer(a, b, room):
        assert len(a) <= ROOM and len(b) <= ROOM and room <= ROOM
        try:
            result = command(a, b)
            return written(result) if len(result) <= room else "refused 21 same"
        except Malformed:
            return "refused 20 same"
        except Refused as refusal:
            return f"{refusal} same"
    return answer


def joined(first, second):
    delta = join(whole_delta(first), whole_delta(second))
    if max(len(delta.lost), len(delta.gained)) > 0xFFFF:
        raise Refused(21)
    return pack_delta(delta)


def between(old, new):
    try:
        delta = pack_delta(difference(whole_assignment(old), whole_assignment(new)))
    except Malformed:
        return "malformed"
    assert len(delta) <= LONGEST_DELTA
    return written(delta)


# the commands: how each argument is read (n a number, b bytes), and the answer
COMMANDS = {
    "assignment": ("b", told(whole_assignment, lambda a: (len(pack_assignment(a)), len(a.segments)))),
    "front": ("b", told(front_assignment, lambda found: (found[1], len(found[0].segments)))),
    "delta": ("b", told(whole_delta, lambda d: (len(d.lost), len(d.gained)))),
    "difference": ("bb", between),
    "apply": ("bbn", with_output(lambda a, d: pack_fitting(apply(whole_assignment(a), whole_delta(d))))),
    "join": ("bbn", with_output(joined)),
    "to_pb": ("bbn", with_output(lambda a, parent: to_pb(whole_assignment(a), parent))),
    "intake": ("nbb", lambda field, parent, message: "taken 0x" + taken(field, parent, message).hex()),
}


if __name__ == "__main__":
    usage.help_only(__doc__)
