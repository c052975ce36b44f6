#!/usr/bin/env python3
"""Part of tools/pass.py: a log of the program `station` as its bytes: its lines as station counts them, their times, and what their messages carry."""
import re

import usage
from name_vectors import Refused
from pass_spans import Segment
from wire_vectors import RESPONSE, UPDATE, int32, read

MARK = b"\xef\xbb\xbf"
TIME = re.compile(rb"#\s*at\s+(\d\S*)\s*$")
SECONDS = re.compile(rb"\d{1,12}(\.\d{1,6})?")
# calls with a message: its kind, and the field that has the assignment
MESSAGES = {b"update": (UPDATE, 2), b"response": (RESPONSE, 4)}


class Fault(Exception):
    """Something that was given and cannot be used."""


def shown(data):
    """Text, or bytes as text, with every unusual character escaped."""
    text = data.decode("utf-8", "backslashreplace") if isinstance(data, bytes) else data
    return "".join(c if c.isprintable() else ascii(c)[1:-1] for c in text)


def lines_of(data):
    """The lines, as station counts them; a byte-order mark and CR before LF are dropped, as by ./run."""
    lines = [line.removesuffix(b"\r") for line in data.removeprefix(MARK).split(b"\n")]
    return lines if lines[-1] else lines[:-1]


def times_of(name, lines):
    """The time of each line, by its number: that of the last comment '# at SECONDS' before it, or None. It never goes back."""
    times, now = {}, None
    for number, line in enumerate(lines, 1):
        if m := TIME.match(line):
            if not SECONDS.fullmatch(m[1]):
                raise Fault(f"{name} line {number}: not a time in seconds: {shown(m[1][:40])}")
            if now is not None and float(m[1]) < now:
                raise Fault(f"{name} line {number}: the time goes back")
            now = float(m[1])
        times[number] = now
    return times


def word_of(line, place):
    """A word of a line as bytes, or None."""
    words = line.split(b" ")
    if place >= len(words):
        return None
    if not words[place].startswith(b"0x"):
        return words[place]
    try:
        return bytes.fromhex(words[place][2:].decode("ascii"))
    except ValueError:
        return None


def topic_of(line):
    """The topic of an open, as text."""
    topic = word_of(line, 3)
    return None if topic is None else shown(topic)


def segment_of(fields):
    buckets = tuple(tuple(int32(bucket[end]) for end in (1, 2)) for bucket in fields.get(5, []))
    return Segment(fields[1], fields[2] % (1 << 32), fields[3] % (1 << 32), buckets)


def sent_by(line):
    """Epoch and segments of the list that a line's message carries, whether it is a good one or not; None where it carries none that can be read."""
    kind, field = MESSAGES.get(line.split(b" ", 1)[0], (None, None))
    message = word_of(line, 2) if kind is not None else None
    if message is None:
        return None
    try:
        assignment = read(kind, message).get(field)
    except Refused:
        return None
    if assignment is None:
        return None
    return assignment[1], tuple(sorted((segment_of(fields) for fields in assignment.get(2, [])), key=lambda segment: segment.id))


if __name__ == "__main__":
    usage.help_only(__doc__)
