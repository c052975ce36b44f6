#!/usr/bin/env python3
"""Part of tools/pass.py: lines of a station's log made from a layout in text.

The message is written as it stands there, good or not: what is wrong with a layout the station says.
"""
import re

import usage
from assignment_vectors import name_of, number_field, part_field, segment_message
from name_vectors import Refused, parent_path
from pass_log import Fault, lines_of, shown, word_of
from pass_spans import Segment

NUMBER = re.compile(r"\d{1,20}")
SPAN = r"[0-9a-fA-F]{1,4}-[0-9a-fA-F]{1,4}"
SEGMENT = re.compile(rf"(\d{{1,20}}) ({SPAN})(?: ({SPAN}(?:,{SPAN})*))?")
# lines that stand as in a log
KEPT = ("open", "drain", "begin", "invalidate")


def number(text):
    """A number of 64 bits."""
    if not NUMBER.fullmatch(text) or int(text) >= 1 << 64:
        raise Fault(f"not a number below 2^64: {shown(text[:40])}")
    return int(text)


def span_of(text):
    first, last = text.split("-")
    return int(first, 16), int(last, 16)


class Layout:
    """What stands before a message: parent, consumer, link, epoch, segments."""

    def __init__(self):
        self.parent, self.consumer, self.link, self.epoch, self.segments = b"topic://a/b/c", 1, 1, 1, []

    def assignment(self):
        try:
            path = parent_path(self.parent)
        except Refused:
            raise Fault(f"no parent of segments: {shown(self.parent[:80])}") from None
        message = number_field(1, self.epoch)
        for s in self.segments:
            message += part_field(2, segment_message(s.id, s.start, s.end, name_of(path, s.id, s.start, s.end), s.buckets))
        return message

    def update(self):
        return f"update {self.link} 0x{(number_field(1, self.consumer) + part_field(2, self.assignment())).hex()}"

    def response(self, request):
        return f"response {self.link} 0x{(number_field(1, request) + part_field(4, self.assignment())).hex()}"

    def add(self, m):
        buckets = tuple(map(span_of, m[3].split(","))) if m[3] else ()
        self.segments.append(Segment(number(m[1]), *span_of(m[2]), buckets))

    def kept(self, line, words):
        """A line of the log: open and begin tell consumer, link and parent too."""
        if words[0] == "open" and len(words) == 7:
            self.consumer, self.link, self.parent = number(words[1]), number(words[2]), word_of(line.encode(), 3) or b""
        elif words[0] == "begin" and len(words) == 2:
            self.link = number(words[1])
        return line

    def set_word(self, word, value):
        """One of the layout's own words."""
        if word == "epoch":
            self.epoch, self.segments = number(value), []
        elif word in ("consumer", "link"):
            setattr(self, word, number(value))
        elif word == "parent":
            self.parent = value.encode()
        else:
            raise Fault(f"not a word of a layout: {shown(word[:40])}")

    def take(self, line):
        """The line of the log that a line of the layout gives, or None."""
        words = line.split()
        if m := SEGMENT.fullmatch(" ".join(words)):
            return self.add(m)
        if words == ["update"]:
            return self.update()
        if words[0] == "response" and len(words) == 2:
            return self.response(number(words[1]))
        if words[0] in KEPT:
            return self.kept(" ".join(words), words)
        if len(words) == 2:
            return self.set_word(*words)
        raise Fault(f"not a line of a layout: {shown(line[:60])}")


def made(data):
    """The lines of a log; comments and empty lines stay."""
    layout = Layout()
    for place, raw in enumerate(lines_of(data), 1):
        try:
            text = raw.decode("utf-8").strip()
            line = text if not text or text.startswith("#") else layout.take(text)
        except UnicodeDecodeError:
            raise Fault(f"line {place} of the layout: not UTF-8") from None
        except Fault as fault:
            raise Fault(f"line {place} of the layout: {fault}") from None
        if line is not None:
            yield line


if __name__ == "__main__":
    usage.help_only(__doc__)
