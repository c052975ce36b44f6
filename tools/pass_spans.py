#!/usr/bin/env python3
"""Part of tools/pass.py: segments, and the values of the key space that they take: rows of spans, each of first and last, sorted, with a gap between two."""
from dataclasses import dataclass

import usage

SPACE = 65536


@dataclass(frozen=True)
class Segment:
    """A segment of a list: its id, its range, and the buckets of it that are the station's (none: the whole range)."""

    id: int
    start: int
    end: int
    buckets: tuple = ()

    def spans(self):
        """The values that it takes."""
        return self.buckets or ((self.start, self.end),)

    def __str__(self):
        buckets = ",".join(map(span_text, self.buckets))
        return f"{self.id} {span_text((self.start, self.end))}" + (f" [{buckets}]" if buckets else "")


def span_text(span):
    return f"{span[0]:04x}-{span[1]:04x}"


def merged(spans):
    """Any spans as a row."""
    row = []
    for first, last in sorted(spans):
        if row and first <= row[-1][1] + 1:
            row[-1][1] = max(row[-1][1], last)
        else:
            row.append([first, last])
    return [tuple(span) for span in row]


def taken(segments):
    """The values that segments take, as a row."""
    return merged(span for segment in segments or () for span in segment.spans())


def shared(a, b):
    """The values that two rows have in common, as a row."""
    row, i, j = [], 0, 0
    while i < len(a) and j < len(b):
        first, last = max(a[i][0], b[j][0]), min(a[i][1], b[j][1])
        if first <= last:
            row.append((first, last))
        if a[i][1] < b[j][1]:
            i += 1
        else:
            j += 1
    return row


def without(a, b):
    """The values of a row that another has not, as a row."""
    edges = [0, *(edge for first, last in b for edge in (first - 1, last + 1)), SPACE - 1]
    return shared(a, [(first, last) for first, last in zip(edges[::2], edges[1::2]) if first <= last])


def touching(segments, span):
    """The ids of the segments that take a value of the span."""
    return [segment.id for segment in segments if shared(merged(segment.spans()), [span])]


if __name__ == "__main__":
    usage.help_only(__doc__)
