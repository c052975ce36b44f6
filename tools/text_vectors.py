#!/usr/bin/env python3
"""Judge: the rows of Unicode's Table 3-7, "Well-Formed UTF-8 Byte Sequences", and the texts that show each row's ends, for tools/vectors.py.

A row is its code points and the spans of its bytes, as the table prints them. The two say the same in two ways, and `cases` holds them to one another:
a row's lowest and highest sequence, made of its spans, are the lowest and the highest code point as Python encodes them.
"""
import usage

ROWS = [
    ("0000..007F", "00..7F"),
    ("0080..07FF", "C2..DF 80..BF"),
    ("0800..0FFF", "E0..E0 A0..BF 80..BF"),
    ("1000..CFFF", "E1..EC 80..BF 80..BF"),
    ("D000..D7FF", "ED..ED 80..9F 80..BF"),
    ("E000..FFFF", "EE..EF 80..BF 80..BF"),
    ("10000..3FFFF", "F0..F0 90..BF 80..BF 80..BF"),
    ("40000..FFFFF", "F1..F3 80..BF 80..BF 80..BF"),
    ("100000..10FFFF", "F4..F4 80..8F 80..BF 80..BF"),
]
# what stands before and behind a sequence where it is no text by itself: plain bytes, more than the code takes at once
BEFORE, BEHIND = b"plain, before:", b":behind, plain"


def ends(span):
    return [int(end, 16) for end in span.split("..")]


def with_byte(text, place, byte):
    return text[:place] + bytes([byte]) + text[place + 1:]


def row_cases(points, spans):
    """The row's lowest and highest sequence, which pass; and each with one later byte just below and just above its span, refused."""
    spans = [ends(span) for span in spans.split(" ")]
    for end, point in enumerate(ends(points)):
        text = bytes(span[end] for span in spans)
        assert text == chr(point).encode(), points
        yield text, True
        for place, (low, high) in enumerate(spans[1:], 1):
            yield with_byte(text, place, low - 1), False
            yield with_byte(text, place, high + 1), False


def cases():
    """Each row: its number, its spans, and its texts with whether they pass; by themselves, then between plain bytes."""
    for number, (points, spans) in enumerate(ROWS, 1):
        alone = list(row_cases(points, spans))
        yield number, spans, alone + [(BEFORE + text + BEHIND, passes) for text, passes in alone]


def line(text):
    return "utf8 0x" + text.hex()


def missing(answers):
    """The cases that are not among the lines of stdin, or are answered otherwise than their row says."""
    return [line(text) for _, _, some in cases() for text, passes in some if answers.get(line(text)) != ("yes" if passes else "no")]


if __name__ == "__main__":
    usage.help_only(__doc__)
