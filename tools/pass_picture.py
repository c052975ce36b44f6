#!/usr/bin/env python3
"""Part of tools/pass.py: logs as one picture (SVG): the key space from top to bottom, time, epochs or the log's order from left to right.

A station is a band: above it the epochs, in it the lists that were held, below it a mark for each line of its log. Rest the pointer on a list or a mark
for its numbers. Nothing is fetched from elsewhere.
"""
import math
from collections import Counter
from html import escape

import usage
from pass_compare import runs
from pass_spans import SPACE
from pass_words import cut, hover, list_text, seconds

LEFT, RIGHT, HEAD, BAND, MARKS, FOOT = 56, 24, 44, 160, 16, 26
LEAST, MOST, STEP = 900, 6000, 6

STYLE = """.band{fill:#f4f6f8}.held{fill:#6c9fd2;stroke:#fff;stroke-width:.6}.other{fill:#a9c8e8;stroke:#fff;stroke-width:.6}.both{fill:#e03131}
.changed{fill:#2b8a3e}.link{fill:#0c8599}.refused{fill:#a61e4d}.damaged{fill:#111}.plain{fill:#b4bac2}.grid{stroke:#d5d9de}
svg{font:11px sans-serif}.name{font-size:13px;font-weight:bold}.soft{fill:#5c6570}.id{fill:#0b2540;pointer-events:none}
path:hover,rect.mark:hover{stroke:#111;stroke-width:1.5}"""

KEYS = (
    ("held", "held"), ("both", "held by two stations"), ("changed", "baseline, delta or replay"), ("link", "open, begin, invalidate"),
    ("refused", "refused"), ("damaged", "damaged line"), ("plain", "nothing changed"),
)


def titled(text):
    return f"<title>{escape(text)}</title>"


class Axis:
    """From left to right: the places of each log's entries, and what is written below."""

    def __init__(self, logs, by):
        self.by = by
        self.rows = {id(log): getattr(self, f"by_{by}")(log, logs) for log in logs}
        most = max((len(log.entries) for log in logs), default=0)
        self.width = min(max(LEAST, STEP * most), MOST)

    def by_order(self, log, logs):
        self.low, self.high = 0, max(1, len(log.entries))
        self.ticks = [(k, f"line {entry.line}") for k, entry in enumerate(log.entries)]
        return [(k, k + 1) for k in range(len(log.entries))]

    def by_time(self, log, logs):
        times = [entry.time for other in logs for entry in other.entries if entry.time is not None] or [0]
        length = max(times) - min(times) or 1
        self.low, self.high = min(times) - length / 12, max(times) + length / 6
        step = next(s * 10**k for k in range(-6, 13) for s in (1, 2, 5) if length / (s * 10**k) <= 10)
        first = math.ceil(min(times) / step)
        self.ticks = [(n * step, f"{seconds(n * step)} s") for n in range(first, math.floor(max(times) / step) + 1)]
        starts = [self.low if entry.time is None else entry.time for entry in log.entries]
        return list(zip(starts, [*starts[1:], self.high]))

    def by_epoch(self, log, logs):
        """A column for each epoch, shared by its entries; those without a list stand in the column of the epoch before."""
        epochs = sorted({entry.epoch for other in logs for entry in other.entries if entry.epoch is not None}) or [0]
        self.low, self.high = 0, len(epochs)
        self.ticks = [(k, f"epoch {epoch}") for k, epoch in enumerate(epochs)]
        column, columns, rank = 0, [], {epoch: k for k, epoch in enumerate(epochs)}
        for entry in log.entries:
            column = rank.get(entry.epoch, column)
            columns.append(column)
        sizes, seen, row = Counter(columns), Counter(), []
        for c in columns:
            row.append((c + seen[c] / sizes[c], c + (seen[c] + 1) / sizes[c]))
            seen[c] += 1
        return row

    def labels(self):
        """What stands below all bands: as many words as have room, each with its place in pixels."""
        free = 0
        for x, label in self.ticks:
            if (at := self.at(x)) >= free:
                yield at, label
                free = at + 7 * len(label) + 12

    def at(self, x):
        """In pixels."""
        return round(LEFT + (min(max(x, self.low), self.high) - self.low) / (self.high - self.low) * self.width, 2)


def height_of(value):
    return round(value / SPACE * BAND, 2)


def box(x0, x1, span, y):
    """A span as a part of a path."""
    top, bottom = y + height_of(span[0]), y + height_of(span[1] + 1)
    return f"M{x0} {top:.2f}H{x1}V{max(bottom, top + 0.5):.2f}H{x0}Z"


def ids(segments, x0, x1, y):
    """The ids of segments whose boxes have room for them."""
    return "".join(
        f'<text class="id" x="{x0 + 5:.1f}" y="{y + height_of((first + last + 1) / 2) + 4:.1f}">{segment.id}</text>'
        for segment in segments
        for first, last in segment.spans()[:1]
        if height_of(last - first + 1) >= 12 and x1 - x0 >= 7 * len(str(segment.id)) + 6
    )


def list_box(run, x0, x1, y, kind):
    """A list that was held."""
    path = "".join(box(x0, x1, span, y) for segment in run.first.held for span in segment.spans())
    lines = f"lines {run.first.line} to {run.last}" if run.last > run.first.line else f"line {run.first.line}"
    title = titled(f"{lines}: epoch {run.first.epoch}: {list_text(run.first.held)}")
    return f'<path class="{kind}" d="{path}">{title}</path>'


def extents(log, axis):
    """The runs of a log, each with its left and right edge."""
    found, row = runs(log.entries), axis.rows[id(log)]
    behind = [run.place for run in found[1:]] + [len(row)]
    return [(run, axis.at(row[run.place][0]), axis.at(row[end - 1][1])) for run, end in zip(found, behind)]


def lists(found, y):
    """The lists of a band, in two colours by turns."""
    held = [(run, x0, x1) for run, x0, x1 in found if run.first.held and x1 > x0]
    return "".join(list_box(run, x0, x1, y, ("held", "other")[k % 2]) for k, (run, x0, x1) in enumerate(held))


def words(found, y):
    """The epochs above a band and the ids in it, where they have room."""
    out, free, epoch = f'<text class="soft" x="{LEFT - 42}" y="{y - 6}">epoch</text>', 0, None
    for run, x0, x1 in found:
        if run.first.held is None or x1 <= x0:
            continue
        out += ids(run.first.held, x0, x1, y)
        room = 6.5 * len(str(run.first.epoch)) + 5
        if run.first.epoch != epoch and (x0 >= free or x1 - free >= room):
            epoch, at = run.first.epoch, max(x0, free)
            out += f'<text class="soft" x="{at:.2f}" y="{y - 6}">{epoch}</text>'
            free = at + room
    return out


def marks(log, axis, y):
    """A mark for each entry; those of one time stand beside one another."""
    out, last, shift = "", None, 0
    for entry, (x0, _) in zip(log.entries, axis.rows[id(log)]):
        shift = shift + 4 if x0 == last else 0
        last = x0
        out += f'<rect class="mark {entry.kind()}" x="{axis.at(x0) + shift:.2f}" y="{y + BAND + 4}" width="3" height="{MARKS - 6}">{titled(hover(entry))}</rect>'
    return out


def reds(found, axis, y, red):
    """What another station held too, with a word for each."""
    edges, out = {run.place: (x0, x1) for run, x0, x1 in found}, ""
    for place, span, start, end, told in red:
        x0, x1 = edges[place] if start is None else (axis.at(start), axis.at(end))
        out += f'<path class="both" d="{box(x0, max(x1, x0 + 1), span, y)}">{titled(told)}</path>'
    return out


def ground(axis, y):
    """The empty band: values at its left, a line for each of them and for each word below."""
    edge, out = LEFT + axis.width, f'<rect class="band" x="{LEFT}" y="{y}" width="{axis.width}" height="{BAND}"/>'
    for value in range(0, SPACE + 1, SPACE // 4):
        at = y + height_of(value)
        shift = 10 if value == 0 else 0 if value == SPACE else 4
        out += f'<line class="grid" x1="{LEFT}" x2="{edge}" y1="{at}" y2="{at}"/>'
        out += f'<text class="soft" x="{LEFT - 34}" y="{at + shift}">{min(value, SPACE - 1):04x}</text>'
    return out + "".join(f'<line class="grid" x1="{at}" x2="{at}" y1="{y}" y2="{y + BAND + MARKS}"/>' for at, _ in axis.labels())


def band(log, axis, y, red):
    """A station: its name, its lists, in red what another held too, and its marks."""
    topics = list(dict.fromkeys(entry.topic for entry in log.entries if entry.topic))
    name = f'<text class="name" x="{LEFT}" y="{y - 24}">{escape(cut(", ".join([log.name, *topics]), 120))}</text>'
    found = extents(log, axis)
    return name + ground(axis, y) + lists(found, y) + reds(found, axis, y, red) + words(found, y) + marks(log, axis, y)


def legend(y, kinds):
    """What the colours are; only of those that came."""
    out, x = "", LEFT
    for kind, words in KEYS:
        if kind not in kinds:
            continue
        out += f'<rect class="{kind}" x="{x}" y="{y - 9}" width="10" height="10"/><text x="{x + 14}" y="{y}">{words}</text>'
        x += 30 + 6 * len(words)
    return out


def picture(logs, by, red):
    """The logs one below the other. `red` has by log what two stations held: the place of the run, the span, from when to when, and words."""
    axis, each = Axis(logs, by), HEAD + BAND + MARKS
    width, bottom = LEFT + axis.width + RIGHT, each * len(logs) + 4
    kinds = {"held", *(entry.kind() for log in logs for entry in log.entries), *(["both"] if any(red.values()) else [])}
    body = "".join(f'<text class="soft" x="{at}" y="{bottom + 14}">{label}</text>' for at, label in axis.labels())
    body += "".join(band(log, axis, each * k + HEAD, red.get(id(log), [])) for k, log in enumerate(logs))
    return (
        f'<svg xmlns="http://www.w3.org/2000/svg" width="{width}" height="{bottom + FOOT + 24}" viewBox="0 0 {width} {bottom + FOOT + 24}">'
        f'<style>{STYLE}</style><rect width="100%" height="100%" fill="#fff"/>{body}{legend(bottom + FOOT + 14, kinds)}</svg>'
    )


if __name__ == "__main__":
    usage.help_only(__doc__)
