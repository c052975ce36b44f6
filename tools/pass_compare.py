#!/usr/bin/env python3
"""Part of tools/pass.py: which values two stations held at the same time.

By time, where the logs have comments '# at SECONDS': a list is held from the time of its line until the time of the line that changed it, and the last one
for ever; what stands before a log's first time was always so. A list that ends at the time at which another begins is not held at the same time.
By epoch, where they have none: two lists of one epoch count as held at the same time, since the controller means them so; lists of different epochs do not.
Only lists of one topic are compared: another topic has a key space of its own.
"""
import itertools
import math
from dataclasses import dataclass

import usage
from pass_log import Fault
from pass_output import Entry
from pass_spans import shared, span_text, touching
from pass_words import seconds

RULES = {
    "time": "a list is held from the time of its line until it is changed, the last one for ever",
    "epoch": "two lists of one epoch count as held at the same time, lists of different epochs do not",
}


@dataclass
class Run:
    """Entries one behind the other that hold the same list: the first of them, its place, the line of the last, and from when to when."""

    first: Entry
    place: int
    last: int
    start: float
    end: float


@dataclass
class Overlap:
    """A span that two stations held at the same time: their runs, and from when to when, where that is known."""

    span: tuple
    runs: tuple
    start: float = None
    end: float = None


def when(entry):
    return -math.inf if entry.time is None else entry.time


def runs(entries):
    """The runs of a log, those without a list too."""
    found, place = [], 0
    for _, group in itertools.groupby(entries, key=lambda entry: (entry.epoch, entry.held, entry.topic)):
        group = list(group)
        behind = place + len(group)
        end = when(entries[behind]) if behind < len(entries) else math.inf
        found.append(Run(group[0], place, group[-1].line, when(group[0]), end))
        place = behind
    return found


def meet_by_time(a, b):
    """The pairs of two rows of runs that were held at the same time; each row has them in the order of their times."""
    a, b = ([run for run in row if run.start < run.end] for row in (a, b))
    i, j = 0, 0
    while i < len(a) and j < len(b):
        start, end = max(a[i].start, b[j].start), min(a[i].end, b[j].end)
        if start < end:
            yield a[i], b[j], start, end
        if a[i].end < b[j].end:
            i += 1
        else:
            j += 1


def meet_by_epoch(a, b):
    """The pairs of runs whose lists have one epoch."""
    of_epoch = {}
    for run in b:
        of_epoch.setdefault(run.first.epoch, []).append(run)
    for run in a:
        for other in of_epoch.get(run.first.epoch, []):
            yield run, other, None, None


def overlaps(a, b, by):
    """What two logs held at the same time."""
    meet = meet_by_time if by == "time" else meet_by_epoch
    found = []
    for x, y, start, end in meet(runs(a.entries), runs(b.entries)):
        known = x.first.topic is None or y.first.topic is None
        if x.first.held and y.first.held and (known or x.first.topic == y.first.topic):
            found += [Overlap(span, (x, y), start, end) for span in shared(x.first.spans(), y.first.spans())]
    return found


def way_of(logs, asked):
    """How the logs are compared: by time or by epoch."""
    timed = [log.name for log in logs if log.timed()]
    untimed = [log.name for log in logs if not log.timed()]
    if asked == "epoch" or not (asked or timed):
        return "epoch"
    if untimed:
        raise Fault(f"no times ('# at SECONDS') in {', '.join(untimed)}" + (f", but in {', '.join(timed)}: --by epoch compares without" if timed else ""))
    return "time"


def strangers(a, b):
    """Two logs that have no topic in common."""
    topics = [{entry.topic for entry in log.entries if entry.held} for log in (a, b)]
    return all(topics) and None not in topics[0] | topics[1] and not topics[0] & topics[1]


def period(overlap):
    """From when to when, in words."""
    if overlap.start is None:
        return ""
    start = "" if math.isinf(overlap.start) else f" from {seconds(overlap.start)}"
    return start + ("" if math.isinf(overlap.end) else f" to {seconds(overlap.end)}") + ("" if start or not math.isinf(overlap.end) else " always")


def side(name, run, span):
    """One of the two stations of an overlap."""
    ids = ", ".join(map(str, touching(run.first.held, span)))
    return f"{name} line {run.first.line} ({run.first.call}, epoch {run.first.epoch}, segment {ids})"


def sentence(names, overlap):
    both = ", ".join(side(name, run, overlap.span) for name, run in zip(names, overlap.runs))
    return f"{span_text(overlap.span)} held by both{period(overlap)}: {both}"


def as_data(names, overlap):
    """An overlap for JSON; a time that has no end or no beginning is null."""
    edges = {name: None if time is None or math.isinf(time) else time for name, time in (("from", overlap.start), ("to", overlap.end))}
    stations = [
        {"log": name, "line": run.first.line, "call": run.first.call, "epoch": run.first.epoch, "segments": touching(run.first.held, overlap.span)}
        for name, run in zip(names, overlap.runs)
    ]
    return {"span": span_text(overlap.span), **edges, "stations": stations}


if __name__ == "__main__":
    usage.help_only(__doc__)
