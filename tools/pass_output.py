#!/usr/bin/env python3
"""Part of tools/pass.py: what the program `station` prints of a log, read back: an entry for each line that is a call, a question or damaged."""
import re
import subprocess
import sys
import tempfile
from dataclasses import dataclass, field
from functools import cache
from pathlib import Path

import refusal_table
import usage
from pass_log import Fault, lines_of, sent_by, shown, times_of, topic_of
from pass_spans import Segment, taken

# the lines that may set anew what is held
CALLS = ("open", "update", "response", "begin", "invalidate", "restore")
ANSWER = re.compile(r"^(\d{1,20}) (\S+) (.*)$")
HELD = re.compile(r"^  held (?:none|epoch (\d{1,20}) segments (\d{1,5}))$")
TOTAL = re.compile(r"^\d+ calls: \d+ accepted, \d+ refused; (\d+) damaged lines$")
SEGMENT = re.compile(r"^(\d{1,20}) ([0-9a-f]{4}-[0-9a-f]{4}) (-|[0-9a-f,-]+)$")
BASELINE = re.compile(r"^accepted baseline epoch (\d{1,20}) segments (\d{1,5})$")
REFUSED = re.compile(r"^refused (\d{1,3}) (\w+)((?: \w+ -?\d{1,20})*)( text \".*\")?$")
# of refusal 9, the kinds of its source, as docs/refusals.txt tells them
KIND = re.compile(r"(\d): ([^,;()]+), ")


@dataclass
class Entry:
    """A line of the log: its call, what was answered, and what was held then (None: no list), which it tells where it was set anew."""

    line: int
    call: str
    answer: str
    time: float = None
    topic: str = None
    # epoch and segments of the message that came, where it can be read
    sent: tuple = None
    epoch: int = None
    held: tuple = None
    told: bool = False
    # the session's record, as station prints it
    state: str = ""
    lost: list = field(default_factory=list)
    gained: list = field(default_factory=list)
    # the segments of the baseline that an accepted response gave
    given: tuple = ()

    def kind(self):
        """How it is shown: damaged, refused, changed (what is held, or what an uploader was handed), link (which empties the list), or plain."""
        if self.call == "damaged":
            return "damaged"
        if self.answer.startswith("refused "):
            return "refused"
        if self.answer.startswith("accepted"):
            return "changed" if self.call == "response" else "link"
        return "changed" if self.answer.startswith(("delta ", "replay ")) else "plain"

    def baseline(self):
        """Epoch and segments of the baseline that an accepted response gave."""
        m = BASELINE.match(self.answer)
        return (int(m[1]), self.given) if m else None

    def tells(self):
        """Whether what is held was set anew, so that the lines behind the answer tell it."""
        return self.call in CALLS and self.answer.startswith(("accepted", "delta "))

    def spans(self):
        """The values that were held."""
        return taken(self.held)


@dataclass
class Log:
    """A log that was run: its name, its lines (none where only the output is at hand), and its entries."""

    name: str
    lines: list
    entries: list

    def timed(self):
        return any(entry.time is not None for entry in self.entries)

    def damaged(self):
        return [entry.line for entry in self.entries if entry.call == "damaged"]


@cache
def table():
    text = (usage.ROOT / refusal_table.REFUSALS).read_text(encoding="utf-8")
    refusals = refusal_table.read_refusals(text)
    kinds = {int(number): kind for refusal in refusals for number, kind in KIND.findall(refusal.attached)}
    return {(refusal.number, refusal.name): refusal for refusal in refusals}, kinds


def named(words):
    """The attached numbers by their names, with the kind of a range in words."""
    found = {name.replace("_", " "): int(value) for name, value in zip(words[::2], words[1::2])}
    if "kind" in found:
        found["kind"] = table()[1].get(found["kind"], found["kind"])
    return found


def refusal_of(answer):
    """A refusal that was answered, as data: its number and name, its attached numbers by their names, what it is and what to do; or None."""
    m = REFUSED.match(answer)
    if not m:
        return None
    refusal = table()[0].get((int(m[1]), m[2]))
    found = {"number": int(m[1]), "name": m[2], "attached": named(m[3].split())}
    if m[4]:
        found["text"] = m[4][7:-1]
    return found | ({"is": refusal.sentence, "do": refusal.do} if refusal else {})


def span_of(text):
    first, last = text.split("-")
    return int(first, 16), int(last, 16)


def segment_of(text):
    """A segment as station prints it, or None."""
    m = SEGMENT.match(text)
    try:
        return m and Segment(int(m[1]), *span_of(m[2]), () if m[3] == "-" else tuple(map(span_of, m[3].split(","))))
    except ValueError:
        return None


def read_detail(entry, line):
    """One of the indented lines behind a call."""
    if m := HELD.match(line):
        entry.epoch = int(m[1]) if m[1] else None
        entry.held = () if m[1] else None
        entry.told = True
    elif line.startswith("    ") and entry.held is not None and (segment := segment_of(line[4:])):
        entry.held += (segment,)
    elif line.startswith("  state "):
        entry.state = line[8:]
    elif m := re.match(r"  lost (\d{1,20})$", line):
        entry.lost.append(int(m[1]))
    elif line.startswith("  gained ") and (segment := segment_of(line[9:])):
        entry.gained.append(segment)
    elif line.startswith("  baseline ") and (segment := segment_of(line[11:])):
        entry.given += (segment,)


def carry(before, entry):
    """What no line tells is as it was: what was held before is held behind it. Equal lists are kept once."""
    if before and (not entry.told or (entry.epoch, entry.held) == (before.epoch, before.held)):
        entry.epoch, entry.held = before.epoch, before.held


def entry_of(name, line):
    """The entry that a line of the output begins."""
    m = ANSWER.match(line)
    if not m:
        raise Fault(f"{name}: not what station prints: {ascii(line[:60])}")
    return Entry(int(m[1]), m[2].rstrip(":"), m[3])


def whole_entries(name, lines):
    """The entries of an output, each with the lines behind it; the counts come last."""
    entry, total = None, None
    for line in lines:
        if total:
            raise Fault(f"{name}: something stands behind the counts")
        if entry and line.startswith(" "):
            read_detail(entry, line)
            continue
        if entry:
            yield entry
        total = TOTAL.match(line)
        entry = None if total else entry_of(name, line)
    if not total:
        raise Fault(f"{name}: the counts at the end are missing: no whole output of station")


def read_output(name, lines):
    """The entries of an output that was made with --lists and --state."""
    entries = []
    for entry in whole_entries(name, lines):
        if entry.tells() and not entry.told:
            raise Fault(f"{name}: line {entry.line} does not tell what is held: it was made without --lists")
        carry(entries[-1] if entries else None, entry)
        entries.append(entry)
    return entries


def run_station(name, lines, station):
    """The entries of a log, as the program station answers it."""
    with tempfile.TemporaryFile() as given:
        given.write(b"".join(line + b"\n" for line in lines))
        given.seek(0)
        try:
            child = subprocess.Popen([station, "--lists", "--state"], stdin=given, stdout=subprocess.PIPE)
        except OSError as error:
            raise Fault(f"{station}: {error.strerror}; ./run makes it, --station names another") from None
        with child:
            entries = read_output(name, (line.decode("ascii", "backslashreplace").removesuffix("\n") for line in child.stdout))
    if child.returncode:
        raise Fault(f"{station} ended with status {child.returncode}")
    return entries


def joined(name, lines, entries):
    """The entries with what the log's own lines tell: time, topic and message."""
    times, topic = times_of(name, lines), None
    for entry in entries:
        if entry.line > len(lines):
            raise Fault(f"{name}: the output has line {entry.line}, the log has {len(lines)}")
        line = lines[entry.line - 1]
        if entry.call == "open" and entry.answer == "accepted":
            topic = topic_of(line)
        entry.time, entry.topic, entry.sent = times[entry.line], topic, sent_by(line)
    return entries


def log_of(path, station):
    """A log of that path ('-': standard input), run."""
    name = "standard input" if path == "-" else shown(path)
    lines = lines_of(sys.stdin.buffer.read() if path == "-" else Path(path).read_bytes())
    return Log(name, lines, joined(name, lines, run_station(name, lines, station)))


def recorded(path, log=None):
    """An output of station in a file, with its log where that is at hand."""
    name, lines = shown(log or path), lines_of(Path(log).read_bytes()) if log else []
    told = Path(path).read_bytes().decode("ascii", "backslashreplace").split("\n")
    entries = read_output(shown(path), told[:-1] if told[-1] == "" else told)
    return Log(name, lines, joined(name, lines, entries) if log else entries)


if __name__ == "__main__":
    usage.help_only(__doc__)
