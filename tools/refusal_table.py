#!/usr/bin/env python3
"""Part of tools/refusals.py: the table of refusals and calls: docs/refusals.txt and docs/calls.txt, read; and orders of refusals, as numbers and as texts."""
import re
from dataclasses import dataclass
from functools import cache
from pathlib import Path

import usage

ROOT = Path(__file__).resolve().parent.parent
REFUSALS, CALLS = "docs/refusals.txt", "docs/calls.txt"
HEAD = re.compile(r"(\d+) (\w+), (ours|of the Rust)\n")
LINE = re.compile(r"    (values|attached|case|is|text|do): (\S.*)\n")
ITEM = r"(then )?(\d+)( \([^()]*\))?(, | or |$)"
LEAST_RUN = 3
# the numbers of a range that is none: its kind, then start (kind 1), end (kind 2) or both (kind 3)
SOURCE = ("kind", "start", "end")


class Fault(Exception):
    """A source that cannot be read."""


@dataclass(frozen=True)
class Refusal:
    """A block of docs/refusals.txt."""
    number: int
    name: str
    is_ours: bool
    values: tuple
    attached: str
    case: str
    sentence: str
    texts: tuple
    do: str

    @property
    def is_bare(self):
        """Of the port's own and without values: the Rust crate has it as a variant without fields, with one text."""
        return self.is_ours and not self.values

    @property
    def value_names(self):
        """The names of its numbers, as the program `station` prints them: a source is a kind and the kind's own numbers."""
        return tuple(name for value in self.values for name in (SOURCE if value == "source" else (value,)))

    @property
    def short_names(self):
        """The names of a range of kind 2, which has an end alone; those of any other refusal."""
        return tuple(name for name in self.value_names if name != "start") if "kind" in self.value_names else self.value_names

    @property
    def says(self):
        return f"{self.case}: {self.sentence}" if self.case else self.sentence


@dataclass(frozen=True)
class Item:
    """A number of an order: the word before it, the note behind it, and what joins it to the next."""
    before: str
    number: int
    note: str
    joint: str

    def __str__(self):
        return f"{self.before}{self.number}{self.note}{self.joint}"


@dataclass(frozen=True)
class Call:
    """A line of docs/calls.txt."""
    name: str
    error: str
    rows: tuple
    order: tuple

    @property
    def numbers(self):
        return [item.number for item in self.order]


def read_block(block):
    head = HEAD.match(block)
    lines = LINE.findall(block, head.end()) if head else []
    if not head or block != head[0] + "".join(f"    {key}: {words}\n" for key, words in lines):
        raise Fault(f"{REFUSALS}: no block of a refusal: {block!r}")
    said = {key: [words for k, words in lines if k == key] for key in ("values", "attached", "case", "is", "text", "do")}
    if any(len(words) > 1 for key, words in said.items() if key != "text") or not (said["is"] and said["text"] and said["do"]):
        raise Fault(f"{REFUSALS}: {head[1]} {head[2]}: it needs is, text and do, and each line but text once")
    one = {key: "".join(words) for key, words in said.items()}
    return Refusal(int(head[1]), head[2], head[3] == "ours", tuple(one["values"].split()), one["attached"], one["case"], one["is"],
                   tuple(said["text"]), one["do"])


@cache
def read_refusals(text):
    text = re.sub(r"^#.*\n", "", text, flags=re.M)
    return [read_block(block + "\n") for block in re.split(r"\n\n+", text.strip("\n"))]


def read_order(text):
    items = [Item(m[1] or "", int(m[2]), m[3] or "", m[4]) for m in re.finditer(ITEM, text)]
    if "".join(map(str, items)) != text or not items or items[-1].joint:
        raise Fault(f"{CALLS}: no order of refusals: {text!r}")
    return tuple(items)


def read_call(line):
    cells = line.split(" | ")
    if len(cells) != 4:
        raise Fault(f"{CALLS}: not four cells: {line!r}")
    name, error, rows, order = cells
    return Call(name, error, () if rows == "-" else tuple(rows.split()), () if order == "-" else read_order(order))


@cache
def read_calls(text):
    return [read_call(line) for line in text.splitlines() if line and not line.startswith("#")]


class Table:
    """Both files. `sources` has the repository's files by their paths."""

    def __init__(self, sources):
        self.refusals = read_refusals(sources[REFUSALS])
        self.calls = read_calls(sources[CALLS])
        self.by_number = {}
        for refusal in self.refusals:
            self.by_number.setdefault(refusal.number, []).append(refusal)

    def names(self, number):
        return [refusal.name for refusal in self.by_number.get(number, [])]

    def told_by(self, error):
        """The numbers that an error enum of the Rust crate tells."""
        return {number for call in self.calls if call.error == error for number in call.numbers}


def told(number, values):
    """A refusal as the program `station` prints it: number, name, and each value behind its name; of two refusals with the number the first."""
    refusals = read_refusals((ROOT / REFUSALS).read_text(encoding="utf-8"))
    refusal = next(refusal for refusal in refusals if refusal.number == number)
    names = refusal.value_names
    if "kind" in names and values[names.index("kind")] == 2:
        names = refusal.short_names
    assert len(values) <= len(names), (refusal.name, values)
    return " ".join([f"refused {number} {refusal.name}", *(f"{name} {value}" for name, value in zip(names, values))])


def run_length(items):
    """How many items at the front are numbers in a row, without words between them."""
    count = 1
    while count < len(items) and not items[count - 1].note and items[count - 1].joint == ", " and not items[count].before \
            and not items[count].note and items[count].number == items[count - 1].number + 1:
        count += 1
    return count


def order_text(items):
    """An order for readers: numbers in a row as `9 to 11`; - for none."""
    text, at = "" if items else "-", 0
    while at < len(items):
        run = run_length(items[at:])
        run = run if run >= LEAST_RUN else 1
        first, last = items[at], items[at + run - 1]
        text += str(first) if run == 1 else f"{first.before}{first.number} to {last.number}{last.joint}"
        at += run
    return text


def numbers_text(numbers):
    return order_text([Item("", number, "", ", ") for number in numbers]).removesuffix(", ")


def numbers_in(prose):
    """The numbers that an order in prose names, one by one; what stands in brackets is left out."""
    numbers = []
    for first, last, single in re.findall(r"(\d+) to (\d+)|(\d+)", re.sub(r"\([^()]*\)", "", prose)):
        numbers += range(int(first), int(last) + 1) if first else [int(single)]
    return numbers


if __name__ == "__main__":
    usage.help_only(__doc__)
