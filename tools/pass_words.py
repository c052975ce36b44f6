#!/usr/bin/env python3
"""Part of tools/pass.py: lists, answers and entries in words."""
import usage
from pass_output import refusal_of
from pass_spans import SPACE, shared

MANY = 12
WIDTH = 64


def list_text(segments):
    """A list in a line; of a long one the beginning."""
    row = [str(segment) for segment in segments[:MANY]]
    more = len(segments) - len(row)
    return ("; ".join(row) or "an empty list") + (f"; and {more} more" if more else "")


def seconds(time):
    return f"{time:.6f}".rstrip("0").rstrip(".")


def cut(text, most=160):
    return text if len(text) <= most else text[:most] + ".."


def answer_text(entry):
    """The answer; the baseline of a response, a refusal's numbers with their names."""
    refusal, baseline = refusal_of(entry.answer), entry.baseline()
    if baseline:
        return f"accepted: baseline of epoch {baseline[0]}, segments {len(baseline[1])}"
    if not refusal:
        return cut(entry.answer)
    numbers = ", ".join(f"{name} {value}" for name, value in refusal["attached"].items())
    text = f' "{refusal["text"]}"' if "text" in refusal else ""
    return cut(f"refused {refusal['number']} {refusal['name']}" + (f": {numbers}" if numbers else "") + text)


def hover(entry):
    """What is shown when the pointer rests on an entry."""
    refusal = refusal_of(entry.answer) or {}
    rows = [f"line {entry.line}: {entry.call} {answer_text(entry)}"]
    rows += [f"{refusal['is']}; {refusal['do']}"] if "is" in refusal else []
    rows += [f"at {seconds(entry.time)} s"] if entry.time is not None else []
    rows += [f"message: epoch {entry.sent[0]}: {list_text(entry.sent[1])}"] if entry.sent else []
    rows += ["lost: " + ", ".join(map(str, entry.lost[:MANY])) + (" .." if len(entry.lost) > MANY else "")] if entry.lost else []
    rows += ["gained: " + list_text(entry.gained)] if entry.gained else []
    rows.append("held: no list" if entry.held is None else f"held: epoch {entry.epoch}: {list_text(entry.held)}")
    return "\n".join(rows + ([f"record: {entry.state}"] if entry.state else []))


def bar(spans, width=WIDTH):
    """The key space in that many places: '#' held, '+' held in part, '.' not held."""
    step = SPACE // width
    places = []
    for k in range(width):
        held = sum(last - first + 1 for first, last in shared(spans, [(k * step, (k + 1) * step - 1)]))
        places.append("#" if held == step else "+" if held else ".")
    return "".join(places)


if __name__ == "__main__":
    usage.help_only(__doc__)
