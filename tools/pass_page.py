#!/usr/bin/env python3
"""Part of tools/pass.py: logs as one page of HTML: the picture of all, what two stations held at the same time, and a row for each line of each log.

Nothing is fetched from elsewhere, and there is no script: rest the pointer on a row, a list or a mark for its numbers.
"""
from html import escape

import usage
from pass_log import shown
from pass_picture import picture
from pass_spans import SPACE, shared, without
from pass_words import answer_text, cut, hover

BAR, ROW = 512, 14
AXES = {
    "order": "From left to right: the lines of the log in their order.",
    "time": "From left to right: the time, as the comments '# at SECONDS' give it.",
    "epoch": "From left to right: a column for each epoch; a log without times has no clock.",
}
STYLE = """body{font:14px sans-serif;margin:1.5em;color:#222}.wide{overflow-x:auto}table{border-collapse:collapse}
th{position:sticky;top:0;background:#fff;text-align:left;font-weight:normal;color:#5c6570;border-bottom:1px solid #999}
td,th{padding:1px 12px 1px 0;white-space:nowrap;vertical-align:middle}tr:hover td{background:#eef3f8}td.number{text-align:right}
tr.comment td{color:#5c6570;white-space:normal;max-width:70em;padding-top:6px;font-style:italic}tr.refused td.answer{color:#a61e4d}
tr.damaged td.answer{color:#111;font-weight:bold}tr.changed td.answer{color:#1f6f30}tr.link td.answer{color:#0b7285}
td.answer{white-space:normal;max-width:44em;overflow-wrap:anywhere}
td svg{display:block;background:#f4f6f8}.gained{fill:#2b8a3e}.lost{fill:none;stroke:#d9730d;stroke-width:1.5}.rest{fill:#6c9fd2}"""


def spans_path(kind, spans):
    """Spans of the key space from left to right, in a row's bar."""
    if not spans:
        return ""
    edge = ROW - 1.5 if kind == "lost" else ROW
    top = 1.5 if kind == "lost" else 0
    parts = [(first / SPACE * BAR, max((last + 1) / SPACE * BAR, first / SPACE * BAR + 1)) for first, last in spans]
    return f'<path class="{kind}" d="' + "".join(f"M{a:.2f} {top}H{b:.2f}V{edge}H{a:.2f}Z" for a, b in parts) + '"/>'


def bar(spans, before, both):
    """What is held behind a line: blue, green where it is new; orange frames for what was given up, red for what another station held too."""
    body = spans_path("rest", shared(spans, before)) + spans_path("gained", without(spans, before))
    body += spans_path("lost", without(before, spans)) + spans_path("both", both)
    return f'<svg width="{BAR}" height="{ROW}">{body}</svg>'


def row(entry, before, both):
    """A line that is a call, a question or damaged."""
    epoch, hovered = "" if entry.epoch is None else entry.epoch, escape(hover(entry)).replace("\n", "&#10;")
    return (
        f'<tr class="{entry.kind()}" title="{hovered}"><td class="number">{entry.line}</td><td>{escape(entry.call)}</td>'
        f'<td class="number">{epoch}</td><td>{bar(entry.spans(), before, both)}</td><td class="answer">{escape(cut(answer_text(entry), 100))}</td></tr>\n'
    )


def comment(number, line):
    return f'<tr class="comment"><td class="number">{number}</td><td colspan="4">{escape(cut(shown(line[:1000]), 300))}</td></tr>\n'


def rows(log, red):
    """A row for each line of the log that is not empty."""
    entries = {entry.line: (place, entry) for place, entry in enumerate(log.entries)}
    both, before, out = {}, [], []
    for place, span, *_ in red:
        both.setdefault(place, []).append(span)
    for number in sorted({*entries, *(n for n, line in enumerate(log.lines, 1) if line.startswith(b"#"))}):
        if number not in entries:
            out.append(comment(number, log.lines[number - 1]))
            continue
        place, entry = entries[number]
        out.append(row(entry, before, both.get(place, [])))
        before = entry.spans()
    return "".join(out)


def table(log, red):
    """A log, line by line."""
    counts = {kind: sum(entry.kind() == kind for entry in log.entries) for kind in ("refused", "damaged")}
    heads = "".join(f"<th>{head}</th>" for head in ("line", "call", "epoch", "key space, 0000 to ffff", "answer"))
    return (
        f"<h2>{escape(log.name)}</h2><p>{len(log.entries)} lines answered, {counts['refused']} of them refused, {counts['damaged']} damaged. "
        f"Blue: held as before; green: gained; orange frame: given up{'; red: held by two stations' if red else ''}.</p>"
        f"<table><thead><tr>{heads}</tr></thead><tbody>\n{rows(log, red)}</tbody></table>"
    )


def page(logs, by, red, sentences=()):
    """The page. `red` is that of the picture; `sentences` tell what two stations held at the same time."""
    title = escape(cut(", ".join(log.name for log in logs)))
    told = "".join(f"<li>{escape(sentence)}</li>" for sentence in sentences)
    return (
        f'<!DOCTYPE html>\n<html lang="en"><head><meta charset="utf-8"/><title>{title}</title><style>{STYLE}</style></head><body>'
        f"<h1>{title}</h1><p>{AXES[by]} Rest the pointer on a list, a mark or a row for its numbers.</p>"
        f'<div class="wide">{picture(logs, by, red)}</div><ul>{told}</ul>{"".join(table(log, red.get(id(log), [])) for log in logs)}</body></html>\n'
    )


if __name__ == "__main__":
    usage.help_only(__doc__)
