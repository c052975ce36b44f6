#!/usr/bin/env python3
"""Generator: the pictures of the documents, docs/session.svg, and docs/benchmarks.svg from the tables of docs/BENCHMARKS.md.
"""
import re, sys
from pathlib import Path

import usage

ROOT = Path(__file__).resolve().parent.parent
FONT = 'font-family="sans-serif" font-size="13"'


def text(x, y, words, more=""):
    words = words.replace("&", "&amp;").replace("<", "&lt;")
    return f'<text x="{x}" y="{y}" {FONT} {more}>{words}</text>\n'


def box(x, y, w, h, fill, more=""):
    return f'<rect x="{x}" y="{y}" width="{w}" height="{h}" fill="{fill}" stroke="#333" {more}/>\n'


def arrow(x1, y1, x2, y2):
    return f'<line x1="{x1}" y1="{y1}" x2="{x2}" y2="{y2}" stroke="#333" marker-end="url(#tip)"/>\n'


def page(width, height, body):
    tip = '<defs><marker id="tip" markerWidth="8" markerHeight="8" refX="7" refY="4" orient="auto"><path d="M0,0 L8,4 L0,8 z" fill="#333"/></marker></defs>'
    ground = f'<rect width="{width}" height="{height}" fill="#fff"/>'
    return f'<svg xmlns="http://www.w3.org/2000/svg" viewBox="0 0 {width} {height}" width="{width}" height="{height}">\n{tip}\n{ground}\n{body}</svg>\n'


# the call, what the controller sends, what the station holds, what the uploader is handed, queue and floor behind it
STEPS = [
    ("open", "", "no list", "", "queue 0, no floor"),
    ("update", "list of epoch 4", "no list", "none", "queue 1"),
    ("update", "list of epoch 5", "no list", "none", "queue 2"),
    ("response", "baseline of epoch 3", "list of epoch 5", "baseline 3", "queue 2, floor 5"),
    ("drain", "", "list of epoch 5", "delta 3 to 4", "1 of 2 drained"),
    ("drain", "", "list of epoch 5", "delta 4 to 5", "2 of 2 drained"),
    ("drain", "", "list of epoch 5", "none", ""),
    ("update", "list of epoch 6", "list of epoch 6", "delta 5 to 6", "floor 6"),
    ("update", "list of epoch 5", "list of epoch 6", "refused 27", "nothing changes"),
    ("invalidate", "", "no list", "no list", "queue 0, floor kept"),
    ("begin", "a new link", "no list", "no list", "old links are 23"),
]
COLOURS = {"no list": "#eee", "list of epoch 5": "#cde", "list of epoch 6": "#bdb"}


def session():
    """What a session does over time: one row for each call."""
    body = text(20, 28, "A session over time", 'font-weight="bold"')
    for x, head in ((20, "call"), (130, "the controller sends"), (300, "the station holds"), (470, "the uploader is handed"), (650, "record")):
        body += text(x, 56, head, 'fill="#666"')
    for row, (call, sent, held, handed, record) in enumerate(STEPS):
        y = 68 + 34 * row
        body += text(20, y + 20, call, 'font-weight="bold"') + text(130, y + 20, sent)
        body += box(300, y, 140, 28, COLOURS[held]) + text(310, y + 19, held) + text(470, y + 20, handed) + text(650, y + 20, record, 'fill="#666"')
        if sent:
            body += arrow(270, y + 15, 296, y + 15)
        if handed.startswith(("delta", "baseline")):
            body += arrow(442, y + 15, 466, y + 15)
    return page(800, 68 + 34 * len(STEPS) + 12, body)


def figures():
    """Section, case, and the port's share of the Rust's instructions, of each table that has such a column. A bold word before a table names a part of the section."""
    found, section, part, heads = [], "", "", []
    for line in (ROOT / "docs/BENCHMARKS.md").read_text().splitlines():
        if line.startswith("## "):
            section, part = line.removeprefix("## "), ""
        elif match := re.match(r"\*\*(.+?)\*\*:", line):
            part = ": " + match[1].lower()
        cells = [cell.strip() for cell in line.strip("|").split("|")]
        if not line.startswith("|"):
            heads = []
        elif not heads:
            heads = cells
        elif "port / Rust" in heads and re.fullmatch(r"[\d,.]+", share := cells[heads.index("port / Rust")]):
            name = f"{cells[0]} {heads[0]}" if re.fullmatch(r"[\d,]+", cells[0]) else cells[0]
            found.append((section + part, name, float(share.replace(",", ""))))
    return found


def benchmarks():
    """The port's instructions for each 100 of the Rust's, case by case; a bar that is cut ends in an arrow."""
    body = text(20, 28, "Instructions of the port for each 100 of the Rust", 'font-weight="bold"')
    y, last = 50, ""
    for section, name, share in figures():
        if section != last:
            body += text(20, y + 14, section, 'fill="#666"')
            y, last = y + 24, section
        width = round(min(100 * share, 300), 1)
        body += text(30, y + 14, name) + box(400, y, width, 18, "#bdb" if share <= 1 else "#edc")
        body += text(406 + width, y + 14, f"{100 * share:,.0f}" + (" →" if share > 3 else ""))
        y += 24
    body += f'<line x1="500" y1="44" x2="500" y2="{y}" stroke="#a00" stroke-dasharray="4 3"/>\n'
    return page(800, y + 14, body)


def made():
    return {ROOT / "docs" / "session.svg": session(), ROOT / "docs" / "benchmarks.svg": benchmarks()}


if __name__ == "__main__":
    sys.exit(usage.generate(__doc__, made))
