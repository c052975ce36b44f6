#!/usr/bin/env python3
"""Generator: crates/rust_runs/specs/Sessions.antt, the sessions of compare/recorded, which the Rust has answered, as equations of its transcription.

The file is laid out by `rt fmt`: white space is not compared.
"""
import re, sys
from pathlib import Path

import usage

ROOT = Path(__file__).resolve().parent.parent
FILE = ROOT / "crates/rust_runs/specs/Sessions.antt"
SESSIONS = 20
HEAD = """-- Public: sessions that the Rust has answered (compare/recorded), as equations of its transcription, by computation.
-- tools/rust_runs.py writes this file.
-- Assumes nothing.
use Rattle.std.specs.Prelude.{◌≡◌, refl, true, false, [], ◌∷◌, pos, negsuc, Some, None}
use Rattle.topic_types.specs.KeyRanges.{key_range, error_kind, error_numbers}
use Rattle.slice_int.specs.Be.{bytes_of}
use Rattle.utf8.specs.Table.{table, fits, sequence_in, sequence_of, text_after, is_utf8}
use Rattle.name_topic.specs.Names.{hex4, decimal_within, decimal}
use Rattle.wire.specs.Varints.{varint_of}
use Rattle.wire.specs.Field.{key_read, number_body, part_of}
use Rattle.wire.specs.Fields.{fields_of}
use Rattle.wire_schema.specs.Schema.{value_for}
use Rattle.wire_schema.specs.Required.{is_complete}
use Rattle.wire_schema.specs.FirstFault.{first_fault}
use Rattle.wire_values.specs.Integers.{int32_of}
use Rattle.wire_readers.specs.Messages.{int_range_of, read_segment, read_assignment, update_of, response_of}
use Rattle.session.specs.Trace.{update, response, drain, begin, invalidate}
use Rattle.rust_runs.specs.Seen.{refused, accepted, unchanged, changed, run_of, seen, list, segment, on}
"""
UNFOLD = """unfolding bytes_of table fits sequence_in sequence_of text_after is_utf8 hex4 decimal_within decimal varint_of key_read number_body part_of fields_of value_for
    is_complete first_fault int32_of int_range_of read_segment read_assignment update_of response_of error_kind error_numbers
"""


def row(items):
    return " ∷ ".join(items + ["[]"])


def octets(data):
    return f"bytes_of {len(data)} 0x{data.hex()}" if data else "[]"


def text(word):
    """The bytes of a word as station quotes it."""
    parts = re.findall(rb"\\x([0-9a-f]{2})|([^\\])", word.encode())
    return b"".join(bytes.fromhex(code.decode()) if code else plain for code, plain in parts)


def integer(word):
    n = int(word)
    return f"pos {n}" if n >= 0 else f"negsuc {-n - 1}"


def ranges(word):
    pairs = [] if word == "-" else [pair.split("-") for pair in word.split(",")]
    return f"({row([f'key_range 0x{a} 0x{b}' for a, b in pairs])})"


def segment(words):
    number, span, buckets = words
    start, end = span.split("-")
    return f"segment {number} 0x{start} 0x{end} {ranges(buckets)}"


def line(words, answer, rows):
    """The answer of a call, with the rows of its delta."""
    if words[0] == "refused":
        quoted = re.search(r' text "(.*)"$', answer)
        # each value stands behind its name
        values = (answer[:quoted.start()].split() if quoted else words)[4::2]
        return f"refused {words[1]} ({row([integer(v) for v in values])}) ({octets(text(quoted[1])) if quoted else '[]'})"
    if words[0] in ("delta", "replay"):
        epoch = words[words.index("epoch") + 1]
        lost = [r.split()[1] for r in rows if r.startswith("  lost")]
        gained = [segment(r.split()[1:]) for r in rows if r.startswith("  gained")]
        return f"changed {epoch} ({row(lost)}) ({row(gained)})"
    return {"accepted": "accepted", "none": "unchanged"}[words[0]]


def held_by(block, before):
    """The list that is held behind a call: that of before where its lines have none."""
    held = next((r for r in block if r.startswith("  held")), None)
    if held is None:
        return before
    segments = [segment(r.split()) for r in block if r.startswith("    ")]
    return "None" if held == "  held none" else f"(Some (list {held.split()[2]} ({row(segments)})))"


def shown(block, kept):
    """What is seen behind a call, from its lines and the list that is held."""
    answer = block[0].split(" ", 2)[2]
    state = block[1].split()
    value = dict(zip(state[1:9:2], state[2:9:2]))
    floor = "None" if value["floor"] == "none" else f"(Some {value['floor']})"
    flags = " ".join("true" if value[flag] == "yes" else "false" for flag in ("registered", "invalidated"))
    return f"seen ({line(answer.split(), answer, block)}) {kept} {floor} {value['incarnation']} {flags}"


def call(words):
    name = words[0]
    if name in ("update", "response"):
        end = " []" if name == "update" else ""
        return f"{name} ({octets(bytes.fromhex(words[2][2:]))}) (on {words[1]}){end}"
    return {"drain": f"drain {words[-1]} []", "begin": f"begin (on {words[-1]})", "invalidate": "invalidate"}[name]


def sessions():
    """For each session its topic, its calls and what is seen behind each."""
    answers = {}
    for text_line in (ROOT / "compare/recorded/stdout").read_text().splitlines()[:-1]:
        if not text_line.startswith(" "):
            block = answers.setdefault(int(text_line.split()[0]), [])
        block.append(text_line)
    found, kept = [], "None"
    for number, text_line in enumerate((ROOT / "compare/recorded/stdin").read_text().splitlines(), 1):
        words = text_line.split()
        kept = held_by(answers.get(number, []), kept)
        if words[0] == "open":
            found.append((words[3], [], []))
        elif words[0] != "#":
            found[-1][1].append(call(words))
            found[-1][2].append(shown(answers[number], kept))
    return found[:SESSIONS]


def written():
    out = HEAD
    for number, (topic, calls, seen) in enumerate(sessions()):
        cells = lambda items: "".join(f"        ({item})\n        ∷ " for item in items) + "[]"
        out += f"\npub session-{number} : run_of ({octets(topic.encode())})\n        ({cells(calls).strip()})\n    ≡ {cells(seen).strip()}\n{UNFOLD}session-{number} = refl\n"
    return out


def same(have, should):
    """The same but for white space."""
    return "".join(have.split()) == "".join(should.split())


if __name__ == "__main__":
    sys.exit(usage.generate(__doc__, lambda: {FILE: written()}, same))
