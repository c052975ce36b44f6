#!/usr/bin/env python3
"""Part of tools/refusals.py: what it writes from the table. A part has a line with `tools/refusals.py writes: NAME` above it and one with
`tools/refusals.py: end` below; in docs/EXPORTS.md the last cells of the calls' rows, in compare/src/tally.rs the numbers of REACH and in
crates/log_text the rows of names, of refusals and of their numbers, are written where they stand."""
import re
import textwrap

import usage
from refusal_table import Fault, numbers_text, order_text

ERROR, WATCH = "bindings/rust/src/error.rs", "bindings/rust/src/watch.rs"
OWNED = "bindings/rust/src/owned/error.rs"
HEADER, EXPORTS, OPERATOR = "bindings/c/cuddrewyn.h", "docs/EXPORTS.md", "docs/REFUSALS.md"
TALLY, CALL_TEXT = "compare/src/tally.rs", "crates/log_text/src/refusals.rt"
NAMES = re.compile(r'(let name = log_lines::word\(\s*b")([^"]*)(",\s*number,)')
VALUE_NAMES = re.compile(r'(let names = log_lines::word\(\s*b")([^"]*)(",\s*number,)')
REACH = re.compile(r"^    \((\w+), &\[([\d, ]*)\], ", re.M)
EXPORTED = re.compile(r"^(\| (?:`cuddrewyn_\w+`(?:, )?)+ \|.* \| )([^|]*)( \|)$", re.M)


def constant(name):
    """A variant's name as a constant of C: CUDDREWYN_STALE_EPOCH."""
    return "CUDDREWYN" + re.sub(r"([A-Z])", r"_\1", name).upper()


def header_lines(table):
    for number, refusals in table.by_number.items():
        words = "; ".join(refusal.says for refusal in refusals)
        attached = "; ".join(refusal.attached for refusal in refusals if refusal.attached)
        comment = f"/* {words} */" if not attached else f"/* {words}. Attached: {attached} */"
        yield from textwrap.wrap(comment, 140, initial_indent="    ", subsequent_indent="     * ", break_on_hyphens=False)
        yield f"    {constant(refusals[0].name)} = {number},"


def name_lines(table):
    """A refusal's name by its number, in C; the first one's where two refusals have it."""
    return (f'    case {constant(refusals[0].name)}: return "{refusals[0].name}";' for refusals in table.by_number.values())


def attached_lines(table):
    """A row for each text, with all the numbers that have it."""
    rows = {}
    for number, refusals in table.by_number.items():
        rows.setdefault("; ".join(refusal.attached for refusal in refusals if refusal.attached), []).append(number)
    rows.pop("", None)
    yield from ("| number | attached |", "|---|---|")
    yield from (f"| {numbers_text(numbers)} | {text} |" for text, numbers in rows.items())
    yield "| all others | nothing |"


def operator_lines(table):
    yield from ("| number | name | what it says | what to do |", "|---|---|---|---|")
    yield from (f"| {r.number} | `{r.name}` | {r.says} | {r.do} |" for r in table.refusals)


def bare(table, error):
    """The refusals that an enum of the Rust crate has as variants without fields."""
    return [refusal for refusal in table.refusals if refusal.is_bare and refusal.number in table.told_by(error)]


def variant_lines(error):
    return lambda table: (line for r in bare(table, error) for line in (f"    /// {r.number}: {r.says}.", f"    {r.name},"))


def number_lines(error):
    return lambda table: (f"            Self::{r.name} => {r.number}," for r in bare(table, error))


def reply_lines(error):
    return lambda table: (f"            {r.number} => Self::{r.name}," for r in bare(table, error))


def owned_lines(error):
    return lambda table: (f"            Self::{r.name} => {error}::{r.name}," for r in bare(table, error))


def text_lines(table):
    return (f'        {r.number} => "{r.texts[0]}",' for r in table.refusals if r.is_bare)


def part(name, lines):
    """Writes the lines between the marks of a part."""
    marked = re.compile(rf"^(.*tools/refusals\.py writes: {name}\b.*\n)((?:.*\n)*?)(.*tools/refusals\.py: end\b)", re.M)

    def write(table, text):
        if len(marked.findall(text)) != 1:
            raise Fault(f"the marks of the part '{name}' are not there once")
        inside = "".join(line + "\n" for line in lines(table))
        return marked.sub(lambda m: m[1] + inside + m[3], text)

    return write


def write_answers(table, text):
    """The header's names of answers, from its own enum."""
    enum = re.search(r"^enum cuddrewyn_answer \{\n(.*?)^\};", text, re.M | re.S)
    names = re.findall(r"CUDDREWYN_(\w+) = \d+", enum[1] if enum else "")
    return part("answer names", lambda _: (f'    case CUDDREWYN_{name}: return "{name}";' for name in names))(table, text)


def write_orders(table, text):
    """The last cell of each call's row. Where a row has several calls, their orders are one."""
    orders = {f"`{call.name}`": order_text(call.order) for call in table.calls}

    def write(row):
        told = {orders.get(name, "no such call") for name in re.findall(r"`cuddrewyn_\w+`", row[1].split(" | ")[0])}
        return row[1] + " / ".join(sorted(told)) + row[3]

    return EXPORTED.sub(write, text)


def write_reach(table, text):
    """The refusals of each row of the comparison: all that its call can give."""
    numbers = {row: sorted(set(call.numbers)) for call in table.calls for row in call.rows}
    return REACH.sub(lambda m: f"    ({m[1]}, &[{', '.join(map(str, numbers.get(m[1], [])))}], ", text)


def write_row(text, place, words):
    """A row of words by number, from 1 on; left as it is laid out where it has the right words."""
    row = place.search(text)
    if not row:
        raise Fault("a row of names is not there")
    if re.sub(r"\\\n *", "", row[2]) == " " + " ".join(words):
        return text
    lines = textwrap.wrap(" ".join(words), 100, break_on_hyphens=False)
    return text[:row.start(2)] + " " + (" \\\n" + 14 * " ").join(lines) + text[row.end(2):]


def write_names(table, text):
    """The names by number, a dash where no refusal has the number."""
    return write_row(text, NAMES, [table.names(number)[0] if table.names(number) else "-" for number in range(1, max(table.by_number) + 1)])


def write_value_names(table, text):
    """The names of the attached numbers by number, a dash where there are none."""
    last = max(number for number, refusals in table.by_number.items() if refusals[0].values)
    rows = [table.by_number[number][0].value_names if number in table.by_number else () for number in range(1, last + 1)]
    return write_row(text, VALUE_NAMES, [",".join(names) or "-" for names in rows])


WRITES = [
    (HEADER, part("refusals", header_lines)),
    (HEADER, part("refusal names", name_lines)),
    (HEADER, write_answers),
    (EXPORTS, part("attached", attached_lines)),
    (EXPORTS, write_orders),
    (OPERATOR, part("refusals", operator_lines)),
    (ERROR, part("texts", text_lines)),
    (ERROR, part("variants of AssignmentError", variant_lines("AssignmentError"))),
    (ERROR, part("numbers of AssignmentError", number_lines("AssignmentError"))),
    (ERROR, part("replies of AssignmentError", reply_lines("AssignmentError"))),
    (WATCH, part("variants of TopicsWatchError", variant_lines("TopicsWatchError"))),
    (WATCH, part("numbers of TopicsWatchError", number_lines("TopicsWatchError"))),
    (WATCH, part("replies of TopicsWatchError", reply_lines("TopicsWatchError"))),
    (OWNED, part("owned AssignmentError", owned_lines("AssignmentError"))),
    (OWNED, part("owned TopicsWatchError", owned_lines("TopicsWatchError"))),
    (TALLY, write_reach),
    (CALL_TEXT, write_names),
    (CALL_TEXT, write_value_names),
]


if __name__ == "__main__":
    usage.help_only(__doc__)
