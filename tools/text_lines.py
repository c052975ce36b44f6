#!/usr/bin/env python3
"""Generator: the vectors of the text check, a part of crates/test_vectors/stdin: the rows of Unicode's Table 3-7 in their order (tools/text_vectors.py)."""
import sys

import usage
from text_vectors import cases, line
from vectors import replaced


def lines():
    yield "# of each row the lowest sequence, then with each later byte just below and just above its span; the highest, likewise; all between plain bytes"
    for number, spans, some in cases():
        yield f"# row {number}: {spans}"
        yield from (line(text) for text, _ in some)


def made():
    return replaced("# ==== texts by Unicode's Table 3-7, row by row: by tools/text_lines.py", lines())


if __name__ == "__main__":
    sys.exit(usage.generate(__doc__, made))
