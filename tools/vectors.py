#!/usr/bin/env python3
"""Judge: reckons anew what the programs `vectors` and `key_vectors` should write, by other means than the code's, and compares it with their files stdout;
the same of the logs of `station` in vectors/ (tools/logs.py).

The vectors are the lines of their files stdin. Each subject has its judge: tools/name_vectors.py (texts, names, ranges), tools/wire_vectors.py,
tools/assignment_vectors.py (packed assignments, deltas, the calls with an output, the intake), tools/watch_vectors.py and tools/key_vectors.py (hashes, the
segment of a key, test keys); each log has one too: tools/charge_vectors.py (what holdings cost), tools/churn_vectors.py (lost counts), tools/hours_vectors.py
(pass hours), tools/attach_log_vectors.py (uploaders' logs), tools/reader_vectors.py (the readers of replays), tools/command_vectors.py
(the outer messages of a connection), tools/saving_vectors.py (sessions saved and taken back). `--write` writes anew what is compared. The ends of every row of Unicode's Table 3-7
(tools/text_vectors.py) have to be among those of `vectors`, answered as their row says.
"""
import pathlib
import re
import sys

import assignment_vectors
import attach_log_vectors
import charge_vectors
import churn_vectors
import command_vectors
import hours_vectors
import key_vectors
import logs
import name_vectors
import reader_vectors
import saving_vectors
import text_vectors
import usage
import watch_vectors
import wire_vectors
from logs import argument
from name_vectors import Refused

CRATES = pathlib.Path(__file__).resolve().parent.parent / "crates"
STDIN = CRATES / "test_vectors" / "stdin"
# the programs, and the most bytes that each reads
PROGRAMS = {"test_vectors": 1048576, "test_keys": 262144}

COMMANDS = name_vectors.COMMANDS | wire_vectors.COMMANDS | assignment_vectors.COMMANDS | watch_vectors.COMMANDS | key_vectors.COMMANDS
# the logs of station in vectors/
LOGS = {
    "attach_log": attach_log_vectors.COMMANDS,
    "charge": charge_vectors.COMMANDS,
    "churn": churn_vectors.COMMANDS,
    "command": command_vectors.COMMANDS,
    "hours": hours_vectors.COMMANDS,
    "readers": reader_vectors.COMMANDS,
    "saving": saving_vectors.COMMANDS,
}


def answer(line):
    name, *words = line.split(" ")
    kinds, command = COMMANDS[name]
    if kinds.endswith("*"):
        kinds = kinds[0] * len(words)
    assert len(kinds) == len(words), line
    try:
        return command(*map(argument, kinds, words))
    except Refused as refusal:
        return str(refusal)


def replaced(heading, lines):
    """stdin with another part: what stands between its heading and the next one."""
    parts = re.split(r"(?m)^(?=# ==== )", STDIN.read_text(encoding="utf-8"))
    (place,) = (number for number, part in enumerate(parts) if part.startswith(heading + "\n"))
    parts[place] = "".join(line + "\n" for line in (heading, *lines))
    return {STDIN: "".join(parts)}


def check(program, write):
    stdin, stdout = CRATES / program / "stdin", CRATES / program / "stdout"
    text = stdin.read_text(encoding="utf-8")
    assert len(text.encode()) <= PROGRAMS[program]
    lines = [(number, line, answer(line)) for number, line in enumerate(text.splitlines(), 1) if not line.startswith("#")]
    if write:
        stdout.write_text("".join(told + "\n" for _, _, told in lines), encoding="utf-8")
    held = stdout.read_text(encoding="utf-8").splitlines()
    for (number, line, told), have in zip(lines, held):
        if told != have:
            sys.exit(f"{program}: stdin:{number}: '{line}' should give '{told}', stdout has '{have}'")
    if len(lines) != len(held):
        sys.exit(f"{program}: stdout has {len(held)} lines, should have {len(lines)}")
    print(f"{program}: {len(lines)} lines as reckoned")
    return {line: told for _, line, told in lines}


def main():
    parser = usage.Parser(__doc__)
    parser.add_argument("--write", action="store_true", help="write anew what is compared")
    write = parser.parse_args().write
    told = {program: check(program, write) for program in PROGRAMS}
    if missing := text_vectors.missing(told["test_vectors"]):
        sys.exit(f"vectors: of the rows of Table 3-7 stdin does not have, or Python's decoder answers otherwise: {', '.join(missing)}")
    logs.check_all(LOGS, write)


if __name__ == "__main__":
    main()
