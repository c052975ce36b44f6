#!/usr/bin/env python3
"""Check: holds the table of crates/wire_schema/specs/Schema.antt to the Rust's pulsar.proto.rs: field, number, label and type of all eight messages; and the
fields of a command that crates/wire_command/specs/Shell.antt has, each message's number being that of its type too.

    python3 tools/schema.py [--rust DIR]      DIR: the folder of the Rust's sources; by default CUDDREWYN_RUST, or ../shared/docs/src beside the repository

Exit status: 0 the two agree; 1 they differ, and each difference is a line `schema: ..`; 3 the Rust is not there.
"""
import os
import re
import sys
from pathlib import Path

import usage

ROOT = Path(__file__).resolve().parent.parent
TABLE = ROOT / "crates/wire_schema/specs/Schema.antt"
COMMAND = ROOT / "crates/wire_command/specs/Shell.antt"
SOURCE = "crates/magnetar-proto/src/pb/pulsar.proto.rs"


ROW = r"has (\d+) (\(oneof \d+\)|\w+) (\(message \w+\)|\w+) +-- (\w+)"


def table_rows(text):
    """The rows of the table: (message, field) -> (number, label, type), where the members of a oneof have the label 'oneof'."""
    rows = {}
    for kind, body in re.findall(r"^schema (\w+) =\n((?: .*\n)+)", text, re.M):
        for number, label, of, name in re.findall(ROW, body):
            rows[kind, name] = int(number), label.strip("()").split()[0], of.strip("()")
    return rows


def struct_rows(kind, text):
    """The rows of one struct of prost's."""
    body = re.search(rf"^pub struct {kind} \{{\n(.*?)^\}}", text, re.M | re.S)
    if not body:
        return {}
    rows = {}
    for attributes, name, rust in re.findall(r"#\[prost\(([^\]]*)\)\]\s+pub (\w+): ([^\n]*(?:\n {8}[^\n]*\n {4}>)?),", body[1]):
        parts = [part.strip() for part in re.split(r",(?![^\"]*\"(?:[^\"]*\"[^\"]*\")*[^\"]*$)", attributes)]
        if parts[0].startswith("oneof"):
            rows |= oneof_rows(kind, parts[0].split('"')[1], text)
            continue
        of = parts[0].split()[0]
        if of == "message":
            of += " " + re.findall(r"\w+", rust)[-1]
        rows[kind, name] = int(re.search(r'tag = "(\d+)"', attributes)[1]), parts[1], of
    return rows


def oneof_rows(kind, path, text):
    """The rows of a oneof, which prost has as an enum in a module of its own."""
    module, name = path.split("::")
    inner = re.search(rf"^pub mod {module} \{{\n(.*?)^\}}", text, re.M | re.S)[1]
    body = re.search(rf"pub enum {name} \{{\n(.*?)^    \}}", inner, re.M | re.S)[1]
    return {
        (kind, member.lower()): (int(tag), "oneof", "message " + of)
        for tag, member, of in re.findall(r'#\[prost\(message, tag = "(\d+)"\)\]\s+(\w+)\(super::(\w+)\)', body)
    }


def command_faults(table, text):
    """The rows of a command's table that are not the Rust's, and messages whose type has another number than their field."""
    body = re.search(r"^base_command =\n((?: .*\n)+)", table, re.M)[1]
    rust = struct_rows("BaseCommand", text.replace("r#type", "type"))
    types = re.search(r"^pub mod base_command \{.*?pub enum Type \{\n(.*?)^    \}", text, re.M | re.S)[1]
    for number, label, of, name in re.findall(ROW, body):
        row = int(number), label, of.strip("()")
        if rust.get(("BaseCommand", name)) != row:
            yield f"BaseCommand.{name}: the table has {row}, the Rust {rust.get(('BaseCommand', name), 'nothing')}"
        if row[2] != "enumeration" and f" {name.title().replace('_', '')} = {number}," not in types:
            yield f"BaseCommand.{name}: its type has another number than {number}"


def main():
    parser = usage.Parser(__doc__)
    parser.add_argument("--rust", type=Path, default=Path(os.environ.get("CUDDREWYN_RUST", ROOT / "../shared/docs/src")), help="folder of the Rust's sources")
    source = parser.parse_args().rust / SOURCE
    if not source.is_file():
        print(f"schema: there is no {source}: set CUDDREWYN_RUST")
        return 3
    table, text = table_rows(TABLE.read_text(encoding="utf-8")), source.read_text(encoding="utf-8")
    rust = {}
    for kind in {kind for kind, _ in table}:
        rust |= struct_rows(kind, text)
    faults = [f"{'.'.join(key)}: the table has {table.get(key, 'nothing')}, the Rust {rust.get(key, 'nothing')}" for key in sorted(table.keys() | rust.keys()) if table.get(key) != rust.get(key)]
    if len({kind for kind, _ in table}) != 8:
        faults.append("the table has not eight messages")
    faults += command_faults(COMMAND.read_text(encoding="utf-8"), text)
    for line in faults or [f"{len(table)} fields of 8 messages and those of a command are those of {Path(SOURCE).name}"]:
        print("schema: " + line)
    return 1 if faults else 0


if __name__ == "__main__":
    sys.exit(main())
