#!/usr/bin/env python3
"""Part of tools/refusals.py: the exported calls, structs and answers as Rattle, C and Rust declare them, in one form: types by Rust's names, a slice as pointer and length.
In C a pointer to what a call may write is CUDDREWYN_RESTRICT."""
import re

import usage
from refusal_table import ROOT

REPLY, SESSION_REPLY, EXPORT = "crates/export_reply/src/lib.rt", "crates/export_record/src/lib.rt", "crates/export/src/lib.rt"
CRATE = "crates/export/src/"
# The home of a length that a struct names.
SESSION = "crates/session/src/lib.rt"
HEADER, RAW, EXPORTS = "bindings/c/cuddrewyn.h", "bindings/rust/src/raw.rs", "docs/EXPORTS.md"
OF_C = {
    "uint64_t": "u64", "uint32_t": "u32", "int32_t": "i32", "uint8_t": "u8", "size_t": "usize", "bool": "bool", "const uint8_t *": "*const u8",
    "uint8_t *CUDDREWYN_RESTRICT": "*mut u8", "cuddrewyn_record *CUDDREWYN_RESTRICT": "*mut Record", "cuddrewyn_record": "Record",
    "cuddrewyn_reply": "Reply", "cuddrewyn_session_reply": "SessionReply", "cuddrewyn_part": "Part",
}
FN = re.compile(r'#\[unsafe\(no_mangle\)\]\s+pub extern "C" fn (\w+)\(([^)]*)\)\s*->\s*(\w+)')
EXTERN = re.compile(r'(?:#\[link_name = "(\w+)"\]\s+)?pub fn (\w+)\(([^)]*)\)\s*->\s*(\w+);')
PROTOTYPE = re.compile(r"^(\w+) (cuddrewyn_\w+)\(([^)]*)\);", re.M)
STRUCT = re.compile(r"#\[repr\(C\)\]\n(?:#\[derive[^\n]*\n)?pub struct (\w+) \{\n(.*?)^\}", re.M | re.S)
TYPEDEF = re.compile(r"^typedef struct \{\n(.*?)^\} (\w+);", re.M | re.S)
FIELD_OF_C = re.compile(r"^(.*?)(\w+)(?:\[(\w+)\])?$", re.S)


def pairs(text):
    """`name: type` of a list of arguments, each name with its type."""
    return [tuple(word.strip().split(": ", 1)) for word in text.split(",") if word.strip()]


def as_words(name, type_):
    """An argument of Rattle as it is handed over."""
    if type_ in ("&[u8]", "&mut [u8]"):
        return [(name, "*mut u8" if "mut" in type_ else "*const u8"), (name + "_len", "usize")]
    return [(name, type_.replace("&mut ", "*mut "))]


def exported(sources):
    """The calls of crates/export/src: name, arguments, result."""
    text = "".join(text for path, text in sources.items() if path.startswith(CRATE))
    return {name: ([word for pair in pairs(arguments) for word in as_words(*pair)], result) for name, arguments, result in FN.findall(text)}


def of_c(text):
    """A parameter or a field of C: its name, and its type by Rust's names; an array's length stays as it is written."""
    type_, name, length = FIELD_OF_C.fullmatch(" ".join(text.split())).groups()
    type_ = OF_C.get(type_.strip(), type_.strip())
    return name, f"[{type_}; {length}]" if length else type_


def plain_c(header):
    """The header without comments; functions by the names that the linker sees."""
    text = re.sub(r"/\*.*?\*/", "", header, flags=re.S)
    for name, symbol in re.findall(r"^#define (cuddrewyn_\w+) (cuddrewyn_\w+)$", text, re.M):
        text = re.sub(rf"\b{name}\(", symbol + "(", text)
    return text


def prototypes(sources):
    """The prototypes of the C header."""
    found = PROTOTYPE.findall(plain_c(sources[HEADER]))
    return {name: ([of_c(word) for word in arguments.split(",") if word.strip() != "void"], of_c(result + " x")[1])
            for result, name, arguments in found}


def raw_functions(sources):
    """The declarations of the Rust crate."""
    return {symbol or name: (pairs(arguments), result) for symbol, name, arguments, result in EXTERN.findall(sources[RAW])}


def fields(body):
    """The fields of a struct of Rattle or Rust."""
    return re.findall(r"^    pub (\w+): ([^,\n]*),$", body, re.M)


def sized(type_, constants):
    """A type whose array length is a number, where it is a constant that is known."""
    return re.sub(r"; ([\w:]+)\]", lambda m: f"; {constants.get(m[1], m[1])}]", type_)


def known(found, constants):
    return {name: [(field, sized(type_, constants)) for field, type_ in rows] for name, rows in found.items()}


def rattle_structs(sources):
    text = "\n".join(sources[path] for path in (REPLY, SESSION_REPLY, EXPORT))
    named = re.findall(r"^pub const (\w+): usize = (\d+);$", (ROOT / SESSION).read_text(encoding="utf-8"), re.M)
    return known({name: fields(body) for name, body in STRUCT.findall(text)}, {"session::" + name: number for name, number in named})


def c_structs(sources):
    constants = dict(re.findall(r"^#define (\w+) (\d+)$", sources[HEADER], re.M))
    found = {OF_C.get(name, name): [of_c(field) for field in re.findall(r"^    ([^;]*);", body, re.M)]
             for body, name in TYPEDEF.findall(plain_c(sources[HEADER]))}
    return known(found, constants)


def raw_structs(sources):
    constants = dict(re.findall(r"^pub const (\w+): usize = (\d+);$", sources[RAW], re.M))
    return known({name: fields(body) for name, body in STRUCT.findall(sources[RAW])}, constants)


def answers(sources):
    """The answers and their numbers, as each place has them."""
    of_rust = re.compile(r"^pub const (\w+): u8 = (\d+);$", re.M)
    first_enum = re.search(r"^enum cuddrewyn_answer \{\n(.*?)^\};", plain_c(sources[HEADER]), re.M | re.S)
    rows = re.findall(r"^\| (\d+) \| `([A-Z]+)` \|", sources[EXPORTS], re.M)
    return {
        REPLY: of_rust.findall(sources[REPLY]),
        RAW: of_rust.findall(sources[RAW]),
        HEADER: re.findall(r"CUDDREWYN_(\w+) = (\d+)", first_enum[1] if first_enum else ""),
        EXPORTS: [(name, number) for number, name in rows],
    }


if __name__ == "__main__":
    usage.help_only(__doc__)
