#!/usr/bin/env python3
"""Part of tools/refusals.py, its self-test: the sources changed in memory, one word at a time, or two neighbours that change places."""
import re

import refusal_checks as checks
import usage
from declarations import CRATE, RAW, REPLY, SESSION_REPLY
from refusal_parts import CALL_TEXT, ERROR, EXPORTS, HEADER, OPERATOR, TALLY, WATCH
from refusal_table import CALLS, REFUSALS

OTHERS = {
    "u64": "u32", "u32": "u64", "i32": "u32", "usize": "u64", "u8": "u16", "bool": "u8", "&[u8]": "&mut [u8]", "&mut [u8]": "&[u8]",
    "*const u8": "*mut u8", "*mut u8": "*const u8", "uint64_t": "uint32_t", "uint32_t": "uint64_t", "size_t": "uint64_t", "int32_t": "uint32_t",
    "const uint8_t *": "uint8_t *", "uint8_t *": "const uint8_t *", " *CUDDREWYN_RESTRICT": " *", "ours": "of the Rust", "of the Rust": "ours",
}
OF_RATTLE = r"(u64|u32|i32|usize|&\[u8\]|&mut \[u8\])"
OF_C = r"(const uint8_t \*|uint8_t \*|uint\d+_t|int32_t|size_t|cuddrewyn_record)(?=(?: \*| )?(?:CUDDREWYN_RESTRICT )?\w+(?:,|\);))"
OF_RUST = r"(u64|u32|i32|usize|\*const u8|\*mut u8|Record)"
SESSION, TOPICS = checks.OURS

# The words that are changed one by one: of each source the first group of each match.
WORDS = [
    (REFUSALS, r"^(\d+) \w+,"),
    (REFUSALS, r"^\d+ (\w+),"),
    (REFUSALS, r", (ours|of the Rust)$"),
    (REFUSALS, r"^    (?:attached|case|is|text|do): (\S+)"),
    (REFUSALS, r"^    values: .*?(\w+)$"),
    (CALLS, r"^(cuddrewyn_\w+) "),
    (CALLS, r"^cuddrewyn_\w+ \| (\w+Error) "),
    (CALLS, r"^cuddrewyn_\w+ \| \S+ \| (?:\w+ )*?(\w+) \|"),
    (CALLS, r"(?<=[|,rn] )(\d+)(?=,| or|$| \([a-z])"),
    (CALLS, r"^cuddrewyn.* (\S+)\)"),
    (checks.ENUM, r"^    // (\d+)[,:]"),
    (checks.ENUM, r"^    // \d.*?(\w+)\.$"),
    (checks.ENUM, r"^    (\w+)(?: \{|,)$"),
    (checks.ENUM, r"^        (\w+): \w+,$"),
    (checks.NUMBERS, r"^number_of .* = (\d+)$"),
    (checks.NUMBERS, r"^(?:number_of|values_of) \(?([A-Z]\w+)"),
    (checks.NUMBERS, r"^values_of .* (\w+) ∷ "),
    (checks.NUMBERS, r"source_values (\w+)$"),
    (checks.RUST[0], r"^  (?!SegmentTopic)(\w+) : .* → AssignmentError$"),
    (checks.RUST[0], r"^  (?!SegmentTopic).*\((\w+)[\w -]* : [^T]\w*\).* → AssignmentError$"),
    (checks.RUST[1], r"^  (\w+) : .* → SegmentTopicError$"),
    (checks.RUST[2], r"^  (\w+) : .* → TopicsWatchError$"),
    (SESSION, r"^ours\w* n = .*?eqb n (\d+)"),
    (TOPICS, r"^ours\w* n = .*eqb n (\d+)"),
    (checks.ORDERED, checks.ORDERED + r"(\d+)"),
    (CALL_TEXT, r'(?<=[ "])([A-Z][A-Za-z\d]+|-)(?=[^"]*",\s*number)'),
    (CALL_TEXT, r'(?<=[ ,])([a-z_]+)(?=[^"]*",\s*number)'),
    (CALL_TEXT, r'refused_as\(to, r, b"(\w+)"'),
    (CALL_TEXT, r'b"(\w+)[\w,]*"\)'),
    (CALL_TEXT, r'b"[\w,]*?(\w+)"\)'),
    (CALL_TEXT, r"if number == (\d+) &&"),
    (CALL_TEXT, r"Refusal::(\w+) \{[^}]*\} =>"),
    (HEADER, r"CUDDREWYN_\w+ = (\d+)"),
    (HEADER, r"(CUDDREWYN_\w+) = "),
    (HEADER, r"[Rr]efuses (\d+)"),
    (HEADER, r"[(,]\s*" + OF_C),
    (HEADER, r"[(,]\s*\w+( \*CUDDREWYN_RESTRICT) \w+[,)]"),
    (HEADER, r"case (CUDDREWYN_\w+): return"),
    (HEADER, r'return "([A-Z]\w+)";'),
    (HEADER, r"^(\w+) cuddrewyn_\w+\("),
    (HEADER, r"^\w+ (cuddrewyn_\w+)\("),
    (HEADER, r"^    (\w+) \w+(?:\[\w+\])?;$"),
    (HEADER, r"^    \w+ (\w+)(?:\[\w+\])?;$"),
    (RAW, r"(?:\(|, |^        )\w+: " + OF_RUST + r"(?=[,)])"),
    (RAW, r"-> (\w+);$"),
    (RAW, r"^    pub fn (\w+)\(\w"),
    (RAW, r"^    pub \w+: (\w+),$"),
    (RAW, r"^    pub (\w+): "),
    (RAW, r"^pub const (\w+): u8"),
    (RAW, r"^pub const \w+: u8 = (\d+);$"),
    (CRATE, r"^    \w+: " + OF_RATTLE + ",$"),
    (CRATE, r'"C" fn \w+\(\w+: ' + OF_RATTLE),
    (CRATE, r'"C" fn .*, \w+: ' + OF_RATTLE + r"\)"),
    (CRATE, r'"C" fn (\w+)\('),
    (CRATE, r"^    pub \w+: (usize),$"),
    (REPLY, r"^pub const \w+: u8 = (\d+);$"),
    (REPLY, r"^    pub \w+: (\w+),$"),
    (SESSION_REPLY, r"^    pub (\w+): "),
    (SESSION_REPLY, r"^    pub \w+: (\w+),$"),
    (ERROR, r"^    /// (\d+): "),
    (ERROR, r"^    (?!Unknown)(\w+)(?:\(\w+\)| \{|),?$"),
    (ERROR, r"^            Self::\w+.* => (\d+),$"),
    (ERROR, r"^            (\d+)(?: =>|\.\.)"),
    (ERROR, r"\| (\d+) => "),
    (ERROR, r"^            \d[\d.=| ]* =>\s*(?:\{\s*)?Self::(\w+)"),
    (ERROR, r'^        \d+ => "(\w+)'),
    (ERROR, r'(?:write!\(f, |write_str\()"(assign\w*|broker|sub\w*|inv\w*)'),
    (WATCH, r"^    /// (\d+): "),
    (WATCH, r"^            Self::\w+.* => (\d+),$"),
    (WATCH, r"^            (\d+) =>"),
    (WATCH, r"^            \d+ => Self::(\w+)"),
    (WATCH, r'write!\(f, "(\w+)'),
    (checks.TYPES, r"-> u8 \{\s*(\d+)\s*\}"),
    (EXPORTS, r"`(cuddrewyn_\w+)`(?=(?:, `\w+`)* \|.*\|$)"),
    (EXPORTS, r"^\| `cuddrewyn_.* \| (\d+)[^|]*\|$"),
    (EXPORTS, r"^\| (\d+) \| `[A-Z]+`"),
    (EXPORTS, r"^\| (\d+)(?:, \d+)* \| [a-z]"),
    (OPERATOR, r"^\| (\d+) \| `[A-Z]\w+` \|"),
    (OPERATOR, r"^\| \d+ \| `([A-Z]\w+)` \|"),
    (OPERATOR, r"^\| \d+ \| `[A-Z]\w+` \| .* (\S+) \|$"),
    (TALLY, r"^    \((\w+), &\["),
    (TALLY, r"^    \(\w+, &\[(\d+)"),
    (TALLY, r"^    \(\w+, &\[[\d, ]*?(\d+)\],"),
]
# The neighbours that change places: of each source the first and the third group of each match.
SWAPS = [
    (CALLS, r"^cuddrewyn.*?\| (\d+)(, )(\d+)"),
    (checks.ENUM, r"^(        \w+: \w+,\n)()(        \w+: \w+,\n)"),
    (checks.NUMBERS, r"^values_of .* = (\w+ \w+)( ∷ )(\w+ \w+)"),
    (CALL_TEXT, r'b" (\w+)( )(\w+)'),
    (HEADER, r"cuddrewyn_\w+[(](\w+ \w+)(, )(\w+ \w+)(?=[,)])"),
    (RAW, r"[(](\w+: \w+)(, )(\w+: \w+)"),
    (CRATE, r"fn cuddrewyn\w+[(](\w+: u\d+)(, )(\w+: u\d+)"),
    (EXPORTS, r"^\| `cuddrewyn_.* \| (\d+)(, )(\d+)"),
]


def matches(sources, where, pattern):
    """The places of a pattern: in the source of a path, in those of a folder, or in those whose comments have orders."""
    paths = [path for path, text in sources.items() if path == where or where == CRATE and path.startswith(CRATE)
             or where == checks.ORDERED and path.startswith("crates/")]
    return [(path, found) for path in paths for found in re.finditer(pattern, sources[path], re.M)]


def other(word):
    return str(int(word) + 1) if word.isdigit() else OTHERS.get(word, word + "x")


def changed(text, found):
    """The text with a match changed: its word by another one, or its first and last words by each other."""
    if found.re.groups == 1:
        return text[:found.start(1)] + other(found[1]) + text[found.end(1):]
    return text[:found.start(1)] + found[3] + found[2] + found[1] + text[found.end(3):]


def self_test(sources, faults_of):
    """What is not found, a pattern that fits nothing included; and how many changes were made."""
    unfound, count = [], 0
    for where, pattern in WORDS + SWAPS:
        places = matches(sources, where, pattern)
        count += len(places)
        missed = [(path, found[0]) for path, found in places if not any(faults_of({**sources, path: changed(sources[path], found)}, path))]
        unfound += [f"{path}: a change of '{words}' is not found" for path, words in missed] or ([] if places else [f"{where}: nothing is {pattern}"])
    return unfound, count


if __name__ == "__main__":
    usage.help_only(__doc__)
