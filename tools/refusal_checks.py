#!/usr/bin/env python3
"""Part of tools/refusals.py: what it holds to the table, but does not write: the enum and its definitions in Rattle, the enums of the Rust crate, prototypes and
structs, and orders in comments. Each check gives its faults, as lines that begin with the path of the source at fault."""
import re

import declarations
import usage
from declarations import EXPORTS, HEADER, RAW, REPLY
from refusal_parts import CALL_TEXT, ERROR, EXPORTED, REACH, TALLY, WATCH, constant
from refusal_table import CALLS, REFUSALS, numbers_in, order_text

ENUM, NUMBERS = "crates/refusal/src/lib.rt", "crates/refusal/specs/Refusals.antt"
TYPES = "bindings/rust/src/types.rs"
# the Rust's errors, transcribed
RUST = tuple(f"crates/rust_magnetar/specs/{name}.antt" for name in ("Assignment", "SegmentTopic", "Watch"))
OURS = {"crates/rust_session/specs/Demand.antt": "AssignmentError", "crates/rust_watch/specs/Demand.antt": "TopicsWatchError"}
ENUMS = {"AssignmentError": ERROR, "SegmentTopicError": ERROR, "TopicsWatchError": WATCH}
# of the Rust crate: the variant that wraps the error of a name, and the refusal that no `str` can give
WRAPPED = {("AssignmentError", 12): "SegmentTopic"}
NO_STR = {("SegmentTopicError", 7)}
# the values of a reply
PLACES = ("first", "second", "third", "fourth")
# how a comment of the crates begins an order
ORDERED = "Refused in order: "

VARIANT = re.compile(r"^    // (\d+)(?:, ([^:\n]*))?: ([^\n]*)\.\n    (\w+)(?: \{\n((?:        [^\n]*\n)*)    \})?,\n", re.M)
CLAUSE = r"^{} \(?(\w+)((?: \w+)*)\)? = (.*)$"
RUST_VARIANT = re.compile(r"^    /// (\d+): [^\n]*\n(?:    ///[^\n]*\n)*    (\w+)(?:\((\w+)\)| \{\n((?:        [^\n]*\n)*)    \})?,\n", re.M)
FN = re.compile(r"^    (?:pub(?:\(crate\))? )?(?:const )?fn (\w+)\(.*?^    \}\n", re.M | re.S)
TELLS = re.compile(r"^            Self::(\w+)(?: \{ \.\. \}|\(_\))? => (\d+),$", re.M)
ARM = re.compile(r"^            (\d[\d.=| ]*) =>\s*(?:\{\s*)?Self::(\w+)", re.M)
SHOWS = re.compile(r'Self::(\w+)(?: \{[^}]*\}|\(\w+\))? =>\s*(?:\{\s*)?(?:write!\(f, |f\.write_str\()"([^"]*)"')
CONSTRUCTOR = re.compile(r"^  (\w+) : (.*) → (?:AssignmentError|SegmentTopicError|TopicsWatchError)$", re.M)
COMMENTED = re.compile(r"/\*((?:(?!\*/).)*)\*/\s*\w+ (cuddrewyn_\w+)\(", re.S)


def differences(path, have, should):
    """A fault for the first place where two rows differ."""
    for at in range(max(len(have), len(should))):
        found, wanted = (row[at] if at < len(row) else "nothing" for row in (have, should))
        if found != wanted:
            return [f"{path}: has {found}, should have {wanted}"]
    return []


def check_refusals(table, sources):
    """Numbers do not fall and names stand once; values, cases and texts are where they belong."""
    numbers, names = [r.number for r in table.refusals], [r.name for r in table.refusals]
    faults = [f"{REFUSALS}: numbers fall, or a name stands twice"] if numbers != sorted(numbers) or len(set(names)) < len(names) else []
    for r in table.refusals:
        if bool(r.values) != bool(r.attached) or bool(r.case) != (len(table.names(r.number)) > 1):
            faults.append(f"{REFUSALS}: {r.name}: values and attached go together, and case with a second refusal of the number")
        if r.is_bare and len(r.texts) > 1:
            faults.append(f"{REFUSALS}: {r.name}: one text, where it is ours and has no values")
    return faults


def check_calls(table, sources):
    """The calls are the exported ones; they give each refusal, and no other; rows of the comparison stand once."""
    given, rows = {number for call in table.calls for number in call.numbers}, [row for call in table.calls for row in call.rows]
    faults = [f"{CALLS}: {number}: " + ("no call gives it" if number in table.by_number else "no refusal has it")
              for number in sorted(given ^ set(table.by_number))]
    for call in table.calls:
        if (call.error in (*ENUMS, "KeyRangeError")) != bool(call.order):
            faults.append(f"{CALLS}: {call.name}: an order goes together with an error of the Rust crate")
    faults += [f"{CALLS}: {row} stands twice" for row in sorted(set(rows)) if rows.count(row) > 1]
    return faults + differences(CALLS, sorted(call.name for call in table.calls), sorted(declarations.exported(sources)))


def check_enum(table, sources):
    """The variants of `Refusal`, their comments and their fields, in order."""
    body = re.search(r"^pub enum Refusal \{\n(.*?)^\}", sources[ENUM], re.M | re.S)
    text = body[1] if body else ""
    rest = VARIANT.sub("", text)
    have = [(int(n), name, case or "", sentence, re.findall(r"^        (\w+):", fields or "", re.M))
            for n, case, sentence, name, fields in (m.groups() for m in VARIANT.finditer(text))]
    should = [(r.number, r.name, r.case, r.sentence, list(r.values)) for r in table.refusals]
    return differences(ENUM, have, should) + ([f"{ENUM}: no variant with its number: {rest.split()[:9]}"] if rest else [])


def check_numbers(table, sources):
    """`number_of` and `values_of`: a clause for each variant, in order; its values are its fields, in order."""
    have = [(name, len(words.split()), int(n)) for name, words, n in re.findall(CLAUSE.format("number_of"), sources[NUMBERS], re.M)]
    faults = differences(NUMBERS, have, [(r.name, len(r.values), r.number) for r in table.refusals])
    clauses = re.findall(CLAUSE.format("values_of"), sources[NUMBERS], re.M)
    faults += differences(NUMBERS, [(name, len(words.split())) for name, words, _ in clauses], [(r.name, len(r.values)) for r in table.refusals])
    for name, words, values in clauses:
        *terms, last = values.split(" ∷ ")
        told = [term.split()[-1] for term in terms + ([] if last == "[]" else [last])]
        if told != words.split():
            faults.append(f"{NUMBERS}: values_of {name} has {told}, should have {words.split()}")
    return faults


def check_call_text(table, sources):
    """A refusal that shares its number with one before it has an arm of its own, with its name and its numbers' names. A range of kind 2 has an end alone."""
    text, arms, told, short = sources[CALL_TEXT], [], [], []
    for first, *seconds in table.by_number.values():
        if first.short_names != first.value_names:
            short.append((str(first.number), PLACES[first.value_names.index("kind")], ",".join(first.short_names)))
        for refusal in seconds:
            arms.append(refusal.name)
            told += [(refusal.name, ",".join(names)) for names in dict.fromkeys((refusal.short_names, refusal.value_names))]
    faults = differences(CALL_TEXT, re.findall(r"Refusal::(\w+) \{[^}]*\} =>", text), arms)
    faults += differences(CALL_TEXT, re.findall(r'refused_as\(to, r, b"(\w+)", b"([\w,]+)"\)', text), told)
    return faults + differences(CALL_TEXT, re.findall(r'if number == (\d+) && r\.(\w+) == 2 \{\s*return named_values\(to, r, b"([\w,]+)"\)', text), short)


def fields_of(variant):
    """The fields of a variant of the Rust crate, but for the broker's text. An error that is wrapped is a `source`."""
    wrapped, body = variant
    return ["source"] if wrapped else [name for name in re.findall(r"^        (\w+):", body or "", re.M) if name != "message"]


def check_variants(table, sources, error):
    """An enum of the Rust crate has a variant for each number that it tells, with the table's name and fields."""
    path = ENUMS[error]
    body = re.search(rf"^pub enum {error}(?:With)?\b[^\n]*\n(.*?)^\}}", sources[path], re.M | re.S)
    found = {int(n): (name, fields_of(fields)) for n, name, *fields in (m.groups() for m in RUST_VARIANT.finditer(body[1] if body else ""))}
    wanted = sorted(number for number in table.told_by(error) if (error, number) not in NO_STR)
    faults = differences(path, sorted(found), wanted)
    for number, (name, fields) in found.items():
        allowed = [(r.name, list(r.values)) for r in table.by_number.get(number, [])]
        # in its own enum the second refusal of a number may have the first one's name
        allowed += [(allowed[0][0], values) for _, values in allowed[1:]]
        if (name, fields) not in allowed and WRAPPED.get((error, number)) != name:
            faults.append(f"{path}: {error}::{name} has the fields {fields} and number {number}, should be one of {allowed}")
    return faults + check_told(table, sources, error, {number: name for number, (name, _) in found.items()})


def check_told(table, sources, error, names):
    """Both ways between variants and numbers, in the functions of an enum of the Rust crate. An arm may hand numbers on to another function."""
    path, arms, sent = ENUMS[error], [], {}
    block = re.search(rf"^impl(?:<M>)? {error}(?:With<M>)? \{{\n(.*?)^\}}", sources[path], re.M | re.S)
    functions = {m[1]: m[0] for m in FN.finditer(block[1] if block else "")}
    told = sorted((int(number), name) for name, number in TELLS.findall(functions.pop("number", "")))
    faults = differences(path, told, sorted(pair for pair in names.items() if WRAPPED.get((error, pair[0])) != pair[1]))
    for function, pattern, target in ((name, *arm) for name, body in functions.items() for arm in ARM.findall(body)):
        numbers = numbers_in(pattern.replace("..=", " to "))
        if target[0].islower():
            sent[target] = numbers
        else:
            arms += [(function, number, target) for number in numbers]
    faults += differences(path, sorted((number, name) for _, number, name in arms), sorted(names.items()))
    taken = {function: sorted(number for name, number, _ in arms if name == function) for function in sent}
    return faults + differences(path, sorted((function, sorted(numbers)) for function, numbers in sent.items()), sorted(taken.items()))


def check_rust(table, sources):
    faults = [fault for error in ENUMS for fault in check_variants(table, sources, error)]
    number = re.search(r"impl KeyRangeError \{.*?fn number\(&self\) -> u8 \{\s*(\d+)\s*\}", sources[TYPES], re.S)
    return faults + differences(TYPES, [int(number[1])] if number else [], sorted(table.told_by("KeyRangeError")))


def check_texts(table, sources):
    """What the Rust crate shows of a refusal that has values, or that the Rust has."""
    shown = {(path, *pair) for path in (ERROR, WATCH) for pair in SHOWS.findall(sources[path])}
    wanted = {text: r.number for r in table.refusals if not r.is_bare for text in r.texts}
    faults = [f"{path}: {name} shows '{text}', which is no text of it in {REFUSALS}"
              for path, name, text in sorted(shown) if name not in table.names(wanted.get(text))]
    missing = sorted(set(wanted) - {text for _, _, text in shown})
    return faults + [f"{ERROR}: nothing shows '{text}'" for text in missing]


def rust_errors(sources):
    """The variants of the Rust's errors, each with its fields that are no texts."""
    found = set()
    for name, arguments in (pair for path in RUST for pair in CONSTRUCTOR.findall(sources[path])):
        fields = [names for names, type_ in re.findall(r"\(([\w -]+) : (\S+)\)", arguments) if type_ != "Text"]
        found.add((name, tuple(" ".join(fields).replace("-", "_").split())))
    return sorted(pair for pair in found if pair[0] not in WRAPPED.values())


def check_origins(table, sources):
    """Of the Rust are the refusals that its errors have, with their fields. A second refusal of a number has the first one's name there."""
    return differences(RUST[0], rust_errors(sources), sorted({(table.names(r.number)[0], r.values) for r in table.refusals if not r.is_ours}))


def check_exports(table, sources):
    """docs/EXPORTS.md has each call in one row."""
    have = [name for row in EXPORTED.finditer(sources[EXPORTS]) for name in re.findall(r"`(cuddrewyn_\w+)`", row[1].split(" | ")[0])]
    return differences(EXPORTS, have, [call.name for call in table.calls])


def check_reach(table, sources):
    """The comparison's table has the rows of each call, and no others."""
    return differences(TALLY, sorted(row for row, _ in REACH.findall(sources[TALLY])), sorted(row for call in table.calls for row in call.rows))


def check_names(table, sources):
    """The header's constants are one for each name."""
    names = re.findall(r"\b(CUDDREWYN_\w+) = \d+|^#define (CUDDREWYN_\w+)", sources[HEADER], re.M)
    flat = [first or second for first, second in names]
    faults = [f"{HEADER}: {name} stands twice" for name in sorted(set(flat)) if flat.count(name) > 1]
    return faults + [f"{HEADER}: no {constant(names[0])}" for names in map(table.names, table.by_number) if constant(names[0]) not in flat]


def check_header_orders(table, sources):
    """A prototype's comment names what the call refuses, in order; where it refuses nothing the words may lack."""
    said = {name: " ".join(re.sub(r"\n \* ?", " ", text).split()) for text, name in COMMENTED.findall(sources[HEADER])}
    for name, symbol in re.findall(r"^#define (cuddrewyn_\w+) (cuddrewyn_\w+)$", sources[HEADER], re.M):
        said[symbol] = said.pop(name, "")
    faults = []
    for call in table.calls:
        words = re.search(r"[Rr]efuses ([^.]*)", re.sub(r" \([^()]*\)", "", said.get(call.name, "")))
        if (numbers_in(words[1]) if words else []) != call.numbers:
            faults.append(f"{HEADER}: {call.name}: refuses {words[1] if words else '-'}, should refuse {order_text(call.order)}")
    return faults


def check_comments(table, sources):
    """`Refused in order: ..` in the crates' comments is the order of a call, or its end."""
    orders, faults = [call.numbers for call in table.calls], []
    for path, text in sources.items():
        text = re.sub(r"\n *(?://|--) ", " ", text) if path.startswith("crates/") else ""
        for words in re.findall(ORDERED + r"([^.]*)\.", text):
            numbers = numbers_in(words)
            if not numbers or not any(order[-len(numbers):] == numbers for order in orders):
                faults.append(f"{path}: '{ORDERED}{words}' is no call's order, nor the end of one")
    return faults


def numbers_of(formula):
    """The numbers for which a formula over n holds, of `leb 1 n && leb n 8` and `eqb n 15` with `||` between; none where it has other parts."""
    pieces = re.compile(r"leb (\d+) n && leb n (\d+)|eqb n (\d+)")
    spans = [(int(first or single), int(last or single)) for first, last, single in pieces.findall(formula)]
    return set() if pieces.sub("", formula).strip(" ()|") else {number for first, last in spans for number in range(first, last + 1)}


def check_ours(table, sources):
    """Demand 2 takes as the port's own what the table says is ours, of all that the calls in its runs refuse."""
    with_record = [name for name, (arguments, _) in declarations.exported(sources).items() if ("r", "*mut Record") in arguments]
    faults = []
    for path, error in OURS.items():
        formula = re.search(r"^ours\w* n = (.*)$", sources[path], re.M)
        own = numbers_of(formula[1] if formula else "")
        runs = [call for call in table.calls if call.error == error and (error != "AssignmentError" or call.name in with_record)]
        asked = [refusal for refusal in table.refusals if any(refusal.number in call.numbers for call in runs)]
        wrong = [refusal for refusal in asked if (refusal.number in own) != refusal.is_ours]
        faults += [f"{path}: `ours` has {r.number} wrong: it is {'ours' if r.is_ours else 'of the Rust'}" for r in wrong]
    return faults


def check_declarations(table, sources):
    """Calls, structs and answers are declared alike in Rattle, C and Rust."""
    calls, faults = declarations.exported(sources), []
    if len(calls) != sum(text.count("#[unsafe(no_mangle)]") for path, text in sources.items() if path.startswith(declarations.CRATE)):
        faults.append(f"{declarations.CRATE}: a call that cannot be read")
    for path, found in ((HEADER, declarations.prototypes(sources)), (RAW, declarations.raw_functions(sources))):
        faults += differences(path, sorted(found.items()), sorted(calls.items()))
    structs = declarations.rattle_structs(sources)
    for path, found in ((HEADER, declarations.c_structs(sources)), (RAW, declarations.raw_structs(sources))):
        faults += differences(path, sorted(found.items()), sorted(structs.items()))
    answers = declarations.answers(sources)
    return faults + [fault for path, found in answers.items() for fault in differences(path, found, answers[REPLY])]


# each check, and the sources that it reads besides the table
CHECKS = {
    check_refusals: (),
    check_calls: (declarations.CRATE,),
    check_enum: (ENUM,),
    check_numbers: (NUMBERS,),
    check_call_text: (CALL_TEXT,),
    check_rust: (ERROR, WATCH, TYPES),
    check_texts: (ERROR, WATCH),
    check_origins: RUST,
    check_exports: (EXPORTS,),
    check_reach: (TALLY,),
    check_names: (HEADER,),
    check_header_orders: (HEADER,),
    check_comments: ("crates/",),
    check_ours: (*OURS, declarations.CRATE),
    check_declarations: (HEADER, RAW, EXPORTS, REPLY, declarations.SESSION_REPLY, declarations.CRATE),
}


if __name__ == "__main__":
    usage.help_only(__doc__)
