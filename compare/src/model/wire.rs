//! The wire form: varints, keys, and the fields of a message by its table. Faults are reported by their numbers: the first of 3, 4 and 7 in byte order, then 6 of what is
//! missing when the whole message has been read and its parts are merged.
use std::mem::take;
use std::ops::Range;

pub const BROKEN: u8 = 3;
pub const WRONG_TYPE: u8 = 4;
pub const MISSING: u8 = 6;
pub const NOT_TEXT: u8 = 7;

/// What a known field holds.
#[derive(Clone, Copy)]
pub enum Holds {
    Number,
    Text,
    Message(&'static [Row]),
}

#[derive(Clone, Copy, PartialEq, Eq)]
pub enum Rule {
    Required,
    Optional,
    Repeated,
    /// A member of the message's oneof: the last one is held.
    Member,
}

/// A line of a message's table.
#[derive(Clone, Copy)]
pub struct Row {
    pub number: u64,
    pub rule: Rule,
    pub holds: Holds,
}

pub const fn row(number: u64, rule: Rule, holds: Holds) -> Row {
    Row { number, rule, holds }
}

fn row_of(table: &[Row], number: u64) -> &Row {
    table.iter().find(|row| row.number == number).expect("a known field")
}

/// A known field as it was read. Texts are parts of the whole message.
pub enum Value {
    Number(u64),
    Text(Range<usize>),
    Message(Fields),
}

pub type Fields = Vec<(u64, Value)>;

/// A message, or the number of its first fault.
pub fn read(table: &'static [Row], bytes: &[u8]) -> Result<Fields, u8> {
    let message = merged(table, fields(table, bytes, 0..bytes.len())?);
    if lacks(table, &message) { Err(MISSING) } else { Ok(message) }
}

/// Whether a singular field, or a oneof's member, comes again, in the message or in one that it holds.
pub fn again(table: &'static [Row], bytes: &[u8]) -> bool {
    fields(table, bytes, 0..bytes.len()).is_ok_and(|fields| comes_again(table, &fields))
}

fn comes_again(table: &[Row], fields: &Fields) -> bool {
    let same = |left: u64, right: u64| left == right || [left, right].iter().all(|number| row_of(table, *number).rule == Rule::Member);
    fields.iter().enumerate().any(|(at, (number, value))| {
        let before = fields[..at].iter().any(|(other, _)| same(*other, *number));
        let row = row_of(table, *number);
        (before && row.rule != Rule::Repeated)
            || matches!((value, row.holds), (Value::Message(inner), Holds::Message(table)) if comes_again(table, inner))
    })
}

/// What is left of fields that come again: of a number or a text the last, of a singular message one with the fields of all, of a oneof the last member.
fn merged(table: &[Row], fields: Fields) -> Fields {
    let mut left = Fields::new();
    for (number, value) in fields {
        let rule = row_of(table, number).rule;
        if rule == Rule::Member {
            left.retain(|(other, _)| *other == number || row_of(table, *other).rule != Rule::Member);
        }
        match (left.iter_mut().find(|(other, _)| *other == number && rule != Rule::Repeated), value) {
            (None, value) => left.push((number, value)),
            (Some((_, Value::Message(held))), Value::Message(more)) => held.extend(more),
            (Some((_, held)), value) => *held = value,
        }
    }
    for (number, value) in &mut left {
        if let (Value::Message(inner), Holds::Message(table)) = (value, row_of(table, *number).holds) {
            *inner = merged(table, take(inner));
        }
    }
    left
}

/// Whether a required field is missing, in the merged message or in one that it holds.
fn lacks(table: &[Row], message: &Fields) -> bool {
    let missing = |row: &Row| row.rule == Rule::Required && message.iter().all(|(number, _)| *number != row.number);
    let inside = |(number, value): &(u64, Value)| matches!((value, row_of(table, *number).holds), (Value::Message(inner), Holds::Message(table)) if lacks(table, inner));
    table.iter().any(missing) || message.iter().any(inside)
}

/// A varint at `at`, before `end`: its value and the place behind it.
pub fn varint(bytes: &[u8], at: usize, end: usize) -> Result<(u64, usize), u8> {
    let mut value = 0u128;
    for (k, byte) in bytes[at..end].iter().take(10).enumerate() {
        value |= u128::from(byte & 0x7f) << (7 * k);
        if *byte < 0x80 {
            return u64::try_from(value).map(|value| (value, at + k + 1)).map_err(|_| BROKEN);
        }
    }
    Err(BROKEN)
}

/// `length` bytes at `at`, before `end`.
fn stretch(at: usize, length: u64, end: usize) -> Result<Range<usize>, u8> {
    let left = (end - at) as u64;
    if length <= left { Ok(at..at + length as usize) } else { Err(BROKEN) }
}

/// The known fields between two places, each time that they come; 3, 4 or 7 in byte order.
fn fields(table: &'static [Row], bytes: &[u8], part: Range<usize>) -> Result<Fields, u8> {
    let mut found = Fields::new();
    let mut at = part.start;
    while at < part.end {
        let (key, behind) = varint(bytes, at, part.end)?;
        let (number, kind) = (key / 8, key % 8);
        if key > u64::from(u32::MAX) || number == 0 || matches!(kind, 3 | 4 | 6 | 7) {
            return Err(BROKEN);
        }
        let Some(known) = table.iter().find(|row| row.number == number) else {
            at = skipped(kind, bytes, behind, part.end)?;
            continue;
        };
        if kind != wire_type(known.holds) {
            return Err(WRONG_TYPE);
        }
        let (value, next) = value(known.holds, bytes, behind, part.end)?;
        found.push((number, value));
        at = next;
    }
    Ok(found)
}

/// A field as it stands, whatever it means; what is broken has number 0 and is the last.
pub struct RawField {
    pub number: u64,
    pub bytes: Range<usize>,
    /// Where a length-delimited one has its content.
    pub content: Option<Range<usize>>,
}

pub fn raw_fields(bytes: &[u8]) -> Vec<RawField> {
    let (mut found, mut at) = (Vec::new(), 0);
    while at < bytes.len() {
        let field = raw_field(bytes, at).unwrap_or(RawField { number: 0, bytes: at..bytes.len(), content: None });
        at = field.bytes.end;
        found.push(field);
    }
    found
}

fn raw_field(bytes: &[u8], at: usize) -> Result<RawField, u8> {
    let (key, behind) = varint(bytes, at, bytes.len())?;
    let (number, kind) = (key / 8, key % 8);
    if key > u64::from(u32::MAX) || number == 0 || matches!(kind, 3 | 4 | 6 | 7) {
        return Err(BROKEN);
    }
    let end = skipped(kind, bytes, behind, bytes.len())?;
    let content = if kind == 2 { Some(varint(bytes, behind, end)?.1..end) } else { None };
    Ok(RawField { number, bytes: at..end, content })
}

fn wire_type(holds: Holds) -> u64 {
    if matches!(holds, Holds::Number) { 0 } else { 2 }
}

fn value(holds: Holds, bytes: &[u8], at: usize, end: usize) -> Result<(Value, usize), u8> {
    let (number, behind) = varint(bytes, at, end)?;
    if let Holds::Number = holds {
        return Ok((Value::Number(number), behind));
    }
    let inside = stretch(behind, number, end)?;
    let next = inside.end;
    match holds {
        Holds::Message(table) => Ok((Value::Message(fields(table, bytes, inside)?), next)),
        _ if std::str::from_utf8(&bytes[inside.clone()]).is_err() => Err(NOT_TEXT),
        _ => Ok((Value::Text(inside), next)),
    }
}

/// The place behind an unknown field's value.
pub fn skipped(kind: u64, bytes: &[u8], at: usize, end: usize) -> Result<usize, u8> {
    match kind {
        0 => varint(bytes, at, end).map(|(_, behind)| behind),
        1 => stretch(at, 8, end).map(|part| part.end),
        5 => stretch(at, 4, end).map(|part| part.end),
        _ => varint(bytes, at, end).and_then(|(length, behind)| stretch(behind, length, end)).map(|part| part.end),
    }
}
