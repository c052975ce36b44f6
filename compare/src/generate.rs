//! Messages made at random: assignments with and without faults, written plainly or in any way that the wire form allows, and damaged copies.
use crate::model::sheet::{Segment, Sheet};
use crate::rng::Rng;

/// A field of a message to be written.
#[derive(Clone, Debug)]
pub enum Field {
    /// A number, and how many of its low bits count.
    Number(u64, u64, u32),
    Bytes(u64, Vec<u8>),
}

pub fn put_varint(bytes: &mut Vec<u8>, mut value: u64) {
    while value >= 0x80 {
        bytes.push(value as u8 | 0x80);
        value >>= 7;
    }
    bytes.push(value as u8);
}

/// A varint of more bytes than it needs, ten at most.
fn put_long_varint(bytes: &mut Vec<u8>, value: u64, rng: &mut Rng) {
    let from = bytes.len();
    put_varint(bytes, value);
    let length = rng.between(bytes.len() - from, 10);
    while bytes.len() - from < length {
        *bytes.last_mut().expect("a byte") |= 0x80;
        bytes.push(0);
    }
}

/// How messages are written.
#[derive(Clone, Copy, PartialEq, Eq)]
pub enum Style {
    /// In order, shortest varints.
    Plain,
    /// Any order, long varints, unknown fields, high bits that do not count.
    Wild,
}

pub fn message(fields: &[Field], style: Style, rng: &mut Rng) -> Vec<u8> {
    let mut bytes = Vec::new();
    let mut order: Vec<&Field> = fields.iter().collect();
    if style == Style::Wild && rng.one_in(2) {
        rng.shuffle(&mut order);
    }
    for field in order {
        if style == Style::Wild && rng.one_in(6) {
            put_unknown(&mut bytes, rng);
        }
        put_field(&mut bytes, field, style, rng);
    }
    if style == Style::Wild && rng.one_in(6) {
        put_unknown(&mut bytes, rng);
    }
    bytes
}

fn put_number(bytes: &mut Vec<u8>, value: u64, style: Style, rng: &mut Rng) {
    if style == Style::Wild && rng.one_in(4) { put_long_varint(bytes, value, rng) } else { put_varint(bytes, value) }
}

pub fn put_field(bytes: &mut Vec<u8>, field: &Field, style: Style, rng: &mut Rng) {
    match field {
        Field::Number(number, value, bits) => {
            put_number(bytes, number * 8, style, rng);
            let other = *bits < 64 && style == Style::Wild && rng.one_in(3);
            let high = if other && rng.one_in(2) { rng.word() << bits } else { 0 };
            let value = if other { value & ((1 << bits) - 1) | high } else { *value };
            put_number(bytes, value, style, rng);
        }
        Field::Bytes(number, content) => {
            put_number(bytes, number * 8 + 2, style, rng);
            put_number(bytes, content.len() as u64, style, rng);
            bytes.extend(content);
        }
    }
}

/// A field that no message here knows.
fn put_unknown(bytes: &mut Vec<u8>, rng: &mut Rng) {
    let number = rng.pick(&[6, 7, 15, 16, 100, 19_000, (1 << 29) - 1]);
    match rng.below(4) {
        0 => {
            put_varint(bytes, number * 8);
            let value = rng.word() >> rng.below(64);
            put_long_varint(bytes, value, rng);
        }
        1 => {
            put_varint(bytes, number * 8 + 1);
            bytes.extend(rng.bytes(8));
        }
        2 => {
            put_varint(bytes, number * 8 + 2);
            let length = rng.below(6);
            put_varint(bytes, length as u64);
            bytes.extend(rng.bytes(length));
        }
        _ => {
            put_varint(bytes, number * 8 + 5);
            bytes.extend(rng.bytes(4));
        }
    }
}

/// A segment as a message says it, with any values.
#[derive(Clone, Debug, PartialEq, Eq)]
pub struct Part {
    pub id: u64,
    pub start: u32,
    pub end: u32,
    pub topic: Vec<u8>,
    pub buckets: Vec<(i32, i32)>,
}

impl Part {
    pub fn new(path: &str, id: u64, start: u32, end: u32, buckets: Vec<(i32, i32)>) -> Self {
        let topic = format!("segment://{path}/{start:04x}-{end:04x}-{id}").into_bytes();
        Self { id, start, end, topic, buckets }
    }

    fn fields(&self, style: Style, rng: &mut Rng) -> Vec<Field> {
        let mut fields = vec![
            Field::Number(1, self.id, 64),
            Field::Number(2, u64::from(self.start), 32),
            Field::Number(3, u64::from(self.end), 32),
            Field::Bytes(4, self.topic.clone()),
        ];
        for (start, end) in &self.buckets {
            let range = [Field::Number(1, *start as u64, 32), Field::Number(2, *end as u64, 32)];
            fields.push(Field::Bytes(5, message(&range, style, rng)));
        }
        fields
    }
}

/// An assignment as a message says it.
#[derive(Clone, Debug, PartialEq, Eq)]
pub struct Assignment {
    pub epoch: u64,
    pub parts: Vec<Part>,
}

impl Assignment {
    /// A packed list, its names below the parent with this path.
    pub fn of_sheet(sheet: &Sheet, path: &str) -> Self {
        let part = |segment: &Segment| {
            let buckets = segment.buckets.iter().map(|(start, end)| (i32::from(*start), i32::from(*end))).collect();
            Part::new(path, segment.id, segment.start.into(), segment.end.into(), buckets)
        };
        Self { epoch: sheet.epoch, parts: sheet.segments.iter().map(part).collect() }
    }

    pub fn message(&self, style: Style, rng: &mut Rng) -> Vec<u8> {
        let mut fields = vec![Field::Number(1, self.epoch, 64)];
        for part in &self.parts {
            let inner = part.fields(style, rng);
            fields.push(Field::Bytes(2, message(&inner, style, rng)));
        }
        message(&fields, style, rng)
    }

    pub fn update(&self, consumer_id: u64, style: Style, rng: &mut Rng) -> Vec<u8> {
        let assignment = self.message(style, rng);
        message(&[Field::Number(1, consumer_id, 64), Field::Bytes(2, assignment)], style, rng)
    }

    pub fn response(&self, request_id: u64, style: Style, rng: &mut Rng) -> Vec<u8> {
        let assignment = self.message(style, rng);
        let mut fields = vec![Field::Number(1, request_id, 64)];
        if rng.one_in(8) {
            fields.extend(broker(rng));
        }
        fields.push(Field::Bytes(4, assignment));
        message(&fields, style, rng)
    }
}

/// An error code and a text, either of which may be left out.
fn broker(rng: &mut Rng) -> Vec<Field> {
    let mut fields = Vec::new();
    if !rng.one_in(4) {
        let code = rng.pick(&[0, 1, 3, 22, 99, 0x7fff_ffff, -1, i32::MIN]);
        fields.push(Field::Number(2, code as u64, 32));
    }
    if !rng.one_in(3) {
        let text = rng.pick(&["", "no", "Zugriff verweigert", "§ \u{10ffff}", "\u{0}"]);
        fields.push(Field::Bytes(3, text.as_bytes().to_vec()));
    }
    fields
}

/// A response without an assignment.
pub fn refusing_response(request_id: u64, style: Style, rng: &mut Rng) -> Vec<u8> {
    let mut fields = vec![Field::Number(1, request_id, 64)];
    fields.extend(broker(rng));
    message(&fields, style, rng)
}

/// A copy with a few bytes changed, left out, put in, repeated or cut off.
pub fn damaged(bytes: &[u8], rng: &mut Rng) -> Vec<u8> {
    let mut copy = bytes.to_vec();
    for _ in 0..rng.between(1, 3) {
        let at = rng.below(copy.len() + 1);
        match rng.below(8) {
            0 | 1 if at < copy.len() => copy[at] ^= 1 << rng.below(8),
            2 if at < copy.len() => copy[at] = telling(rng),
            3 if at < copy.len() => drop(copy.remove(at)),
            4 => copy.insert(at, telling(rng)),
            5 => copy.truncate(at),
            6 => {
                let length = rng.below(copy.len() - at + 1).min(40);
                let again = copy[at..at + length].to_vec();
                copy.splice(at..at, again);
            }
            _ => {
                let end = (at + rng.below(4)).min(copy.len());
                copy.drain(at..end);
            }
        }
    }
    copy
}

/// A byte that often means something.
fn telling(rng: &mut Rng) -> u8 {
    if rng.one_in(3) {
        rng.byte()
    } else {
        rng.pick(&[0x00, 0x01, 0x02, 0x07, 0x08, 0x0a, 0x10, 0x12, 0x18, 0x1a, 0x20, 0x22, 0x2a, 0x7f, 0x80, 0xff])
    }
}
