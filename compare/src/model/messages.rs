//! The messages by their tables (PulsarApi.proto), and their values.
use super::wire::{Fields, Holds, Row, Rule, Value, again, read, row};
use std::ops::Range;

const RANGE: &[Row] = &[row(1, Rule::Required, Holds::Number), row(2, Rule::Required, Holds::Number)];
const SEGMENT: &[Row] = &[
    row(1, Rule::Required, Holds::Number),
    row(2, Rule::Required, Holds::Number),
    row(3, Rule::Required, Holds::Number),
    row(4, Rule::Required, Holds::Text),
    row(5, Rule::Repeated, Holds::Message(RANGE)),
];
const ASSIGNMENT: &[Row] = &[row(1, Rule::Required, Holds::Number), row(2, Rule::Repeated, Holds::Message(SEGMENT))];
const UPDATE: &[Row] = &[row(1, Rule::Required, Holds::Number), row(2, Rule::Required, Holds::Message(ASSIGNMENT))];
const RESPONSE: &[Row] = &[
    row(1, Rule::Required, Holds::Number),
    row(2, Rule::Optional, Holds::Number),
    row(3, Rule::Optional, Holds::Text),
    row(4, Rule::Optional, Holds::Message(ASSIGNMENT)),
];
const SNAPSHOT: &[Row] = &[row(1, Rule::Repeated, Holds::Text)];
const DIFF: &[Row] = &[row(1, Rule::Repeated, Holds::Text), row(2, Rule::Repeated, Holds::Text)];
const WATCH: &[Row] = &[
    row(1, Rule::Required, Holds::Number),
    row(2, Rule::Member, Holds::Message(SNAPSHOT)),
    row(3, Rule::Member, Holds::Message(DIFF)),
    row(4, Rule::Optional, Holds::Number),
    row(5, Rule::Optional, Holds::Text),
];

#[derive(Clone, Debug, PartialEq, Eq)]
pub struct WireSegment {
    pub id: u64,
    pub start: u32,
    pub end: u32,
    pub topic: String,
    pub buckets: Vec<(i32, i32)>,
}

#[derive(Clone, Debug, PartialEq, Eq)]
pub struct WireAssignment {
    pub epoch: u64,
    pub segments: Vec<WireSegment>,
}

pub struct Update {
    pub consumer_id: u64,
    pub assignment: WireAssignment,
}

pub struct Response {
    pub request_id: u64,
    pub error: Option<i32>,
    pub text: Option<Range<usize>>,
    pub assignment: Option<WireAssignment>,
}

pub enum Event {
    Snapshot(Vec<Range<usize>>),
    Diff { added: Vec<Range<usize>>, removed: Vec<Range<usize>> },
}

pub struct WatchUpdate {
    pub watch_id: u64,
    pub error: Option<i32>,
    pub text: Option<Range<usize>>,
    pub event: Option<Event>,
}

fn number(fields: &Fields, wanted: u64) -> Option<u64> {
    fields.iter().find_map(|(number, value)| match value {
        Value::Number(n) if *number == wanted => Some(*n),
        _ => None,
    })
}

fn texts(fields: &Fields, wanted: u64) -> Vec<Range<usize>> {
    let text = |(number, value): &(u64, Value)| match value {
        Value::Text(part) if *number == wanted => Some(part.clone()),
        _ => None,
    };
    fields.iter().filter_map(text).collect()
}

fn parts(fields: &Fields, wanted: u64) -> Vec<&Fields> {
    let mut found = Vec::new();
    for (number, value) in fields {
        if let Value::Message(inner) = value
            && *number == wanted
        {
            found.push(inner);
        }
    }
    found
}

fn required(fields: &Fields, wanted: u64) -> u64 {
    number(fields, wanted).expect("a required field")
}

fn segment(bytes: &[u8], fields: &Fields) -> WireSegment {
    let topic = texts(fields, 4).remove(0);
    WireSegment {
        id: required(fields, 1),
        start: required(fields, 2) as u32,
        end: required(fields, 3) as u32,
        topic: String::from_utf8(bytes[topic].to_vec()).expect("a text"),
        buckets: parts(fields, 5).iter().map(|range| (required(range, 1) as i32, required(range, 2) as i32)).collect(),
    }
}

fn assignment(bytes: &[u8], fields: &Fields) -> WireAssignment {
    WireAssignment { epoch: required(fields, 1), segments: parts(fields, 2).iter().map(|part| segment(bytes, part)).collect() }
}

/// An update, or the number of its first fault.
pub fn update(bytes: &[u8]) -> Result<Update, u8> {
    let fields = read(UPDATE, bytes)?;
    Ok(Update { consumer_id: required(&fields, 1), assignment: assignment(bytes, parts(&fields, 2)[0]) })
}

/// A response, or the number of its first fault.
pub fn response(bytes: &[u8]) -> Result<Response, u8> {
    let fields = read(RESPONSE, bytes)?;
    Ok(Response {
        request_id: required(&fields, 1),
        error: number(&fields, 2).map(|code| code as i32),
        text: texts(&fields, 3).pop(),
        assignment: parts(&fields, 4).first().map(|part| assignment(bytes, part)),
    })
}

/// A watch update, or the number of its first fault.
pub fn watch(bytes: &[u8]) -> Result<WatchUpdate, u8> {
    let fields = read(WATCH, bytes)?;
    let snapshot = parts(&fields, 2).first().map(|part| Event::Snapshot(texts(part, 1)));
    let diff = parts(&fields, 3).first().map(|part| Event::Diff { added: texts(part, 1), removed: texts(part, 2) });
    Ok(WatchUpdate {
        watch_id: required(&fields, 1),
        error: number(&fields, 4).map(|code| code as i32),
        text: texts(&fields, 5).pop(),
        event: snapshot.or(diff),
    })
}

/// Whether a field of an update comes again that is singular.
pub fn update_again(bytes: &[u8]) -> bool {
    again(UPDATE, bytes)
}

/// The same of a response.
pub fn response_again(bytes: &[u8]) -> bool {
    again(RESPONSE, bytes)
}

/// The same of a watch update, whose events count together.
pub fn watch_again(bytes: &[u8]) -> bool {
    again(WATCH, bytes)
}
