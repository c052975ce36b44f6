//! Messages as a relay passes them on that appends fields (02 b): they say the same, by values that are overridden, messages in several parts and events that are replaced.
use crate::generate::{Field, Style, put_field};
use crate::model::wire::raw_fields;
use crate::rng::Rng;

#[derive(Clone, Copy)]
enum Kind {
    Update,
    Response,
    #[cfg_attr(not(feature = "watch"), allow(dead_code))]
    Watch,
    Assignment,
    Segment,
    Range,
}

/// What a field holds.
enum Holds {
    Number,
    Text,
    /// The one message of its field.
    Message(Kind),
    /// One of several.
    Each(Kind),
    Event,
    Other,
}

fn holds(kind: Kind, number: u64) -> Holds {
    match (kind, number) {
        (_, 1) | (Kind::Response | Kind::Segment | Kind::Range, 2) | (Kind::Segment, 3) | (Kind::Watch, 4) => Holds::Number,
        (Kind::Response, 3) | (Kind::Segment, 4) | (Kind::Watch, 5) => Holds::Text,
        (Kind::Update, 2) | (Kind::Response, 4) => Holds::Message(Kind::Assignment),
        (Kind::Assignment, 2) => Holds::Each(Kind::Segment),
        (Kind::Segment, 5) => Holds::Each(Kind::Range),
        (Kind::Watch, 2 | 3) => Holds::Event,
        _ => Holds::Other,
    }
}

pub fn update(bytes: &[u8], rng: &mut Rng) -> Vec<u8> {
    relayed(Kind::Update, bytes, rng)
}

pub fn response(bytes: &[u8], rng: &mut Rng) -> Vec<u8> {
    relayed(Kind::Response, bytes, rng)
}

#[cfg(feature = "watch")]
pub fn watch(bytes: &[u8], rng: &mut Rng) -> Vec<u8> {
    relayed(Kind::Watch, bytes, rng)
}

fn put(bytes: &mut Vec<u8>, field: &Field, rng: &mut Rng) {
    let style = if rng.one_in(4) { Style::Wild } else { Style::Plain };
    put_field(bytes, field, style, rng);
}

/// What is overridden stands in front of all other fields.
fn relayed(kind: Kind, bytes: &[u8], rng: &mut Rng) -> Vec<u8> {
    let (mut front, mut rest, mut held) = (Vec::new(), Vec::new(), false);
    for field in raw_fields(bytes) {
        let number = field.number;
        match (holds(kind, number), field.content.map(|part| &bytes[part])) {
            (Holds::Number, None) => {
                overridden_number(&mut front, number, rng);
                rest.extend(&bytes[field.bytes]);
            }
            (Holds::Text, Some(_)) => {
                overridden_text(&mut front, number, rng);
                rest.extend(&bytes[field.bytes]);
            }
            (Holds::Message(inner), Some(content)) => {
                let content = relayed(inner, content, rng);
                put_parts(&mut rest, number, &content, rng);
            }
            (Holds::Each(inner), Some(content)) => {
                let content = relayed(inner, content, rng);
                put(&mut rest, &Field::Bytes(number, content), rng);
            }
            (Holds::Event, Some(content)) => {
                if !held {
                    replaced_events(&mut rest, number, rng);
                }
                put_parts(&mut rest, number, content, rng);
                held = true;
            }
            _ => rest.extend(&bytes[field.bytes]),
        }
    }
    front.extend(rest);
    front
}

fn overridden_number(bytes: &mut Vec<u8>, number: u64, rng: &mut Rng) {
    if rng.one_in(6) {
        let value = rng.word() >> rng.below(64);
        put(bytes, &Field::Number(number, value, 64), rng);
    }
}

fn overridden_text(bytes: &mut Vec<u8>, number: u64, rng: &mut Rng) {
    if rng.one_in(6) {
        let text = rng.pick(&["", "other", "segment://a/b/c/0000-0001-0", "§"]);
        put(bytes, &Field::Bytes(number, text.into()), rng);
    }
}

/// A message in one part, two or three, cut between its fields.
fn put_parts(bytes: &mut Vec<u8>, number: u64, content: &[u8], rng: &mut Rng) {
    let places: Vec<usize> = raw_fields(content).into_iter().map(|field| field.bytes.start).chain([content.len()]).collect();
    let mut cuts: Vec<usize> = (0..rng.pick(&[0, 0, 1, 2])).map(|_| rng.pick(&places)).chain([content.len()]).collect();
    cuts.sort_unstable();
    let mut from = 0;
    for cut in cuts {
        put(bytes, &Field::Bytes(number, content[from..cut].to_vec()), rng);
        from = cut;
    }
}

/// Now and then events that the one to come replaces: the other one, and before it perhaps the same one.
fn replaced_events(bytes: &mut Vec<u8>, number: u64, rng: &mut Rng) {
    if !rng.one_in(3) {
        return;
    }
    let events = if rng.one_in(2) { vec![number, 5 - number] } else { vec![5 - number] };
    for event in events {
        let mut topics = Vec::new();
        for _ in 0..rng.below(4) {
            let field = rng.pick(&[1, 2]);
            let topic = if rng.one_in(60) { "x".repeat(65_536) } else { rng.pick(&["", "a", "gone", "é"]).into() };
            put(&mut topics, &Field::Bytes(field, topic.into_bytes()), rng);
        }
        put(bytes, &Field::Bytes(event, topics), rng);
    }
}
