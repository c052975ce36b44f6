//! Two messages that differ only in the order of their segments: one is accepted exactly if the other is, and then both give and leave the same.
use super::script::{CONSUMER, Script, TOPIC, list};
use super::stage::{Ask, Outcome, ROOM, Stage};
use super::twin::Twin;
use crate::generate::{Assignment, Field, Part, Style, put_field};
use crate::model::session::SLOT;
use crate::model::wire::{RawField, raw_fields};
use crate::raw::REFUSED;
use crate::reply::show;
use crate::rng::Rng;
use crate::spoil::{Judge, listens_to};
use crate::tally::{Tally, hex};

/// Makes the call; where its message has segments that can move, also with them in another order, on a copy of both sides, and compares the two.
/// The sessions go on from either.
pub fn ask(tally: &mut Tally, ask: &Ask, stage: &mut Stage, twin: &mut Option<Twin>, rng: &mut Rng) {
    let Some(other) = in_other_order(ask, rng) else {
        stage.ask(tally, ask, twin.as_mut());
        return;
    };
    let (before, mut other_stage, mut other_twin) = (stage.clone(), stage.clone(), twin.clone());
    let first = stage.ask_keeping(tally, ask, twin.as_mut());
    let second = other_stage.ask_keeping(tally, &other, other_twin.as_mut());
    let sessions = twin.as_ref().map(Twin::text) != other_twin.as_ref().map(Twin::text);
    let wrong = outcomes_differ(&first, &second).or_else(|| sessions.then(|| "the Rust's sessions".into()));
    if let Some(what) = wrong.filter(|_| listens_to(Judge::Order)) {
        let input = || format!("{}\n    the other: {}", before.show(ask), hex(other.message()));
        tally.differ(ask.call(), &format!("another order of the segments: {what}"), input);
    }
    tally.orders[kind(&first, &second)] += 1;
    if rng.one_in(2) {
        (*stage, *twin) = (other_stage, other_twin);
    }
}

/// How two outcomes differ that should be alike. Which refusal is named may differ; a refused call leaves all as it was.
fn outcomes_differ(first: &Outcome, second: &Outcome) -> Option<String> {
    let replies = [first, second].map(|outcome| outcome.given.reply);
    let refused = replies.map(|reply| reply.answer == REFUSED);
    if refused[0] != refused[1] || (!refused[0] && replies[0] != replies[1]) {
        return Some(format!("{} and {}", show(&replies[0]), show(&replies[1])));
    }
    if first.given.state != second.given.state {
        return Some(format!("records {:?} and {:?}", first.given.state, second.given.state));
    }
    if first.store != second.store {
        return Some("the stores".into());
    }
    (first.out != second.out).then(|| "the outputs".into())
}

/// Where the tally counts it: accepted, refused by the same number, refused by two.
fn kind(first: &Outcome, second: &Outcome) -> usize {
    let [first, second] = [first, second].map(|outcome| outcome.given.reply);
    if first.answer != REFUSED { 0 } else { 1 + usize::from(first.number != second.number) }
}

/// The call with the segments of its message in another order; none where they cannot move.
fn in_other_order(ask: &Ask, rng: &mut Rng) -> Option<Ask> {
    let number = match ask {
        Ask::Update { .. } => 2,
        Ask::Response { .. } => 4,
        _ => return None,
    };
    let message = reordered(ask.message(), number, rng)?;
    Some(ask.with_message(&message))
}

/// A message whose assignments stand in this field. Keys and lengths may be written longer, all else is kept.
fn reordered(message: &[u8], number: u64, rng: &mut Rng) -> Option<Vec<u8>> {
    let (mut bytes, mut moved) = (Vec::new(), false);
    for field in raw_fields(message) {
        let assignment = field.content.filter(|_| field.number == number).and_then(|content| moved_segments(&message[content], rng));
        if let Some(assignment) = assignment {
            put_part(&mut bytes, number, assignment, rng);
            moved = true;
        } else {
            bytes.extend(&message[field.bytes]);
        }
    }
    moved.then_some(bytes)
}

fn put_part(bytes: &mut Vec<u8>, number: u64, content: Vec<u8>, rng: &mut Rng) {
    let style = if rng.one_in(4) { Style::Wild } else { Style::Plain };
    put_field(bytes, &Field::Bytes(number, content), style, rng);
}

/// An assignment with its segments anywhere between its other fields, which keep their order; what is broken stays at the end.
fn moved_segments(assignment: &[u8], rng: &mut Rng) -> Option<Vec<u8>> {
    let is_segment = |field: &RawField| field.number == 2 && field.content.is_some();
    let (mut fields, broken): (Vec<_>, Vec<_>) = raw_fields(assignment).into_iter().partition(|field| field.number != 0);
    if fields.len() < 2 || !fields.iter().any(is_segment) {
        return None;
    }
    let (mut segments, others): (Vec<_>, Vec<_>) = fields.into_iter().partition(is_segment);
    rng.shuffle(&mut segments);
    fields = others;
    for segment in segments {
        fields.insert(rng.below(fields.len() + 1), segment);
    }
    let mut bytes = Vec::new();
    for field in fields {
        match field.content {
            Some(content) if field.number == 2 => put_part(&mut bytes, 2, assignment[content].to_vec(), rng),
            _ => bytes.extend(&assignment[field.bytes]),
        }
    }
    bytes.extend(broken.into_iter().flat_map(|field| &assignment[field.bytes]));
    Some(bytes)
}

/// Lists written down, each in some orders, as update and response, unregistered and registered.
pub fn directed(tally: &mut Tally, seed: u64) {
    let bad_range = Part::new("a/b/c", 1, 9, 8, Vec::new());
    let bad_name = Part::new("a/b/d", 2, 0, 1, Vec::new());
    let lists = [
        list(3, &[(7, 0, 1), (0, 2, 3), (9, 4, 5), (8, 6, 7)]),
        list(3, &[(5, 0, 1), (6, 2, 3), (5, 4, 5), (7, 0, 0)]),
        Assignment { epoch: 3, parts: vec![bad_range, bad_name] },
    ];
    for registered in [false, true] {
        let mut s = Script::open(tally, seed, 8 * SLOT, TOPIC);
        if registered {
            s.response(&list(2, &[(7, 0, 1), (1, 0, 1)]));
        }
        for list in &lists {
            let update = list.update(CONSUMER, Style::Plain, &mut s.rng);
            let response = list.response(1, Style::Plain, &mut s.rng);
            for _ in 0..6 {
                s.ask_in_two_orders(&Ask::Update { message: update.clone(), incarnation: 1, room: ROOM });
                s.ask_in_two_orders(&Ask::Response { message: response.clone(), incarnation: 1 });
                if !registered {
                    s.invalidate();
                }
            }
        }
    }
}
