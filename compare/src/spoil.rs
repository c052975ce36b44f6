//! One wrong bit in what one call gave, for the self-test. Nothing is spoiled unless `arm` asked for it.
use crate::raw::{Part, READERS, Record, Reply};
use crate::tally::Call;
use std::cell::Cell;

#[derive(Clone, Copy, Debug, PartialEq, Eq)]
pub enum Place {
    Answer,
    Number,
    Count,
    /// One of the four values.
    Value(usize),
    /// One of the record's fields; from `POSITIONS` on, one of its drain positions.
    State(usize),
    /// Of the lent slices one: its first byte, its middle, its last.
    Lent(usize, usize),
    /// Of the lent slices one: this byte.
    Byte(usize, usize),
    TextStart,
    TextLength,
    Kind,
}

/// The first of the record's drain positions among its fields, and how many fields there are.
pub const POSITIONS: usize = 7;
pub const FIELDS: usize = POSITIONS + READERS;

thread_local! {
    static ARMED: Cell<Option<(Call, Place)>> = const { Cell::new(None) };
    /// A bit for each call that was made since `forget`.
    static MADE: Cell<u64> = const { Cell::new(0) };
    static JUDGE: Cell<Judge> = const { Cell::new(Judge::All) };
}

/// Whose word on a call is reported.
#[derive(Clone, Copy, Debug, PartialEq, Eq)]
pub enum Judge {
    All,
    Model,
    Rust,
    /// The call that has the same message with its segments in another order.
    Order,
}

/// Leaves the judgement of calls to this one.
pub fn leave_to(judge: Judge) {
    JUDGE.set(judge);
}

/// Whether this one's word is reported.
pub fn listens_to(judge: Judge) -> bool {
    JUDGE.get() == Judge::All || JUDGE.get() == judge
}

/// What is reported of what the model and the Rust find wrong.
pub fn reported([model, rust]: [Option<String>; 2]) -> Option<String> {
    model.filter(|_| listens_to(Judge::Model)).or(rust.filter(|_| listens_to(Judge::Rust)))
}

/// Forgets which calls were made.
pub fn forget() {
    MADE.set(0);
}

/// Whether this call was made since then.
pub fn was_made(call: Call) -> bool {
    MADE.get() >> call as u32 & 1 == 1
}

/// The next call of this kind where the place exists is spoiled there.
pub fn arm(call: Call, place: Place) {
    ARMED.set(Some((call, place)));
}

/// Whether what `arm` asked for is still to come.
pub fn armed() -> bool {
    ARMED.get().is_some()
}

/// Takes back what `arm` asked for.
pub fn disarm() {
    ARMED.set(None);
}

fn waiting(call: Call) -> Option<Place> {
    MADE.set(MADE.get() | 1 << call as u32);
    ARMED.get().filter(|(armed, _)| *armed == call).map(|(_, place)| place)
}

pub fn spoil_reply(call: Call, reply: &mut Reply) {
    let Some(place) = waiting(call) else { return };
    match place {
        Place::Answer => reply.answer ^= 1,
        Place::Number => reply.number ^= 1,
        Place::Count => reply.count ^= 1,
        Place::Value(k) => *[&mut reply.first, &mut reply.second, &mut reply.third, &mut reply.fourth][k] ^= 1,
        _ => return,
    }
    ARMED.set(None);
}

pub fn spoil_state(call: Call, state: &mut Record) {
    let Some(Place::State(k)) = waiting(call) else { return };
    match k {
        0 => state.consumer_id ^= 1,
        1 => state.incarnation ^= 1,
        2 => state.epoch_floor ^= 1,
        3 => state.queue_count ^= 1,
        4 => state.has_floor ^= 1,
        5 => state.registered ^= 1,
        6 => state.invalidated ^= 1,
        _ => state.drain_positions[k - POSITIONS] ^= 1,
    }
    ARMED.set(None);
}

pub fn spoil_lent(call: Call, lent: &mut [&mut [u8]]) {
    let (which, place) = match waiting(call) {
        Some(Place::Lent(which, part)) => (which, lent[which].len().saturating_sub(1) * part / 2),
        Some(Place::Byte(which, place)) => (which, place),
        _ => return,
    };
    if let Some(byte) = lent[which].get_mut(place) {
        *byte ^= 1;
        ARMED.set(None);
    }
}

/// Only where the text is not the same after it: where an empty text stands is free.
pub fn spoil_part(call: Call, part: &mut Part, message: &[u8]) {
    let Some(place) = waiting(call) else { return };
    let text = |part: &Part| message.get(part.start..part.start + part.length);
    let mut wrong = *part;
    match place {
        Place::TextStart => wrong.start ^= 1,
        Place::TextLength => wrong.length ^= 1,
        _ => return,
    }
    if text(part) != text(&wrong) {
        *part = wrong;
        ARMED.set(None);
    }
}

pub fn spoil_number(call: Call, number: &mut i32) {
    if waiting(call) == Some(Place::Kind) {
        *number ^= 1;
        ARMED.set(None);
    }
}
