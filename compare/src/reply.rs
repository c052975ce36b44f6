//! Replies made by hand: what an answer should be, in the numbers of the exported library.
use crate::raw::{self, Reply};

// OURS: the refusals of docs/refusals.txt that the Rust does not have
include!(concat!(env!("OUT_DIR"), "/ours.rs"));

fn with(answer: u8, number: u8, values: &[u64]) -> Reply {
    let at = |k: usize| values.get(k).copied().unwrap_or(0);
    Reply { answer, number, count: values.len() as u8, first: at(0), second: at(1), third: at(2), fourth: at(3) }
}

/// A refusal with its attached numbers.
pub fn refused(number: u8, values: &[u64]) -> Reply {
    with(raw::REFUSED, number, values)
}

/// Any other answer with its values.
pub fn taken(answer: u8, values: &[u64]) -> Reply {
    with(answer, 0, values)
}

/// A number of the wire that may be negative, as a word.
pub fn word(value: i32) -> u64 {
    i64::from(value) as u64
}

/// How many pushes the Rust's queue takes, which its 28 tells.
const QUEUE_MOST: u64 = 1024;

/// Whether it is the 28 of a push that does not fit: it tells a max below 1,024.
pub fn is_no_room(reply: &Reply) -> bool {
    reply.answer == raw::REFUSED && reply.number == 28 && reply.first < QUEUE_MOST
}

/// Whether a refusal is one that the Rust does not know: such a call is not fed to it.
pub fn is_ours(reply: &Reply) -> bool {
    is_no_room(reply) || (reply.answer == raw::REFUSED && OURS.contains(&reply.number))
}

/// An answer in words; values beyond its count only where they are not 0.
pub fn show(reply: &Reply) -> String {
    let named = ["refused", "accepted", "unchanged", "delta", "replay", "written", "yes", "no", "found"];
    let answer = named.get(usize::from(reply.answer)).map_or_else(|| format!("answer {}", reply.answer), ToString::to_string);
    let number = if reply.number == 0 { String::new() } else { format!(" {}", reply.number) };
    let values = [reply.first, reply.second, reply.third, reply.fourth];
    match values.split_at_checked(usize::from(reply.count)) {
        Some((values, [])) => format!("{answer}{number} {values:?}"),
        Some((values, rest)) if rest.iter().all(|value| *value == 0) => format!("{answer}{number} {values:?}"),
        _ => format!("{answer}{number}, {} values of {values:?}", reply.count),
    }
}
