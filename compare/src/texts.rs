//! The broker's text, handed back as a part of the message.
use crate::raw::{self, Part};
use crate::reply::taken;
use crate::spoil::reported;
use crate::tally::{Call, Tally, hex};

/// The part must lie inside the message; where the message reads, it is the text that the model read, and the Rust's where that gave one.
/// `lent` is the message behind the call, and before.
pub fn check(tally: &mut Tally, call: Call, part: Part, lent: (&[u8], &[u8]), read: Option<&[u8]>, broker: Option<String>) {
    tally.count(call, &taken(raw::FOUND, &[]), broker.is_some());
    let (now, message) = lent;
    let text = part.start.checked_add(part.length).and_then(|end| message.get(part.start..end));
    let good = text.is_some() && read.is_none_or(|read| text == Some(read)) && now == message;
    let good_by_rust = broker.is_none_or(|broker| text == Some(broker.as_bytes()));
    let wrong = (!good).then(|| format!("{part:?}, not the model's"));
    let wrong_by_rust = (!good_by_rust).then(|| format!("{part:?}, not the Rust's"));
    if let Some(what) = reported([wrong, wrong_by_rust]) {
        tally.differ(call, &what, || hex(message));
    }
}
