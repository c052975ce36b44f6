//! The topics watch: the lent set, what an update makes of it, and what is written to the output.
use super::messages::{self, Event};
use super::sheet::Taker;
use crate::raw::{self, Reply};
use crate::reply::{refused, taken, word};
use std::collections::BTreeSet;
use std::ops::Range;

pub type Topics<'a> = BTreeSet<&'a [u8]>;

/// What a call should give: the new set and the output, each written from the first byte.
#[derive(Clone)]
pub struct Prediction {
    pub reply: Reply,
    pub set: Vec<u8>,
    pub out: Vec<u8>,
}

/// The topics of the set of `used` bytes at the buffer's front; none where it is malformed.
pub fn topics(buffer: &[u8], used: usize) -> Option<Topics<'_>> {
    let mut rest = buffer.get(..used)?;
    let mut topics = Topics::new();
    while !rest.is_empty() {
        let length = usize::from(Taker(rest).short()?);
        let topic = rest.get(2..2 + length)?;
        let rises = topics.last().is_none_or(|last| *last < topic);
        if !rises || std::str::from_utf8(topic).is_err() {
            return None;
        }
        topics.insert(topic);
        rest = &rest[2 + length..];
    }
    Some(topics)
}

/// Topics packed as in a set; each has at most 65,535 bytes.
pub fn packed(topics: &Topics) -> Vec<u8> {
    let mut packed = Vec::new();
    for topic in topics {
        packed.extend((topic.len() as u16).to_be_bytes());
        packed.extend(*topic);
    }
    packed
}

pub fn watch(watch_id: u64, buffer: &[u8], used: usize, message: &[u8], room: usize) -> Prediction {
    let none = |reply| Prediction { reply, set: Vec::new(), out: Vec::new() };
    watched(watch_id, buffer, used, message, room).unwrap_or_else(none)
}

fn watched(watch_id: u64, buffer: &[u8], used: usize, message: &[u8], room: usize) -> Result<Prediction, Reply> {
    let before = topics(buffer, used).ok_or_else(|| refused(30, &[]))?;
    let update = messages::watch(message).map_err(|number| refused(number, &[]))?;
    if update.watch_id != watch_id {
        return Err(refused(29, &[update.watch_id, watch_id]));
    }
    let Some(event) = update.event else {
        return Err(update.error.map_or_else(|| refused(17, &[update.watch_id]), |code| refused(16, &[word(code)])));
    };
    let text = |part: &Range<usize>| &message[part.clone()];
    if named(&event).any(|part| part.len() > 65_535) {
        return Err(refused(31, &[]));
    }
    let (after, out) = match &event {
        Event::Snapshot(named) => snapshot(named.iter().map(text).collect()),
        Event::Diff { added, removed } => diff(&before, added.iter().map(text).collect(), removed.iter().map(text).collect()),
    };
    let set = packed(&after);
    if set.len() > buffer.len() {
        return Err(refused(31, &[]));
    }
    if out.len() > room {
        return Err(refused(21, &[]));
    }
    Ok(Prediction { reply: taken(raw::WRITTEN, &[set.len() as u64, out.len() as u64]), set, out })
}

fn named(event: &Event) -> impl Iterator<Item = &Range<usize>> {
    let (first, second): (&[_], &[_]) = match event {
        Event::Snapshot(topics) => (topics, &[]),
        Event::Diff { added, removed } => (added, removed),
    };
    first.iter().chain(second)
}

fn snapshot(topics: Topics) -> (Topics, Vec<u8>) {
    let out = [vec![0], packed(&topics)].concat();
    (topics, out)
}

/// Removes, then adds.
fn diff<'a>(before: &Topics<'a>, added: Topics<'a>, removed: Topics<'a>) -> (Topics<'a>, Vec<u8>) {
    let left: Topics = before.difference(&removed).copied().collect();
    let gone: Topics = before.intersection(&removed).copied().collect();
    let come: Topics = added.difference(&left).copied().collect();
    let come_packed = packed(&come);
    let out = [vec![1], (come_packed.len() as u32).to_be_bytes().to_vec(), come_packed, packed(&gone)].concat();
    (left.union(&come).copied().collect(), out)
}
