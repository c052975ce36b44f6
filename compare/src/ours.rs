//! The exported functions behind slices. What a call only reads is lent for writing all the same, so that the self-test can spoil it.
use crate::model::identity::Texts;
use crate::raw::{self, Part, Record, Reply, SessionReply};
use crate::spoil::{spoil_lent, spoil_number, spoil_part, spoil_reply, spoil_state};
use crate::tally::Call;

fn spoiled(call: Call, mut given: SessionReply, lent: &mut [&mut [u8]]) -> SessionReply {
    spoil_state(call, &mut given.state);
    given.reply = spoiled_reply(call, given.reply, lent);
    given
}

fn spoiled_reply(call: Call, mut reply: Reply, lent: &mut [&mut [u8]]) -> Reply {
    spoil_reply(call, &mut reply);
    spoil_lent(call, lent);
    reply
}

/// The identity's three texts as they are lent: pointer and length of each.
macro_rules! texts {
    ($texts:expr, $call:expr) => {{
        let [topic, subscription, name] = &$texts.texts;
        $call(topic.as_ptr(), topic.len(), subscription.as_ptr(), subscription.len(), name.as_ptr(), name.len())
    }};
}

pub fn open(consumer_id: u64, incarnation: u64, texts: &Texts, store: &mut [u8]) -> SessionReply {
    let (at, length) = (store.as_mut_ptr(), store.len());
    let given = texts!(texts, |a, b, c, d, e, f| unsafe { raw::cuddrewyn_open(consumer_id, incarnation, a, b, c, d, e, f, texts.kind, at, length) });
    spoiled(Call::Open, given, &mut [store])
}

pub fn matches(texts: &Texts, store: &mut [u8]) -> Reply {
    let (at, length) = (store.as_ptr(), store.len());
    let reply = texts!(texts, |a, b, c, d, e, f| unsafe { raw::cuddrewyn_matches_registration(at, length, a, b, c, d, e, f, texts.kind) });
    spoiled_reply(Call::Matches, reply, &mut [store])
}

/// A call to which a copy of the record is lent, and what it leaves there.
fn lent(mut state: Record, call: impl FnOnce(&mut Record) -> Reply) -> SessionReply {
    let reply = call(&mut state);
    SessionReply { state, reply }
}

pub fn begin(record: Record, incarnation: u64) -> SessionReply {
    spoiled(Call::Begin, lent(record, |record| unsafe { raw::cuddrewyn_begin(record, incarnation) }), &mut [])
}

pub fn invalidate(record: Record) -> SessionReply {
    spoiled(Call::Invalidate, lent(record, |record| unsafe { raw::cuddrewyn_invalidate(record) }), &mut [])
}

pub fn update(record: Record, store: &mut [u8], message: &mut [u8], incarnation: u64, out: &mut [u8]) -> SessionReply {
    let given = lent(record, |record| unsafe {
        raw::cuddrewyn_update(record, store.as_mut_ptr(), store.len(), message.as_ptr(), message.len(), incarnation, out.as_mut_ptr(), out.len())
    });
    spoiled(Call::Update, given, &mut [store, message, out])
}

pub fn response(record: Record, store: &mut [u8], message: &mut [u8], incarnation: u64) -> SessionReply {
    let given = lent(record, |record| unsafe {
        raw::cuddrewyn_response(record, store.as_mut_ptr(), store.len(), message.as_ptr(), message.len(), incarnation)
    });
    spoiled(Call::Response, given, &mut [store, message])
}

pub fn drain(record: Record, store: &mut [u8], reader: usize, out: &mut [u8]) -> SessionReply {
    let given = lent(record, |record| unsafe { raw::cuddrewyn_drain_for(record, store.as_ptr(), store.len(), reader, out.as_mut_ptr(), out.len()) });
    spoiled(Call::Drain, given, &mut [store, out])
}

pub fn check(record: Record, store: &mut [u8]) -> Reply {
    let reply = unsafe { raw::cuddrewyn_check(record, store.as_ptr(), store.len()) };
    spoiled_reply(Call::Check, reply, &mut [store])
}

pub fn response_text(message: &mut [u8]) -> Part {
    let mut part = unsafe { raw::cuddrewyn_response_text(message.as_ptr(), message.len()) };
    spoil_part(Call::ResponseText, &mut part, message);
    part
}

/// A call over two inputs and an output.
type Merge = unsafe extern "C" fn(*const u8, usize, *const u8, usize, *mut u8, usize) -> Reply;

fn merge(call: Call, function: Merge, first: &mut [u8], second: &mut [u8], out: &mut [u8]) -> Reply {
    let reply = unsafe { function(first.as_ptr(), first.len(), second.as_ptr(), second.len(), out.as_mut_ptr(), out.len()) };
    spoiled_reply(call, reply, &mut [first, second, out])
}

pub fn apply(sheet: &mut [u8], delta: &mut [u8], out: &mut [u8]) -> Reply {
    merge(Call::Apply, raw::cuddrewyn_apply, sheet, delta, out)
}

pub fn join(first: &mut [u8], second: &mut [u8], out: &mut [u8]) -> Reply {
    merge(Call::Join, raw::cuddrewyn_join, first, second, out)
}

pub fn to_pb(sheet: &mut [u8], parent: &mut [u8], out: &mut [u8]) -> Reply {
    merge(Call::ToPb, raw::cuddrewyn_to_pb, sheet, parent, out)
}

pub fn command(bytes: &mut [u8]) -> Reply {
    let reply = unsafe { raw::cuddrewyn_command(bytes.as_ptr(), bytes.len()) };
    spoiled_reply(Call::Command, reply, &mut [bytes])
}

pub fn segment_for_key(key: &mut [u8], sheet: &mut [u8]) -> Reply {
    let reply = unsafe { raw::cuddrewyn_segment_for_key(key.as_ptr(), key.len(), sheet.as_ptr(), sheet.len()) };
    spoiled_reply(Call::SegmentForKey, reply, &mut [key, sheet])
}

pub fn key_for_hash(hash: u32) -> Reply {
    spoiled_reply(Call::KeyForHash, unsafe { raw::cuddrewyn_key_for_hash(hash) }, &mut [])
}

pub fn key_in_segment(sheet: &mut [u8], id: u64) -> Reply {
    let reply = unsafe { raw::cuddrewyn_key_in_segment(sheet.as_ptr(), sheet.len(), id) };
    spoiled_reply(Call::KeyInSegment, reply, &mut [sheet])
}

pub fn charge(segment: &mut [u8], seconds: u64, rate: u64, remainder: u64) -> Reply {
    let reply = unsafe { raw::cuddrewyn_charge(segment.as_ptr(), segment.len(), seconds, rate, remainder) };
    spoiled_reply(Call::Charge, reply, &mut [segment])
}

pub fn churn_push(window: &mut [u8], count: u64) -> Reply {
    let reply = unsafe { raw::cuddrewyn_churn_push(window.as_mut_ptr(), window.len(), count) };
    spoiled_reply(Call::ChurnPush, reply, &mut [window])
}

pub fn churn_clear(window: &mut [u8]) -> Reply {
    let reply = unsafe { raw::cuddrewyn_churn_clear(window.as_mut_ptr(), window.len()) };
    spoiled_reply(Call::ChurnClear, reply, &mut [window])
}

pub fn churn_current(window: &mut [u8]) -> Reply {
    let reply = unsafe { raw::cuddrewyn_churn_current(window.as_ptr(), window.len()) };
    spoiled_reply(Call::ChurnCurrent, reply, &mut [window])
}

pub fn is_open(contract: &mut [u8], second: u64) -> Reply {
    let reply = unsafe { raw::cuddrewyn_is_open(contract.as_ptr(), contract.len(), second) };
    spoiled_reply(Call::IsOpen, reply, &mut [contract])
}

pub fn earliest_open(contract: &mut [u8], second: u64) -> Reply {
    let reply = unsafe { raw::cuddrewyn_earliest_open(contract.as_ptr(), contract.len(), second) };
    spoiled_reply(Call::EarliestOpen, reply, &mut [contract])
}

pub fn check_log(deltas: &mut [u8], log: &mut [u8]) -> Reply {
    let reply = unsafe { raw::cuddrewyn_check_log(deltas.as_ptr(), deltas.len(), log.as_ptr(), log.len()) };
    spoiled_reply(Call::CheckLog, reply, &mut [deltas, log])
}

pub fn segment_topic(parent: &mut [u8], range: (u32, u32), id: u64, out: &mut [u8]) -> Reply {
    let reply = unsafe { raw::cuddrewyn_segment_topic(parent.as_ptr(), parent.len(), range.0, range.1, id, out.as_mut_ptr(), out.len()) };
    spoiled_reply(Call::SegmentTopic, reply, &mut [parent, out])
}

pub fn segment_source(id: u64, topic: &mut [u8]) -> Reply {
    let reply = unsafe { raw::cuddrewyn_segment_source(id, topic.as_ptr(), topic.len()) };
    spoiled_reply(Call::SegmentSource, reply, &mut [topic])
}

pub fn parent_topic(topic: &mut [u8], out: &mut [u8]) -> Reply {
    let reply = unsafe { raw::cuddrewyn_parent_topic(topic.as_ptr(), topic.len(), out.as_mut_ptr(), out.len()) };
    spoiled_reply(Call::ParentTopic, reply, &mut [topic, out])
}

pub fn range_len(range: (u32, u32)) -> Reply {
    spoiled_reply(Call::RangeLen, unsafe { raw::cuddrewyn_range_len(range.0, range.1) }, &mut [])
}

pub fn range_contains(range: (u32, u32), hash: u32) -> Reply {
    spoiled_reply(Call::RangeContains, unsafe { raw::cuddrewyn_range_contains(range.0, range.1, hash) }, &mut [])
}

pub fn range_contains_range(range: (u32, u32), other: (u32, u32)) -> Reply {
    let reply = unsafe { raw::cuddrewyn_range_contains_range(range.0, range.1, other.0, other.1) };
    spoiled_reply(Call::RangeContainsRange, reply, &mut [])
}

pub fn range_is_adjacent_to(range: (u32, u32), other: (u32, u32)) -> Reply {
    let reply = unsafe { raw::cuddrewyn_range_is_adjacent_to(range.0, range.1, other.0, other.1) };
    spoiled_reply(Call::RangeAdjacent, reply, &mut [])
}

pub fn consumer_type(value: i32) -> i32 {
    let mut kind = unsafe { raw::cuddrewyn_consumer_type(value) };
    spoil_number(Call::ConsumerType, &mut kind);
    kind
}

#[cfg(feature = "watch")]
pub fn watch(watch_id: u64, buffer: &mut [u8], used: usize, message: &mut [u8], out: &mut [u8]) -> Reply {
    let reply = unsafe {
        raw::cuddrewyn_watch(watch_id, buffer.as_mut_ptr(), buffer.len(), used, message.as_ptr(), message.len(), out.as_mut_ptr(), out.len())
    };
    spoiled_reply(Call::Watch, reply, &mut [buffer, message, out])
}

#[cfg(feature = "watch")]
pub fn watch_text(message: &mut [u8]) -> Part {
    let mut part = unsafe { raw::cuddrewyn_watch_text(message.as_ptr(), message.len()) };
    spoil_part(Call::WatchText, &mut part, message);
    part
}
