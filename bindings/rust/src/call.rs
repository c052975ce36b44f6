//! The exported functions over slices. Every unsafe block of the crate stands here.
//!
//! What the functions ask of a caller is little (docs/EXPORTS.md): a slice's pointer is not null and good for its length, a record's is one to
//! a record, and what is written overlaps nothing else. Rust's references give all: a reference is never null, not even that of an empty slice,
//! and `&mut` is exclusive. Every number and every byte is allowed; no pointer is kept behind the call, and nothing but what is lent is written.

use crate::raw::{self, Part, Record, Reply, SessionReply};

/// Asks the linker for the archive's function of this crate's version.
#[used]
static VERSION: unsafe extern "C" fn() -> u32 = raw::cuddrewyn_abi;

/// The three texts and the kind that a session is registered with.
#[derive(Clone, Copy)]
pub(crate) struct Identity<'a> {
    pub topic: &'a str,
    pub subscription: &'a str,
    pub consumer_name: &'a str,
    pub kind: i32,
}

pub(crate) fn open(consumer_id: u64, incarnation: u64, identity: Identity<'_>, store: &mut [u8]) -> SessionReply {
    let Identity { topic, subscription, consumer_name, kind } = identity;
    // SAFETY: four slices as pointer and length of live references; `store`, the only one written, is exclusive.
    unsafe {
        raw::cuddrewyn_open(
            consumer_id,
            incarnation,
            topic.as_ptr(),
            topic.len(),
            subscription.as_ptr(),
            subscription.len(),
            consumer_name.as_ptr(),
            consumer_name.len(),
            kind,
            store.as_mut_ptr(),
            store.len(),
        )
    }
}

pub(crate) fn begin(record: &mut Record, incarnation: u64) -> Reply {
    // SAFETY: a live reference to a record, which is exclusive; any numbers are allowed.
    unsafe { raw::cuddrewyn_begin(record, incarnation) }
}

pub(crate) fn invalidate(record: &mut Record) -> Reply {
    // SAFETY: a live reference to a record, which is exclusive; any numbers are allowed.
    unsafe { raw::cuddrewyn_invalidate(record) }
}

pub(crate) fn update(record: &mut Record, store: &mut [u8], message: &[u8], incarnation: u64, out: &mut [u8]) -> Reply {
    // SAFETY: a record and three slices of live references; `record`, `store` and `out`, which are written, are exclusive.
    unsafe {
        raw::cuddrewyn_update(
            record,
            store.as_mut_ptr(),
            store.len(),
            message.as_ptr(),
            message.len(),
            incarnation,
            out.as_mut_ptr(),
            out.len(),
        )
    }
}

pub(crate) fn response(record: &mut Record, store: &mut [u8], message: &[u8], incarnation: u64) -> Reply {
    // SAFETY: a record and two slices of live references; `record` and `store`, which are written, are exclusive.
    unsafe {
        raw::cuddrewyn_response(record, store.as_mut_ptr(), store.len(), message.as_ptr(), message.len(), incarnation)
    }
}

pub(crate) fn drain_for(record: &mut Record, store: &[u8], reader: usize, out: &mut [u8]) -> Reply {
    // SAFETY: a record and two slices of live references; `record` and `out`, which are written, are exclusive.
    unsafe { raw::cuddrewyn_drain_for(record, store.as_ptr(), store.len(), reader, out.as_mut_ptr(), out.len()) }
}

pub(crate) fn check(record: Record, store: &[u8]) -> Reply {
    // SAFETY: a slice as pointer and length of a live reference; it is not written.
    unsafe { raw::cuddrewyn_check(record, store.as_ptr(), store.len()) }
}

pub(crate) fn save(record: Record, store: &[u8], out: &mut [u8]) -> Reply {
    // SAFETY: two slices as pointer and length of live references; `out`, the only one written, is exclusive.
    unsafe { raw::cuddrewyn_save(record, store.as_ptr(), store.len(), out.as_mut_ptr(), out.len()) }
}

pub(crate) fn restore(bytes: &[u8], store: &mut [u8]) -> SessionReply {
    // SAFETY: two slices as pointer and length of live references; `store`, the only one written, is exclusive.
    unsafe { raw::cuddrewyn_restore(bytes.as_ptr(), bytes.len(), store.as_mut_ptr(), store.len()) }
}

pub(crate) fn matches_registration(store: &[u8], identity: Identity<'_>) -> Reply {
    let Identity { topic, subscription, consumer_name, kind } = identity;
    // SAFETY: four slices as pointer and length of live references; none is written.
    unsafe {
        raw::cuddrewyn_matches_registration(
            store.as_ptr(),
            store.len(),
            topic.as_ptr(),
            topic.len(),
            subscription.as_ptr(),
            subscription.len(),
            consumer_name.as_ptr(),
            consumer_name.len(),
            kind,
        )
    }
}

pub(crate) fn response_text(message: &[u8]) -> Part {
    // SAFETY: one slice as pointer and length of a live reference; it is not written.
    unsafe { raw::cuddrewyn_response_text(message.as_ptr(), message.len()) }
}

pub(crate) fn command(bytes: &[u8]) -> Reply {
    // SAFETY: one slice as pointer and length of a live reference; it is not written.
    unsafe { raw::cuddrewyn_command(bytes.as_ptr(), bytes.len()) }
}

pub(crate) fn apply(assignment: &[u8], delta: &[u8], out: &mut [u8]) -> Reply {
    // SAFETY: three slices as pointer and length of live references; `out`, the only one written, is exclusive.
    unsafe {
        raw::cuddrewyn_apply(
            assignment.as_ptr(),
            assignment.len(),
            delta.as_ptr(),
            delta.len(),
            out.as_mut_ptr(),
            out.len(),
        )
    }
}

pub(crate) fn join(d: &[u8], e: &[u8], out: &mut [u8]) -> Reply {
    // SAFETY: three slices as pointer and length of live references; `out`, the only one written, is exclusive.
    unsafe { raw::cuddrewyn_join(d.as_ptr(), d.len(), e.as_ptr(), e.len(), out.as_mut_ptr(), out.len()) }
}

pub(crate) fn to_pb(assignment: &[u8], parent: &str, out: &mut [u8]) -> Reply {
    // SAFETY: three slices as pointer and length of live references; `out`, the only one written, is exclusive.
    unsafe {
        raw::cuddrewyn_to_pb(
            assignment.as_ptr(),
            assignment.len(),
            parent.as_ptr(),
            parent.len(),
            out.as_mut_ptr(),
            out.len(),
        )
    }
}

pub(crate) fn segment_for_key(key: &[u8], assignment: &[u8]) -> Reply {
    // SAFETY: two slices as pointer and length of live references; none is written.
    unsafe { raw::cuddrewyn_segment_for_key(key.as_ptr(), key.len(), assignment.as_ptr(), assignment.len()) }
}

pub(crate) fn key_for_hash(hash: u32) -> Reply {
    // SAFETY: a number alone.
    unsafe { raw::cuddrewyn_key_for_hash(hash) }
}

pub(crate) fn key_in_segment(assignment: &[u8], segment_id: u64) -> Reply {
    // SAFETY: a slice as pointer and length of a live reference; it is not written.
    unsafe { raw::cuddrewyn_key_in_segment(assignment.as_ptr(), assignment.len(), segment_id) }
}

pub(crate) fn charge(segment: &[u8], seconds: u64, rate: u64, remainder: u64) -> Reply {
    // SAFETY: a slice as pointer and length of a live reference; it is not written.
    unsafe { raw::cuddrewyn_charge(segment.as_ptr(), segment.len(), seconds, rate, remainder) }
}

pub(crate) fn churn_push(window: &mut [u8], count: u64) -> Reply {
    // SAFETY: a slice as pointer and length of a live reference, which is exclusive.
    unsafe { raw::cuddrewyn_churn_push(window.as_mut_ptr(), window.len(), count) }
}

pub(crate) fn churn_clear(window: &mut [u8]) -> Reply {
    // SAFETY: a slice as pointer and length of a live reference, which is exclusive.
    unsafe { raw::cuddrewyn_churn_clear(window.as_mut_ptr(), window.len()) }
}

pub(crate) fn churn_current(window: &[u8]) -> Reply {
    // SAFETY: a slice as pointer and length of a live reference; it is not written.
    unsafe { raw::cuddrewyn_churn_current(window.as_ptr(), window.len()) }
}

pub(crate) fn is_open(contract: &[u8], second: u64) -> Reply {
    // SAFETY: a slice as pointer and length of a live reference; it is not written.
    unsafe { raw::cuddrewyn_is_open(contract.as_ptr(), contract.len(), second) }
}

pub(crate) fn earliest_open(contract: &[u8], second: u64) -> Reply {
    // SAFETY: a slice as pointer and length of a live reference; it is not written.
    unsafe { raw::cuddrewyn_earliest_open(contract.as_ptr(), contract.len(), second) }
}

pub(crate) fn check_log(deltas: &[u8], log: &[u8]) -> Reply {
    // SAFETY: two slices as pointer and length of live references; none is written.
    unsafe { raw::cuddrewyn_check_log(deltas.as_ptr(), deltas.len(), log.as_ptr(), log.len()) }
}

pub(crate) fn segment_topic(parent: &str, start: u32, end: u32, segment_id: u64, out: &mut [u8]) -> Reply {
    // SAFETY: two slices as pointer and length of live references; `out`, the only one written, is exclusive.
    unsafe {
        raw::cuddrewyn_segment_topic(parent.as_ptr(), parent.len(), start, end, segment_id, out.as_mut_ptr(), out.len())
    }
}

pub(crate) fn segment_source(segment_id: u64, topic: &str) -> Reply {
    // SAFETY: one slice as pointer and length of a live reference; it is not written.
    unsafe { raw::cuddrewyn_segment_source(segment_id, topic.as_ptr(), topic.len()) }
}

pub(crate) fn parent_topic(topic: &str, out: &mut [u8]) -> Reply {
    // SAFETY: two slices as pointer and length of live references; `out`, the only one written, is exclusive.
    unsafe { raw::cuddrewyn_parent_topic(topic.as_ptr(), topic.len(), out.as_mut_ptr(), out.len()) }
}

pub(crate) fn range_len(start: u32, end: u32) -> Reply {
    // SAFETY: numbers alone; any are allowed.
    unsafe { raw::cuddrewyn_range_len(start, end) }
}

pub(crate) fn range_contains(start: u32, end: u32, hash: u32) -> Reply {
    // SAFETY: numbers alone; any are allowed.
    unsafe { raw::cuddrewyn_range_contains(start, end, hash) }
}

pub(crate) fn range_contains_range(start: u32, end: u32, other_start: u32, other_end: u32) -> Reply {
    // SAFETY: numbers alone; any are allowed.
    unsafe { raw::cuddrewyn_range_contains_range(start, end, other_start, other_end) }
}

pub(crate) fn range_is_adjacent_to(start: u32, end: u32, other_start: u32, other_end: u32) -> Reply {
    // SAFETY: numbers alone; any are allowed.
    unsafe { raw::cuddrewyn_range_is_adjacent_to(start, end, other_start, other_end) }
}

pub(crate) fn consumer_type(value: i32) -> i32 {
    // SAFETY: a number alone; any is allowed.
    unsafe { raw::cuddrewyn_consumer_type(value) }
}

#[cfg(feature = "watch")]
pub(crate) fn watch(watch_id: u64, buffer: &mut [u8], used: usize, message: &[u8], out: &mut [u8]) -> Reply {
    // SAFETY: three slices as pointer and length of live references; `buffer` and `out`, which are written, are exclusive.
    unsafe {
        raw::cuddrewyn_watch(
            watch_id,
            buffer.as_mut_ptr(),
            buffer.len(),
            used,
            message.as_ptr(),
            message.len(),
            out.as_mut_ptr(),
            out.len(),
        )
    }
}

#[cfg(feature = "watch")]
pub(crate) fn watch_text(message: &[u8]) -> Part {
    // SAFETY: one slice as pointer and length of a live reference; it is not written.
    unsafe { raw::cuddrewyn_watch_text(message.as_ptr(), message.len()) }
}
