//! Calls on packed lists and deltas.

use crate::call;
use crate::error::AssignmentError;
use crate::raw::{self, Reply};
use crate::types::SegmentId;
use crate::views::{AssignmentDelta, ConsumerAssignment, front, known};

/// The list that `delta` makes of `assignment`: strikes what is lost, writes what is gained over it, takes the delta's epoch.
/// An `out` of [`SLOT`](crate::SLOT) bytes always suffices.
///
/// # Errors
///
/// [`AssignmentError::AssignmentTooLong`] (15), then [`AssignmentError::ResultTooLong`] (21); `out` is then as it was.
pub fn apply<'o>(
    assignment: ConsumerAssignment<'_>,
    delta: AssignmentDelta<'_>,
    out: &'o mut [u8],
) -> Result<ConsumerAssignment<'o>, AssignmentError<'static>> {
    let reply = call::apply(assignment.as_bytes(), delta.as_bytes(), out);
    known(ConsumerAssignment::at_front(written(reply, out)?), reply)
}

/// The delta with the effect of `first`, then `second`. An `out` as long as both together always suffices.
///
/// # Errors
///
/// [`AssignmentError::ResultTooLong`] (21), also where it would lose or gain more than 65,535; `out` is then as it was.
pub fn join<'o>(
    first: AssignmentDelta<'_>,
    second: AssignmentDelta<'_>,
    out: &'o mut [u8],
) -> Result<AssignmentDelta<'o>, AssignmentError<'static>> {
    let reply = call::join(first.as_bytes(), second.as_bytes(), out);
    known(AssignmentDelta::whole(written(reply, out)?), reply)
}

/// Writes a list as the message `ScalableConsumerAssignment`, fields rising, where `parent` is the topic that the session registered.
/// An `out` of [`to_pb_room`](ConsumerAssignment::to_pb_room) bytes always suffices.
///
/// # Errors
///
/// [`AssignmentError::BucketOutsideSegment`] (34), so that what is written can be read; where the list has a segment,
/// [`AssignmentError::SegmentTopic`] (12) for a bad parent; then [`AssignmentError::ResultTooLong`] (21). `out` is then as it was.
pub fn to_pb<'o>(
    assignment: ConsumerAssignment<'_>,
    parent: &str,
    out: &'o mut [u8],
) -> Result<&'o [u8], AssignmentError<'static>> {
    let reply = call::to_pb(assignment.as_bytes(), parent, out);
    written(reply, out)
}

/// The segment that takes a key, by the low 16 bits of the key's MurmurHash3_x86_32 with seed 0: the lowest id whose range
/// has the hash and which has no buckets or a bucket that has it; `None` where no segment does. A key may be any bytes.
///
/// # Errors
///
/// [`AssignmentError::KeyTooLong`] (32) above [`LONGEST_KEY`](crate::LONGEST_KEY).
pub fn segment_for_key(
    assignment: ConsumerAssignment<'_>,
    key: &[u8],
) -> Result<Option<SegmentId>, AssignmentError<'static>> {
    let reply = call::segment_for_key(key, assignment.as_bytes());
    match reply.answer {
        raw::FOUND => Ok(Some(SegmentId(reply.first))),
        raw::NO => Ok(None),
        _ => Err(AssignmentError::from_reply(reply, "")),
    }
}

/// The four-byte key that has a hash, all 32 bits of its MurmurHash3_x86_32 with seed 0. There is always one, and no
/// other.
#[must_use]
pub fn key_for_hash(hash: u32) -> [u8; 4] {
    key(&call::key_for_hash(hash))
}

/// A four-byte key that falls in a segment: of the hashes that the segment takes it has the smallest, with upper 16
/// bits 0. `None` where the id is not in the list, or where the segment has buckets and none meets its range.
/// [`segment_for_key`] finds the segment by it, or one with a lower id that takes the same hash.
///
/// # Errors
///
/// None that this version of the archive gives: what a [`ConsumerAssignment`] holds is well formed.
pub fn key_in_segment(
    assignment: ConsumerAssignment<'_>,
    segment_id: SegmentId,
) -> Result<Option<[u8; 4]>, AssignmentError<'static>> {
    let reply = call::key_in_segment(assignment.as_bytes(), segment_id.0);
    match reply.answer {
        raw::FOUND => Ok(Some(key(&reply))),
        raw::NO => Ok(None),
        _ => Err(AssignmentError::from_reply(reply, "")),
    }
}

/// The bytes of a key, a value each.
fn key(reply: &Reply) -> [u8; 4] {
    [reply.first, reply.second, reply.third, reply.fourth].map(|value| value.to_le_bytes()[0])
}

/// What a call wrote to the front of its output.
fn written(reply: Reply, out: &[u8]) -> Result<&[u8], AssignmentError<'static>> {
    if reply.answer != raw::WRITTEN {
        return Err(AssignmentError::from_reply(reply, ""));
    }
    known(front(out, reply.first), reply)
}
