//! The Rust: its refusals in 01's numbers, its lists in the packed forms, its readings of bytes.
use crate::model::delta::Delta;
use crate::model::messages::{self, WireAssignment, WireSegment};
use crate::model::names;
use crate::model::sheet::{Segment, Sheet};
use crate::pb;
use crate::raw::Reply;
use crate::reply::{refused, word};
use crate::scalable_consumer::{AssignedSegment, AssignmentDelta, AssignmentError, ConsumerAssignment, SegmentTopicError, canonical_segment_topic};
use crate::types::{KeyRange, KeyRangeError, SegmentId};

/// Whether a parent leaves the comparison by 02 h: its tenant or namespace has '?' or '#', and the Rust takes it. Any other text is compared.
pub fn left_out(parent: &str) -> bool {
    names::marked_in_front(parent) && canonical_segment_topic(parent, KeyRange::FULL, SegmentId(0)).is_ok()
}

/// The same of the parent of a name.
pub fn left_out_name(name: &str) -> bool {
    names::parent_of(name).is_some_and(|(parent, _)| left_out(&parent))
}

/// 9: the segment's id where there is one, the kind, the kind's own numbers.
pub fn range_refusal(id: Option<u64>, error: &KeyRangeError) -> Reply {
    let numbers = match error {
        KeyRangeError::StartOutOfBounds { start } => vec![1, u64::from(*start)],
        KeyRangeError::EndOutOfBounds { end } => vec![2, u64::from(*end)],
        KeyRangeError::Reversed { start, end } => vec![3, u64::from(*start), u64::from(*end)],
    };
    refused(9, &id.into_iter().chain(numbers).collect::<Vec<_>>())
}

pub fn name_refusal(error: &SegmentTopicError) -> Reply {
    match error {
        SegmentTopicError::InvalidParent { .. } => refused(12, &[]),
        SegmentTopicError::InvalidSegment { .. } => refused(18, &[]),
        SegmentTopicError::SegmentIdMismatch { segment_id, topic_id } => refused(19, &[segment_id.0, topic_id.0]),
        SegmentTopicError::InvalidRange(error) => range_refusal(None, error),
        SegmentTopicError::NonCanonical { .. } => unreachable!("nothing gives it"),
    }
}

pub fn refusal(error: &AssignmentError) -> Reply {
    match error {
        AssignmentError::InvalidRange { segment_id, source } => range_refusal(Some(segment_id.0), source),
        AssignmentError::InvalidBucketRange { segment_id, index, start, end } => {
            refused(10, &[segment_id.0, *index as u64, word(*start), word(*end)])
        }
        AssignmentError::OverlappingBucketRanges { segment_id } => refused(11, &[segment_id.0]),
        AssignmentError::SegmentTopic(error) => name_refusal(error),
        AssignmentError::AttachmentMismatch { segment_id, .. } => refused(13, &[segment_id.0]),
        AssignmentError::DuplicateSegment { segment_id } => refused(14, &[segment_id.0]),
        AssignmentError::Broker { code, .. } => refused(16, &[word(*code)]),
        AssignmentError::Empty { request_id } => refused(17, &[*request_id]),
        AssignmentError::IncarnationMismatch { got, expected } => refused(23, &[got.0, expected.0]),
        AssignmentError::ConsumerMismatch { got, expected } => refused(24, &[*got, *expected]),
        AssignmentError::NonAdvancingIncarnation { got, prev } => refused(25, &[got.0, prev.0]),
        AssignmentError::CrossIncarnationEpochRegression { got, floor } => refused(26, &[*got, *floor]),
        AssignmentError::StaleEpoch { got, prev } => refused(27, &[*got, *prev]),
        AssignmentError::PreBaselineBufferFull { max } => refused(28, &[*max as u64]),
        AssignmentError::RegistrationMismatch { .. } => unreachable!("nothing gives it"),
    }
}

#[cfg(feature = "watch")]
pub fn watch_refusal(error: &crate::scalable_consumer::TopicsWatchError) -> Reply {
    use crate::scalable_consumer::TopicsWatchError;
    match error {
        TopicsWatchError::WatchMismatch { got, expected } => refused(29, &[*got, *expected]),
        TopicsWatchError::Broker { code, .. } => refused(16, &[word(*code)]),
        TopicsWatchError::Empty { watch_id } => refused(17, &[*watch_id]),
    }
}

fn segment(segment: &AssignedSegment) -> Segment {
    let range = segment.key_range();
    let short = |value: u32| u16::try_from(value).expect("a value of the key space");
    Segment {
        id: segment.segment_id().0,
        start: short(range.start()),
        end: short(range.end()),
        buckets: segment.bucket_ranges().iter().map(|bucket| (short(bucket.start()), short(bucket.end()))).collect(),
    }
}

pub fn sheet(assignment: &ConsumerAssignment) -> Sheet {
    Sheet { epoch: assignment.layout_epoch(), segments: assignment.segments().iter().map(segment).collect() }
}

pub fn delta(delta: &AssignmentDelta) -> Delta {
    Delta { epoch: delta.layout_epoch, lost: delta.lost.iter().map(|id| id.0).collect(), gained: delta.gained.iter().map(segment).collect() }
}

fn segment_message(segment: &WireSegment) -> pb::ScalableAssignedSegment {
    pb::ScalableAssignedSegment {
        segment_id: segment.id,
        hash_start: segment.start,
        hash_end: segment.end,
        segment_topic: segment.topic.clone(),
        bucket_ranges: segment.buckets.iter().map(|(start, end)| pb::IntRange { start: *start, end: *end }).collect(),
    }
}

pub fn assignment_message(assignment: &WireAssignment) -> pb::ScalableConsumerAssignment {
    pb::ScalableConsumerAssignment { layout_epoch: assignment.epoch, segments: assignment.segments.iter().map(segment_message).collect() }
}

/// What the Rust makes of a message's assignment: its list, or 9 to 14.
pub fn intake(assignment: &WireAssignment, topic: &str) -> Result<Sheet, Reply> {
    ConsumerAssignment::try_from_pb(&assignment_message(assignment), topic).map(|list| sheet(&list)).map_err(|error| refusal(&error))
}

/// Whether prost reads these bytes as this value.
fn agreed<M: prost::Message + Default + PartialEq>(bytes: &[u8], expected: &M) -> Result<M, String> {
    let read = M::decode(bytes).map_err(|error| format!("prost refuses a message that the reader takes: {error}"))?;
    if read == *expected { Ok(read) } else { Err(format!("prost reads {read:?}, the reader {expected:?}")) }
}

/// An update as prost reads it, which must be what the model reads.
pub fn update(bytes: &[u8]) -> Result<pb::CommandScalableTopicAssignmentUpdate, String> {
    let read = messages::update(bytes).map_err(|number| format!("the model's reader refuses with {number}"))?;
    let assignment = assignment_message(&read.assignment);
    agreed(bytes, &pb::CommandScalableTopicAssignmentUpdate { consumer_id: read.consumer_id, assignment })
}

/// A response as prost reads it, which must be what the model reads.
pub fn response(bytes: &[u8]) -> Result<pb::CommandScalableTopicSubscribeResponse, String> {
    let read = messages::response(bytes).map_err(|number| format!("the model's reader refuses with {number}"))?;
    let expected = pb::CommandScalableTopicSubscribeResponse {
        request_id: read.request_id,
        error: read.error,
        message: read.text.map(|part| text(bytes, part)),
        assignment: read.assignment.as_ref().map(assignment_message),
    };
    agreed(bytes, &expected)
}

fn text(bytes: &[u8], part: std::ops::Range<usize>) -> String {
    String::from_utf8(bytes[part].to_vec()).expect("a text")
}

/// A watch update as prost reads it, which must be what the model reads.
#[cfg(feature = "watch")]
pub fn watch(bytes: &[u8]) -> Result<pb::CommandWatchScalableTopicsUpdate, String> {
    use pb::command_watch_scalable_topics_update::Event;
    let read = messages::watch(bytes).map_err(|number| format!("the model's reader refuses with {number}"))?;
    let texts = |parts: &[std::ops::Range<usize>]| parts.iter().map(|part| text(bytes, part.clone())).collect::<Vec<_>>();
    let event = read.event.map(|event| match event {
        messages::Event::Snapshot(topics) => Event::Snapshot(pb::ScalableTopicsSnapshot { topics: texts(&topics) }),
        messages::Event::Diff { added, removed } => Event::Diff(pb::ScalableTopicsDiff { added: texts(&added), removed: texts(&removed) }),
    });
    let message = read.text.map(|part| text(bytes, part));
    agreed(bytes, &pb::CommandWatchScalableTopicsUpdate { watch_id: read.watch_id, error: read.error, message, event })
}
