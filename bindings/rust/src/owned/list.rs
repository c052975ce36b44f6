//! Lists of segments with their names.

use alloc::string::String;
use alloc::vec;
use alloc::vec::Vec;

use crate::error::SegmentTopicError;
use crate::owned::{AssignmentError, SegmentSource, canonical_segment_topic};
use crate::types::{KeyRange, SegmentId};
use crate::views::Segments;

/// One segment that the consumer holds: id, range, the buckets it holds of it, and the name to attach to.
#[derive(Debug, Clone, PartialEq, Eq)]
pub struct AssignedSegment {
    segment_id: SegmentId,
    key_range: KeyRange,
    bucket_ranges: Vec<KeyRange>,
    segment_topic: String,
}

impl AssignedSegment {
    /// The segment's id.
    #[must_use]
    pub const fn segment_id(&self) -> SegmentId {
        self.segment_id
    }

    /// The range of keys that the segment serves.
    #[must_use]
    pub const fn key_range(&self) -> KeyRange {
        self.key_range
    }

    /// The bucket ranges held, in the order of the wire. None at all: the whole segment is held.
    #[must_use]
    pub fn bucket_ranges(&self) -> &[KeyRange] {
        &self.bucket_ranges
    }

    /// The `segment://` topic to attach to.
    #[must_use]
    pub fn segment_topic(&self) -> &str {
        &self.segment_topic
    }

    /// The identity that goes with messages of this segment.
    #[must_use]
    pub fn source(&self) -> SegmentSource {
        SegmentSource::of_list(self.segment_id, self.key_range, self.segment_topic.clone())
    }

    /// Puts the segment's record behind `bytes`.
    pub(super) fn pack(&self, bytes: &mut Vec<u8>) {
        bytes.extend(self.segment_id.0.to_be_bytes());
        pack_range(self.key_range, bytes);
        bytes.extend(count(self.bucket_ranges.len()));
        for range in &self.bucket_ranges {
            pack_range(*range, bytes);
        }
    }
}

/// Both ends, which are at most 65,535, in 2 bytes each.
fn pack_range(range: KeyRange, bytes: &mut Vec<u8>) {
    for end in [range.start(), range.end()] {
        bytes.extend(&end.to_be_bytes()[2..]);
    }
}

/// A count in 2 bytes. One that is larger has no packed form: what is packed with it does not read back.
pub(super) fn count(length: usize) -> [u8; 2] {
    u16::try_from(length).unwrap_or(u16::MAX).to_be_bytes()
}

impl crate::AssignedSegment<'_> {
    /// The same with its own buckets and its name, where `parent` is the topic that the session registered.
    ///
    /// # Errors
    ///
    /// [`SegmentTopicError::InvalidParent`] (12).
    pub fn into_owned(self, parent: &str) -> Result<AssignedSegment, SegmentTopicError> {
        let (segment_id, key_range) = (self.segment_id(), self.key_range());
        let segment_topic = canonical_segment_topic(parent, key_range, segment_id)?;
        Ok(AssignedSegment { segment_id, key_range, bucket_ranges: self.bucket_ranges().collect(), segment_topic })
    }
}

/// Whether both are the same segment with the same buckets; a view has no name.
impl PartialEq<crate::AssignedSegment<'_>> for AssignedSegment {
    fn eq(&self, other: &crate::AssignedSegment<'_>) -> bool {
        (self.segment_id, self.key_range) == (other.segment_id(), other.key_range())
            && other.bucket_ranges().eq(self.bucket_ranges.iter().copied())
    }
}

/// Whether a row of segments and a view's are the same.
pub(super) fn same(segments: &[AssignedSegment], views: Segments<'_>) -> bool {
    segments.len() == views.len() && segments.iter().zip(views).all(|(segment, view)| *segment == view)
}

/// The segments that a consumer holds, with the epoch of the layout they belong to.
#[derive(Debug, Clone, PartialEq, Eq, Default)]
pub struct ConsumerAssignment {
    layout_epoch: u64,
    segments: Vec<AssignedSegment>,
}

impl ConsumerAssignment {
    /// The epoch of the layout that the list belongs to.
    #[must_use]
    pub const fn layout_epoch(&self) -> u64 {
        self.layout_epoch
    }

    /// The segments, by rising id.
    #[must_use]
    pub fn segments(&self) -> &[AssignedSegment] {
        &self.segments
    }

    /// The `segment://` topics of the list, by rising segment id.
    #[must_use]
    pub fn segment_topics(&self) -> Vec<&str> {
        self.segments.iter().map(AssignedSegment::segment_topic).collect()
    }

    /// The packed bytes. [`ConsumerAssignment::from_bytes`](crate::ConsumerAssignment::from_bytes) gives the view of them, for the calls on
    /// packed lists.
    #[must_use]
    pub fn to_bytes(&self) -> Vec<u8> {
        let mut bytes = self.layout_epoch.to_be_bytes().to_vec();
        bytes.extend(count(self.segments.len()));
        self.segments.iter().for_each(|segment| segment.pack(&mut bytes));
        bytes
    }

    /// The list as the message `ScalableConsumerAssignment`; see [`to_pb`](crate::to_pb).
    ///
    /// # Errors
    ///
    /// [`AssignmentError::BucketOutsideSegment`] (34), which no list of a session gives.
    pub fn to_pb(&self) -> Result<Vec<u8>, AssignmentError> {
        let parent = self.segments.first().map(|segment| segment.source().parent_topic()).unwrap_or_default();
        let bytes = self.to_bytes();
        let view = crate::ConsumerAssignment::from_bytes(&bytes)?;
        let mut out = vec![0; view.to_pb_room(&parent)];
        let length = view.to_pb(&parent, &mut out)?.len();
        out.truncate(length);
        Ok(out)
    }

    /// The list of `view`. Names are taken from the list before it, where a segment is the same as there.
    pub(super) fn after(self, view: crate::ConsumerAssignment<'_>, parent: &str) -> Result<Self, SegmentTopicError> {
        let mut before = self.segments.into_iter().peekable();
        let segments = view.segments().map(|segment| {
            while before.next_if(|kept| kept.segment_id < segment.segment_id()).is_some() {}
            before.next_if(|kept| *kept == segment).map_or_else(|| segment.into_owned(parent), Ok)
        });
        Ok(Self { segments: segments.collect::<Result<_, _>>()?, layout_epoch: view.layout_epoch() })
    }
}

impl crate::ConsumerAssignment<'_> {
    /// The same with its own segments and their names, where `parent` is the topic that the session registered.
    ///
    /// # Errors
    ///
    /// [`SegmentTopicError::InvalidParent`] (12), where the list has a segment.
    pub fn into_owned(self, parent: &str) -> Result<ConsumerAssignment, SegmentTopicError> {
        ConsumerAssignment::default().after(self, parent)
    }
}

/// Whether epoch and segments are the same; a view has no names.
impl PartialEq<crate::ConsumerAssignment<'_>> for ConsumerAssignment {
    fn eq(&self, other: &crate::ConsumerAssignment<'_>) -> bool {
        self.layout_epoch == other.layout_epoch() && same(&self.segments, other.segments())
    }
}
