//! Packed lists and deltas, read where they stand: in a store's slot, or at the front of an output.
//!
//! Every read is bounds-checked. A view is made only of bytes that read whole, so its iterators give all that its counts promise.

use core::fmt;

use crate::call;
use crate::error::{AssignmentError, SegmentTopicError};
use crate::names::{SegmentSource, canonical_segment_topic};
use crate::raw::Reply;
use crate::types::{KeyRange, SegmentId};

/// A list of no segments at epoch 0.
const EMPTY_LIST: &[u8] = &[0; 10];

/// The delta that loses and gains nothing, at epoch 0.
const EMPTY_DELTA: &[u8] = &[0; 12];

/// Takes a number of 8 bytes, most significant first, off the front.
fn take_u64(bytes: &mut &[u8]) -> Option<u64> {
    let (head, rest) = bytes.split_first_chunk()?;
    *bytes = rest;
    Some(u64::from_be_bytes(*head))
}

/// Takes a number of 2 bytes, most significant first, off the front.
pub(crate) fn take_u16(bytes: &mut &[u8]) -> Option<u16> {
    let (head, rest) = bytes.split_first_chunk()?;
    *bytes = rest;
    Some(u16::from_be_bytes(*head))
}

/// Takes `length` bytes off the front.
pub(crate) fn take_part<'a>(bytes: &mut &'a [u8], length: usize) -> Option<&'a [u8]> {
    let (head, rest) = bytes.split_at_checked(length)?;
    *bytes = rest;
    Some(head)
}

/// Takes a range off the front; none where it is reversed.
fn take_range(bytes: &mut &[u8]) -> Option<KeyRange> {
    let start = take_u16(bytes)?;
    let end = take_u16(bytes)?;
    KeyRange::packed(start, end)
}

/// Takes a segment's record off the front.
fn take_segment<'a>(bytes: &mut &'a [u8]) -> Option<AssignedSegment<'a>> {
    let segment_id = SegmentId(take_u64(bytes)?);
    let key_range = take_range(bytes)?;
    let count = take_u16(bytes)?;
    let buckets = take_part(bytes, 4 * usize::from(count))?;
    let mut rest = buckets;
    for _ in 0..count {
        take_range(&mut rest)?;
    }
    Some(AssignedSegment { segment_id, key_range, buckets })
}

/// Takes `count` records off the front, as one part.
fn take_segments<'a>(bytes: &mut &'a [u8], count: u16) -> Option<&'a [u8]> {
    let mut rest = *bytes;
    for _ in 0..count {
        take_segment(&mut rest)?;
    }
    take_part(bytes, bytes.len() - rest.len())
}

/// One segment that the consumer holds: id, range, and the buckets it holds of it.
///
/// The name to attach to is not kept: [`Self::segment_topic`] builds it from the parent topic.
#[derive(Clone, Copy, PartialEq, Eq)]
pub struct AssignedSegment<'a> {
    segment_id: SegmentId,
    key_range: KeyRange,
    buckets: &'a [u8],
}

impl<'a> AssignedSegment<'a> {
    /// The segment's id.
    #[must_use]
    pub const fn segment_id(&self) -> SegmentId {
        self.segment_id
    }

    /// The range of keys that the segment serves.
    #[must_use]
    pub const fn key_range(&self) -> KeyRange {
        self.key_range
    }

    /// The bucket ranges held, in the order of the wire. None at all: the whole segment is held.
    #[must_use]
    pub fn bucket_ranges(&self) -> BucketRanges<'a> {
        BucketRanges { rest: self.buckets }
    }

    /// Writes the `segment://` topic to attach to, where `parent` is the topic that the session registered. Lend `parent.len() + 33` bytes.
    ///
    /// # Errors
    ///
    /// As [`canonical_segment_topic`]; `out` is then as it was.
    pub fn segment_topic<'o>(&self, parent: &str, out: &'o mut [u8]) -> Result<&'o str, SegmentTopicError> {
        canonical_segment_topic(parent, self.key_range, self.segment_id, out)
    }

    /// The identity that goes with messages of this segment; its topic is written as by [`Self::segment_topic`].
    ///
    /// # Errors
    ///
    /// As [`canonical_segment_topic`]; `out` is then as it was.
    pub fn source<'o>(&self, parent: &str, out: &'o mut [u8]) -> Result<SegmentSource<'o>, SegmentTopicError> {
        let topic = self.segment_topic(parent, out)?;
        SegmentSource::new(self.segment_id, topic)
    }
}

impl fmt::Debug for AssignedSegment<'_> {
    fn fmt(&self, f: &mut fmt::Formatter<'_>) -> fmt::Result {
        f.debug_struct("AssignedSegment")
            .field("segment_id", &self.segment_id)
            .field("key_range", &self.key_range)
            .field("bucket_ranges", &self.bucket_ranges())
            .finish()
    }
}

/// The bucket ranges of a segment.
#[derive(Clone)]
pub struct BucketRanges<'a> {
    rest: &'a [u8],
}

impl Iterator for BucketRanges<'_> {
    type Item = KeyRange;

    fn next(&mut self) -> Option<KeyRange> {
        take_range(&mut self.rest)
    }

    fn size_hint(&self) -> (usize, Option<usize>) {
        let left = self.rest.len() / 4;
        (left, Some(left))
    }
}

impl ExactSizeIterator for BucketRanges<'_> {}

impl fmt::Debug for BucketRanges<'_> {
    fn fmt(&self, f: &mut fmt::Formatter<'_>) -> fmt::Result {
        f.debug_list().entries(self.clone()).finish()
    }
}

/// The segments of a list, or those that a delta gains, by rising id.
#[derive(Clone)]
pub struct Segments<'a> {
    rest: &'a [u8],
    left: u16,
}

impl<'a> Iterator for Segments<'a> {
    type Item = AssignedSegment<'a>;

    fn next(&mut self) -> Option<AssignedSegment<'a>> {
        self.left = self.left.checked_sub(1)?;
        take_segment(&mut self.rest)
    }

    fn size_hint(&self) -> (usize, Option<usize>) {
        (self.left.into(), Some(self.left.into()))
    }
}

impl ExactSizeIterator for Segments<'_> {}

impl fmt::Debug for Segments<'_> {
    fn fmt(&self, f: &mut fmt::Formatter<'_>) -> fmt::Result {
        f.debug_list().entries(self.clone()).finish()
    }
}

/// The ids that a delta loses, rising.
#[derive(Clone)]
pub struct Lost<'a> {
    rest: &'a [u8],
}

impl Iterator for Lost<'_> {
    type Item = SegmentId;

    fn next(&mut self) -> Option<SegmentId> {
        take_u64(&mut self.rest).map(SegmentId)
    }

    fn size_hint(&self) -> (usize, Option<usize>) {
        let left = self.rest.len() / 8;
        (left, Some(left))
    }
}

impl ExactSizeIterator for Lost<'_> {}

impl fmt::Debug for Lost<'_> {
    fn fmt(&self, f: &mut fmt::Formatter<'_>) -> fmt::Result {
        f.debug_list().entries(self.clone()).finish()
    }
}

/// The segments that a consumer holds, with the epoch of the layout they belong to: a packed list (01's sheet) of at most 2,048 bytes.
///
/// Two lists are equal where their packed bytes are: epoch, segments, and the order of each segment's buckets.
#[derive(Clone, Copy, PartialEq, Eq)]
pub struct ConsumerAssignment<'a> {
    bytes: &'a [u8],
}

impl<'a> ConsumerAssignment<'a> {
    /// The list that these bytes are, all of them, as [`Self::as_bytes`] gave them.
    ///
    /// # Errors
    ///
    /// [`AssignmentError::MalformedInput`] (20) where they are none. The proved library makes this test.
    pub fn from_bytes(bytes: &'a [u8]) -> Result<Self, AssignmentError<'static>> {
        // The writer tests the list before anything else, and no list fits an empty output.
        if call::to_pb(bytes, "", &mut []).number == 20 {
            return Err(AssignmentError::MalformedInput);
        }
        Self::at_front(bytes).ok_or(AssignmentError::MalformedInput)
    }

    /// The list at the front of a slot or an output that the library wrote.
    pub(crate) fn at_front(bytes: &'a [u8]) -> Option<Self> {
        let mut rest = bytes;
        take_u64(&mut rest)?;
        let count = take_u16(&mut rest)?;
        take_segments(&mut rest, count)?;
        let length = bytes.len() - rest.len();
        bytes.get(..length).map(|bytes| Self { bytes })
    }

    /// The packed bytes.
    #[must_use]
    pub const fn as_bytes(&self) -> &'a [u8] {
        self.bytes
    }

    /// The epoch of the layout that the list belongs to.
    #[must_use]
    pub fn layout_epoch(&self) -> u64 {
        take_u64(&mut { self.bytes }).unwrap_or_default()
    }

    /// The segments, by rising id.
    #[must_use]
    pub fn segments(&self) -> Segments<'a> {
        let mut rest = self.bytes;
        take_u64(&mut rest);
        let left = take_u16(&mut rest).unwrap_or_default();
        Segments { rest, left }
    }

    /// An output that [`to_pb`](crate::to_pb) always fits: 11 bytes, 64 and the parent's length for each segment, 10 for each bucket.
    #[must_use]
    pub fn to_pb_room(&self, parent: &str) -> usize {
        let segments = self.segments().len();
        let buckets = self.bytes.len().saturating_sub(10 + 14 * segments) / 4;
        segments.saturating_mul(64 + parent.len()).saturating_add(11 + 10 * buckets)
    }

    /// The list as the message `ScalableConsumerAssignment`; see [`to_pb`](crate::to_pb).
    ///
    /// # Errors
    ///
    /// As [`to_pb`](crate::to_pb).
    pub fn to_pb<'o>(&self, parent: &str, out: &'o mut [u8]) -> Result<&'o [u8], AssignmentError<'static>> {
        crate::to_pb(*self, parent, out)
    }

    /// The segment that takes a key; see [`segment_for_key`](crate::segment_for_key).
    ///
    /// # Errors
    ///
    /// As [`segment_for_key`](crate::segment_for_key).
    pub fn segment_for_key(&self, key: &[u8]) -> Result<Option<SegmentId>, AssignmentError<'static>> {
        crate::segment_for_key(*self, key)
    }

    /// A four-byte key that falls in a segment; see [`key_in_segment`](crate::key_in_segment).
    ///
    /// # Errors
    ///
    /// As [`key_in_segment`](crate::key_in_segment).
    pub fn key_in_segment(&self, segment_id: SegmentId) -> Result<Option<[u8; 4]>, AssignmentError<'static>> {
        crate::key_in_segment(*self, segment_id)
    }

    /// The `segment://` topics of the list, by rising segment id, where `parent` is the topic that the session registered.
    ///
    /// # Errors
    ///
    /// As [`canonical_segment_topic`].
    #[cfg(feature = "alloc")]
    pub fn segment_topics(&self, parent: &str) -> Result<alloc::vec::Vec<alloc::string::String>, SegmentTopicError> {
        let mut out = alloc::vec![0; parent.len() + crate::SEGMENT_TOPIC_EXTRA];
        self.segments().map(|segment| segment.segment_topic(parent, &mut out).map(Into::into)).collect()
    }
}

/// No segments, at epoch 0.
impl Default for ConsumerAssignment<'_> {
    fn default() -> Self {
        Self { bytes: EMPTY_LIST }
    }
}

impl fmt::Debug for ConsumerAssignment<'_> {
    fn fmt(&self, f: &mut fmt::Formatter<'_>) -> fmt::Result {
        f.debug_struct("ConsumerAssignment")
            .field("layout_epoch", &self.layout_epoch())
            .field("segments", &self.segments())
            .finish()
    }
}

/// What changed from one list to the next: detach from `lost`, then attach to `gained`. A segment that was altered is in both.
///
/// A newer epoch with the same segments is a delta with both empty. Packed, the delta of one change has at most 3,210 bytes.
#[derive(Clone, Copy, PartialEq, Eq)]
pub struct AssignmentDelta<'a> {
    bytes: &'a [u8],
}

impl<'a> AssignmentDelta<'a> {
    /// The delta that these bytes are, all of them, as [`Self::as_bytes`] gave them.
    ///
    /// # Errors
    ///
    /// [`AssignmentError::MalformedInput`] (20) where they are none. The proved library makes this test.
    pub fn from_bytes(bytes: &'a [u8]) -> Result<Self, AssignmentError<'static>> {
        // Join tests both deltas before anything else, and no delta fits an empty output.
        if call::join(bytes, EMPTY_DELTA, &mut []).number == 20 {
            return Err(AssignmentError::MalformedInput);
        }
        Self::whole(bytes).ok_or(AssignmentError::MalformedInput)
    }

    /// The delta that the library wrote as these bytes.
    pub(crate) fn whole(bytes: &'a [u8]) -> Option<Self> {
        let (_, mut gained, count) = Self { bytes }.parts()?;
        take_segments(&mut gained, count)?;
        gained.is_empty().then_some(Self { bytes })
    }

    /// The lost ids, what stands behind them, and how many records that is.
    fn parts(&self) -> Option<(&'a [u8], &'a [u8], u16)> {
        let mut rest = self.bytes;
        take_u64(&mut rest)?;
        let lost = take_u16(&mut rest)?;
        let gained = take_u16(&mut rest)?;
        let lost = take_part(&mut rest, 8 * usize::from(lost))?;
        Some((lost, rest, gained))
    }

    /// The packed bytes.
    #[must_use]
    pub const fn as_bytes(&self) -> &'a [u8] {
        self.bytes
    }

    /// The epoch of the list behind the change.
    #[must_use]
    pub fn layout_epoch(&self) -> u64 {
        take_u64(&mut { self.bytes }).unwrap_or_default()
    }

    /// The ids of segments that are held no more, or were altered.
    #[must_use]
    pub fn lost(&self) -> Lost<'a> {
        let (rest, _, _) = self.parts().unwrap_or_default();
        Lost { rest }
    }

    /// The segments that are held newly, or as they are since they were altered.
    #[must_use]
    pub fn gained(&self) -> Segments<'a> {
        let (_, rest, left) = self.parts().unwrap_or_default();
        Segments { rest, left }
    }

    /// True where there is nothing to attach to or detach from.
    #[must_use]
    pub fn is_empty(&self) -> bool {
        self.lost().len() == 0 && self.gained().len() == 0
    }
}

impl fmt::Debug for AssignmentDelta<'_> {
    fn fmt(&self, f: &mut fmt::Formatter<'_>) -> fmt::Result {
        f.debug_struct("AssignmentDelta")
            .field("layout_epoch", &self.layout_epoch())
            .field("gained", &self.gained())
            .field("lost", &self.lost())
            .finish()
    }
}

/// The front of an output, as long as a reply says; none where that is longer than the output.
pub(crate) fn front(out: &[u8], length: u64) -> Option<&[u8]> {
    out.get(..usize::try_from(length).ok()?)
}

/// The view of a result, or the reply as one that the crate does not know.
pub(crate) fn known<T>(view: Option<T>, reply: Reply) -> Result<T, AssignmentError<'static>> {
    view.ok_or(AssignmentError::Unknown(reply))
}
