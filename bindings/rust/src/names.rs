//! Names of segments: built from parent, range and id, and read back.

use crate::call;
use crate::error::SegmentTopicError;
use crate::raw::{self, Reply};
use crate::types::{KeyRange, SegmentId};
use crate::views::front;

/// A segment's name, checked: `segment://`, the parent's path, then range and id.
#[derive(Debug, Clone, Copy, PartialEq, Eq, Hash, PartialOrd, Ord)]
pub struct SegmentSource<'t> {
    segment_id: SegmentId,
    topic: &'t str,
    key_range: KeyRange,
}

impl<'t> SegmentSource<'t> {
    /// Checks that `topic` is the name of segment `segment_id`.
    ///
    /// # Errors
    ///
    /// [`SegmentTopicError::InvalidSegment`] without prefix or slash, `InvalidParent`, `InvalidSegment` for the rest, `InvalidRange`,
    /// then `SegmentIdMismatch`.
    pub fn new(segment_id: SegmentId, topic: &'t str) -> Result<Self, SegmentTopicError> {
        let reply = call::segment_source(segment_id.0, topic);
        if reply.answer != raw::FOUND {
            return Err(SegmentTopicError::from_reply(reply));
        }
        let key_range = KeyRange::new(reply.first as u32, reply.second as u32)?;
        Ok(Self { segment_id, topic, key_range })
    }

    /// The segment's id.
    #[must_use]
    pub const fn segment_id(&self) -> SegmentId {
        self.segment_id
    }

    /// The name itself.
    #[must_use]
    pub const fn topic(&self) -> &'t str {
        self.topic
    }

    /// The range in the name.
    #[must_use]
    pub const fn key_range(&self) -> KeyRange {
        self.key_range
    }

    /// Writes the `topic://` that the segment belongs to. Lend as many bytes as the name has.
    ///
    /// # Errors
    ///
    /// [`SegmentTopicError::ResultTooLong`]; `out` is then as it was.
    pub fn parent_topic<'o>(&self, out: &'o mut [u8]) -> Result<&'o str, SegmentTopicError> {
        parent_topic(self.topic, out)
    }
}

/// Writes the name of a segment. Lend `parent.len() + 33` bytes.
///
/// # Errors
///
/// [`SegmentTopicError::InvalidParent`], then [`SegmentTopicError::ResultTooLong`]; `out` is then as it was.
pub fn canonical_segment_topic<'o>(
    parent: &str,
    key_range: KeyRange,
    segment_id: SegmentId,
    out: &'o mut [u8],
) -> Result<&'o str, SegmentTopicError> {
    let reply = call::segment_topic(parent, key_range.start(), key_range.end(), segment_id.0, out);
    written(reply, out)
}

/// Writes the `topic://` that a segment's name belongs to. Lend `topic.len()` bytes.
///
/// # Errors
///
/// Those of [`SegmentSource::new`] without `SegmentIdMismatch`, then [`SegmentTopicError::ResultTooLong`]; `out` is then as it was.
pub fn parent_topic<'o>(topic: &str, out: &'o mut [u8]) -> Result<&'o str, SegmentTopicError> {
    let reply = call::parent_topic(topic, out);
    written(reply, out)
}

/// The text that a call wrote to the front of its output.
fn written(reply: Reply, out: &[u8]) -> Result<&str, SegmentTopicError> {
    if reply.answer != raw::WRITTEN {
        return Err(SegmentTopicError::from_reply(reply));
    }
    let text = front(out, reply.first).and_then(|bytes| core::str::from_utf8(bytes).ok());
    text.ok_or(SegmentTopicError::Unknown(reply))
}
