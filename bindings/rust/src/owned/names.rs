//! Names of segments as texts of their own.

use alloc::string::String;
use alloc::vec;

use crate::SEGMENT_TOPIC_EXTRA;
use crate::error::SegmentTopicError;
use crate::types::{KeyRange, SegmentId};

/// A segment's name, checked: `segment://`, the parent's path, then range and id.
#[derive(Debug, Clone, PartialEq, Eq, Hash, PartialOrd, Ord)]
pub struct SegmentSource {
    segment_id: SegmentId,
    topic: String,
    key_range: KeyRange,
}

impl SegmentSource {
    /// Checks that `topic` is the name of segment `segment_id`.
    ///
    /// # Errors
    ///
    /// As [`SegmentSource::new`](crate::SegmentSource::new) over a lent text.
    pub fn new(segment_id: SegmentId, topic: impl Into<String>) -> Result<Self, SegmentTopicError> {
        let topic = topic.into();
        let key_range = crate::SegmentSource::new(segment_id, &topic)?.key_range();
        Ok(Self { segment_id, topic, key_range })
    }

    /// The name that a session's list has of a segment, which was checked there.
    pub(super) fn of_list(segment_id: SegmentId, key_range: KeyRange, topic: String) -> Self {
        Self { segment_id, topic, key_range }
    }

    /// The segment's id.
    #[must_use]
    pub const fn segment_id(&self) -> SegmentId {
        self.segment_id
    }

    /// The name itself.
    #[must_use]
    pub fn topic(&self) -> &str {
        &self.topic
    }

    /// The range in the name.
    #[must_use]
    pub const fn key_range(&self) -> KeyRange {
        self.key_range
    }

    /// The `topic://` that the segment belongs to.
    #[must_use]
    pub fn parent_topic(&self) -> String {
        // The name was checked, and a parent is shorter than its segment's name.
        let mut out = vec![0; self.topic.len()];
        crate::parent_topic(&self.topic, &mut out).map(String::from).unwrap_or_default()
    }
}

impl crate::SegmentSource<'_> {
    /// The same with a text of its own.
    #[must_use]
    pub fn into_owned(self) -> SegmentSource {
        SegmentSource::of_list(self.segment_id(), self.key_range(), self.topic().into())
    }
}

/// The name of a segment.
///
/// # Errors
///
/// [`SegmentTopicError::InvalidParent`] (12).
pub fn canonical_segment_topic(
    parent: &str,
    key_range: KeyRange,
    segment_id: SegmentId,
) -> Result<String, SegmentTopicError> {
    let mut out = vec![0; parent.len() + SEGMENT_TOPIC_EXTRA];
    crate::canonical_segment_topic(parent, key_range, segment_id, &mut out).map(String::from)
}
