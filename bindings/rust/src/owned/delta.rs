//! Deltas and replays with names.

use alloc::vec::Vec;

use crate::error::SegmentTopicError;
use crate::owned::list::{count, same};
use crate::owned::{AssignedSegment, ConsumerAssignment};
use crate::types::SegmentId;

/// What changed from one list to the next: detach from `lost`, then attach to `gained`. A segment that was altered is in both.
#[derive(Debug, Clone, PartialEq, Eq)]
pub struct AssignmentDelta {
    /// The epoch of the list behind the change.
    pub layout_epoch: u64,
    /// The segments that are held newly, or as they are since they were altered, by rising id.
    pub gained: Vec<AssignedSegment>,
    /// The ids of segments that are held no more, or were altered, rising.
    pub lost: Vec<SegmentId>,
}

impl AssignmentDelta {
    /// True where there is nothing to attach to or detach from.
    #[must_use]
    pub fn is_empty(&self) -> bool {
        self.gained.is_empty() && self.lost.is_empty()
    }

    /// The packed bytes. [`AssignmentDelta::from_bytes`](crate::AssignmentDelta::from_bytes) gives the view of them, for the calls on packed
    /// deltas; it is refused (20) where the fields were changed so that they are no delta.
    #[must_use]
    pub fn to_bytes(&self) -> Vec<u8> {
        let mut bytes = self.layout_epoch.to_be_bytes().to_vec();
        bytes.extend(count(self.lost.len()));
        bytes.extend(count(self.gained.len()));
        bytes.extend(self.lost.iter().flat_map(|id| id.0.to_be_bytes()));
        self.gained.iter().for_each(|segment| segment.pack(&mut bytes));
        bytes
    }
}

impl crate::AssignmentDelta<'_> {
    /// The same with its own segments and their names, where `parent` is the topic that the session registered.
    ///
    /// # Errors
    ///
    /// [`SegmentTopicError::InvalidParent`] (12), where a segment is gained.
    pub fn into_owned(self, parent: &str) -> Result<AssignmentDelta, SegmentTopicError> {
        let gained = self.gained().map(|segment| segment.into_owned(parent)).collect::<Result<_, _>>()?;
        Ok(AssignmentDelta { layout_epoch: self.layout_epoch(), gained, lost: self.lost().collect() })
    }
}

/// Whether epoch, segments and ids are the same; a view has no names.
impl PartialEq<crate::AssignmentDelta<'_>> for AssignmentDelta {
    fn eq(&self, other: &crate::AssignmentDelta<'_>) -> bool {
        self.layout_epoch == other.layout_epoch()
            && same(&self.gained, other.gained())
            && other.lost().eq(self.lost.iter().copied())
    }
}

/// One queued push that changed the list, handed out after the response.
#[derive(Debug, Clone, PartialEq, Eq)]
pub struct AssignmentReplay {
    /// The list after the push.
    pub assignment: ConsumerAssignment,
    /// What the push changed of the list before it.
    pub delta: AssignmentDelta,
}

impl crate::AssignmentReplay<'_> {
    /// The same with its own list and delta, where `parent` is the topic that the session registered.
    ///
    /// # Errors
    ///
    /// [`SegmentTopicError::InvalidParent`] (12), where a segment is held or gained.
    pub fn into_owned(self, parent: &str) -> Result<AssignmentReplay, SegmentTopicError> {
        Ok(AssignmentReplay { assignment: self.assignment.into_owned(parent)?, delta: self.delta.into_owned(parent)? })
    }
}
