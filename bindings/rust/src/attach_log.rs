//! Attach logs from customers' uploaders.

use crate::call;
use crate::error::AssignmentError;
use crate::raw;
use crate::types::SegmentId;

/// One entry of an uploader's log.
#[derive(Debug, Clone, Copy, PartialEq, Eq, Hash)]
pub enum Entry {
    /// The segment was detached.
    Detach(SegmentId),
    /// The segment was attached.
    Attach(SegmentId),
}

impl Entry {
    /// The bytes of an entry.
    pub const LEN: usize = 9;

    /// The entry as it stands in a log: one bit (0 detach, 1 attach), the id in 64 bits, seven zero bits.
    #[must_use]
    pub fn to_bytes(self) -> [u8; Self::LEN] {
        let (attach, SegmentId(id)) = match self {
            Self::Detach(id) => (0, id),
            Self::Attach(id) => (1, id),
        };
        let bits = (attach << 71) | (u128::from(id) << 7);
        let mut bytes = [0; Self::LEN];
        bytes.copy_from_slice(&bits.to_be_bytes()[7..]);
        bytes
    }
}

/// Whether an uploader's log is what the deltas ask for: delta after delta each lost id detached once in any order,
/// then each gained id attached once in any order, and nothing more. An empty delta has no entries.
///
/// `deltas` are packed one behind another; none are no bytes. The check is linear where each delta's entries stand in
/// the order of its ids; else it is quadratic in the count of one delta.
///
/// # Errors
///
/// [`AssignmentError::MalformedInput`] (20) for deltas, then [`AssignmentError::InvalidLog`] (37): the length of the
/// log is no multiple of 9, or a filling bit is set.
pub fn check_log(deltas: &[u8], log: &[u8]) -> Result<bool, AssignmentError<'static>> {
    let reply = call::check_log(deltas, log);
    match reply.answer {
        raw::YES => Ok(true),
        raw::NO => Ok(false),
        _ => Err(AssignmentError::from_reply(reply, "")),
    }
}
