//! Charging for held segments.

use crate::call;
use crate::error::AssignmentError;
use crate::raw;

/// The divisor of charges: 65,536 values times 3,600 seconds.
pub const DIVISOR: u64 = 235_929_600;

/// What a holding costs.
#[derive(Debug, Clone, Copy, Default, PartialEq, Eq)]
pub struct Charge {
    /// In millionths of a euro, rounded down.
    pub charge: u64,
    /// What the segment's next holding is to be lent, below [`DIVISOR`].
    pub remainder: u64,
}

/// What a holding of a segment costs: the values that it holds, times whole seconds, times the rate in millionths of a
/// euro per full key space and hour, plus the remainder of the segment's last charge, divided by [`DIVISOR`]. The
/// first holding is lent the remainder 0.
///
/// `segment` is one record, packed as in a list, of any bucket count. It holds the values of its range, or of its
/// buckets where it has some. Over any holdings of one segment the charges of those not refused add up to their exact
/// total, rounded down.
///
/// # Errors
///
/// [`AssignmentError::MalformedInput`] (20) for a record that is none, then [`AssignmentError::ChargeTooLarge`] (36).
/// The old remainder then stays.
pub fn charge(segment: &[u8], seconds: u64, rate: u64, remainder: u64) -> Result<Charge, AssignmentError<'static>> {
    let reply = call::charge(segment, seconds, rate, remainder);
    match reply.answer {
        raw::FOUND => Ok(Charge { charge: reply.first, remainder: reply.second }),
        _ => Err(AssignmentError::from_reply(reply, "")),
    }
}
