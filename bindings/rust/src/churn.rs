//! The window of lost counts: how restless a layout is.

use crate::call;
use crate::error::AssignmentError;
use crate::raw::{self, Reply};

/// The bytes of a window of lost counts.
pub const CHURN_WINDOW: usize = 514;

/// Sum and largest of the counts in a window; both are 0 when there are none.
#[derive(Clone, Copy, Debug, Default, PartialEq, Eq)]
pub struct ChurnTotals {
    /// The sum of the counts.
    pub sum: u64,
    /// The largest of them.
    pub largest: u64,
}

/// The lost counts of the latest 256 deltas. It stands beside a session: hand it the count of each delta and each replay, and
/// clear it after each accepted begin or invalidate.
///
/// ```
/// use cuddrewyn::*;
///
/// # fn main() -> Result<(), AssignmentError<'static>> {
/// let mut churn = Churn::new();
/// churn.push(3)?;
/// assert_eq!(churn.push(2)?, ChurnTotals { sum: 5, largest: 3 });
/// churn.clear();
/// assert_eq!(churn.current()?, ChurnTotals::default());
/// # Ok(())
/// # }
/// ```
#[derive(Clone, Debug, PartialEq, Eq)]
pub struct Churn {
    window: [u8; CHURN_WINDOW],
}

impl Churn {
    /// A window without counts.
    #[must_use]
    pub const fn new() -> Self {
        Self { window: [0; CHURN_WINDOW] }
    }

    /// The window that stands in some bytes, as [`as_bytes`](Self::as_bytes) gave them. Any may be given: where they are no
    /// window, [`push`](Self::push) and [`current`](Self::current) are refused until it is cleared.
    #[must_use]
    pub const fn from_bytes(window: [u8; CHURN_WINDOW]) -> Self {
        Self { window }
    }

    /// The window's bytes, to keep.
    #[must_use]
    pub const fn as_bytes(&self) -> &[u8; CHURN_WINDOW] {
        &self.window
    }

    /// The count of one delta more: sum and largest of the latest 256 with it.
    ///
    /// # Errors
    ///
    /// [`AssignmentError::InvalidWindow`] (38): the count is above 65,535, or the bytes are no window, which are then as they
    /// were.
    pub fn push(&mut self, count: u64) -> Result<ChurnTotals, AssignmentError<'static>> {
        totals(call::churn_push(&mut self.window, count))
    }

    /// No counts any more, whatever the bytes were.
    pub fn clear(&mut self) {
        call::churn_clear(&mut self.window);
    }

    /// Sum and largest as they stand.
    ///
    /// # Errors
    ///
    /// [`AssignmentError::InvalidWindow`] (38): the bytes are no window.
    pub fn current(&self) -> Result<ChurnTotals, AssignmentError<'static>> {
        totals(call::churn_current(&self.window))
    }
}

impl Default for Churn {
    fn default() -> Self {
        Self::new()
    }
}

fn totals(reply: Reply) -> Result<ChurnTotals, AssignmentError<'static>> {
    match reply.answer {
        raw::FOUND => Ok(ChurnTotals { sum: reply.first, largest: reply.second }),
        _ => Err(AssignmentError::from_reply(reply, "")),
    }
}
