//! Pass hours and terms: contracts, and which seconds they leave open.
//!
//! A second is counted from 2000-01-01 00:00 UTC, a Saturday. It is open if some term and some weekly window hold it.

use crate::call;
use crate::error::AssignmentError;
use crate::raw;

/// The seconds of a week; weeks start on Saturday 00:00 UTC.
pub const WEEK: u64 = 604_800;

/// The most terms of a contract.
pub const MAX_TERMS: usize = 64;

/// The most weekly windows of a contract.
pub const MAX_WINDOWS: usize = 28;

/// Bytes before the terms of a packed contract, and of a term or window.
const HEAD: usize = 4;
const SPAN: usize = 16;

/// The bytes of a packed contract.
#[must_use]
pub const fn contract_len(terms: usize, windows: usize) -> usize {
    HEAD + SPAN * (terms + windows)
}

/// A term, in seconds since 2000-01-01 00:00 UTC, or a weekly window, in seconds of the week: the start is inside, the
/// end is outside.
#[derive(Debug, Clone, Copy, PartialEq, Eq)]
pub struct Span {
    /// The first second inside.
    pub start: u64,
    /// The first second behind. A window's is [`WEEK`] at most.
    pub end: u64,
}

/// A packed contract. Whether it is well formed is tested by each call.
#[derive(Debug, Clone, Copy, PartialEq, Eq)]
pub struct Contract<'a>(&'a [u8]);

impl<'a> Contract<'a> {
    /// A contract that is packed already.
    #[must_use]
    pub const fn from_bytes(bytes: &'a [u8]) -> Self {
        Self(bytes)
    }

    /// Packs terms and windows to the front of `out`, in any order; they may overlap.
    ///
    /// # Errors
    ///
    /// [`AssignmentError::InvalidContract`] above [`MAX_TERMS`] or [`MAX_WINDOWS`], [`AssignmentError::ResultTooLong`]
    /// where `out` is shorter than [`contract_len`] says.
    pub fn pack(terms: &[Span], windows: &[Span], out: &'a mut [u8]) -> Result<Self, AssignmentError<'static>> {
        if terms.len() > MAX_TERMS || windows.len() > MAX_WINDOWS {
            return Err(AssignmentError::InvalidContract);
        }
        let length = contract_len(terms.len(), windows.len());
        let Some(out) = out.get_mut(..length) else {
            return Err(AssignmentError::ResultTooLong);
        };
        let (head, rest) = out.split_at_mut(HEAD);
        // Both counts are below 256.
        head.copy_from_slice(&[0, terms.len() as u8, 0, windows.len() as u8]);
        for (span, bytes) in terms.iter().chain(windows).zip(rest.chunks_exact_mut(SPAN)) {
            let (start, end) = bytes.split_at_mut(SPAN / 2);
            start.copy_from_slice(&span.start.to_be_bytes());
            end.copy_from_slice(&span.end.to_be_bytes());
        }
        Ok(Self(out))
    }

    /// The packed bytes.
    #[must_use]
    pub const fn as_bytes(&self) -> &'a [u8] {
        self.0
    }
}

/// Whether a second is open by the contract.
///
/// # Errors
///
/// [`AssignmentError::InvalidContract`] (35).
pub fn is_open(contract: Contract<'_>, second: u64) -> Result<bool, AssignmentError<'static>> {
    let reply = call::is_open(contract.0, second);
    match reply.answer {
        raw::YES => Ok(true),
        raw::NO => Ok(false),
        _ => Err(AssignmentError::from_reply(reply, "")),
    }
}

/// The earliest open second not before the one given. `None` where no second from there on is open.
///
/// # Errors
///
/// [`AssignmentError::InvalidContract`] (35).
pub fn earliest_open(contract: Contract<'_>, second: u64) -> Result<Option<u64>, AssignmentError<'static>> {
    let reply = call::earliest_open(contract.0, second);
    match reply.answer {
        raw::FOUND => Ok(Some(reply.first)),
        raw::NO => Ok(None),
        _ => Err(AssignmentError::from_reply(reply, "")),
    }
}
