//! Refusals that own the broker's text: `'static`, and for any thread.

use alloc::string::String;

use crate::error::AssignmentErrorWith;
#[cfg(feature = "watch")]
use crate::watch::TopicsWatchErrorWith;

/// Why a call of a session, or of a list or delta, is refused; the broker's text is its own.
pub type AssignmentError = AssignmentErrorWith<String>;

/// Why an update of the watch is refused; the broker's text is its own.
#[cfg(feature = "watch")]
pub type TopicsWatchError = TopicsWatchErrorWith<String>;

impl crate::AssignmentError<'_> {
    /// The same with a text of its own, so that the message can go.
    #[must_use]
    pub fn into_owned(self) -> AssignmentError {
        match self {
            // tools/refusals.py writes: owned AssignmentError
            Self::StoreTooShort => AssignmentError::StoreTooShort,
            Self::OutputTooShort => AssignmentError::OutputTooShort,
            Self::InvalidWireFormat => AssignmentError::InvalidWireFormat,
            Self::WrongWireType => AssignmentError::WrongWireType,
            Self::MissingField => AssignmentError::MissingField,
            Self::InvalidUtf8 => AssignmentError::InvalidUtf8,
            Self::IdentityTooLong => AssignmentError::IdentityTooLong,
            Self::AssignmentTooLong => AssignmentError::AssignmentTooLong,
            Self::MalformedInput => AssignmentError::MalformedInput,
            Self::ResultTooLong => AssignmentError::ResultTooLong,
            Self::MalformedStore => AssignmentError::MalformedStore,
            Self::KeyTooLong => AssignmentError::KeyTooLong,
            Self::UnknownReader => AssignmentError::UnknownReader,
            Self::InvalidContract => AssignmentError::InvalidContract,
            Self::ChargeTooLarge => AssignmentError::ChargeTooLarge,
            Self::InvalidLog => AssignmentError::InvalidLog,
            Self::InvalidWindow => AssignmentError::InvalidWindow,
            Self::MalformedSave => AssignmentError::MalformedSave,
            // tools/refusals.py: end
            Self::Broker { code, message } => AssignmentError::Broker { code, message: message.into() },
            Self::Empty { request_id } => AssignmentError::Empty { request_id },
            Self::SegmentTopic(source) => AssignmentError::SegmentTopic(source),
            Self::Unknown(reply) => AssignmentError::Unknown(reply),
            Self::ConsumerMismatch { got, expected } => AssignmentError::ConsumerMismatch { got, expected },
            Self::StaleEpoch { got, prev } => AssignmentError::StaleEpoch { got, prev },
            Self::IncarnationMismatch { got, expected } => AssignmentError::IncarnationMismatch { got, expected },
            Self::NonAdvancingIncarnation { got, prev } => AssignmentError::NonAdvancingIncarnation { got, prev },
            Self::CrossIncarnationEpochRegression { got, floor } => {
                AssignmentError::CrossIncarnationEpochRegression { got, floor }
            }
            Self::PreBaselineBufferFull { max } => AssignmentError::PreBaselineBufferFull { max },
            Self::DuplicateSegment { segment_id } => AssignmentError::DuplicateSegment { segment_id },
            Self::InvalidRange { segment_id, source } => AssignmentError::InvalidRange { segment_id, source },
            Self::InvalidBucketRange { segment_id, index, start, end } => {
                AssignmentError::InvalidBucketRange { segment_id, index, start, end }
            }
            Self::OverlappingBucketRanges { segment_id } => AssignmentError::OverlappingBucketRanges { segment_id },
            Self::BucketOutsideSegment { segment_id, index } => AssignmentError::BucketOutsideSegment { segment_id, index },
            Self::AttachmentMismatch { segment_id } => AssignmentError::AttachmentMismatch { segment_id },
        }
    }
}

impl From<crate::AssignmentError<'_>> for AssignmentError {
    fn from(refusal: crate::AssignmentError<'_>) -> Self {
        refusal.into_owned()
    }
}

#[cfg(feature = "watch")]
impl crate::TopicsWatchError<'_> {
    /// The same with a text of its own, so that the message can go.
    #[must_use]
    pub fn into_owned(self) -> TopicsWatchError {
        match self {
            // tools/refusals.py writes: owned TopicsWatchError
            Self::InvalidWireFormat => TopicsWatchError::InvalidWireFormat,
            Self::WrongWireType => TopicsWatchError::WrongWireType,
            Self::MissingField => TopicsWatchError::MissingField,
            Self::InvalidUtf8 => TopicsWatchError::InvalidUtf8,
            Self::ResultTooLong => TopicsWatchError::ResultTooLong,
            Self::MalformedSet => TopicsWatchError::MalformedSet,
            Self::SetTooLong => TopicsWatchError::SetTooLong,
            // tools/refusals.py: end
            Self::Broker { code, message } => TopicsWatchError::Broker { code, message: message.into() },
            Self::Empty { watch_id } => TopicsWatchError::Empty { watch_id },
            Self::WatchMismatch { got, expected } => TopicsWatchError::WatchMismatch { got, expected },
            Self::Unknown(reply) => TopicsWatchError::Unknown(reply),
        }
    }
}

#[cfg(feature = "watch")]
impl From<crate::TopicsWatchError<'_>> for TopicsWatchError {
    fn from(refusal: crate::TopicsWatchError<'_>) -> Self {
        refusal.into_owned()
    }
}
