//! Why a call is refused. A refusal changes nothing: record, store and output are as they were.
//!
//! The enums and their variants have the original's names and fields. Texts are left out, but for the broker's, which is a part of the message.
//! The others are refusals of this port's own, and have no fields, but for 34. Later requests add more, so a `match` needs a last arm.

use core::error::Error;
use core::fmt;

use crate::raw::Reply;
use crate::types::{ControllerIncarnation, KeyRangeError, SegmentId};

/// A 32-bit number of a reply, which may be negative.
pub(crate) fn signed(value: u64) -> i32 {
    value as i32
}

/// The texts of the refusals that the original does not have, by their numbers.
pub(crate) fn own_text(number: u8) -> &'static str {
    match number {
        // tools/refusals.py writes: texts
        1 => "the store is shorter than 6144 bytes",
        2 => "the output is shorter than 3210 bytes",
        3 => "the message is not in the Protocol Buffers wire format",
        4 => "a field of the message has the wrong wire type",
        6 => "a required field of the message is missing",
        7 => "a text is not UTF-8",
        8 => "the texts of the registration are longer than 2041 bytes together",
        15 => "the packed assignment is longer than 2048 bytes",
        20 => "the assignment, delta or segment is malformed",
        21 => "the result does not fit the output",
        22 => "the record or a slot of the store is malformed",
        30 => "the topic set is malformed",
        31 => "the topic set does not fit its buffer, or a topic is longer than 65535 bytes",
        32 => "the key is longer than 65535 bytes",
        33 => "the number of the reader is above 7",
        35 => "the contract has a span that ends before it starts, a window beyond the week or a count too large",
        36 => "the charge is beyond 64 bits, or the remainder is not below 235929600",
        37 => "the length of the log is no multiple of 9, or a filling bit is set",
        38 => "the lost count is above 65535, or the window points beyond its 256 places",
        64 => "the saved session is cut short, damaged or none",
        // tools/refusals.py: end
        _ => "the call is refused",
    }
}

/// An invalid name of a scalable topic or of a segment.
///
/// The original's `NonCanonical` is left out: nothing gives it.
#[derive(Debug, Clone, Copy, PartialEq, Eq)]
#[non_exhaustive]
pub enum SegmentTopicError {
    /// 12: the parent is no `topic://tenant/namespace/name`, or has `?` or `#` in a part.
    InvalidParent,
    /// 18: the text is no name of a segment.
    InvalidSegment,
    /// 19: the name is that of another segment.
    SegmentIdMismatch {
        /// The id that was given.
        segment_id: SegmentId,
        /// The id in the name.
        topic_id: SegmentId,
    },
    /// 9: the range in the name is none.
    InvalidRange(KeyRangeError),
    /// 21: the name is longer than the output.
    ResultTooLong,
    /// A reply that this crate does not know: the archive is of another version.
    Unknown(Reply),
}

impl SegmentTopicError {
    /// The number of this refusal in 01.
    #[must_use]
    pub const fn number(&self) -> u8 {
        match self {
            Self::InvalidRange(_) => 9,
            Self::InvalidParent => 12,
            Self::InvalidSegment => 18,
            Self::SegmentIdMismatch { .. } => 19,
            Self::ResultTooLong => 21,
            Self::Unknown(reply) => reply.number,
        }
    }

    pub(crate) fn from_reply(reply: Reply) -> Self {
        let Reply { number, first, second, third, .. } = reply;
        match number {
            9 => Self::InvalidRange(KeyRangeError::of_kind(first, second, third)),
            12 => Self::InvalidParent,
            18 => Self::InvalidSegment,
            19 => Self::SegmentIdMismatch { segment_id: SegmentId(first), topic_id: SegmentId(second) },
            21 => Self::ResultTooLong,
            _ => Self::Unknown(reply),
        }
    }
}

impl fmt::Display for SegmentTopicError {
    fn fmt(&self, f: &mut fmt::Formatter<'_>) -> fmt::Result {
        match self {
            Self::InvalidParent => f.write_str("invalid canonical scalable topic"),
            Self::InvalidSegment => f.write_str("invalid canonical segment topic"),
            Self::SegmentIdMismatch { segment_id, topic_id } => {
                write!(f, "segment topic names id {topic_id}, not {segment_id}")
            }
            Self::InvalidRange(source) => write!(f, "invalid segment topic range: {source}"),
            Self::ResultTooLong => f.write_str(own_text(21)),
            Self::Unknown(reply) => unknown(reply, f),
        }
    }
}

impl Error for SegmentTopicError {
    fn source(&self) -> Option<&(dyn Error + 'static)> {
        match self {
            Self::InvalidRange(source) => Some(source),
            _ => None,
        }
    }
}

impl From<KeyRangeError> for SegmentTopicError {
    fn from(source: KeyRangeError) -> Self {
        Self::InvalidRange(source)
    }
}

pub(crate) fn unknown(reply: &Reply, f: &mut fmt::Formatter<'_>) -> fmt::Result {
    write!(f, "answer {} with number {} is not known to these bindings", reply.answer, reply.number)
}

/// Why a call of a session, or of a packed list or delta, is refused; the broker's text is a part of the message, whose lifetime is `'m`.
/// Calls that cannot be refused so give `AssignmentError<'static>`.
pub type AssignmentError<'m> = AssignmentErrorWith<&'m str>;

/// Why a call of a session, or of a packed list or delta, is refused.
///
/// `M` is the broker's text, that of [`Self::Broker`]: [`AssignmentError`] borrows it from the message, `owned::AssignmentError` has it as a
/// `String`. The original's `RegistrationMismatch` is left out: nothing gives it.
#[derive(Debug, Clone, Copy, PartialEq, Eq)]
#[non_exhaustive]
pub enum AssignmentErrorWith<M> {
    /// 24: the update is for another consumer.
    ConsumerMismatch {
        /// The consumer id in the message.
        got: u64,
        /// This session's consumer id.
        expected: u64,
    },
    /// 27: the epoch lies below that of the list before it. In a response: of a queued push, below that of the list before it.
    StaleEpoch {
        /// The epoch that came.
        got: u64,
        /// The epoch of the list before it.
        prev: u64,
    },
    /// 23: the call is for another connection to the controller.
    IncarnationMismatch {
        /// The incarnation that the call was given.
        got: ControllerIncarnation,
        /// The session's incarnation.
        expected: ControllerIncarnation,
    },
    /// 25: a new incarnation has to be higher than the old one.
    NonAdvancingIncarnation {
        /// The incarnation that the call was given.
        got: ControllerIncarnation,
        /// The session's incarnation.
        prev: ControllerIncarnation,
    },
    /// 26: the epoch lies below the highest that was ever accepted, over all incarnations.
    CrossIncarnationEpochRegression {
        /// The epoch that came.
        got: u64,
        /// The highest epoch accepted.
        floor: u64,
    },
    /// 28: the queue of pushes that wait for the response is full, or the push does not fit the store's free end.
    PreBaselineBufferFull {
        /// How many are queued: 1,024 where no more can be.
        max: usize,
    },
    /// 14: the segment's id came before in the same message.
    DuplicateSegment {
        /// The id that came again.
        segment_id: SegmentId,
    },
    /// 9: the segment's range is none.
    InvalidRange {
        /// The segment.
        segment_id: SegmentId,
        /// What is wrong with its range.
        source: KeyRangeError,
    },
    /// 10: a bucket's range is none.
    InvalidBucketRange {
        /// The segment.
        segment_id: SegmentId,
        /// The bucket's place in the message, from 0.
        index: usize,
        /// The start as it came.
        start: i32,
        /// The end as it came.
        end: i32,
    },
    /// 11: two buckets of the segment share a value.
    OverlappingBucketRanges {
        /// The segment.
        segment_id: SegmentId,
    },
    /// 34: a bucket lies not wholly inside the segment's range.
    BucketOutsideSegment {
        /// The segment.
        segment_id: SegmentId,
        /// The bucket's place among the segment's, from 0: the first such bucket.
        index: usize,
    },
    /// 13: the segment's topic is not the name of its parent, range and id.
    AttachmentMismatch {
        /// The segment.
        segment_id: SegmentId,
    },
    /// 12: the session's topic, or the parent that was lent, is no parent of segments. Nothing but
    /// [`SegmentTopicError::InvalidParent`] comes here.
    SegmentTopic(SegmentTopicError),
    /// 16: the broker rejected the registration.
    Broker {
        /// The broker's code.
        code: i32,
        /// The broker's text, empty where it sent none.
        message: M,
    },
    /// 17: the response has neither an assignment nor an error code.
    Empty {
        /// The request id in the message.
        request_id: u64,
    },
    // tools/refusals.py writes: variants of AssignmentError
    /// 1: the store has fewer than three slots.
    StoreTooShort,
    /// 2: the output of an update or a drain cannot hold every delta.
    OutputTooShort,
    /// 3: the message is no row of Protocol Buffers fields.
    InvalidWireFormat,
    /// 4: a known field has another wire type than its own.
    WrongWireType,
    /// 6: a required field is missing.
    MissingField,
    /// 7: a text is not UTF-8.
    InvalidUtf8,
    /// 8: the three texts of an identity do not fit its slot.
    IdentityTooLong,
    /// 15: the packed assignment is longer than a slot.
    AssignmentTooLong,
    /// 20: an assignment, a delta or a segment's record that was lent is malformed.
    MalformedInput,
    /// 21: the result does not fit the output, or has no packed form.
    ResultTooLong,
    /// 22: a slot or a queued list in use is malformed, or a count of the record is beyond what it counts.
    MalformedStore,
    /// 32: a key is longer than 65,535 bytes.
    KeyTooLong,
    /// 33: a reader's number is above 7.
    UnknownReader,
    /// 35: a contract has an end not after its start, a window beyond the week or a count too large.
    InvalidContract,
    /// 36: the holding's product and remainder reach 2^64 together, or the remainder lent in is not below the divisor.
    ChargeTooLarge,
    /// 37: the log's length is no multiple of 9, or one of its filling bits is set.
    InvalidLog,
    /// 38: a lost count is above 65,535, or the window's own numbers point beyond its 256 places.
    InvalidWindow,
    /// 64: a saved session has not the form, the length or the checksum of one.
    MalformedSave,
    // tools/refusals.py: end
    /// A reply that this crate does not know: the archive is of another version.
    Unknown(Reply),
}

impl<M> AssignmentErrorWith<M> {
    /// The number of this refusal in 01.
    #[must_use]
    pub const fn number(&self) -> u8 {
        match self {
            // tools/refusals.py writes: numbers of AssignmentError
            Self::StoreTooShort => 1,
            Self::OutputTooShort => 2,
            Self::InvalidWireFormat => 3,
            Self::WrongWireType => 4,
            Self::MissingField => 6,
            Self::InvalidUtf8 => 7,
            Self::IdentityTooLong => 8,
            Self::AssignmentTooLong => 15,
            Self::MalformedInput => 20,
            Self::ResultTooLong => 21,
            Self::MalformedStore => 22,
            Self::KeyTooLong => 32,
            Self::UnknownReader => 33,
            Self::InvalidContract => 35,
            Self::ChargeTooLarge => 36,
            Self::InvalidLog => 37,
            Self::InvalidWindow => 38,
            Self::MalformedSave => 64,
            // tools/refusals.py: end
            Self::InvalidRange { .. } => 9,
            Self::InvalidBucketRange { .. } => 10,
            Self::OverlappingBucketRanges { .. } => 11,
            Self::SegmentTopic(source) => source.number(),
            Self::AttachmentMismatch { .. } => 13,
            Self::DuplicateSegment { .. } => 14,
            Self::Broker { .. } => 16,
            Self::Empty { .. } => 17,
            Self::IncarnationMismatch { .. } => 23,
            Self::ConsumerMismatch { .. } => 24,
            Self::NonAdvancingIncarnation { .. } => 25,
            Self::CrossIncarnationEpochRegression { .. } => 26,
            Self::StaleEpoch { .. } => 27,
            Self::PreBaselineBufferFull { .. } => 28,
            Self::BucketOutsideSegment { .. } => 34,
            Self::Unknown(reply) => reply.number,
        }
    }

    /// The refusal that a reply tells; `message` is the broker's text.
    pub(crate) fn from_reply(reply: Reply, message: M) -> Self {
        let Reply { number, first, .. } = reply;
        match number {
            // tools/refusals.py writes: replies of AssignmentError
            1 => Self::StoreTooShort,
            2 => Self::OutputTooShort,
            3 => Self::InvalidWireFormat,
            4 => Self::WrongWireType,
            6 => Self::MissingField,
            7 => Self::InvalidUtf8,
            8 => Self::IdentityTooLong,
            15 => Self::AssignmentTooLong,
            20 => Self::MalformedInput,
            21 => Self::ResultTooLong,
            22 => Self::MalformedStore,
            32 => Self::KeyTooLong,
            33 => Self::UnknownReader,
            35 => Self::InvalidContract,
            36 => Self::ChargeTooLarge,
            37 => Self::InvalidLog,
            38 => Self::InvalidWindow,
            64 => Self::MalformedSave,
            // tools/refusals.py: end
            9..=14 | 34 => Self::of_segment(reply),
            16 => Self::Broker { code: signed(first), message },
            17 => Self::Empty { request_id: first },
            _ => Self::of_state(reply),
        }
    }

    /// 9 to 14 and 34.
    fn of_segment(reply: Reply) -> Self {
        let Reply { number, first, second, third, fourth, .. } = reply;
        let segment_id = SegmentId(first);
        match number {
            9 => Self::InvalidRange { segment_id, source: KeyRangeError::of_kind(second, third, fourth) },
            10 => {
                Self::InvalidBucketRange { segment_id, index: second as usize, start: signed(third), end: signed(fourth) }
            }
            11 => Self::OverlappingBucketRanges { segment_id },
            12 => Self::SegmentTopic(SegmentTopicError::InvalidParent),
            13 => Self::AttachmentMismatch { segment_id },
            14 => Self::DuplicateSegment { segment_id },
            34 => Self::BucketOutsideSegment { segment_id, index: second as usize },
            _ => Self::Unknown(reply),
        }
    }

    /// 23 to 28.
    fn of_state(reply: Reply) -> Self {
        let Reply { number, first: got, second, .. } = reply;
        let incarnation = ControllerIncarnation;
        match number {
            23 => Self::IncarnationMismatch { got: incarnation(got), expected: incarnation(second) },
            24 => Self::ConsumerMismatch { got, expected: second },
            25 => Self::NonAdvancingIncarnation { got: incarnation(got), prev: incarnation(second) },
            26 => Self::CrossIncarnationEpochRegression { got, floor: second },
            27 => Self::StaleEpoch { got, prev: second },
            28 => Self::PreBaselineBufferFull { max: got as usize },
            _ => Self::Unknown(reply),
        }
    }

    /// The text of a refusal that is about one segment.
    fn segment_text(&self, f: &mut fmt::Formatter<'_>) -> fmt::Result {
        match self {
            Self::DuplicateSegment { segment_id } => write!(f, "assignment repeats segment {segment_id}"),
            Self::InvalidRange { segment_id, source } => {
                write!(f, "assignment segment {segment_id} has an invalid range: {source}")
            }
            Self::InvalidBucketRange { segment_id, index, start, end } => {
                write!(f, "assignment segment {segment_id} has invalid bucket range {index}: [{start}, {end}]")
            }
            Self::OverlappingBucketRanges { segment_id } => {
                write!(f, "assignment segment {segment_id} has overlapping bucket ranges")
            }
            Self::BucketOutsideSegment { segment_id, index } => {
                write!(f, "assignment segment {segment_id} has bucket range {index} outside its own range")
            }
            Self::AttachmentMismatch { segment_id } => {
                write!(f, "assignment segment {segment_id} names another topic than expected")
            }
            _ => f.write_str(own_text(self.number())),
        }
    }
}

impl<M: fmt::Display> fmt::Display for AssignmentErrorWith<M> {
    fn fmt(&self, f: &mut fmt::Formatter<'_>) -> fmt::Result {
        match self {
            Self::ConsumerMismatch { got, expected } => {
                write!(f, "assignment for consumer {got} does not match this session {expected}")
            }
            Self::StaleEpoch { got, prev } => write!(f, "assignment layout epoch regressed: got {got} below {prev}"),
            Self::IncarnationMismatch { got, expected } => {
                write!(f, "assignment incarnation {got} does not match current incarnation {expected}")
            }
            Self::NonAdvancingIncarnation { got, prev } => {
                write!(f, "controller incarnation {got} did not advance beyond {prev}")
            }
            Self::CrossIncarnationEpochRegression { got, floor } => {
                write!(f, "assignment layout epoch {got} is below reconnect floor {floor}")
            }
            Self::PreBaselineBufferFull { max } => {
                write!(f, "pre-baseline assignment buffer reached its maximum of {max} updates")
            }
            Self::SegmentTopic(source) => source.fmt(f),
            Self::Broker { code, message } => {
                write!(f, "broker rejected the scalable subscribe (code {code}): {message}")
            }
            Self::Empty { request_id } => {
                write!(f, "subscribe response for request {request_id} carried neither an assignment nor an error")
            }
            Self::Unknown(reply) => unknown(reply, f),
            _ => self.segment_text(f),
        }
    }
}

impl<M: fmt::Debug + fmt::Display> Error for AssignmentErrorWith<M> {
    fn source(&self) -> Option<&(dyn Error + 'static)> {
        match self {
            Self::InvalidRange { source, .. } => Some(source),
            Self::SegmentTopic(source) => source.source(),
            _ => None,
        }
    }
}

impl<M> From<SegmentTopicError> for AssignmentErrorWith<M> {
    fn from(source: SegmentTopicError) -> Self {
        Self::SegmentTopic(source)
    }
}
