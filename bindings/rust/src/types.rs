//! Ids, ranges of the key space and the consumer's kind.

use core::fmt;

use crate::call;
use crate::error::AssignmentError;
use crate::raw::{self, Reply};

/// A segment's id, unique within a scalable topic.
#[derive(Debug, Clone, Copy, PartialEq, Eq, Hash, PartialOrd, Ord)]
pub struct SegmentId(pub u64);

impl fmt::Display for SegmentId {
    fn fmt(&self, f: &mut fmt::Formatter<'_>) -> fmt::Result {
        self.0.fmt(f)
    }
}

/// The local generation of the connection to the controller. A new connection needs a higher one.
#[derive(Debug, Clone, Copy, PartialEq, Eq, Hash, PartialOrd, Ord, Default)]
pub struct ControllerIncarnation(pub u64);

impl fmt::Display for ControllerIncarnation {
    fn fmt(&self, f: &mut fmt::Formatter<'_>) -> fmt::Result {
        self.0.fmt(f)
    }
}

/// One of the readers of a session's replays, as the uploader, a planning desk and a logger are. Each is handed every replay, and moves its own
/// drain position alone. The first is the default.
#[derive(Debug, Clone, Copy, PartialEq, Eq, Hash, PartialOrd, Ord, Default)]
pub struct Reader(usize);

impl Reader {
    /// How many there are: their numbers are 0 to 7.
    pub const COUNT: usize = raw::READERS;

    /// The reader of a number.
    ///
    /// # Errors
    ///
    /// [`AssignmentError::UnknownReader`] (33) above 7.
    pub const fn new(number: usize) -> Result<Self, AssignmentError<'static>> {
        if number < Self::COUNT { Ok(Self(number)) } else { Err(AssignmentError::UnknownReader) }
    }

    /// Its number.
    #[must_use]
    pub const fn number(self) -> usize {
        self.0
    }
}

impl fmt::Display for Reader {
    fn fmt(&self, f: &mut fmt::Formatter<'_>) -> fmt::Result {
        self.0.fmt(f)
    }
}

/// The lowest value of the key space.
pub const MIN_HASH: u32 = 0;

/// The highest value of the key space.
pub const MAX_HASH: u32 = u16::MAX as u32;

/// Why two numbers are no range of the key space (01's number 9).
#[derive(Debug, Clone, Copy, PartialEq, Eq)]
pub enum KeyRangeError {
    /// The start is above 65,535 (kind 1).
    StartOutOfBounds {
        /// The start as it was given.
        start: u32,
    },
    /// The end is above 65,535 (kind 2).
    EndOutOfBounds {
        /// The end as it was given.
        end: u32,
    },
    /// The end lies below the start (kind 3).
    Reversed {
        /// The start as it was given.
        start: u32,
        /// The end as it was given.
        end: u32,
    },
}

impl KeyRangeError {
    /// The number of this refusal in 01: 9.
    #[must_use]
    pub const fn number(&self) -> u8 {
        9
    }

    /// The error of a kind and that kind's numbers.
    pub(crate) fn of_kind(kind: u64, first: u64, second: u64) -> Self {
        match kind {
            1 => Self::StartOutOfBounds { start: first as u32 },
            2 => Self::EndOutOfBounds { end: first as u32 },
            _ => Self::Reversed { start: first as u32, end: second as u32 },
        }
    }
}

impl fmt::Display for KeyRangeError {
    fn fmt(&self, f: &mut fmt::Formatter<'_>) -> fmt::Result {
        match self {
            Self::StartOutOfBounds { start } => write!(f, "hash range start {start} is outside 0..={MAX_HASH}"),
            Self::EndOutOfBounds { end } => write!(f, "hash range end {end} is outside 0..={MAX_HASH}"),
            Self::Reversed { start, end } => write!(f, "hash range end {end} precedes start {start}"),
        }
    }
}

impl core::error::Error for KeyRangeError {}

/// An inclusive range of the key space `0..=65535`; never empty.
#[derive(Debug, Clone, Copy, PartialEq, Eq, Hash, PartialOrd, Ord)]
pub struct KeyRange {
    start: u32,
    end: u32,
}

impl KeyRange {
    /// The whole key space.
    pub const FULL: Self = Self { start: MIN_HASH, end: MAX_HASH };

    /// The range from `start` to `end`, both inside.
    ///
    /// # Errors
    ///
    /// A start above 65,535, then an end above 65,535, then an end below the start.
    pub fn new(start: u32, end: u32) -> Result<Self, KeyRangeError> {
        let Reply { answer, first, second, third, .. } = call::range_len(start, end);
        if answer == raw::REFUSED {
            return Err(KeyRangeError::of_kind(first, second, third));
        }
        Ok(Self { start, end })
    }

    /// The range of two packed numbers; none where they are reversed.
    pub(crate) fn packed(start: u16, end: u16) -> Option<Self> {
        (start <= end).then(|| Self { start: start.into(), end: end.into() })
    }

    /// The first value inside.
    #[must_use]
    pub const fn start(self) -> u32 {
        self.start
    }

    /// The last value inside.
    #[must_use]
    pub const fn end(self) -> u32 {
        self.end
    }

    /// How many values are inside: 1 to 65,536.
    #[must_use]
    pub fn len(self) -> u32 {
        call::range_len(self.start, self.end).first as u32
    }

    /// False: a range has at least one value.
    #[must_use]
    pub const fn is_empty(self) -> bool {
        false
    }

    /// Whether `hash` is inside. A value above 65,535 is in no range.
    #[must_use]
    pub fn contains(self, hash: u32) -> bool {
        call::range_contains(self.start, self.end, hash).answer == raw::YES
    }

    /// Whether every value of `other` is inside.
    #[must_use]
    pub fn contains_range(self, other: Self) -> bool {
        call::range_contains_range(self.start, self.end, other.start, other.end).answer == raw::YES
    }

    /// Whether one of the two ends right before the other starts.
    #[must_use]
    pub fn is_adjacent_to(self, other: Self) -> bool {
        call::range_is_adjacent_to(self.start, self.end, other.start, other.end).answer == raw::YES
    }

    /// Both ends as four lower-case hexadecimal digits, as they stand in a segment's name.
    #[cfg(feature = "alloc")]
    #[must_use]
    pub fn to_hex_string(self) -> alloc::string::String {
        alloc::format!("{:04x}-{:04x}", self.start, self.end)
    }
}

impl TryFrom<(u32, u32)> for KeyRange {
    type Error = KeyRangeError;

    fn try_from((start, end): (u32, u32)) -> Result<Self, Self::Error> {
        Self::new(start, end)
    }
}

/// Which kind of consumer registers with the controller.
#[derive(Debug, Clone, Copy, PartialEq, Eq, Hash, Default)]
#[non_exhaustive]
pub enum ScalableConsumerType {
    /// An ordered consumer: the controller assigns it a share of the segments.
    #[default]
    Stream,
    /// An external checkpoint consumer.
    Checkpoint,
}

impl ScalableConsumerType {
    /// The integer on the wire: 0 stream, 1 checkpoint.
    #[must_use]
    pub fn to_pb_i32(self) -> i32 {
        match self {
            Self::Stream => 0,
            Self::Checkpoint => 1,
        }
    }

    /// The kind of an integer on the wire; an unknown one is read as [`Self::Stream`].
    #[must_use]
    pub fn from_pb_i32(value: i32) -> Self {
        match call::consumer_type(value) {
            1 => Self::Checkpoint,
            _ => Self::Stream,
        }
    }
}
