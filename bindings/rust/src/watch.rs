//! The topics watch.

use core::error::Error;
use core::fmt;

use crate::call;
use crate::error::{own_text, signed, unknown};
use crate::raw::{self, Reply};
use crate::session::text_in;
use crate::views::{front, take_part, take_u16};

/// A message that no reader accepts: a varint that ends early. A watch that is given it tests its set, then refuses 3.
const BROKEN: &[u8] = &[0xff];

/// Topics packed one behind the other, in rising byte order: each a 16-bit length and its text.
#[derive(Clone, Copy, PartialEq, Eq, Default)]
pub struct Topics<'a> {
    rest: &'a [u8],
}

#[cfg(feature = "alloc")]
impl<'a> Topics<'a> {
    /// The topics of a set.
    pub(crate) const fn of(set: &'a [u8]) -> Self {
        Self { rest: set }
    }
}

impl<'a> Iterator for Topics<'a> {
    type Item = &'a str;

    fn next(&mut self) -> Option<&'a str> {
        let length = take_u16(&mut self.rest)?;
        let bytes = take_part(&mut self.rest, length.into())?;
        core::str::from_utf8(bytes).ok()
    }
}

impl fmt::Debug for Topics<'_> {
    fn fmt(&self, f: &mut fmt::Formatter<'_>) -> fmt::Result {
        f.debug_list().entries(*self).finish()
    }
}

/// What an update of the watch changed.
#[derive(Debug, Clone, Copy, PartialEq, Eq)]
pub enum TopicsChange<'a> {
    /// The broker replaced the whole set.
    Snapshot {
        /// The set, rising.
        topics: Topics<'a>,
    },
    /// The broker changed the set.
    Diff {
        /// Topics that entered the set, rising.
        added: Topics<'a>,
        /// Topics that were in the set and were taken out, rising. One that was put back is in both.
        removed: Topics<'a>,
    },
}

impl<'a> TopicsChange<'a> {
    /// The change that the library wrote as these bytes.
    fn whole(bytes: &'a [u8]) -> Option<Self> {
        let (kind, mut rest) = bytes.split_first()?;
        if *kind == 0 {
            return Some(Self::Snapshot { topics: Topics { rest } });
        }
        let length = (u32::from(take_u16(&mut rest)?) << 16) | u32::from(take_u16(&mut rest)?);
        let added = take_part(&mut rest, usize::try_from(length).ok()?)?;
        Some(Self::Diff { added: Topics { rest: added }, removed: Topics { rest } })
    }
}

/// Why an update of the watch is refused; the broker's text is a part of the message, whose lifetime is `'m`.
pub type TopicsWatchError<'m> = TopicsWatchErrorWith<&'m str>;

/// Why an update of the watch is refused. A refusal leaves set and output as they were.
///
/// `M` is the broker's text: [`TopicsWatchError`] borrows it from the message, `owned::TopicsWatchError` has it as a `String`.
#[derive(Debug, Clone, Copy, PartialEq, Eq)]
#[non_exhaustive]
pub enum TopicsWatchErrorWith<M> {
    /// 29: the update is for another watch.
    WatchMismatch {
        /// The watch id in the message.
        got: u64,
        /// This watch's id.
        expected: u64,
    },
    /// 16: the broker rejected the watch.
    Broker {
        /// The broker's code.
        code: i32,
        /// The broker's text, empty where it sent none.
        message: M,
    },
    /// 17: the update has neither an event nor an error code.
    Empty {
        /// The watch id in the message.
        watch_id: u64,
    },
    // tools/refusals.py writes: variants of TopicsWatchError
    /// 3: the message is no row of Protocol Buffers fields.
    InvalidWireFormat,
    /// 4: a known field has another wire type than its own.
    WrongWireType,
    /// 6: a required field is missing.
    MissingField,
    /// 7: a text is not UTF-8.
    InvalidUtf8,
    /// 21: the result does not fit the output, or has no packed form.
    ResultTooLong,
    /// 30: the topic set that was lent is malformed.
    MalformedSet,
    /// 31: the new topic set is longer than its buffer, or one of the event's topics longer than a topic can be.
    SetTooLong,
    // tools/refusals.py: end
    /// A reply that this crate does not know: the archive is of another version.
    Unknown(Reply),
}

impl<M> TopicsWatchErrorWith<M> {
    /// The number of this refusal in 01.
    #[must_use]
    pub const fn number(&self) -> u8 {
        match self {
            // tools/refusals.py writes: numbers of TopicsWatchError
            Self::InvalidWireFormat => 3,
            Self::WrongWireType => 4,
            Self::MissingField => 6,
            Self::InvalidUtf8 => 7,
            Self::ResultTooLong => 21,
            Self::MalformedSet => 30,
            Self::SetTooLong => 31,
            // tools/refusals.py: end
            Self::Broker { .. } => 16,
            Self::Empty { .. } => 17,
            Self::WatchMismatch { .. } => 29,
            Self::Unknown(reply) => reply.number,
        }
    }

    /// The refusal that a reply tells; `message` is the broker's text.
    fn from_reply(reply: Reply, message: M) -> Self {
        let Reply { number, first, second, .. } = reply;
        match number {
            // tools/refusals.py writes: replies of TopicsWatchError
            3 => Self::InvalidWireFormat,
            4 => Self::WrongWireType,
            6 => Self::MissingField,
            7 => Self::InvalidUtf8,
            21 => Self::ResultTooLong,
            30 => Self::MalformedSet,
            31 => Self::SetTooLong,
            // tools/refusals.py: end
            16 => Self::Broker { code: signed(first), message },
            17 => Self::Empty { watch_id: first },
            29 => Self::WatchMismatch { got: first, expected: second },
            _ => Self::Unknown(reply),
        }
    }
}

impl<M: fmt::Display> fmt::Display for TopicsWatchErrorWith<M> {
    fn fmt(&self, f: &mut fmt::Formatter<'_>) -> fmt::Result {
        match self {
            Self::WatchMismatch { got, expected } => {
                write!(f, "watch update for {got} does not match this watch {expected}")
            }
            Self::Broker { code, message } => {
                write!(f, "broker rejected the scalable-topics watch (code {code}): {message}")
            }
            Self::Empty { watch_id } => write!(f, "watch update for {watch_id} carried no event"),
            Self::Unknown(reply) => unknown(reply, f),
            _ => f.write_str(own_text(self.number())),
        }
    }
}

impl<M: fmt::Debug + fmt::Display> Error for TopicsWatchErrorWith<M> {}

/// A watch over the topics of a namespace: the set of those that match, in a buffer that the station lends.
///
/// A topic needs 2 bytes and its length in the buffer. A refusal leaves set, buffer and output as they were.
pub struct ScalableTopicsWatch<'s> {
    watch_id: u64,
    namespace: &'s str,
    buffer: &'s mut [u8],
    used: usize,
}

impl<'s> ScalableTopicsWatch<'s> {
    /// An empty watch. Whatever the buffer holds is not looked at.
    #[must_use]
    pub fn new(watch_id: u64, namespace: &'s str, buffer: &'s mut [u8]) -> Self {
        Self { watch_id, namespace, buffer, used: 0 }
    }

    /// The watch whose set stands in the first `used` bytes of `buffer`, as [`Self::into_parts`] gave them.
    ///
    /// # Errors
    ///
    /// [`TopicsWatchError::MalformedSet`] (30) where they are no set. The proved library makes this test.
    pub fn from_parts(
        watch_id: u64,
        namespace: &'s str,
        buffer: &'s mut [u8],
        used: usize,
    ) -> Result<Self, TopicsWatchError<'static>> {
        let reply = call::watch(watch_id, buffer, used, BROKEN, &mut []);
        match TopicsWatchError::from_reply(reply, "") {
            TopicsWatchError::InvalidWireFormat => Ok(Self { watch_id, namespace, buffer, used }),
            refusal => Err(refusal),
        }
    }

    /// The buffer, and how many bytes at its front are the set.
    #[must_use]
    pub fn into_parts(self) -> (&'s mut [u8], usize) {
        (self.buffer, self.used)
    }

    /// The watch's id.
    #[must_use]
    pub const fn watch_id(&self) -> u64 {
        self.watch_id
    }

    /// The namespace that is watched.
    #[must_use]
    pub const fn namespace(&self) -> &'s str {
        self.namespace
    }

    /// The topics that match now, rising.
    #[must_use]
    pub fn topics(&self) -> Topics<'_> {
        Topics { rest: self.buffer.get(..self.used).unwrap_or_default() }
    }

    /// Takes an update (`CommandWatchScalableTopicsUpdate`): a snapshot replaces the set, a diff takes out, then puts in.
    ///
    /// Lend an output of 1 + the new set's bytes for a snapshot, 5 + the bytes of both lists for a diff.
    ///
    /// # Errors
    ///
    /// In this order: the message is not read (3, 4, 7, 6), `WatchMismatch` (29), without an event `Broker` (16) or `Empty` (17),
    /// `SetTooLong` (31), `ResultTooLong` (21). Set, buffer and `out` are then as they were.
    pub fn handle_update<'m, 'o>(
        &mut self,
        message: &'m [u8],
        out: &'o mut [u8],
    ) -> Result<TopicsChange<'o>, TopicsWatchError<'m>> {
        let reply = call::watch(self.watch_id, self.buffer, self.used, message, out);
        if reply.answer != raw::WRITTEN {
            let text = if reply.number == 16 { text_in(message, call::watch_text(message)) } else { "" };
            return Err(TopicsWatchError::from_reply(reply, text));
        }
        self.used = reply.first as usize;
        front(out, reply.second).and_then(TopicsChange::whole).ok_or(TopicsWatchError::Unknown(reply))
    }
}

#[cfg(feature = "alloc")]
impl<'s> ScalableTopicsWatch<'s> {
    /// The watch of a buffer whose first `used` bytes are known to be a set.
    pub(crate) fn over(watch_id: u64, buffer: &'s mut [u8], used: usize) -> Self {
        Self { watch_id, namespace: "", buffer, used }
    }
}

impl fmt::Debug for ScalableTopicsWatch<'_> {
    fn fmt(&self, f: &mut fmt::Formatter<'_>) -> fmt::Result {
        f.debug_struct("ScalableTopicsWatch")
            .field("watch_id", &self.watch_id)
            .field("namespace", &self.namespace)
            .field("topics", &self.topics())
            .finish_non_exhaustive()
    }
}
