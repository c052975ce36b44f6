//! A station's assignment session: which segments of a topic this consumer holds, told by a controller whose every byte is taken as hostile.
//!
//! The work is done by a library proved in Rattle (`libexport.a`); this crate gives it the names and types of the Rust that it was ported
//! from, magnetar's `ScalableConsumerSession` and what belongs to it. **A station replaces magnetar's session by changing an import and
//! handing over a message's bytes**: with an allocator it imports `owned`, whose types own what they hold as the original's do; without one the
//! crate itself, and lends memory besides. There nothing is allocated, and nowhere is anything printed or waited for.
//!
//! This is a session over lent memory; the same with an allocator stands at the head of `owned`.
//!
//! ```
//! use cuddrewyn::*;
//!
//! # fn main() -> Result<(), AssignmentError<'static>> {
//! // The station lends the memory: a store with room for 16 pushes that wait, and an output.
//! let mut store = [0; store_len(16)];
//! let mut out = [0; MIN_OUTPUT];
//! let mut session = ScalableConsumerSession::new(
//!     7,
//!     "topic://a/b/c",
//!     "uplink",
//!     "station-1",
//!     ScalableConsumerType::Stream,
//!     ControllerIncarnation(1),
//!     &mut store,
//! )?;
//!
//! // A push that comes before the response waits: consumer 7, epoch 3, segment 0 from 0000 to 7fff.
//! let push = b"\x08\x07\x12\x29\x08\x03\x12\x25\x08\x00\x10\x00\x18\xff\xff\x01\x22\x1bsegment://a/b/c/0000-7fff-0";
//! assert_eq!(session.handle_assignment_update(push, &mut out)?, None);
//!
//! // The response: request 1, an empty list at epoch 2.
//! let baseline = session.handle_subscribe_response(b"\x08\x01\x22\x02\x08\x02")?;
//! assert_eq!((baseline.layout_epoch(), baseline.segments().len()), (2, 0));
//!
//! // What waited, one change at a time.
//! while let Some(replay) = session.take_replayed_update(&mut out)? {
//!     assert_eq!(replay.delta.lost().len(), 0);
//!     for segment in replay.delta.gained() {
//!         let mut name = [0; 64];
//!         assert_eq!(segment.segment_topic("topic://a/b/c", &mut name)?, "segment://a/b/c/0000-7fff-0");
//!     }
//! }
//!
//! // An older layout is refused, and nothing changes.
//! let stale = session.handle_assignment_update(b"\x08\x07\x12\x02\x08\x02", &mut out);
//! assert_eq!(stale, Err(AssignmentError::StaleEpoch { got: 2, prev: 3 }));
//! assert_eq!(session.epoch_floor(), Some(3));
//! # Ok(())
//! # }
//! ```
//!
//! # From magnetar to here
//!
//! Messages come as their bytes: the proved library reads them itself. Texts come as `&str`. What the original returns as owned values are
//! views, over the store or over the output that the call was lent; `into_owned` makes the types of `owned` of them, where the table is shorter.
//!
//! | original | here |
//! |---|---|
//! | `ScalableConsumerSession::new(id, topic, .., incarnation)` | [`new`](ScalableConsumerSession::new)`(id, topic, .., incarnation, &mut store)?` |
//! | `handle_assignment_update_for(incarnation, &upd)` | [`handle_assignment_update_for`](ScalableConsumerSession::handle_assignment_update_for)`(incarnation, message, &mut out)` |
//! | `handle_assignment_update(&upd)` | [`handle_assignment_update`](ScalableConsumerSession::handle_assignment_update)`(message, &mut out)` |
//! | `handle_subscribe_response_for(incarnation, &resp)` | [`handle_subscribe_response_for`](ScalableConsumerSession::handle_subscribe_response_for)`(incarnation, message)` |
//! | `handle_subscribe_response(&resp)` | [`handle_subscribe_response`](ScalableConsumerSession::handle_subscribe_response)`(message)` |
//! | `take_replayed_updates()`, all in a `Vec` | [`take_replayed_update`](ScalableConsumerSession::take_replayed_update)`(&mut out)?` until `None`, or [`for_each_replayed_update`](ScalableConsumerSession::for_each_replayed_update)`(&mut out, f)?`; for more readers than one [`take_replayed_update_for`](ScalableConsumerSession::take_replayed_update_for)`(reader, &mut out)?`, each [`Reader`] with a position of its own |
//! | `begin_incarnation`, `invalidate_authority`, `is_registered`, `is_invalidated`, `incarnation`, `epoch_floor`, `matches_registration`, `topic`, `subscription`, `consumer_name`, `consumer_type` | the same |
//! | `assignment()` | the same; the response's own list is also [`baseline`](ScalableConsumerSession::baseline)`()` |
//! | `clone()`, to keep a session | [`into_parts`](ScalableConsumerSession::into_parts), [`from_parts`](ScalableConsumerSession::from_parts), [`resume`](ScalableConsumerSession::resume); where power is lost, [`save`](ScalableConsumerSession::save), [`restore`](ScalableConsumerSession::restore) |
//! | `ConsumerAssignment::segments()`, a slice | an iterator of [`AssignedSegment`] |
//! | `AssignmentDelta`'s fields `layout_epoch`, `gained`, `lost` | calls of the same names |
//! | `AssignedSegment::segment_topic()` | [`segment_topic`](AssignedSegment::segment_topic)`(parent, &mut out)?`: names are rebuilt, not kept |
//! | `AssignedSegment::source()` | [`source`](AssignedSegment::source)`(parent, &mut out)?` |
//! | `ConsumerAssignment::to_pb()` | [`to_pb`](ConsumerAssignment::to_pb)`(parent, &mut out)?`, as bytes |
//! | `ConsumerAssignment::segment_topics()` | `segment_topics(parent)?`, with the feature `alloc` |
//! | `try_from_pb` | inside the session's calls alone; [`from_bytes`](ConsumerAssignment::from_bytes) reads the packed form |
//! | `canonical_segment_topic(parent, range, id)` | [`canonical_segment_topic`]`(parent, range, id, &mut out)?`; `?` and `#` in tenant and namespace are refused too |
//! | `SegmentSource::new(id, topic)`, `parent_topic()` | [`SegmentSource::new`]`(id, &topic)`, [`parent_topic`](SegmentSource::parent_topic)`(&mut out)?` |
//! | `KeyRange`, `SegmentId`, `ControllerIncarnation`, `ScalableConsumerType` | the same |
//! | `ScalableTopicsWatch::new(id, namespace)` | `new(id, namespace, &mut buffer)` |
//! | `ScalableTopicsWatch::handle_update(&upd)` | `handle_update(message, &mut out)` |
//! | `topics()` and the lists of a `TopicsChange`, each a `Vec<String>` | iterators of `&str` |
//! | `AssignmentError`, `SegmentTopicError`, `TopicsWatchError` | the same variants without texts, the broker's excepted, and the port's own; [`number`](AssignmentError::number)`()` is the specification's |
//! | `BaseCommand::decode(bytes)`, then a `match` on its type | [`Command::read`]`(bytes)?`: the three messages as parts of the bytes, with the number to route them by |
//! | | [`apply`] and [`join`] of deltas |
//! | | [`segment_for_key`]: the segment that takes a key |
//! | | [`key_for_hash`], [`key_in_segment`]: the key that has a hash, a key that falls in a segment |
//! | | [`charge()`]: what a holding of a segment costs |
//! | | [`Churn`]: sum and largest of the lost counts of the latest 256 deltas |
//! | | [`is_open`], [`earliest_open`]: the hours that a [`Contract`] leaves open |
//! | | [`check_log`]: whether an uploader's log, of [`Entry`]s, is what deltas ask for |
//!
//! # Memory to lend
//!
//! | what | bytes |
//! |---|---|
//! | store of a session | [`MIN_STORE`], and for each push that waits 2 and its packed list; [`store_len`]`(n)` for n pushes of any lists; [`MAX_STORE`] for the most, 1,024 |
//! | output of updates and replays | [`MIN_OUTPUT`] at least |
//! | output of [`apply`] | [`SLOT`] always suffices |
//! | output of [`join`] | as many as both deltas have |
//! | output of [`to_pb`] | [`to_pb_room`](ConsumerAssignment::to_pb_room) |
//! | output of a segment's name | the parent's length + [`SEGMENT_TOPIC_EXTRA`] |
//! | output of a parent | the name's length |
//! | output of [`Contract::pack`] | [`contract_len`]`(terms, windows)` |
//! | buffer of the watch | 2 and the length for each topic |
//! | output of the watch | 1 + the new set for a snapshot, 5 + both lists for a diff |
//!
//! # Refusals
//!
//! **A refusal changes nothing**: session, store, set and output are as they were, byte by byte. Its number is that of "01", the specification
//! of the session, or of "02", the requests after it. Later requests add numbers, so the enums are `#[non_exhaustive]`.
//!
//! # Building
//!
//! The crate of a release has the archive, for x86-64 Linux, inside: it needs no setting. Where there is none beside `build.rs`, it is looked
//! for in the folder that the setting `CUDDREWYN_LIB` names, else in `crates/export/out` of the repository, where `rt lib` puts it.
//! It is named `libcuddrewyn.a` in a release, `libexport.a` in the repository, and has to be of this crate's version, [`raw::ABI`].
//! Features: `alloc` is what needs an allocator, the module `owned` and names as `String`; `std` (default) is `alloc`, and nothing more today;
//! `watch` (default) is the topics watch. Without any the crate needs `core` alone.
//!
//! # What is proved, and what is not
//!
//! The library's calls are proved, over every input. This crate is not: it hands slices over (`call`, the one module with unsafe code beside
//! the declarations in [`raw`]), turns replies into Rust's types, and reads packed bytes with bounds checks.

#![no_std]
#![warn(missing_docs)]
#![deny(unsafe_code)]

#[cfg(feature = "alloc")]
extern crate alloc;

mod attach_log;
#[allow(unsafe_code)]
mod call;
mod charge;
mod churn;
mod command;
mod error;
mod hours;
mod identity;
mod lists;
mod names;
#[cfg(feature = "alloc")]
pub mod owned;
#[allow(unsafe_code, missing_docs)]
pub mod raw;
mod session;
mod types;
mod views;
#[cfg(feature = "watch")]
mod watch;

pub use attach_log::{Entry, check_log};
pub use charge::{Charge, DIVISOR, charge};
pub use churn::{CHURN_WINDOW, Churn, ChurnTotals};
pub use command::Command;
pub use error::{AssignmentError, AssignmentErrorWith, SegmentTopicError};
pub use hours::{Contract, MAX_TERMS, MAX_WINDOWS, Span, WEEK, contract_len, earliest_open, is_open};
pub use lists::{apply, join, key_for_hash, key_in_segment, segment_for_key, to_pb};
pub use names::{SegmentSource, canonical_segment_topic, parent_topic};
pub use raw::Record;
pub use session::{AssignmentReplay, ScalableConsumerSession};
pub use types::{
    ControllerIncarnation, KeyRange, KeyRangeError, MAX_HASH, MIN_HASH, Reader, ScalableConsumerType, SegmentId,
};
pub use views::{AssignedSegment, AssignmentDelta, BucketRanges, ConsumerAssignment, Lost, Segments};
#[cfg(feature = "watch")]
pub use watch::{ScalableTopicsWatch, Topics, TopicsChange, TopicsWatchError, TopicsWatchErrorWith};

/// The release that this crate is of.
pub const VERSION: &str = env!("CARGO_PKG_VERSION");

/// The bytes of one slot of a store, and the most that a packed list has.
pub const SLOT: usize = 2_048;

/// The least bytes of a store: identity, baseline and list.
pub const MIN_STORE: usize = 3 * SLOT;

/// The full size of 01: 1,024 pushes of up to 2,046 bytes fit.
pub const FULL_STORE: usize = 2_103_296;

/// The bytes of a store in which 1,024 pushes fit, whatever their lists; more is never used.
pub const MAX_STORE: usize = store_len(MAX_BUFFERED_ASSIGNMENT_UPDATES);

/// The least bytes of an output for updates and replays: the longest delta of one change.
pub const MIN_OUTPUT: usize = 3_210;

/// What a saved session is longer than its part of the store.
pub const SAVED_HEAD: usize = 111;

/// The most bytes of a saved session.
pub const MAX_SAVED: usize = SAVED_HEAD + MAX_STORE;

/// The most pushes that are kept while the response is pending, however long the store is.
pub const MAX_BUFFERED_ASSIGNMENT_UPDATES: usize = 1_024;

/// The most bytes of a key.
pub const LONGEST_KEY: usize = 65_535;

/// How many bytes a segment's name has more than its parent's, at most.
pub const SEGMENT_TOPIC_EXTRA: usize = 33;

/// Where the baseline stands in the store.
const BASELINE: usize = SLOT;

/// Where the list held stands in the store.
const LIST: usize = 2 * SLOT;

/// The bytes of a queued push before its packed list: the list's length.
const LENGTH: usize = 2;

/// The bytes of a store in which `pushes` can wait for the response, whatever their lists; more than [`MAX_BUFFERED_ASSIGNMENT_UPDATES`]
/// never can.
#[must_use]
pub const fn store_len(pushes: usize) -> usize {
    let most = MAX_BUFFERED_ASSIGNMENT_UPDATES;
    let pushes = if pushes < most { pushes } else { most };
    MIN_STORE + pushes * (LENGTH + SLOT)
}
