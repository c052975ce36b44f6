//! The same under an allocator, as the original has it: a session that owns its store, lists, deltas and errors that own what they hold.
//!
//! The types have magnetar's names, calls and fields, so that a station changes an import and hands over bytes where it handed over a decoded
//! message (docs/PORTING.md of the repository shows a station before and after). Each call is one of the proved library, over memory that
//! this module lends. Where the crate itself has a type of the same name, that one is a view of bytes that stand elsewhere: `into_owned` makes
//! the owned one of it, and what `to_bytes` gives reads back as a view by `from_bytes`.
//!
//! ```
//! use cuddrewyn::owned::{AssignmentError, ControllerIncarnation, ScalableConsumerSession, ScalableConsumerType};
//!
//! # fn main() -> Result<(), AssignmentError> {
//! let (kind, link) = (ScalableConsumerType::Stream, ControllerIncarnation(1));
//! let mut session = ScalableConsumerSession::new(7, "topic://a/b/c", "uplink", "station-1", kind, link)?;
//!
//! // A push that comes before the response waits: consumer 7, epoch 3, segment 0 from 0000 to 7fff.
//! let push = b"\x08\x07\x12\x29\x08\x03\x12\x25\x08\x00\x10\x00\x18\xff\xff\x01\x22\x1bsegment://a/b/c/0000-7fff-0";
//! assert_eq!(session.handle_assignment_update(push)?, None);
//!
//! // The response: request 1, an empty list at epoch 2. Then what waited.
//! assert_eq!(session.handle_subscribe_response(b"\x08\x01\x22\x02\x08\x02")?.layout_epoch(), 2);
//! for replay in session.take_replayed_updates() {
//!     assert!(replay.delta.lost.is_empty());
//!     assert_eq!(replay.delta.gained[0].segment_topic(), "segment://a/b/c/0000-7fff-0");
//! }
//! assert_eq!(session.assignment().map(|held| held.segments().len()), Some(1));
//!
//! // An error owns its text: it outlives the message, and goes to another thread.
//! let refusal = session.handle_subscribe_response(b"\x08\x01\x10\x16\x1a\x05moved").unwrap_err();
//! assert_eq!(refusal, AssignmentError::Broker { code: 22, message: "moved".to_owned() });
//! # Ok(())
//! # }
//! ```
//!
//! # From magnetar to here
//!
//! | original | here |
//! |---|---|
//! | `use magnetar_proto::scalable_consumer::..`, `types::{KeyRange, SegmentId}` | `use cuddrewyn::owned::..` |
//! | `ScalableConsumerSession::new(id, topic, .., incarnation)` | [`new`](ScalableConsumerSession::new), the same with `?`: texts of more than 2,041 bytes are refused (8) |
//! | `handle_assignment_update(&upd)`, `handle_subscribe_response(&resp)`, and both with `_for` | the same over the message's bytes, which prost need not decode; what is no message is 3, 4, 6 or 7 |
//! | `take_replayed_updates()` | the same; [`take_replayed_updates_for`](ScalableConsumerSession::take_replayed_updates_for)`(reader)` for more readers than one |
//! | `begin_incarnation`, `is_registered`, `incarnation`, `epoch_floor`, `matches_registration`, `assignment`, `topic`, `subscription`, `consumer_name`, `consumer_type`, `clone` | the same |
//! | `invalidate_authority`, `is_invalidated`, of the original's crate alone | the same, for all |
//! | at most 1,024 pushes wait | the same; [`with_waiting`](ScalableConsumerSession::with_waiting)`(pushes)` for less memory |
//! | `ConsumerAssignment`: `layout_epoch`, `segments`, `segment_topics` | the same |
//! | `ConsumerAssignment::to_pb()`, a message | [`to_pb`](ConsumerAssignment::to_pb)`()?`, its bytes |
//! | `AssignedSegment`: `segment_id`, `key_range`, `bucket_ranges`, `segment_topic`, `source` | the same |
//! | `AssignmentDelta`: `layout_epoch`, `gained`, `lost`, `is_empty`; `AssignmentReplay`: `assignment`, `delta` | the same |
//! | `SegmentSource`, `canonical_segment_topic` | the same; `?` and `#` in tenant and namespace are refused too |
//! | `AssignmentError`, `TopicsWatchError`, `'static` with the broker's text | the same variants, `'static`, `Send` and `Sync`; `AttachmentMismatch` and `SegmentTopic` have no texts, and there are the port's own. [`number`](AssignmentError::number)`()` is the specification's |
//! | `ScalableTopicsWatch`: `new`, `namespace`, `topics`, `handle_update(&upd)`; `TopicsChange` | the same over the message's bytes |
//! | `Debug`, `Clone`, `PartialEq`, `Eq`, `Default`, `Hash`, `Ord` | where the original has them; `Debug` shows the same of lists, deltas and errors |
//! | `try_from_pb` | inside the session's calls alone |
//! | | [`into_parts`](ScalableConsumerSession::into_parts), [`from_parts`](ScalableConsumerSession::from_parts), [`resume`](ScalableConsumerSession::resume): a session that survives a restart |
//! | | [`assignment_view`](ScalableConsumerSession::assignment_view), `to_bytes`: for [`apply`](crate::apply), [`join`](crate::join), [`segment_for_key`](crate::segment_for_key) and the other calls on packed lists |

mod calls;
mod delta;
mod error;
mod list;
mod names;
mod session;
#[cfg(feature = "watch")]
mod watch;

pub use delta::{AssignmentDelta, AssignmentReplay};
pub use error::AssignmentError;
#[cfg(feature = "watch")]
pub use error::TopicsWatchError;
pub use list::{AssignedSegment, ConsumerAssignment};
pub use names::{SegmentSource, canonical_segment_topic};
pub use session::ScalableConsumerSession;
#[cfg(feature = "watch")]
pub use watch::{ScalableTopicsWatch, TopicsChange};

// What the original has beside them, so that one import serves.
pub use crate::{
    ControllerIncarnation, KeyRange, KeyRangeError, MAX_BUFFERED_ASSIGNMENT_UPDATES, Reader, ScalableConsumerType,
    SegmentId, SegmentTopicError,
};
