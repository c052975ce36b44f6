//! The session that owns its store: how it is opened, kept and read. Its calls are in `calls`.

use alloc::string::String;
use alloc::vec;
use alloc::vec::Vec;
use core::fmt;

use crate::call::{self, Identity};
use crate::identity::Registration;
use crate::owned::{AssignmentError, ConsumerAssignment};
use crate::raw::{self, Record};
use crate::session::ScalableConsumerSession as Lent;
use crate::types::{ControllerIncarnation, ScalableConsumerType};
use crate::{BASELINE, LIST, MAX_STORE, MIN_STORE, SAVED_HEAD, store_len};

/// A consumer's registration with the controller: what it holds, with a store of its own.
///
/// The store starts at [`MIN_STORE`] bytes and grows while pushes wait, up to the original's 1,024 of any lists ([`MAX_STORE`]);
/// [`Self::with_waiting`] bounds it. It never shrinks.
///
/// Every call is either taken whole or refused, and **a refusal leaves the session as it was**.
#[derive(Clone)]
pub struct ScalableConsumerSession {
    pub(super) record: Record,
    pub(super) store: Vec<u8>,
    /// The most bytes that the store grows to.
    pub(super) limit: usize,
    /// The list held, as it stands in the store.
    pub(super) assignment: Option<ConsumerAssignment>,
}

impl ScalableConsumerSession {
    /// Opens a session.
    ///
    /// # Errors
    ///
    /// [`AssignmentError::IdentityTooLong`] (8) where the three texts have more than 2,041 bytes together.
    pub fn new(
        consumer_id: u64,
        topic: impl AsRef<str>,
        subscription: impl AsRef<str>,
        consumer_name: impl AsRef<str>,
        consumer_type: ScalableConsumerType,
        incarnation: ControllerIncarnation,
    ) -> Result<Self, AssignmentError> {
        let mut store = vec![0; MIN_STORE];
        let texts = (topic.as_ref(), subscription.as_ref(), consumer_name.as_ref());
        let lent = Lent::new(consumer_id, texts.0, texts.1, texts.2, consumer_type, incarnation, &mut store)?;
        Ok(Self { record: lent.record(), store, limit: MAX_STORE, assignment: None })
    }

    /// The same session with a store that grows to [`store_len`]`(pushes)` at most, or stays as long as it is: so many pushes can wait for
    /// the response whatever their lists, and more where they are short. A push that finds no room is refused with 28.
    #[must_use]
    pub fn with_waiting(self, pushes: usize) -> Self {
        Self { limit: store_len(pushes), ..self }
    }

    /// The session that [`Self::into_parts`] took apart, or that [`Self::record`] and [`Self::store`] were saved of.
    ///
    /// # Errors
    ///
    /// [`AssignmentError::StoreTooShort`] (1); [`AssignmentError::MalformedStore`] (22) where a slot in use is malformed or a count of the
    /// record is beyond what it counts. The proved library makes this test.
    pub fn from_parts(record: Record, mut store: Vec<u8>) -> Result<Self, AssignmentError> {
        let record = Lent::from_parts(record, &mut store)?.record();
        let mut session = Self { record, store, limit: MAX_STORE, assignment: None };
        session.refresh()?;
        Ok(session)
    }

    /// The session of these parts, on a new connection to the controller: as [`Self::begin_incarnation`], then [`Self::from_parts`].
    /// The epoch floor is kept; of the store only the identity is in use, so only it has to be sound.
    ///
    /// # Errors
    ///
    /// [`AssignmentError::NonAdvancingIncarnation`] (25), then those of [`Self::from_parts`].
    pub fn resume(record: Record, mut store: Vec<u8>, incarnation: ControllerIncarnation) -> Result<Self, AssignmentError> {
        let record = Lent::resume(record, &mut store, incarnation)?.record();
        Ok(Self { record, store, limit: MAX_STORE, assignment: None })
    }

    /// The session as bytes, to be kept where power is lost: the record, and what is in use of the store, with a length and a checksum.
    ///
    /// # Errors
    ///
    /// [`AssignmentError::MalformedStore`] (22), which a session of calls alone never gives.
    pub fn save(&self) -> Result<Vec<u8>, AssignmentError> {
        let mut out = vec![0; SAVED_HEAD + self.store.len()];
        let reply = call::save(self.record, &self.store, &mut out);
        if reply.answer != raw::WRITTEN {
            return Err(AssignmentError::from_reply(reply, String::new()));
        }
        out.truncate(usize::try_from(reply.first).unwrap_or(usize::MAX));
        Ok(out)
    }

    /// The session that [`Self::save`] wrote: all of its bytes and no more.
    ///
    /// # Errors
    ///
    /// [`AssignmentError::MalformedSave`] (64) where the bytes are cut short, damaged or none of a session; [`AssignmentError::MalformedStore`] (22)
    /// where what they hold is no session.
    pub fn restore(bytes: &[u8]) -> Result<Self, AssignmentError> {
        let mut store = vec![0; bytes.len().saturating_sub(SAVED_HEAD).max(MIN_STORE)];
        let record = Lent::restore(bytes, &mut store)?.record();
        let mut session = Self { record, store, limit: MAX_STORE, assignment: None };
        session.refresh()?;
        Ok(session)
    }

    /// Record and store. Keep both to go on with the session later, also in another process.
    #[must_use]
    pub fn into_parts(self) -> (Record, Vec<u8>) {
        (self.record, self.store)
    }

    /// The session's own numbers, as they are now.
    #[must_use]
    pub const fn record(&self) -> Record {
        self.record
    }

    /// The store, as it is now.
    #[must_use]
    pub fn store(&self) -> &[u8] {
        &self.store
    }

    /// The consumer's id.
    #[must_use]
    pub const fn consumer_id(&self) -> u64 {
        self.record.consumer_id
    }

    /// The topic that the consumer registered for: the parent of its segments.
    #[must_use]
    pub fn topic(&self) -> &str {
        Registration::of(&self.store).topic
    }

    /// The subscription's name.
    #[must_use]
    pub fn subscription(&self) -> &str {
        Registration::of(&self.store).subscription
    }

    /// The consumer's name.
    #[must_use]
    pub fn consumer_name(&self) -> &str {
        Registration::of(&self.store).consumer_name
    }

    /// The kind of consumer that registered.
    #[must_use]
    pub fn consumer_type(&self) -> ScalableConsumerType {
        Registration::of(&self.store).consumer_type
    }

    /// The incarnation of the connection that the session listens to.
    #[must_use]
    pub const fn incarnation(&self) -> ControllerIncarnation {
        ControllerIncarnation(self.record.incarnation)
    }

    /// The highest epoch that was ever accepted, over all incarnations.
    #[must_use]
    pub const fn epoch_floor(&self) -> Option<u64> {
        if self.record.has_floor != 0 { Some(self.record.epoch_floor) } else { None }
    }

    /// True from an accepted response on, until the session begins anew or is invalidated.
    #[must_use]
    pub const fn is_registered(&self) -> bool {
        self.record.registered != 0
    }

    /// True from [`Self::invalidate_authority`] on, until the session begins anew. A response does not clear it.
    #[must_use]
    pub const fn is_invalidated(&self) -> bool {
        self.record.invalidated != 0
    }

    /// The list held, or `None` while the session is not registered.
    ///
    /// Directly after a response it is the list behind all queued pushes, which [`Self::take_replayed_updates`] has yet to hand out.
    #[must_use]
    pub fn assignment(&self) -> Option<&ConsumerAssignment> {
        self.assignment.as_ref()
    }

    /// The list held as it stands in the store, for the calls on packed lists.
    #[must_use]
    pub fn assignment_view(&self) -> Option<crate::ConsumerAssignment<'_>> {
        self.view_at(LIST)
    }

    /// The list of the last accepted response as it stands in the store, or `None` while the session is not registered.
    #[must_use]
    pub fn baseline_view(&self) -> Option<crate::ConsumerAssignment<'_>> {
        self.view_at(BASELINE)
    }

    fn view_at(&self, place: usize) -> Option<crate::ConsumerAssignment<'_>> {
        self.store.get(place..).filter(|_| self.is_registered()).and_then(crate::ConsumerAssignment::at_front)
    }

    /// Whether the session was opened with these texts and this kind.
    #[must_use]
    pub fn matches_registration(
        &self,
        topic: &str,
        subscription: &str,
        consumer_name: &str,
        consumer_type: ScalableConsumerType,
    ) -> bool {
        let identity = Identity { topic, subscription, consumer_name, kind: consumer_type.to_pb_i32() };
        call::matches_registration(&self.store, identity).answer == raw::YES
    }
}

impl fmt::Debug for ScalableConsumerSession {
    fn fmt(&self, f: &mut fmt::Formatter<'_>) -> fmt::Result {
        let Registration { topic, subscription, consumer_name, consumer_type } = Registration::of(&self.store);
        f.debug_struct("ScalableConsumerSession")
            .field("consumer_id", &self.consumer_id())
            .field("topic", &topic)
            .field("subscription", &subscription)
            .field("consumer_name", &consumer_name)
            .field("consumer_type", &consumer_type)
            .field("incarnation", &self.incarnation())
            .field("assignment", &self.assignment)
            .field("epoch_floor", &self.epoch_floor())
            .field("queue_count", &self.record.queue_count)
            .field("invalidated", &self.is_invalidated())
            .finish_non_exhaustive()
    }
}
