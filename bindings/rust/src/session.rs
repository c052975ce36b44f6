//! The session.

use core::fmt;

use crate::call::{self, Identity};
use crate::error::AssignmentError;
use crate::raw::{self, Part, Record, SessionReply};
use crate::types::{ControllerIncarnation, Reader, ScalableConsumerType};
use crate::views::{AssignmentDelta, ConsumerAssignment, front, known};
use crate::{BASELINE, LIST, SAVED_HEAD};

/// One queued push that changed the list, handed out after the response.
#[derive(Debug, Clone, Copy, PartialEq, Eq)]
pub struct AssignmentReplay<'a> {
    /// The list after the push; it stands in the store.
    pub assignment: ConsumerAssignment<'a>,
    /// What the push changed of the list before it; it stands in the output.
    pub delta: AssignmentDelta<'a>,
}

/// A consumer's registration with the controller: what it holds, over a store that the station lends.
///
/// The store needs at least [`MIN_STORE`](crate::MIN_STORE) bytes; [`store_len`](crate::store_len) says how many so that a given number of
/// pushes fit, whatever their lists. A push takes 2 bytes and its packed list. Calls that answer a delta need an output of at least [`MIN_OUTPUT`](crate::MIN_OUTPUT) bytes, whatever they answer.
///
/// Every call is either taken whole or refused, and **a refusal leaves session, store and output as they were**.
pub struct ScalableConsumerSession<'s> {
    record: Record,
    store: &'s mut [u8],
}

impl<'s> ScalableConsumerSession<'s> {
    /// Opens a session over `store`: writes the identity to its first slot. Whatever else the store holds is not looked at.
    ///
    /// # Errors
    ///
    /// [`AssignmentError::StoreTooShort`] (1); [`AssignmentError::IdentityTooLong`] (8) where the three texts have more than 2,041 bytes
    /// together. The store is then as it was.
    pub fn new(
        consumer_id: u64,
        topic: &str,
        subscription: &str,
        consumer_name: &str,
        consumer_type: ScalableConsumerType,
        incarnation: ControllerIncarnation,
        store: &'s mut [u8],
    ) -> Result<Self, AssignmentError<'static>> {
        let identity = Identity { topic, subscription, consumer_name, kind: consumer_type.to_pb_i32() };
        let SessionReply { state, reply } = call::open(consumer_id, incarnation.0, identity, store);
        match reply.answer {
            raw::ACCEPTED => Ok(Self { record: state, store }),
            _ => Err(AssignmentError::from_reply(reply, "")),
        }
    }

    /// The session that [`Self::into_parts`] took apart, or that [`Self::record`] and [`Self::store`] were saved of.
    ///
    /// # Errors
    ///
    /// [`AssignmentError::StoreTooShort`] (1); [`AssignmentError::MalformedStore`] (22) where a slot in use is malformed or a count of the
    /// record is beyond what it counts. The proved library makes this test (`cuddrewyn_check`). [`Self::resume`] asks less of the store. The
    /// session's other calls are never refused so: nothing else can write to a store that is lent.
    pub fn from_parts(record: Record, store: &'s mut [u8]) -> Result<Self, AssignmentError<'static>> {
        let reply = call::check(record, store);
        match reply.answer {
            raw::ACCEPTED => Ok(Self { record, store }),
            _ => Err(AssignmentError::from_reply(reply, "")),
        }
    }

    /// The session of these parts, on a new connection to the controller: as [`Self::begin_incarnation`], then [`Self::from_parts`].
    /// The epoch floor is kept; of the store only the identity is in use, so only it has to be sound.
    ///
    /// # Errors
    ///
    /// [`AssignmentError::NonAdvancingIncarnation`] (25), then those of [`Self::from_parts`]. The store is left as it was.
    pub fn resume(
        record: Record,
        store: &'s mut [u8],
        incarnation: ControllerIncarnation,
    ) -> Result<Self, AssignmentError<'static>> {
        let mut record = record;
        let reply = call::begin(&mut record, incarnation.0);
        match reply.answer {
            raw::ACCEPTED => Self::from_parts(record, store),
            _ => Err(AssignmentError::from_reply(reply, "")),
        }
    }

    /// Writes the session to the front of `out`, to be kept where power is lost: the record, and what is in use of the store, with a length and a
    /// checksum. Gives the bytes written. [`Self::saved_len`] are always enough.
    ///
    /// # Errors
    ///
    /// [`AssignmentError::ResultTooLong`] (21); `out` is then as it was.
    pub fn save<'o>(&self, out: &'o mut [u8]) -> Result<&'o [u8], AssignmentError<'static>> {
        let reply = call::save(self.record, self.store, out);
        match reply.answer {
            raw::WRITTEN => known(front(out, reply.first), reply),
            _ => Err(AssignmentError::from_reply(reply, "")),
        }
    }

    /// How many bytes [`Self::save`] writes at most, on this session's store.
    #[must_use]
    pub const fn saved_len(&self) -> usize {
        SAVED_HEAD + self.store.len()
    }

    /// The session that [`Self::save`] wrote, taken back into `store`, which may have another length than the one that was saved. Lend the bytes that
    /// were written, all of them and no more.
    ///
    /// # Errors
    ///
    /// [`AssignmentError::MalformedSave`] (64) where the bytes are cut short, damaged or none of a session; [`AssignmentError::MalformedStore`] (22)
    /// where what they hold is no session; [`AssignmentError::StoreTooShort`] (1) where `store` does not hold it. `store` is then as it was.
    pub fn restore(bytes: &[u8], store: &'s mut [u8]) -> Result<Self, AssignmentError<'static>> {
        let SessionReply { state, reply } = call::restore(bytes, store);
        match reply.answer {
            raw::ACCEPTED => Ok(Self { record: state, store }),
            _ => Err(AssignmentError::from_reply(reply, "")),
        }
    }

    /// Record and store. Keep both to go on with the session later, also in another process.
    #[must_use]
    pub fn into_parts(self) -> (Record, &'s mut [u8]) {
        (self.record, self.store)
    }

    /// The session's own numbers, as they are now.
    #[must_use]
    pub const fn record(&self) -> Record {
        self.record
    }

    /// The store, as it is now.
    #[must_use]
    pub const fn store(&self) -> &[u8] {
        self.store
    }

    /// The consumer's id.
    #[must_use]
    pub const fn consumer_id(&self) -> u64 {
        self.record.consumer_id
    }

    /// The incarnation of the connection that the session listens to.
    #[must_use]
    pub const fn incarnation(&self) -> ControllerIncarnation {
        ControllerIncarnation(self.record.incarnation)
    }

    /// The highest epoch that was ever accepted, over all incarnations.
    #[must_use]
    pub const fn epoch_floor(&self) -> Option<u64> {
        if self.record.has_floor != 0 { Some(self.record.epoch_floor) } else { None }
    }

    /// True from an accepted response on, until the session begins anew or is invalidated.
    #[must_use]
    pub const fn is_registered(&self) -> bool {
        self.record.registered != 0
    }

    /// True from [`Self::invalidate_authority`] on, until the session begins anew. A response does not clear it.
    #[must_use]
    pub const fn is_invalidated(&self) -> bool {
        self.record.invalidated != 0
    }

    /// The list held, or `None` while the session is not registered. It stands in the store.
    ///
    /// Directly after a response it is the list behind all queued pushes, which [`Self::take_replayed_update`] has yet to hand out.
    #[must_use]
    pub fn assignment(&self) -> Option<ConsumerAssignment<'_>> {
        self.list_in_slot(LIST)
    }

    /// The list of the last accepted response, or `None` while the session is not registered. It stands in the store.
    #[must_use]
    pub fn baseline(&self) -> Option<ConsumerAssignment<'_>> {
        self.list_in_slot(BASELINE)
    }

    fn list_in_slot(&self, place: usize) -> Option<ConsumerAssignment<'_>> {
        if !self.is_registered() {
            return None;
        }
        list_at(self.store, place)
    }

    /// Whether the session was opened with these texts and this kind.
    #[must_use]
    pub fn matches_registration(
        &self,
        topic: &str,
        subscription: &str,
        consumer_name: &str,
        consumer_type: ScalableConsumerType,
    ) -> bool {
        let identity = Identity { topic, subscription, consumer_name, kind: consumer_type.to_pb_i32() };
        call::matches_registration(self.store, identity).answer == raw::YES
    }

    /// A new connection to the controller. The list is given up, the queue emptied, the floor kept; a new response is awaited.
    ///
    /// # Errors
    ///
    /// [`AssignmentError::NonAdvancingIncarnation`] (25) unless `incarnation` is above the present one; nothing is then given up.
    pub fn begin_incarnation(&mut self, incarnation: ControllerIncarnation) -> Result<(), AssignmentError<'static>> {
        let reply = call::begin(&mut self.record, incarnation.0);
        match reply.answer {
            raw::ACCEPTED => Ok(()),
            _ => Err(AssignmentError::from_reply(reply, "")),
        }
    }

    /// The controller is not to be trusted any more. The list is given up, the queue emptied, the floor kept. Never refused.
    pub fn invalidate_authority(&mut self) {
        call::invalidate(&mut self.record);
    }

    /// The answer to the registration, on the present connection; see [`Self::handle_subscribe_response_for`].
    ///
    /// # Errors
    ///
    /// As [`Self::handle_subscribe_response_for`].
    pub fn handle_subscribe_response<'m>(
        &mut self,
        message: &'m [u8],
    ) -> Result<ConsumerAssignment<'_>, AssignmentError<'m>> {
        self.handle_subscribe_response_for(self.incarnation(), message)
    }

    /// The answer to the registration (`CommandScalableTopicSubscribeResponse`), which came over the connection `incarnation`. Gives the
    /// baseline, the response's own list; then take the replays until there are none.
    ///
    /// # Errors
    ///
    /// In this order: the message is not read (3, 4, 7, 6), `IncarnationMismatch` (23), without an assignment `Broker` (16) or `Empty` (17),
    /// a bad list (9 to 11, 34, 12 to 15), `CrossIncarnationEpochRegression` (26), `StaleEpoch` (27) of a queued push. Session, store and
    /// queue are then as they were. A queue whose own epochs fall refuses every response, until the session begins anew or is invalidated.
    pub fn handle_subscribe_response_for<'m>(
        &mut self,
        incarnation: ControllerIncarnation,
        message: &'m [u8],
    ) -> Result<ConsumerAssignment<'_>, AssignmentError<'m>> {
        let reply = call::response(&mut self.record, self.store, message, incarnation.0);
        match reply.answer {
            raw::ACCEPTED => known(self.baseline(), reply),
            _ if reply.number == 16 => {
                Err(AssignmentError::from_reply(reply, text_in(message, call::response_text(message))))
            }
            _ => Err(AssignmentError::from_reply(reply, "")),
        }
    }

    /// A push of the controller, on the present connection; see [`Self::handle_assignment_update_for`].
    ///
    /// # Errors
    ///
    /// As [`Self::handle_assignment_update_for`].
    pub fn handle_assignment_update<'o>(
        &mut self,
        message: &[u8],
        out: &'o mut [u8],
    ) -> Result<Option<AssignmentDelta<'o>>, AssignmentError<'static>> {
        self.handle_assignment_update_for(self.incarnation(), message, out)
    }

    /// A push of the controller (`CommandScalableTopicAssignmentUpdate`), which came over the connection `incarnation`.
    ///
    /// `None` where it is queued for the response, or is the list held; then `out` is as it was. Lend at least
    /// [`MIN_OUTPUT`](crate::MIN_OUTPUT) bytes.
    ///
    /// # Errors
    ///
    /// In this order: `OutputTooShort` (2), the message is not read (3, 4, 7, 6), `IncarnationMismatch` (23), `ConsumerMismatch` (24), a bad list
    /// (9 to 11, 34, 12 to 15); then unregistered `CrossIncarnationEpochRegression` (26) or `PreBaselineBufferFull` (28), registered
    /// `StaleEpoch` (27). Session, store and `out` are then as they were.
    pub fn handle_assignment_update_for<'o>(
        &mut self,
        incarnation: ControllerIncarnation,
        message: &[u8],
        out: &'o mut [u8],
    ) -> Result<Option<AssignmentDelta<'o>>, AssignmentError<'static>> {
        let reply = call::update(&mut self.record, self.store, message, incarnation.0, out);
        match reply.answer {
            raw::UNCHANGED => Ok(None),
            raw::DELTA => known(front(out, reply.first).and_then(AssignmentDelta::whole), reply).map(Some),
            _ => Err(AssignmentError::from_reply(reply, "")),
        }
    }

    /// The next replay for the first reader; see [`Self::take_replayed_update_for`].
    ///
    /// # Errors
    ///
    /// As [`Self::take_replayed_update_for`].
    pub fn take_replayed_update<'a>(
        &'a mut self,
        out: &'a mut [u8],
    ) -> Result<Option<AssignmentReplay<'a>>, AssignmentError<'static>> {
        self.take_replayed_update_for(Reader::default(), out)
    }

    /// The next queued push that changed the list, or `None` where none is left for `reader`: each [`Reader`] is handed every one. Lend at least
    /// [`MIN_OUTPUT`](crate::MIN_OUTPUT) bytes.
    ///
    /// The original's `take_replayed_updates` gives all of them in one `Vec`, to whoever asks first. This call gives one, since nothing is
    /// allocated: call it until it gives `None`, after every accepted response and before the next update, or use
    /// [`Self::for_each_replayed_update_for`]. A replay borrows the session, so it has to be used before the next call. An update in between is
    /// taken, and its delta is then ahead of the replays.
    ///
    /// # Errors
    ///
    /// [`AssignmentError::OutputTooShort`] (2); no replay is lost by it.
    pub fn take_replayed_update_for<'a>(
        &'a mut self,
        reader: Reader,
        out: &'a mut [u8],
    ) -> Result<Option<AssignmentReplay<'a>>, AssignmentError<'static>> {
        let reply = call::drain_for(&mut self.record, self.store, reader.number(), out);
        match reply.answer {
            raw::UNCHANGED => Ok(None),
            raw::REPLAY => {
                let assignment = usize::try_from(reply.first).ok().and_then(|place| list_at(self.store, place));
                let delta = front(out, reply.second).and_then(AssignmentDelta::whole);
                known(assignment.zip(delta), reply).map(|(assignment, delta)| Some(AssignmentReplay { assignment, delta }))
            }
            _ => Err(AssignmentError::from_reply(reply, "")),
        }
    }

    /// Hands the first reader's replays to `f`; see [`Self::for_each_replayed_update_for`].
    ///
    /// # Errors
    ///
    /// As [`Self::for_each_replayed_update_for`].
    pub fn for_each_replayed_update(
        &mut self,
        out: &mut [u8],
        f: impl FnMut(AssignmentReplay<'_>),
    ) -> Result<usize, AssignmentError<'static>> {
        self.for_each_replayed_update_for(Reader::default(), out, f)
    }

    /// Hands every replay that is left for `reader` to `f`, in order, and gives their number. Lend at least
    /// [`MIN_OUTPUT`](crate::MIN_OUTPUT) bytes.
    ///
    /// # Errors
    ///
    /// [`AssignmentError::OutputTooShort`] (2), before any replay is taken.
    pub fn for_each_replayed_update_for(
        &mut self,
        reader: Reader,
        out: &mut [u8],
        mut f: impl FnMut(AssignmentReplay<'_>),
    ) -> Result<usize, AssignmentError<'static>> {
        let mut count = 0;
        while let Some(replay) = self.take_replayed_update_for(reader, out)? {
            f(replay);
            count += 1;
        }
        Ok(count)
    }
}

impl fmt::Debug for ScalableConsumerSession<'_> {
    fn fmt(&self, f: &mut fmt::Formatter<'_>) -> fmt::Result {
        f.debug_struct("ScalableConsumerSession")
            .field("record", &self.record)
            .field("assignment", &self.assignment())
            .finish_non_exhaustive()
    }
}

#[cfg(feature = "alloc")]
impl<'s> ScalableConsumerSession<'s> {
    /// The session of a record and a store that are known to be one's.
    pub(crate) fn over(record: Record, store: &'s mut [u8]) -> Self {
        Self { record, store }
    }
}

/// The list that starts at `place`, whatever follows it.
fn list_at(store: &[u8], place: usize) -> Option<ConsumerAssignment<'_>> {
    ConsumerAssignment::at_front(store.get(place..)?)
}

/// A text of a message, which its reader found to be UTF-8; empty where it is absent.
pub(crate) fn text_in(message: &[u8], part: Part) -> &str {
    let bytes = part.start.checked_add(part.length).and_then(|end| message.get(part.start..end));
    bytes.and_then(|bytes| core::str::from_utf8(bytes).ok()).unwrap_or_default()
}
