//! The calls of the session that owns its store.

use alloc::string::String;
use alloc::vec::Vec;

use crate::error::SegmentTopicError;
use crate::owned::{AssignmentDelta, AssignmentError, AssignmentReplay, ConsumerAssignment, ScalableConsumerSession};
use crate::session::ScalableConsumerSession as Lent;
use crate::types::{ControllerIncarnation, Reader};
use crate::{LENGTH, MIN_OUTPUT, SLOT};

impl ScalableConsumerSession {
    /// A new connection to the controller. The list is given up, the queue emptied, the floor kept; a new response is awaited.
    ///
    /// # Errors
    ///
    /// [`AssignmentError::NonAdvancingIncarnation`] (25) unless `incarnation` is above the present one; nothing is then given up.
    pub fn begin_incarnation(&mut self, incarnation: ControllerIncarnation) -> Result<(), AssignmentError> {
        self.lend(|session| session.begin_incarnation(incarnation))?;
        self.assignment = None;
        Ok(())
    }

    /// The controller is not to be trusted any more. The list is given up, the queue emptied, the floor kept. Never refused.
    pub fn invalidate_authority(&mut self) {
        self.lend(|session| session.invalidate_authority());
        self.assignment = None;
    }

    /// The answer to the registration, on the present connection; see [`Self::handle_subscribe_response_for`].
    ///
    /// # Errors
    ///
    /// As [`Self::handle_subscribe_response_for`].
    pub fn handle_subscribe_response(&mut self, message: &[u8]) -> Result<ConsumerAssignment, AssignmentError> {
        self.handle_subscribe_response_for(self.incarnation(), message)
    }

    /// The answer to the registration (`CommandScalableTopicSubscribeResponse`), which came over the connection `incarnation`. Gives the
    /// baseline, the response's own list; then take the replays.
    ///
    /// # Errors
    ///
    /// As [`handle_subscribe_response_for`](crate::ScalableConsumerSession::handle_subscribe_response_for) over a lent store.
    pub fn handle_subscribe_response_for(
        &mut self,
        incarnation: ControllerIncarnation,
        message: &[u8],
    ) -> Result<ConsumerAssignment, AssignmentError> {
        let baseline = self.lend(|session| -> Result<_, AssignmentError> {
            let parent = String::from(session.topic());
            Ok(session.handle_subscribe_response_for(incarnation, message)?.into_owned(&parent)?)
        })?;
        self.refresh()?;
        Ok(baseline)
    }

    /// A push of the controller, on the present connection; see [`Self::handle_assignment_update_for`].
    ///
    /// # Errors
    ///
    /// As [`Self::handle_assignment_update_for`].
    pub fn handle_assignment_update(&mut self, message: &[u8]) -> Result<Option<AssignmentDelta>, AssignmentError> {
        self.handle_assignment_update_for(self.incarnation(), message)
    }

    /// A push of the controller (`CommandScalableTopicAssignmentUpdate`), which came over the connection `incarnation`. `None` where it is
    /// queued for the response, or is the list held.
    ///
    /// # Errors
    ///
    /// As [`handle_assignment_update_for`](crate::ScalableConsumerSession::handle_assignment_update_for) over a lent store, without 2; 28 where
    /// the queue has 1,024 pushes, or no room in a store that [`Self::with_waiting`] bounds.
    pub fn handle_assignment_update_for(
        &mut self,
        incarnation: ControllerIncarnation,
        message: &[u8],
    ) -> Result<Option<AssignmentDelta>, AssignmentError> {
        let mut out = [0; MIN_OUTPUT];
        loop {
            match self.lend(|session| session.handle_assignment_update_for(incarnation, message, &mut out)) {
                // A refusal changes nothing, so that the push can be handed over again.
                Err(crate::AssignmentError::PreBaselineBufferFull { .. }) if self.grow() => {}
                Err(refusal) => return Err(refusal.into()),
                Ok(None) => return Ok(None),
                Ok(Some(delta)) => {
                    let delta = delta.into_owned(self.topic())?;
                    self.refresh()?;
                    return Ok(Some(delta));
                }
            }
        }
    }

    /// The first reader's replays; see [`Self::take_replayed_updates_for`].
    ///
    /// # Panics
    ///
    /// As [`Self::take_replayed_updates_for`].
    pub fn take_replayed_updates(&mut self) -> Vec<AssignmentReplay> {
        self.take_replayed_updates_for(Reader::default())
    }

    /// The queued pushes that changed the list and are left for `reader`, in their order: each [`Reader`] is handed every one, once. Take
    /// them after every accepted response and before the next update.
    ///
    /// # Panics
    ///
    /// Never with the archive that this crate is for: the store is the session's own, the output long enough, and the topic was tested when
    /// the lists were taken.
    pub fn take_replayed_updates_for(&mut self, reader: Reader) -> Vec<AssignmentReplay> {
        self.try_take(reader).expect("a session that owns its store is never refused a replay")
    }

    fn try_take(&mut self, reader: Reader) -> Result<Vec<AssignmentReplay>, AssignmentError> {
        let (mut out, mut replays) = ([0; MIN_OUTPUT], Vec::new());
        let mut session = Lent::over(self.record, &mut self.store);
        let parent = String::from(session.topic());
        while let Some(replay) = session.take_replayed_update_for(reader, &mut out)? {
            replays.push(replay.into_owned(&parent)?);
        }
        self.record = session.record();
        Ok(replays)
    }

    /// A call over the session's own store.
    fn lend<T>(&mut self, call: impl FnOnce(&mut Lent<'_>) -> T) -> T {
        let mut session = Lent::over(self.record, &mut self.store);
        let answer = call(&mut session);
        self.record = session.record();
        answer
    }

    /// Makes the store longer, twice as long or up to the limit; false where it is as long as it may be.
    fn grow(&mut self) -> bool {
        let longer = self.limit.min((2 * self.store.len()).max(self.store.len() + LENGTH + SLOT));
        let grows = longer > self.store.len();
        if grows {
            self.store.resize(longer, 0);
        }
        grows
    }

    /// Reads the list held from the store.
    pub(super) fn refresh(&mut self) -> Result<(), SegmentTopicError> {
        let before = self.assignment.take().unwrap_or_default();
        let held = self.assignment_view().map(|view| before.after(view, self.topic())).transpose()?;
        self.assignment = held;
        Ok(())
    }
}
