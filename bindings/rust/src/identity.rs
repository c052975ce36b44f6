//! The registration that a session was opened with, read back from its store's first slot.

use crate::session::ScalableConsumerSession;
use crate::types::ScalableConsumerType;
use crate::views::{take_part, take_u16};

/// Three texts and a kind.
#[derive(Default)]
pub(crate) struct Registration<'a> {
    pub topic: &'a str,
    pub subscription: &'a str,
    pub consumer_name: &'a str,
    pub consumer_type: ScalableConsumerType,
}

impl<'a> Registration<'a> {
    /// What `open` wrote to the front of a store: three lengths, the kind, and the texts one behind another.
    pub fn of(store: &'a [u8]) -> Self {
        Self::read(store).unwrap_or_default()
    }

    fn read(store: &'a [u8]) -> Option<Self> {
        let mut rest = store;
        let lengths = [take_u16(&mut rest)?, take_u16(&mut rest)?, take_u16(&mut rest)?];
        let kind = take_part(&mut rest, 1)?;
        let mut text = |length: u16| core::str::from_utf8(take_part(&mut rest, length.into())?).ok();
        Some(Self {
            topic: text(lengths[0])?,
            subscription: text(lengths[1])?,
            consumer_name: text(lengths[2])?,
            consumer_type: ScalableConsumerType::from_pb_i32(kind[0].into()),
        })
    }
}

/// The registration, as it stands in the store.
impl ScalableConsumerSession<'_> {
    /// The topic that the consumer registered for: the parent of its segments.
    #[must_use]
    pub fn topic(&self) -> &str {
        Registration::of(self.store()).topic
    }

    /// The subscription's name.
    #[must_use]
    pub fn subscription(&self) -> &str {
        Registration::of(self.store()).subscription
    }

    /// The consumer's name.
    #[must_use]
    pub fn consumer_name(&self) -> &str {
        Registration::of(self.store()).consumer_name
    }

    /// The kind of consumer that registered.
    #[must_use]
    pub fn consumer_type(&self) -> ScalableConsumerType {
        Registration::of(self.store()).consumer_type
    }
}
