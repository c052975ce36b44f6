//! The Rust's session beside ours: fed the same calls, except those that only ours refuses.
use super::stage::Ask;
use crate::model::identity::Texts;
use crate::model::session::{LIST, is_set};
use crate::oracle;
use crate::raw::{self, Record, Reply};
use crate::reply::{show, taken};
use crate::scalable_consumer::{AssignmentError, AssignmentReplay, ControllerIncarnation, ScalableConsumerSession, ScalableConsumerType};

#[derive(Clone)]
pub struct Twin {
    session: ScalableConsumerSession,
    /// What `take_replayed_updates` gives, taken from a copy; kept until another call than a drain is fed.
    pending: Option<Vec<AssignmentReplay>>,
    /// How many of them ours has drained since the last accepted response.
    drained: usize,
    /// The one reader that drains: 02 d keeps runs against the Rust to it.
    reader: Option<usize>,
    fed: u64,
}

/// What the Rust answered.
pub struct Fed {
    pub reply: Reply,
    /// The delta, packed.
    pub out: Vec<u8>,
    /// The baseline of an accepted response, or the list behind a replayed push, packed.
    pub sheet: Vec<u8>,
    /// The broker's text.
    pub text: Option<String>,
}

impl Fed {
    fn plain(reply: Reply) -> Self {
        Self { reply, out: Vec::new(), sheet: Vec::new(), text: None }
    }

    fn refused(error: &AssignmentError) -> Self {
        let text = if let AssignmentError::Broker { message, .. } = error { Some(message.clone()) } else { None };
        Self { text, ..Self::plain(oracle::refusal(error)) }
    }
}

fn string(bytes: &[u8]) -> Option<String> {
    String::from_utf8(bytes.to_vec()).ok()
}

impl Twin {
    /// Texts that are UTF-8, and a topic on which the Rust is compared.
    pub fn open(consumer_id: u64, incarnation: u64, texts: &Texts) -> Option<Self> {
        let [topic, subscription, name] = &texts.texts;
        let topic = string(topic).filter(|topic| !oracle::left_out(topic))?;
        let kind = ScalableConsumerType::from_pb_i32(texts.kind);
        let session =
            ScalableConsumerSession::new(consumer_id, topic, string(subscription)?, string(name)?, kind, ControllerIncarnation(incarnation));
        Some(Self { session, pending: None, drained: 0, reader: None, fed: 0 })
    }

    /// Feeds a call; an error says that prost reads the message otherwise.
    pub fn feed(&mut self, ask: &Ask) -> Result<Fed, String> {
        self.fed += 1;
        if !matches!(ask, Ask::Drain { .. }) {
            self.pending = None;
        }
        match ask {
            Ask::Update { message, incarnation, .. } => self.update(message, *incarnation),
            Ask::Response { message, incarnation } => self.response(message, *incarnation),
            Ask::Drain { reader, .. } => Ok(self.drain(*reader)),
            Ask::Begin { incarnation } => {
                let begun = self.session.begin_incarnation(ControllerIncarnation(*incarnation));
                Ok(begun.map_or_else(|error| Fed::refused(&error), |()| Fed::plain(taken(raw::ACCEPTED, &[]))))
            }
            Ask::Invalidate => {
                self.session.invalidate_authority();
                Ok(Fed::plain(taken(raw::ACCEPTED, &[])))
            }
            Ask::Check => Err("the Rust has no store to check".into()),
            Ask::Matches(texts) => Ok(Fed::plain(taken(if self.matches(texts) { raw::YES } else { raw::NO }, &[]))),
        }
    }

    /// Texts that are not UTF-8 can't be handed over; they are not equal.
    fn matches(&self, texts: &Texts) -> bool {
        let [Some(topic), Some(subscription), Some(name)] = texts.texts.each_ref().map(|text| string(text)) else {
            return false;
        };
        self.session.matches_registration(&topic, &subscription, &name, ScalableConsumerType::from_pb_i32(texts.kind))
    }

    fn update(&mut self, message: &[u8], incarnation: u64) -> Result<Fed, String> {
        let update = oracle::update(message)?;
        let answer = self.session.handle_assignment_update_for(ControllerIncarnation(incarnation), &update);
        Ok(match answer {
            Err(error) => Fed::refused(&error),
            Ok(None) => Fed::plain(taken(raw::UNCHANGED, &[])),
            Ok(Some(delta)) => {
                let out = oracle::delta(&delta).packed().expect("counts of two lists");
                Fed { out: out.clone(), ..Fed::plain(taken(raw::DELTA, &[out.len() as u64])) }
            }
        })
    }

    fn response(&mut self, message: &[u8], incarnation: u64) -> Result<Fed, String> {
        let response = oracle::response(message)?;
        let answer = self.session.handle_subscribe_response_for(ControllerIncarnation(incarnation), &response);
        Ok(match answer {
            Err(error) => Fed::refused(&error),
            Ok(baseline) => {
                self.drained = 0;
                Fed { sheet: oracle::sheet(&baseline).packed(), ..Fed::plain(taken(raw::ACCEPTED, &[])) }
            }
        })
    }

    /// The next replay; where it lies in the store is not the Rust's to say, so the first value is 0.
    fn drain(&mut self, reader: usize) -> Fed {
        assert_eq!(*self.reader.get_or_insert(reader), reader, "a run against the Rust has drains by one reader");
        let pending = self.pending.get_or_insert_with(|| self.session.clone().take_replayed_updates());
        let Some(replay) = pending.get(self.drained) else {
            return Fed::plain(taken(raw::UNCHANGED, &[]));
        };
        self.drained += 1;
        let out = oracle::delta(&replay.delta).packed().expect("counts of two lists");
        let reply = taken(raw::REPLAY, &[0, out.len() as u64]);
        Fed { reply, out, sheet: oracle::sheet(&replay.assignment).packed(), text: None }
    }

    /// How our record and list differ from the Rust's session.
    pub fn differs(&self, record: &Record, store: &[u8]) -> Option<String> {
        let floor = is_set(record.has_floor).then_some(record.epoch_floor);
        let ours = (is_set(record.registered), is_set(record.invalidated), record.incarnation, floor);
        let session = &self.session;
        let theirs = (session.is_registered(), session.is_invalidated(), session.incarnation().0, session.epoch_floor());
        if ours != theirs {
            return Some(format!("registered, invalidated, incarnation, floor: ours {ours:?}, the Rust {theirs:?}"));
        }
        let list = session.assignment().map(|list| oracle::sheet(list).packed());
        if let Some(list) = list
            && !store[LIST..].starts_with(&list)
        {
            return Some("the list slot is not the Rust's list".into());
        }
        self.queue_differs(record)
    }

    /// All that the Rust's session holds.
    pub fn text(&self) -> String {
        format!("{:?}", self.session)
    }

    /// Now and then, for it is slow: the Rust's queue is private, but its Debug text has an epoch for each entry. It is empty once registered.
    fn queue_differs(&self, record: &Record) -> Option<String> {
        let every = if record.queue_count > 16 { 256 } else { 8 };
        if !self.fed.is_multiple_of(every) {
            return None;
        }
        let text = self.text();
        let queue = text.split("buffered_updates: [").nth(1)?.split("replayed_updates: [").next()?;
        let theirs = queue.matches("layout_epoch: ").count();
        let ours = if is_set(record.registered) { 0 } else { record.queue_count };
        (ours != theirs).then(|| format!("queued: ours {ours}, the Rust {theirs}"))
    }
}

/// How our answer differs from the Rust's.
pub fn answer_differs(given: &Reply, fed: &Fed, store: &[u8], out: &[u8]) -> Option<String> {
    let replay = given.answer == raw::REPLAY;
    let comparable = if replay { Reply { first: 0, ..*given } } else { *given };
    if comparable != fed.reply {
        return Some(format!("ours {}, the Rust {}", show(given), show(&fed.reply)));
    }
    if !out.starts_with(&fed.out) {
        return Some("the delta is not the Rust's".into());
    }
    let place = if replay { given.first as usize } else { LIST / 2 };
    if !store.get(place..).is_some_and(|slot| slot.starts_with(&fed.sheet)) {
        return Some(format!("the sheet at {place} is not the Rust's"));
    }
    None
}
