//! A session of ours on the stage: its record, store and output, each beside a mirror of what it should be.
use super::twin::{Fed, Twin, answer_differs};
use crate::model::identity::{self, Texts};
use crate::model::messages;
use crate::model::session::{self, LIST, OUT_LEAST, Prediction, QUEUE, Queue, SLOT, Write, fresh, is_set};
use crate::model::sheet::Sheet;
use crate::ours;
use crate::raw::{self, Record, SessionReply};
use crate::reply::{is_ours, show};
use crate::rng::Rng;
use crate::shrink::shrunk;
use crate::spoil::reported;
use crate::tally::{Call, RESPONSES, SESSIONS, Tally, UPDATES, first_difference, hex};
use crate::texts;

/// A call of a session.
#[derive(Clone, Debug)]
pub enum Ask {
    Update { message: Vec<u8>, incarnation: u64, room: usize },
    Response { message: Vec<u8>, incarnation: u64 },
    Drain { reader: usize, room: usize },
    Begin { incarnation: u64 },
    Invalidate,
    Check,
    Matches(Texts),
}

impl Ask {
    pub fn call(&self) -> Call {
        match self {
            Self::Update { .. } => Call::Update,
            Self::Response { .. } => Call::Response,
            Self::Drain { .. } => Call::Drain,
            Self::Begin { .. } => Call::Begin,
            Self::Invalidate => Call::Invalidate,
            Self::Check => Call::Check,
            Self::Matches(_) => Call::Matches,
        }
    }

    pub fn message(&self) -> &[u8] {
        match self {
            Self::Update { message, .. } | Self::Response { message, .. } => message,
            _ => &[],
        }
    }

    pub fn with_message(&self, bytes: &[u8]) -> Self {
        let mut ask = self.clone();
        if let Self::Update { message, .. } | Self::Response { message, .. } = &mut ask {
            *message = bytes.to_vec();
        }
        ask
    }

    /// Where the tally counts a message with a singular field that comes again.
    fn again(&self) -> Option<usize> {
        match self {
            Self::Update { message, .. } if messages::update_again(message) => Some(UPDATES),
            Self::Response { message, .. } if messages::response_again(message) => Some(RESPONSES),
            _ => None,
        }
    }

    /// How much of the output buffer is lent.
    fn room(&self) -> usize {
        match self {
            Self::Update { room, .. } | Self::Drain { room, .. } => *room,
            _ => 0,
        }
    }
}

/// The output buffer; what is behind the lent part must stay too.
const OUT_BUFFER: usize = 4096;

/// What a call of ours gave and left.
pub struct Outcome {
    pub given: SessionReply,
    pub store: Vec<u8>,
    pub out: Vec<u8>,
}

#[derive(Clone)]
pub struct Stage {
    pub record: Record,
    store: Vec<u8>,
    /// The store as it should be; between calls the two are equal.
    pub mirror: Vec<u8>,
    out: Vec<u8>,
    out_mirror: Vec<u8>,
}

impl Stage {
    /// A store and a record of any content.
    pub fn new(record: Record, store: Vec<u8>, rng: &mut Rng) -> Self {
        let out = rng.bytes(OUT_BUFFER);
        Self { record, mirror: store.clone(), store, out_mirror: out.clone(), out }
    }

    /// Opens a session on the store as it is. The Rust's session where ours is open, and compared.
    pub fn open(&mut self, tally: &mut Tally, consumer_id: u64, incarnation: u64, texts: &Texts) -> Option<Twin> {
        let (reply, writes) = identity::open(texts, self.mirror.len());
        let prediction = Prediction { reply, state: fresh(consumer_id, incarnation), writes, out: Vec::new() };
        let given = ours::open(consumer_id, incarnation, texts, &mut self.store);
        let open = reply.answer == raw::ACCEPTED;
        let twin = if open { Twin::open(consumer_id, incarnation, texts) } else { None };
        tally.left_out[SESSIONS] += u64::from(open && twin.is_none());
        tally.count(Call::Open, &given.reply, twin.is_some());
        let wrong = self.differs(&prediction, &given);
        let good = wrong.is_none();
        let wrong_twin = twin.as_ref().and_then(|twin| twin.differs(&given.state, &self.store));
        if let Some(what) = reported([wrong, wrong_twin]) {
            let input =
                || format!("store of {} bytes, kind {}, texts {:?}", self.store.len(), texts.kind, texts.texts.each_ref().map(|text| hex(text)));
            tally.differ(Call::Open, &what, input);
        }
        self.settle(&prediction, good);
        twin
    }

    /// Changes bytes of the store from outside.
    pub fn poke(&mut self, place: usize, bytes: &[u8]) {
        self.store[place..place + bytes.len()].copy_from_slice(bytes);
        self.mirror[place..place + bytes.len()].copy_from_slice(bytes);
    }

    /// Makes the call on our side, and on the Rust's where a twin is lent and none of ours is due, and compares everything.
    pub fn ask(&mut self, tally: &mut Tally, ask: &Ask, twin: Option<&mut Twin>) -> SessionReply {
        let (given, prediction, good) = self.judged(tally, ask, twin);
        self.settle(&prediction, good);
        given
    }

    /// The same, with store and output as the call itself left them.
    pub fn ask_keeping(&mut self, tally: &mut Tally, ask: &Ask, twin: Option<&mut Twin>) -> Outcome {
        let (given, prediction, good) = self.judged(tally, ask, twin);
        let outcome = Outcome { given, store: self.store.clone(), out: self.out.clone() };
        self.settle(&prediction, good);
        outcome
    }

    /// What was given, what should have been, and whether the two are the same; differences are reported.
    fn judged(&mut self, tally: &mut Tally, ask: &Ask, twin: Option<&mut Twin>) -> (SessionReply, Prediction, bool) {
        let prediction = predict(ask, &self.record, &self.mirror);
        let mut message = ask.message().to_vec();
        let given = make(ask, self.record, &mut self.store, &mut message, &mut self.out);
        let due = [&prediction.reply, &given.reply].iter().any(|reply| is_ours(reply));
        let fed = twin.filter(|_| !due && !matches!(ask, Ask::Check));
        tally.count(ask.call(), &given.reply, fed.is_some());
        if let Some(at) = ask.again().filter(|_| fed.is_some()) {
            tally.again[at] += 1;
        }
        let wrong = self.differs(&prediction, &given).or_else(|| (message != ask.message()).then(|| "the message was changed".into()));
        let (wrong_twin, text) = self.compare(ask, &given, fed);
        let good = wrong.is_none();
        if let Some(what) = reported([wrong, wrong_twin]) {
            tally.differ(ask.call(), &what, || self.show(&self.smallest(ask)));
        }
        if matches!(ask, Ask::Response { .. }) {
            check_text(tally, ask.message(), text);
        }
        (given, prediction, good)
    }

    /// Feeds the Rust's session and compares with it; also the broker's text, where it gave one.
    fn compare(&self, ask: &Ask, given: &SessionReply, twin: Option<&mut Twin>) -> (Option<String>, Option<String>) {
        let Some(twin) = twin else { return (None, None) };
        match twin.feed(ask) {
            Err(what) => (Some(what), None),
            Ok(fed) => {
                let differs = |fed: &Fed| answer_differs(&given.reply, fed, &self.store, &self.out);
                (differs(&fed).or_else(|| twin.differs(&given.state, &self.store)), fed.text)
            }
        }
    }

    /// How what was given differs from the prediction.
    fn differs(&self, prediction: &Prediction, given: &SessionReply) -> Option<String> {
        if given.reply != prediction.reply {
            return Some(format!("ours {}, expected {}", show(&given.reply), show(&prediction.reply)));
        }
        if given.state != prediction.state {
            return Some(format!("record: ours {:?}, expected {:?}", given.state, prediction.state));
        }
        let store = bytes_differ(&self.store, &self.mirror, &prediction.writes).map(|at| format!("store byte {at}"));
        let front = [(0, prediction.out.clone())];
        store.or_else(|| bytes_differ(&self.out, &self.out_mirror, &front).map(|at| format!("output byte {at}")))
    }

    /// Takes the prediction over, also where ours differed, so that one fault does not show again and again.
    fn settle(&mut self, prediction: &Prediction, good: bool) {
        for (place, bytes) in &prediction.writes {
            self.mirror[*place..place + bytes.len()].copy_from_slice(bytes);
        }
        self.out_mirror[..prediction.out.len()].copy_from_slice(&prediction.out);
        self.record = prediction.state;
        if !good {
            self.store.copy_from_slice(&self.mirror);
            self.out.copy_from_slice(&self.out_mirror);
        }
    }

    /// The call with the shortest message found on which ours still differs from the prediction.
    fn smallest(&self, ask: &Ask) -> Ask {
        let differs = |message: &[u8]| {
            let mut stage = Self { store: self.mirror.clone(), out: self.out_mirror.clone(), ..self.clone() };
            let ask = ask.with_message(message);
            let prediction = predict(&ask, &stage.record, &stage.mirror);
            let given = make(&ask, stage.record, &mut stage.store, &mut message.to_vec(), &mut stage.out);
            stage.differs(&prediction, &given).is_some()
        };
        ask.with_message(&shrunk(ask.message(), differs))
    }

    /// All that decides the call's answer.
    pub fn show(&self, ask: &Ask) -> String {
        let with = match ask {
            Ask::Update { message, incarnation, room } => format!("incarnation {incarnation}, output of {room}, message {}", hex(message)),
            Ask::Response { message, incarnation } => format!("incarnation {incarnation}, message {}", hex(message)),
            other => format!("{other:?}"),
        };
        let queue = self.show_queue();
        let held = if is_set(self.record.registered) { [SLOT, LIST].map(|place| self.show_sheet(place)) } else { [(); 2].map(|()| "none".into()) };
        format!(
            "{with}\n    {:?}\n    store of {} bytes: identity {}, baseline {}, list {}, queue {queue}",
            self.record,
            self.mirror.len(),
            self.show_identity(),
            held[0],
            held[1]
        )
    }

    fn show_identity(&self) -> String {
        let slot = self.mirror.get(..SLOT).unwrap_or(&self.mirror);
        match identity::read(slot) {
            Some((texts, kind)) => format!("{texts:?} {kind}"),
            None => format!("malformed {}..", hex(&slot[..slot.len().min(64)])),
        }
    }

    /// The bytes of the first entries; of a malformed queue the first bytes.
    fn show_queue(&self) -> String {
        let shown = match Queue::read(&self.mirror, self.record.queue_count.min(4)) {
            Some(queue) => self.mirror.get(QUEUE..queue.end),
            None => self.mirror.get(QUEUE..self.mirror.len().min(QUEUE + 256)),
        };
        shown.map_or_else(|| "outside".into(), hex)
    }

    /// The sheet in a slot; of a malformed one the first bytes.
    fn show_sheet(&self, place: usize) -> String {
        let Some(slot) = self.mirror.get(place..place + SLOT) else { return "outside".into() };
        match Sheet::at_front(slot) {
            Some(sheet) => hex(&slot[..sheet.size()]),
            None => format!("malformed {}..", hex(&slot[..64])),
        }
    }
}

/// What 01 says of the call.
fn predict(ask: &Ask, record: &Record, store: &[u8]) -> Prediction {
    match ask {
        Ask::Update { message, incarnation, room } => session::update(record, store, message, *incarnation, *room),
        Ask::Response { message, incarnation } => session::response(record, store, message, *incarnation),
        Ask::Drain { reader, room } => session::drain(record, store, *reader, *room),
        Ask::Begin { incarnation } => session::begin(record, *incarnation),
        Ask::Invalidate => session::invalidate(record),
        Ask::Check => session::check(record, store),
        Ask::Matches(texts) => Prediction { reply: identity::matches(store, texts), state: *record, writes: Vec::new(), out: Vec::new() },
    }
}

/// Makes the call on our side.
fn make(ask: &Ask, record: Record, store: &mut [u8], message: &mut [u8], out: &mut [u8]) -> SessionReply {
    let out = &mut out[..ask.room()];
    match ask {
        Ask::Update { incarnation, .. } => ours::update(record, store, message, *incarnation, out),
        Ask::Response { incarnation, .. } => ours::response(record, store, message, *incarnation),
        Ask::Drain { reader, .. } => ours::drain(record, store, *reader, out),
        Ask::Begin { incarnation } => ours::begin(record, *incarnation),
        Ask::Invalidate => ours::invalidate(record),
        Ask::Check => SessionReply { state: record, reply: ours::check(record, store) },
        Ask::Matches(texts) => SessionReply { state: record, reply: ours::matches(texts, store) },
    }
}

fn check_text(tally: &mut Tally, message: &[u8], broker: Option<String>) {
    let mut lent = message.to_vec();
    let part = ours::response_text(&mut lent);
    let read = messages::response(message).ok().map(|response| response.text.map_or(&[][..], |part| &message[part]));
    texts::check(tally, Call::ResponseText, part, (&lent, message), read, broker);
}

/// The first byte that is not as the mirror says, once the writes are made there.
pub fn bytes_differ(bytes: &[u8], mirror: &[u8], writes: &[Write]) -> Option<usize> {
    let mut at = 0;
    let differ = |from: usize, expected: &[u8]| {
        let given = &bytes[from..from + expected.len()];
        (given != expected).then(|| from + first_difference(given, expected))
    };
    for (place, written) in writes {
        let found = differ(at, &mirror[at..*place]).or_else(|| differ(*place, written));
        if found.is_some() {
            return found;
        }
        at = place + written.len();
    }
    differ(at, &mirror[at..])
}

/// An output that is always long enough.
pub const ROOM: usize = OUT_LEAST;
