//! The topics watch against `ScalableTopicsWatch`.
use crate::generate::{Field, Style, damaged, message};
use crate::model::{messages, watch as model};
use crate::oracle;
use crate::ours;
use crate::output::Output;
use crate::pb;
use crate::raw::{self, Reply};
use crate::relay;
use crate::reply::{is_ours, show, taken};
use crate::rng::Rng;
use crate::scalable_consumer::{ScalableTopicsWatch, TopicsChange, TopicsWatchError};
use crate::session::stage::bytes_differ;
use crate::tally::{Call, LONG_TOPICS, Tally, WATCHES, hex};
use crate::texts;

const POOL: &[&str] = &["", "a", "aa", "ab", "b", "b\u{0}", "topic://a/b/c", "topic://a/b/d", "é", "日本", "\u{10ffff}"];

fn set_of(topics: &[String]) -> Vec<u8> {
    model::packed(&topics.iter().map(|topic| topic.as_bytes()).collect())
}

/// What the Rust gave and holds then: reply, set, output, broker's text.
struct Theirs {
    reply: Reply,
    set: Vec<u8>,
    out: Vec<u8>,
    text: Option<String>,
}

/// The Rust's answer on the same set; an error where prost reads the message otherwise.
fn rust(watch_id: u64, topics: &model::Topics, bytes: &[u8]) -> Result<Theirs, String> {
    use pb::command_watch_scalable_topics_update::Event;
    let update = oracle::watch(bytes)?;
    let mut watch = ScalableTopicsWatch::new(watch_id, "a/b".into());
    let topics = topics.iter().map(|topic| String::from_utf8(topic.to_vec()).expect("a text")).collect();
    let event = Some(Event::Snapshot(pb::ScalableTopicsSnapshot { topics }));
    watch.handle_update(&pb::CommandWatchScalableTopicsUpdate { watch_id, event, ..Default::default() }).expect("a snapshot");
    let answer = watch.handle_update(&update);
    let set = set_of(&watch.topics());
    Ok(match answer {
        Err(error) => {
            let text = if let TopicsWatchError::Broker { message, .. } = &error { Some(message.clone()) } else { None };
            Theirs { reply: oracle::watch_refusal(&error), set, out: Vec::new(), text }
        }
        Ok(change) => {
            let out = change_of(&change);
            Theirs { reply: taken(raw::WRITTEN, &[set.len() as u64, out.len() as u64]), set, out, text: None }
        }
    })
}

fn change_of(change: &TopicsChange) -> Vec<u8> {
    match change {
        TopicsChange::Snapshot { topics } => [vec![0], set_of(topics)].concat(),
        TopicsChange::Diff { added, removed } => {
            let added = set_of(added);
            [vec![1], (added.len() as u32).to_be_bytes().to_vec(), added, set_of(removed)].concat()
        }
    }
}

/// A lent buffer and an output, with mirrors.
pub struct Bench {
    buffer: Vec<u8>,
    pub mirror: Vec<u8>,
    output: Output,
}

/// A call: the watch's id, the lent part of the buffer, the set's length, the message, the output's length.
pub struct Watched<'a> {
    pub watch_id: u64,
    pub length: usize,
    pub used: usize,
    pub message: &'a [u8],
    pub room: usize,
}

impl Bench {
    pub fn new(length: usize, rng: &mut Rng) -> Self {
        let buffer = rng.bytes(length);
        Self { mirror: buffer.clone(), buffer, output: Output::new(length + 8, rng) }
    }

    /// Puts a set at the buffer's front.
    pub fn put(&mut self, set: &[u8]) {
        self.buffer[..set.len()].copy_from_slice(set);
        self.mirror[..set.len()].copy_from_slice(set);
    }

    /// Makes the call on our side, and on the Rust's where none of ours is due, and holds ours to the model and to the Rust.
    pub fn check(&mut self, tally: &mut Tally, call: &Watched) {
        let lent = &self.mirror[..call.length];
        let expected = model::watch(call.watch_id, lent, call.used, call.message, call.room);
        let mut bytes = call.message.to_vec();
        let given = ours::watch(call.watch_id, &mut self.buffer[..call.length], call.used, &mut bytes, self.output.lent(call.room));
        let fed = !is_ours(&expected.reply) && !is_ours(&given);
        let theirs = fed.then(|| rust(call.watch_id, &model::topics(lent, call.used).expect("a set"), call.message));
        tally.count(Call::Watch, &given, fed);
        tally.again[WATCHES] += u64::from(fed && messages::watch_again(call.message));
        let by_rust = theirs.as_ref().and_then(|theirs| self.differs_from_the_rust(&given, theirs));
        let by_model = self.differs(&given, expected.clone(), (&bytes, call.message));
        let shown = if by_model.is_some() || by_rust.is_some() { self.show(call) } else { String::new() };
        self.output.settle(tally, Call::Watch, [by_model, by_rust], || shown);
        check_text(tally, call.message, theirs.and_then(Result::ok).and_then(|theirs| theirs.text));
        self.put(&expected.set);
        self.buffer.copy_from_slice(&self.mirror);
    }

    /// How the answer, the buffer and the output differ from the prediction; `message` is as it was left, and as it was.
    fn differs(&mut self, given: &Reply, expected: model::Prediction, message: (&[u8], &[u8])) -> Option<String> {
        let written = [(0, expected.set)];
        let buffer = bytes_differ(&self.buffer, &self.mirror, &written).map(|at| format!("buffer byte {at}"));
        let rest = self.output.differs(given, &(expected.reply, expected.out), &[message]);
        buffer.or(rest)
    }

    /// How the answer, the set at the buffer's front and the output differ from what the Rust gave and holds.
    fn differs_from_the_rust(&self, given: &Reply, theirs: &Result<Theirs, String>) -> Option<String> {
        match theirs {
            Err(what) => Some(what.clone()),
            Ok(theirs) if !self.buffer.starts_with(&theirs.set) => Some("the set is not the Rust's".into()),
            Ok(theirs) => self.output.differs_from_the_rust(given, &(theirs.reply, theirs.out.clone())),
        }
    }

    /// All that decides the call's answer.
    fn show(&self, call: &Watched) -> String {
        let set = self.mirror.get(..call.used).unwrap_or(&[]);
        let Watched { watch_id, length, room, message, .. } = call;
        format!("id {watch_id}, buffer of {length}, set {}, output of {room}, message {}", hex(set), hex(message))
    }
}

fn check_text(tally: &mut Tally, bytes: &[u8], broker: Option<String>) {
    let mut lent = bytes.to_vec();
    let part = ours::watch_text(&mut lent);
    let read = messages::watch(bytes).ok().map(|update| update.text.map_or(&[][..], |part| &bytes[part]));
    texts::check(tally, Call::WatchText, part, (&lent, bytes), read, broker);
}

/// A message of these topics: a snapshot of `added`, or a diff.
pub fn event(watch_id: u64, snapshot: bool, added: &[Vec<u8>], removed: &[Vec<u8>], style: Style, rng: &mut Rng) -> Vec<u8> {
    let mut inner: Vec<Field> = added.iter().map(|topic| Field::Bytes(1, topic.clone())).collect();
    if !snapshot {
        inner.extend(removed.iter().map(|topic| Field::Bytes(2, topic.clone())));
    }
    let inner = message(&inner, style, rng);
    message(&[Field::Number(1, watch_id, 64), Field::Bytes(if snapshot { 2 } else { 3 }, inner)], style, rng)
}

/// How long the new set and the output are, 0 where the call is refused anyway.
pub fn needed(watch_id: u64, buffer: &[u8], used: usize, bytes: &[u8]) -> (usize, usize) {
    let given = model::watch(watch_id, buffer, used, bytes, usize::MAX);
    (given.set.len(), given.out.len())
}

/// Of so many calls one has topics of about the most bytes.
const LONG_TOPIC: usize = 80;

pub struct Watch {
    rng: Rng,
    bench: Bench,
    used: usize,
    /// For topics of about the most bytes.
    long: Bench,
    long_used: usize,
}

impl Watch {
    pub fn new(seed: u64) -> Self {
        let mut rng = Rng::new(seed, "watch");
        let bench = Bench::new(1 << 12, &mut rng);
        let long = Bench::new(1 << 18, &mut rng);
        Self { rng, bench, used: 0, long, long_used: 0 }
    }

    pub fn step(&mut self, tally: &mut Tally) {
        for _ in 0..40 {
            if self.rng.one_in(LONG_TOPIC) {
                self.long_topics(tally);
            }
            if self.rng.one_in(12) {
                self.other_set();
            }
            let bytes = self.message();
            let watch_id = if self.rng.one_in(30) { 4 } else { 3 };
            let whole = self.bench.mirror.len();
            let (set, out) = needed(watch_id, &self.bench.mirror, self.used, &bytes);
            let near = |needed: usize, rng: &mut Rng| rng.pick(&[needed, needed.saturating_sub(1), needed + 1, whole, whole]).min(whole);
            let length = if self.rng.one_in(4) { near(set, &mut self.rng) } else { whole };
            let room = near(out, &mut self.rng);
            let call = Watched { watch_id, length, used: self.used, message: &bytes, room };
            let answer = model::watch(watch_id, &self.bench.mirror[..length], self.used, &bytes, room).reply;
            self.bench.check(tally, &call);
            if answer.answer == raw::WRITTEN {
                self.used = answer.first as usize;
            }
        }
    }

    /// Topics of 65,534 to 65,536 bytes added, removed or told, with a buffer that just suffices or more.
    fn long_topics(&mut self, tally: &mut Tally) {
        let rng = &mut self.rng;
        let mut some = || -> Vec<Vec<u8>> {
            let length = |rng: &mut Rng| if rng.one_in(6) { 65_536 } else { 65_535 - rng.below(2) };
            (0..rng.below(3)).map(|_| vec![rng.pick(b"abc"); length(rng)]).collect()
        };
        let (added, removed) = (some(), some());
        let bytes = event(3, rng.one_in(3), &added, &removed, Style::Plain, rng);
        let (set, out) = needed(3, &self.long.mirror, self.long_used, &bytes);
        let whole = self.long.mirror.len();
        let length = if rng.one_in(2) { set.max(self.long_used) } else { whole };
        let room = if rng.one_in(8) { out.saturating_sub(1) } else { out };
        let answer = model::watch(3, &self.long.mirror[..length], self.long_used, &bytes, room).reply;
        self.long.check(tally, &Watched { watch_id: 3, length, used: self.long_used, message: &bytes, room });
        if answer.answer == raw::WRITTEN {
            self.long_used = answer.first as usize;
            tally.limits[LONG_TOPICS] += u64::from(added.iter().any(|topic| topic.len() == 65_535));
        }
    }

    /// A set at random, sometimes spoiled; now and then a length beyond the buffer.
    fn other_set(&mut self) {
        let rng = &mut self.rng;
        let topics: Vec<String> = (0..rng.below(7)).map(|_| rng.pick(POOL).to_string()).collect();
        let mut set = set_of(&topics);
        if rng.one_in(3) && !set.is_empty() {
            let at = rng.below(set.len());
            match rng.below(3) {
                0 => set[at] ^= 1 << rng.below(8),
                1 => set.truncate(at),
                _ => set.insert(at, rng.byte()),
            }
        }
        self.bench.put(&set);
        self.used = if rng.one_in(20) { rng.pick(&[4097, usize::MAX, set.len() + 1]) } else { set.len() };
    }

    /// A few topics of the pool, or now and then many short ones.
    fn topics(&mut self) -> Vec<Vec<u8>> {
        let rng = &mut self.rng;
        match rng.below(60) {
            0 => (0..rng.below(1200)).map(|_| format!("{:x}", rng.below(700)).into_bytes()).collect(),
            1..20 => Vec::new(),
            _ => (0..rng.below(6)).map(|_| rng.pick(POOL).as_bytes().to_vec()).collect(),
        }
    }

    fn message(&mut self) -> Vec<u8> {
        let (added, removed) = (self.topics(), self.topics());
        let rng = &mut self.rng;
        let style = if rng.one_in(3) { Style::Wild } else { Style::Plain };
        let bytes = if rng.one_in(8) {
            let mut fields = vec![Field::Number(1, 3, 64)];
            if !rng.one_in(3) {
                fields.push(Field::Number(4, rng.pick(&[0, 1, u64::MAX, 77]), 32));
            }
            fields.push(Field::Bytes(5, rng.pick(&["", "gone", "§"]).as_bytes().to_vec()));
            message(&fields, style, rng)
        } else {
            let snapshot = rng.one_in(3);
            event(3, snapshot, &added, &removed, style, rng)
        };
        let bytes = if rng.one_in(4) { relay::watch(&bytes, rng) } else { bytes };
        if rng.one_in(10) { damaged(&bytes, rng) } else { bytes }
    }
}

/// Long topics, buffers and outputs one byte short, sets that are just not sets.
pub fn directed(tally: &mut Tally, seed: u64) {
    let mut rng = Rng::new(seed, "long topics");
    let mut bench = Bench::new(1 << 18, &mut rng);
    let whole = 1 << 18;
    for length in [0, 1, 65_534, 65_535, 65_536, 70_000] {
        let topic = vec![b'x'; length];
        for (added, removed) in
            [(vec![topic.clone()], Vec::new()), (Vec::new(), vec![topic.clone()]), (vec![topic.clone(); 2], vec![topic.clone(); 2])]
        {
            for snapshot in [true, false] {
                let bytes = event(3, snapshot, &added, &removed, Style::Plain, &mut rng);
                around(tally, &mut bench, &[], &bytes, whole);
                around(tally, &mut bench, &set_of(&["a".into(), "xx".into()]), &bytes, whole);
            }
        }
    }
    sets(tally, &mut bench);
    first_faults(tally, &mut bench);
}

/// The call with buffer and output that are enough, exact, and one byte short.
pub fn around(tally: &mut Tally, bench: &mut Bench, set: &[u8], bytes: &[u8], whole: usize) {
    bench.put(set);
    let (buffer, room) = needed(3, &bench.mirror, set.len(), bytes);
    let rooms = [(whole, whole), (buffer, room), (buffer.saturating_sub(1), room), (buffer, room.saturating_sub(1)), (buffer.saturating_sub(1), 0)];
    for (length, room) in rooms {
        bench.put(set);
        bench.check(tally, &Watched { watch_id: 3, length: length.max(set.len()).min(whole), used: set.len(), message: bytes, room });
    }
}

/// Sets and near sets, by hand.
fn sets(tally: &mut Tally, bench: &mut Bench) {
    let message = [0x08, 0x03, 0x1a, 0x03, 0x0a, 0x01, b'k'];
    let sets: &[&[u8]] = &[
        b"",
        b"\0",
        b"\0\0",
        b"\0\0\0\0",
        b"\0\x01a",
        b"\0\x01a\0\x01a",
        b"\0\x01b\0\x01a",
        b"\0\x02ab\0\x01a",
        b"\0\x01a\0\x02ab",
        b"\0\x02a",
        b"\0\x01\xff",
        b"\0\x01\x80",
        b"\x01\0a",
        b"\0\x01a\0",
        b"\0\0\0\x01a",
        b"\0\x01a\0\0",
        b"\0\x02\xc3\xa4",
        b"\0\x01\xc3\0\x01\xa4",
    ];
    for set in sets {
        bench.put(set);
        bench.check(tally, &Watched { watch_id: 3, length: 64, used: set.len(), message: &message, room: 64 });
    }
    for used in [65, 66, 1 << 20, usize::MAX] {
        bench.check(tally, &Watched { watch_id: 3, length: 64, used, message: &message, room: 64 });
    }
}

/// Messages and the number of each, written down; 0 where it is taken.
const FIRST_FAULTS: &[(&[u8], u8)] = &[
    (b"", 6),
    (b"\x12\0", 6),
    (b"\x08", 3),
    (b"\x08\x03", 17),
    (b"\x08\x03\x12\0", 0),
    (b"\x08\x03\x1a\0", 0),
    (b"\x08\x04\x1a\0", 29),
    (b"\x08\x03\x12\0\x1a\0", 0),
    (b"\x08\x03\x1a\0\x12\0", 0),
    (b"\x08\x03\x12\0\x12\0", 0),
    (b"\x08\x03\x12\0\x1a\0\x12\0", 0),
    (b"\x08\x04\x1a\0\x08\x03", 0),
    (b"\x08\x03\x1a\0\x08\x04", 29),
    (b"\x08\x03\x20\x05\x20\x06", 16),
    (b"\x08\x03\x12\x03\x0a\x01\xff\x1a\0", 7),
    (b"\x08\x03\x1a\x03\x12\x01\xff\x12\0", 7),
    (b"\x08\x03\x20\0\x2a\x01\xff\x2a\x01x", 7),
    (b"\x12\0\x18\0", 4),
    (b"\x12\0\x1a\x01", 3),
    (b"\x08\x03\x12\0\x18\0", 4),
    (b"\x08\x03\x12\0\x1b", 3),
    (b"\x08\x03\x20\x05", 16),
    (b"\x08\x03\x20\0\x2a\x01x", 16),
    (b"\x08\x03\x20\0\x2a\x01\xff", 7),
    (b"\x08\x03\x20\x05\x12\0", 0),
    (b"\x08\x03\x2a\x01x", 17),
    (b"\x08\x03\x1a\x03\x0a\x01\xc3", 7),
    (b"\x08\x03\x1a\x02\x0a\x01", 3),
    (b"\x08\x03\x1a\x03\x12\x01x", 0),
    (b"\x08\x03\x12\x03\x12\x01\xff", 0),
    (b"\x08\x03\x12\x02\x08\x01", 4),
];

fn first_faults(tally: &mut Tally, bench: &mut Bench) {
    for (message, number) in FIRST_FAULTS {
        let expected = model::watch(3, &bench.mirror, 0, message, 64).reply;
        if expected.number != *number || (expected.answer == raw::REFUSED) != (*number != 0) {
            tally.differ(Call::Watch, &format!("the model {}, written down {number}", show(&expected)), || hex(message));
        }
        bench.check(tally, &Watched { watch_id: 3, length: 64, used: 0, message, room: 64 });
    }
}
