//! A sample of the Rust's answers: sessions as a log of calls, and what the program `station` has to print for them with --lists and --state. One message in three is as a
//! relay passes it on that appends fields (02 b). The port has no part in it; only the queue's numbers and a replay's place, which the Rust does not keep, are counted here
//! by 01's words, and the lost counts by 02's (request n).
use crate::generate::{Assignment, Style, refusing_response};
use crate::model::churn;
use crate::model::messages;
use crate::model::session::{QUEUE, content};
use crate::oracle;
use crate::raw::READERS;
use crate::relay;
use crate::rng::Rng;
use crate::scalable_consumer::{
    AssignedSegment, AssignmentDelta, AssignmentError, AssignmentReplay, ConsumerAssignment, ControllerIncarnation, ScalableConsumerSession,
    ScalableConsumerType, SegmentTopicError,
};
use crate::session::world::World;
use crate::types::KeyRangeError;
use std::collections::VecDeque;
use std::fmt::Write as _;

const SESSIONS: usize = 24;
const CALLS: usize = 16;
const TOPICS: &[&str] = &["topic://a/b/c", "topic://t/n//m", "topic://t0/n1/m", "topic://t//m"];
const CONSUMER: u64 = 7;

/// The log and the answers as they grow.
#[derive(Default)]
struct Pages {
    log: String,
    answers: String,
    line: usize,
    calls: usize,
    refused: usize,
}

/// The Rust's session, with what the port counts: the queue, and the replays with their places. Reader 0 alone drains.
struct Twin {
    session: ScalableConsumerSession,
    queue: Vec<ConsumerAssignment>,
    waiting: VecDeque<(usize, AssignmentReplay)>,
    drained: usize,
    /// The lost counts of all deltas since the last clearing.
    lost: Vec<u64>,
}

/// An error's name, and the names of its numbers.
fn words(error: &AssignmentError) -> (&'static str, &'static [&'static str]) {
    match error {
        AssignmentError::InvalidRange { source: KeyRangeError::StartOutOfBounds { .. }, .. } => ("InvalidRange", &["segment_id", "kind", "start"]),
        AssignmentError::InvalidRange { source: KeyRangeError::EndOutOfBounds { .. }, .. } => ("InvalidRange", &["segment_id", "kind", "end"]),
        AssignmentError::InvalidRange { .. } => ("InvalidRange", &["segment_id", "kind", "start", "end"]),
        AssignmentError::InvalidBucketRange { .. } => ("InvalidBucketRange", &["segment_id", "index", "start", "end"]),
        AssignmentError::OverlappingBucketRanges { .. } => ("OverlappingBucketRanges", &["segment_id"]),
        AssignmentError::SegmentTopic(SegmentTopicError::InvalidParent { .. }) => ("InvalidParent", &[]),
        AssignmentError::AttachmentMismatch { .. } => ("AttachmentMismatch", &["segment_id"]),
        AssignmentError::DuplicateSegment { .. } => ("DuplicateSegment", &["segment_id"]),
        AssignmentError::Broker { .. } => ("Broker", &["code"]),
        AssignmentError::Empty { .. } => ("Empty", &["request_id"]),
        AssignmentError::IncarnationMismatch { .. } => ("IncarnationMismatch", &["got", "expected"]),
        AssignmentError::ConsumerMismatch { .. } => ("ConsumerMismatch", &["got", "expected"]),
        AssignmentError::NonAdvancingIncarnation { .. } => ("NonAdvancingIncarnation", &["got", "prev"]),
        AssignmentError::CrossIncarnationEpochRegression { .. } => ("CrossIncarnationEpochRegression", &["got", "floor"]),
        AssignmentError::StaleEpoch { .. } => ("StaleEpoch", &["got", "prev"]),
        AssignmentError::PreBaselineBufferFull { .. } => ("PreBaselineBufferFull", &["max"]),
        other => unreachable!("{other:?}: nothing here gives it"),
    }
}

fn escaped(text: &str) -> String {
    text.bytes().fold(String::new(), |mut out, byte| {
        let plain = (0x20..0x7f).contains(&byte) && byte != b'"' && byte != b'\\';
        if plain {
            out.push(byte as char)
        } else {
            write!(out, "\\x{byte:02x}").expect("a string")
        }
        out
    })
}

/// `refused N NAME` and each value behind its name, for the broker's with its text.
fn refusal(error: &AssignmentError) -> String {
    let reply = oracle::refusal(error);
    let (name, names) = words(error);
    assert_eq!(names.len(), usize::from(reply.count), "{name}: each value has its name");
    let mut out = format!("refused {} {name}", reply.number);
    for (at, (name, value)) in names.iter().zip([reply.first, reply.second, reply.third, reply.fourth]).enumerate() {
        let signed = reply.number == 16 || (reply.number == 10 && at > 1);
        if signed { write!(out, " {name} {}", value as i64) } else { write!(out, " {name} {value}") }.expect("a string");
    }
    if let AssignmentError::Broker { message, .. } = error {
        write!(out, " text \"{}\"", escaped(message)).expect("a string");
    }
    out
}

fn row(segment: &AssignedSegment) -> String {
    let range = segment.key_range();
    let buckets: Vec<String> = segment.bucket_ranges().iter().map(|bucket| format!("{:04x}-{:04x}", bucket.start(), bucket.end())).collect();
    let buckets = if buckets.is_empty() { "-".into() } else { buckets.join(",") };
    format!("{} {:04x}-{:04x} {buckets}", segment.segment_id().0, range.start(), range.end())
}

fn change(delta: &AssignmentDelta) -> String {
    format!("epoch {} lost {} gained {}", delta.layout_epoch, delta.lost.len(), delta.gained.len())
}

fn counts(list: &ConsumerAssignment) -> String {
    format!("epoch {} segments {}", list.layout_epoch(), list.segments().len())
}

/// What a delta loses and gains, a row each.
fn changes(delta: &AssignmentDelta) -> Vec<String> {
    let lost = delta.lost.iter().map(|id| format!("lost {}", id.0));
    lost.chain(delta.gained.iter().map(|segment| format!("gained {}", row(segment)))).collect()
}

fn yes(b: bool) -> &'static str {
    if b { "yes" } else { "no" }
}

impl Pages {
    fn comment(&mut self, text: &str) {
        self.line += 1;
        writeln!(self.log, "# {text}").expect("a string");
    }

    /// A call, its answer, and what is seen behind it: the rows of a baseline or a delta, and the list that is held where it was set anew.
    fn call(&mut self, call: &str, words: &str, answer: &str, rows: &[String], twin: &Twin) {
        self.line += 1;
        self.calls += 1;
        self.refused += usize::from(answer.starts_with("refused"));
        writeln!(self.log, "{call}{words}").expect("a string");
        let out = &mut self.answers;
        let session = &twin.session;
        let churn = churn::reckoned(&twin.lost);
        let floor = session.epoch_floor().map_or("none".into(), |floor| floor.to_string());
        writeln!(out, "{} {call} {answer}", self.line).expect("a string");
        writeln!(
            out,
            "  state incarnation {} floor {floor} registered {} invalidated {} queue {} drained {}{} lost {} largest {}",
            session.incarnation().0,
            yes(session.is_registered()),
            yes(session.is_invalidated()),
            twin.queue.len(),
            twin.drained,
            " 0".repeat(READERS - 1),
            churn.first,
            churn.second
        )
        .expect("a string");
        rows.iter().for_each(|row| writeln!(out, "  {row}").expect("a string"));
        if !answer.starts_with("accepted") && !answer.starts_with("delta") {
            return;
        }
        let Some(list) = session.assignment() else {
            return writeln!(out, "  held none").expect("a string");
        };
        writeln!(out, "  held {}", counts(list)).expect("a string");
        list.segments().iter().for_each(|segment| writeln!(out, "    {}", row(segment)).expect("a string"));
    }
}

fn hex(bytes: &[u8]) -> String {
    bytes.iter().fold("0x".into(), |out, byte| format!("{out}{byte:02x}"))
}

impl Twin {
    /// Where the sheet of a queue entry lies: behind the entries before it, and its own length.
    fn place(&self, at: usize) -> usize {
        let size = |list: &ConsumerAssignment| 2 + 10 + list.segments().iter().map(|segment| 14 + 4 * segment.bucket_ranges().len()).sum::<usize>();
        QUEUE + self.queue[..at].iter().map(size).sum::<usize>() + 2
    }

    fn unlinked(&mut self) {
        self.queue.clear();
        self.waiting.clear();
        self.drained = 0;
        self.lost.clear();
    }

    fn update(&mut self, pages: &mut Pages, incarnation: u64, message: &[u8]) {
        let words = format!(" {incarnation} {}", hex(message));
        let read = oracle::update(message).expect("a message that the reader takes");
        let queues = !self.session.is_registered();
        match self.session.handle_assignment_update_for(ControllerIncarnation(incarnation), &read) {
            Err(error) => pages.call("update", &words, &refusal(&error), &[], self),
            Ok(None) => {
                if queues {
                    let list = ConsumerAssignment::try_from_pb(&read.assignment, self.session.topic()).expect("a list that was taken");
                    self.queue.push(list);
                }
                pages.call("update", &words, "none", &[], self);
            }
            Ok(Some(delta)) => {
                self.lost.push(delta.lost.len() as u64);
                pages.call("update", &words, &format!("delta {}", change(&delta)), &changes(&delta), self);
            }
        }
    }

    fn response(&mut self, pages: &mut Pages, incarnation: u64, message: &[u8]) {
        let words = format!(" {incarnation} {}", hex(message));
        let read = oracle::response(message).expect("a message that the reader takes");
        let was = self.session.is_registered();
        match self.session.handle_subscribe_response_for(ControllerIncarnation(incarnation), &read) {
            Err(error) => pages.call("response", &words, &refusal(&error), &[], self),
            Ok(baseline) => {
                if was {
                    self.queue.clear();
                }
                let before = std::iter::once(&baseline).chain(&self.queue);
                let places = before.zip(&self.queue).enumerate().filter(|(_, (old, new))| old != new).map(|(at, _)| at);
                let places: Vec<usize> = places.collect();
                let replays = self.session.take_replayed_updates();
                assert_eq!(places.len(), replays.len(), "each replay has its place");
                self.waiting = places.into_iter().zip(replays).collect();
                self.drained = 0;
                let rows: Vec<String> = baseline.segments().iter().map(|segment| format!("baseline {}", row(segment))).collect();
                pages.call("response", &words, &format!("accepted baseline {}", counts(&baseline)), &rows, self);
            }
        }
    }

    fn drain(&mut self, pages: &mut Pages) {
        match self.waiting.pop_front() {
            Some((at, replay)) => {
                self.drained = at + 1;
                self.lost.push(replay.delta.lost.len() as u64);
                let answer = format!("replay at {} {}", self.place(at), change(&replay.delta));
                pages.call("drain", " 0", &answer, &changes(&replay.delta), self);
            }
            None => {
                if self.session.is_registered() {
                    self.drained = self.queue.len();
                }
                pages.call("drain", " 0", "none", &[], self);
            }
        }
    }

    fn begin(&mut self, pages: &mut Pages, incarnation: u64) {
        let words = format!(" {incarnation}");
        match self.session.begin_incarnation(ControllerIncarnation(incarnation)) {
            Err(error) => pages.call("begin", &words, &refusal(&error), &[], self),
            Ok(()) => {
                self.unlinked();
                pages.call("begin", &words, "accepted", &[], self);
            }
        }
    }
}

/// A list of few and short segments, now and then with a fault, its epoch near the floor, on which 34 is not due.
fn list(world: &mut World, twin: &Twin, rng: &mut Rng) -> Assignment {
    let floor = twin.session.epoch_floor().unwrap_or(3);
    let epoch = (floor + rng.pick(&[0, 0, 1, 1, 2])).saturating_sub(rng.pick(&[0, 0, 0, 1]));
    loop {
        let list = if rng.one_in(6) { world.faulty(epoch, rng) } else { world.list(epoch, rng) };
        let read = messages::update(&list.update(CONSUMER, Style::Plain, rng));
        let due = read.is_ok_and(|read| content(&read.assignment, twin.session.topic()).is_err_and(|reply| reply.number == 34));
        if !due && list.parts.len() <= 4 && list.parts.iter().all(|part| part.buckets.len() <= 3) {
            return list;
        }
    }
}

fn session(pages: &mut Pages, seed: u64, number: usize) {
    let mut rng = Rng::new(seed, &format!("record {number}"));
    let topic = TOPICS[if number % 8 == 7 { 3 } else { number % 3 }];
    let new = |incarnation| {
        ScalableConsumerSession::new(CONSUMER, topic.into(), "s".into(), "n".into(), ScalableConsumerType::Stream, ControllerIncarnation(incarnation))
    };
    let mut twin = Twin { session: new(1), queue: Vec::new(), waiting: VecDeque::new(), drained: 0, lost: Vec::new() };
    let mut world = World::new(topic);
    pages.comment(&format!("session {number}"));
    pages.call("open", &format!(" {CONSUMER} 1 {topic} s n stream"), "accepted", &[], &twin);
    for _ in 0..CALLS {
        let now = twin.session.incarnation().0;
        let link = if rng.one_in(16) { now + 1 } else { now };
        match rng.below(if twin.session.is_registered() { 12 } else { 8 }) {
            0 | 1 if rng.one_in(5) => {
                let message = refusing_response(rng.below(9) as u64, Style::Plain, &mut rng);
                twin.response(pages, link, &message);
            }
            0 | 1 => {
                let message = list(&mut world, &twin, &mut rng).response(rng.below(9) as u64, Style::Plain, &mut rng);
                let message = if rng.one_in(3) { relay::response(&message, &mut rng) } else { message };
                twin.response(pages, link, &message);
            }
            2 if rng.one_in(2) => twin.begin(pages, now + rng.below(2) as u64),
            3 if rng.one_in(4) => {
                twin.session.invalidate_authority();
                twin.unlinked();
                pages.call("invalidate", "", "accepted", &[], &twin);
            }
            4..7 => {
                let consumer = if rng.one_in(10) { 8 } else { CONSUMER };
                let message = list(&mut world, &twin, &mut rng).update(consumer, Style::Plain, &mut rng);
                let message = if rng.one_in(3) { relay::update(&message, &mut rng) } else { message };
                twin.update(pages, link, &message);
            }
            _ => twin.drain(pages),
        }
    }
}

/// Writes the log and the answers to `stdin` and `stdout` in the folder.
pub fn run(folder: &str, seed: u64) -> i32 {
    let mut pages = Pages::default();
    pages.comment(&format!("Sessions answered by the Rust: `compare/run --record FOLDER {seed}` writes this log and the answers beside it, in the words of the program station."));
    (0..SESSIONS).for_each(|number| session(&mut pages, seed, number));
    let accepted = pages.calls - pages.refused;
    writeln!(pages.answers, "{} calls: {accepted} accepted, {} refused; 0 damaged lines", pages.calls, pages.refused).expect("a string");
    let path = std::path::Path::new(folder);
    std::fs::write(path.join("stdin"), pages.log).expect("stdin");
    std::fs::write(path.join("stdout"), pages.answers).expect("stdout");
    println!("compare: {} calls of {SESSIONS} sessions recorded in {folder}", pages.calls);
    0
}
