//! Runs the Rust as often as asked and prints what came of it:
//!
//!     rust-session PARENT decode FILE TIMES      an update decoded by prost
//!     rust-session PARENT intake FILE TIMES      the assignment of an update that was decoded beforehand
//!     rust-session PARENT both FILE TIMES        an update decoded, and its assignment
//!     rust-session PARENT text FILE TIMES        a text by `core::str::from_utf8`
//!     rust-session PARENT update, stray, reconnect, watch ..      as bench/port.c has them; each message is decoded by prost
//!     rust-session PARENT binding FIRST SECOND TIMES       updates of a registered session through bindings/rust
//!     rust-session PARENT open                   a session and nothing else
//!
//! A session is not dropped at the end: what it holds is then what valgrind finds in use at exit.
use prost::Message as _;
use std::hint::black_box;

include!(concat!(env!("OUT_DIR"), "/sources.rs"));

use scalable_consumer::{ConsumerAssignment, ControllerIncarnation, ScalableConsumerSession, ScalableConsumerType, ScalableTopicsWatch, TopicsChange};

/// What a newer prost derives, and Debian's does not.
macro_rules! from_number {
    ($($name:ident)*) => {
        $(impl TryFrom<i32> for pb::$name {
            type Error = ();
            fn try_from(value: i32) -> Result<Self, ()> {
                Self::from_i32(value).ok_or(())
            }
        })*
    };
}

from_number!(SegmentState CompressionType ScalableConsumerType);

/// Request 1 answered by a list with no segments at epoch 0.
const EMPTY: [u8; 6] = [0x08, 0x01, 0x22, 0x02, 0x08, 0x00];
/// So many pushes wait at most: behind them a new link empties the queue.
const WAITING: usize = 1000;

fn decoded(message: &[u8]) -> pb::CommandScalableTopicAssignmentUpdate {
    pb::CommandScalableTopicAssignmentUpdate::decode(message).expect("an update")
}

/// A session over a link, and what its calls came to.
struct Run {
    session: ScalableConsumerSession,
    link: ControllerIncarnation,
    refused: usize,
    lost: usize,
    gained: usize,
}

impl Run {
    fn open(parent: &str) -> Self {
        let link = ControllerIncarnation(1);
        let session = ScalableConsumerSession::new(7, parent.into(), "s".into(), "n".into(), ScalableConsumerType::Stream, link);
        Self { session, link, refused: 0, lost: 0, gained: 0 }
    }

    fn begin(&mut self) {
        self.link.0 += 1;
        self.session.begin_incarnation(self.link).expect("a higher number");
    }

    fn update(&mut self, message: &[u8]) {
        self.update_on(message, self.link);
    }

    fn update_on(&mut self, message: &[u8], link: ControllerIncarnation) {
        let update = decoded(black_box(message));
        match black_box(self.session.handle_assignment_update_for(link, &update)) {
            Ok(Some(delta)) => (self.lost, self.gained) = (delta.lost.len(), delta.gained.len()),
            Ok(None) => {}
            Err(_) => self.refused += 1,
        }
    }

    /// The response that registers the session, and the replays of what was queued.
    fn respond(&mut self, message: &[u8]) {
        let response = pb::CommandScalableTopicSubscribeResponse::decode(black_box(message)).expect("a response");
        self.refused += usize::from(self.session.handle_subscribe_response_for(self.link, &response).is_err());
        for replay in black_box(self.session.take_replayed_updates()) {
            (self.lost, self.gained) = (replay.delta.lost.len(), replay.delta.gained.len());
        }
    }

    /// What the calls came to. The session stays in memory.
    fn close(self) {
        println!("{} {} {}", self.refused, self.lost, self.gained);
        std::mem::forget(self);
    }
}

fn decode(message: &[u8], times: usize) {
    let refused = |_: &usize| black_box(pb::CommandScalableTopicAssignmentUpdate::decode(black_box(message))).is_err();
    println!("{}", (0..times).filter(refused).count());
}

fn intake(parent: &str, message: &[u8], times: usize) {
    let update = decoded(message);
    let refused = |_: &usize| black_box(ConsumerAssignment::try_from_pb(black_box(&update.assignment), parent)).is_err();
    println!("{}", (0..times).filter(refused).count());
}

fn both(parent: &str, message: &[u8], times: usize) {
    let refused = |_: &usize| black_box(ConsumerAssignment::try_from_pb(&decoded(black_box(message)).assignment, parent)).is_err();
    println!("{}", (0..times).filter(refused).count());
}

fn text(bytes: &[u8], times: usize) {
    let refused = |_: &usize| black_box(core::str::from_utf8(black_box(bytes))).is_err();
    println!("{}", (0..times).filter(refused).count());
}

/// A session before its updates: so many pushes in the queue, drained where it is registered, and an update by the second message.
fn prepared(parent: &str, messages: [&[u8]; 2], registered: bool, queued: usize) -> Run {
    let mut run = Run::open(parent);
    for _ in 0..queued {
        run.update(messages[0]);
    }
    if registered {
        run.respond(&EMPTY);
    }
    run.update(messages[1]);
    (run.refused, run.lost, run.gained) = (0, 0, 0);
    run
}

/// Updates by two messages in turn, addressed to the session's link or to the next one.
fn updates(mut run: Run, messages: [&[u8]; 2], registered: bool, stray: bool, times: usize) {
    for turn in 0..times {
        if !registered && turn % WAITING == WAITING - 1 {
            run.begin();
        }
        let link = ControllerIncarnation(run.link.0 + u64::from(stray));
        run.update_on(messages[turn % 2], link);
    }
    run.close();
}

fn reconnects(parent: &str, messages: [&[u8]; 3], queued: usize, times: usize) {
    let mut run = Run::open(parent);
    for _ in 0..times {
        run.begin();
        for push in 0..queued {
            run.update(messages[push % 2]);
        }
        run.respond(messages[2]);
    }
    run.close();
}

/// As `updates`, by the port: what a station that has swapped its session does.
fn binding(parent: &str, messages: [&[u8]; 2], times: usize) {
    let (mut store, mut out) = (vec![0; cuddrewyn::FULL_STORE], [0; cuddrewyn::MIN_OUTPUT]);
    let (kind, link) = (cuddrewyn::ScalableConsumerType::Stream, cuddrewyn::ControllerIncarnation(1));
    let mut session = cuddrewyn::ScalableConsumerSession::new(7, parent, "s", "n", kind, link, &mut store).expect("a store");
    session.handle_subscribe_response(&EMPTY).expect("a baseline");
    let (mut refused, mut lost, mut gained) = (0, 0, 0);
    for turn in 0..=times {
        match black_box(session.handle_assignment_update(black_box(messages[(turn + 1) % 2]), &mut out)) {
            Ok(Some(delta)) => (lost, gained) = (delta.lost().len(), delta.gained().len()),
            Ok(None) => (lost, gained) = (0, 0),
            Err(_) => refused += 1,
        }
    }
    println!("{refused} {lost} {gained}");
}

/// A watch, and what its updates came to.
struct Watched {
    watch: ScalableTopicsWatch,
    refused: usize,
    added: usize,
    removed: usize,
}

impl Watched {
    fn update(&mut self, message: &[u8]) {
        let update = pb::CommandWatchScalableTopicsUpdate::decode(black_box(message)).expect("an update");
        match black_box(self.watch.handle_update(&update)) {
            Ok(TopicsChange::Snapshot { topics }) => (self.added, self.removed) = (topics.len(), 0),
            Ok(TopicsChange::Diff { added, removed }) => (self.added, self.removed) = (added.len(), removed.len()),
            Err(_) => self.refused += 1,
        }
    }
}

fn watches(set: &[u8], messages: [&[u8]; 2], times: usize) {
    let watch = ScalableTopicsWatch::new(7, "tenant/namespace".into());
    let mut run = Watched { watch, refused: 0, added: 0, removed: 0 };
    for message in [set, messages[1], messages[0], messages[1]] {
        run.update(message);
    }
    for turn in 0..times {
        run.update(messages[turn % 2]);
    }
    println!("{} {} {}", run.refused, run.added, run.removed);
    std::mem::forget(run);
}

fn main() {
    let words: Vec<String> = std::env::args().skip(1).collect();
    let words: Vec<&str> = words.iter().map(String::as_str).collect();
    let read = |path: &str| std::fs::read(path).expect("a message");
    let number = |word: &str| word.parse::<usize>().expect("a number");
    let Some((parent, words)) = words.split_first() else { panic!("the forms stand at the head of bench/rust/src/main.rs") };
    match words[..] {
        ["open"] => Run::open(parent).close(),
        ["decode", file, times] => decode(&read(file), number(times)),
        ["intake", file, times] => intake(parent, &read(file), number(times)),
        ["both", file, times] => both(parent, &read(file), number(times)),
        ["text", file, times] => text(&read(file), number(times)),
        [call @ ("update" | "stray"), first, second, registered, queued, times] => {
            let (first, second, registered) = (read(first), read(second), number(registered) != 0);
            let messages = [&first[..], &second[..]];
            updates(prepared(parent, messages, registered, number(queued)), messages, registered, call == "stray", number(times));
        }
        ["reconnect", first, second, response, queued, times] => {
            reconnects(parent, [&read(first), &read(second), &read(response)], number(queued), number(times));
        }
        ["binding", first, second, times] => binding(parent, [&read(first), &read(second)], number(times)),
        ["watch", set, first, second, times] => watches(&read(set), [&read(first), &read(second)], number(times)),
        _ => panic!("the forms stand at the head of bench/rust/src/main.rs"),
    }
}
