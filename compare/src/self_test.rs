//! Whether the comparison notices a wrong bit: for each call and each place of what it gives, in every part of a run, by each judge alone.
use crate::model::session::{LIST, SLOT};
use crate::parts::{ATTACH_LOGS, CHARGES, CHURN, COMMANDS, DIRECTED, EITHER_ORDER, HOURS, KEYS, LISTS, NAMES, ORDERS, Parts, SMALL_STORES, WATCH};
use crate::progress::Progress;
use crate::spoil::{FIELDS, Judge, Place, arm, armed, disarm, forget, leave_to, was_made};
use crate::tally::{Call, Stopped, Tally, reach};
use std::panic::{AssertUnwindSafe, catch_unwind, resume_unwind};

const REPLY: &[Place] = &[Place::Answer, Place::Number, Place::Count, Place::Value(0), Place::Value(1), Place::Value(2), Place::Value(3)];

/// What a call gives.
enum Gives {
    /// A reply, whether a record too, and how many slices it is lent.
    Reply(bool, usize),
    /// A part of the message.
    Text,
    /// A number.
    Kind,
}

fn gives(call: Call) -> Gives {
    match call {
        Call::Begin | Call::Invalidate => Gives::Reply(true, 0),
        Call::Open => Gives::Reply(true, 1),
        Call::Response | Call::Drain => Gives::Reply(true, 2),
        Call::Update => Gives::Reply(true, 3),
        Call::KeyForHash | Call::RangeLen | Call::RangeContains | Call::RangeContainsRange | Call::RangeAdjacent => Gives::Reply(false, 0),
        Call::Matches | Call::Check | Call::KeyInSegment | Call::Charge | Call::SegmentSource | Call::IsOpen | Call::EarliestOpen => {
            Gives::Reply(false, 1)
        }
        Call::ChurnPush | Call::ChurnClear | Call::ChurnCurrent | Call::Command => Gives::Reply(false, 1),
        Call::SegmentForKey | Call::CheckLog | Call::SegmentTopic | Call::ParentTopic => Gives::Reply(false, 2),
        Call::Apply | Call::Join | Call::ApplyEitherOrder | Call::JoinEitherOrder | Call::ToPb | Call::Watch => Gives::Reply(false, 3),
        Call::ResponseText | Call::WatchText => Gives::Text,
        Call::ConsumerType => Gives::Kind,
    }
}

/// All that a call gives: each field, and of each slice the first byte, the middle and the last.
fn all_places(call: Call) -> Vec<Place> {
    match gives(call) {
        Gives::Text => vec![Place::TextStart, Place::TextLength],
        Gives::Kind => vec![Place::Kind],
        Gives::Reply(record, slices) => {
            let state = (0..if record { FIELDS } else { 0 }).map(Place::State);
            let lent = (0..slices).flat_map(|slice| (0..3).map(move |part| Place::Lent(slice, part)));
            REPLY.iter().copied().chain(state).chain(lent).collect()
        }
    }
}

/// One place of each kind.
fn few_places(call: Call) -> Vec<Place> {
    let one_of_each = [Place::Answer, Place::Value(0), Place::State(1)];
    all_places(call)
        .into_iter()
        .filter(|place| !matches!(gives(call), Gives::Reply(..)) || one_of_each.contains(place) || is_middle(*place))
        .collect()
}

fn is_middle(place: Place) -> bool {
    matches!(place, Place::Lent(_, 1))
}

/// What of a call the Rust alone can judge: the answer, of the record what the Rust has too, the delta, baseline and list, the output.
fn places_of_the_rust(call: Call) -> Vec<Place> {
    let states = [1, 2, 3, 4, 5, 6].map(Place::State);
    let with = |more: &[Place]| REPLY.iter().chain(more).copied().collect();
    match call {
        Call::Open => [1, 3, 4, 5, 6].map(Place::State).to_vec(),
        Call::Begin | Call::Invalidate => with(&states),
        Call::Update => with(&[&states[..], &[Place::Byte(2, 0), Place::Byte(0, LIST + 7)]].concat()),
        Call::Response => with(&[&states[..], &[Place::Byte(0, LIST + 7), Place::Byte(0, SLOT + 7)]].concat()),
        Call::Drain => with(&[&states[..], &[Place::Byte(1, 0)]].concat()),
        Call::SegmentTopic | Call::ParentTopic => with(&[Place::Byte(1, 0)]),
        Call::Watch => with(&[Place::Byte(0, 0), Place::Byte(2, 0)]),
        Call::Matches | Call::SegmentSource | Call::Command => with(&[]),
        call if call.is_of_the_rust() => all_places(call),
        _ => Vec::new(),
    }
}

/// What of an update or a response the same call with the segments in another order can judge: all that it gives and leaves.
fn places_of_the_order(call: Call) -> Vec<Place> {
    let slices: &[usize] = match call {
        Call::Update => &[0, 2],
        Call::Response => &[0],
        _ => return Vec::new(),
    };
    all_places(call).into_iter().filter(|place| if let Place::Lent(slice, _) = place { slices.contains(slice) } else { true }).collect()
}

/// The part of a run in whose steps everything that a call gives is tried.
fn home(call: Call) -> &'static str {
    match call {
        Call::Open | Call::Matches | Call::Begin | Call::Invalidate | Call::Update | Call::Response | Call::ResponseText => SMALL_STORES,
        Call::Drain | Call::Check => SMALL_STORES,
        Call::Apply | Call::Join | Call::ToPb => LISTS,
        Call::ApplyEitherOrder | Call::JoinEitherOrder => EITHER_ORDER,
        Call::SegmentForKey | Call::KeyForHash | Call::KeyInSegment => KEYS,
        Call::Charge => CHARGES,
        Call::ChurnPush | Call::ChurnClear | Call::ChurnCurrent => CHURN,
        Call::IsOpen | Call::EarliestOpen => HOURS,
        Call::CheckLog => ATTACH_LOGS,
        Call::Command => COMMANDS,
        Call::Watch | Call::WatchText => WATCH,
        Call::SegmentTopic | Call::SegmentSource | Call::ParentTopic | Call::ConsumerType => NAMES,
        Call::RangeLen | Call::RangeContains | Call::RangeContainsRange | Call::RangeAdjacent => NAMES,
    }
}

/// The call of ours that is spoiled: a join or an apply in either order is one of these.
fn made_as(call: Call) -> Call {
    match call {
        Call::ApplyEitherOrder => Call::Apply,
        Call::JoinEitherOrder => Call::Join,
        call => call,
    }
}

/// The one that judges a call everywhere: the model, but for what only the Rust says.
fn judge_of(call: Call) -> Judge {
    match call {
        Call::RangeLen | Call::RangeContains | Call::RangeContainsRange | Call::RangeAdjacent | Call::ConsumerType => Judge::Rust,
        Call::ToPb | Call::ApplyEitherOrder | Call::JoinEitherOrder => Judge::All,
        _ => Judge::Model,
    }
}

/// The calls of this build that some call of ours stands behind, each once.
fn calls() -> impl Iterator<Item = Call> {
    reach().map(|row| row.0).filter(|call| made_as(*call) == *call)
}

/// Calls that may be spoiled before it has to be noticed, where not each is judged; steps in which a call has to come.
const TRIES: usize = 400;
const STEPS: usize = 400;

/// Steps of a part in which the calls that it makes are looked for, and calls of one that is written down.
const LOOKED: usize = 12;
const LOOKED_CALLS: u64 = 5000;

/// How many wrong bits there were, and how many were noticed.
#[derive(Default)]
struct Score {
    tried: usize,
    noticed: usize,
}

struct Test {
    progress: Progress,
    tally: Tally,
    parts: Parts,
    noticed: usize,
    wrong: bool,
}

impl Test {
    fn new() -> Self {
        let mut tally = Tally::new();
        tally.quiet = true;
        let parts = Parts::new(&mut tally, 1);
        Self { progress: Progress::new(), tally, parts, noticed: 0, wrong: false }
    }

    fn fail(&mut self, what: &str) {
        println!("self-test: {what}");
        self.wrong = true;
    }

    fn score(&mut self, score: &mut Score, noticed: bool, what: impl FnOnce() -> String) {
        score.tried += 1;
        score.noticed += usize::from(noticed);
        self.noticed += usize::from(noticed);
        self.progress.tell(|| format!("self-test: {} wrong bits noticed in {} calls", self.noticed, self.tally.calls));
        if !noticed {
            self.fail(&format!("not noticed {}", what()));
        }
    }

    /// Steps of a part until that many calls were spoiled or a difference was found; whether one was.
    fn found(&mut self, part: &str, call: Call, place: Place, most: usize) -> bool {
        let before = self.tally.differences;
        for _ in 0..most {
            arm(call, place);
            for _ in 0..STEPS {
                if armed() && self.tally.differences == before {
                    self.parts.step_of(part, &mut self.tally);
                }
            }
            disarm();
            if self.tally.differences > before {
                break;
            }
        }
        self.tally.differences > before
    }

    /// Tries these places of a call in a part, with one judge alone.
    fn try_places(&mut self, score: &mut Score, part: &str, call: Call, judge: Judge, places: &[Place]) {
        leave_to(judge);
        let whole = !matches!(gives(call), Gives::Text) && judge == judge_of(call);
        for place in places {
            let noticed = self.found(part, made_as(call), *place, if whole { 1 } else { TRIES });
            self.score(score, noticed, || format!("by {judge:?} in {part}: {place:?} of {call:?}"));
        }
        leave_to(Judge::All);
    }

    /// Everything that each call gives, in its home.
    fn calls(&mut self) -> Score {
        let mut score = Score::default();
        for call in reach().map(|row| row.0) {
            self.try_places(&mut score, home(call), call, judge_of(call), &all_places(call));
        }
        score
    }

    /// Some of what the calls give that a part makes, in every part.
    fn parts(&mut self) -> Score {
        let mut score = Score::default();
        for part in self.parts.names() {
            forget();
            for _ in 0..LOOKED {
                self.parts.step_of(part, &mut self.tally);
            }
            let made: Vec<Call> = calls().filter(|call| was_made(*call)).collect();
            if made.is_empty() {
                self.fail(&format!("no call in {part}"));
            }
            for call in made.into_iter().filter(|_| part != EITHER_ORDER) {
                self.try_places(&mut score, part, call, judge_of(call), &few_places(call));
            }
        }
        score
    }

    /// The same of each part that is written down. The first difference ends it.
    fn directed(&mut self) -> Score {
        let mut score = Score::default();
        for (part, run) in DIRECTED {
            forget();
            self.tally.most = self.tally.calls + LOOKED_CALLS;
            self.ends_early(*run);
            self.tally.most = u64::MAX;
            let made: Vec<Call> = calls().filter(|call| was_made(*call)).collect();
            if made.is_empty() {
                self.fail(&format!("no call in {part}"));
            }
            for call in made {
                for place in few_places(call) {
                    if let Some(noticed) = self.stopped(call, place, *run) {
                        self.score(&mut score, noticed, || format!("in {part}: {place:?} of {call:?}"));
                    }
                }
            }
        }
        score
    }

    /// Whether a part that is written down ends at a difference; none where it has no text that could be spoiled.
    fn stopped(&mut self, call: Call, place: Place, run: fn(&mut Tally, u64)) -> Option<bool> {
        arm(call, place);
        self.tally.stops = true;
        let noticed = self.ends_early(run);
        self.tally.stops = false;
        let waits = armed() && matches!(gives(call), Gives::Text);
        disarm();
        (noticed || !waits).then_some(noticed)
    }

    /// Runs a part that is written down; whether it was stopped.
    fn ends_early(&mut self, run: fn(&mut Tally, u64)) -> bool {
        match catch_unwind(AssertUnwindSafe(|| run(&mut self.tally, 1))) {
            Ok(()) => false,
            Err(payload) if payload.is::<Stopped>() => true,
            Err(payload) => resume_unwind(payload),
        }
    }

    /// What one judge alone can tell, of each call that it judges.
    fn alone(&mut self, judge: Judge, part_of: fn(Call) -> &'static str, places: fn(Call) -> Vec<Place>, judges: fn(Call) -> bool) -> Score {
        let mut score = Score::default();
        for call in calls().filter(|call| judges(*call)) {
            if places(call).is_empty() {
                self.fail(&format!("no place of {call:?} for {judge:?}"));
            }
            self.try_places(&mut score, part_of(call), call, judge, &places(call));
        }
        score
    }
}

/// Prints what was not noticed; 0 where every wrong bit was, and no difference came without one. It goes the same way each time.
pub fn run() -> i32 {
    let mut test = Test::new();
    let calls = test.calls();
    let parts = test.parts();
    let directed = test.directed();
    let rust = test.alone(Judge::Rust, home, places_of_the_rust, Call::is_of_the_rust);
    let order = test.alone(Judge::Order, |_| ORDERS, places_of_the_order, |call| matches!(call, Call::Update | Call::Response));
    test.progress.end();
    let (untold, lacking) = Tally::untold();
    for what in &untold {
        test.fail(&format!("a run without it would pass: {what}"));
    }
    for what in test.tally.unreached() {
        test.fail(&format!("the random inputs of all this reached no {what}"));
    }
    let extra = test.tally.differences - test.noticed as u64;
    println!(
        "self-test: of {} wrong bits {} noticed; of {} in {} parts {}; of {} in {} parts that are written down {}; of {} by the Rust alone {}; \
         of {} by another order of the segments alone {}; of {lacking} things that a run could lack {} told; {extra} differences besides",
        calls.tried,
        calls.noticed,
        parts.tried,
        test.parts.names().len(),
        parts.noticed,
        directed.tried,
        DIRECTED.len(),
        directed.noticed,
        rust.tried,
        rust.noticed,
        order.tried,
        order.noticed,
        lacking - untold.len(),
    );
    i32::from(test.wrong || extra > 0)
}
