//! What was called, what was answered, and where the two sides differ.
use crate::raw::{self, Reply};
use crate::reply::{OURS, is_no_room};
use std::panic::resume_unwind;

#[derive(Clone, Copy, Debug, PartialEq, Eq)]
pub enum Call {
    Open,
    Matches,
    Begin,
    Invalidate,
    Update,
    Response,
    ResponseText,
    Drain,
    Check,
    Command,
    Apply,
    Join,
    JoinEitherOrder,
    ApplyEitherOrder,
    ToPb,
    SegmentForKey,
    KeyForHash,
    KeyInSegment,
    Charge,
    ChurnPush,
    ChurnClear,
    ChurnCurrent,
    IsOpen,
    EarliestOpen,
    CheckLog,
    SegmentTopic,
    SegmentSource,
    ParentTopic,
    RangeLen,
    RangeContains,
    RangeContainsRange,
    RangeAdjacent,
    ConsumerType,
    Watch,
    WatchText,
}

use Call::*;

/// A call, the refusals it can give and its other answers. A run in which one of them never came fails. The refusals are those of docs/calls.txt;
/// tools/refusals.py writes them.
const REACH: &[(Call, &[u8], &[u8])] = &[
    (Open, &[1, 7, 8], &[raw::ACCEPTED]),
    (Matches, &[1, 22], &[raw::YES, raw::NO]),
    (Begin, &[25], &[raw::ACCEPTED]),
    (Invalidate, &[], &[raw::ACCEPTED]),
    (Update, &[1, 2, 3, 4, 6, 7, 9, 10, 11, 12, 13, 14, 15, 22, 23, 24, 26, 27, 28, 34], &[raw::UNCHANGED, raw::DELTA]),
    (Response, &[1, 3, 4, 6, 7, 9, 10, 11, 12, 13, 14, 15, 16, 17, 22, 23, 26, 27, 34], &[raw::ACCEPTED]),
    (ResponseText, &[], &[raw::FOUND]),
    (Drain, &[1, 2, 22, 33], &[raw::UNCHANGED, raw::REPLAY]),
    (Check, &[1, 22], &[raw::ACCEPTED]),
    (Command, &[3, 4, 6], &[raw::FOUND, raw::NO]),
    (Apply, &[15, 20, 21], &[raw::WRITTEN]),
    (Join, &[20, 21], &[raw::WRITTEN]),
    (JoinEitherOrder, &[20, 21], &[raw::WRITTEN]),
    (ApplyEitherOrder, &[15, 20, 21], &[raw::WRITTEN]),
    (ToPb, &[7, 12, 20, 21, 34], &[raw::WRITTEN]),
    (SegmentForKey, &[20, 32], &[raw::FOUND, raw::NO]),
    (KeyForHash, &[], &[raw::FOUND]),
    (KeyInSegment, &[20], &[raw::FOUND, raw::NO]),
    (Charge, &[20, 36], &[raw::FOUND]),
    (ChurnPush, &[38], &[raw::FOUND]),
    (ChurnClear, &[], &[raw::FOUND]),
    (ChurnCurrent, &[38], &[raw::FOUND]),
    (IsOpen, &[35], &[raw::YES, raw::NO]),
    (EarliestOpen, &[35], &[raw::FOUND, raw::NO]),
    (CheckLog, &[20, 37], &[raw::YES, raw::NO]),
    (SegmentTopic, &[7, 9, 12, 21], &[raw::WRITTEN]),
    (SegmentSource, &[7, 9, 12, 18, 19], &[raw::FOUND]),
    (ParentTopic, &[7, 9, 12, 18, 21], &[raw::WRITTEN]),
    (RangeLen, &[9], &[raw::FOUND]),
    (RangeContains, &[9], &[raw::YES, raw::NO]),
    (RangeContainsRange, &[9], &[raw::YES, raw::NO]),
    (RangeAdjacent, &[9], &[raw::YES, raw::NO]),
    (ConsumerType, &[], &[raw::FOUND]),
    (Watch, &[3, 4, 6, 7, 16, 17, 21, 29, 30, 31], &[raw::WRITTEN]),
    (WatchText, &[], &[raw::FOUND]),
];

/// The calls of this build: the watch only where the library has it.
pub fn reach() -> impl Iterator<Item = &'static (Call, &'static [u8], &'static [u8])> {
    REACH.iter().filter(|row| cfg!(feature = "watch") || !matches!(row.0, Watch | WatchText))
}

impl Call {
    /// Whether the Rust knows the call: each of its answers that are not ours alone has to be compared with the Rust's.
    pub fn is_of_the_rust(self) -> bool {
        match self {
            Open | Matches | Begin | Invalidate | Update | Response | ResponseText | Drain => true,
            ToPb | SegmentTopic | SegmentSource | ParentTopic => true,
            RangeLen | RangeContains | RangeContainsRange | RangeAdjacent | ConsumerType => true,
            Watch | WatchText | Command => true,
            Check | Apply | Join | JoinEitherOrder | ApplyEitherOrder => false,
            SegmentForKey | KeyForHash | KeyInSegment | Charge => false,
            ChurnPush | ChurnClear | ChurnCurrent | IsOpen | EarliestOpen | CheckLog => false,
        }
    }
}

/// A column for each number that a refusal can have, then one for each other answer: none is shared.
const NUMBERS: usize = 1 + u8::MAX as usize;
const COLUMNS: usize = 2 * NUMBERS;

fn column(answer: u8, number: u8) -> usize {
    if answer == raw::REFUSED { usize::from(number) } else { NUMBERS + usize::from(answer) }
}

/// Whether the answers of a column are ours alone.
fn is_ours(column: usize) -> bool {
    OURS.iter().any(|number| usize::from(*number) == column)
}

fn column_name(at: usize) -> String {
    let answers = ["?", "accepted", "unchanged", "delta", "replay", "written", "yes", "no", "found"];
    match at.checked_sub(NUMBERS) {
        None => at.to_string(),
        Some(answer) => answers.get(answer).map_or_else(|| format!("answer {answer}"), ToString::to_string),
    }
}

#[derive(Clone, Copy, Default)]
struct Count {
    all: u64,
    oracle: u64,
}

/// Differences that are printed whole.
const PRINTED: usize = 10;

/// The places in `Tally::left_out`.
pub const NAMES: usize = 0;
pub const LISTS: usize = 1;
pub const SESSIONS: usize = 2;

/// The places in `Tally::again`.
pub const UPDATES: usize = 0;
pub const RESPONSES: usize = 1;
#[cfg_attr(not(feature = "watch"), allow(dead_code))]
pub const WATCHES: usize = 2;

/// The places in `Tally::limits`, and what each counts.
pub const FULL_LISTS: usize = 0;
pub const LONG_LISTS: usize = 1;
pub const LONG_PARENTS: usize = 2;
pub const LONG_NAMES: usize = 3;
#[cfg_attr(not(feature = "watch"), allow(dead_code))]
pub const LONG_TOPICS: usize = 4;
const LIMITS: [&str; 5] = [
    "lists of just 2,048 bytes taken",
    "lists of 2 or 4 bytes more refused",
    "sessions opened below a parent longer than 42 bytes",
    "names longer than 42 bytes found",
    "topics of 65,535 bytes taken",
];

/// What unwinds where `Tally::stops` is set and something differs, or as many calls as `Tally::most` were made.
pub struct Stopped;

pub struct Tally {
    counts: Vec<[Count; COLUMNS]>,
    pub calls: u64,
    pub differences: u64,
    /// Messages in two orders of their segments: accepted, refused by the same number, refused by two.
    pub orders: [u64; 3],
    /// Held to the model alone, by 02 h: calls with such a parent or a name of one, lists written for one, sessions opened with one.
    pub left_out: [u64; 3],
    /// Sessions drained by several readers, held to the model alone by 02 d.
    pub several_readers: u64,
    /// Messages with a singular field that comes again, compared with the Rust: updates, responses, watch updates.
    pub again: [u64; 3],
    /// What random inputs reached of each limit.
    pub limits: [u64; 5],
    /// Pushes that did not fit the store.
    no_room: u64,
    /// The part of the run that is on, and its step.
    pub place: String,
    pub quiet: bool,
    /// Whether a difference ends the part that is on, and how many calls end it, by unwinding: the self-test's.
    pub stops: bool,
    pub most: u64,
}

impl Tally {
    /// What a run has come to, in words.
    pub fn so_far(&self) -> String {
        format!("{} calls, {} differences", self.calls, self.differences)
    }

    pub fn new() -> Self {
        Self {
            counts: vec![[Count::default(); COLUMNS]; REACH.len()],
            calls: 0,
            differences: 0,
            orders: [0; 3],
            left_out: [0; 3],
            several_readers: 0,
            again: [0; 3],
            limits: [0; 5],
            no_room: 0,
            place: String::new(),
            quiet: false,
            stops: false,
            most: u64::MAX,
        }
    }

    /// Counts a call; `oracle`: its answer was compared with the Rust's.
    pub fn count(&mut self, call: Call, reply: &Reply, oracle: bool) {
        let count = &mut self.counts[call as usize][column(reply.answer, reply.number)];
        count.all += 1;
        count.oracle += u64::from(oracle);
        self.no_room += u64::from(is_no_room(reply));
        self.calls += 1;
        if self.calls == self.most {
            resume_unwind(Box::new(Stopped));
        }
    }

    /// A difference: what differs, and the input that shows it.
    pub fn differ(&mut self, call: Call, what: &str, input: impl FnOnce() -> String) {
        self.differences += 1;
        if !self.quiet && self.differences as usize <= PRINTED {
            println!("DIFFERENCE in {call:?} ({}): {what}\n    {}", self.place, input());
        }
        if self.stops {
            resume_unwind(Box::new(Stopped));
        }
    }

    /// The table of answers, a line for each call.
    pub fn print(&self) {
        println!("answers of each call: a refusal by its number; behind a stroke, how many were compared with the Rust's, where not all");
        for (call, _, _) in reach() {
            let mut line = format!("  {:<19}", format!("{call:?}"));
            for (at, count) in self.counts[*call as usize].iter().enumerate().filter(|(_, count)| count.all > 0) {
                line += &format!(" {}: {}", column_name(at), count.all);
                if count.oracle != count.all {
                    line += &format!("/{}", count.oracle);
                }
                line.push(';');
            }
            println!("{line}");
        }
        let [accepted, same, other] = self.orders;
        println!("  messages in two orders of their segments: {accepted} accepted, {same} refused by the same number, {other} by two");
        let [names, lists, sessions] = self.left_out;
        println!("  parents that only ours refuses, by the model alone: {names} calls on names, {lists} lists written, {sessions} sessions");
        println!("  sessions drained by several readers, by the model alone: {}", self.several_readers);
        let [updates, responses, watches] = self.again;
        println!("  singular fields that come again, compared with the Rust: {updates} updates, {responses} responses, {watches} watch updates");
        let limits: Vec<String> = LIMITS.iter().zip(self.limits).map(|(what, count)| format!("{count} {what}")).collect();
        println!("  at their limits: {}; {} pushes that did not fit", limits.join(", "), self.no_room);
    }

    /// The answers that should have come and did not.
    pub fn unseen(&self) -> Vec<String> {
        let mut missing = Vec::new();
        if self.orders.contains(&0) {
            missing.push("two orders accepted, refused by the same number, by two".into());
        }
        if self.left_out.contains(&0) {
            missing.push("names, lists and sessions of parents that only ours refuses".into());
        }
        if self.several_readers == 0 {
            missing.push("sessions drained by several readers".into());
        }
        if self.again[..if cfg!(feature = "watch") { 3 } else { 2 }].contains(&0) {
            missing.push("messages of each kind with a singular field that comes again, compared with the Rust".into());
        }
        if self.no_room == 0 {
            missing.push("Update 28 for want of room".into());
        }
        for (call, at) in columns() {
            let count = self.counts[call as usize][at];
            if count.all == 0 {
                missing.push(format!("{call:?} {}", column_name(at)));
            } else if count.oracle == 0 && call.is_of_the_rust() && !is_ours(at) {
                missing.push(format!("{call:?} {} compared with the Rust", column_name(at)));
            }
        }
        missing
    }

    /// The limits that random inputs have not reached. The self-test asks for it, since a short run may have none.
    pub fn unreached(&self) -> Vec<&'static str> {
        let here = if cfg!(feature = "watch") { LIMITS.len() } else { LONG_TOPICS };
        LIMITS.into_iter().zip(self.limits).take(here).filter(|(_, count)| *count == 0).map(|(what, _)| what).collect()
    }

    /// A run in which everything came, each answer of the Rust's calls also compared with it.
    fn whole() -> Self {
        let mut tally = Self { orders: [1; 3], left_out: [1; 3], several_readers: 1, again: [1; 3], no_room: 1, ..Self::new() };
        for (call, at) in columns() {
            tally.counts[call as usize][at] = Count { all: 1, oracle: 1 };
        }
        tally
    }

    /// What a run could lack, or not compare with the Rust, without a word of `unseen`: to be nothing. And how many such things there are.
    pub fn untold() -> (Vec<String>, usize) {
        let mut lacking = vec![];
        for (call, at) in columns() {
            let name = format!("{call:?} {}", column_name(at));
            let without = |count: Count| {
                let mut tally = Self::whole();
                tally.counts[call as usize][at] = count;
                tally
            };
            lacking.push((name.clone(), without(Count::default())));
            if call.is_of_the_rust() && !is_ours(at) {
                lacking.push((format!("{name} by the Rust"), without(Count { all: 1, oracle: 0 })));
            }
        }
        let watches = usize::from(cfg!(feature = "watch"));
        lacking.extend((0..3).map(|at| (format!("order {at}"), Self { orders: [0, 1, 2].map(|k| u64::from(k != at)), ..Self::whole() })));
        lacking.extend((0..3).map(|at| (format!("left out {at}"), Self { left_out: [0, 1, 2].map(|k| u64::from(k != at)), ..Self::whole() })));
        lacking.extend((0..2 + watches).map(|at| (format!("again {at}"), Self { again: [0, 1, 2].map(|k| u64::from(k != at)), ..Self::whole() })));
        lacking.push(("several readers".into(), Self { several_readers: 0, ..Self::whole() }));
        lacking.push(("no room".into(), Self { no_room: 0, ..Self::whole() }));
        let mut untold: Vec<String> = lacking.iter().filter(|(_, tally)| tally.unseen().len() != 1).map(|(name, _)| name.clone()).collect();
        untold.extend(Self::whole().unseen());
        untold.extend(REACH.iter().enumerate().filter(|(at, row)| row.0 as usize != *at).map(|(_, row)| format!("{:?}: not in its row", row.0)));
        (untold, lacking.len())
    }
}

/// Each call with each column that it can come to.
fn columns() -> impl Iterator<Item = (Call, usize)> {
    reach().flat_map(|(call, numbers, answers)| {
        let refusals = numbers.iter().map(|number| column(raw::REFUSED, *number));
        refusals.chain(answers.iter().map(|answer| column(*answer, 0))).map(|at| (*call, at))
    })
}

/// Bytes in hex; long ones are cut.
pub fn hex(bytes: &[u8]) -> String {
    let shown: String = bytes.iter().take(600).map(|byte| format!("{byte:02x}")).collect();
    if bytes.len() > 600 { format!("{shown}.. ({} bytes)", bytes.len()) } else { shown }
}

/// The first byte where two rows of bytes of one length part.
pub fn first_difference(left: &[u8], right: &[u8]) -> usize {
    left.iter().zip(right).position(|(a, b)| a != b).unwrap_or(left.len().min(right.len()))
}
