//! The parts of a run: first what is written down, then what is random or long, sharing the time.
use crate::attach_logs::{self, AttachLogs};
use crate::charges::{self, Charges};
use crate::churns::{self, Churns};
use crate::commands::{self, Commands};
use crate::either_order::{self, EitherOrder};
use crate::hours::{self, Hours};
use crate::keys::{self, Keys};
use crate::lists::{self, Lists};
use crate::names::Names;
use crate::progress::Progress;
use crate::session::damaged::Damaged;
use crate::session::walk::{Size, Walk};
use crate::session::{directed as rows, limits, orders};
use crate::short::Short;
use crate::tally::Tally;
use std::time::{Duration, Instant};

/// What is written down, or goes the same way each time: each part with its name.
pub const DIRECTED: &[(&str, fn(&mut Tally, u64))] = &[
    ("rows and traps", rows::run),
    ("limits", limits::run),
    ("two orders, written down", orders::directed),
    ("names, written down", |tally, seed| Names::new(seed).directed(tally)),
    ("large lists", lists::directed),
    ("either order, written down", either_order::directed),
    ("published hashes", |tally, _| keys::directed(tally)),
    ("prices", |tally, _| charges::directed(tally)),
    ("counts, written down", |tally, _| churns::directed(tally)),
    ("contracts, written down", |tally, _| hours::directed(tally)),
    ("logs, written down", |tally, _| attach_logs::directed(tally)),
    ("commands, written down", |tally, _| commands::directed(tally)),
    #[cfg(feature = "watch")]
    ("long topics", crate::watch::directed),
    #[cfg(feature = "watch")]
    ("the watch's windows", crate::windows::directed),
];

/// All that is written down.
pub fn directed(tally: &mut Tally, seed: u64, progress: &mut Progress) {
    for (name, run) in DIRECTED {
        tally.place = (*name).into();
        run(tally, seed);
        progress.tell(|| format!("what is written down: {}", tally.so_far()));
    }
}

enum Work {
    Walk(Walk),
    Damaged(Damaged),
    Names(Names),
    Lists(Lists),
    EitherOrder(EitherOrder),
    Keys(Keys),
    Charges(Charges),
    Churns(Churns),
    Hours(Hours),
    AttachLogs(AttachLogs),
    Commands(Commands),
    Short(Short),
    #[cfg(feature = "watch")]
    Watch(crate::watch::Watch),
}

impl Work {
    /// A little of it; false when there is no more.
    fn step(&mut self, tally: &mut Tally) -> bool {
        match self {
            Self::Walk(walk) => walk.step(tally),
            Self::Damaged(damaged) => damaged.step(tally),
            Self::Names(names) => names.step(tally),
            Self::Lists(lists) => lists.step(tally),
            Self::EitherOrder(either_order) => either_order.step(tally),
            Self::Keys(keys) => keys.step(tally),
            Self::Charges(charges) => charges.step(tally),
            Self::Churns(churns) => churns.step(tally),
            Self::Hours(hours) => hours.step(tally),
            Self::AttachLogs(attach_logs) => attach_logs.step(tally),
            Self::Commands(commands) => commands.step(tally),
            Self::Short(short) => return short.step(tally),
            #[cfg(feature = "watch")]
            Self::Watch(watch) => watch.step(tally),
        }
        true
    }
}

struct Part {
    name: &'static str,
    /// Its share of the time.
    weight: u32,
    work: Work,
    time: Duration,
    steps: u64,
    calls: u64,
    over: bool,
}

impl Part {
    fn step(&mut self, tally: &mut Tally) {
        tally.place = format!("{}, step {}", self.name, self.steps);
        let (start, calls) = (Instant::now(), tally.calls);
        self.over = !self.work.step(tally);
        self.time += start.elapsed();
        self.steps += 1;
        self.calls += tally.calls - calls;
    }
}

pub struct Parts(Vec<Part>);

/// The parts that the self-test asks for by name.
pub const SMALL_STORES: &str = "sessions, small stores";
pub const ORDERS: &str = "segments in two orders";
pub const NAMES: &str = "names, ranges, kinds";
pub const LISTS: &str = "lists lent alone";
pub const EITHER_ORDER: &str = "deltas in either order";
pub const KEYS: &str = "keys and their segments";
pub const CHARGES: &str = "charges of holdings";
pub const CHURN: &str = "windows of lost counts";
pub const HOURS: &str = "pass hours";
pub const ATTACH_LOGS: &str = "uploaders' logs";
pub const COMMANDS: &str = "commands";
pub const WATCH: &str = "topics watch";

impl Parts {
    pub fn new(tally: &mut Tally, seed: u64) -> Self {
        let walk = |name, size| Work::Walk(Walk::new(seed, name, size));
        let works = [
            ("short messages", 6, Work::Short(Short::new(seed, tally))),
            (SMALL_STORES, 5, walk("small", Size::Small)),
            (ORDERS, 3, Work::Walk(Walk::new(seed, "orders", Size::Small).in_two_orders())),
            ("sessions, long queues", 5, walk("middle", Size::Middle)),
            ("sessions, full size", 6, walk("full", Size::Full)),
            ("damaged records and stores", 4, Work::Damaged(Damaged::new(seed))),
            (NAMES, 1, Work::Names(Names::new(seed))),
            (LISTS, 2, Work::Lists(Lists::new(seed))),
            (EITHER_ORDER, 1, Work::EitherOrder(EitherOrder::new(seed))),
            (KEYS, 1, Work::Keys(Keys::new(seed))),
            (CHARGES, 1, Work::Charges(Charges::new(seed))),
            (CHURN, 1, Work::Churns(Churns::new(seed))),
            (HOURS, 1, Work::Hours(Hours::new(seed))),
            (ATTACH_LOGS, 1, Work::AttachLogs(AttachLogs::new(seed))),
            (COMMANDS, 1, Work::Commands(Commands::new(seed))),
            #[cfg(feature = "watch")]
            (WATCH, 5, Work::Watch(crate::watch::Watch::new(seed))),
        ];
        let part = |(name, weight, work)| Part { name, weight, work, time: Duration::ZERO, steps: 0, calls: 0, over: false };
        Self(works.into_iter().map(part).collect())
    }

    /// A step of the part that is furthest behind its share; false when all are over.
    pub fn step(&mut self, tally: &mut Tally) -> bool {
        let behind = self.0.iter_mut().filter(|part| !part.over).min_by_key(|part| part.time / part.weight);
        behind.map(|part| part.step(tally)).is_some()
    }

    pub fn names(&self) -> Vec<&'static str> {
        self.0.iter().map(|part| part.name).collect()
    }

    /// A step of the part with this name.
    pub fn step_of(&mut self, name: &str, tally: &mut Tally) {
        self.0.iter_mut().find(|part| part.name == name).expect("a part").step(tally);
    }

    pub fn print(&self) {
        for part in &self.0 {
            println!("  {:<27} {:>10} calls in {:.1} s", part.name, part.calls, part.time.as_secs_f64());
            if let Work::Short(short) = &part.work {
                println!("  {}", short.progress());
            }
        }
    }
}
