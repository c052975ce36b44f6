//! All short messages, and all short contents of a message's parts.
use crate::model::identity::Texts;
use crate::model::session::{SLOT, is_set};
use crate::rng::Rng;
use crate::session::script::{CONSUMER, TOPIC};
use crate::session::stage::{Ask, ROOM, Stage};
use crate::session::twin::Twin;
use crate::tally::Tally;
#[cfg(feature = "watch")]
use crate::watch::{Bench, Watched};

#[derive(Clone, Copy, PartialEq, Eq)]
enum Target {
    Update,
    Response,
    Watch,
}

use Target::*;

/// Where a short string stands in a message: behind each prefix as a part with its length, the innermost last.
struct Wrap {
    target: Target,
    prefixes: &'static [&'static [u8]],
    /// Bytes that often mean something at this place.
    telling: &'static [u8],
}

const WRAPS: &[Wrap] = &[
    Wrap { target: Update, prefixes: &[], telling: b"\x00\x01\x02\x07\x08\x0a\x10\x12\x80\xff" },
    Wrap { target: Response, prefixes: &[], telling: b"\x00\x01\x02\x08\x10\x12\x1a\x22\x80\xff" },
    Wrap { target: Watch, prefixes: &[], telling: b"\x00\x01\x02\x08\x0a\x12\x1a\x20\x2a\x80\xff" },
    Wrap { target: Update, prefixes: &[b"\x08\x07\x12"], telling: b"\x00\x01\x02\x08\x0a\x10\x12\x80\xff" },
    Wrap { target: Update, prefixes: &[b"\x08\x07\x12", b"\x08\x03\x12"], telling: b"\x00\x01\x08\x10\x18\x1b\x22\x2a\x80" },
    Wrap {
        target: Update,
        prefixes: &[b"\x08\x07\x12", b"\x08\x03\x12", b"\x08\x01\x10\x00\x18\x09\x22\x00\x2a"],
        telling: b"\x00\x01\x05\x08\x10\x12\x7f\x80\xff",
    },
    Wrap {
        target: Update,
        prefixes: &[b"\x08\x07\x12", b"\x08\x03\x12", b"\x08\x01\x10\x00\x18\x09\x22"],
        telling: b"\x41\x7f\x80\x9f\xa0\xbf\xc2\xe0\xed\xf0\xf4",
    },
    Wrap { target: Response, prefixes: &[b"\x08\x01\x22"], telling: b"\x00\x01\x02\x08\x0a\x10\x12\x80\xff" },
    Wrap { target: Response, prefixes: &[b"\x08\x01\x10\x05\x1a"], telling: b"\x41\x7f\x80\x8f\x90\xbf\xc2\xe0\xed\xf0\xf4" },
    Wrap { target: Watch, prefixes: &[b"\x08\x01\x12"], telling: b"\x00\x01\x02\x0a\x12\x1a\x41\x80\xff" },
    Wrap { target: Watch, prefixes: &[b"\x08\x01\x1a"], telling: b"\x00\x01\x02\x0a\x12\x1a\x41\x80\xff" },
    Wrap { target: Watch, prefixes: &[b"\x08\x01\x1a", b"\x0a"], telling: b"\x41\x7f\x80\x8f\x90\xbf\xc2\xe0\xed\xf0\xf4" },
];

/// All strings of one length over an alphabet, at one place.
struct Family {
    wrap: &'static Wrap,
    all_bytes: bool,
    length: usize,
}

impl Family {
    fn letters(&self) -> usize {
        if self.all_bytes { 256 } else { self.wrap.telling.len() }
    }

    fn size(&self) -> usize {
        self.letters().pow(self.length as u32)
    }

    fn message(&self, mut code: usize) -> Vec<u8> {
        let mut content = Vec::new();
        for _ in 0..self.length {
            let letter = code % self.letters();
            content.push(if self.all_bytes { letter as u8 } else { self.wrap.telling[letter] });
            code /= self.letters();
        }
        self.wrap.prefixes.iter().rev().fold(content, |content, prefix| [prefix, &[content.len() as u8][..], &content].concat())
    }
}

fn families() -> Vec<Family> {
    let wraps = || WRAPS.iter().filter(|wrap| cfg!(feature = "watch") || wrap.target != Watch);
    let of = |all_bytes: bool, length: usize| move |wrap: &'static Wrap| Family { wrap, all_bytes, length };
    let mut families: Vec<Family> = Vec::new();
    for length in 0..3 {
        families.extend(wraps().map(of(true, length)));
    }
    for length in 3..6 {
        families.extend(wraps().map(of(false, length)));
    }
    families.extend(wraps().filter(|wrap| wrap.prefixes.is_empty()).map(of(false, 6)));
    families.extend(wraps().filter(|wrap| wrap.prefixes.is_empty()).map(of(true, 3)));
    families
}

pub struct Short {
    rng: Rng,
    stage: Stage,
    twin: Option<Twin>,
    #[cfg(feature = "watch")]
    bench: Bench,
    families: Vec<Family>,
    /// The family that is on, and how many of it are done. The walk starts anywhere and takes odd strides, so that runs cut short differ.
    on: usize,
    done: usize,
    start: usize,
}

impl Short {
    pub fn new(seed: u64, tally: &mut Tally) -> Self {
        let mut rng = Rng::new(seed, "short");
        let store = rng.bytes(4 * SLOT);
        let mut stage = Stage::new(Default::default(), store, &mut rng);
        let texts = Texts { texts: [TOPIC, "s", "n"].map(|text| text.as_bytes().to_vec()), kind: 0 };
        let twin = stage.open(tally, CONSUMER, 1, &texts);
        #[cfg(feature = "watch")]
        let bench = Bench::new(64, &mut rng);
        Self {
            stage,
            twin,
            #[cfg(feature = "watch")]
            bench,
            families: families(),
            on: 0,
            done: 0,
            start: rng.word() as usize >> 32,
            rng,
        }
    }

    /// Some strings; false when all are done.
    pub fn step(&mut self, tally: &mut Tally) -> bool {
        for _ in 0..2000 {
            let Some(family) = self.families.get(self.on) else { return false };
            let size = family.size();
            let code = (self.start + self.done * 1_000_003) % size;
            let (target, message) = (family.wrap.target, family.message(code));
            self.check(tally, target, message);
            self.done += 1;
            if self.done == size {
                (self.on, self.done) = (self.on + 1, 0);
            }
        }
        true
    }

    /// What was done so far, in words.
    pub fn progress(&self) -> String {
        let whole =
            self.families[..self.on].iter().filter(|family| family.all_bytes && family.wrap.prefixes.is_empty()).map(|family| family.length).max();
        let part = self.families.get(self.on).map_or(100, |family| self.done * 100 / family.size());
        format!(
            "short messages: {} of {} families done (all strings of up to {} bytes), the next to {part}%",
            self.on,
            self.families.len(),
            whole.unwrap_or(0)
        )
    }

    fn check(&mut self, tally: &mut Tally, target: Target, message: Vec<u8>) {
        let ask = match target {
            Update => Ask::Update { message, incarnation: 1, room: ROOM },
            Response => Ask::Response { message, incarnation: 1 },
            Watch => return self.check_watch(tally, &message),
        };
        self.stage.ask(tally, &ask, self.twin.as_mut());
        if is_set(self.stage.record.registered) || self.stage.record.queue_count > 0 {
            self.stage.ask(tally, &Ask::Invalidate, self.twin.as_mut());
        }
        if is_set(self.stage.record.has_floor) && self.rng.one_in(64) {
            self.reopen(tally);
        }
    }

    fn reopen(&mut self, tally: &mut Tally) {
        let texts = Texts { texts: [TOPIC, "s", "n"].map(|text| text.as_bytes().to_vec()), kind: 0 };
        self.twin = self.stage.open(tally, CONSUMER, 1, &texts);
    }

    #[cfg(feature = "watch")]
    fn check_watch(&mut self, tally: &mut Tally, message: &[u8]) {
        self.bench.put(b"\0\x01A\0\x01B");
        self.bench.check(tally, &Watched { watch_id: 1, length: 64, used: 6, message, room: 64 });
    }

    #[cfg(not(feature = "watch"))]
    fn check_watch(&mut self, _: &mut Tally, _: &[u8]) {}
}
