//! Sessions written out by hand.
use super::orders;
use super::stage::{Ask, ROOM, Stage};
use super::twin::Twin;
use crate::generate::{Assignment, Part, Style};
use crate::model::identity::Texts;
use crate::raw::{REFUSED, Reply};
use crate::reply::show;
use crate::rng::Rng;
use crate::tally::{Call, Tally};

pub const CONSUMER: u64 = 7;
pub const TOPIC: &str = "topic://a/b/c";

pub struct Script<'a> {
    pub tally: &'a mut Tally,
    pub rng: Rng,
    pub stage: Stage,
    twin: Option<Twin>,
}

/// A list of segments without buckets: id, start, end.
pub fn list(epoch: u64, segments: &[(u64, u32, u32)]) -> Assignment {
    let part = |(id, start, end): &(u64, u32, u32)| Part::new("a/b/c", *id, *start, *end, Vec::new());
    Assignment { epoch, parts: segments.iter().map(part).collect() }
}

/// That many segments without buckets, from this id on.
pub fn bare(epoch: u64, first: u64, count: u64) -> Assignment {
    list(epoch, &(first..first + count).map(|id| (id, 0, 65_535)).collect::<Vec<_>>())
}

/// One segment with these buckets.
pub fn bucketed(epoch: u64, id: u64, buckets: Vec<(i32, i32)>) -> Assignment {
    Assignment { epoch, parts: vec![Part::new("a/b/c", id, 0, 65_535, buckets)] }
}

impl<'a> Script<'a> {
    /// A session on a store of this length, with this topic, incarnation 1.
    pub fn open(tally: &'a mut Tally, seed: u64, length: usize, topic: &str) -> Self {
        let mut rng = Rng::new(seed, "script");
        let store = rng.bytes(length);
        let mut stage = Stage::new(Default::default(), store, &mut rng);
        let texts = Texts { texts: [topic, "s", "n"].map(|text| text.as_bytes().to_vec()), kind: 0 };
        let twin = stage.open(tally, CONSUMER, 1, &texts);
        Self { tally, rng, stage, twin }
    }

    pub fn ask(&mut self, ask: &Ask) -> Reply {
        self.stage.ask(self.tally, ask, self.twin.as_mut()).reply
    }

    /// The same, also with the segments of its message in another order.
    pub fn ask_in_two_orders(&mut self, ask: &Ask) {
        orders::ask(self.tally, ask, &mut self.stage, &mut self.twin, &mut self.rng);
    }

    /// An update of these bytes with this much output.
    pub fn push(&mut self, message: Vec<u8>, room: usize) -> Reply {
        let incarnation = self.stage.record.incarnation;
        self.ask(&Ask::Update { message, incarnation, room })
    }

    pub fn update(&mut self, list: &Assignment) -> Reply {
        let message = list.update(CONSUMER, Style::Plain, &mut self.rng);
        self.push(message, ROOM)
    }

    /// A response of these bytes.
    pub fn answer(&mut self, message: Vec<u8>) -> Reply {
        let incarnation = self.stage.record.incarnation;
        self.ask(&Ask::Response { message, incarnation })
    }

    pub fn response(&mut self, list: &Assignment) -> Reply {
        let message = list.response(1, Style::Plain, &mut self.rng);
        self.answer(message)
    }

    /// A drain by the first reader.
    pub fn drain(&mut self) -> Reply {
        self.drain_for(0)
    }

    pub fn drain_for(&mut self, reader: usize) -> Reply {
        self.ask(&Ask::Drain { reader, room: ROOM })
    }

    /// From here on by the model alone: several readers drain.
    pub fn without_the_rust(&mut self) {
        self.tally.several_readers += 1;
        self.twin = None;
    }

    /// Drains until none is left; how many replays came.
    pub fn drain_all(&mut self) -> usize {
        (0..=1024).take_while(|_| self.drain().count > 0).count()
    }

    pub fn begin(&mut self, incarnation: u64) -> Reply {
        self.ask(&Ask::Begin { incarnation })
    }

    pub fn invalidate(&mut self) -> Reply {
        self.ask(&Ask::Invalidate)
    }

    /// Holds an answer to the one written down here: a check of the other two judges.
    pub fn expect(&mut self, what: &str, call: Call, given: Reply, expected: Reply) {
        if given != expected {
            self.tally.differ(call, &format!("{what}: {}, written down {}", show(&given), show(&expected)), || "see the source".into());
        }
    }

    /// The same of the refusal's number alone, 0 for an answer that is none.
    pub fn expect_number(&mut self, what: &str, call: Call, given: Reply, number: u8) {
        if given.number != number || (given.answer == REFUSED) != (number != 0) {
            self.tally.differ(call, &format!("{what}: {}, written down {number}", show(&given)), || "see the source".into());
        }
    }
}
