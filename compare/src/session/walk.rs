//! Random sessions on stores of any size, each call fed to both sides.
use super::orders;
use super::stage::{Ask, ROOM, Stage};
use super::twin::Twin;
use super::world::{TOPICS, World};
use crate::generate::{Assignment, Style, damaged, refusing_response};
use crate::lists::{AT_LIMIT, size_at_limit};
use crate::model::identity::Texts;
use crate::model::session::{SLOT, STORE_FULL, STORE_LEAST, is_set};
use crate::names::long_path;
use crate::raw::{self, READERS, Reply};
use crate::relay;
use crate::rng::Rng;
use crate::tally::{FULL_LISTS, LONG_LISTS, LONG_PARENTS, Tally};

/// Of so many sessions one has a long parent.
const LONG_TOPIC: usize = 12;

/// The most bytes that the three texts of a session can have.
const TEXTS_MOST: usize = 2041;

/// Which stores a walk goes over.
#[derive(Clone, Copy, PartialEq, Eq)]
pub enum Size {
    /// Three slots, and a free end for none to some dozen pushes.
    Small,
    /// A free end for some hundreds: long queues, cheaply compared.
    Middle,
    /// Full size, and a queue that is filled to 1,024 or close to it first.
    Full,
}

pub struct Walk {
    rng: Rng,
    size: Size,
    stage: Stage,
    twin: Option<Twin>,
    world: World,
    texts: Texts,
    consumer_id: u64,
    /// Calls left of this session, and pushes still to be made before anything else.
    left: usize,
    fill: usize,
    /// The epoch of the last push made.
    pushed: u64,
    /// How often a queue is let grow: of so many calls one is a response, a begin or an invalidate.
    patience: usize,
    /// Each message is also asked with its segments in another order.
    two_orders: bool,
    /// The size of the list last made, where it was made to have one.
    sized: Option<usize>,
    /// The one reader that drains; where there is none, all of them do, and the model alone is asked.
    reader: Option<usize>,
}

impl Walk {
    pub fn new(seed: u64, name: &str, size: Size) -> Self {
        let mut rng = Rng::new(seed, name);
        let store = rng.bytes(if size == Size::Full { STORE_FULL } else { 0 });
        let stage = Stage::new(Default::default(), store, &mut rng);
        let texts = Texts { texts: [Vec::new(), Vec::new(), Vec::new()], kind: 0 };
        Self {
            rng,
            size,
            stage,
            twin: None,
            world: World::new(""),
            texts,
            consumer_id: 0,
            left: 0,
            fill: 0,
            pushed: 0,
            patience: 1,
            two_orders: false,
            sized: None,
            reader: None,
        }
    }

    pub fn in_two_orders(self) -> Self {
        Self { two_orders: true, ..self }
    }

    /// Some calls of the session that is on, or a new one.
    pub fn step(&mut self, tally: &mut Tally) {
        for _ in 0..if self.size == Size::Full { 20 } else { 60 } {
            if self.left == 0 {
                self.open(tally);
            }
            self.left -= 1;
            self.sized = None;
            let ask = if self.fill > 0 { self.push() } else { self.next() };
            self.fill = self.fill.saturating_sub(1);
            if self.two_orders {
                orders::ask(tally, &ask, &mut self.stage, &mut self.twin, &mut self.rng);
            } else {
                let given = self.stage.ask(tally, &ask, self.twin.as_mut());
                self.count_size(tally, &given.reply);
            }
            if matches!(ask, Ask::Begin { .. } | Ask::Invalidate) {
                self.fill = self.rng.pick(&[0, 0, 2, 5]);
            }
        }
    }

    /// Counts a list at the limit that was taken, and one beyond it that was refused.
    fn count_size(&self, tally: &mut Tally, reply: &Reply) {
        match self.sized {
            Some(SLOT) => tally.limits[FULL_LISTS] += u64::from(reply.answer != raw::REFUSED),
            Some(_) => tally.limits[LONG_LISTS] += u64::from(reply.number == 15),
            None => {}
        }
    }

    /// A list of the world; one in `AT_LIMIT` has just 2,048 bytes, or 2 or 4 more. Long queues are filled with others.
    fn list(&mut self, epoch: u64) -> Assignment {
        if self.fill == 0 && self.rng.one_in(AT_LIMIT) {
            let size = size_at_limit(&mut self.rng);
            self.sized = Some(size);
            return self.world.list_of_size(epoch, size, &mut self.rng);
        }
        self.world.list(epoch, &mut self.rng)
    }

    /// The three texts of a session: one topic in six may be no parent, one in `LONG_TOPIC` is longer than 42 bytes, up to what the three texts can
    /// have together.
    fn texts(&mut self) -> [String; 3] {
        let rng = &mut self.rng;
        let topic = if rng.one_in(6) { rng.pick(TOPICS) } else { rng.pick(&TOPICS[..5]) };
        let [subscription, name] = [rng.pick(&["s", "", "sub ü"]), rng.pick(&["n", "", "name"])];
        let most = TEXTS_MOST - subscription.len() - name.len();
        let long = rng.pick(&[43, 43, 120, 250, most, most + 1]) + rng.below(2);
        let topic = if rng.one_in(LONG_TOPIC) { format!("topic://{}", long_path(long.min(most + 1) - 8, rng)) } else { topic.into() };
        [topic, subscription.into(), name.into()]
    }

    fn store(&mut self) -> Vec<u8> {
        let rng = &mut self.rng;
        let length = match self.size {
            Size::Small => STORE_LEAST + rng.pick(&[0, 1, 11, 12, 26, 60, 120, 300, 700, SLOT, 5 * SLOT]) + rng.below(60),
            Size::Middle => STORE_LEAST + rng.pick(&[4, 8, 30]) * SLOT + rng.pick(&[0, 1]),
            Size::Full => STORE_FULL + rng.pick(&[0, 0, 1, SLOT]),
        };
        rng.bytes(length)
    }

    fn open(&mut self, tally: &mut Tally) {
        let store = self.store();
        let texts = self.texts();
        self.world = World::new(&texts[0]);
        let rng = &mut self.rng;
        self.consumer_id = rng.pick(&[0, 7, u64::MAX]);
        self.texts = Texts { texts: texts.map(String::into_bytes), kind: rng.pick(&[0, 1, 2, -1]) };
        let incarnation = rng.pick(&[0, 1, 5, u64::MAX - 2]);
        self.stage = Stage::new(Default::default(), store, rng);
        self.patience = if self.size == Size::Full {
            25
        } else if self.two_orders {
            1
        } else {
            rng.pick(&[1, 3, 12])
        };
        (self.left, self.fill) = match self.size {
            Size::Full if !rng.one_in(4) => (1200, rng.between(1000, 1025)),
            Size::Full => (200, 0),
            Size::Middle => (rng.pick(&[60, 200, 2000]), rng.pick(&[0, 3, 10, 38])),
            Size::Small => (rng.between(10, 200), rng.pick(&[0, 0, 2, 6])),
        };
        self.twin = self.stage.open(tally, self.consumer_id, incarnation, &self.texts);
        let long = self.texts.texts[0].len() > 42;
        tally.limits[LONG_PARENTS] += u64::from(long && self.twin.is_some());
        if long && self.twin.is_none() {
            (self.left, self.fill) = (5, 0);
        }
        self.reader = if self.rng.one_in(4) { None } else { Some(self.rng.below(READERS)) };
        if self.reader.is_none() {
            self.twin = None;
            tally.several_readers += 1;
        }
    }

    fn style(&mut self) -> Style {
        if self.rng.one_in(3) { Style::Wild } else { Style::Plain }
    }

    fn floor(&self) -> u64 {
        if is_set(self.stage.record.has_floor) { self.stage.record.epoch_floor } else { 3 }
    }

    /// The epoch below which a push would be stale: the last push's while there is a queue, else the floor.
    fn behind(&self) -> u64 {
        let queued = !is_set(self.stage.record.registered) && self.stage.record.queue_count > 0;
        if queued { self.pushed.max(self.floor()) } else { self.floor() }
    }

    /// An epoch near another.
    fn near(&mut self, epoch: u64) -> u64 {
        let rng = &mut self.rng;
        match rng.below(120) {
            0..80 => epoch,
            80..106 => epoch.saturating_add(1),
            106..110 => epoch.saturating_add(rng.below(4) as u64),
            110..116 => epoch.saturating_sub(1),
            116 => 0,
            117 => rng.word(),
            _ => epoch.saturating_add(rng.pick(&[0xff, 0xffff_ffff])),
        }
    }

    fn incarnation(&mut self) -> u64 {
        let now = self.stage.record.incarnation;
        if self.rng.one_in(40) { self.rng.pick(&[now.wrapping_add(1), now.wrapping_sub(1), 0]) } else { now }
    }

    fn room(&mut self) -> usize {
        if self.rng.one_in(30) { self.rng.pick(&[0, 1, ROOM - 1, ROOM + 1, 4096]) } else { ROOM }
    }

    /// A drain by the session's one reader, or by any, now and then one that there is not.
    fn drain(&mut self) -> Ask {
        let any = if self.rng.one_in(20) { self.rng.pick(&[READERS, READERS + 1, 256, usize::MAX]) } else { self.rng.below(READERS) };
        Ask::Drain { reader: self.reader.unwrap_or(any), room: self.room() }
    }

    /// A push that is most likely queued.
    fn push(&mut self) -> Ask {
        self.pushed = self.behind().saturating_add(u64::from(self.rng.one_in(3)));
        let list = self.list(self.pushed);
        let message = list.update(self.consumer_id, Style::Plain, &mut self.rng);
        Ask::Update { message, incarnation: self.stage.record.incarnation, room: ROOM }
    }

    fn update(&mut self) -> Ask {
        let (epoch, style) = (self.near(self.behind()), self.style());
        self.pushed = epoch;
        let faulty = self.rng.one_in(if self.two_orders { 3 } else { 8 });
        let list = if faulty { self.faulty(epoch) } else { self.list(epoch) };
        let consumer_id = if self.rng.one_in(40) { self.rng.word() } else { self.consumer_id };
        let message = list.update(consumer_id, style, &mut self.rng);
        let message = self.sometimes_relayed(message, relay::update);
        let message = self.sometimes_damaged(message);
        Ask::Update { message, incarnation: self.incarnation(), room: self.room() }
    }

    /// A list with a fault, or with two where the order may decide which is named.
    fn faulty(&mut self, epoch: u64) -> Assignment {
        let mut list = self.world.faulty(epoch, &mut self.rng);
        if self.two_orders && self.rng.one_in(2) {
            self.world.put_fault(&mut list, &mut self.rng);
        }
        list
    }

    fn sometimes_relayed(&mut self, message: Vec<u8>, relay: fn(&[u8], &mut Rng) -> Vec<u8>) -> Vec<u8> {
        if self.rng.one_in(6) { relay(&message, &mut self.rng) } else { message }
    }

    fn sometimes_damaged(&mut self, message: Vec<u8>) -> Vec<u8> {
        match self.rng.below(60) {
            0..5 => damaged(&message, &mut self.rng),
            5 => {
                let length = self.rng.below(24);
                self.rng.bytes(length)
            }
            _ => message,
        }
    }

    fn response(&mut self) -> Ask {
        let (epoch, style) = (self.near(self.floor()), self.style());
        let request = self.rng.word() >> self.rng.below(64);
        let message = match self.rng.below(10) {
            0 => refusing_response(request, style, &mut self.rng),
            1 => self.faulty(epoch).response(request, style, &mut self.rng),
            2 | 3 if self.two_orders => self.faulty(epoch).response(request, style, &mut self.rng),
            _ => self.list(epoch).response(request, style, &mut self.rng),
        };
        let message = self.sometimes_relayed(message, relay::response);
        let message = self.sometimes_damaged(message);
        Ask::Response { message, incarnation: self.incarnation() }
    }

    fn begin(&mut self) -> Ask {
        let now = self.stage.record.incarnation;
        let next = now.saturating_add(1);
        Ask::Begin { incarnation: self.rng.pick(&[next, next, next, now, now.wrapping_sub(1), now.saturating_add(300), 0]) }
    }

    fn matches(&mut self) -> Ask {
        let mut texts = self.texts.clone();
        match self.rng.below(6) {
            0 => texts.kind = self.rng.pick(&[0, 1, 2, -1]),
            1 => texts.texts.swap(1, 2),
            2 => texts.texts[self.rng.below(3)].push(self.rng.byte()),
            3 => drop(texts.texts[self.rng.below(3)].pop()),
            _ => {}
        }
        Ask::Matches(texts)
    }

    /// A response now and then, begin and invalidate seldom; while there are replays, mostly drains.
    fn next(&mut self) -> Ask {
        let record = self.stage.record;
        if self.rng.one_in(self.patience) {
            match self.rng.below(if is_set(record.registered) { 40 } else { 12 }) {
                0 if self.rng.one_in(2) => return self.begin(),
                0 => return Ask::Invalidate,
                1 | 2 => return self.response(),
                _ => {}
            }
        }
        let replays = is_set(record.registered) && record.drain_positions.iter().any(|position| *position < record.queue_count);
        match self.rng.below(30) {
            0 if self.rng.one_in(4) => Ask::Check,
            0 => self.matches(),
            1..3 => self.drain(),
            3..20 if replays => self.drain(),
            _ => self.update(),
        }
    }
}
