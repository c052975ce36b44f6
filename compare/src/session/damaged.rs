//! Records and stores of any content, most of which no run reaches: the answers are the model's alone.
use super::stage::{Ask, ROOM, Stage};
use super::world::{TOPICS, World};
use crate::generate::{Assignment, Style, damaged};
use crate::lists::{AT_LIMIT, random_sheet, sheet_of_size, size_at_limit, spoiled_sheet};
use crate::model::identity::Texts;
use crate::model::session::{QUEUE, SLOT, STORE_LEAST};
use crate::model::sheet::Sheet;
use crate::raw::{READERS, Record};
use crate::rng::Rng;
use crate::tally::Tally;

pub struct Damaged {
    rng: Rng,
}

impl Damaged {
    pub fn new(seed: u64) -> Self {
        Self { rng: Rng::new(seed, "damaged") }
    }

    pub fn step(&mut self, tally: &mut Tally) {
        for _ in 0..20 {
            let rng = &mut self.rng;
            let topics = if rng.one_in(8) { TOPICS } else { &TOPICS[..2] };
            let topic = rng.pick(topics);
            let length = length(rng);
            let (store, entries) = store(length, topic, rng);
            let record = record(entries, rng);
            let mut stage = Stage::new(record, store, rng);
            let mut world = World::new(topic);
            for _ in 0..4 {
                let ask = ask(&stage, &mut world, &mut self.rng);
                stage.ask(tally, &ask, None);
            }
        }
    }
}

/// Lengths around each limit of a small store.
fn length(rng: &mut Rng) -> usize {
    match rng.below(10) {
        0 => rng.below(STORE_LEAST),
        1 => STORE_LEAST - 1,
        2 | 3 => STORE_LEAST + rng.below(60),
        4 | 5 => rng.between(3, 8) * SLOT + rng.pick(&[0, 1]),
        _ => STORE_LEAST + rng.below(600),
    }
}

/// Bytes of a flag: 0 says no, all others yes.
const FLAGS: &[u8] = &[0, 0, 1, 1, 2, 0x80, 0xff];

/// A record over a queue of so many entries.
fn record(entries: usize, rng: &mut Rng) -> Record {
    let queue_count = if rng.one_in(12) { rng.pick(&[entries + 1, entries + 2, 1024, 1025, usize::MAX, 1 << 32]) } else { rng.below(entries + 1) };
    let mut drain_positions = [(); READERS].map(|()| rng.below(queue_count.min(8) + 1));
    if rng.one_in(12) {
        drain_positions[rng.below(READERS)] = rng.pick(&[queue_count.wrapping_add(1), usize::MAX, 0]);
    }
    let floor = rng.pick(&[0, 3, 4, 5, u64::MAX]);
    Record {
        consumer_id: 7,
        incarnation: rng.pick(&[1, 1, 1, u64::MAX]),
        epoch_floor: floor,
        queue_count,
        drain_positions,
        has_floor: rng.pick(FLAGS),
        registered: rng.pick(FLAGS),
        invalidated: rng.pick(FLAGS),
    }
}

/// Slots and entries that are good, most of them, and how many entries; a bad one is spoiled in one place or not a sheet at all, or its length is.
fn store(length: usize, topic: &str, rng: &mut Rng) -> (Vec<u8>, usize) {
    let mut store = rng.bytes(length);
    let bad = rng.below(12);
    let mut before = Vec::new();
    for slot in 0..3.min(length / SLOT) {
        let bytes = if slot == 0 { identity(topic, bad == 0, rng) } else { sheet(bad == slot, slot > 1 && rng.one_in(3), &before, rng) };
        put(&mut store[slot * SLOT..(slot + 1) * SLOT], &bytes);
        before = bytes;
    }
    let (mut at, mut entries) = (QUEUE, 0);
    while entries < 8 {
        let bytes = sheet(bad == 3 + entries, rng.one_in(3), &before, rng);
        let wrong = if bad == 3 + entries && rng.one_in(2) { rng.pick(&[1, 0xffff, 0x100, 2, 14]) } else { 0 };
        let size = (bytes.len() as u16).wrapping_add(wrong);
        let entry = [&size.to_be_bytes(), &bytes[..]].concat();
        if length < at + entry.len() {
            break;
        }
        put(&mut store[at..], &entry);
        at += entry.len();
        entries += 1;
        before = bytes;
    }
    (store, entries)
}

/// As much of the bytes as there is room for.
fn put(room: &mut [u8], bytes: &[u8]) {
    let length = bytes.len().min(room.len());
    room[..length].copy_from_slice(&bytes[..length]);
}

fn sheet(bad: bool, again: bool, before: &[u8], rng: &mut Rng) -> Vec<u8> {
    if again {
        return before.to_vec();
    }
    let epoch = rng.pick(&[0, 3, 3, 3, 4, 4, 5, u64::MAX]);
    let most = if rng.one_in(8) { 2048 } else { 120 };
    let list = if rng.one_in(AT_LIMIT) { sheet_of_size(epoch, size_at_limit(rng), rng) } else { random_sheet(epoch, most, rng) };
    let packed = list.packed();
    if bad { spoiled_sheet(packed, rng) } else { packed }
}

fn identity(topic: &str, bad: bool, rng: &mut Rng) -> Vec<u8> {
    let texts = [topic.as_bytes().to_vec(), b"s".to_vec(), vec![b'n'; rng.pick(&[0, 1, 2000])]];
    let mut packed = Texts { texts, kind: rng.pick(&[0, 1]) }.packed();
    if bad {
        match rng.below(4) {
            0 => packed[6] = rng.between(2, 255) as u8,
            1 => packed[rng.pick(&[0, 2, 4])] ^= 1 << rng.between(3, 7),
            2 => packed[rng.pick(&[1, 3, 5])] ^= 1 << rng.below(8),
            _ => packed[7] = 0xff,
        }
    }
    packed
}

/// The list in a slot, or the first of the queue, as a message would say it.
fn held(stage: &Stage, world: &World, rng: &mut Rng) -> Option<Assignment> {
    let place = rng.pick(&[SLOT, 2 * SLOT, 2 * SLOT, 2 * SLOT, QUEUE + 2]);
    let sheet = Sheet::at_front(stage.mirror.get(place..)?)?;
    Some(Assignment::of_sheet(&sheet, world.path()))
}

fn ask(stage: &Stage, world: &mut World, rng: &mut Rng) -> Ask {
    let epoch = rng.pick(&[0, 2, 3, 4, 5, 6, u64::MAX]);
    let incarnation = if rng.one_in(12) { 2 } else { stage.record.incarnation };
    let room = if rng.one_in(12) { rng.pick(&[0, ROOM - 1]) } else { ROOM };
    let list = match rng.below(6) {
        0 => world.faulty(epoch, rng),
        1 | 2 => held(stage, world, rng).unwrap_or_else(|| world.list(epoch, rng)),
        _ => world.list(epoch, rng),
    };
    let broken = rng.one_in(10);
    let sent = |message: Vec<u8>, rng: &mut Rng| if broken { damaged(&message, rng) } else { message };
    match rng.below(10) {
        0..4 => {
            let message = list.update(7, Style::Plain, rng);
            Ask::Update { message: sent(message, rng), incarnation, room }
        }
        4..6 => {
            let message = list.response(1, Style::Plain, rng);
            Ask::Response { message: sent(message, rng), incarnation }
        }
        6..8 => Ask::Drain { reader: if rng.one_in(12) { rng.pick(&[READERS, usize::MAX]) } else { rng.below(READERS) }, room },
        8 if rng.one_in(3) => Ask::Begin { incarnation: rng.pick(&[0, 1, 2, u64::MAX]) },
        8 if rng.one_in(3) => Ask::Invalidate,
        8 => Ask::Check,
        _ => {
            let texts = [world.topic.as_bytes().to_vec(), b"s".to_vec(), b"n".to_vec()];
            Ask::Matches(Texts { texts, kind: rng.pick(&[0, 1]) })
        }
    }
}
