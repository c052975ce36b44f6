//! Every length around each limit: stores, outputs, texts of an identity, lists, rows of buckets, numbers of segments.
use super::script::{CONSUMER, Script, TOPIC, bare, bucketed, list};
use super::stage::{Ask, ROOM, Stage};
use crate::generate::{Assignment, Part, Style};
use crate::model::identity::Texts;
use crate::model::session::{QUEUE, QUEUE_MOST, Queue, SLOT, STORE_FULL, STORE_LEAST, entry};
use crate::model::sheet::Sheet;
use crate::raw::{READERS, Record};
use crate::rng::Rng;
use crate::tally::Tally;

pub fn run(tally: &mut Tally, seed: u64) {
    slots(tally, seed);
    stores(tally, seed);
    rooms(tally, seed);
    identities(tally, seed);
    sizes(tally, seed);
    bucket_rows(tally, seed);
    many_segments(tally, seed);
    deep(tally, seed);
}

/// A few calls on a store of each length; where it is too short, every call says so.
fn stores(tally: &mut Tally, seed: u64) {
    let mut lengths = vec![0, 1, SLOT, STORE_LEAST - 1];
    for slots in [3, 4, 5, 8, 1026, 1027, 1028] {
        lengths.extend([slots * SLOT - 1, slots * SLOT, slots * SLOT + 1]);
    }
    lengths.push(STORE_FULL + 20 * SLOT);
    lengths.extend((1..80).map(|free| STORE_LEAST + free));
    for length in lengths {
        let mut s = Script::open(tally, seed, length, TOPIC);
        for epoch in 1..4 {
            s.update(&list(epoch, &[(epoch, 0, 1)]));
        }
        s.ask(&Ask::Matches(Texts { texts: [TOPIC, "s", "n"].map(|text| text.as_bytes().to_vec()), kind: 0 }));
        s.ask(&Ask::Check);
        s.response(&list(1, &[]));
        s.drain_all();
        s.update(&list(4, &[(9, 0, 1)]));
        s.response(&list(4, &[(8, 0, 1)]));
        s.drain();
    }
}

fn rooms(tally: &mut Tally, seed: u64) {
    for registered in [false, true] {
        let mut s = Script::open(tally, seed, 8 * SLOT, TOPIC);
        s.update(&list(1, &[(1, 0, 1)]));
        if registered {
            s.response(&list(1, &[]));
        }
        for room in [0, 1, ROOM - 1, ROOM, ROOM + 1, 4096] {
            let message = list(1 + room as u64, &[(2, 0, 1)]).update(CONSUMER, Style::Plain, &mut s.rng);
            s.push(message, room);
            s.ask(&Ask::Drain { reader: 0, room });
        }
    }
}

fn identities(tally: &mut Tally, seed: u64) {
    let mut rng = Rng::new(seed, "identities");
    for total in [0, 1, 255, 256, 2040, 2041, 2042, 65_535, 65_536, 70_000] {
        for split in 0..4 {
            let lengths = [[total, 0, 0], [0, total, 0], [0, 0, total], [total / 3, total / 3, total - 2 * (total / 3)]][split];
            for store in [STORE_LEAST - 1, STORE_LEAST, STORE_LEAST + 1] {
                opened(tally, lengths.map(|length| vec![b'x'; length]), store, &mut rng);
            }
        }
    }
    for bad in [&b"\xff"[..], b"\xc3", b"a\xed\xa0\x80", &[0xf4, 0x90, 0x80, 0x80], &[0x80; 3000]] {
        for place in 0..3 {
            let mut texts = [b"topic://a/b/c".to_vec(), b"s".to_vec(), b"n".to_vec()];
            texts[place] = bad.to_vec();
            opened(tally, texts, STORE_LEAST, &mut rng);
        }
    }
    opened(tally, [b"\xc3".to_vec(), b"\xa4".to_vec(), Vec::new()], STORE_LEAST, &mut rng);
}

fn opened(tally: &mut Tally, texts: [Vec<u8>; 3], store: usize, rng: &mut Rng) {
    for kind in [0, 1, 2, -1, 257] {
        let texts = Texts { texts: texts.clone(), kind };
        let bytes = rng.bytes(store);
        let mut stage = Stage::new(Default::default(), bytes, rng);
        let mut twin = stage.open(tally, 3, 4, &texts);
        stage.ask(tally, &Ask::Matches(texts.clone()), twin.as_mut());
        stage.ask(tally, &Ask::Matches(Texts { kind: 1 - kind, ..texts }), twin.as_mut());
    }
}

/// Lists of 2,040 to 2,056 bytes by every mix of segments and buckets, as update and as response.
fn sizes(tally: &mut Tally, seed: u64) {
    let mut s = Script::open(tally, seed, 5 * SLOT, TOPIC);
    for size in [2040, 2042, 2044, 2046, 2048, 2050, 2052, 2054, 2056] {
        for segments in 1..147 {
            let left = size - 10 - 14 * segments;
            if left < 0 || left % 4 != 0 || (segments > 4 && segments % 12 > 1 && segments < 143) {
                continue;
            }
            let count = left / 4;
            let parts = (0..segments).map(|k| {
                let buckets = (0..count / segments + i32::from(k < count % segments)).map(|value| (value * 3, value * 3 + 1));
                Part::new("a/b/c", 1000 - k as u64, 0, 65_535, buckets.collect())
            });
            let list = Assignment { epoch: 1, parts: parts.collect() };
            s.update(&list);
            s.response(&list);
            s.update(&list);
            s.invalidate();
        }
    }
}

/// More than 506 buckets: faults, overlaps and buckets outside the range anywhere, rising and not.
fn bucket_rows(tally: &mut Tally, seed: u64) {
    let mut s = Script::open(tally, seed, 4 * SLOT, TOPIC);
    for count in [505, 506, 507, 600, 1011, 1012, 1013, 1100] {
        let rising: Vec<(i32, i32)> = (0..count).map(|value| (value * 4, value * 4 + 1)).collect();
        let mut shuffled = rising.clone();
        s.rng.shuffle(&mut shuffled);
        let falling: Vec<(i32, i32)> = rising.iter().rev().copied().collect();
        for buckets in [rising, shuffled, falling] {
            s.update(&bucketed(1, 5, buckets.clone()));
            let last = buckets.len() - 1;
            for at in [0, 505.min(last), 506.min(last), last] {
                let mut part = Part::new("a/b/c", 5, 1, 60_000, buckets.clone());
                part.buckets.iter_mut().for_each(|bucket| bucket.0 = bucket.0.max(1));
                part.buckets[at] = (60_000, 60_001);
                s.update(&Assignment { epoch: 1, parts: vec![part.clone()] });
                part.buckets[at] = (0, 0);
                s.response(&Assignment { epoch: 1, parts: vec![part.clone()] });
                part.buckets.swap(0, at);
                part.buckets[last] = part.buckets[1];
                s.update(&Assignment { epoch: 1, parts: vec![part] });
            }
            for (from, to) in [(0, last), (last, 0), (0, 1), (last - 1, last), (0, 506), (505, 506), (506, 505)] {
                let mut shared = buckets.clone();
                if from <= last && to <= last {
                    shared[to].0 = shared[from].1;
                    shared[to].1 = shared[from].1;
                    s.update(&bucketed(1, 5, shared.clone()));
                    shared[last] = (65_536, 65_536);
                    s.response(&bucketed(1, 5, shared));
                }
            }
        }
    }
}

/// More segments than a list can hold: each is still tested, and each id for a repeat.
fn many_segments(tally: &mut Tally, seed: u64) {
    let mut s = Script::open(tally, seed, 4 * SLOT, TOPIC);
    for count in [146, 4095, 4096, 4097, 4098, 9000] {
        let good = bare(1, 0, count);
        s.update(&good);
        let last = good.parts.len() - 1;
        for (from, to) in [(0, last), (last - 1, last), (last / 2, last)] {
            let mut again = good.clone();
            again.parts[to] = again.parts[from].clone();
            s.update(&again);
            s.rng.shuffle(&mut again.parts);
            s.response(&again);
        }
        for fault in 0..3 {
            let mut bad = good.clone();
            match fault {
                0 => bad.parts[last] = Part::new("a/b/c", 1, 9, 8, Vec::new()),
                1 => bad.parts[last] = Part::new("a/b/d", 1, 8, 9, Vec::new()),
                _ => bad.parts[last].buckets = vec![(3, 2)],
            }
            s.update(&bad);
        }
    }
}

/// A slot's sheet made malformed: a reversed range, too many segments, buckets that share a value, a reversed bucket, ids that do not rise.
const MALFORMED: &[(usize, &[u8])] = &[
    (18, &[0, 9, 0, 8]),
    (8, &[0xff, 0xff]),
    (8, &[0, 3]),
    (22, &[0, 2, 0, 0, 0, 5, 0, 5, 0, 9]),
    (22, &[0, 1, 0, 6, 0, 5]),
    (22, &[0xff, 0xff]),
    (10, &[0xff; 8]),
];

/// Damage in every slot and queue entry, used or not, in the lengths of entries and in the record's counts, before each call: 22, or no change of
/// the answer.
fn slots(tally: &mut Tally, seed: u64) {
    for registered in [false, true] {
        let mut s = Script::open(tally, seed, 8 * SLOT, TOPIC);
        for epoch in 1..4 {
            s.update(&list(epoch, &[(1, 0, 1), (epoch + 1, 0, 1)]));
        }
        if registered {
            s.response(&list(1, &[(1, 0, 1), (2, 0, 1)]));
            s.drain();
        }
        let good = s.stage.clone();
        let mut rng = Rng::new(seed, "slots");
        let queue = Queue::read(&good.mirror, 3).expect("three pushes");
        let entries = queue.entries.iter().map(|(place, _)| *place);
        for sheet in (0..3).map(|slot| slot * SLOT).chain(entries.clone()).chain([queue.end]) {
            for (place, bytes) in MALFORMED.iter().copied().chain([(6, &[2][..]), (0, &[0xff, 0xff]), (7, &[0xff])]) {
                let mut stage = good.clone();
                stage.poke(sheet + place, bytes);
                every_call(tally, &stage, &mut rng);
            }
        }
        for sheet in entries {
            for length in [0, 1, 9, 10, 23, 24, 37, 38, 39, 40, 52, 256, 2048, 2049, 0x2600, 0xffff_u16] {
                let mut stage = good.clone();
                stage.poke(sheet - 2, &length.to_be_bytes());
                every_call(tally, &stage, &mut rng);
            }
        }
        for (queue_count, drain_position) in [(3, 4), (4, 0), (5, 5), (6, 0), (usize::MAX, 0), (0, 1), (0, usize::MAX), (3, 3), (0, 0)] {
            for reader in 0..READERS {
                let mut stage = good.clone();
                (stage.record.queue_count, stage.record.drain_positions) = (queue_count, [0; READERS]);
                stage.record.drain_positions[reader] = drain_position;
                every_call(tally, &stage, &mut rng);
            }
        }
    }
}

/// Each call on a copy of the stage, by the model alone.
fn every_call(tally: &mut Tally, stage: &Stage, rng: &mut Rng) {
    let update = list(5, &[]).update(CONSUMER, Style::Plain, rng);
    let [low, high] = [1, 5].map(|epoch| list(epoch, &[]).response(1, Style::Plain, rng));
    let texts = Texts { texts: [TOPIC, "s", "n"].map(|text| text.as_bytes().to_vec()), kind: 0 };
    let asks = [
        Ask::Update { message: update, incarnation: 1, room: ROOM },
        Ask::Update { message: b"\xff".to_vec(), incarnation: 1, room: ROOM },
        Ask::Update { message: Vec::new(), incarnation: 1, room: ROOM - 1 },
        Ask::Response { message: low, incarnation: 1 },
        Ask::Response { message: high, incarnation: 1 },
        Ask::Response { message: b"\xff".to_vec(), incarnation: 1 },
        Ask::Drain { reader: 0, room: ROOM },
        Ask::Drain { reader: READERS - 1, room: ROOM },
        Ask::Drain { reader: READERS, room: ROOM },
        Ask::Drain { reader: READERS, room: ROOM - 1 },
        Ask::Matches(texts),
        Ask::Begin { incarnation: 2 },
        Ask::Invalidate,
        Ask::Check,
    ];
    for ask in &asks {
        stage.clone().ask(tally, ask, None);
    }
}

/// Queues of about 1,024, with room for just as many, for a byte less, and for more: no more than 1,024 are taken.
fn deep(tally: &mut Tally, seed: u64) {
    let mut rng = Rng::new(seed, "deep");
    let sheet = |index: u64| Sheet { epoch: 3 + index % 2, segments: Vec::new() };
    let just = QUEUE + 12 * QUEUE_MOST;
    for length in [just - 1, just, just + 11, just + 12, just + 100, STORE_FULL, STORE_FULL + 3 * SLOT] {
        let store = rng.bytes(length);
        let mut stage = Stage::new(Default::default(), store, &mut rng);
        stage.poke(0, &Texts { texts: [TOPIC, "s", "n"].map(|text| text.as_bytes().to_vec()), kind: 0 }.packed());
        for slot in [1, 2] {
            stage.poke(slot * SLOT, &sheet(slot as u64).packed());
        }
        for index in (0..1026).take_while(|index| QUEUE + 12 * (index + 1) <= length) {
            stage.poke(QUEUE + 12 * index, &entry(&sheet(1 + index as u64)));
        }
        for registered in [false, true] {
            for queue_count in [1022, 1023, 1024, 1025, 1026] {
                let drain_positions = [queue_count - 2; READERS];
                stage.record = Record {
                    consumer_id: CONSUMER,
                    incarnation: 1,
                    queue_count,
                    drain_positions,
                    registered: u8::from(registered),
                    ..Default::default()
                };
                every_call(tally, &stage, &mut rng);
            }
        }
    }
}
