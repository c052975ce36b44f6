//! The watch's windows crossed: sets and messages of about as many topics as a window holds, in every order.
use crate::generate::{Field, Style, put_field};
use crate::model::watch as model;
use crate::rng::Rng;
use crate::tally::Tally;
use crate::watch::{Bench, Watched, around, event, needed};

// WINDOWS: how many topics each of the watch's windows holds; LENGTHS: the lengths of a message at which it takes another. Read from the code.
include!(concat!(env!("OUT_DIR"), "/windows.rs"));

type Topic = Vec<u8>;

/// Short ones, so that many of them are a short message; the odd numbers lie between those of a message.
fn topic(number: usize) -> Topic {
    format!("t{number:05}").into_bytes()
}

/// So many topics: rising, falling, shuffled, with the ends exchanged, and with a third of them again behind.
fn orders(count: usize, rng: &mut Rng) -> [Vec<Topic>; 5] {
    let rising: Vec<Topic> = (0..count).map(|number| topic(2 * number)).collect();
    let mut orders = [(); 5].map(|()| rising.clone());
    orders[1].reverse();
    rng.shuffle(&mut orders[2]);
    orders[3].swap(0, count - 1);
    orders[4].extend(rising.iter().step_by(3).cloned());
    orders
}

/// Sets of none of these topics, each second one, all, and as many that lie between them.
fn sets(count: usize) -> [Vec<u8>; 4] {
    let packed = |numbers: &mut dyn Iterator<Item = usize>| {
        let topics: Vec<Topic> = numbers.map(topic).collect();
        model::packed(&topics.iter().map(Vec::as_slice).collect())
    };
    let mut all = (0..count).map(|number| 2 * number);
    [packed(&mut (0..0)), packed(&mut all.clone().skip(1).step_by(2)), packed(&mut all), packed(&mut (0..count).map(|number| 2 * number + 1))]
}

/// A snapshot of the topics; diffs that add them, remove them, and add them with each third removed first.
fn messages(topics: &[Topic], rng: &mut Rng) -> [Vec<u8>; 4] {
    let third: Vec<Topic> = topics.iter().step_by(3).cloned().collect();
    [(true, topics, &[][..]), (false, topics, &[]), (false, &[], topics), (false, topics, &third)]
        .map(|(snapshot, added, removed)| event(3, snapshot, added, removed, Style::Plain, rng))
}

/// One call over this set, with a buffer and an output that just suffice.
fn check(tally: &mut Tally, bench: &mut Bench, set: &[u8], message: &[u8]) {
    bench.put(set);
    let (length, room) = needed(3, &bench.mirror, set.len(), message);
    bench.check(tally, &Watched { watch_id: 3, length: length.max(set.len()), used: set.len(), message, room });
}

/// Messages of about the lengths at which another window is taken, with more topics than the least window holds; then one topic less than a
/// window holds, as many, one more, and as many as two windows hold and one more.
pub fn directed(tally: &mut Tally, seed: u64) {
    let mut rng = Rng::new(seed, "windows");
    let windows = WINDOWS.iter().map(|(_, window)| *window);
    let (least, most) = (windows.clone().min().expect("a window"), windows.clone().max().expect("a window"));
    let mut bench = Bench::new(64 * most + (1 << 14), &mut rng);
    for length in LENGTHS.iter().flat_map(|(_, length)| [length - 1, *length, length + 1]) {
        at_length(tally, &mut bench, 2 * least + 1, length, &mut rng);
    }
    for count in windows.flat_map(|window| [window - 1, window, window + 1, 2 * window + 1]) {
        crossed(tally, &mut bench, count, &mut rng);
    }
}

fn crossed(tally: &mut Tally, bench: &mut Bench, count: usize, rng: &mut Rng) {
    let sets = sets(count);
    for topics in orders(count, rng) {
        let messages = messages(&topics, rng);
        for message in &messages[1..] {
            sets.iter().for_each(|set| check(tally, bench, set, message));
        }
        check(tally, bench, &sets[1], &messages[0]);
    }
    let [_, second, ..] = &sets;
    let [snapshot, .., both] = messages(&orders(count, rng)[2], rng);
    around(tally, bench, second, &snapshot, bench.mirror.len());
    around(tally, bench, second, &both, bench.mirror.len());
}

/// Messages of so many topics that have this length, by a text behind them.
fn at_length(tally: &mut Tally, bench: &mut Bench, count: usize, length: usize, rng: &mut Rng) {
    let sets = sets(count);
    for topics in orders(count, rng) {
        for message in messages(&topics, rng) {
            let with_text = |text: usize| {
                let mut longer = message.clone();
                put_field(&mut longer, &Field::Bytes(5, vec![b'x'; text]), Style::Plain, &mut Rng::new(0, ""));
                longer
            };
            let longer = (2..7).map(|head| with_text(length - message.len() - head)).find(|longer| longer.len() == length);
            check(tally, bench, &sets[1], &longer.expect("a text of some length"));
        }
    }
}
