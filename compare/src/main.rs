//! Runs the Rust's session and our exported library on the same bytes, in one process, and compares every answer.
//!
//! compare [SEED] [SECONDS]: all parts, sharing the time. compare --self-test: whether a wrong bit in an answer would be noticed. compare --record FOLDER [SEED]: a sample of
//! the Rust's answers.
use std::time::Duration;

include!(concat!(env!("OUT_DIR"), "/sources.rs"));

#[path = "../../bindings/rust/src/raw.rs"]
#[allow(dead_code)]
#[rustfmt::skip]
mod raw;

mod attach_logs;
mod charges;
mod churns;
mod commands;
mod either_order;
mod from_number;
mod generate;
mod hours;
mod keys;
mod lists;
#[cfg_attr(not(feature = "watch"), allow(dead_code))]
mod model;
mod names;
mod oracle;
mod ours;
mod output;
mod parts;
mod progress;
mod record;
mod relay;
mod reply;
mod rng;
mod self_test;
mod session;
mod short;
mod shrink;
mod spoil;
mod tally;
mod texts;
#[cfg(feature = "watch")]
mod watch;
#[cfg(feature = "watch")]
mod windows;

use parts::Parts;
use progress::Progress;
use tally::Tally;

/// Seed and seconds where none are given.
const SEED: u64 = 1;
const SECONDS: u64 = 30;

fn main() {
    let words: Vec<String> = std::env::args().skip(1).collect();
    if words.first().is_some_and(|word| word == "--self-test") {
        std::process::exit(self_test::run());
    }
    if words.first().is_some_and(|word| word == "--record") {
        let folder = words.get(1).expect("--record FOLDER");
        let seed = words.get(2).map_or(SEED, |word| word.parse().expect("a seed"));
        std::process::exit(record::run(folder, seed));
    }
    let number = |at: usize, default: u64| words.get(at).map_or(default, |word| word.parse().unwrap_or_else(|_| panic!("{word}: not a number")));
    std::process::exit(compare(number(0, SEED), number(1, SECONDS)));
}

/// Runs for that long; 0 where nothing differs and every answer was seen.
fn compare(seed: u64, seconds: u64) -> i32 {
    let mut progress = Progress::new();
    let mut tally = Tally::new();
    parts::directed(&mut tally, seed, &mut progress);
    let mut parts = Parts::new(&mut tally, seed);
    while progress.elapsed() < Duration::from_secs(seconds) && parts.step(&mut tally) {
        progress.tell(|| format!("of {seconds}: {}", tally.so_far()));
    }
    progress.end();
    tally.print();
    parts.print();
    let unseen = tally.unseen();
    if !unseen.is_empty() {
        println!("compare: answers that should have come and did not: {}", unseen.join(", "));
    }
    println!("compare: {} calls, {} differences (seed {seed})", tally.calls, tally.differences);
    i32::from(tally.differences > 0 || !unseen.is_empty())
}
