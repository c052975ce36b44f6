//! The window of lost counts: lists of counts and clearings from an empty window against a fresh reckoning over a plain list,
//! and any bytes against the model.
use crate::model::churn::{COUNT_MOST, PLACES, WINDOW, clear, current, push, reckoned};
use crate::ours;
use crate::raw::Reply;
use crate::reply::{refused, show};
use crate::rng::Rng;
use crate::tally::{Call, Tally, first_difference, hex};

/// What is done with a window.
#[derive(Clone, Copy, Debug)]
enum Act {
    Count(u64),
    Clear,
    Ask,
}

/// Does it over a copy of the bytes, and compares the answer and every byte with what is due.
fn check(tally: &mut Tally, act: Act, window: &[u8], due: &(Reply, Vec<u8>)) {
    let mut lent = window.to_vec();
    let (call, given) = match act {
        Act::Count(count) => (Call::ChurnPush, ours::churn_push(&mut lent, count)),
        Act::Clear => (Call::ChurnClear, ours::churn_clear(&mut lent)),
        Act::Ask => (Call::ChurnCurrent, ours::churn_current(&mut lent)),
    };
    tally.count(call, &given, false);
    let wrong = if given != due.0 {
        format!("ours {}, expected {}", show(&given), show(&due.0))
    } else if lent != due.1 {
        format!("byte {} of the window", first_difference(&lent, &due.1))
    } else {
        return;
    };
    tally.differ(call, &wrong, || format!("{act:?}, window {}", hex(window)));
}

/// What the model says of it.
fn due(act: Act, window: &[u8]) -> (Reply, Vec<u8>) {
    match act {
        Act::Count(count) => push(window, count),
        Act::Clear => clear(window),
        Act::Ask => (current(window), window.to_vec()),
    }
}

/// A window from its start on, and all counts that were not refused since the last clearing.
struct Walk {
    window: Vec<u8>,
    kept: Vec<u64>,
}

impl Walk {
    fn new(window: Vec<u8>) -> Self {
        Self { window: clear(&window).1, kept: Vec::new() }
    }

    /// The answer is reckoned from the counts alone, the bytes by the model, whose answer has to be the same.
    fn act(&mut self, tally: &mut Tally, act: Act) {
        let (said, after) = due(act, &self.window);
        let answer = match act {
            Act::Count(count) if count > COUNT_MOST => refused(38, &[]),
            Act::Count(count) => {
                self.kept.push(count);
                reckoned(&self.kept)
            }
            Act::Clear => {
                self.kept.clear();
                reckoned(&[])
            }
            Act::Ask => reckoned(&self.kept),
        };
        assert_eq!(said, answer, "the model's window is that of the counts");
        check(tally, act, &self.window, &(answer, after.clone()));
        self.window = after;
    }
}

pub struct Churns {
    rng: Rng,
    walk: Walk,
}

impl Churns {
    pub fn new(seed: u64) -> Self {
        let mut rng = Rng::new(seed, "churn");
        let walk = Walk::new(rng.bytes(WINDOW));
        Self { rng, walk }
    }

    pub fn step(&mut self, tally: &mut Tally) {
        for _ in 0..40 {
            let act = self.next_act();
            self.walk.act(tally, act);
        }
        for _ in 0..10 {
            let window = self.bytes();
            let act = self.next_act();
            check(tally, act, &window, &due(act, &window));
        }
        if self.rng.one_in(50) {
            let more = self.rng.pick(&[0, 0, 1, 9]);
            self.walk = Walk::new(self.rng.bytes(WINDOW + more));
        }
    }

    fn next_act(&mut self) -> Act {
        let rng = &mut self.rng;
        match rng.below(600) {
            0 => Act::Clear,
            1..20 => Act::Ask,
            20..40 => Act::Count(rng.pick(&[COUNT_MOST, COUNT_MOST + 1, COUNT_MOST + 2, 1 << 32, u64::MAX])),
            40..60 => Act::Count(rng.below(1 << 17) as u64),
            60..200 => Act::Count(0),
            _ => Act::Count(rng.below(9) as u64),
        }
    }

    /// Any bytes, of a window's length or about it, with a mark that is one or is not.
    fn bytes(&mut self) -> Vec<u8> {
        let rng = &mut self.rng;
        let length = if rng.one_in(3) { rng.pick(&[0, 1, 2, 3, WINDOW - 2, WINDOW - 1, WINDOW + 1, WINDOW + 300]) } else { WINDOW };
        let mut window = rng.bytes(length);
        let mark = match rng.below(3) {
            0 => rng.pick(&[0, 1, 254, 255, 256, 257, 510, 511, 512, 513, 767, 768, 0xffff]),
            1 => rng.below(2 * PLACES) as u16,
            _ => rng.word() as u16,
        };
        window.iter_mut().zip(mark.to_be_bytes()).for_each(|(byte, of_mark)| *byte = of_mark);
        window
    }
}

/// Over more than twice the places, so that each is written anew: rising, falling and equal counts, a large one that goes, one
/// that is refused, clearings; then each mark about a limit, and each length.
pub fn directed(tally: &mut Tally) {
    let mut walk = Walk::new(vec![0xff; WINDOW]);
    walk.act(tally, Act::Ask);
    let rising = (0..600).map(Act::Count);
    let falling = (0..600).rev().map(Act::Count);
    let once_large = [Act::Count(COUNT_MOST), Act::Count(COUNT_MOST + 1)].into_iter().chain((0..300).map(|_| Act::Count(1)));
    let acts = rising.chain([Act::Clear]).chain(falling).chain([Act::Clear, Act::Clear]).chain(once_large);
    for act in acts {
        walk.act(tally, act);
        walk.act(tally, Act::Ask);
    }
    for length in [0, 1, 2, 3, WINDOW - 1, WINDOW, WINDOW + 1] {
        for mark in [0, 1, 255, 256, 257, 511, 512, 513, 0xffff] {
            let mut window: Vec<u8> = (0..length).map(|at| at as u8).collect();
            window.iter_mut().zip(u16::to_be_bytes(mark)).for_each(|(byte, of_mark)| *byte = of_mark);
            for act in [Act::Count(3), Act::Count(COUNT_MOST + 1), Act::Clear, Act::Ask] {
                check(tally, act, &window, &due(act, &window));
            }
        }
    }
}
