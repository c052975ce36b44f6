//! Pass hours and terms, against the model.
use crate::model::hours::{WEEK, earliest_open, is_open};
use crate::ours;
use crate::raw::{self, Reply};
use crate::reply::{refused, show, taken};
use crate::rng::Rng;
use crate::tally::{Call, Tally, hex};

type Span = (u64, u64);

/// The seconds since 2000-01-01 00:00 of Thursday 2024-02-29 and of Saturday 2024-03-02.
const LEAP_DAY: u64 = 762_480_000;
const TURN: u64 = LEAP_DAY + 172_800;
const LAST: u64 = u64::MAX;
const ALWAYS: Span = (0, LAST);
const EVERY: Span = (0, WEEK);

fn packed(terms: &[Span], windows: &[Span]) -> Vec<u8> {
    let counts = [terms, windows].map(|spans| (spans.len() as u16).to_be_bytes());
    let spans = terms.iter().chain(windows).flat_map(|(start, end)| [start.to_be_bytes(), end.to_be_bytes()]);
    counts.concat().into_iter().chain(spans.flatten()).collect()
}

/// Asks one call and compares.
fn ask(tally: &mut Tally, call: Call, contract: &[u8], second: u64, expected: Option<&Reply>) {
    let mut lent = contract.to_vec();
    let given = match call {
        Call::IsOpen => ours::is_open(&mut lent, second),
        _ => ours::earliest_open(&mut lent, second),
    };
    tally.count(call, &given, false);
    let wrong = match expected {
        None => "the model's two ways part".into(),
        Some(expected) if given != *expected => format!("ours {}, expected {}", show(&given), show(expected)),
        _ if lent != contract => "a slice lent for reading was changed".into(),
        _ => return,
    };
    tally.differ(call, &wrong, || format!("contract {}, second {second}", hex(contract)));
}

/// Both calls by the model.
fn ask_both(tally: &mut Tally, contract: &[u8], second: u64) {
    ask(tally, Call::IsOpen, contract, second, Some(&is_open(contract, second)));
    ask(tally, Call::EarliestOpen, contract, second, earliest_open(contract, second).as_ref());
}

pub struct Hours {
    rng: Rng,
}

impl Hours {
    pub fn new(seed: u64) -> Self {
        Self { rng: Rng::new(seed, "hours") }
    }

    /// A span from a place below the end on, no longer than `longest`.
    fn span(&mut self, low: u64, end: u64, longest: u64) -> Span {
        let start = low + self.rng.below((end - low) as usize) as u64;
        (start, end.min(start.saturating_add(1 + self.rng.below(longest as usize) as u64)))
    }

    /// Terms near a week's turn, at any time; now and then all of time.
    fn terms(&mut self, longest: u64) -> Vec<Span> {
        let any = self.rng.word() / WEEK * WEEK;
        let base = self.rng.pick(&[0, TURN - WEEK, TURN, any, LAST / WEEK * WEEK]);
        let low = base.saturating_sub(self.rng.below(3 * longest as usize) as u64);
        let end = base.saturating_add(4 * longest);
        let count = self.rng.pick(&[0, 1, 1, 2, 3, 5, 64]);
        let mut terms: Vec<_> = (0..count).map(|_| self.span(low, end, longest)).collect();
        if self.rng.one_in(16) {
            terms.push(ALWAYS);
        }
        terms.truncate(64);
        terms
    }

    /// Windows at both ends of the week, or anywhere.
    fn windows(&mut self, longest: u64) -> Vec<Span> {
        let count = self.rng.pick(&[0, 1, 1, 2, 3, 7, 28]);
        (0..count)
            .map(|_| match self.rng.below(4) {
                0 => self.span(0, 4 * longest.min(WEEK / 4), longest),
                1 => self.span(WEEK - 3 * longest.min(WEEK / 4), WEEK, longest),
                2 => self.span(0, WEEK, longest),
                _ => self.span(0, WEEK, WEEK),
            })
            .collect()
    }

    /// One number of the contract changed: a count, a start, an end; or bytes taken off or put on.
    fn spoiled(&mut self, mut contract: Vec<u8>) -> Vec<u8> {
        let spans = contract.len() / 16;
        match self.rng.below(6) {
            0 => contract.truncate(self.rng.below(contract.len())),
            1 => contract.extend(vec![0; self.rng.pick(&[1, 15, 16, 17])]),
            2 => {
                let count = self.rng.pick(&[0, 1, 28, 29, 64, 65, 256, 65_535_u16]);
                let at = self.rng.pick(&[0, 2]);
                contract[at..at + 2].copy_from_slice(&count.to_be_bytes());
            }
            _ if spans == 0 => contract.push(0),
            3 => {
                // An end at its start, or the two exchanged.
                let at = 4 + 16 * self.rng.below(spans);
                let (start, end) = contract[at..at + 16].split_at_mut(8);
                if self.rng.one_in(2) { end.copy_from_slice(start) } else { start.swap_with_slice(end) }
            }
            4 => {
                // An end around the week's.
                let at = 12 + 16 * self.rng.below(spans);
                let end = WEEK - 1 + self.rng.below(4) as u64;
                contract[at..at + 8].copy_from_slice(&end.to_be_bytes());
            }
            _ => {
                let at = self.rng.below(contract.len());
                contract[at] = self.rng.byte();
            }
        }
        contract
    }

    /// A second around the start or end of a term or of a window in it, or any.
    fn second(&mut self, terms: &[Span], windows: &[Span]) -> u64 {
        let term = if terms.is_empty() { ALWAYS } else { self.rng.pick(terms) };
        let window = if windows.is_empty() { EVERY } else { self.rng.pick(windows) };
        let week = self.rng.pick(&[term.0, term.1]) / WEEK * WEEK;
        let any = self.rng.word() >> self.rng.below(64);
        let edges = [term.0, term.1, week, week.saturating_add(window.0), week.saturating_add(window.1), any, LAST];
        self.rng.pick(&edges).saturating_add(self.rng.below(3) as u64).saturating_sub(1)
    }

    pub fn step(&mut self, tally: &mut Tally) {
        // Short terms, of which every second is tried; longer ones.
        let longest = self.rng.pick(&[3, 40, 700, 90_000, 2 * WEEK]);
        let (terms, windows) = (self.terms(longest), self.windows(longest.min(WEEK / 4)));
        let good = packed(&terms, &windows);
        let contract = if self.rng.one_in(5) { self.spoiled(good) } else { good };
        for _ in 0..8 {
            let second = self.second(&terms, &windows);
            ask_both(tally, &contract, second);
        }
    }
}

/// Answers written down: edges, the week's turn, the ends of time, and what is no contract.
pub fn directed(tally: &mut Tally) {
    let (leap, fridays, saturdays) = ((LEAP_DAY, TURN + 43_200), (597_600, WEEK), (0, 3_600));
    let thursdays = (453_600, 464_400);
    let rest = LAST % WEEK;
    let at = |second: u64| taken(raw::FOUND, &[second]);
    let (none, bad) = (taken(raw::NO, &[]), refused(35, &[]));
    let rows: &[(Vec<u8>, u64, Reply)] = &[
        (packed(&[leap], &[thursdays]), 0, at(LEAP_DAY + 21_600)),
        (packed(&[leap], &[thursdays]), LEAP_DAY + 21_599, at(LEAP_DAY + 21_600)),
        (packed(&[leap], &[thursdays]), LEAP_DAY + 32_399, at(LEAP_DAY + 32_399)),
        (packed(&[leap], &[thursdays]), LEAP_DAY + 32_400, none.clone()),
        (packed(&[ALWAYS], &[thursdays]), LEAP_DAY + 32_400, at(LEAP_DAY + 21_600 + WEEK)),
        (packed(&[leap], &[fridays]), TURN - 1, at(TURN - 1)),
        (packed(&[leap], &[fridays]), TURN, none.clone()),
        (packed(&[leap], &[fridays, saturdays]), TURN, at(TURN)),
        (packed(&[(LEAP_DAY, TURN)], &[saturdays]), LEAP_DAY, none.clone()),
        (packed(&[leap, (5, 9)], &[EVERY]), 0, at(5)),
        (packed(&[ALWAYS], &[EVERY]), LAST - 1, at(LAST - 1)),
        (packed(&[ALWAYS], &[EVERY]), LAST, none.clone()),
        (packed(&[ALWAYS], &[(rest, rest + 1)]), LAST - 1, none.clone()),
        (packed(&[ALWAYS], &[(rest - 1, rest)]), LAST - 1, at(LAST - 1)),
        (packed(&[ALWAYS], &[(0, 1)]), LAST - rest + 1, none.clone()),
        (packed(&[], &[EVERY]), 0, none.clone()),
        (packed(&[ALWAYS], &[]), 0, none),
        (packed(&[ALWAYS; 64], &[EVERY; 28]), 7, at(7)),
        (packed(&[ALWAYS; 65], &[EVERY; 28]), 7, bad.clone()),
        (packed(&[ALWAYS; 64], &[EVERY; 29]), 7, bad.clone()),
        (packed(&[(7, 7)], &[EVERY]), 7, bad.clone()),
        (packed(&[(8, 7)], &[EVERY]), 7, bad.clone()),
        (packed(&[ALWAYS], &[(7, 7)]), 7, bad.clone()),
        (packed(&[ALWAYS], &[(0, WEEK + 1)]), 7, bad.clone()),
        (packed(&[ALWAYS], &[EVERY])[..35].to_vec(), 7, bad.clone()),
        ([&packed(&[ALWAYS], &[EVERY])[..], &[0]].concat(), 7, bad.clone()),
        (vec![0; 3], 7, bad.clone()),
        (Vec::new(), 7, bad),
    ];
    for (contract, second, expected) in rows {
        ask(tally, Call::EarliestOpen, contract, *second, Some(expected));
        ask_both(tally, contract, *second);
    }
}
