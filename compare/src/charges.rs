//! What holdings of segments cost: against the model, and that the charges of an account add up.
use crate::lists::{random_segment, spoiled_sheet};
use crate::model::charge::{DIVISOR, charge, exact, values_held};
use crate::model::sheet::{Segment, put_record};
use crate::ours;
use crate::raw::{self, Reply};
use crate::reply::{refused, show, taken};
use crate::rng::Rng;
use crate::tally::{Call, Tally, hex};

/// A holding, and the remainder that is lent with it.
struct Holding {
    segment: Vec<u8>,
    seconds: u64,
    rate: u64,
    remainder: u64,
}

impl Holding {
    fn of(segment: &[u8], seconds: u64, rate: u64, remainder: u64) -> Self {
        Self { segment: segment.to_vec(), seconds, rate, remainder }
    }

    fn show(&self) -> String {
        let Self { segment, seconds, rate, remainder } = self;
        format!("segment {}, {seconds} seconds, rate {rate}, remainder {remainder}", hex(segment))
    }

    /// Our answer, where it is the one expected.
    fn check(&self, tally: &mut Tally, expected: &Reply) -> Option<Reply> {
        let mut lent = self.segment.clone();
        let given = ours::charge(&mut lent, self.seconds, self.rate, self.remainder);
        tally.count(Call::Charge, &given, false);
        let wrong = if given != *expected {
            format!("ours {}, expected {}", show(&given), show(expected))
        } else if lent != self.segment {
            "a slice lent for reading was changed".into()
        } else {
            return Some(given);
        };
        tally.differ(Call::Charge, &wrong, || self.show());
        None
    }

    fn check_by_model(&self, tally: &mut Tally) -> Option<Reply> {
        self.check(tally, &charge(&self.segment, self.seconds, self.rate, self.remainder))
    }
}

/// What our answers say of a segment's holdings: the charges, the exact total before the division, the remainder.
#[derive(Default)]
struct Account {
    charges: u128,
    exact: u128,
    remainder: u64,
}

impl Account {
    /// A holding that is refused leaves the account as it is.
    fn book(&mut self, holding: &Holding, given: &Reply) {
        if given.answer == raw::FOUND {
            self.charges += u128::from(given.first);
            self.exact += exact(&holding.segment, holding.seconds, holding.rate).expect("a cost of 64 bits");
            self.remainder = given.second;
        }
    }

    /// The charges are the exact total rounded down, and the remainder is what is left of it.
    fn adds_up(&self) -> bool {
        let divisor = u128::from(DIVISOR);
        (self.charges, self.remainder.into()) == (self.exact / divisor, self.exact % divisor)
    }
}

fn packed(segment: &Segment) -> Vec<u8> {
    let mut bytes = Vec::new();
    put_record(&mut bytes, segment);
    bytes
}

pub struct Charges {
    rng: Rng,
}

impl Charges {
    pub fn new(seed: u64) -> Self {
        Self { rng: Rng::new(seed, "charges") }
    }

    /// Of any width, a day, an hour, 1, 0 or the most.
    fn number(&mut self) -> u64 {
        let any = self.rng.word() >> self.rng.below(64);
        self.rng.pick(&[any, any, any, 86_400, 3_600, 1, 0, u64::MAX])
    }

    /// Seconds and rate whose product with the values is any, or lies around 2^64.
    fn factors(&mut self, values: u64) -> (u64, u64) {
        let seconds = self.number();
        let before = values.saturating_mul(seconds);
        if before == 0 || self.rng.one_in(2) {
            return (seconds, self.number());
        }
        let rate = ((1_u128 << 64) / u128::from(before)) as u64;
        let rate = rate.saturating_sub(self.rng.below(2) as u64);
        if self.rng.one_in(2) { (seconds, rate) } else { (rate, seconds) }
    }

    /// Most remainders are the account's; others lie around the divisor, around what 2^64 leaves, or anywhere.
    fn remainder(&mut self, kept: u64, segment: &[u8], seconds: u64, rate: u64) -> u64 {
        let cost = exact(segment, seconds, rate).unwrap_or(0) as u64;
        let left = 0_u64.wrapping_sub(cost).wrapping_sub(self.rng.below(3) as u64).wrapping_add(1);
        let beside = DIVISOR - 2 + self.rng.below(4) as u64;
        let any = self.rng.word() >> self.rng.below(64);
        self.rng.pick(&[kept, kept, kept, left, beside, any])
    }

    /// One account, its segment's range and buckets changing from holding to holding.
    pub fn step(&mut self, tally: &mut Tally) {
        let mut account = Account::default();
        let id = self.rng.word();
        for _ in 0..40 {
            let segment = random_segment(id, &mut self.rng);
            let (seconds, rate) = self.factors(values_held(&segment));
            let good = packed(&segment);
            let lent = if self.rng.one_in(6) { spoiled_sheet(good, &mut self.rng) } else { good };
            let remainder = self.remainder(account.remainder, &lent, seconds, rate);
            let holding = Holding::of(&lent, seconds, rate, remainder);
            if let Some(given) = holding.check_by_model(tally)
                && remainder == account.remainder
            {
                account.book(&holding, &given);
            }
        }
        if !account.adds_up() {
            tally.differ(Call::Charge, "the charges of an account do not add up", || {
                format!("charges {}, exact total {}, remainder {}", account.charges, account.exact, account.remainder)
            });
        }
    }
}

fn segment(start: u16, end: u16, buckets: &[(u16, u16)]) -> Vec<u8> {
    packed(&Segment { id: 7, start, end, buckets: buckets.to_vec() })
}

/// Prices, what is held, both sides of each limit, and records that are none.
pub fn directed(tally: &mut Tally) {
    let (most, large, malformed) = (u64::MAX, refused(36, &[]), refused(20, &[]));
    let found = |cost: u64, left: u64| taken(raw::FOUND, &[cost, left]);
    let all_of = found(most / DIVISOR, most % DIVISOR);
    let (whole, one) = (segment(0, 0xffff, &[]), segment(9, 9, &[]));
    let single: Vec<_> = (0..u16::MAX).map(|value| (value, value)).collect();
    let rows = [
        (whole.clone(), 3_600, 1_000_000, 0, found(1_000_000, 0)),
        (one.clone(), 1, 1, 0, found(0, 1)),
        (one.clone(), 1, 1, DIVISOR - 1, found(1, 0)),
        (segment(0, 0xffff, &[(7, 9), (0, 5)]), 1, 1, 0, found(0, 9)),
        (segment(0, 9, &[(0xfff0, 0xffff)]), 1, 1, 0, found(0, 16)),
        (segment(0, 0, &single), 1, 10, 2, found(0, 655_352)),
        // by the product
        (one.clone(), most, 1, 0, all_of.clone()),
        (whole.clone(), (1 << 48) - 1, 1, 65_535, all_of.clone()),
        (whole.clone(), 1 << 48, 1, 0, large.clone()),
        (whole.clone(), 1 << 56, 1 << 56, 0, large.clone()),
        (whole.clone(), most, most, 0, large.clone()),
        // by the sum
        (one.clone(), 1, most - 5, 5, all_of),
        (one.clone(), 1, most - 5, 6, large.clone()),
        (whole.clone(), (1 << 48) - 1, 1, 65_536, large.clone()),
        // by the remainder
        (one.clone(), 1, 1, DIVISOR, large.clone()),
        (whole.clone(), most, 0, DIVISOR, large.clone()),
        (whole.clone(), most, 0, DIVISOR - 1, found(0, DIVISOR - 1)),
        (whole.clone(), 0, most, most, large),
        // no record
        (Vec::new(), 1, 1, 0, malformed.clone()),
        (whole[1..].to_vec(), 1, 1, 0, malformed.clone()),
        ([&whole[..], &[0]].concat(), 1, 1, 0, malformed.clone()),
        (segment(9, 8, &[]), 1, 1, 0, malformed.clone()),
        (segment(9, 8, &[(1, 2)]), 1, 1, 0, malformed.clone()),
        (segment(0, 9, &[(2, 1)]), 1, 1, 0, malformed.clone()),
        (segment(0, 9, &[(1, 2), (2, 3)]), most, most, most, malformed),
    ];
    for (segment, seconds, rate, remainder, expected) in rows {
        let holding = Holding::of(&segment, seconds, rate, remainder);
        if holding.check(tally, &expected).is_some() {
            holding.check_by_model(tally);
        }
    }
}
