//! What a holding of a segment costs (02, request l).
use super::sheet::{Segment, Taker};
use crate::raw::{self, Reply};
use crate::reply::{refused, taken};

/// 65,536 values times 3,600 seconds.
pub const DIVISOR: u64 = 65_536 * 3_600;

/// The one record that is lent; nothing where it is malformed or bytes are left over.
fn one_record(bytes: &[u8]) -> Option<Segment> {
    let mut taker = Taker(bytes);
    let segment = taker.record()?;
    taker.0.is_empty().then_some(segment)
}

/// The length of the range, or of all buckets where there are some.
pub fn values_held(segment: &Segment) -> u64 {
    let ranges = if segment.buckets.is_empty() { &[(segment.start, segment.end)] } else { &segment.buckets[..] };
    ranges.iter().map(|(start, end)| u64::from(*end) - u64::from(*start) + 1).sum()
}

/// The exact cost in parts of the divisor; nothing where 128 bits do not hold it.
fn product(values: u64, seconds: u64, rate: u64) -> Option<u128> {
    (u128::from(seconds) * u128::from(rate)).checked_mul(values.into())
}

/// The product of a record that is good, where 128 bits hold it.
pub fn exact(segment: &[u8], seconds: u64, rate: u64) -> Option<u128> {
    product(values_held(&one_record(segment)?), seconds, rate)
}

/// 20, 36, then the charge and the next remainder.
pub fn charge(segment: &[u8], seconds: u64, rate: u64, remainder: u64) -> Reply {
    let Some(segment) = one_record(segment) else {
        return refused(20, &[]);
    };
    let sum = product(values_held(&segment), seconds, rate).and_then(|cost| cost.checked_add(remainder.into()));
    match sum {
        Some(sum) if remainder < DIVISOR && sum < 1 << 64 => {
            let (cost, left) = (sum / u128::from(DIVISOR), sum % u128::from(DIVISOR));
            taken(raw::FOUND, &[cost as u64, left as u64])
        }
        _ => refused(36, &[]),
    }
}
