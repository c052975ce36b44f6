//! What holdings cost, of records made by hand.

use cuddrewyn::AssignmentErrorWith::{ChargeTooLarge, MalformedInput};
use cuddrewyn::*;

/// One segment's record: id, range, buckets.
fn record(start: u16, end: u16, buckets: &[(u16, u16)]) -> Vec<u8> {
    let head = [start, end, buckets.len() as u16];
    let ends = buckets.iter().flat_map(|(start, end)| [*start, *end]);
    let numbers = head.into_iter().chain(ends).flat_map(u16::to_be_bytes);
    7_u64.to_be_bytes().into_iter().chain(numbers).collect()
}

fn charged(charge: u64, remainder: u64) -> Result<Charge, AssignmentError<'static>> {
    Ok(Charge { charge, remainder })
}

/// The whole key space for an hour costs the rate; one value for one second at rate 1 the divisor's share.
#[test]
fn a_holding_costs_values_times_seconds_times_rate() {
    let (whole, one) = (record(0, 0xffff, &[]), record(9, 9, &[]));
    assert_eq!(charge(&whole, 3_600, 1_234_567, 0), charged(1_234_567, 0));
    assert_eq!(charge(&one, 1, 1, 0), charged(0, 1));
    assert_eq!(charge(&one, 1, 1, DIVISOR - 1), charged(1, 0));
    assert_eq!(charge(&record(0x100, 0x1ff, &[]), 7, 11, 5), charged(0, 256 * 77 + 5));
    assert_eq!(charge(&record(0, 0x3fff, &[]), 3_601, 2_000_003, 17), {
        let product = 0x4000 * 3_601 * 2_000_003 + 17;
        charged(product / DIVISOR, product % DIVISOR)
    });
}

/// Buckets alone count, in any order, and outside the range too.
#[test]
fn buckets_are_what_is_held() {
    assert_eq!(charge(&record(0, 0xffff, &[(7, 9), (0, 5)]), 1, 1, 0), charged(0, 9));
    assert_eq!(charge(&record(0, 9, &[(0xfff0, 0xffff)]), 1, 1, 0), charged(0, 16));
    // As many buckets as there can be.
    let single: Vec<_> = (0..0xffff).map(|value| (value, value)).collect();
    assert_eq!(charge(&record(0, 0, &single), 10, 10, 3), charged(0, 0xffff * 100 + 3));
}

#[test]
fn records_that_are_none() {
    let good = record(0, 9, &[(0, 4), (5, 9)]);
    assert!(charge(&good, 1, 1, 0).is_ok());
    let bad = [
        Vec::new(),
        good[..good.len() - 1].to_vec(),
        [&good[..], &[0]].concat(),
        record(0, 9, &[])[..13].to_vec(),
        record(9, 8, &[]),
        record(0, 9, &[(5, 4)]),
        record(0, 9, &[(0, 5), (5, 9)]),
        record(9, 8, &[(0, 1)]),
    ];
    for bytes in &bad {
        assert_eq!(charge(bytes, 1, 1, 0), Err(MalformedInput));
        // Before all that is too large.
        assert_eq!(charge(bytes, u64::MAX, u64::MAX, u64::MAX), Err(MalformedInput));
    }
}

#[test]
fn what_is_too_large() {
    let one = record(9, 9, &[]);
    let whole = record(0, 0xffff, &[]);
    let most = u64::MAX;
    // Product and remainder reach 2^64, or just do not.
    assert_eq!(charge(&one, most, 1, 0), charged(most / DIVISOR, most % DIVISOR));
    assert_eq!(charge(&one, 1, most, 1), Err(ChargeTooLarge));
    assert_eq!(charge(&one, 1, most - 5, 5), charged(most / DIVISOR, most % DIVISOR));
    assert_eq!(charge(&one, most - 5, 1, 6), Err(ChargeTooLarge));
    assert_eq!(charge(&whole, 1 << 48, 1, 0), Err(ChargeTooLarge));
    assert_eq!(charge(&whole, (1 << 48) - 1, 1, 65_535), charged(most / DIVISOR, most % DIVISOR));
    assert_eq!(charge(&whole, most, most, 0), Err(ChargeTooLarge));
    // A factor 0 makes it 0, however large the others are; the remainder is asked all the same.
    assert_eq!(charge(&whole, most, 0, DIVISOR - 1), charged(0, DIVISOR - 1));
    assert_eq!(charge(&whole, 0, most, 0), charged(0, 0));
    assert_eq!(charge(&whole, most, 0, DIVISOR), Err(ChargeTooLarge));
    assert_eq!(charge(&one, 1, 1, DIVISOR), Err(ChargeTooLarge));
    assert_eq!(charge(&one, 1, 1, most), Err(ChargeTooLarge));
}

/// The account of one segment, whose buckets change from holding to holding: the charges of those not refused add up
/// to their exact total rounded down, and a refused one leaves the remainder.
#[test]
fn an_account_adds_up() {
    let (whole, half, few) = (record(0, 0xffff, &[]), record(0, 0x7fff, &[]), record(0, 9, &[(3, 5), (7, 7)]));
    let (mut charges, mut exact, mut remainder, mut refused) = (0_u128, 0_u128, 0, 0);
    for step in 0_u64..1_000 {
        let (segment, values) = [(&whole, 0x10000_u128), (&half, 0x8000), (&few, 4)][step as usize % 3];
        let (seconds, rate) = (step * 977 % 3_599, if step % 10 == 9 { u64::MAX } else { 1_000_003 + step });
        match charge(segment, seconds, rate, remainder) {
            Ok(cost) => {
                charges += u128::from(cost.charge);
                exact += values * u128::from(seconds) * u128::from(rate);
                remainder = cost.remainder;
            }
            Err(error) => {
                assert_eq!(error, ChargeTooLarge);
                refused += 1;
            }
        }
    }
    let divisor = u128::from(DIVISOR);
    assert_eq!((charges, u128::from(remainder)), (exact / divisor, exact % divisor));
    assert!(charges > 1_000_000 && (50..=100).contains(&refused), "{charges} {refused}");
}
