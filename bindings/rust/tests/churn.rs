//! The window of lost counts.

use cuddrewyn::*;

fn totals(sum: u64, largest: u64) -> ChurnTotals {
    ChurnTotals { sum, largest }
}

#[test]
fn sum_and_largest_after_each_count() {
    let mut churn = Churn::new();
    assert_eq!(churn.current(), Ok(totals(0, 0)));
    for (count, expected) in [(3, (3, 3)), (0, (3, 3)), (5, (8, 5)), (65_535, (65_543, 65_535))] {
        assert_eq!(churn.push(count), Ok(totals(expected.0, expected.1)));
        assert_eq!(churn.current(), Ok(totals(expected.0, expected.1)));
    }
}

#[test]
fn the_latest_256_counts_are_kept() {
    let mut churn = Churn::default();
    churn.push(900).unwrap();
    for _ in 0..254 {
        churn.push(1).unwrap();
    }
    assert_eq!(churn.push(1), Ok(totals(1_155, 900)));
    assert_eq!(churn.push(1), Ok(totals(256, 1)));
    for count in (1..=1_000).rev() {
        let sum = churn.push(count).unwrap().sum;
        let latest: u64 = (count..=1_000).take(256).sum();
        assert_eq!(sum, latest + 256u64.saturating_sub(1_001 - count));
    }
    assert_eq!(churn.current(), Ok(totals(256 * 257 / 2, 256)));
}

#[test]
fn a_clearing_leaves_no_count() {
    let mut churn = Churn::new();
    for count in 0..300 {
        churn.push(count).unwrap();
    }
    churn.clear();
    assert_eq!(churn.current(), Ok(totals(0, 0)));
    assert_eq!(churn.push(2), Ok(totals(2, 2)));
}

#[test]
fn a_refusal_leaves_the_window() {
    let mut churn = Churn::new();
    churn.push(7).unwrap();
    let before = churn.clone();
    for count in [65_536, u64::MAX] {
        assert_eq!(churn.push(count), Err(AssignmentError::InvalidWindow));
        assert_eq!(churn, before);
    }
    // Bytes whose own numbers point beyond the 256 places.
    for mark in [512, 513, u16::MAX] {
        let mut bytes = *churn.as_bytes();
        bytes[..2].copy_from_slice(&mark.to_be_bytes());
        let mut damaged = Churn::from_bytes(bytes);
        assert_eq!(damaged.push(1), Err(AssignmentError::InvalidWindow));
        assert_eq!(damaged.current(), Err(AssignmentError::InvalidWindow));
        assert_eq!(damaged.as_bytes(), &bytes);
        damaged.clear();
        assert_eq!(damaged.push(4), Ok(totals(4, 4)));
    }
}

#[test]
fn a_window_is_kept_as_its_bytes() {
    let mut churn = Churn::new();
    for count in 0..400 {
        churn.push(count).unwrap();
    }
    let mut again = Churn::from_bytes(*churn.as_bytes());
    assert_eq!(again.current(), churn.current());
    assert_eq!(again.push(9), churn.push(9));
}
