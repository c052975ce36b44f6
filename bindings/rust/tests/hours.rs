//! Pass hours and terms, by instants of the calendar.

use cuddrewyn::AssignmentErrorWith::{InvalidContract, ResultTooLong};
use cuddrewyn::*;

const DAY: u64 = 86_400;
const ALWAYS: Span = Span { start: 0, end: u64::MAX };
const WHOLE_WEEK: Span = Span { start: 0, end: WEEK };

const fn span(start: u64, end: u64) -> Span {
    Span { start, end }
}

/// The seconds since 2000-01-01 00:00 UTC, by counting years and months.
fn at(year: u64, month: usize, day: u64, hour: u64, minute: u64, second: u64) -> u64 {
    let is_leap = |year: u64| year % 4 == 0 && year % 100 != 0 || year % 400 == 0;
    let years: u64 = (2000..year).map(|year| if is_leap(year) { 366 } else { 365 }).sum();
    let february = if is_leap(year) { 29 } else { 28 };
    let months: u64 = [31, february, 31, 30, 31, 30, 31, 31, 30, 31, 30, 31][..month - 1].iter().sum();
    (years + months + day - 1) * DAY + hour * 3_600 + minute * 60 + second
}

/// The window of one day of the week: 0 is Saturday, 6 is Friday.
fn of_day(day: u64) -> Span {
    span(day * DAY, day * DAY + DAY)
}

fn packed(terms: &[Span], windows: &[Span]) -> Vec<u8> {
    let mut bytes = vec![0; contract_len(terms.len(), windows.len())];
    Contract::pack(terms, windows, &mut bytes).expect("few terms and windows");
    bytes
}

fn opened(terms: &[Span], windows: &[Span], second: u64) -> bool {
    is_open(Contract::from_bytes(&packed(terms, windows)), second).expect("a contract")
}

fn earliest(terms: &[Span], windows: &[Span], second: u64) -> Option<u64> {
    earliest_open(Contract::from_bytes(&packed(terms, windows)), second).expect("a contract")
}

/// Days of the week around leap days, around the end of February 2100, which has none, and around ends of years.
#[test]
fn the_days_of_the_calendar() {
    assert_eq!(at(2024, 2, 29, 0, 0, 0), 762_480_000);
    assert_eq!(at(2100, 3, 1, 0, 0, 0), 3_160_857_600);
    let days = [
        (2000, 1, 1, 0),
        (2000, 2, 29, 3),
        (2000, 3, 1, 4),
        (2000, 12, 31, 1),
        (2001, 1, 1, 2),
        (2024, 2, 29, 5),
        (2024, 3, 1, 6),
        (2024, 3, 2, 0),
        (2024, 12, 31, 3),
        (2025, 1, 1, 4),
        (2100, 2, 28, 1),
        (2100, 3, 1, 2),
        (2400, 2, 29, 3),
    ];
    for (year, month, day, of_week) in days {
        let (first, last) = (at(year, month, day, 0, 0, 0), at(year, month, day, 23, 59, 59));
        for other in 0..7 {
            assert_eq!(opened(&[ALWAYS], &[of_day(other)], first), other == of_week, "{year}-{month}-{day}");
            assert_eq!(opened(&[ALWAYS], &[of_day(other)], last), other == of_week, "{year}-{month}-{day}");
        }
    }
}

/// A term from the leap day of 2024 on; Thursdays 06:00 to 09:00.
#[test]
fn start_is_inside_and_end_is_outside() {
    let term = span(at(2024, 2, 29, 0, 0, 0), at(2024, 3, 7, 7, 0, 0));
    let window = span(5 * DAY + 6 * 3_600, 5 * DAY + 9 * 3_600);
    let (six, nine) = (at(2024, 2, 29, 6, 0, 0), at(2024, 2, 29, 9, 0, 0));
    assert!(!opened(&[term], &[window], six - 1));
    assert!(opened(&[term], &[window], six));
    assert!(opened(&[term], &[window], nine - 1));
    assert!(!opened(&[term], &[window], nine));
    assert_eq!(earliest(&[term], &[window], 0), Some(six));
    assert_eq!(earliest(&[term], &[window], nine - 1), Some(nine - 1));
    assert_eq!(earliest(&[term], &[window], nine), Some(at(2024, 3, 7, 6, 0, 0)));
    assert!(opened(&[term], &[window], term.end - 1));
    assert!(!opened(&[term], &[window], term.end));
    assert_eq!(earliest(&[term], &[window], term.end), None);
}

/// Friday 23:59:59 to Saturday 00:00:00.
#[test]
fn the_turn_of_the_week() {
    let (friday, saturday) = (at(2024, 3, 1, 23, 59, 59), at(2024, 3, 2, 0, 0, 0));
    let (late, early) = (span(6 * DAY + 22 * 3_600, WEEK), span(0, 2 * 3_600));
    for (windows, open) in [(&[late, early][..], [true, true]), (&[late], [true, false]), (&[early], [false, true])] {
        assert_eq!([friday, saturday].map(|second| opened(&[ALWAYS], windows, second)), open);
    }
    assert_eq!(earliest(&[ALWAYS], &[early], friday), Some(saturday));
    assert_eq!(earliest(&[ALWAYS], &[late], saturday), Some(at(2024, 3, 8, 22, 0, 0)));
    assert_eq!(earliest(&[span(0, saturday)], &[early], friday), None);
}

#[test]
fn several_that_overlap() {
    let day = at(2024, 2, 29, 0, 0, 0);
    let terms = [span(day + 7 * DAY, day + 8 * DAY), span(day, day + 60), span(day + 30, day + 120)];
    assert_eq!(earliest(&terms, &[of_day(5)], 0), Some(day));
    assert_eq!(earliest(&terms, &[of_day(5), WHOLE_WEEK], day + 100), Some(day + 100));
    assert_eq!(earliest(&terms, &[of_day(5)], day + 120), Some(day + 7 * DAY));
    assert_eq!(earliest(&[ALWAYS; MAX_TERMS], &[WHOLE_WEEK; MAX_WINDOWS], 7), Some(7));
    assert_eq!(earliest(&[], &[WHOLE_WEEK], 0), None);
    assert_eq!(earliest(&[ALWAYS], &[], 0), None);
}

/// The last second of time is never open: a term's end is outside.
#[test]
fn near_the_end_of_time() {
    let last = u64::MAX;
    assert!(opened(&[ALWAYS], &[WHOLE_WEEK], last - 1));
    assert!(!opened(&[ALWAYS], &[WHOLE_WEEK], last));
    assert_eq!(earliest(&[ALWAYS], &[WHOLE_WEEK], last - 1), Some(last - 1));
    assert_eq!(earliest(&[ALWAYS], &[WHOLE_WEEK], last), None);
    // The window comes only behind the end.
    assert_eq!(earliest(&[ALWAYS], &[span(0, 1)], last - last % WEEK + 1), None);
    assert_eq!(earliest(&[span(last - 1, last)], &[WHOLE_WEEK], 0), Some(last - 1));
}

#[test]
fn what_is_no_contract() {
    let good = packed(&[span(5, 9)], &[WHOLE_WEEK]);
    let mut many = packed(&[ALWAYS; MAX_TERMS], &[]);
    many[1] += 1;
    many.extend_from_slice(&good[4..20]);
    let bad = [
        Vec::new(),
        good[..35].to_vec(),
        [&good[..], &[0]].concat(),
        many,
        packed(&[span(7, 7)], &[WHOLE_WEEK]),
        packed(&[span(8, 7)], &[WHOLE_WEEK]),
        packed(&[ALWAYS], &[span(7, 7)]),
        packed(&[ALWAYS], &[span(0, WEEK + 1)]),
        packed(&[ALWAYS], &[span(WEEK, WEEK + 1)]),
    ];
    for bytes in &bad {
        for second in [0, 7, u64::MAX] {
            assert_eq!(is_open(Contract::from_bytes(bytes), second), Err(InvalidContract));
            assert_eq!(earliest_open(Contract::from_bytes(bytes), second), Err(InvalidContract));
        }
    }
}

#[test]
fn packing() {
    let mut out = [0xff; 37];
    let bytes = Contract::pack(&[span(1, 0x0203)], &[span(4, 5)], &mut out).expect("room").as_bytes().to_vec();
    let numbers = [1_u64, 0x0203, 4, 5].map(u64::to_be_bytes).concat();
    assert_eq!(bytes, [&[0, 1, 0, 1], &numbers[..]].concat());
    assert_eq!(out[36], 0xff);
    assert_eq!(Contract::pack(&[ALWAYS], &[WHOLE_WEEK], &mut [0; 35]), Err(ResultTooLong));
    let mut room = vec![0; contract_len(MAX_TERMS + 1, MAX_WINDOWS + 1)];
    assert_eq!(Contract::pack(&[ALWAYS; MAX_TERMS + 1], &[], &mut room), Err(InvalidContract));
    assert_eq!(Contract::pack(&[], &[WHOLE_WEEK; MAX_WINDOWS + 1], &mut room), Err(InvalidContract));
}
