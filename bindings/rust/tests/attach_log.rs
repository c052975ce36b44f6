//! Logs of uploaders, held to deltas made by hand.

use cuddrewyn::AssignmentErrorWith::{InvalidLog, MalformedInput};
use cuddrewyn::Entry::{self, Attach, Detach};
use cuddrewyn::*;

/// A delta that loses and gains segments from 0000 to 0009 without buckets.
fn delta(epoch: u64, lost: &[u64], gained: &[u64]) -> Vec<u8> {
    let mut bytes = epoch.to_be_bytes().to_vec();
    bytes.extend([lost.len(), gained.len()].iter().flat_map(|count| (*count as u16).to_be_bytes()));
    bytes.extend(lost.iter().flat_map(|id| id.to_be_bytes()));
    for id in gained {
        bytes.extend(id.to_be_bytes());
        bytes.extend([0, 0, 0, 9, 0, 0]);
    }
    bytes
}

fn detach(id: u64) -> Entry {
    Detach(SegmentId(id))
}

fn attach(id: u64) -> Entry {
    Attach(SegmentId(id))
}

fn log(entries: &[Entry]) -> Vec<u8> {
    entries.iter().flat_map(|entry| entry.to_bytes()).collect()
}

fn passes(deltas: &[Vec<u8>], entries: &[Entry]) -> bool {
    check_log(&deltas.concat(), &log(entries)).unwrap()
}

#[test]
fn entries_have_nine_bytes() {
    assert_eq!(detach(5).to_bytes(), [0, 0, 0, 0, 0, 0, 0, 2, 0x80]);
    assert_eq!(attach(5).to_bytes(), [0x80, 0, 0, 0, 0, 0, 0, 2, 0x80]);
    assert_eq!(detach(u64::MAX).to_bytes(), [0x7f, 0xff, 0xff, 0xff, 0xff, 0xff, 0xff, 0xff, 0x80]);
    assert_eq!(attach(1 << 63).to_bytes(), [0xc0, 0, 0, 0, 0, 0, 0, 0, 0]);
}

/// Any order within a delta's detaches and within its attaches, and no other.
#[test]
fn a_log_follows_its_deltas() {
    let deltas = [delta(3, &[5, 7], &[6, 7]), delta(4, &[], &[]), delta(5, &[], &[5])];
    assert!(passes(&deltas, &[detach(5), detach(7), attach(6), attach(7), attach(5)]));
    assert!(passes(&deltas, &[detach(7), detach(5), attach(7), attach(6), attach(5)]));
    let wrong: [&[Entry]; 8] = [
        // An attach before a detach; an entry of the last delta before one of the first.
        &[detach(5), attach(6), detach(7), attach(7), attach(5)],
        &[detach(5), detach(7), attach(6), attach(5), attach(7)],
        // One missing, another in its place, one twice in place of another, one too many.
        &[detach(5), detach(7), attach(6), attach(7)],
        &[detach(5), detach(8), attach(6), attach(7), attach(5)],
        &[detach(5), detach(5), attach(6), attach(7), attach(5)],
        &[detach(5), detach(7), attach(6), attach(7), attach(5), attach(5)],
        // A detach for an attach.
        &[detach(5), detach(7), detach(6), attach(7), attach(5)],
        &[],
    ];
    for entries in wrong {
        assert!(!passes(&deltas, entries), "{entries:?}");
    }
}

#[test]
fn no_deltas_and_empty_ones_have_no_entries() {
    assert_eq!(check_log(&[], &[]), Ok(true));
    assert!(!passes(&[], &[attach(0)]));
    let empty = [delta(1, &[], &[]), delta(0, &[], &[])];
    assert!(passes(&empty, &[]));
    assert!(!passes(&empty, &[detach(0)]));
}

#[test]
fn deltas_are_refused_before_the_log() {
    let good = delta(1, &[3], &[4]);
    let bad = [
        good[..good.len() - 1].to_vec(),
        [&good[..], &[0]].concat(),
        [&good[..], &delta(2, &[3, 3], &[])].concat(),
        [&delta(2, &[], &[6, 6]), &good[..]].concat(),
    ];
    for deltas in &bad {
        assert_eq!(check_log(deltas, &log(&[detach(3), attach(4)])), Err(MalformedInput));
        assert_eq!(check_log(deltas, &[1]), Err(MalformedInput));
    }
}

#[test]
fn logs_that_are_none() {
    let deltas = delta(1, &[3], &[4]);
    let good = log(&[detach(3), attach(4)]);
    assert_eq!(check_log(&deltas, &good), Ok(true));
    for length in (0..good.len()).filter(|length| length % Entry::LEN != 0) {
        assert_eq!(check_log(&deltas, &good[..length]), Err(InvalidLog));
    }
    for (entry, bit) in (0..2).flat_map(|entry| (0..7).map(move |bit| (entry, bit))) {
        let mut set = good.clone();
        set[entry * Entry::LEN + 8] |= 1 << bit;
        assert_eq!(check_log(&deltas, &set), Err(InvalidLog));
    }
    // Refused as a log even where it could not pass.
    assert_eq!(check_log(&[], &[0; 10]), Err(InvalidLog));
}

/// As many ids as a delta can have, in their order: one pass.
#[test]
fn a_long_delta() {
    let ids: Vec<u64> = (0..0xffff).map(|id| id << 48).collect();
    let mut entries: Vec<Entry> = ids.iter().map(|id| detach(*id)).chain(ids.iter().map(|id| attach(*id))).collect();
    let deltas = [delta(1, &ids, &ids)];
    assert!(passes(&deltas, &entries));
    entries.swap(7, 60_000);
    assert!(passes(&deltas, &entries));
    entries.swap(7, 70_000);
    assert!(!passes(&deltas, &entries));
}
