//! Apply, join and the writer; packed lists and deltas made by hand.

mod messages;

use cuddrewyn::*;
use messages::*;

/// One segment's record: id, range, buckets.
fn record(id: u64, start: u16, end: u16, buckets: &[(u16, u16)]) -> Vec<u8> {
    let mut bytes = id.to_be_bytes().to_vec();
    for number in [start, end, buckets.len() as u16] {
        bytes.extend(number.to_be_bytes());
    }
    for number in buckets.iter().flat_map(|(start, end)| [start, end]) {
        bytes.extend(number.to_be_bytes());
    }
    bytes
}

fn packed(epoch: u64, records: &[Vec<u8>]) -> Vec<u8> {
    [&epoch.to_be_bytes()[..], &(records.len() as u16).to_be_bytes(), &records.concat()].concat()
}

fn delta(epoch: u64, lost: &[u64], gained: &[Vec<u8>]) -> Vec<u8> {
    let ids: Vec<u8> = lost.iter().flat_map(|id| id.to_be_bytes()).collect();
    let counts = [(lost.len() as u16).to_be_bytes(), (gained.len() as u16).to_be_bytes()].concat();
    [&epoch.to_be_bytes()[..], &counts, &ids, &gained.concat()].concat()
}

fn list_of(bytes: &[u8]) -> ConsumerAssignment<'_> {
    ConsumerAssignment::from_bytes(bytes).unwrap()
}

fn delta_of(bytes: &[u8]) -> AssignmentDelta<'_> {
    AssignmentDelta::from_bytes(bytes).unwrap()
}

#[test]
fn views_read_what_was_packed() {
    let bytes = packed(u64::MAX, &[record(1, 0, 9, &[(7, 9), (0, 5)]), record(u64::MAX, 0xffff, 0xffff, &[])]);
    let list = list_of(&bytes);
    assert_eq!((list.as_bytes(), list.layout_epoch(), list.segments().len()), (&bytes[..], u64::MAX, 2));
    let segments: Vec<_> = list.segments().collect();
    assert_eq!((segments[0].segment_id(), segments[1].segment_id()), (SegmentId(1), SegmentId(u64::MAX)));
    assert_eq!(segments[1].key_range(), KeyRange::new(0xffff, 0xffff).unwrap());
    let buckets: Vec<_> = segments[0].bucket_ranges().map(|range| (range.start(), range.end())).collect();
    assert_eq!((segments[0].bucket_ranges().len(), buckets), (2, vec![(7, 9), (0, 5)]));

    let bytes = delta(3, &[4, 9], &[record(9, 1, 2, &[])]);
    let delta = delta_of(&bytes);
    assert_eq!((delta.as_bytes(), delta.layout_epoch(), delta.is_empty()), (&bytes[..], 3, false));
    assert_eq!(delta.lost().collect::<Vec<_>>(), [SegmentId(4), SegmentId(9)]);
    assert_eq!(delta.gained().map(|segment| segment.segment_id()).collect::<Vec<_>>(), [SegmentId(9)]);
    assert!(delta_of(&nothing()).is_empty());
    assert_eq!(ConsumerAssignment::default(), list_of(&packed(0, &[])));
}

fn nothing() -> Vec<u8> {
    delta(8, &[], &[])
}

#[test]
fn debug_shows_what_is_read() {
    let bytes = packed(2, &[record(1, 0, 9, &[(7, 9)])]);
    let text = format!("{:?}", list_of(&bytes));
    let range = "KeyRange { start: 0, end: 9 }, bucket_ranges: [KeyRange { start: 7, end: 9 }]";
    let segment = format!("AssignedSegment {{ segment_id: SegmentId(1), key_range: {range} }}");
    assert_eq!(text, format!("ConsumerAssignment {{ layout_epoch: 2, segments: [{segment}] }}"));
    let text = format!("{:?}", delta_of(&delta(3, &[4], &[])));
    assert_eq!(text, "AssignmentDelta { layout_epoch: 3, gained: [], lost: [SegmentId(4)] }");
}

#[test]
fn malformed_lists_and_deltas() {
    let (a, b) = (record(1, 0, 9, &[]), record(2, 0, 9, &[]));
    let whole = packed(1, &[a.clone(), b.clone()]);
    let lists = [
        packed(1, &[b.clone(), a.clone()]),
        packed(1, &[a.clone(), a.clone()]),
        packed(1, &[record(1, 9, 0, &[])]),
        packed(1, &[record(1, 0, 9, &[(5, 4)])]),
        packed(1, &[record(1, 0, 9, &[(0, 5), (5, 9)])]),
        whole[..whole.len() - 1].to_vec(),
        [&whole[..], &[0]].concat(),
        packed(1, &(0..146).map(|id| record(id, 0, 9, &[])).collect::<Vec<_>>()),
        Vec::new(),
    ];
    for bytes in &lists {
        assert_eq!(ConsumerAssignment::from_bytes(bytes), Err(AssignmentError::MalformedInput));
    }
    let whole = delta(1, &[3], &[a.clone(), b.clone()]);
    let deltas = [
        delta(1, &[3, 3], &[]),
        delta(1, &[4, 3], &[]),
        delta(1, &[], &[b, a]),
        whole[..whole.len() - 1].to_vec(),
        [&whole[..], &[0]].concat(),
        Vec::new(),
    ];
    for bytes in &deltas {
        assert_eq!(AssignmentDelta::from_bytes(bytes), Err(AssignmentError::MalformedInput));
    }
}

#[test]
fn apply_strikes_and_writes_over() {
    let before = packed(1, &[record(1, 0, 9, &[]), record(2, 0, 9, &[]), record(3, 0, 9, &[])]);
    let change = delta(5, &[1, 2, 77], &[record(0, 4, 5, &[]), record(2, 0, 8, &[(1, 1)])]);
    let after = packed(5, &[record(0, 4, 5, &[]), record(2, 0, 8, &[(1, 1)]), record(3, 0, 9, &[])]);
    let (before, change) = (list_of(&before), delta_of(&change));
    let mut out = [0xaa; SLOT];
    assert_eq!(apply(before, change, &mut out).unwrap().as_bytes(), after);
    assert!(out[after.len()..].iter().all(|byte| *byte == 0xaa));

    let mut short = vec![0xaa; after.len() - 1];
    assert_eq!(apply(before, change, &mut short), Err(AssignmentError::ResultTooLong));
    assert!(short.iter().all(|byte| *byte == 0xaa));
    let many = delta(5, &[], &(10..153).map(|id| record(id, 0, 9, &[])).collect::<Vec<_>>());
    assert_eq!(apply(before, delta_of(&many), &mut out), Err(AssignmentError::AssignmentTooLong));
}

#[test]
fn join_has_the_effect_of_both() {
    let first = delta(2, &[1, 5], &[record(5, 0, 1, &[]), record(6, 0, 1, &[])]);
    let second = delta(3, &[6, 7], &[record(7, 2, 3, &[])]);
    let joined = delta(3, &[1, 5, 6, 7], &[record(5, 0, 1, &[]), record(7, 2, 3, &[])]);
    let mut out = vec![0; first.len() + second.len()];
    assert_eq!(join(delta_of(&first), delta_of(&second), &mut out).unwrap().as_bytes(), joined);
    let mut short = vec![0xaa; joined.len() - 1];
    assert_eq!(join(delta_of(&first), delta_of(&second), &mut short), Err(AssignmentError::ResultTooLong));
    assert!(short.iter().all(|byte| *byte == 0xaa));
}

/// The low 16 bits of published hashes: "" 0000, "Hello, world!" 3e43, "test" d213, the fox f723.
#[test]
fn a_key_is_taken_by_the_lowest_id() {
    let fox = b"The quick brown fox jumps over the lazy dog";
    let keys: [(&[u8], u16); 4] = [(b"", 0), (b"Hello, world!", 0x3e43), (b"test", 0xd213), (fox, 0xf723)];
    for (key, hash) in keys {
        let taken_by = |records: &[Vec<u8>]| list_of(&packed(1, records)).segment_for_key(key).unwrap();
        // The range alone, and both its ends.
        assert_eq!(taken_by(&[record(7, hash, hash, &[])]), Some(SegmentId(7)));
        assert_eq!(taken_by(&[record(7, 0, 0xffff, &[])]), Some(SegmentId(7)));
        assert_eq!(taken_by(&[record(7, hash + 1, 0xffff, &[])]), None);
        // With buckets, one of them has to have the hash too; a bucket outside the range takes nothing.
        let beside = (hash + 1, hash + 2);
        assert_eq!(taken_by(&[record(7, 0, 0xffff, &[beside])]), None);
        assert_eq!(taken_by(&[record(7, 0, 0xffff, &[beside, (hash, hash)])]), Some(SegmentId(7)));
        assert_eq!(taken_by(&[record(7, hash + 1, 0xffff, &[(hash, hash)])]), None);
        // Of several the lowest id.
        let whole = |id| record(id, 0, 0xffff, &[]);
        assert_eq!(taken_by(&[record(7, 0, 0xffff, &[beside]), whole(8), whole(u64::MAX)]), Some(SegmentId(8)));
        assert_eq!(taken_by(&[]), None);
    }
}

#[test]
fn a_key_that_is_too_long() {
    let bytes = packed(1, &[record(7, 0, 0xffff, &[])]);
    assert_eq!(segment_for_key(list_of(&bytes), &[0xff; LONGEST_KEY]), Ok(Some(SegmentId(7))));
    assert_eq!(segment_for_key(list_of(&bytes), &[0xff; LONGEST_KEY + 1]), Err(AssignmentError::KeyTooLong));
}

/// Of published hashes those of four bytes.
#[test]
fn the_key_of_a_hash() {
    for (hash, key) in
        [(0xba6b_d213, *b"test"), (0xf55b_516b, [0x21, 0x43, 0x65, 0x87]), (0x2362_f9de, [0; 4]), (0x7629_3b50, [0xff; 4])]
    {
        assert_eq!(key_for_hash(hash), key);
    }
}

/// The keys of the smallest hashes, and the segments that they are found in: the one that was asked for, or a lower id
/// with the same hash.
#[test]
fn the_key_of_a_segment() {
    let bytes = packed(
        1,
        &[
            record(3, 0xd000, 0xdfff, &[(0xe000, 0xe00f), (0xd213, 0xd213)]),
            record(5, 0, 0xffff, &[]),
            record(7, 0x10, 0x20, &[]),
            record(8, 0, 0x20, &[(0x21, 0xffff)]),
            record(u64::MAX, 0xd000, 0xffff, &[(0xd214, 0xffff), (0, 0xd213)]),
        ],
    );
    let list = list_of(&bytes);
    let rows = [(3, 0xd213, 3), (5, 0, 5), (7, 0x10, 5), (u64::MAX, 0xd000, 5)];
    for (id, hash, found) in rows {
        let key = list.key_in_segment(SegmentId(id)).unwrap().unwrap();
        assert_eq!(key, key_for_hash(hash));
        assert_eq!(list.segment_for_key(&key), Ok(Some(SegmentId(found))));
    }
    // A segment whose buckets lie outside its range; ids that are not there.
    for id in [8, 0, 4, u64::MAX - 1] {
        assert_eq!(list.key_in_segment(SegmentId(id)), Ok(None));
    }
    assert_eq!(key_in_segment(list_of(&packed(1, &[])), SegmentId(0)), Ok(None));
}

#[test]
fn the_writer_writes_what_the_messages_have() {
    let bytes = packed(300, &[record(1, 0, 9, &[(7, 9), (0, 5)]), record(70_000, 0, 0xffff, &[])]);
    let list = list_of(&bytes);
    let expected = assignment(300, &[segment(1, 0, 9, &[(7, 9), (0, 5)]), segment(70_000, 0, 0xffff, &[])]);
    let mut out = [0; 512];
    assert_eq!(to_pb(list, TOPIC, &mut out).unwrap(), expected);
    assert_eq!(list.to_pb(TOPIC, &mut out).unwrap(), expected);
    assert_eq!(list.to_pb(TOPIC, &mut [0; 20]), Err(AssignmentError::ResultTooLong));
    assert_eq!(list.to_pb("topic://t//m", &mut out), Err(SegmentTopicError::InvalidParent.into()));
    assert_eq!(list.to_pb("topic://t?/n/m", &mut out), Err(SegmentTopicError::InvalidParent.into()));
    // A bucket outside its segment's range: the lowest id, whatever the parent is. The other calls read such a list.
    let bytes = packed(1, &[record(3, 0, 9, &[(0, 9)]), record(4, 2, 9, &[(2, 3), (0, 1)]), record(5, 2, 9, &[(9, 10)])]);
    let outside = AssignmentError::BucketOutsideSegment { segment_id: SegmentId(4), index: 1 };
    for parent in [TOPIC, "topic://t//m"] {
        assert_eq!(list_of(&bytes).to_pb(parent, &mut out), Err(outside));
    }
    assert_eq!(apply(list_of(&bytes), delta_of(&delta(1, &[], &[])), &mut out).unwrap().as_bytes(), bytes);
    // Without a segment the parent is not looked at.
    assert_eq!(ConsumerAssignment::default().to_pb("", &mut out).unwrap(), [8, 0]);
}

#[test]
fn the_room_of_the_writer_suffices() {
    let parent = format!("topic://t/n/{}", "x".repeat(20_000));
    let far = u64::MAX - 1_000;
    let bare: Vec<_> = (0..145).map(|id| record(far + id, 0xfffe, 0xffff, &[])).collect();
    let buckets: Vec<_> = (0..506).map(|i| (0xf000 + i, 0xf000 + i)).collect();
    for bytes in [packed(u64::MAX, &bare), packed(u64::MAX, &[record(far, 0xf000, 0xffff, &buckets)]), packed(0, &[])] {
        for parent in [TOPIC, &parent[..]] {
            let list = list_of(&bytes);
            let mut out = vec![0; list.to_pb_room(parent)];
            let written = list.to_pb(parent, &mut out).unwrap().len();
            assert!(out.len() - written <= 20 * list.segments().len() + 11, "{} {written}", out.len());
        }
    }
}

#[cfg(feature = "alloc")]
#[test]
fn topics_of_a_list() {
    let bytes = packed(1, &[record(1, 0, 9, &[]), record(2, 10, 0xffff, &[])]);
    let topics = list_of(&bytes).segment_topics(TOPIC).unwrap();
    assert_eq!(topics, ["segment://a/b/c/0000-0009-1", "segment://a/b/c/000a-ffff-2"]);
    assert_eq!(list_of(&bytes).segment_topics("x"), Err(SegmentTopicError::InvalidParent));
    assert_eq!(list_of(&packed(1, &[])).segment_topics("x"), Ok(Vec::new()));
}
