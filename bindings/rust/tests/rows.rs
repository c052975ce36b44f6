//! The specification's worked rows A to J, through the safe API.

mod messages;

use cuddrewyn::*;
use messages::*;

/// Row A: consumer 7, epoch 3, one segment.
const ROW_A: &[u8] = b"\x08\x07\x12\x29\x08\x03\x12\x25\x08\x00\x10\x00\x18\xff\xff\x01\x22\x1bsegment://a/b/c/0000-7fff-0";

/// Row B: its packed list.
const ROW_B: &[u8] = b"\0\0\0\0\0\0\0\x03\0\x01\0\0\0\0\0\0\0\0\0\0\x7f\xff\0\0";

fn open(store: &mut [u8]) -> ScalableConsumerSession<'_> {
    let kind = ScalableConsumerType::Stream;
    ScalableConsumerSession::new(7, TOPIC, "sub", "station", kind, ControllerIncarnation(1), store).unwrap()
}

/// A session that is registered with an empty list of epoch 2.
fn registered(store: &mut [u8]) -> ScalableConsumerSession<'_> {
    let mut session = open(store);
    session.handle_subscribe_response(b"\x08\x01\x22\x02\x08\x02").unwrap();
    session
}

fn half() -> Vec<u8> {
    segment(0, 0, 0x7fff, &[])
}

#[test]
fn row_a_is_what_the_helpers_write() {
    assert_eq!(update(3, &[half()]), ROW_A);
    assert_eq!(response(2, &[]), b"\x08\x01\x22\x02\x08\x02");
}

#[test]
fn rows_b_c_d_e() {
    let (mut store, mut out) = ([0xaa; MIN_STORE], [0; MIN_OUTPUT]);
    let mut session = registered(&mut store);

    let delta = session.handle_assignment_update(ROW_A, &mut out).unwrap().unwrap();
    assert_eq!(delta.layout_epoch(), 3);
    assert_eq!((delta.lost().len(), delta.gained().len()), (0, 1));
    let gained = delta.gained().next().unwrap();
    assert_eq!(gained.segment_id(), SegmentId(0));
    assert_eq!(gained.key_range(), KeyRange::new(0, 0x7fff).unwrap());
    assert_eq!(gained.bucket_ranges().len(), 0);
    assert_eq!(session.assignment().unwrap().as_bytes(), ROW_B);
    assert_eq!(session.assignment(), ConsumerAssignment::from_bytes(ROW_B).ok());

    assert_eq!(session.handle_assignment_update(ROW_A, &mut out), Ok(None));

    let delta = session.handle_assignment_update_for(ControllerIncarnation(1), &update(4, &[half()]), &mut out);
    let delta = delta.unwrap().unwrap();
    assert!(delta.is_empty());
    assert_eq!((delta.layout_epoch(), delta.lost().len(), delta.gained().len()), (4, 0, 0));
    assert_eq!(session.epoch_floor(), Some(4));
}

#[test]
fn row_f_an_older_epoch() {
    let (mut store, mut out) = ([0; MIN_STORE], [0xaa; MIN_OUTPUT]);
    let mut session = registered(&mut store);
    session.handle_assignment_update(ROW_A, &mut out).unwrap();
    let (record, before, mut out) = (session.record(), session.store().to_vec(), [0xaa; MIN_OUTPUT]);
    let stale = session.handle_assignment_update(&update(2, &[half()]), &mut out);
    assert_eq!(stale, Err(AssignmentError::StaleEpoch { got: 2, prev: 3 }));
    assert_eq!((session.record(), session.store(), out), (record, &before[..], [0xaa; MIN_OUTPUT]));
}

#[test]
fn row_g_buckets_that_share_a_value() {
    let (mut store, mut out) = ([0; MIN_STORE], [0; MIN_OUTPUT]);
    let mut session = registered(&mut store);
    let shared = update(3, &[segment(0, 0, 0x7fff, &[(0, 5), (5, 9)])]);
    let refusal = session.handle_assignment_update(&shared, &mut out);
    assert_eq!(refusal, Err(AssignmentError::OverlappingBucketRanges { segment_id: SegmentId(0) }));

    let apart = update(3, &[segment(0, 0, 0x7fff, &[(6, 9), (0, 5)])]);
    let delta = session.handle_assignment_update(&apart, &mut out).unwrap().unwrap();
    let buckets: Vec<_> = delta.gained().next().unwrap().bucket_ranges().map(|r| (r.start(), r.end())).collect();
    assert_eq!(buckets, [(6, 9), (0, 5)]);
}

#[test]
fn row_h_lists_as_long_as_a_slot() {
    let bare = |n| (0..n).map(|id| segment(id, 0, 0xffff, &[])).collect::<Vec<_>>();
    let bucketed = |n| vec![segment(0, 0, 0xffff, &(0..n).map(|i| (i, i)).collect::<Vec<_>>())];
    let too_long = Err(AssignmentError::AssignmentTooLong);
    for (fits, longer, length) in [(bare(145), bare(146), 2_040), (bucketed(506), bucketed(507), 2_048)] {
        let (mut store, mut out) = ([0; MIN_STORE], [0; MIN_OUTPUT]);
        let mut session = registered(&mut store);
        assert_eq!(session.handle_assignment_update(&update(3, &longer), &mut out), too_long);
        let delta = session.handle_assignment_update(&update(3, &fits), &mut out).unwrap().unwrap();
        assert_eq!(delta.gained().len(), fits.len());
        assert_eq!(session.assignment().unwrap().as_bytes().len(), length);
    }
}

#[test]
fn row_i_a_full_queue() {
    let (mut store, mut out) = (vec![0; FULL_STORE], [0; MIN_OUTPUT]);
    let mut session = open(&mut store);
    for _ in 0..MAX_BUFFERED_ASSIGNMENT_UPDATES {
        assert_eq!(session.handle_assignment_update(ROW_A, &mut out), Ok(None));
    }
    let full = Err(AssignmentError::PreBaselineBufferFull { max: 1_024 });
    assert_eq!(session.handle_assignment_update(ROW_A, &mut out), full);
}

/// The free end is a byte short of one more list of 24 bytes behind its length.
#[test]
fn row_i_without_room() {
    for pushes in [0, 1, 3] {
        let (mut store, mut out) = (vec![0; MIN_STORE + pushes * 26 + 25], [0; MIN_OUTPUT]);
        let mut session = open(&mut store);
        for _ in 0..pushes {
            assert_eq!(session.handle_assignment_update(ROW_A, &mut out), Ok(None));
        }
        let full = Err(AssignmentError::PreBaselineBufferFull { max: pushes });
        assert_eq!(session.handle_assignment_update(ROW_A, &mut out), full);
    }
}

#[test]
fn row_j_parents() {
    let mut out = [0; 64];
    let name = canonical_segment_topic("topic://t/n//m", KeyRange::FULL, SegmentId(1), &mut out);
    assert_eq!(name, Ok("segment://t/n//m/0000-ffff-1"));
    let name = canonical_segment_topic("topic://t//m", KeyRange::FULL, SegmentId(1), &mut out);
    assert_eq!(name, Err(SegmentTopicError::InvalidParent));
}
