//! Pushes that wait for the response, one behind the other: how many a store takes.

mod messages;

use cuddrewyn::*;
use messages::*;

/// The bytes of a queued push of 90 bytes.
const ENTRY: usize = 2 + 90;

fn open(store: &mut [u8]) -> ScalableConsumerSession<'_> {
    let kind = ScalableConsumerType::Stream;
    ScalableConsumerSession::new(7, TOPIC, "sub", "station", kind, ControllerIncarnation(1), store).unwrap()
}

/// An update whose list has 90 bytes: four segments and six buckets.
fn of_ninety(epoch: u64) -> Vec<u8> {
    let buckets: [&[(i32, i32)]; 4] = [&[(0, 1), (2, 3), (4, 5)], &[(0, 0), (9, 9)], &[(7, 8)], &[]];
    let segments: Vec<_> = (1..).zip(buckets).map(|(id, buckets)| segment(id, 0, 99, buckets)).collect();
    update(epoch, &segments)
}

/// How many pushes are taken, and what the next one is refused with.
fn fill(session: &mut ScalableConsumerSession<'_>, push: &[u8]) -> (usize, AssignmentError<'static>) {
    let mut out = [0; MIN_OUTPUT];
    let mut count = 0;
    loop {
        match session.handle_assignment_update(push, &mut out) {
            Ok(None) => count += 1,
            Ok(Some(delta)) => panic!("{delta:?}"),
            Err(refusal) => return (count, refusal),
        }
    }
}

#[test]
fn a_store_of_64_kib() {
    let mut store = vec![0; 65_536];
    let mut session = open(&mut store);
    let full = (645, AssignmentError::PreBaselineBufferFull { max: 645 });
    assert_eq!(fill(&mut session, &of_ninety(5)), full);
    session.begin_incarnation(ControllerIncarnation(2)).unwrap();
    assert_eq!(fill(&mut session, &of_ninety(5)), full);
    session.invalidate_authority();
    assert_eq!(fill(&mut session, &of_ninety(5)), full);
    session.handle_subscribe_response(&response(2, &[])).unwrap();
    let mut out = [0; MIN_OUTPUT];
    let replay = session.take_replayed_update(&mut out).unwrap().unwrap();
    assert_eq!((replay.assignment.as_bytes().len(), replay.delta.gained().len()), (90, 4));
    assert_eq!(session.take_replayed_update(&mut out), Ok(None));
}

/// The last entry ends where the store ends, and is read there.
#[test]
fn a_push_that_just_fits() {
    for (room, count) in [(ENTRY - 1, 0), (ENTRY, 1), (3 * ENTRY - 1, 2), (3 * ENTRY, 3)] {
        let (mut store, mut out) = (vec![0; MIN_STORE + room], [0; MIN_OUTPUT]);
        let mut session = open(&mut store);
        let full = AssignmentError::PreBaselineBufferFull { max: count };
        assert_eq!(fill(&mut session, &of_ninety(5)), (count, full));
        session.handle_subscribe_response(&response(2, &[])).unwrap();
        let replays = session.for_each_replayed_update(&mut out, |replay| assert_eq!(replay.assignment.layout_epoch(), 5));
        assert_eq!(replays, Ok(count.min(1)));
        assert_eq!(session.assignment().map(|list| list.as_bytes().len()), Some(if count == 0 { 10 } else { 90 }));
    }
}

#[test]
fn rooms_by_number_of_pushes() {
    assert_eq!((store_len(0), store_len(1), store_len(29)), (MIN_STORE, 8_194, 65_594));
    assert_eq!((MAX_STORE, store_len(2_000)), (2_105_344, MAX_STORE));
    assert_eq!(FULL_STORE, MIN_STORE + 1_024 * (2 + 2_046));
}
