//! Damaged stores, records and bytes: every call refuses or answers, and nothing panics.

mod messages;

use cuddrewyn::*;
use messages::*;

/// Whether each bucket of a segment lies in its range; a store that was damaged may hold others.
fn buckets_inside(segment: AssignedSegment<'_>) -> bool {
    let range = segment.key_range();
    segment.bucket_ranges().all(|bucket| range.contains_range(bucket))
}

/// Reads all of a list. It can be written where no bucket lies outside its segment.
fn read_list(list: ConsumerAssignment<'_>) {
    assert_eq!(list.segments().len(), list.segments().count());
    list.segments().for_each(read_segment);
    let _ = format!("{list:?}");
    let mut out = vec![0; list.to_pb_room(TOPIC)];
    match list.to_pb(TOPIC, &mut out) {
        Ok(_) => assert!(list.segments().all(buckets_inside)),
        Err(error) => {
            assert_eq!(error.number(), 34, "{error}");
            assert!(!list.segments().all(buckets_inside));
        }
    }
}

fn read_segment(segment: AssignedSegment<'_>) {
    assert!(segment.key_range().contains(segment.key_range().end()));
    assert_eq!(segment.bucket_ranges().len(), segment.bucket_ranges().count());
    assert!(segment.bucket_ranges().all(|range| range.start() <= range.end()));
    assert!(segment.source(TOPIC, &mut [0; 64]).is_ok());
}

/// Reads all of a delta.
fn read_delta(delta: AssignmentDelta<'_>) {
    assert_eq!(delta.lost().len(), delta.lost().count());
    assert_eq!(delta.gained().len(), delta.gained().count());
    delta.gained().for_each(read_segment);
    let _ = format!("{delta:?}");
}

/// A session with two pushes that wait, registered or not, as record and store.
fn sound(registered: bool) -> (Record, Vec<u8>) {
    let (mut store, mut out) = (vec![0; store_len(3)], [0; MIN_OUTPUT]);
    let kind = ScalableConsumerType::Stream;
    let mut session =
        ScalableConsumerSession::new(7, TOPIC, "sub", "n", kind, ControllerIncarnation(1), &mut store).unwrap();
    for epoch in [3, 4] {
        let push = update(epoch, &[segment(epoch, 0, 9, &[(0, 2), (5, 9)]), segment(9, 10, 20, &[])]);
        session.handle_assignment_update(&push, &mut out).unwrap();
    }
    if registered {
        session.handle_subscribe_response(&response(2, &[segment(1, 0, 9, &[])])).unwrap();
    }
    let record = session.record();
    (record, store)
}

/// Every call on a session made of these parts. Gives whether they were taken.
fn exercise(record: Record, store: &mut [u8]) -> bool {
    let mut out = [0; MIN_OUTPUT];
    let _ = ScalableConsumerSession::resume(record, store, ControllerIncarnation(u64::MAX)).map(|s| s.is_registered());
    let mut session = match ScalableConsumerSession::from_parts(record, store) {
        Ok(session) => session,
        Err(refusal) => {
            assert!(matches!(refusal.number(), 1 | 22), "{refusal}");
            return false;
        }
    };
    let _ = format!("{session:?}");
    assert_eq!(session.assignment().is_some(), session.is_registered());
    assert_eq!(session.baseline().is_some(), session.is_registered());
    session.assignment().into_iter().chain(session.baseline()).for_each(read_list);
    let _ = session.matches_registration(TOPIC, "sub", "n", ScalableConsumerType::Stream);
    let replays = session.for_each_replayed_update(&mut out, |replay| {
        read_list(replay.assignment);
        read_delta(replay.delta);
    });
    assert!(replays.is_ok());
    for epoch in [4, u64::MAX] {
        if let Ok(Some(delta)) = session.handle_assignment_update(&update(epoch, &[segment(9, 0, 3, &[])]), &mut out) {
            read_delta(delta);
        }
    }
    let _ = session.handle_subscribe_response(&response(u64::MAX, &[])).map(read_list);
    session.invalidate_authority();
    let _ = session.begin_incarnation(ControllerIncarnation(2));
    ScalableConsumerSession::from_parts(session.record(), session.into_parts().1).is_ok()
}

#[test]
fn one_damaged_byte() {
    for registered in [false, true] {
        let (record, store) = sound(registered);
        assert!(exercise(record, &mut store.clone()));
        let (mut taken, mut refused) = (0, 0);
        for place in (0..60).chain(2_048..2_080).chain(4_096..4_150).chain(6_144..6_260) {
            for value in [0, 1, 0x7f, 0x80, 0xff] {
                let mut store = store.clone();
                store[place] = value;
                *if exercise(record, &mut store) { &mut taken } else { &mut refused } += 1;
            }
        }
        assert!(taken > 100 && refused > 100, "{taken} {refused}");
    }
}

#[test]
fn random_stores_and_records() {
    let mut random = Random(0x9e37_79b9_7f4a_7c15);
    for round in 0..300 {
        let (mut record, mut store) = sound(round % 2 == 0);
        for _ in 0..random.below(20) {
            let place = [0, 2_048, 4_096, 6_144, 6_192, 6_240][random.below(6)] + random.below(64);
            store[place] = random.next() as u8;
        }
        let numbers = [0, 1, 2, 3, 4, usize::MAX];
        record.queue_count = numbers[random.below(6)];
        record.drain_positions[random.below(Reader::COUNT)] = numbers[random.below(6)];
        record.has_floor = random.below(3) as u8;
        record.epoch_floor = random.next();
        exercise(record, &mut store);
        let length = random.below(3 * SLOT + 10);
        exercise(record, &mut store[..length]);
        exercise(record, &mut random.bytes(MIN_STORE));
    }
}

#[test]
fn counts_beyond_the_queue() {
    let (record, mut store) = sound(false);
    // The position of any reader counts.
    let rows = [(3, 0, 0), (1_025, 0, 0), (usize::MAX, 0, 0), (2, 0, 3), (2, 7, 3), (2, 4, usize::MAX)];
    for (queue_count, reader, position) in rows {
        let mut damaged = Record { queue_count, ..record };
        damaged.drain_positions[reader] = position;
        let refusal = ScalableConsumerSession::from_parts(damaged, &mut store).unwrap_err();
        assert_eq!(refusal, AssignmentError::MalformedStore);
        // A new connection starts with an empty queue, so it needs none of them.
        let session = ScalableConsumerSession::resume(damaged, &mut store, ControllerIncarnation(2)).unwrap();
        assert_eq!((session.record().queue_count, session.record().drain_positions), (0, [0; Reader::COUNT]));
    }
    store[6] = 2;
    let refusal = ScalableConsumerSession::resume(record, &mut store, ControllerIncarnation(2)).unwrap_err();
    assert_eq!(refusal, AssignmentError::MalformedStore);
}

#[test]
fn a_floor_that_is_unset_has_no_number() {
    let (record, mut store) = sound(false);
    let given = Record { has_floor: 0, epoch_floor: 5, ..record };
    let mut session = ScalableConsumerSession::from_parts(given, &mut store).unwrap();
    // A refusal leaves the record as it is; a call that is taken writes it.
    assert!(session.begin_incarnation(ControllerIncarnation(1)).is_err());
    assert_eq!((session.epoch_floor(), session.record()), (None, given));
    session.invalidate_authority();
    assert_eq!((session.epoch_floor(), session.record().epoch_floor), (None, 0));
}

#[test]
fn views_of_random_bytes() {
    let mut random = Random(0xdead_beef_cafe_f00d);
    let (mut lists, mut deltas) = (0, 0);
    for _ in 0..40_000 {
        let length = random.below(64);
        let mut bytes = random.bytes(length);
        // Small counts, so that some bytes are lists or deltas.
        for place in [8, 9, 10, 11, 18, 20, 22, 23, 32] {
            if let Some(byte) = bytes.get_mut(place) {
                *byte = (random.below(8) / 7) as u8;
            }
        }
        if let Ok(list) = ConsumerAssignment::from_bytes(&bytes) {
            lists += 1;
            read_list(list);
        }
        if let Ok(delta) = AssignmentDelta::from_bytes(&bytes) {
            deltas += 1;
            read_delta(delta);
        }
    }
    assert!(lists > 50 && deltas > 50, "{lists} {deltas}");
}

#[test]
fn random_messages() {
    let mut random = Random(0x0123_4567_89ab_cdef);
    let (mut store, mut out) = (vec![0; store_len(3)], [0; MIN_OUTPUT]);
    let kind = ScalableConsumerType::Stream;
    let mut session = ScalableConsumerSession::new(7, TOPIC, "", "", kind, ControllerIncarnation(1), &mut store).unwrap();
    let good = [
        update(3, &[segment(1, 0, 9, &[(0, 2), (5, 9)])]),
        response(3, &[segment(1, 0, 9, &[])]),
        rejection(5, Some("text")),
    ];
    for _ in 0..20_000 {
        let mut message = good[random.below(3)].clone();
        for _ in 0..random.below(4) {
            let place = random.below(message.len());
            message[place] = random.next() as u8;
        }
        message.truncate(message.len() - random.below(3));
        if let Ok(Some(delta)) = session.handle_assignment_update(&message, &mut out) {
            read_delta(delta);
        }
        let refusal = session.handle_subscribe_response(&message).map(read_list).err();
        let _ = refusal.map(|refusal| refusal.to_string());
    }
}
