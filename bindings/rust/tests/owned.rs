//! The session that owns its store, against the one over lent memory.
#![cfg(feature = "alloc")]

mod messages;

use std::error::Error;

use cuddrewyn::owned::{self, AssignmentError, ScalableConsumerSession};
use cuddrewyn::{ControllerIncarnation, MAX_STORE, MIN_OUTPUT, MIN_STORE, Reader, ScalableConsumerType, SegmentId};
use messages::*;

const KIND: ScalableConsumerType = ScalableConsumerType::Checkpoint;
const FIRST: ControllerIncarnation = ControllerIncarnation(1);

fn open() -> ScalableConsumerSession {
    ScalableConsumerSession::new(7, TOPIC, "sub", "station", KIND, FIRST).unwrap()
}

fn list(ids: &[u64]) -> Vec<Vec<u8>> {
    ids.iter().map(|id| segment(*id, 0, 0xff, &[])).collect()
}

#[test]
fn a_fresh_session() {
    // Texts are taken as the original takes them, and as `&str`.
    let (topic, subscription) = (String::from(TOPIC), String::from("sub"));
    let session = ScalableConsumerSession::new(7, topic, subscription, "station", KIND, FIRST).unwrap();
    assert_eq!((session.topic(), session.subscription(), session.consumer_name()), (TOPIC, "sub", "station"));
    assert_eq!((session.consumer_type(), session.consumer_id(), session.incarnation()), (KIND, 7, FIRST));
    assert_eq!((session.assignment(), session.epoch_floor(), session.store().len()), (None, None, MIN_STORE));
    assert!(!session.is_registered() && !session.is_invalidated());
    assert!(session.matches_registration(TOPIC, "sub", "station", KIND));
    assert!(!session.matches_registration(TOPIC, "sub", "station", ScalableConsumerType::Stream));
    let long = ScalableConsumerSession::new(7, TOPIC, "", "n".repeat(2_042 - TOPIC.len()), KIND, FIRST);
    assert_eq!(long.unwrap_err(), AssignmentError::IdentityTooLong);
}

/// Every call of a random run, over lent memory and over a store of its own: the same answers, records and lists.
#[test]
fn random_runs() {
    let (mut random, mut deltas, mut replayed, mut refused) = (Random(20), 0, 0, 0);
    for _ in 0..60 {
        let (mut store, mut out) = (vec![0; MAX_STORE], [0; MIN_OUTPUT]);
        let mut lent =
            cuddrewyn::ScalableConsumerSession::new(7, TOPIC, "sub", "station", KIND, FIRST, &mut store).unwrap();
        let mut session = open();
        for step in 0..80 {
            let segments: Vec<_> = (0..random.below(5)).map(|_| random_segment(&mut random)).collect();
            // Mostly of the present connection and not behind the list held.
            let epoch = (step / 4 + random.below(5) / 4) as u64;
            let link = ControllerIncarnation(session.incarnation().0 + (random.below(9) / 8) as u64);
            match random.below(12) {
                0 => assert_eq!(session.begin_incarnation(link), lent.begin_incarnation(link).map_err(Into::into)),
                1 => {
                    session.invalidate_authority();
                    lent.invalidate_authority();
                }
                2 | 3 => {
                    let replays = session.take_replayed_updates();
                    let mut given = Vec::new();
                    lent.for_each_replayed_update(&mut out, |replay| given.push(replay.into_owned(TOPIC).unwrap()))
                        .unwrap();
                    assert_eq!(replays, given);
                    replayed += replays.len();
                }
                4 => {
                    let message = rejection(epoch as i32, Some("moved"));
                    let refusal = lent.handle_subscribe_response(&message).unwrap_err().into_owned();
                    assert_eq!(session.handle_subscribe_response(&message), Err(refusal));
                }
                5 | 6 => {
                    let message = response(session.epoch_floor().unwrap_or_default(), &segments);
                    let given = lent.handle_subscribe_response_for(link, &message);
                    let given = given.map(|list| list.into_owned(TOPIC).unwrap()).map_err(Into::into);
                    assert_eq!(session.handle_subscribe_response_for(link, &message), given);
                }
                _ => {
                    let message = update(epoch, &segments);
                    let given = lent.handle_assignment_update_for(link, &message, &mut out);
                    let given = given.map(|delta| delta.map(|delta| delta.into_owned(TOPIC).unwrap()));
                    let answer = session.handle_assignment_update_for(link, &message);
                    assert_eq!(answer, given.map_err(Into::into));
                    deltas += usize::from(matches!(answer, Ok(Some(_))));
                    refused += usize::from(answer.is_err());
                }
            }
            assert_eq!(session.record(), lent.record());
            let held = lent.assignment().map(|list| list.into_owned(TOPIC).unwrap());
            assert_eq!(session.assignment(), held.as_ref());
            assert_eq!((session.assignment_view(), session.baseline_view()), (lent.assignment(), lent.baseline()));
        }
    }
    assert!(deltas > 300 && replayed > 100 && refused > 300, "{deltas} deltas, {replayed} replays, {refused} refusals");
}

/// Mostly good ones, with few ids, ranges and buckets, so that some repeat and some are altered.
fn random_segment(random: &mut Random) -> Vec<u8> {
    let (id, end) = (random.below(40) as u64, 0x7f + random.below(2) as u32);
    let buckets: &[(i32, i32)] = [&[][..], &[(0, 1)], &[(4, 5), (0, 1)], &[(0, 0x90)]][random.below(31) / 10];
    segment(id, 0, end, buckets)
}

#[test]
fn the_store_grows_with_the_queue() {
    let mut session = open();
    let push = update(3, &(0..145).map(|id| segment(id, 0, 9, &[])).collect::<Vec<_>>());
    for _ in 0..1_024 {
        assert_eq!(session.handle_assignment_update(&push), Ok(None));
    }
    let full = AssignmentError::PreBaselineBufferFull { max: 1_024 };
    assert_eq!(session.handle_assignment_update(&push), Err(full.clone()));
    assert!(session.store().len() <= MAX_STORE);
    session.handle_subscribe_response(&response(3, &[])).unwrap();
    let replays = session.take_replayed_updates();
    assert_eq!((replays.len(), replays[0].delta.gained.len()), (1, 145));
    assert_eq!(session.take_replayed_updates(), []);

    for pushes in [0, 1, 5] {
        let mut session = open().with_waiting(pushes);
        for _ in 0..pushes {
            assert_eq!(session.handle_assignment_update(&push), Ok(None));
        }
        let full = AssignmentError::PreBaselineBufferFull { max: pushes };
        assert_eq!(session.handle_assignment_update(&push), Err(full));
        assert_eq!(session.store().len(), cuddrewyn::store_len(pushes));
    }
}

#[test]
fn each_reader_takes_all_replays() {
    let mut session = open();
    for (epoch, ids) in [(3, &[1][..]), (4, &[1, 2])] {
        assert_eq!(session.handle_assignment_update(&update(epoch, &list(ids))), Ok(None));
    }
    session.handle_subscribe_response(&response(2, &[])).unwrap();
    let first = session.take_replayed_updates();
    assert_eq!(first.iter().map(|replay| replay.delta.gained[0].segment_id().0).collect::<Vec<_>>(), [1, 2]);
    assert_eq!(session.take_replayed_updates_for(Reader::new(7).unwrap()), first);
    assert_eq!(session.take_replayed_updates(), []);
}

#[test]
fn a_session_is_cloned_and_kept() {
    let mut session = open();
    session.handle_assignment_update(&update(3, &list(&[1]))).unwrap();
    session.handle_subscribe_response(&response(2, &list(&[4]))).unwrap();
    let mut copy = session.clone();
    assert_eq!(copy.take_replayed_updates().len(), 1);
    assert_eq!(session.record().drain_positions[0], 0);

    let (record, store) = session.into_parts();
    let mut again = ScalableConsumerSession::from_parts(record, store.clone()).unwrap();
    assert_eq!(again.assignment(), copy.assignment());
    assert_eq!(again.take_replayed_updates().len(), 1);
    let next = ScalableConsumerSession::resume(record, store.clone(), ControllerIncarnation(2)).unwrap();
    assert_eq!((next.assignment(), next.epoch_floor(), next.topic()), (None, Some(3), TOPIC));
    let old = ScalableConsumerSession::resume(record, store.clone(), FIRST).unwrap_err();
    assert_eq!(old, AssignmentError::NonAdvancingIncarnation { got: FIRST, prev: FIRST });
    let short = ScalableConsumerSession::from_parts(record, store[..MIN_STORE - 1].to_vec()).unwrap_err();
    assert_eq!(short, AssignmentError::StoreTooShort);
    let mut damaged = store;
    damaged[2 * cuddrewyn::SLOT + 8] = 0xff;
    assert_eq!(ScalableConsumerSession::from_parts(record, damaged).unwrap_err(), AssignmentError::MalformedStore);
}

#[test]
fn a_session_is_saved_and_restored() {
    let mut session = open();
    session.handle_assignment_update(&update(3, &list(&[1]))).unwrap();
    let waiting = session.save().unwrap();
    session.handle_subscribe_response(&response(2, &list(&[4]))).unwrap();
    let saved = session.save().unwrap();

    let mut again = ScalableConsumerSession::restore(&saved).unwrap();
    assert_eq!((again.assignment(), again.record()), (session.assignment(), session.record()));
    assert_eq!(again.take_replayed_updates(), session.take_replayed_updates());
    let mut before = ScalableConsumerSession::restore(&waiting).unwrap();
    assert_eq!(before.assignment(), None);
    before.handle_subscribe_response(&response(2, &list(&[4]))).unwrap();
    assert_eq!(before.assignment(), session.assignment());

    let mut damaged = saved.clone();
    damaged[2 * cuddrewyn::SLOT] ^= 1;
    assert_eq!(ScalableConsumerSession::restore(&damaged).unwrap_err(), AssignmentError::MalformedSave);
    assert_eq!(ScalableConsumerSession::restore(&saved[..saved.len() - 1]).unwrap_err(), AssignmentError::MalformedSave);
    assert_eq!(ScalableConsumerSession::restore(&[]).unwrap_err(), AssignmentError::MalformedSave);
}

#[test]
fn what_is_shown() {
    let mut session = open();
    session.handle_subscribe_response(&response(6, &[segment(1, 0, 9, &[(2, 3)])])).unwrap();
    let list = "ConsumerAssignment { layout_epoch: 6, segments: [AssignedSegment { segment_id: SegmentId(1), key_range: \
                KeyRange { start: 0, end: 9 }, bucket_ranges: [KeyRange { start: 2, end: 3 }], \
                segment_topic: \"segment://a/b/c/0000-0009-1\" }] }";
    assert_eq!(format!("{:?}", session.assignment().unwrap()), list);
    let shown = format!("{session:?}");
    assert!(shown.starts_with("ScalableConsumerSession { consumer_id: 7, topic: \"topic://a/b/c\", "));
    assert!(shown.contains(list) && shown.ends_with("queue_count: 0, invalidated: false, .. }"));
}

#[test]
fn what_crosses_threads() {
    fn crosses<T: Send + Sync + 'static>() {}
    crosses::<ScalableConsumerSession>();
    crosses::<owned::AssignmentReplay>();
    crosses::<AssignmentError>();
    crosses::<owned::SegmentSource>();
    let mut session = open();
    // The message is gone when the error is looked at.
    let refusal = { session.handle_subscribe_response(&rejection(22, Some("moved"))).unwrap_err() };
    let boxed: Box<dyn Error + Send + Sync> = refusal.into();
    let text = std::thread::spawn(move || boxed.to_string()).join().unwrap();
    assert_eq!(text, "broker rejected the scalable subscribe (code 22): moved");
}

#[test]
fn lists_and_deltas_packed_again() {
    let mut session = open();
    let segments = [segment(5, 0, 9, &[(4, 5), (0, 1)]), segment(2, 7, 0xffff, &[])];
    let baseline = session.handle_subscribe_response(&response(3, &segments)).unwrap();
    let bytes = baseline.to_bytes();
    let view = cuddrewyn::ConsumerAssignment::from_bytes(&bytes).unwrap();
    assert_eq!(baseline, view);
    assert_eq!(Some(view), session.assignment_view());
    assert_eq!(view.into_owned(TOPIC), Ok(baseline.clone()));
    assert_eq!(baseline.segment_topics(), ["segment://a/b/c/0007-ffff-2", "segment://a/b/c/0000-0009-5"]);
    // The writer's message, taken by another session, is the same list.
    let message = [number(1, 1), part(4, baseline.to_pb().unwrap())].concat();
    assert_eq!(open().handle_subscribe_response(&message), Ok(baseline.clone()));
    assert_eq!(owned::ConsumerAssignment::default().to_pb(), Ok(number(1, 0)));

    let delta = session.handle_assignment_update(&update(4, &list(&[5, 6, 8]))).unwrap().unwrap();
    assert_eq!((&delta.lost[..], delta.is_empty()), (&[SegmentId(2), SegmentId(5)][..], false));
    let bytes = delta.to_bytes();
    let view = cuddrewyn::AssignmentDelta::from_bytes(&bytes).unwrap();
    assert_eq!(delta, view);
    assert_eq!(view.into_owned(TOPIC), Ok(delta.clone()));
    // Fields that were changed into no delta.
    let twice = owned::AssignmentDelta { lost: vec![SegmentId(2); 2], ..delta };
    assert_eq!(cuddrewyn::AssignmentDelta::from_bytes(&twice.to_bytes()).unwrap_err().number(), 20);
    assert!(twice != view);
}

#[test]
fn names_of_their_own() {
    let range = cuddrewyn::KeyRange::new(0, 9).unwrap();
    let name = owned::canonical_segment_topic(TOPIC, range, SegmentId(3)).unwrap();
    assert_eq!(name, "segment://a/b/c/0000-0009-3");
    let source = owned::SegmentSource::new(SegmentId(3), name.clone()).unwrap();
    assert_eq!((source.topic(), source.key_range(), &source.parent_topic()[..]), (&name[..], range, TOPIC));
    assert_eq!(cuddrewyn::SegmentSource::new(SegmentId(3), &name).unwrap().into_owned(), source);
    assert_eq!(owned::SegmentSource::new(SegmentId(4), name).unwrap_err().number(), 19);
    assert_eq!(owned::canonical_segment_topic("a", range, SegmentId(3)).unwrap_err().number(), 12);
    let mut session = open();
    let list = session.handle_subscribe_response(&response(6, &[segment(3, 0, 9, &[])])).unwrap();
    assert_eq!(list.segments()[0].source(), source);
}
