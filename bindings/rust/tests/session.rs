//! Whole sessions.

mod messages;

use cuddrewyn::*;
use messages::*;

const KIND: ScalableConsumerType = ScalableConsumerType::Checkpoint;

fn open(store: &mut [u8]) -> ScalableConsumerSession<'_> {
    ScalableConsumerSession::new(7, TOPIC, "sub", "station", KIND, ControllerIncarnation(1), store).unwrap()
}

/// Ids lost and ids gained.
fn ids(delta: AssignmentDelta<'_>) -> (Vec<u64>, Vec<u64>) {
    (delta.lost().map(|id| id.0).collect(), delta.gained().map(|segment| segment.segment_id().0).collect())
}

fn list(ids: &[u64]) -> Vec<Vec<u8>> {
    ids.iter().map(|id| segment(*id, 0, 0xff, &[])).collect()
}

#[test]
fn a_fresh_session() {
    let mut store = [0xaa; MIN_STORE];
    let session = open(&mut store);
    assert_eq!((session.consumer_id(), session.incarnation()), (7, ControllerIncarnation(1)));
    assert_eq!((session.topic(), session.subscription(), session.consumer_name()), (TOPIC, "sub", "station"));
    assert_eq!(session.consumer_type(), KIND);
    assert_eq!(session.epoch_floor(), None);
    assert!(!session.is_registered() && !session.is_invalidated());
    assert_eq!((session.assignment(), session.baseline()), (None, None));
    assert_eq!(session.record(), Record { consumer_id: 7, incarnation: 1, ..Record::default() });
    // The identity's 7 bytes and texts alone are written.
    assert_eq!(&session.store()[..7], b"\0\x0d\0\x03\0\x07\x01");
    assert_eq!(&session.store()[7..30], b"topic://a/b/csubstation");
    assert!(session.store()[30..].iter().all(|byte| *byte == 0xaa));
}

#[test]
fn queue_response_replays_updates() {
    let (mut store, mut out) = ([0; store_len(4)], [0; MIN_OUTPUT]);
    let mut session = open(&mut store);
    // The second push repeats the first, the third has it at a later epoch.
    for push in [update(3, &list(&[1, 2])), update(3, &list(&[1, 2])), update(4, &list(&[1, 2])), update(4, &list(&[2, 5]))]
    {
        assert_eq!(session.handle_assignment_update(&push, &mut out), Ok(None));
    }
    assert_eq!(session.take_replayed_update(&mut out), Ok(None));

    let baseline = session.handle_subscribe_response(&response(2, &list(&[9]))[..]).unwrap();
    assert_eq!((baseline.layout_epoch(), baseline.segments().len()), (2, 1));
    assert!(session.is_registered());
    assert_eq!(session.epoch_floor(), Some(4));
    assert_eq!(session.assignment().unwrap().layout_epoch(), 4);

    let replay = session.take_replayed_update(&mut out).unwrap().unwrap();
    assert_eq!((replay.assignment.layout_epoch(), ids(replay.delta)), (3, (vec![9], vec![1, 2])));
    let mut rest = Vec::new();
    let count = session.for_each_replayed_update(&mut out, |replay| {
        rest.push((replay.assignment.segments().len(), replay.delta.layout_epoch(), ids(replay.delta)));
    });
    assert_eq!(count, Ok(2));
    assert_eq!(rest, [(2, 4, (vec![], vec![])), (2, 4, (vec![1], vec![5]))]);
    assert_eq!(session.take_replayed_update(&mut out), Ok(None));

    // The same epoch with other segments is taken; an altered segment is lost and gained.
    let altered = vec![segment(2, 0, 0xfe, &[(0, 0)]), segment(5, 0, 0xff, &[])];
    let delta = session.handle_assignment_update(&update(4, &altered), &mut out).unwrap().unwrap();
    assert_eq!(ids(delta), (vec![2], vec![2]));
}

/// A relay that appends fields: of a number the last counts, of an assignment in two parts the last epoch and the segments of both.
#[test]
fn fields_that_come_again() {
    let (mut store, mut out) = (vec![0; MIN_STORE], [0; MIN_OUTPUT]);
    let mut session = open(&mut store);
    let message = [number(1, 9), part(4, number(1, 7)), part(4, assignment(3, &list(&[1]))), number(1, 1)].concat();
    session.handle_subscribe_response(&message).unwrap();
    assert_eq!(session.epoch_floor(), Some(3));
    let parts =
        [part(2, part(2, &list(&[2])[0])), part(2, number(1, 4)), part(2, part(2, &list(&[1])[0])), number(1, 7)].concat();
    let delta = session.handle_assignment_update(&[number(1, 8), parts].concat(), &mut out).unwrap().unwrap();
    assert_eq!((delta.layout_epoch(), ids(delta)), (4, (vec![], vec![2])));
    let lacking = [number(1, 7), part(2, part(2, &list(&[2])[0])), part(2, b"")].concat();
    assert_eq!(session.handle_assignment_update(&lacking, &mut out).unwrap_err(), AssignmentError::MissingField);
}

#[test]
fn numbers_of_readers() {
    for number in 0..Reader::COUNT {
        assert_eq!(Reader::new(number).map(Reader::number), Ok(number));
    }
    for number in [8, usize::MAX] {
        assert_eq!(Reader::new(number), Err(AssignmentError::UnknownReader));
    }
    assert_eq!(Reader::new(0), Ok(Reader::default()));
}

#[test]
fn each_reader_is_handed_every_replay() {
    let (mut store, mut out) = ([0; store_len(2)], [0; MIN_OUTPUT]);
    let mut session = open(&mut store);
    for (epoch, ids) in [(3, &[1][..]), (4, &[1, 2])] {
        assert_eq!(session.handle_assignment_update(&update(epoch, &list(ids)), &mut out), Ok(None));
    }
    session.handle_subscribe_response(&response(2, &[])[..]).unwrap();
    let [uploader, desk, logger] = [0, 3, 7].map(|number| Reader::new(number).unwrap());
    // The desk is one behind, the logger has asked for none; the uploader's none is its own.
    let mut gained = |session: &mut ScalableConsumerSession<'_>, reader| {
        session.take_replayed_update_for(reader, &mut out).unwrap().map(|replay| ids(replay.delta).1)
    };
    assert_eq!(gained(&mut session, uploader), Some(vec![1]));
    assert_eq!(gained(&mut session, desk), Some(vec![1]));
    assert_eq!(gained(&mut session, uploader), Some(vec![2]));
    assert_eq!(gained(&mut session, uploader), None);
    assert_eq!(session.record().drain_positions, [2, 0, 0, 1, 0, 0, 0, 0]);
    assert_eq!(gained(&mut session, desk), Some(vec![2]));
    assert_eq!(gained(&mut session, desk), None);
    assert_eq!(session.for_each_replayed_update_for(logger, &mut [0; MIN_OUTPUT], |_| ()), Ok(2));
    assert_eq!(session.take_replayed_update(&mut [0; MIN_OUTPUT]), Ok(None));
    assert_eq!(session.record().drain_positions, [2, 0, 0, 2, 0, 0, 0, 2]);
    session.begin_incarnation(ControllerIncarnation(2)).unwrap();
    assert_eq!(session.record().drain_positions, [0; Reader::COUNT]);
}

#[test]
fn a_stale_push_in_the_queue_refuses_the_response() {
    let (mut store, mut out) = ([0; store_len(2)], [0; MIN_OUTPUT]);
    let mut session = open(&mut store);
    for epoch in [5, 4] {
        session.handle_assignment_update(&update(epoch, &[]), &mut out).unwrap();
    }
    let (record, before) = (session.record(), session.store().to_vec());
    let message = response(3, &[]);
    assert_eq!(session.handle_subscribe_response(&message), Err(AssignmentError::StaleEpoch { got: 4, prev: 5 }));
    assert_eq!((session.record(), session.store()), (record, &before[..]));
    assert!(!session.is_registered());
}

#[test]
fn begin_and_invalidate() {
    let (mut store, mut out) = ([0; store_len(2)], [0; MIN_OUTPUT]);
    let mut session = open(&mut store);
    let message = response(6, &list(&[1]));
    session.handle_subscribe_response(&message).unwrap();

    session.invalidate_authority();
    assert!(session.is_invalidated() && !session.is_registered());
    assert_eq!((session.assignment(), session.baseline(), session.epoch_floor()), (None, None, Some(6)));
    // A response is still taken, and leaves the flag.
    session.handle_subscribe_response(&message).unwrap();
    assert!(session.is_invalidated() && session.is_registered());

    let not_advancing =
        AssignmentError::NonAdvancingIncarnation { got: ControllerIncarnation(1), prev: ControllerIncarnation(1) };
    assert_eq!(session.begin_incarnation(ControllerIncarnation(1)), Err(not_advancing));
    assert!(session.is_registered());
    assert_eq!(session.begin_incarnation(ControllerIncarnation(4)), Ok(()));
    assert!(!session.is_invalidated() && !session.is_registered());

    // The old connection is heard no more, and the floor is kept.
    let other = AssignmentError::IncarnationMismatch { got: ControllerIncarnation(1), expected: ControllerIncarnation(4) };
    assert_eq!(session.handle_assignment_update_for(ControllerIncarnation(1), &update(7, &[]), &mut out), Err(other));
    assert_eq!(session.handle_subscribe_response_for(ControllerIncarnation(1), &message), Err(other));
    let below = AssignmentError::CrossIncarnationEpochRegression { got: 5, floor: 6 };
    assert_eq!(session.handle_assignment_update(&update(5, &[]), &mut out), Err(below));
    let older = response(5, &[]);
    assert_eq!(session.handle_subscribe_response(&older), Err(below));
    assert!(session.handle_subscribe_response_for(ControllerIncarnation(4), &message).is_ok());
}

#[test]
fn the_brokers_text_is_a_part_of_the_message() {
    let mut store = [0; MIN_STORE];
    let mut session = open(&mut store);
    for (code, text) in [(22, Some("no such topic")), (-3, Some("")), (i32::MIN, None), (0, Some("säule"))] {
        let message = rejection(code, text);
        let refusal = session.handle_subscribe_response(&message).unwrap_err();
        assert_eq!(refusal, AssignmentError::Broker { code, message: text.unwrap_or_default() });
        if let AssignmentError::Broker { message: part, .. } = refusal
            && !part.is_empty()
        {
            assert!(message.as_ptr_range().contains(&part.as_ptr()));
        }
    }
    // An assignment outranks an error code.
    let both = [rejection(1, Some("text")), part(4, assignment(1, &[]))].concat();
    assert!(session.handle_subscribe_response(&both).is_ok());
}

#[test]
fn registrations_compared() {
    let mut store = [0; MIN_STORE];
    let session = open(&mut store);
    assert!(session.matches_registration(TOPIC, "sub", "station", KIND));
    assert!(!session.matches_registration("topic://a/b/d", "sub", "station", KIND));
    assert!(!session.matches_registration(TOPIC, "su", "bstation", KIND));
    assert!(!session.matches_registration(TOPIC, "sub", "", KIND));
    assert!(!session.matches_registration(TOPIC, "sub", "station", ScalableConsumerType::Stream));
}

#[test]
fn a_session_survives_a_restart() {
    let (mut store, mut out) = ([0; store_len(4)], [0; MIN_OUTPUT]);
    let mut session = open(&mut store);
    session.handle_assignment_update(&update(3, &list(&[1])), &mut out).unwrap();
    session.handle_assignment_update(&update(4, &list(&[1, 2])), &mut out).unwrap();
    let message = response(2, &[]);
    session.handle_subscribe_response(&message).unwrap();
    assert_eq!(ids(session.take_replayed_update(&mut out).unwrap().unwrap().delta), (vec![], vec![1]));
    let (record, lent) = session.into_parts();
    let mut saved = lent.to_vec();

    // Right where it was: the second replay is still to come.
    let mut session = ScalableConsumerSession::from_parts(record, &mut saved).unwrap();
    assert_eq!(session.record(), record);
    assert_eq!(session.assignment().unwrap().segments().len(), 2);
    assert_eq!(ids(session.take_replayed_update(&mut out).unwrap().unwrap().delta), (vec![], vec![2]));
    assert_eq!(session.take_replayed_update(&mut out), Ok(None));

    // On a new connection: the floor is kept, the list is not.
    let session = ScalableConsumerSession::resume(record, &mut saved, ControllerIncarnation(2)).unwrap();
    assert_eq!((session.epoch_floor(), session.assignment()), (Some(4), None));
    let old = ScalableConsumerSession::resume(record, &mut saved, ControllerIncarnation(0)).unwrap_err();
    assert_eq!(old.number(), 25);
}

/// A station's list, kept from what the calls hand out alone (01, the uploader), and how many deltas of each kind it was handed.
#[derive(Default)]
struct Uploader {
    list: Option<Vec<u8>>,
    updates: usize,
    replays: usize,
}

impl Uploader {
    fn apply(&mut self, delta: AssignmentDelta<'_>) {
        let mut out = [0; SLOT];
        let list = ConsumerAssignment::from_bytes(self.list.as_deref().unwrap()).unwrap();
        self.list = Some(apply(list, delta, &mut out).unwrap().as_bytes().to_vec());
    }

    fn response(&mut self, session: &mut ScalableConsumerSession<'_>, message: &[u8]) {
        let Ok(baseline) = session.handle_subscribe_response(message) else {
            return;
        };
        self.list = Some(baseline.as_bytes().to_vec());
        let replays = session.for_each_replayed_update(&mut [0; MIN_OUTPUT], |replay| {
            self.apply(replay.delta);
            assert_eq!(self.list.as_deref(), Some(replay.assignment.as_bytes()));
        });
        self.replays += replays.unwrap();
    }

    fn update(&mut self, session: &mut ScalableConsumerSession<'_>, message: &[u8]) {
        if let Ok(Some(delta)) = session.handle_assignment_update(message, &mut [0; MIN_OUTPUT]) {
            self.apply(delta);
            self.updates += 1;
        }
    }
}

/// The uploader's list is the list held after every call. The counts at the end only guard against a run in which nothing happens.
#[test]
fn an_uploader_keeps_up() {
    let mut random = Random(0x1234_5678_9abc_def1);
    let mut store = [0; store_len(5)];
    let mut session = open(&mut store);
    let mut uploader = Uploader::default();
    for step in 0..3_000 {
        let held: Vec<u64> = (0..6).filter(|_| random.below(2) == 0).collect();
        let epoch = step / 8 + random.below(2) as u64;
        match random.below(20) {
            0 => {
                let next = ControllerIncarnation(session.incarnation().0 + 1);
                session.begin_incarnation(next).unwrap();
                uploader.list = None;
            }
            1 => {
                session.invalidate_authority();
                uploader.list = None;
            }
            2..=5 => uploader.response(&mut session, &response(epoch, &list(&held))),
            _ => uploader.update(&mut session, &update(epoch, &list(&held))),
        }
        assert_eq!(session.assignment().map(|list| list.as_bytes()), uploader.list.as_deref());
    }
    assert!(uploader.updates > 100 && uploader.replays > 20, "{} {}", uploader.updates, uploader.replays);
}
