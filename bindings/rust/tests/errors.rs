//! Every refusal: its number, its text, and a call that gives it.

mod messages;

use std::error::Error;

use cuddrewyn::AssignmentError as E;
use cuddrewyn::*;
use messages::*;

const SEVEN: SegmentId = SegmentId(7);
const REVERSED: KeyRangeError = KeyRangeError::Reversed { start: 9, end: 3 };

#[test]
fn texts_and_numbers_of_the_original() {
    let (one, two) = (ControllerIncarnation(1), ControllerIncarnation(2));
    let rows: &[(E<'_>, u8, &str)] = &[
        (
            E::InvalidRange { segment_id: SEVEN, source: REVERSED },
            9,
            "assignment segment 7 has an invalid range: hash range end 3 precedes start 9",
        ),
        (
            E::InvalidBucketRange { segment_id: SEVEN, index: 2, start: -1, end: 5 },
            10,
            "assignment segment 7 has invalid bucket range 2: [-1, 5]",
        ),
        (E::OverlappingBucketRanges { segment_id: SEVEN }, 11, "assignment segment 7 has overlapping bucket ranges"),
        (E::SegmentTopic(SegmentTopicError::InvalidParent), 12, "invalid canonical scalable topic"),
        (E::AttachmentMismatch { segment_id: SEVEN }, 13, "assignment segment 7 names another topic than expected"),
        (E::DuplicateSegment { segment_id: SEVEN }, 14, "assignment repeats segment 7"),
        (E::Broker { code: -4, message: "busy" }, 16, "broker rejected the scalable subscribe (code -4): busy"),
        (E::Empty { request_id: 5 }, 17, "subscribe response for request 5 carried neither an assignment nor an error"),
        (
            E::IncarnationMismatch { got: one, expected: two },
            23,
            "assignment incarnation 1 does not match current incarnation 2",
        ),
        (E::ConsumerMismatch { got: 8, expected: 7 }, 24, "assignment for consumer 8 does not match this session 7"),
        (E::NonAdvancingIncarnation { got: one, prev: two }, 25, "controller incarnation 1 did not advance beyond 2"),
        (
            E::CrossIncarnationEpochRegression { got: 3, floor: 4 },
            26,
            "assignment layout epoch 3 is below reconnect floor 4",
        ),
        (E::StaleEpoch { got: 3, prev: 4 }, 27, "assignment layout epoch regressed: got 3 below 4"),
        (E::PreBaselineBufferFull { max: 16 }, 28, "pre-baseline assignment buffer reached its maximum of 16 updates"),
    ];
    for (error, number, text) in rows {
        assert_eq!((error.number(), &error.to_string()[..]), (*number, *text));
        owned_is_the_same(*error);
    }
}

/// The form with a text of its own has the same number, shows the same, and has the same source.
fn owned_is_the_same(error: E<'_>) {
    #[cfg(feature = "alloc")]
    {
        let owned: owned::AssignmentError = error.into();
        assert_eq!((owned.number(), owned.to_string()), (error.number(), error.to_string()));
        assert_eq!(format!("{owned:?}"), format!("{error:?}"));
        let source = |error: &dyn Error| error.source().map(ToString::to_string);
        assert_eq!(source(&owned), source(&error));
    }
    #[cfg(not(feature = "alloc"))]
    let _ = error;
}

#[test]
fn texts_and_numbers_of_our_own() {
    let reply = raw::Reply { answer: 9, number: 77, ..raw::Reply::default() };
    let rows: &[(E<'_>, u8, &str)] = &[
        (E::StoreTooShort, 1, "the store is shorter than 6144 bytes"),
        (E::OutputTooShort, 2, "the output is shorter than 3210 bytes"),
        (E::InvalidWireFormat, 3, "the message is not in the Protocol Buffers wire format"),
        (E::WrongWireType, 4, "a field of the message has the wrong wire type"),
        (E::MissingField, 6, "a required field of the message is missing"),
        (E::InvalidUtf8, 7, "a text is not UTF-8"),
        (E::IdentityTooLong, 8, "the texts of the registration are longer than 2041 bytes together"),
        (E::AssignmentTooLong, 15, "the packed assignment is longer than 2048 bytes"),
        (E::MalformedInput, 20, "the assignment, delta or segment is malformed"),
        (E::ResultTooLong, 21, "the result does not fit the output"),
        (E::MalformedStore, 22, "the record or a slot of the store is malformed"),
        (E::KeyTooLong, 32, "the key is longer than 65535 bytes"),
        (E::UnknownReader, 33, "the number of the reader is above 7"),
        (
            E::BucketOutsideSegment { segment_id: SEVEN, index: 2 },
            34,
            "assignment segment 7 has bucket range 2 outside its own range",
        ),
        (
            E::InvalidContract,
            35,
            "the contract has a span that ends before it starts, a window beyond the week or a count too large",
        ),
        (E::ChargeTooLarge, 36, "the charge is beyond 64 bits, or the remainder is not below 235929600"),
        (E::InvalidLog, 37, "the length of the log is no multiple of 9, or a filling bit is set"),
        (E::InvalidWindow, 38, "the lost count is above 65535, or the window points beyond its 256 places"),
        (E::MalformedSave, 64, "the saved session is cut short, damaged or none"),
        (E::Unknown(reply), 77, "answer 9 with number 77 is not known to these bindings"),
    ];
    for (error, number, text) in rows {
        assert_eq!((error.number(), &error.to_string()[..]), (*number, *text));
        assert!(error.source().is_none());
        owned_is_the_same(*error);
    }
}

#[test]
fn texts_and_numbers_of_names_and_ranges() {
    type T = SegmentTopicError;
    let mismatch = T::SegmentIdMismatch { segment_id: SEVEN, topic_id: SegmentId(8) };
    let reply = raw::Reply { answer: 3, number: 0, ..raw::Reply::default() };
    let rows: &[(T, u8, &str)] = &[
        (T::InvalidRange(REVERSED), 9, "invalid segment topic range: hash range end 3 precedes start 9"),
        (T::InvalidParent, 12, "invalid canonical scalable topic"),
        (T::InvalidSegment, 18, "invalid canonical segment topic"),
        (mismatch, 19, "segment topic names id 8, not 7"),
        (T::ResultTooLong, 21, "the result does not fit the output"),
        (T::Unknown(reply), 0, "answer 3 with number 0 is not known to these bindings"),
    ];
    for (error, number, text) in rows {
        assert_eq!((error.number(), &error.to_string()[..]), (*number, *text));
    }
    let rows = [
        (KeyRangeError::StartOutOfBounds { start: 65_536 }, "hash range start 65536 is outside 0..=65535"),
        (KeyRangeError::EndOutOfBounds { end: 70_000 }, "hash range end 70000 is outside 0..=65535"),
        (REVERSED, "hash range end 3 precedes start 9"),
    ];
    for (error, text) in rows {
        assert_eq!((error.number(), &error.to_string()[..]), (9, text));
    }
}

#[test]
fn sources() {
    let of_segment = E::InvalidRange { segment_id: SEVEN, source: REVERSED };
    let of_name = SegmentTopicError::from(REVERSED);
    assert_eq!(of_segment.source().unwrap().to_string(), REVERSED.to_string());
    assert_eq!(of_name.source().unwrap().to_string(), REVERSED.to_string());
    assert_eq!(E::from(of_name).source().unwrap().to_string(), REVERSED.to_string());
    assert!(E::from(SegmentTopicError::InvalidParent).source().is_none());
}

fn open(topic: &str, store: &'static mut [u8]) -> ScalableConsumerSession<'static> {
    let kind = ScalableConsumerType::Stream;
    ScalableConsumerSession::new(7, topic, "", "", kind, ControllerIncarnation(1), store).unwrap()
}

fn store() -> &'static mut [u8] {
    vec![0; MIN_STORE].leak()
}

/// What an update is refused with, by a session registered at epoch 5; also that the refusal changes nothing.
fn refused(message: &[u8]) -> E<'static> {
    let mut session = open(TOPIC, store());
    session.handle_subscribe_response(b"\x08\x01\x22\x02\x08\x05").unwrap();
    let (record, before, mut out) = (session.record(), session.store().to_vec(), [0xaa; MIN_OUTPUT]);
    let refusal = session.handle_assignment_update(message, &mut out).unwrap_err();
    assert_eq!((session.record(), session.store(), out), (record, &before[..], [0xaa; MIN_OUTPUT]));
    refusal
}

#[test]
fn messages_that_are_not_read() {
    assert_eq!(refused(b"\xff"), E::InvalidWireFormat);
    assert_eq!(refused(b"\x0b"), E::InvalidWireFormat);
    assert_eq!(refused(b"\x0d\x00\x00\x00\x00"), E::WrongWireType);
    // A field missing is told when the whole message has been read: an empty assignment before a field of the wrong type.
    assert_eq!(refused(b"\x08\x07\x12\x00\x0a\x00"), E::WrongWireType);
    assert_eq!(refused(b"\x08\x07\x08\x07"), E::MissingField);
    assert_eq!(refused(b"\x08\x07"), E::MissingField);
    assert_eq!(refused(b""), E::MissingField);
    let mut message = update(5, &[segment_named(1, 0, 1, "x", &[])]);
    *message.last_mut().unwrap() = 0xff;
    assert_eq!(refused(&message), E::InvalidUtf8);
}

#[test]
fn lists_that_are_not_taken() {
    let push = |segments: &[Vec<u8>]| refused(&update(5, segments));
    let range = |start, end| push(&[segment(7, start, end, &[])]);
    let bucket = |start, end| push(&[segment(7, 0, 9, &[(0, 1), (start, end)])]);
    let bad = |source| E::InvalidRange { segment_id: SEVEN, source };
    assert_eq!(range(65_536, 0), bad(KeyRangeError::StartOutOfBounds { start: 65_536 }));
    assert_eq!(range(0, u32::MAX), bad(KeyRangeError::EndOutOfBounds { end: u32::MAX }));
    assert_eq!(range(9, 3), bad(REVERSED));
    for (start, end) in [(-1, 5), (5, -1), (9, 3), (i32::MIN, i32::MAX), (0, 65_536)] {
        assert_eq!(bucket(start, end), E::InvalidBucketRange { segment_id: SEVEN, index: 1, start, end });
    }
    assert_eq!(bucket(1, 2), E::OverlappingBucketRanges { segment_id: SEVEN });
    // Directly behind 11, and before 13.
    assert_eq!(bucket(1, 10), E::OverlappingBucketRanges { segment_id: SEVEN });
    for (start, end) in [(9, 10), (10, 10), (2, 65_535)] {
        assert_eq!(bucket(start, end), E::BucketOutsideSegment { segment_id: SEVEN, index: 1 });
    }
    assert_eq!(push(&[segment(7, 3, 9, &[(2, 3)])]), E::BucketOutsideSegment { segment_id: SEVEN, index: 0 });
    assert_eq!(push(&[segment_named(7, 3, 9, "x", &[(2, 3)])]), E::BucketOutsideSegment { segment_id: SEVEN, index: 0 });
    assert_eq!(push(&[segment_named(7, 0, 9, &name(8, 0, 9), &[])]), E::AttachmentMismatch { segment_id: SEVEN });
    assert_eq!(push(&[segment(7, 0, 9, &[]), segment(7, 0, 8, &[])]), E::DuplicateSegment { segment_id: SEVEN });
    let long = (0..146).map(|id| segment(id, 0, 9, &[])).collect::<Vec<_>>();
    assert_eq!(push(&long), E::AssignmentTooLong);
    assert_eq!(refused(&update(4, &[])), E::StaleEpoch { got: 4, prev: 5 });
    assert_eq!(refused(&update_for(u64::MAX, 6, &[])), E::ConsumerMismatch { got: u64::MAX, expected: 7 });
}

#[test]
fn parents_that_are_none() {
    for topic in ["persistent://a/b/c", "topic://t?/n/m", "topic://t/n#/m"] {
        let mut session = open(topic, store());
        let message = response(1, &[segment(7, 0, 9, &[])]);
        let refusal = session.handle_subscribe_response(&message).unwrap_err();
        assert_eq!(refusal, E::SegmentTopic(SegmentTopicError::InvalidParent));
        // Without a segment the parent is not looked at.
        assert!(session.handle_subscribe_response(b"\x08\x01\x22\x02\x08\x02").is_ok());
    }
}

#[test]
fn responses_that_are_not_taken() {
    let mut session = open(TOPIC, store());
    assert_eq!(session.handle_subscribe_response(b"\x08\x2a"), Err(E::Empty { request_id: 42 }));
    assert_eq!(session.handle_subscribe_response(b""), Err(E::MissingField));
    assert_eq!(session.handle_subscribe_response(b"\x08\x01\x10\x05\x1a\x02no"), Err(E::Broker { code: 5, message: "no" }));
    let refusal = session.handle_subscribe_response_for(ControllerIncarnation(u64::MAX), b"\x08\x2a");
    let (got, expected) = (ControllerIncarnation(u64::MAX), ControllerIncarnation(1));
    assert_eq!(refusal, Err(E::IncarnationMismatch { got, expected }));
}

#[test]
fn memory_that_is_too_short() {
    let named = |length: usize, store: &mut [u8]| {
        let (kind, name) = (ScalableConsumerType::Stream, "n".repeat(length));
        ScalableConsumerSession::new(7, TOPIC, "", &name, kind, ControllerIncarnation(1), store)
            .map(|session| session.record())
    };
    assert_eq!(named(0, &mut [0; MIN_STORE - 1]), Err(E::StoreTooShort));
    assert_eq!(named(0, &mut []), Err(E::StoreTooShort));
    assert!(named(2_041 - TOPIC.len(), &mut [0; MIN_STORE]).is_ok());
    assert_eq!(named(2_042 - TOPIC.len(), &mut [0; MIN_STORE]), Err(E::IdentityTooLong));

    let mut session = open(TOPIC, store());
    let (push, mut out) = (update(5, &[]), [0; MIN_OUTPUT - 1]);
    assert_eq!(session.handle_assignment_update(&push, &mut out), Err(E::OutputTooShort));
    assert_eq!(session.handle_assignment_update(&push, &mut []), Err(E::OutputTooShort));
    assert_eq!(session.take_replayed_update(&mut out), Err(E::OutputTooShort));
    assert_eq!(session.for_each_replayed_update(&mut out, |_| ()), Err(E::OutputTooShort));
}
