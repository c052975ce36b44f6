//! The topics watch.
#![cfg(feature = "watch")]

mod messages;

use cuddrewyn::TopicsWatchError as E;
use cuddrewyn::*;
use messages::*;

fn topics(topics: Topics<'_>) -> Vec<&str> {
    topics.collect()
}

/// A set as it is packed.
fn packed(topics: &[&str]) -> Vec<u8> {
    topics.iter().flat_map(|topic| [&(topic.len() as u16).to_be_bytes()[..], topic.as_bytes()].concat()).collect()
}

#[test]
fn snapshots_and_diffs() {
    let (mut buffer, mut out) = ([0xaa; 64], [0xaa; 64]);
    let mut watch = ScalableTopicsWatch::new(5, "tenant/ns", &mut buffer);
    assert_eq!((watch.watch_id(), watch.namespace(), watch.topics().count()), (5, "tenant/ns", 0));

    let change = watch.handle_update(&snapshot(5, &["b", "a", "b", "ü"]), &mut out).unwrap();
    assert!(matches!(change, TopicsChange::Snapshot { topics: set } if topics(set) == ["a", "b", "ü"]));
    assert_eq!(topics(watch.topics()), ["a", "b", "ü"]);
    assert_eq!(out[11], 0xaa);

    let message = diff(5, &["c", "b", "c", "ü"], &["b", "x", "a"]);
    let TopicsChange::Diff { added, removed } = watch.handle_update(&message, &mut out).unwrap() else {
        panic!("no diff");
    };
    // "b" was taken out and put back; "x" was not in the set, "ü" was.
    assert_eq!((topics(added), topics(removed)), (vec!["b", "c"], vec!["a", "b"]));
    assert_eq!(topics(watch.topics()), ["b", "c", "ü"]);

    let change = watch.handle_update(&diff(5, &["c"], &["x"]), &mut out).unwrap();
    assert!(matches!(change, TopicsChange::Diff { added, removed } if added.count() + removed.count() == 0));
    let change = watch.handle_update(&snapshot(5, &[]), &mut out).unwrap();
    assert_eq!(change, TopicsChange::Snapshot { topics: Topics::default() });
    assert_eq!(watch.topics().count(), 0);
}

/// The last of the two events wins; the same one again, with the other not between, is merged.
#[test]
fn events_that_come_again() {
    let (mut buffer, mut out) = ([0xaa; 64], [0xaa; 64]);
    let mut watch = ScalableTopicsWatch::new(5, "ns", &mut buffer);
    let message = [snapshot(5, &["b"]), snapshot(5, &["c", "a"])].concat();
    let change = watch.handle_update(&message, &mut out).unwrap();
    assert!(matches!(change, TopicsChange::Snapshot { topics: set } if topics(set) == ["a", "b", "c"]));
    let message = [snapshot(5, &["x"]), diff(5, &["d"], &["a"]), diff(5, &[], &["b"])].concat();
    let change = watch.handle_update(&message, &mut out).unwrap();
    assert!(
        matches!(change, TopicsChange::Diff { added, removed } if (topics(added), topics(removed)) == (vec!["d"], vec!["a", "b"]))
    );
    let long = "x".repeat(65_536);
    let message = [snapshot(5, &["c"]), diff(5, &[&long], &[]), snapshot(5, &["y"])].concat();
    watch.handle_update(&message, &mut out).unwrap();
    assert_eq!(topics(watch.topics()), ["y"]);
    assert_eq!(
        watch.handle_update(&[snapshot(5, &["z"]), number(1, 6)].concat(), &mut out).unwrap_err(),
        E::WatchMismatch { got: 6, expected: 5 }
    );
}

#[test]
fn a_watch_survives_a_restart() {
    let mut buffer = [0xaa; 32];
    let mut watch = ScalableTopicsWatch::new(5, "ns", &mut buffer);
    watch.handle_update(&snapshot(5, &["b", "a"]), &mut [0; 32]).unwrap();
    let (lent, used) = watch.into_parts();
    assert_eq!((&lent[..used], &lent[used..]), (&packed(&["a", "b"])[..], &[0xaa; 26][..]));
    let mut saved = lent.to_vec();
    let watch = ScalableTopicsWatch::from_parts(5, "ns", &mut saved, used).unwrap();
    assert_eq!(topics(watch.topics()), ["a", "b"]);
    assert_eq!(format!("{watch:?}"), "ScalableTopicsWatch { watch_id: 5, namespace: \"ns\", topics: [\"a\", \"b\"], .. }");
}

#[test]
fn sets_that_are_malformed() {
    let sets = [packed(&["b", "a"]), packed(&["a", "a"]), vec![0], vec![0, 2, b'a'], vec![0, 1, 0xff]];
    for set in &sets {
        let refusal = ScalableTopicsWatch::from_parts(5, "ns", &mut set.clone(), set.len()).unwrap_err();
        assert_eq!(refusal, E::MalformedSet);
    }
    let mut set = packed(&["", "a"]);
    assert_eq!(ScalableTopicsWatch::from_parts(5, "ns", &mut set, 6).unwrap_err(), E::MalformedSet);
    assert_eq!(ScalableTopicsWatch::from_parts(5, "ns", &mut set, usize::MAX).unwrap_err(), E::MalformedSet);
    assert!(ScalableTopicsWatch::from_parts(5, "ns", &mut set, 5).is_ok());
    assert!(ScalableTopicsWatch::from_parts(5, "ns", &mut [], 0).is_ok());
}

/// What a watch of the set "m" in a buffer of 16 bytes refuses; also that it changes nothing.
fn refused<'m>(message: &'m [u8], room: usize) -> E<'m> {
    let (mut buffer, mut out) = ([0xaa; 16], vec![0xaa; room]);
    let mut watch = ScalableTopicsWatch::new(5, "ns", &mut buffer);
    watch.handle_update(&snapshot(5, &["m"]), &mut [0; 16]).unwrap();
    let refusal = watch.handle_update(message, &mut out).unwrap_err();
    assert_eq!(topics(watch.topics()), ["m"]);
    assert!(buffer[3..].iter().chain(&out).all(|byte| *byte == 0xaa));
    refusal
}

#[test]
fn updates_that_are_not_taken() {
    assert_eq!(refused(b"\xff", 64), E::InvalidWireFormat);
    assert_eq!(refused(b"\x0d\0\0\0\0", 64), E::WrongWireType);
    // A topic that is not UTF-8, in an event that another replaces.
    assert_eq!(refused(&[snapshot(5, &[]), b"\x1a\x03\x0a\x01\xff\x12\x00".to_vec()].concat(), 64), E::InvalidUtf8);
    assert_eq!(refused(b"\x12\x00", 64), E::MissingField);
    assert_eq!(refused(b"\x08\x05\x12\x03\x0a\x01\xff", 64), E::InvalidUtf8);
    assert_eq!(refused(&snapshot(6, &[]), 64), E::WatchMismatch { got: 6, expected: 5 });
    assert_eq!(refused(b"\x08\x05", 64), E::Empty { watch_id: 5 });
    assert_eq!(refused(b"\x08\x05\x20\x03\x2a\x02no", 64), E::Broker { code: 3, message: "no" });
    assert_eq!(refused(b"\x08\x05\x20\x03", 64), E::Broker { code: 3, message: "" });
    assert_eq!(refused(&snapshot(5, &["123456789", "abcdef"]), 64), E::SetTooLong);
    assert_eq!(refused(&diff(5, &[&"x".repeat(14)], &[]), 64), E::SetTooLong);
    assert_eq!(refused(&diff(5, &[], &[&"x".repeat(65_536)]), 64), E::SetTooLong);
    assert_eq!(refused(&snapshot(5, &["abc"]), 5), E::ResultTooLong);
    assert_eq!(refused(&diff(5, &["abc"], &["m"]), 12), E::ResultTooLong);
    // An event outranks an error code.
    let both = [snapshot(5, &["abc"]), number(4, 3)].concat();
    assert_eq!(refused(&both, 5), E::ResultTooLong);
}

#[test]
fn texts_and_numbers() {
    let reply = raw::Reply { answer: 3, number: 40, ..raw::Reply::default() };
    let rows: &[(E<'_>, u8, &str)] = &[
        (E::InvalidWireFormat, 3, "the message is not in the Protocol Buffers wire format"),
        (E::WrongWireType, 4, "a field of the message has the wrong wire type"),
        (E::MissingField, 6, "a required field of the message is missing"),
        (E::InvalidUtf8, 7, "a text is not UTF-8"),
        (E::Broker { code: -3, message: "no" }, 16, "broker rejected the scalable-topics watch (code -3): no"),
        (E::Empty { watch_id: 5 }, 17, "watch update for 5 carried no event"),
        (E::ResultTooLong, 21, "the result does not fit the output"),
        (E::WatchMismatch { got: 6, expected: 5 }, 29, "watch update for 6 does not match this watch 5"),
        (E::MalformedSet, 30, "the topic set is malformed"),
        (E::SetTooLong, 31, "the topic set does not fit its buffer, or a topic is longer than 65535 bytes"),
        (E::Unknown(reply), 40, "answer 3 with number 40 is not known to these bindings"),
    ];
    for (error, number, text) in rows {
        assert_eq!((error.number(), &error.to_string()[..]), (*number, *text));
    }
}

/// Random updates against a set of the standard library.
#[test]
fn a_model_keeps_up() {
    let mut random = Random(0x5bd1_e995_1234_5678);
    let (mut buffer, mut out) = ([0; 256], [0; 512]);
    let mut watch = ScalableTopicsWatch::new(1, "ns", &mut buffer);
    let mut model = std::collections::BTreeSet::new();
    let names = ["", "a", "aa", "ab", "b", "topic://t/n/x", "topic://t/n/y", "é"];
    for _ in 0..2_000 {
        let mut pick = || (0..random.below(6)).map(|_| names[random.below(8)]).collect::<Vec<_>>();
        let (first, second) = (pick(), pick());
        if random.below(5) == 0 {
            model = first.iter().copied().collect();
            watch.handle_update(&snapshot(1, &first), &mut out).unwrap();
        } else {
            let mut gone: Vec<_> = second.iter().copied().filter(|topic| model.remove(topic)).collect();
            let mut new: Vec<_> = first.iter().copied().filter(|topic| model.insert(topic)).collect();
            gone.sort_unstable();
            new.sort_unstable();
            let message = diff(1, &first, &second);
            let TopicsChange::Diff { added, removed } = watch.handle_update(&message, &mut out).unwrap() else {
                panic!("no diff");
            };
            assert_eq!((topics(added), topics(removed)), (new, gone));
        }
        assert_eq!(topics(watch.topics()), model.iter().copied().collect::<Vec<_>>());
    }
}

#[test]
fn random_sets_and_messages() {
    let mut random = Random(0x1111_2222_3333_4444);
    let mut taken = 0;
    for _ in 0..20_000 {
        let length = random.below(12);
        let mut set = random.bytes(length);
        for byte in &mut set {
            *byte = [0, 0, 1, 2, b'a', b'b', 0xff][usize::from(*byte) % 7];
        }
        let Ok(mut watch) = ScalableTopicsWatch::from_parts(5, "ns", &mut set, length) else {
            continue;
        };
        taken += 1;
        let mut message = diff(5, &["a"], &["b"]);
        let place = random.below(message.len());
        message[place] = random.next() as u8;
        let change = watch.handle_update(&message, &mut [0; 64]).map(|change| format!("{change:?}"));
        let _ = change.map_err(|refusal| refusal.to_string());
        let _ = format!("{watch:?}");
    }
    assert!(taken > 100, "{taken}");
}
