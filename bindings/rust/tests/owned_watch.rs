//! The topics watch that owns its set, against the one over a lent buffer.
#![cfg(all(feature = "alloc", feature = "watch"))]

mod messages;

use cuddrewyn::owned::{ScalableTopicsWatch, TopicsChange, TopicsWatchError as E};
use messages::*;

fn texts(topics: &[&str]) -> Vec<String> {
    topics.iter().map(|topic| (*topic).to_owned()).collect()
}

#[test]
fn snapshots_and_diffs() {
    let mut watch = ScalableTopicsWatch::new(5, "a/b");
    assert_eq!((watch.watch_id(), watch.namespace(), watch.topics()), (5, "a/b", vec![]));
    let change = watch.handle_update(&snapshot(5, &["c", "a", "b", "a"])).unwrap();
    assert_eq!(change, TopicsChange::Snapshot { topics: texts(&["a", "b", "c"]) });
    let change = watch.handle_update(&diff(5, &["d", "b"], &["b", "a", "x"])).unwrap();
    assert_eq!(change, TopicsChange::Diff { added: texts(&["b", "d"]), removed: texts(&["a", "b"]) });
    assert_eq!(watch.topics(), ["b", "c", "d"]);
    assert!(watch.topics_view().eq(["b", "c", "d"]));
    assert_eq!(format!("{watch:?}"), r#"ScalableTopicsWatch { watch_id: 5, namespace: "a/b", topics: ["b", "c", "d"] }"#);

    let kept = ScalableTopicsWatch::from_bytes(5, "a/b", watch.as_bytes().to_vec()).unwrap();
    assert_eq!(kept.topics(), watch.clone().topics());
    assert_eq!(ScalableTopicsWatch::from_bytes(5, "a/b", vec![0, 9]).unwrap_err(), E::MalformedSet);
}

#[test]
fn refusals_leave_the_set() {
    let mut watch = ScalableTopicsWatch::new(5, "a/b");
    watch.handle_update(&snapshot(5, &["a"])).unwrap();
    let rejection = [number(1, 5), number(4, 3), part(5, "no")].concat();
    assert_eq!(watch.handle_update(&rejection), Err(E::Broker { code: 3, message: "no".to_owned() }));
    assert_eq!(watch.handle_update(&snapshot(6, &["b"])), Err(E::WatchMismatch { got: 6, expected: 5 }));
    assert_eq!(watch.handle_update(&number(1, 5)), Err(E::Empty { watch_id: 5 }));
    assert_eq!(watch.handle_update(b"\xff"), Err(E::InvalidWireFormat));
    assert_eq!(watch.handle_update(&snapshot(5, &["b", &"x".repeat(65_536)])), Err(E::SetTooLong));
    assert_eq!(watch.topics(), ["a"]);
    // The longest topic there is fits, and so does one that is empty.
    let longest = "x".repeat(65_535);
    watch.handle_update(&diff(5, &[&longest, ""], &[])).unwrap();
    assert_eq!(watch.topics(), ["", "a", &longest]);
}

/// Sets of any sizes: the same answers as over a buffer and an output that are long enough.
#[test]
fn random_runs() {
    let mut random = Random(21);
    let names: Vec<String> = (0..40).map(|at| "t".repeat(at % 7) + &at.to_string()).collect();
    for _ in 0..40 {
        let (mut buffer, mut out) = (vec![0; 4_096], vec![0; 4_096]);
        let mut lent = cuddrewyn::ScalableTopicsWatch::new(5, "a/b", &mut buffer);
        let mut watch = ScalableTopicsWatch::new(5, "a/b");
        for _ in 0..30 {
            let mut some = || -> Vec<&str> { (0..random.below(12)).map(|_| &names[random.below(40)][..]).collect() };
            let (added, removed) = (some(), some());
            let message = if random.below(4) == 0 { snapshot(5, &added) } else { diff(5, &added, &removed) };
            let given = lent.handle_update(&message, &mut out).unwrap().into_owned();
            assert_eq!(watch.handle_update(&message), Ok(given));
            assert!(watch.topics_view().eq(lent.topics()));
        }
    }
}
