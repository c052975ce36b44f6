//! Names of segments, ranges and kinds.

use cuddrewyn::SegmentTopicError as E;
use cuddrewyn::*;

fn range(start: u32, end: u32) -> KeyRange {
    KeyRange::new(start, end).unwrap()
}

#[test]
fn names_built() {
    let mut out = [0xaa; 64];
    assert_eq!(
        canonical_segment_topic("topic://a/b/c", range(0, 0x7fff), SegmentId(0), &mut out),
        Ok("segment://a/b/c/0000-7fff-0")
    );
    assert_eq!(out[27], 0xaa);
    let most = canonical_segment_topic("topic://a/b/ü", KeyRange::FULL, SegmentId(u64::MAX), &mut out).unwrap();
    assert_eq!(most, "segment://a/b/ü/0000-ffff-18446744073709551615");
    assert_eq!(most.len(), "topic://a/b/ü".len() + SEGMENT_TOPIC_EXTRA);

    let mut short = [0xaa; 26];
    assert_eq!(canonical_segment_topic("topic://a/b/c", range(0, 0x7fff), SegmentId(0), &mut short), Err(E::ResultTooLong));
    assert_eq!(short, [0xaa; 26]);
    for parent in [
        "",
        "topic://",
        "topic://a/b",
        "topic://a/b/",
        "topic://a/b/c/",
        "topic://a/b/c?",
        "topic://a/b/c#",
        "topic://a?/b/c",
        "topic://a/#b/c",
        "persistent://a/b/c",
    ] {
        assert_eq!(
            canonical_segment_topic(parent, KeyRange::FULL, SegmentId(0), &mut out),
            Err(E::InvalidParent),
            "{parent}"
        );
    }
}

#[test]
fn names_read() {
    let source = SegmentSource::new(SegmentId(12), "segment://a/b/c/d/0010-00ff-12").unwrap();
    assert_eq!((source.segment_id(), source.key_range()), (SegmentId(12), range(0x10, 0xff)));
    assert_eq!(source.topic(), "segment://a/b/c/d/0010-00ff-12");
    let mut out = [0; 64];
    assert_eq!(source.parent_topic(&mut out), Ok("topic://a/b/c/d"));
    assert_eq!(parent_topic(source.topic(), &mut out), Ok("topic://a/b/c/d"));
    assert_eq!(parent_topic(source.topic(), &mut [0; 14]), Err(E::ResultTooLong));

    let mismatch = E::SegmentIdMismatch { segment_id: SegmentId(1), topic_id: SegmentId(2) };
    let rows = [
        ("", E::InvalidSegment),
        ("topic://a/b/c/0000-ffff-1", E::InvalidSegment),
        ("segment://x", E::InvalidSegment),
        ("segment://a/b/c", E::InvalidParent),
        ("segment://t/n//0000-ffff-1", E::InvalidParent),
        ("segment://t?/n/m/0000-ffff-1", E::InvalidParent),
        ("segment://t/n#/m/0000-ffff-1", E::InvalidParent),
        ("segment://t/n/m/0000-ffff-1?", E::InvalidSegment),
        ("segment://a/b/c/0000-ffff", E::InvalidSegment),
        ("segment://a/b/c/0000-FFFF-1", E::InvalidSegment),
        ("segment://a/b/c/0000-ffff-01", E::InvalidSegment),
        ("segment://a/b/c/0000-ffff-18446744073709551616", E::InvalidSegment),
        ("segment://a/b/c/ffff-0000-1", E::InvalidRange(KeyRangeError::Reversed { start: 0xffff, end: 0 })),
        ("segment://a/b/c/0000-ffff-2", mismatch),
    ];
    for (topic, refusal) in rows {
        assert_eq!(SegmentSource::new(SegmentId(1), topic), Err(refusal), "{topic}");
        if refusal != mismatch {
            assert_eq!(parent_topic(topic, &mut out), Err(refusal), "{topic}");
        }
    }
}

#[test]
fn a_segments_name_and_source() {
    let list = b"\0\0\0\0\0\0\0\x03\0\x01\0\0\0\0\0\0\0\x05\0\0\x7f\xff\0\0";
    let segment = ConsumerAssignment::from_bytes(list).unwrap().segments().next().unwrap();
    let mut out = [0; 64];
    assert_eq!(segment.segment_topic("topic://a/b/c", &mut out), Ok("segment://a/b/c/0000-7fff-5"));
    let source = segment.source("topic://a/b/c", &mut out).unwrap();
    assert_eq!((source.topic(), source.segment_id()), ("segment://a/b/c/0000-7fff-5", SegmentId(5)));
    assert_eq!(segment.source("a", &mut out), Err(E::InvalidParent));
}

#[test]
fn ranges() {
    assert_eq!(KeyRange::new(65_536, 70_000), Err(KeyRangeError::StartOutOfBounds { start: 65_536 }));
    assert_eq!(KeyRange::new(9, 70_000), Err(KeyRangeError::EndOutOfBounds { end: 70_000 }));
    assert_eq!(KeyRange::try_from((9, 3)), Err(KeyRangeError::Reversed { start: 9, end: 3 }));
    assert_eq!(KeyRange::new(u32::MAX, u32::MAX), Err(KeyRangeError::StartOutOfBounds { start: u32::MAX }));
    assert_eq!(range(MIN_HASH, MAX_HASH), KeyRange::FULL);
    assert_eq!((KeyRange::FULL.len(), range(4, 4).len(), range(4, 9).is_empty()), (65_536, 1, false));
    assert_eq!([3, 4, 9, 10, u32::MAX].map(|hash| range(4, 9).contains(hash)), [false, true, true, false, false]);
    assert!(range(4, 9).contains_range(range(4, 9)) && !range(4, 9).contains_range(range(4, 10)));
    assert!(range(4, 9).is_adjacent_to(range(10, 11)) && range(10, 11).is_adjacent_to(range(4, 9)));
    assert!(!range(4, 9).is_adjacent_to(range(9, 11)) && !range(4, 9).is_adjacent_to(range(11, 11)));
    assert!(!KeyRange::FULL.is_adjacent_to(KeyRange::FULL));
}

#[cfg(feature = "alloc")]
#[test]
fn ranges_as_text() {
    assert_eq!(range(10, 0xabcd).to_hex_string(), "000a-abcd");
}

#[test]
fn kinds_and_ids() {
    use ScalableConsumerType::{Checkpoint, Stream};
    assert_eq!(
        [-1, 0, 1, 2, i32::MIN, i32::MAX].map(ScalableConsumerType::from_pb_i32),
        [Stream, Stream, Checkpoint, Stream, Stream, Stream]
    );
    assert_eq!([Stream, Checkpoint].map(ScalableConsumerType::to_pb_i32), [0, 1]);
    assert_eq!(ScalableConsumerType::default(), Stream);
    assert_eq!((SegmentId(5).to_string(), ControllerIncarnation(6).to_string()), ("5".into(), "6".into()));
}
